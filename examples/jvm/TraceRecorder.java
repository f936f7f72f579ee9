import java.util.IdentityHashMap;
import java.util.Map;
import java.util.concurrent.CountDownLatch;
import java.util.concurrent.ExecutorService;
import java.util.concurrent.Executors;
import java.util.concurrent.Flow.Publisher;
import java.util.concurrent.Flow.Subscriber;
import java.util.concurrent.Flow.Subscription;
import java.util.concurrent.SubmissionPublisher;
import java.util.concurrent.TimeUnit;
import java.util.function.Predicate;

/**
 * Records what happens between publishers and subscribers as a trace of format 2. Wrap a publisher, let subscribers
 * subscribe to the wrapper, and print the recorder when all is over. Each signal is recorded as it begins and as it
 * has returned, each call of a subscriber before it is passed on. A thread's number is that of its first event.
 */
public final class TraceRecorder {
    private final StringBuilder lines = new StringBuilder("trace 2\n");
    private final Map<Thread, Integer> workers = new IdentityHashMap<>();
    private final Map<Subscriber<?>, Recorded<?>> subscribers = new IdentityHashMap<>();
    private final Predicate<Throwable> isBadRequest;

    /** An IllegalArgumentException counts as the answer to a request of 0 or less, as rule 3.9 wants it. */
    public TraceRecorder() {
        this(error -> error instanceof IllegalArgumentException);
    }

    public TraceRecorder(Predicate<Throwable> isBadRequest) {
        this.isBadRequest = isBadRequest;
    }

    /** The same publisher, recorded. A subscriber that subscribes again keeps its number. */
    public <T> Publisher<T> record(Publisher<T> publisher) {
        return subscriber -> {
            Recorded<? super T> recorded = recorded(subscriber);
            add("subscribe " + recorded.number);
            publisher.subscribe(recorded);
        };
    }

    /** The trace so far. At most 16 threads may have taken part. */
    @Override
    public synchronized String toString() {
        if (workers.size() > 16) {
            throw new IllegalStateException(workers.size() + " threads; a trace has at most 16");
        }
        return lines + "end\n";
    }

    private synchronized void add(String event) {
        int worker = workers.computeIfAbsent(Thread.currentThread(), thread -> workers.size());
        lines.append(worker).append(' ').append(event).append('\n');
    }

    @SuppressWarnings("unchecked")
    private synchronized <T> Recorded<T> recorded(Subscriber<T> subscriber) {
        return (Recorded<T>) subscribers.computeIfAbsent(
                subscriber, key -> new Recorded<>(subscriber, subscribers.size()));
    }

    private final class Recorded<T> implements Subscriber<T> {
        private final Subscriber<T> subscriber;
        private final int number;
        private boolean subscribed;

        Recorded(Subscriber<T> subscriber, int number) {
            this.subscriber = subscriber;
            this.number = number;
        }

        private void signal(String name, String more, Runnable call) {
            add(name + ' ' + number + more);
            try {
                call.run();
            } finally {
                add("exit " + number);
            }
        }

        @Override
        public void onSubscribe(Subscription subscription) {
            String cancel = subscribed ? "cancel-new " : "cancel ";
            subscribed = true;
            signal("on-subscribe", "", () -> subscriber.onSubscribe(new Subscription() {
                @Override
                public void request(long n) {
                    add("request " + number + ' ' + n);
                    subscription.request(n);
                }

                @Override
                public void cancel() {
                    add(cancel + number);
                    subscription.cancel();
                }
            }));
        }

        @Override
        public void onNext(T item) {
            signal("next", "", () -> subscriber.onNext(item));
        }

        @Override
        public void onError(Throwable error) {
            signal("error", isBadRequest.test(error) ? " bad-request" : " user 0", () -> subscriber.onError(error));
        }

        @Override
        public void onComplete() {
            signal("complete", "", subscriber::onComplete);
        }
    }

    /** Records a publisher of the JDK that sends three items to a subscriber that requests one after the other. */
    public static void main(String[] args) throws InterruptedException {
        TraceRecorder recorder = new TraceRecorder();
        CountDownLatch ended = new CountDownLatch(1);
        ExecutorService executor = Executors.newSingleThreadExecutor();
        try (SubmissionPublisher<String> publisher = new SubmissionPublisher<>(executor, 16)) {
            recorder.record(publisher).subscribe(new Subscriber<>() {
                private Subscription subscription;

                @Override
                public void onSubscribe(Subscription subscription) {
                    this.subscription = subscription;
                    subscription.request(1);
                }

                @Override
                public void onNext(String item) {
                    subscription.request(1);
                }

                @Override
                public void onError(Throwable error) {
                    ended.countDown();
                }

                @Override
                public void onComplete() {
                    ended.countDown();
                }
            });
            for (String item : new String[] {"a", "b", "c"}) {
                publisher.submit(item);
            }
        }
        ended.await();
        executor.shutdown(); // and wait until the last signal has returned
        executor.awaitTermination(10, TimeUnit.SECONDS);
        System.out.print(recorder);
    }
}
