import java.util.concurrent.Flow.Publisher;
import java.util.concurrent.Flow.Subscriber;
import java.util.concurrent.Flow.Subscription;

/**
 * A publisher of the numbers from 1 to 3 with a mistake, recorded. Where nothing is left to send it completes, but it
 * doesn't remember that it has: a request that comes later makes it complete again. docs/CONFORMANCE.md reads the report
 * of its trace, from the first line to the fix.
 */
public final class CompletesTwice implements Publisher<Integer> {
    @Override
    public void subscribe(Subscriber<? super Integer> subscriber) {
        subscriber.onSubscribe(new Subscription() {
            private int next = 1;
            private boolean cancelled;

            @Override
            public void request(long count) {
                for (long sent = 0; sent < count && next <= 3 && !cancelled; sent++) {
                    subscriber.onNext(next++);
                }
                if (next > 3 && !cancelled) {
                    subscriber.onComplete();
                }
            }

            @Override
            public void cancel() {
                cancelled = true;
            }
        });
    }

    /** Requests two items three times, each time after the signals of the time before have returned. */
    public static void main(String[] args) {
        TraceRecorder recorder = new TraceRecorder();
        Subscription[] subscription = new Subscription[1];
        recorder.record(new CompletesTwice()).subscribe(new Subscriber<>() {
            @Override
            public void onSubscribe(Subscription given) {
                subscription[0] = given;
            }

            @Override
            public void onNext(Integer item) {}

            @Override
            public void onError(Throwable error) {}

            @Override
            public void onComplete() {}
        });
        for (int time = 0; time < 3; time++) {
            subscription[0].request(2);
        }
        System.out.print(recorder);
    }
}
