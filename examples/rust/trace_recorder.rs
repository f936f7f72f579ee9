//! Records what happens between a `futures::Stream` and whoever polls it, as a trace of format 2. It needs the crate
//! `futures-core` alone. A poll asks for one item, so it is a request; an item is `next`, the end is `complete`, and a
//! stream that is dropped before its end is cancelled.

use futures_core::Stream;
use std::collections::HashMap;
use std::pin::Pin;
use std::sync::{Arc, Mutex};
use std::task::{Context, Poll};
use std::thread::{self, ThreadId};

/// One recorder for all streams of a run; its clones record into the same trace.
#[derive(Clone, Default)]
pub struct TraceRecorder(Arc<Mutex<Trace>>);

#[derive(Default)]
struct Trace {
    lines: String,
    workers: HashMap<ThreadId, usize>,
    subscribers: u32,
}

impl TraceRecorder {
    /// The same stream, recorded. Whoever polls it is a subscriber of its own, whose number is how many there were before.
    pub fn record<S: Stream>(&self, stream: S) -> Recorded<S> {
        let number = {
            let mut trace = self.0.lock().unwrap();
            trace.subscribers += 1;
            trace.subscribers - 1
        };
        let recorded = Recorded {
            stream: Box::pin(stream),
            recorder: self.clone(),
            number,
            asks: false,
            ended: false,
        };
        for event in ["subscribe", "on-subscribe", "exit"] {
            recorded.add(event, "");
        }
        recorded
    }

    /// The trace so far. At most 16 threads may have taken part.
    pub fn text(&self) -> String {
        let trace = self.0.lock().unwrap();
        assert!(trace.workers.len() <= 16, "a trace has at most 16 threads");
        format!("trace 2\n{}end\n", trace.lines)
    }
}

pub struct Recorded<S> {
    stream: Pin<Box<S>>,
    recorder: TraceRecorder,
    number: u32,
    /// A poll asked for an item that hasn't come yet.
    asks: bool,
    ended: bool,
}

impl<S> Recorded<S> {
    fn add(&self, event: &str, more: &str) {
        let mut trace = self.recorder.0.lock().unwrap();
        let next = trace.workers.len();
        let worker = *trace.workers.entry(thread::current().id()).or_insert(next);
        trace.lines += &format!("{worker} {event} {}{more}\n", self.number);
    }
}

impl<S: Stream> Stream for Recorded<S> {
    type Item = S::Item;

    fn poll_next(mut self: Pin<&mut Self>, context: &mut Context<'_>) -> Poll<Option<S::Item>> {
        if !self.asks {
            self.asks = true;
            self.add("request", " 1");
        }
        let polled = self.stream.as_mut().poll_next(context);
        match &polled {
            Poll::Pending => return polled,
            Poll::Ready(Some(_)) => {
                self.asks = false;
                self.add("next", "");
            }
            Poll::Ready(None) => {
                self.ended = true;
                self.add("complete", "");
            }
        }
        self.add("exit", "");
        polled
    }
}

impl<S> Drop for Recorded<S> {
    fn drop(&mut self) {
        if !self.ended {
            self.add("cancel", "");
        }
    }
}
