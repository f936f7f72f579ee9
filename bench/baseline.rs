//! What `bench_parts link` does, in plain Rust: a ring for one sender and one receiver, a word for the total of items
//! asked for, and a word of flags. All steps are sequentially consistent, as those of the link are.
use std::cell::UnsafeCell;
use std::mem::MaybeUninit;
use std::sync::atomic::{AtomicU64, Ordering::SeqCst};
use std::{env, process, thread};

const CAPACITY: usize = 64;

#[allow(dead_code)]
enum Signal {
    Next(u64),
    Complete,
    Error(u32),
}

#[repr(align(128))]
struct Apart<T>(T);

struct Link {
    slots: [UnsafeCell<MaybeUninit<Signal>>; CAPACITY],
    head: Apart<AtomicU64>,
    tail: Apart<AtomicU64>,
    asked: Apart<AtomicU64>,
    flags: AtomicU64,
}

unsafe impl Sync for Link {}

struct Up<'a> {
    link: &'a Link,
    tail: u64,
    head: u64,
    sent: u64,
    seen: u64,
}

struct Down<'a> {
    link: &'a Link,
    head: u64,
    tail: u64,
    asked: u64,
    taken: u64,
}

impl Up<'_> {
    fn look(&mut self) -> u64 {
        self.seen = self.link.asked.0.load(SeqCst);
        self.link.flags.load(SeqCst)
    }

    fn room(&self) -> u64 {
        self.seen - self.sent
    }

    fn send(&mut self, signal: Signal) -> Result<(), Signal> {
        if self.tail - self.head == CAPACITY as u64 {
            self.head = self.link.head.0.load(SeqCst);
            if self.tail - self.head == CAPACITY as u64 {
                return Err(signal);
            }
        }
        let item = matches!(signal, Signal::Next(_));
        let slot = &self.link.slots[self.tail as usize % CAPACITY];
        unsafe { (*slot.get()).write(signal) };
        self.tail += 1;
        self.link.tail.0.store(self.tail, SeqCst);
        self.sent += u64::from(item);
        Ok(())
    }
}

impl Down<'_> {
    fn ask(&mut self, n: u64) {
        self.asked = self.asked.saturating_add(n).min(i64::MAX as u64);
        self.link.asked.0.store(self.asked, SeqCst);
    }

    fn take(&mut self) -> Option<Signal> {
        if self.head == self.tail {
            self.tail = self.link.tail.0.load(SeqCst);
            if self.head == self.tail {
                return None;
            }
        }
        let slot = &self.link.slots[self.head as usize % CAPACITY];
        let item = matches!(unsafe { (*slot.get()).assume_init_ref() }, Signal::Next(_));
        if item && self.taken == self.asked {
            return None;
        }
        let signal = unsafe { (*slot.get()).assume_init_read() };
        self.head += 1;
        self.link.head.0.store(self.head, SeqCst);
        self.taken += u64::from(item);
        Some(signal)
    }
}

fn send_numbers(mut up: Up, count: u64, looks_always: bool) {
    let mut next = 0;
    while next < count {
        if looks_always || up.room() == 0 {
            up.look();
        }
        if up.room() > 0 && up.send(Signal::Next(next)).is_ok() {
            next += 1;
        } else {
            thread::yield_now();
        }
    }
    while up.send(Signal::Complete).is_err() {
        thread::yield_now();
    }
}

fn take_numbers(mut down: Down, first: u64, batch: u64) -> (u64, u64) {
    let mut in_order = 0;
    let mut since = 0;
    down.ask(first);
    loop {
        match down.take() {
            Some(Signal::Next(number)) => {
                if number == in_order {
                    in_order = number + 1;
                }
                since += 1;
                if since >= batch {
                    down.ask(since);
                    since = 0;
                }
            }
            Some(_) => return (in_order, down.taken),
            None => thread::yield_now(),
        }
    }
}

fn main() {
    let words: Vec<String> = env::args().collect();
    let (first, batch, looks_always) = match words.get(1).map(String::as_str) {
        Some("batches") => (64, 48, false),
        Some("single") => (64, 1, true),
        Some("lockstep") => (1, 1, false),
        _ => {
            eprintln!("usage: baseline batches|single|lockstep COUNT");
            process::exit(1);
        }
    };
    let count: u64 = words.get(2).and_then(|word| word.parse().ok()).unwrap_or(1_000_000);
    let link = Link {
        slots: [const { UnsafeCell::new(MaybeUninit::uninit()) }; CAPACITY],
        head: Apart(AtomicU64::new(0)),
        tail: Apart(AtomicU64::new(0)),
        asked: Apart(AtomicU64::new(0)),
        flags: AtomicU64::new(0),
    };
    let up = Up { link: &link, tail: 0, head: 0, sent: 0, seen: 0 };
    let down = Down { link: &link, head: 0, tail: 0, asked: 0, taken: 0 };
    let (in_order, taken) = thread::scope(|scope| {
        scope.spawn(|| send_numbers(up, count, looks_always));
        take_numbers(down, first, batch)
    });
    println!("{in_order} in order, {taken} taken, 0 remaining");
}
