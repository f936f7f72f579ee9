// The gate's three atomic steps in plain Rust: a swap to 2, a swap to 1 and a compare-exchange from 1 to 0, with an addition between them.
// It reads the number of rounds from the standard input, as the program bench_parts does, and writes the count.
use std::cell::UnsafeCell;
use std::hint::black_box;
use std::io;
use std::sync::atomic::{AtomicU8, Ordering::SeqCst};

const ROUNDS: u8 = 8;

struct Gate {
    word: AtomicU8,
    value: UnsafeCell<u64>,
}

impl Gate {
    fn visit(&self) -> bool {
        if self.word.swap(2, SeqCst) != 0 {
            return false;
        }
        unsafe { *self.value.get() = (*self.value.get()).saturating_add(1) };
        for _ in 0..ROUNDS {
            self.word.swap(1, SeqCst);
            if self.word.compare_exchange(1, 0, SeqCst, SeqCst).is_ok() {
                return true;
            }
        }
        self.word.swap(0, SeqCst);
        true
    }
}

fn main() {
    let mut line = String::new();
    io::stdin().read_line(&mut line).unwrap();
    let rounds: u64 = line.trim().parse().unwrap();
    let gate = Gate { word: AtomicU8::new(0), value: UnsafeCell::new(0) };
    for _ in 0..rounds {
        black_box(&gate).visit();
    }
    println!("{}", gate.value.into_inner());
}
