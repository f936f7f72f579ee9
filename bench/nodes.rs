//! The first cases of `graph.sh` in plain Rust, by hand: nodes behind trait objects, each with what was asked of it
//! and what it sent, and a subscriber that takes what it asked for. Nothing is counted in moves and nothing is proved.
//!
//! usage: nodes CASE COUNT ROUNDS, where CASE is range, map, filter, half or single
use std::{env, time::Instant};

#[allow(dead_code)]
enum Signal {
    Next(i64),
    Complete,
    Error(u32),
}

/// A node: it is asked for items, and gives its next signal where it has one.
trait Node {
    fn ask(&mut self, total: u64);
    fn pull(&mut self) -> Option<Signal>;
}

struct Range {
    next: i64,
    end: i64,
    asked: u64,
    sent: u64,
}

impl Node for Range {
    fn ask(&mut self, total: u64) {
        self.asked = total;
    }

    fn pull(&mut self) -> Option<Signal> {
        if self.next == self.end {
            return Some(Signal::Complete);
        }
        if self.sent == self.asked {
            return None;
        }
        let item = self.next;
        self.next += 1;
        self.sent += 1;
        Some(Signal::Next(item))
    }
}

/// `map` with a function of a number, and `filter` with a test of a number.
enum Operator {
    Map(u16),
    Filter(u16, u64),
}

struct Plain {
    below: Box<dyn Node>,
    operator: Operator,
    asked: u64,
    sent: u64,
}

impl Node for Plain {
    fn ask(&mut self, total: u64) {
        self.asked = total;
        match self.operator {
            Operator::Map(_) => self.below.ask(total),
            Operator::Filter(_, dropped) => self.below.ask(total.saturating_add(dropped).min(i64::MAX as u64)),
        }
    }

    fn pull(&mut self) -> Option<Signal> {
        while self.sent < self.asked {
            let item = match self.below.pull() {
                Some(Signal::Next(item)) => item,
                other => return other,
            };
            match &mut self.operator {
                Operator::Map(2) => match item.checked_add(item) {
                    Some(sum) => {
                        self.sent += 1;
                        return Some(Signal::Next(sum));
                    }
                    None => return Some(Signal::Error(1)),
                },
                Operator::Map(_) => return Some(Signal::Error(4)),
                Operator::Filter(1, dropped) => {
                    if item.unsigned_abs() % 2 == 0 {
                        self.sent += 1;
                        return Some(Signal::Next(item));
                    }
                    *dropped += 1;
                    self.below.ask(self.asked.saturating_add(*dropped).min(i64::MAX as u64));
                }
                Operator::Filter(_, _) => return Some(Signal::Error(4)),
            }
        }
        match self.below.pull() {
            Some(Signal::Next(_)) | None => None,
            ending => ending,
        }
    }
}

fn over(operator: Operator, below: Box<dyn Node>) -> Box<dyn Node> {
    Box::new(Plain { below, operator, asked: 0, sent: 0 })
}

fn tree(case: &str, count: u64) -> Box<dyn Node> {
    let range = Box::new(Range { next: 1, end: 1 + count as i64, asked: 0, sent: 0 });
    match case {
        "range" => range,
        "map" => over(Operator::Map(2), range),
        "filter" | "single" => over(Operator::Filter(1, 0), over(Operator::Map(2), range)),
        "half" => over(Operator::Map(2), over(Operator::Filter(1, 0), range)),
        _ => panic!("no such case"),
    }
}

struct Sum {
    items: u64,
    sum: i64,
}

impl Sum {
    /// Takes in what was delivered. Answers whether that was all.
    fn add(&mut self, out: &mut Vec<(u32, Signal)>) -> bool {
        let mut ended = false;
        for (_, signal) in out.iter() {
            match signal {
                Signal::Next(item) => {
                    self.items += 1;
                    self.sum = self.sum.wrapping_add(*item);
                }
                Signal::Complete | Signal::Error(_) => ended = true,
            }
        }
        out.clear();
        ended
    }
}

/// Hands over what was asked for, in lists of up to 32,768 signals. An ending needs no demand.
fn run(case: &str, count: u64) -> Sum {
    let mut root = tree(case, count);
    let mut sum = Sum { items: 0, sum: 0 };
    let mut out = Vec::new();
    let step = if case == "single" { 1 } else { i64::MAX as u64 };
    let (mut asked, mut sent) = (0u64, 0u64);
    loop {
        asked = asked.saturating_add(step).min(i64::MAX as u64);
        root.ask(asked);
        while sent < asked {
            match root.pull() {
                Some(Signal::Next(item)) => {
                    sent += 1;
                    out.push((0, Signal::Next(item)));
                    if out.len() == 32_768 {
                        break;
                    }
                }
                Some(ending) => {
                    out.push((0, ending));
                    break;
                }
                None => break,
            }
        }
        if sum.add(&mut out) {
            return sum;
        }
    }
}

fn main() {
    let words: Vec<String> = env::args().collect();
    let count = words[2].parse().unwrap();
    let rounds: u64 = words[3].parse().unwrap();
    let mut least = u128::MAX;
    let mut sum = Sum { items: 0, sum: 0 };
    for _ in 0..rounds {
        let start = Instant::now();
        sum = run(&words[1], count);
        least = least.min(start.elapsed().as_nanos());
    }
    println!("{} items, sum {}", sum.items, sum.sum);
    eprintln!("{} ns", least);
}
