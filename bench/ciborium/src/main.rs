//! `ciborium_0_2_2_bench value ROUNDS FILE [CALL]` reads a document as a `Value` with ciborium
//! 0.2.2, writes and drops it, and prints the best of so many rounds of each call, in nanoseconds;
//! with a fourth word only of that one.

use ciborium::value::Value;
use std::hint::black_box;
use std::mem::forget;
use std::time::{Duration, Instant};

struct Run {
    bytes: Vec<u8>,
    rounds: u32,
    call: Option<String>,
}

impl Run {
    fn wants(&self, call: &str) -> bool {
        self.call.as_deref().map_or(true, |wanted| wanted == call)
    }

    /// Prints the best of a call's rounds, each of which answers what it took.
    fn measure(&self, call: &str, mut round: impl FnMut() -> Duration) {
        if self.wants(call) {
            let best = (0..self.rounds).map(|_| round()).min().unwrap_or(Duration::MAX);
            println!("{call} {}", best.as_nanos());
        }
    }

    fn read(&self) -> Value {
        ciborium::from_reader(black_box(self.bytes.as_slice())).expect("a value")
    }
}

fn timed<T>(call: impl FnOnce() -> T) -> (T, Duration) {
    let start = Instant::now();
    let value = call();
    (value, start.elapsed())
}

fn main() {
    let mut words = std::env::args().skip(2);
    let rounds = words.next().and_then(|word| word.parse().ok()).expect("a number of rounds");
    let bytes = std::fs::read(words.next().expect("a file")).expect("a file");
    let run = Run { bytes, rounds, call: words.next() };
    // As ours, drops each value but the last, outside of what is measured.
    let mut last = None;
    run.measure("read", || {
        drop(last.take());
        let (value, took) = timed(|| run.read());
        last = Some(value);
        took
    });
    forget(last);
    let value = run.wants("write").then(|| run.read());
    run.measure("write", || {
        let mut out = Vec::new();
        timed(|| ciborium::into_writer(black_box(&value), &mut out).expect("room")).1
    });
    run.measure("drop", || {
        let value = run.read();
        timed(|| drop(value)).1
    });
}
