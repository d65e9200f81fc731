//! `serde_cbor_bench KIND ROUNDS FILE [CALL]` reads a document as its type in each way, writes and
//! drops it, and prints the best of so many rounds of each call, in nanoseconds; with a fourth word
//! only of that one.

use serde::{de::DeserializeOwned, Deserialize, Serialize};
use serde_cbor::Value;
use std::collections::BTreeMap;
use std::fs::File;
use std::hint::black_box;
use std::io::BufReader;
use std::mem::forget;
use std::time::{Duration, Instant};

type Record = (u32, String, bool);

#[derive(Serialize, Deserialize)]
struct Message {
    version: u8,
    body: String,
}

struct Run {
    path: String,
    bytes: Vec<u8>,
    rounds: u32,
    call: Option<String>,
}

impl Run {
    fn wants(&self, call: &str) -> bool {
        self.call.as_deref().map_or(true, |wanted| wanted == call)
    }

    /// Prints the best of a call's rounds, each of which answers what it took.
    fn measure(&self, call: &str, mut round: impl FnMut() -> Duration) {
        if self.wants(call) {
            let best = (0..self.rounds).map(|_| round()).min().unwrap_or(Duration::MAX);
            println!("{call} {}", best.as_nanos());
        }
    }

    /// As ours, drops each value but the last, outside of what is measured.
    fn measure_reads<T>(&self, call: &str, mut read: impl FnMut() -> (T, Duration)) {
        let mut last = None;
        self.measure(call, || {
            drop(last.take());
            let (value, took) = read();
            last = Some(value);
            took
        });
        forget(last);
    }
}

fn from_reader<T: DeserializeOwned>(bytes: &[u8]) -> T {
    serde_cbor::from_reader(black_box(bytes)).expect("an item of this type")
}

fn from_slice<T: DeserializeOwned>(bytes: &[u8]) -> T {
    serde_cbor::from_slice(black_box(bytes)).expect("an item of this type")
}

fn timed<T>(call: impl FnOnce() -> T) -> (T, Duration) {
    let start = Instant::now();
    let value = call();
    (value, start.elapsed())
}

fn measure<T: DeserializeOwned + Serialize>(run: &Run) {
    run.measure_reads("read", || timed(|| from_reader::<T>(&run.bytes)));
    run.measure_reads("slice", || timed(|| from_slice::<T>(&run.bytes)));
    run.measure_reads("buffered", || {
        let mut file = BufReader::new(File::open(&run.path).expect("a file"));
        timed(|| serde_cbor::from_reader::<T, _>(&mut file).expect("an item of this type"))
    });
    let value: Option<T> = run.wants("write").then(|| from_slice(&run.bytes));
    run.measure("write", || {
        let mut out = Vec::new();
        let (_, took) = timed(|| serde_cbor::to_writer(&mut out, black_box(&value)).expect("room"));
        assert_eq!(out.len(), run.bytes.len());
        took
    });
    run.measure("drop", || {
        let value: T = from_slice(&run.bytes);
        timed(|| drop(value)).1
    });
}

/// The bytes of each record of a sequence.
fn cut(bytes: &[u8]) -> Vec<&[u8]> {
    let mut records = serde_cbor::Deserializer::from_slice(bytes).into_iter::<Record>();
    let mut ends = vec![0];
    while let Some(record) = records.next() {
        record.expect("a record");
        ends.push(records.byte_offset());
    }
    ends.windows(2).map(|ends| &bytes[ends[0]..ends[1]]).collect()
}

fn measure_each(run: &Run, messages: &[&[u8]], call: &str, read: impl Fn(&[u8])) {
    run.measure(call, || timed(|| messages.iter().for_each(|message| read(message))).1);
}

fn measure_messages(run: &Run) {
    let messages = cut(&run.bytes);
    measure_each(run, &messages, "typed", |message| {
        drop(black_box(from_reader::<Record>(message)))
    });
    measure_each(run, &messages, "value", |message| drop(black_box(from_reader::<Value>(message))));
    measure_each(run, &messages, "typed_slice", |message| {
        drop(black_box(from_slice::<Record>(message)))
    });
    measure_each(run, &messages, "value_slice", |message| {
        drop(black_box(from_slice::<Value>(message)))
    });
}

fn main() {
    let mut words = std::env::args().skip(1);
    let kind = words.next().expect("a kind");
    let rounds = words.next().and_then(|word| word.parse().ok()).expect("a number of rounds");
    let path = words.next().expect("a file");
    let bytes = std::fs::read(&path).expect("a file");
    let run = Run { path, bytes, rounds, call: words.next() };
    match kind.as_str() {
        "value" => measure::<Value>(&run),
        "ints" => measure::<Vec<i64>>(&run),
        "options" => measure::<Vec<Option<u32>>>(&run),
        "records" => measure::<Vec<Record>>(&run),
        "map" => measure::<BTreeMap<String, u64>>(&run),
        "texts" => measure::<Vec<String>>(&run),
        "structs" => measure::<Vec<Message>>(&run),
        "messages" => measure_messages(&run),
        _ => panic!("no such kind"),
    }
}
