//! `bench/run`: loading, runs and stocks of numbers, timed beside a C implementation (peer.c, -O3) in one process. What
//! is timed is compared with the second reading first: answers and every byte and entry.
//!
//! The two are called in turn on one file, and the shortest of all timings of each counts; these come in rounds over
//! all files, so that a busy second of the machine does not fall on one row. The buffers are those that the call before
//! has written; nobody clears them in between, since each call clears what it has to itself.

mod files;
mod peer;
mod walk;

use birdweekly::{
    Entry, LoadAnswer, Refusal, RunAnswer, StockAnswer, LEDGER_ENTRIES, OUTCOME_BYTES, REGISTER_BYTES, STATE_BYTES,
};
use std::hint::black_box;
use std::time::Instant;

const ROUNDS: usize = 40;
const TIMINGS: usize = 50;

/// A timing takes as many calls as fill this, so that reading the clock does not show.
const TIMING_NS: f64 = 4_000.0;

#[derive(PartialEq)]
struct Buffers {
    state: Vec<u8>,
    outcomes: Vec<u8>,
    registers: Vec<u8>,
    ledger: Vec<Entry>,
}

impl Buffers {
    fn new() -> Buffers {
        Buffers {
            state: vec![0xA5; STATE_BYTES],
            outcomes: vec![0xA5; OUTCOME_BYTES],
            registers: vec![0xA5; REGISTER_BYTES],
            ledger: vec![Entry::default(); LEDGER_ENTRIES],
        }
    }
}

/// What a call answers: its values.
type Call = fn(&[u8], &mut Buffers) -> [u32; 3];

fn refused(refusal: Refusal) -> [u32; 3] {
    panic!("a timed file loads: {refusal}")
}

fn load(file: &[u8], b: &mut Buffers) -> [u32; 3] {
    match birdweekly::load(file, &mut b.state) {
        LoadAnswer::Loaded { parties, terms, commands } => [parties, terms, commands],
        LoadAnswer::Refused(refusal) => refused(refusal),
    }
}

fn peer_load(file: &[u8], b: &mut Buffers) -> [u32; 3] {
    peer::load(file, &mut b.state)
}

fn read_load(file: &[u8], b: &mut Buffers) -> [u32; 3] {
    match reading::load(file, &mut b.state) {
        reading::LoadAnswer::Loaded { parties, terms, commands } => [parties, terms, commands],
        reading::LoadAnswer::Refused { number, place } => refused(Refusal { number, place }),
    }
}

fn run(file: &[u8], b: &mut Buffers) -> [u32; 3] {
    match birdweekly::run(file, usize::MAX, &mut b.state, &mut b.ledger, &mut b.outcomes, &mut b.registers) {
        RunAnswer::Ran { accepted, refused, issued } => [accepted, refused, issued],
        RunAnswer::Refused(refusal) => refused(refusal),
    }
}

fn peer_run(file: &[u8], b: &mut Buffers) -> [u32; 3] {
    peer::run(file, &mut b.state, &mut b.ledger, &mut b.outcomes, &mut b.registers)
}

fn read_run(file: &[u8], b: &mut Buffers) -> [u32; 3] {
    let mut ledger = vec![reading::Entry::default(); LEDGER_ENTRIES];
    let answer = reading::run(file, usize::MAX, &mut b.state, &mut ledger, &mut b.outcomes, &mut b.registers);
    for (ours, e) in b.ledger.iter_mut().zip(ledger) {
        *ours = Entry { certificate: e.certificate, parent: e.parent, depth: e.depth };
    }
    match answer {
        reading::RunAnswer::Ran { accepted, refused, issued } => [accepted, refused, issued],
        reading::RunAnswer::Refused { number, place } => refused(Refusal { number, place }),
    }
}

/// The desk whose stock is asked for, and the IAKs per board.
const STOCK: (u8, u32) = (2, 4);

fn stock(file: &[u8], b: &mut Buffers) -> [u32; 3] {
    match birdweekly::stock(file, &mut b.state, &mut b.ledger, &mut b.outcomes, &mut b.registers, STOCK.0, STOCK.1) {
        StockAnswer::Boards { boards, rest } => [boards, rest, 0],
        StockAnswer::Refused(refusal) => refused(refusal),
    }
}

fn read_stock(file: &[u8], b: &mut Buffers) -> [u32; 3] {
    read_run(file, b);
    let mut ledger = vec![reading::Entry::default(); LEDGER_ENTRIES];
    match reading::stock(file, &mut b.state, &mut ledger, &mut b.outcomes, &mut b.registers, STOCK.0, STOCK.1) {
        reading::StockAnswer::Boards { boards, rest } => [boards, rest, 0],
        reading::StockAnswer::Refused { number, place } => refused(Refusal { number, place }),
    }
}

/// Nanoseconds a call.
fn timing(call: Call, file: &[u8], buffers: &mut Buffers, calls: usize) -> f64 {
    let start = Instant::now();
    for _ in 0..calls {
        black_box(call(black_box(file), buffers));
    }
    start.elapsed().as_nanos() as f64 / calls as f64
}

/// A file, and the shortest timings so far of the two calls.
struct Row {
    file: files::File,
    answer: [u32; 3],
    calls: usize,
    shortest: [f64; 2],
}

impl Row {
    fn new(file: files::File, timed: [Call; 2], told: [Call; 2]) -> Row {
        let mut answer = [0; 3];
        let mut buffers = Buffers::new();
        for i in 0..2 {
            let mut expected = Buffers::new();
            buffers = Buffers::new();
            answer = told[i](&file.bytes, &mut expected);
            assert_eq!(timed[i](&file.bytes, &mut buffers), answer, "{}", file.name);
            assert!(buffers == expected, "{}: buffers", file.name);
        }
        let once = timing(timed[1], &file.bytes, &mut buffers, 10);
        Row { file, answer, calls: (TIMING_NS / once).ceil() as usize, shortest: [f64::INFINITY; 2] }
    }
}

fn microseconds(ns: f64) -> String {
    let us = ns / 1_000.0;
    match us {
        ..10.0 => format!("{us:.2} µs"),
        ..100.0 => format!("{us:.1} µs"),
        _ => format!("{us:.0} µs"),
    }
}

/// Two calls on each file, and what the second reading tells of each.
fn timed(files: Vec<files::File>, calls: [Call; 2], told: [Call; 2]) -> Vec<Row> {
    let mut rows: Vec<Row> = files.into_iter().map(|file| Row::new(file, calls, told)).collect();
    let mut buffers = [Buffers::new(), Buffers::new()];
    for _ in 0..ROUNDS {
        for row in &mut rows {
            for _ in 0..TIMINGS {
                for i in 0..2 {
                    let ns = timing(calls[i], &row.file.bytes, &mut buffers[i], row.calls);
                    row.shortest[i] = row.shortest[i].min(ns);
                }
            }
        }
    }
    rows
}

fn table(title: &str, other: &str, rows: Vec<Row>, answer: fn([u32; 3]) -> String) {
    println!("| {title} | bytes | answer | {other} | birdweekly | ratio |\n|---|---|---|---|---|---|");
    for row in rows {
        let [theirs, ours] = row.shortest.map(microseconds);
        let ratio = row.shortest[1] / row.shortest[0];
        let (name, bytes) = (row.file.name, row.file.bytes.len());
        println!("| {name} | {bytes} | {} | {theirs} | {ours} | {ratio:.2} |", answer(row.answer));
    }
    println!();
}

/// Writes the files into a folder, in their order.
fn write(folder: &str) {
    let mut names = std::collections::HashSet::new();
    let files = files::run().into_iter().chain(files::loaded()).filter(|file| names.insert(file.name));
    for (i, file) in files.enumerate() {
        std::fs::write(format!("{folder}/{i:02} {}", file.name), file.bytes).expect(file.name);
    }
}

fn main() {
    let words: Vec<String> = std::env::args().collect();
    if let [_, option, folder] = &words[..] {
        assert_eq!(option, "--write");
        return write(folder);
    }
    println!("The shortest of {} timings. Buffers are not cleared between calls.\n", ROUNDS * TIMINGS);
    let totals = |[a, r, i]: [u32; 3]| format!("T {a} {r} {i}");
    table("a run", "C", timed(files::run(), [peer_run, run], [read_run; 2]), totals);
    let declared = |[p, t, c]: [u32; 3]| format!("{p} parties, {t} terms, {c} commands");
    table("loading", "C", timed(files::loaded(), [peer_load, load], [read_load; 2]), declared);
    let boards = |[b, r, _]: [u32; 3]| format!("{b} boards, {r} left over");
    table("a stock of numbers", "a run", timed(files::stocks(), [run, stock], [read_run, read_stock]), boards);
    println!("| index of terms | terms passed by all walks | by the longest |\n|---|---|---|");
    for file in files::loaded() {
        let steps = walk::steps(&file.bytes);
        println!("| {} | {} | {} |", file.name, steps.all, steps.longest);
    }
}
