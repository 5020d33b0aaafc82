//! Load, Run, Path and the stock of numbers beside the second reading of document 01 (`../../reading`, written from the
//! paper alone): on any file, count and buffers the same answer, and the same in every lent place, guard places beyond
//! the first parts too.
//!
//! 1,500 seeds (some seconds), unless BIRDWEEKLY_SEEDS says how many; BIRDWEEKLY_FIRST the first of them:
//!
//!     BIRDWEEKLY_SEEDS=1000000 cargo test --offline --release --test second_reading -- --nocapture

use birdweekly::{
    load, path, run, stock, Entry, LoadAnswer, PathAnswer, Refusal, RunAnswer, StockAnswer, EMPTY_REGISTER,
    LEDGER_ENTRIES, OUTCOME_BYTES, PATH_PLACES, REGISTER_BYTES, STATE_BYTES,
};
use worlds::Rng;

const SEEDS: u64 = 1_500;

type Generator = fn(u64) -> Vec<u8>;
const GENERATORS: [(&str, Generator); 5] = [
    ("any", worlds::any),
    ("world", worlds::world),
    ("damaged", worlds::damaged),
    ("records", worlds::random_records),
    ("bytes", random_bytes),
];

fn random_bytes(seed: u64) -> Vec<u8> {
    let mut rng = Rng::new(seed, 31);
    let length = rng.below(200);
    (0..length).map(|_| if rng.chance(50) { rng.byte() } else { rng.pick(&[0x01, 0x10, 0x20, 0x30, 0x00]) }).collect()
}

/// Short, just enough, one more, many more; mostly enough.
fn length(rng: &mut Rng, enough: usize) -> usize {
    match rng.below(20) {
        0 => 0,
        1 => enough - 1,
        2 => enough + rng.below(500),
        3..=5 => enough,
        _ => enough + 3,
    }
}

fn count(rng: &mut Rng, file: &[u8]) -> usize {
    match rng.below(4) {
        0 => usize::MAX,
        1 => rng.below(30),
        2 => rng.below(file.len() / 4 + 2),
        _ => file.len(),
    }
}

/// A party of the file that is an OEM desk, mostly; else any number.
fn desk(rng: &mut Rng, file: &[u8]) -> u8 {
    let roles: Vec<u8> = file.chunks_exact(2).take_while(|record| record[0] == 0x01).map(|record| record[1]).collect();
    let desks: Vec<u8> = (0..roles.len().min(255) as u8).filter(|&p| roles[p as usize] == 2).collect();
    match rng.below(10) {
        0 => rng.byte(),
        1 | 2 => rng.below(9) as u8,
        _ => rng.try_pick(&desks).unwrap_or(0),
    }
}

fn iaks_per_board(rng: &mut Rng) -> u32 {
    match rng.below(12) {
        0 => 0,
        1 => rng.next() as u32,
        2 => 1 + rng.below(300) as u32,
        _ => 1 + rng.below(6) as u32,
    }
}

/// What is lent, with marks in every place.
#[derive(Clone, PartialEq)]
struct Lent {
    state: Vec<u8>,
    ledger: Vec<(u16, u16, u16)>,
    outcomes: Vec<u8>,
    registers: Vec<u8>,
    list: Vec<u16>,
}

impl Lent {
    fn new(rng: &mut Rng) -> Lent {
        Lent {
            state: (0..length(rng, STATE_BYTES)).map(|i| i as u8 ^ 0xA5).collect(),
            ledger: (0..length(rng, LEDGER_ENTRIES)).map(|i| (i as u16, !(i as u16), 7)).collect(),
            outcomes: (0..length(rng, OUTCOME_BYTES)).map(|i| i as u8 ^ 0x5A).collect(),
            registers: (0..length(rng, REGISTER_BYTES)).map(|i| i as u8 ^ 0x3C).collect(),
            list: (0..length(rng, PATH_PLACES)).map(|i| 40_000 + i as u16).collect(),
        }
    }
}

fn ours(lent: &mut Lent, call: impl FnOnce(&mut Lent, &mut [Entry]) -> String) -> String {
    let mut ledger: Vec<Entry> =
        lent.ledger.iter().map(|&(certificate, parent, depth)| Entry { certificate, parent, depth }).collect();
    let answer = call(lent, &mut ledger);
    lent.ledger = ledger.iter().map(|e| (e.certificate, e.parent, e.depth)).collect();
    answer
}

fn theirs(lent: &mut Lent, call: impl FnOnce(&mut Lent, &mut [reading::Entry]) -> String) -> String {
    let mut ledger: Vec<reading::Entry> =
        lent.ledger.iter().map(|&(certificate, parent, depth)| reading::Entry { certificate, parent, depth }).collect();
    let answer = call(lent, &mut ledger);
    lent.ledger = ledger.iter().map(|e| (e.certificate, e.parent, e.depth)).collect();
    answer
}

fn refused(refusal: Refusal) -> String {
    format!("refused {} {}", refusal.number, refusal.place)
}

/// How often each number occurred.
type Counts = [u64; 40];

/// The commands whose outcomes are counted one by one: 3F to 45.
const COUNTED: std::ops::RangeInclusive<u8> = 0x3F..=0x45;
/// The records of registers: what is refused at them with 7 or 8 is counted.
const OF_REGISTERS: [u8; 4] = [0x1B, 0x1C, 0x44, 0x45];

struct Seen {
    runs: u64,
    issued: u64,
    depth_8: u64,
    paths: u64,
    /// Answers on the stock of numbers, those with a whole board and those with a rest.
    stocks: u64,
    boards: u64,
    rests: u64,
    refusals: Counts,
    outcomes: Counts,
    /// Outcomes of each command that is counted.
    counted: [Counts; 7],
    /// Refusals at records of registers.
    misfits: [Counts; 4],
    /// Registers that show a hash after a run: some 44 was accepted.
    extended: u64,
}

impl Seen {
    fn new() -> Seen {
        let none = [0; 40];
        Seen {
            runs: 0,
            issued: 0,
            depth_8: 0,
            paths: 0,
            stocks: 0,
            boards: 0,
            rests: 0,
            refusals: none,
            outcomes: none,
            counted: [none; 7],
            misfits: [none; 4],
            extended: 0,
        }
    }
}

/// Whether the rules have this outcome for a command 3F to 45. An IDevID is at depth 2, so 41 has no 29.
fn possible(kind: u8, outcome: usize) -> bool {
    let (iak, platform) = (kind == 0x3F || kind == 0x43, kind == 0x44 || kind == 0x45);
    match outcome {
        0 | 13 => true,
        14 => !iak,
        15 | 16 => kind == 0x45,
        33 => platform,
        27 | 28 => !platform,
        25 | 26 | 31 => iak,
        19 | 20 | 21 | 23 => !iak && !platform,
        29 => kind == 0x40 || kind == 0x42,
        32 => kind == 0x43,
        _ => false,
    }
}

/// Whether the rules have this refusal at a record of registers, of 7 and 8.
fn misfit(kind: u8, number: usize) -> bool {
    number == 7 || number == 8 && kind != 0x1B
}

/// How many registers show a hash: the place of a term's record is in the last two bytes of its state.
fn extended(file: &[u8], state: &[u8], registers: &[u8]) -> u64 {
    let word = |bytes: &[u8]| u16::from_be_bytes([bytes[0], bytes[1]]);
    let shown = registers.chunks_exact(2).map(word).filter(|&t| t != EMPTY_REGISTER);
    let place = |t: u16| word(&state[8 * t as usize + 6..]) as usize;
    shown.filter(|&t| file[place(t)] == 0x12).count() as u64
}

fn compare(name: &str, seed: u64, file: &[u8], rng: &mut Rng, seen: &mut Seen) {
    let n = count(rng, file);
    let lent = Lent::new(rng);

    let (mut mine, mut other) = (lent.clone(), lent.clone());
    let a = match load(file, &mut mine.state) {
        LoadAnswer::Loaded { parties, terms, commands } => format!("loaded {parties} {terms} {commands}"),
        LoadAnswer::Refused(refusal) => refused(refusal),
    };
    let b = match reading::load(file, &mut other.state) {
        reading::LoadAnswer::Loaded { parties, terms, commands } => format!("loaded {parties} {terms} {commands}"),
        reading::LoadAnswer::Refused { number, place } => refused(Refusal { number, place }),
    };
    assert!(a == b && mine == other, "load: {name} {seed}: {a}, {b}");

    let (mut mine, mut other) = (lent.clone(), lent.clone());
    let a = ours(&mut mine, |lent, ledger| {
        match run(file, n, &mut lent.state, ledger, &mut lent.outcomes, &mut lent.registers) {
            RunAnswer::Ran { accepted, refused, issued } => {
                seen.runs += 1;
                seen.issued += issued as u64;
                seen.depth_8 += ledger[..issued as usize].iter().filter(|e| e.depth == 8).count() as u64;
                let outcomes = &lent.outcomes[..(accepted + refused) as usize];
                for (kind, &o) in worlds::command_kinds(file).into_iter().zip(outcomes) {
                    seen.outcomes[o as usize] += 1;
                    if COUNTED.contains(&kind) {
                        seen.counted[(kind - COUNTED.start()) as usize][o as usize] += 1;
                    }
                }
                seen.extended += extended(file, &lent.state, &lent.registers[..REGISTER_BYTES]);
                format!("ran {accepted} {refused} {issued}")
            }
            RunAnswer::Refused(refusal) => {
                seen.refusals[refusal.number as usize] += 1;
                let kind = file.get(refusal.place as usize).filter(|_| refusal.number > 2);
                if let Some(i) = OF_REGISTERS.iter().position(|of| kind == Some(of)) {
                    seen.misfits[i][refusal.number as usize] += 1;
                }
                refused(refusal)
            }
        }
    });
    let b = theirs(&mut other, |lent, ledger| {
        match reading::run(file, n, &mut lent.state, ledger, &mut lent.outcomes, &mut lent.registers) {
            reading::RunAnswer::Ran { accepted, refused, issued } => format!("ran {accepted} {refused} {issued}"),
            reading::RunAnswer::Refused { number, place } => refused(Refusal { number, place }),
        }
    });
    assert!(a == b && mine == other, "run: {name} {seed} n = {n}: {a}, {b}");

    // an issued certificate if there is one, its parent, any term, any number
    let entries = mine.ledger.iter().take(LEDGER_ENTRIES).filter(|e| e.2 > 0 && e.2 < 9);
    let issued: Vec<u16> = entries.map(|e| e.0).collect();
    let term = match rng.below(6) {
        0 => rng.below(40) as u16,
        1 => rng.next() as u16,
        _ => rng.try_pick(&issued).unwrap_or(1_024),
    };
    let (mut mine, mut other) = (lent.clone(), lent.clone());
    let a = ours(&mut mine, |lent, ledger| {
        match path(file, n, &mut lent.state, ledger, &mut lent.outcomes, &mut lent.registers, term, &mut lent.list) {
            PathAnswer::Steps(steps) => {
                seen.paths += 1;
                format!("steps {steps}")
            }
            PathAnswer::Refused(refusal) => {
                seen.refusals[refusal.number as usize] += 1;
                refused(refusal)
            }
        }
    });
    let b = theirs(&mut other, |lent, ledger| {
        let Lent { state, outcomes, registers, list, .. } = lent;
        match reading::path(file, n, state, ledger, outcomes, registers, term, list) {
            reading::PathAnswer::Steps(steps) => format!("steps {steps}"),
            reading::PathAnswer::Refused { number, place } => refused(Refusal { number, place }),
        }
    });
    assert!(a == b && mine == other, "path: {name} {seed} n = {n} term {term}: {a}, {b}");

    let (party, iaks) = (desk(rng, file), iaks_per_board(rng));
    let (mut mine, mut other) = (lent.clone(), lent);
    let a = ours(&mut mine, |lent, ledger| {
        match stock(file, &mut lent.state, ledger, &mut lent.outcomes, &mut lent.registers, party, iaks) {
            StockAnswer::Boards { boards, rest } => {
                seen.stocks += 1;
                seen.boards += (boards > 0) as u64;
                seen.rests += (rest > 0) as u64;
                format!("boards {boards} {rest}")
            }
            StockAnswer::Refused(refusal) => {
                seen.refusals[refusal.number as usize] += 1;
                refused(refusal)
            }
        }
    });
    let b = theirs(&mut other, |lent, ledger| {
        let Lent { state, outcomes, registers, .. } = lent;
        match reading::stock(file, state, ledger, outcomes, registers, party, iaks) {
            reading::StockAnswer::Boards { boards, rest } => format!("boards {boards} {rest}"),
            reading::StockAnswer::Refused { number, place } => refused(Refusal { number, place }),
        }
    });
    assert!(a == b && mine == other, "stock: {name} {seed} party {party} iaks {iaks}: {a}, {b}");
}

fn setting(name: &str, default: u64) -> u64 {
    std::env::var(name).ok().map_or(default, |value| value.parse().expect(name))
}

#[test]
fn every_call_agrees() {
    let first = setting("BIRDWEEKLY_FIRST", 0);
    let seeds = setting("BIRDWEEKLY_SEEDS", SEEDS);
    let mut seen = Seen::new();
    for seed in first..first + seeds {
        for (i, (name, generate)) in GENERATORS.into_iter().enumerate() {
            let file = generate(seed);
            compare(name, seed, &file, &mut Rng::new(seed, 40 + i as u64), &mut seen);
        }
    }
    println!(
        "{} files; {} runs, {} issued, {} at depth 8, {} paths; {} stocks, {} with a board, {} with a rest; \
         {} registers extended; refusals {:?}, at 1B, 1C, 44 and 45 {:?}; outcomes {:?}; of 3F to 45 {:?}",
        seeds * GENERATORS.len() as u64,
        seen.runs,
        seen.issued,
        seen.depth_8,
        seen.paths,
        seen.stocks,
        seen.boards,
        seen.rests,
        seen.extended,
        seen.refusals,
        seen.misfits,
        seen.outcomes,
        seen.counted
    );
    // 22 is no refusal any more.
    assert_eq!(seen.outcomes[22], 0);
    // The comparison is worth something: each refusal and each outcome occurred.
    let enough = seeds >= SEEDS && first == 0;
    for (kind, counts) in COUNTED.zip(seen.counted) {
        for (outcome, count) in counts.into_iter().enumerate() {
            if !possible(kind, outcome) {
                assert_eq!(count, 0, "{kind:X} with outcome {outcome}");
            } else if enough {
                assert!(count > 50, "{kind:X} with outcome {outcome}: {count}");
            }
        }
    }
    for (kind, counts) in OF_REGISTERS.into_iter().zip(seen.misfits) {
        for number in [7, 8] {
            if !misfit(kind, number) {
                assert_eq!(counts[number], 0, "refusal {number} at a {kind:X}");
            } else if enough {
                assert!(counts[number] > 0, "no refusal {number} at a {kind:X}");
            }
        }
    }
    if enough {
        for number in (1..=12).chain([30, 39]) {
            assert!(seen.refusals[number] > 0, "no refusal {number}");
        }
        for number in (13..=29).chain(31..=33).filter(|&number| number != 22) {
            assert!(seen.outcomes[number] > 0, "no outcome {number}");
        }
        assert!(seen.issued > 1_000 && seen.depth_8 > 10 && seen.paths > 100 && seen.extended > 500);
        assert!(seen.boards > 500 && seen.rests > 500 && seen.refusals[39] > 500);
    }
}

/// Every n of one file that has a 43, a 44 and a 45, and every cut of it.
#[test]
fn every_count_and_every_cut() {
    let fits = |file: &Vec<u8>| {
        let kinds = worlds::command_kinds(file);
        (300..1_200).contains(&file.len()) && [0x43, 0x44, 0x45].iter().all(|kind| kinds.contains(kind))
    };
    let file = (0..).map(worlds::world).find(fits).unwrap();
    let mut seen = Seen::new();
    for n in 0..file.len() / 4 + 2 {
        let mut state = [vec![1; STATE_BYTES + 2], vec![1; STATE_BYTES + 2]];
        let mut outcomes = [vec![2; OUTCOME_BYTES + 2], vec![2; OUTCOME_BYTES + 2]];
        let mut registers = [vec![4; REGISTER_BYTES + 2], vec![4; REGISTER_BYTES + 2]];
        let mut ledger = vec![Entry { certificate: 3, parent: 3, depth: 3 }; LEDGER_ENTRIES + 2];
        let mut other = vec![reading::Entry { certificate: 3, parent: 3, depth: 3 }; LEDGER_ENTRIES + 2];
        let a = run(&file, n, &mut state[0], &mut ledger, &mut outcomes[0], &mut registers[0]);
        let b = reading::run(&file, n, &mut state[1], &mut other, &mut outcomes[1], &mut registers[1]);
        match (a, b) {
            (
                RunAnswer::Ran { accepted: a, refused: b, issued: c },
                reading::RunAnswer::Ran { accepted, refused, issued },
            ) => assert_eq!((a, b, c), (accepted, refused, issued), "n = {n}"),
            (a, b) => panic!("n = {n}: {a:?}, {b:?}"),
        }
        assert_eq!(state[0], state[1], "n = {n}");
        assert_eq!(outcomes[0], outcomes[1], "n = {n}");
        assert_eq!(registers[0], registers[1], "n = {n}");
        let entries = ledger.iter().map(|e| (e.certificate, e.parent, e.depth));
        assert!(entries.eq(other.iter().map(|e| (e.certificate, e.parent, e.depth))), "n = {n}");
    }
    for cut in 0..=file.len() {
        compare("cut", cut as u64, &file[..cut], &mut Rng::new(cut as u64, 50), &mut seen);
    }
}
