//! On files made from seeds and the stored ones of `crates/cases`: the text form gives the same bytes back, the words
//! for a refusal have the engine's number, and what `explain` prints has the engine's outcomes, ledger and registers.
//!
//! 150 seeds of each generator, unless BIRDWEEKLY_SEEDS says how many.

use std::collections::HashSet;
use std::path::Path;

use birdweekly::{
    load, path, Buffers, Entry, LoadAnswer, PathAnswer, RunAnswer, LEDGER_ENTRIES, OUTCOME_BYTES, PATH_PLACES,
    REGISTER_BYTES, STATE_BYTES,
};
use birdweekly_cli::effects::Effects;
use birdweekly_cli::explain::{explain, NO_COLOURS};
use birdweekly_cli::faults::fault;
use birdweekly_cli::forms::REGISTERS;
use birdweekly_cli::reasons::{meaning, reason};
use birdweekly_cli::rehearsal::Rehearsal;
use birdweekly_cli::scenario::Scenario;
use birdweekly_cli::show::show;
use birdweekly_cli::source::Source;
use birdweekly_cli::text::assemble;

type Generator = fn(u64) -> Vec<u8>;
const GENERATORS: [(&str, Generator); 4] =
    [("any", worlds::any), ("world", worlds::world), ("damaged", worlds::damaged), ("records", worlds::random_records)];

fn files() -> impl Iterator<Item = (String, Vec<u8>)> {
    let seeds: u64 = std::env::var("BIRDWEEKLY_SEEDS").ok().and_then(|text| text.parse().ok()).unwrap_or(150);
    let each = move |seed: u64| GENERATORS.map(|(name, make)| (format!("{name} {seed}"), make(seed)));
    let folder = Path::new(env!("CARGO_MANIFEST_DIR")).join("../crates/cases/data");
    let stored = std::fs::read_dir(folder).expect("there are stored files").map(|entry| {
        let path = entry.expect("a folder is read").path();
        (path.display().to_string(), std::fs::read(&path).expect("a stored file is read"))
    });
    stored.chain((0..seeds).flat_map(each))
}

/// The place of the refusal; none for a file that loads.
fn refusal(file: &[u8]) -> Option<(u32, u32)> {
    match load(file, &mut vec![0; STATE_BYTES]) {
        LoadAnswer::Loaded { .. } => None,
        LoadAnswer::Refused(refusal) => Some((refusal.number, refusal.place)),
    }
}

#[test]
fn assemble_after_show_gives_the_same_bytes() {
    let mut loaded = 0;
    for (name, file) in files().filter(|(_, file)| refusal(file).is_none()) {
        let text = show(&Scenario::of_bytes(&file), file.len());
        match assemble(&text) {
            Ok(assembled) => assert_eq!(assembled.bytes, file, "{name}"),
            Err(mistakes) => panic!("{name}: {}", mistakes[0].told("shown", &text)),
        }
        loaded += 1;
    }
    println!("{loaded} files");
    assert!(loaded > 500);
}

#[test]
fn what_comes_before_a_refused_record_is_shown() {
    let mut numbers = [0u64; 13];
    for (name, file) in files() {
        let Some((number, place)) = refusal(&file) else { continue };
        let scenario = Scenario::of_bytes(&file);
        let text = show(&scenario, place as usize);
        match assemble(&text) {
            Ok(assembled) => assert_eq!(assembled.bytes, file[..place as usize], "{name}"),
            Err(mistakes) => panic!("{name}: {}", mistakes[0].told("shown", &text)),
        }
        let told = fault(&file, &scenario, place as usize).expect("a refused record has a fault");
        assert_eq!(told.0, number, "{name}: {}", told.1);
        numbers[number as usize] += 1;
    }
    println!("{numbers:?}");
    assert!(numbers[2..].iter().all(|count| *count > 0), "{numbers:?}");
}

#[test]
fn reasons_have_the_engines_numbers() {
    let (mut numbers, mut claims) = ([0u64; 256], 0);
    let (mut whole, mut before) = (Buffers::new(), Buffers::new());
    for (name, file) in files() {
        let RunAnswer::Ran { accepted, refused, .. } = whole.run_all(&file) else { continue };
        let scenario = Scenario::of_bytes(&file);
        let commands = (accepted + refused) as usize;
        assert_eq!(commands, scenario.commands.len(), "{name}");
        // Long files: some of the commands, since each is looked at in a run of its own.
        let step = 1 + commands / 200;
        let effects = Effects::of(&scenario);
        let mut shown = HashSet::new();
        for i in (0..commands).step_by(step) {
            before.run(&file, i);
            shown.extend(registers(&before));
            let told = reason(&scenario, &effects, &before, i);
            let outcome = whole.outcomes()[i];
            assert_eq!(told.as_ref().map_or(0, |told| told.number), outcome, "{name}, command {i}: {told:?}");
            let details = told.iter().flat_map(|told| &told.details);
            let all = Some(&shown).filter(|_| step == 1);
            claims += details.map(|detail| claims_are_true(detail, &scenario, &before, all)).sum::<usize>();
            numbers[outcome as usize] += 1;
        }
    }
    let seen: Vec<(usize, u64)> = numbers.iter().copied().enumerate().filter(|(_, count)| *count > 0).collect();
    println!("{seen:?}, {claims} claims");
    assert!(claims > 1_000);
    for number in [0, 13, 14, 15, 16, 17, 18, 19, 20, 21, 23, 24, 25, 26, 27, 28, 29, 31, 32, 33] {
        assert!(numbers[number] > 0, "no file gave {number}");
    }
}

/// What a party's register shows, of those that are not empty.
type Shown = (u8, u8, u16);

fn registers(buffers: &Buffers) -> impl Iterator<Item = Shown> + '_ {
    // One party more than a file may have.
    let all = (0..=8).flat_map(|p| (0..REGISTERS).map(move |register| (p, register)));
    all.filter_map(|(p, register)| Some((p, register, buffers.register(p, register)?)))
}

/// Read back from what is printed: the outcome of each command, the ledger as certificate and depth, and the registers.
fn read_back(printed: &str, scenario: &Scenario) -> (Vec<u8>, Vec<(u16, u16)>, Vec<Shown>) {
    let (commands, ledger) = printed.split_once("\nLedger").expect("the ledger comes after them");
    let (ledger, registers) = ledger.split_once("\nRegisters").unwrap_or((ledger, ""));
    let mut outcomes = Vec::new();
    for line in commands.lines().skip(2).filter(|line| !line.ends_with("there are no commands")) {
        let words: Vec<&str> = line.split_whitespace().collect();
        if words.get(2) == Some(&"accepted") || words.get(2) == Some(&"REFUSED") {
            assert_eq!(words[0].parse(), Ok(outcomes.len()), "{line}");
            outcomes.push(if words[2] == "accepted" { 0 } else { u8::MAX });
        } else if words[0] != "-" {
            let number: u8 = words[0].trim_end_matches(':').parse().expect("a refusal's number");
            assert_eq!(outcomes.pop(), Some(u8::MAX), "{line}");
            assert!(line.ends_with(meaning(number)), "{line}");
            outcomes.push(number);
        }
    }
    let entry = |line: &str| {
        let certificate = line.split_once("(term ")?.1.split_once(')')?.0.parse().ok()?;
        Some((certificate, line.split_once("depth ")?.1.split_once(',')?.0.parse().ok()?))
    };
    let register = |line: &str| {
        let (register, (party, shown)) = line
            .trim()
            .strip_prefix("register ")?
            .split_once(" of ")
            .map(|(n, rest)| (n.parse().expect("a register"), rest.split_once(": ").expect("what it shows")))?;
        let (name, term) = shown.split_once(" (term ").expect("its number");
        let term = term.split_once(')').and_then(|(term, _)| term.parse().ok()).expect("a number");
        assert_eq!(scenario.term_name_of(term), name, "{line}");
        Some((party_of(scenario, party).expect("a party"), register, term))
    };
    let registers = registers.lines().filter_map(register).collect();
    (outcomes, ledger.lines().filter_map(entry).collect(), registers)
}

fn party_of(scenario: &Scenario, name: &str) -> Option<u8> {
    scenario.party_names.iter().position(|other| other == name).map(|p| p as u8)
}

/// What a detail says of who knows a term, whose TPM holds a key and what a register shows is so in the state before
/// the command; all that registers showed up to it is given, where it is known. How many such things it says.
fn claims_are_true(detail: &str, scenario: &Scenario, before: &Buffers, all: Option<&HashSet<Shown>>) -> usize {
    let party = |name: &str| party_of(scenario, name);
    let term = |name: &str| scenario.term_names.iter().position(|other| other == name).map(|t| t as u16);
    let parties = |names: &str| -> Vec<u8> {
        let names = names.split(", ").flat_map(|names| names.split(" and "));
        names.map(|name| party(name).unwrap_or_else(|| panic!("{detail}"))).collect()
    };
    let those =
        |test: &dyn Fn(u8) -> bool| -> Vec<u8> { (0..scenario.parties.len() as u8).filter(|p| test(*p)).collect() };
    // A pair of a 43 stands in front of what is told of it.
    let detail = detail.split_once(": ").filter(|(pair, _)| pair.contains(" for ")).map_or(detail, |(_, told)| told);
    if let Some((p, rest)) = detail.split_once(" does not know ") {
        let (told, who) = rest.split_once("; ").unwrap_or((rest, ""));
        let t = term(told.split([' ', ',']).next().unwrap_or("")).expect("a term");
        let p = party(p).expect("a party");
        assert!(!before.knows(p, t), "{detail}");
        if let Some((register, _)) = who.split_once("its register ").and_then(|(_, shows)| shows.split_once(' ')) {
            assert_eq!(before.register(p, register.parse().expect("a register")), Some(t), "{detail}");
        }
        let knowers = those(&|q| before.knows(q, t));
        match who.split("; ").next().and_then(|who| who.strip_prefix("known to ")) {
            Some(names) => assert_eq!(parties(names), knowers, "{detail}"),
            None => assert!(knowers.is_empty() || who.is_empty(), "{detail}"),
        }
        return 1;
    }
    if let Some((p, rest)) = detail.strip_prefix("the TPM of ").and_then(|rest| rest.split_once(" does not hold ")) {
        let (told, who) = rest.rsplit_once("; ").expect("who holds it");
        let t = term(told.split([' ', ',']).next().unwrap_or("")).expect("a term");
        let holders = those(&|q| before.in_table(q, t));
        assert!(!holders.contains(&party(p).expect("a party")), "{detail}");
        let names = who.strip_prefix("the TPM of ").or(who.strip_prefix("the TPMs of "));
        match names.and_then(|names| names.strip_suffix(" does").or(names.strip_suffix(" do"))) {
            Some(names) => assert_eq!(parties(names), holders, "{detail}"),
            None => assert!(holders.is_empty() && who == "no TPM does", "{detail}"),
        }
        return 1;
    }
    if let Some((register, rest)) = detail.strip_prefix("register ").and_then(|rest| rest.split_once(" of ")) {
        let register: u8 = register.parse().expect("a register");
        let first = |text: &str| term(text.split([' ', ',', ';']).next().unwrap_or("")).expect("a term");
        let (said, wanted) = rest.split_once(" extends ").or(rest.split_once(" quotes ")).expect("what is wanted");
        let Some((p, now)) = said.split_once(" shows ") else {
            let (p, _) = said.split_once(" is empty, ").expect("what it shows");
            assert_eq!(before.register(party(p).expect("a party"), register), None, "{detail}");
            return 1;
        };
        let (p, t, wanted_term) = (party(p).expect("a party"), first(now), first(wanted));
        assert_eq!(before.register(p, register), Some(t), "{detail}");
        let (_, who) = now.rsplit_once(", known to ").expect("who knows it");
        let knowers = who.split_once("; ").map(|(who, _)| who).filter(|who| *who != "nobody").map_or(vec![], parties);
        assert_eq!(knowers, those(&|q| before.knows(q, t)), "{detail}");
        if let Some(all) = all {
            let showed = wanted.ends_with(", which the register showed before");
            assert_eq!(all.contains(&(p, register, wanted_term)), showed, "{detail}");
        }
        if let Some((_, names)) = wanted.split_once(&format!("; register {register} of ")) {
            let names = names.strip_suffix(" shows it").expect("they show it");
            assert_eq!(parties(names), those(&|q| before.register(q, register) == Some(wanted_term)), "{detail}");
        }
        return 1;
    }
    0
}

/// Where a detail names another command, that one was refused, or issued the certificate. How many it names.
fn other_commands_are_as_told(detail: &str, outcomes: &[u8]) -> usize {
    let parts: Vec<&str> = detail.split("command ").collect();
    for part in &parts[1..] {
        let digits = part.split(|c: char| !c.is_ascii_digit()).next().unwrap_or("");
        let rest = &part[digits.len()..];
        let outcome = outcomes[digits.parse::<usize>().expect("an ordinal")];
        let refused =
            [", which would have told it", ", which would have made one", ", which would have made it show that", ""];
        let refused = refused.iter().any(|words| rest.starts_with(&format!("{words}, was refused")));
        assert!(if refused { outcome != 0 } else { rest.starts_with(" issued it") && outcome == 0 }, "{detail}");
    }
    parts.len() - 1
}

fn engine_path(file: &[u8], certificate: u16) -> Vec<u16> {
    let (mut state, mut outcomes, mut registers) =
        (vec![0; STATE_BYTES], vec![0; OUTCOME_BYTES], vec![0; REGISTER_BYTES]);
    let (mut ledger, mut list) = (vec![Entry::default(); LEDGER_ENTRIES], [0; PATH_PLACES]);
    match path(file, usize::MAX, &mut state, &mut ledger, &mut outcomes, &mut registers, certificate, &mut list) {
        PathAnswer::Steps(steps) => list[..=steps as usize].to_vec(),
        PathAnswer::Refused(_) => Vec::new(),
    }
}

#[test]
fn what_is_explained_is_what_the_engine_answers() {
    let mut buffers = Buffers::new();
    let (mut runs, mut refusals, mut paths, mut named) = (0, 0, 0, 0);
    for (name, file) in files() {
        let RunAnswer::Ran { refused, .. } = buffers.run_all(&file) else { continue };
        let source = Source::of_bytes(&name, file.clone());
        let rehearsal = Rehearsal::of(&file, &source.scenario);
        let printed = explain(&source, &rehearsal, false, &NO_COLOURS);
        let ledger: Vec<(u16, u16)> = buffers.ledger().map(|entry| (entry.certificate, entry.depth)).collect();
        let shown: Vec<Shown> = registers(&buffers).collect();
        assert_eq!(read_back(&printed, &source.scenario), (buffers.outcomes().to_vec(), ledger, shown), "{name}");
        // Every refusal has a detail.
        for (i, _, reason) in rehearsal.refusals(&source.scenario) {
            for detail in &reason.details {
                named += other_commands_are_as_told(detail, buffers.outcomes());
            }
            assert!(!reason.details.is_empty(), "{name}, command {i}");
        }
        // The path of a certificate, here the last one's, is the one that the engine writes.
        if let Some(last) = rehearsal.issued(&source.scenario).last() {
            assert_eq!(last.path, engine_path(&file, last.entry.certificate), "{name}");
            paths += 1;
        }
        runs += 1;
        refusals += refused;
    }
    println!("{runs} runs, {refusals} refusals, {paths} paths, {named} other commands named");
    assert!(runs > 500 && paths > 100 && named > 1_000);
}
