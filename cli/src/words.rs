//! Commands in words.

use birdweekly::Buffers;

use crate::forms::{self, attributes_text, listed};
use crate::scenario::{Record, Scenario};

/// What a command does, or would do where it is refused, as a sentence.
pub fn sentence(scenario: &Scenario, command: &Record, refused: bool) -> String {
    let s = scenario;
    let name = |t: u16| s.term_name_of(t);
    let party = |i: usize| s.party_name(command.party(i));
    let r = command.term(1);
    // Field i of r.
    let of = |i: usize| name(s.term(r).map_or(forms::EMPTY, |record| record.term(i)));
    let (verb, rest) = match command.kind {
        0x30 => ("hash", format!("{}, for {}", of(0), name(r))),
        0x31 => ("sign", format!("{} with {}, for {}", of(0), of(1), name(r))),
        0x32 => {
            let attest = s.term(r).map_or(forms::EMPTY, |record| record.term(0));
            let key = s.named(attest, forms::ATTEST, 0).unwrap_or(forms::EMPTY);
            ("certify", format!("{} with {}, for {}", name(key), of(1), name(r)))
        }
        0x33 | 0x35 | 0x36 => ("make", format!("{}, {}", name(r), article(s, r))),
        0x34 => ("activate", format!("{} with {}, for {}", name(r), of(2), of(1))),
        0x37 => ("pair", format!("{} and {}, for {}", of(0), of(1), name(r))),
        0x38 => ("check", format!("that {} is the hash of {}", name(r), name(command.term(2)))),
        0x39 | 0x3A => {
            ("check", format!("that {} is signed by the private half of {}", name(r), name(command.term(2))))
        }
        0x3B => ("check", format!("that {} has the attributes {}", name(r), attributes_text(command.attributes()))),
        0x3C => ("send", format!("{} to {}", name(command.term(2)), party(1))),
        0x3D => ("issue", format!("{} itself, {}", name(r), article(s, r))),
        forms::CHALLENGE => {
            let credential = command.term(2);
            ("answer", format!("{} with {}, {}", name(r), name(credential), article(s, credential)))
        }
        forms::ISSUE_IAK => {
            let (credential, r) = (command.term(2), command.term(3));
            let returned = format!("the number of {} is returned by {}", name(credential), party(1));
            ("issue", format!("{}, {}; {returned}", name(r), article(s, r)))
        }
        forms::ISSUE_IAKS => {
            let pairs = command.pairs();
            let each: Vec<String> = pairs.iter().map(|(c, r)| format!("{} for {}", name(*r), name(*c))).collect();
            let each = if each.is_empty() { "nothing".into() } else { listed(&each, "and") };
            ("issue", format!("together {each}; the numbers are returned by {}", party(1)))
        }
        forms::EXTEND => {
            let (register, r) = (command.register(), command.term(2));
            let (old, added) = s.extended(r).unwrap_or((forms::EMPTY, forms::EMPTY));
            ("extend", format!("register {register} from {} with {}, for {}", name(old), name(added), name(r)))
        }
        forms::QUOTE => {
            let (register, value, number) = s.quoted(r).unwrap_or((u8::MAX, forms::EMPTY, forms::EMPTY));
            let what = format!("{} in register {register} with {}", name(value), name(number));
            ("quote", format!("{what}, signed with {}, for {}", of(1), name(r)))
        }
        _ => ("issue", format!("{}, {}, on {}", name(command.term(2)), article(s, command.term(2)), name(r))),
    };
    let verb = if refused { format!("would {verb}") } else { third_person(verb) };
    format!("{} {verb} {rest}", party(0))
}

/// "hash" as "hashes".
fn third_person(verb: &str) -> String {
    match verb.strip_suffix('y') {
        Some(start) => format!("{start}ies"),
        None if verb.ends_with("sh") => format!("{verb}es"),
        None => format!("{verb}s"),
    }
}

/// A term as its line has it, with an article.
fn article(scenario: &Scenario, t: u16) -> String {
    let text = scenario.term_text(t);
    let vowel = ["idevid", "ldevid", "attest"].iter().any(|word| text.starts_with(word));
    format!("{} {text}", if vowel { "an" } else { "a" })
}

/// The family of certificates that a command issues.
pub fn family(kind: u8) -> &'static str {
    match kind {
        forms::ISSUE_LAK => "LAK",
        forms::ISSUE_IDEVID => "IDevID",
        forms::ISSUE_LDEVID => "LDevID",
        _ => "IAK",
    }
}

/// The certificates that a command asks to be issued.
pub fn asked_for(command: &Record) -> Vec<u16> {
    match command.kind {
        forms::ISSUE_IAK => vec![command.term(3)],
        forms::ISSUE_LAK..=forms::ISSUE_LDEVID => vec![command.term(2)],
        forms::ISSUE_IAKS => command.pairs().into_iter().map(|(_, r)| r).collect(),
        _ => Vec::new(),
    }
}

/// Who knows a term in a state.
pub fn known_to(scenario: &Scenario, state: &Buffers, t: u16) -> String {
    let knowers = (0..scenario.parties.len() as u8).filter(|p| state.knows(*p, t));
    let names: Vec<&str> = knowers.map(|p| scenario.party_name(p)).collect();
    format!("known to {}", if names.is_empty() { "nobody".into() } else { listed(&names, "and") })
}

/// "1 command", "2 commands".
pub fn count(n: usize, what: &str) -> String {
    format!("{n} {what}{}", if n == 1 { "" } else { "s" })
}
