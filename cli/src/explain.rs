//! Every command with its outcome and the reason of a refusal, then the certificates with their paths, then what
//! registers show.

use std::fmt::Write;

use crate::forms::{self, listed};
use crate::reasons::meaning;
use crate::rehearsal::Rehearsal;
use crate::scenario::Scenario;
use crate::source::Source;
use crate::words::{count, known_to, sentence};

/// Escapes for a terminal, or none.
pub struct Colours {
    pub good: &'static str,
    pub bad: &'static str,
    pub faint: &'static str,
    pub bold: &'static str,
    pub plain: &'static str,
}

pub const COLOURS: Colours =
    Colours { good: "\x1b[32m", bad: "\x1b[1;31m", faint: "\x1b[2m", bold: "\x1b[1m", plain: "\x1b[0m" };
pub const NO_COLOURS: Colours = Colours { good: "", bad: "", faint: "", bold: "", plain: "" };

/// The explanation of a run; of refused commands alone where the others are not wanted.
pub fn explain(source: &Source, rehearsal: &Rehearsal, refused_alone: bool, colours: &Colours) -> String {
    let Colours { good, bad, faint, bold, plain } = colours;
    let scenario = &source.scenario;
    let mut text = String::new();
    let lines = scenario.commands.first().is_some_and(|command| source.line(command.place).is_some());
    let header = if lines { "command  place   line  outcome" } else { "command  place  outcome" };
    let _ = writeln!(text, "{bold}{}{plain}\n{faint}{header}{plain}", source.name);
    for (i, (command, reason)) in scenario.commands.iter().zip(&rehearsal.reasons).enumerate() {
        if refused_alone && reason.is_none() {
            continue;
        }
        let mut start = format!("{i:7} {:6} ", command.place);
        if let Some(line) = source.line(command.place) {
            let _ = write!(start, "{line:6} ");
        }
        let margin = " ".repeat(start.len() + 1);
        let (colour, outcome) = if reason.is_none() { (good, "accepted") } else { (bad, "REFUSED ") };
        let (name, words) = (command.form().name, sentence(scenario, command, reason.is_some()));
        let _ = writeln!(text, "{start} {colour}{outcome}{plain}  {bold}{name}{plain}: {words}");
        if let Some(reason) = reason {
            let _ = writeln!(text, "{margin}{bad}{}: {}{plain}", reason.number, meaning(reason.number));
            for detail in &reason.details {
                let _ = writeln!(text, "{margin}- {detail}");
            }
        }
    }
    if scenario.commands.is_empty() {
        let _ = writeln!(text, "  there are no commands");
    }
    let _ = writeln!(text, "\n{bold}Ledger: the certificates issued, in order{plain}");
    let issued = rehearsal.issued(scenario);
    if issued.is_empty() {
        let _ = writeln!(text, "  none");
    }
    for one in &issued {
        let certificate = one.entry.certificate;
        let subject = scenario.subject_of(certificate);
        let desk = scenario.commands.get(one.by).map_or("", |command| scenario.party_name(command.party(0)));
        let names: Vec<&str> = one.path.iter().map(|t| scenario.term_name_of(*t)).collect();
        let _ = writeln!(
            text,
            "  {bold}{}{plain} (term {certificate}): {} certificate of {subject}, depth {}, issued by {desk} in command {}",
            scenario.term_name_of(certificate),
            one.family,
            one.entry.depth,
            one.by
        );
        let _ = writeln!(text, "      path: {}", names.join(" -> "));
        let _ = writeln!(text, "      keys on the path: {}", held(scenario, &one.path));
    }
    if scenario.has_registers() {
        registers(&mut text, scenario, rehearsal, colours);
    }
    let (accepted, refused) = (count(rehearsal.accepted, "command"), rehearsal.refused);
    let colour = if refused == 0 { good } else { bad };
    let _ = writeln!(
        text,
        "\n{colour}{accepted} accepted, {refused} refused, {} issued{plain}",
        count(issued.len(), "certificate")
    );
    text
}

/// What registers show at the end, and what they showed before.
fn registers(text: &mut String, scenario: &Scenario, rehearsal: &Rehearsal, colours: &Colours) {
    let (Colours { bold, plain, .. }, after) = (colours, rehearsal.after());
    let _ = writeln!(text, "\n{bold}Registers: what they show at the end{plain}");
    let all = (0..scenario.parties.len() as u8).flat_map(|p| (0..forms::REGISTERS).map(move |register| (p, register)));
    let mut empty = true;
    for (p, register, shown) in all.filter_map(|(p, register)| Some((p, register, after.register(p, register)?))) {
        empty = false;
        let (party, name) = (scenario.party_name(p), scenario.term_name_of(shown));
        let known = known_to(scenario, after, shown);
        let _ = writeln!(text, "  {bold}register {register} of {party}{plain}: {name} (term {shown}), {known}");
        let mut values = scenario.register_values(shown);
        values.reverse();
        if let [_, _, ..] = values[..] {
            let names: Vec<&str> = values.iter().map(|t| scenario.term_name_of(*t)).collect();
            let _ = writeln!(text, "      extended: {}", names.join(" -> "));
        }
    }
    if empty {
        let _ = writeln!(text, "  all are empty");
    }
}

/// Whose TPM holds all keys that the certificates of a path certify.
fn held(scenario: &Scenario, path: &[u16]) -> String {
    let holders =
        |t: &u16| scenario.named(*t, forms::CERTIFICATE, 0).map_or(Vec::new(), |key| scenario.half_holders(key));
    let each: Vec<Vec<u8>> = path.iter().map(holders).collect();
    let all = |p: &u8| each.iter().all(|holders| holders.contains(p));
    let names: Vec<&str> = (0..scenario.parties.len() as u8).filter(all).map(|p| scenario.party_name(p)).collect();
    match names[..] {
        [] => "no TPM holds all of them".into(),
        _ => format!("all held by the TPM of {}", listed(&names, "and")),
    }
}
