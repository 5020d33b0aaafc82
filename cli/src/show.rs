//! A scenario's text, written from its records.

use std::fmt::Write;

use crate::scenario::{Record, Scenario};

/// The widest column that lines are padded to.
const WIDEST: usize = 64;

/// The text of a scenario's records that begin before a place, section by section.
pub fn show(scenario: &Scenario, end: usize) -> String {
    let terms = || scenario.terms.iter().zip(&scenario.term_names).filter(|(record, _)| record.place < end);
    let longest = terms().map(|(_, name)| name.chars().count()).max().unwrap_or(0).min(WIDEST);
    let lines: Vec<String> = terms().map(|(record, name)| scenario.line(record, &format!("{name:longest$}"))).collect();
    let column = lines.iter().map(|line| line.chars().count()).max().unwrap_or(0).min(WIDEST);
    let numbered = lines.iter().enumerate().map(|(t, line)| format!("{line:column$}  # term {t}"));
    let parties = scenario.parties.iter().zip(&scenario.party_names).filter(|(record, _)| record.place < end);
    let unnamed = |records: &[Record]| -> Vec<String> {
        records.iter().filter(|record| record.place < end).map(|record| scenario.line(record, "")).collect()
    };
    let sections = [
        parties.map(|(record, name)| scenario.line(record, name)).collect(),
        numbered.collect(),
        unnamed(&scenario.setup),
        unnamed(&scenario.commands),
    ];
    let mut text = String::new();
    for lines in sections.into_iter().filter(|lines| !lines.is_empty()) {
        if !text.is_empty() {
            text.push('\n');
        }
        for line in lines {
            let _ = writeln!(text, "{line}");
        }
    }
    text
}
