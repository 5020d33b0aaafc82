//! The listing of document 01, in numbers.

use std::fmt::Write;

use crate::rehearsal::Rehearsal;
use crate::scenario::Scenario;

/// "R ordinal number", "I certificate parent depth", "T accepted refused issued".
pub fn listing(scenario: &Scenario, rehearsal: &Rehearsal) -> String {
    let mut text = String::new();
    for (i, _, reason) in rehearsal.refusals(scenario) {
        let _ = writeln!(text, "R {i} {}", reason.number);
    }
    let mut issued = 0;
    for entry in rehearsal.after().ledger() {
        let _ = writeln!(text, "I {} {} {}", entry.certificate, entry.parent, entry.depth);
        issued += 1;
    }
    let _ = writeln!(text, "T {} {} {issued}", rehearsal.accepted, rehearsal.refused);
    text
}
