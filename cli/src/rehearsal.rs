//! A run of a scenario by the engine, with the reason of each refusal.

use std::collections::HashMap;

use birdweekly::{Buffers, Entry, RunAnswer};

use crate::effects::Effects;
use crate::reasons::{reason, Reason};
use crate::scenario::{Record, Scenario};
use crate::words::{asked_for, family};

/// What became of a scenario's commands.
pub struct Rehearsal {
    after: Buffers,
    pub accepted: usize,
    pub refused: usize,
    /// One a command: none where it is accepted.
    pub reasons: Vec<Option<Reason>>,
}

/// An issued certificate.
pub struct Issued {
    pub entry: Entry,
    pub family: &'static str,
    /// The ordinal of the command.
    pub by: usize,
    /// From the certificate to its endorsement certificate.
    pub path: Vec<u16>,
}

impl Rehearsal {
    /// Runs a file. One that does not load has no commands to run.
    pub fn of(bytes: &[u8], scenario: &Scenario) -> Rehearsal {
        let mut after = Buffers::new();
        let (accepted, refused) = match after.run_all(bytes) {
            RunAnswer::Ran { accepted, refused, .. } => (accepted, refused),
            RunAnswer::Refused(_) => (0, 0),
        };
        let effects = Effects::of(scenario);
        let mut before = Buffers::new();
        let mut reached = None;
        let mut reasons = Vec::with_capacity(scenario.commands.len());
        for (i, outcome) in after.outcomes().iter().enumerate() {
            if *outcome == 0 {
                reached = None;
                reasons.push(None);
                continue;
            }
            // A refused command changes nothing, so that the state before it serves for those after it, up to one that is accepted.
            if reached.is_none() {
                before.run(bytes, i);
                reached = Some(i);
            }
            let told = reason(scenario, &effects, &before, i).filter(|told| told.number == *outcome);
            let general = || Reason { number: *outcome, details: Vec::new() };
            reasons.push(Some(told.unwrap_or_else(general)));
        }
        Rehearsal { after, accepted: accepted as usize, refused: refused as usize, reasons }
    }

    /// What the run left.
    pub fn after(&self) -> &Buffers {
        &self.after
    }

    /// The refused commands, with their ordinals.
    pub fn refusals<'a>(&'a self, scenario: &'a Scenario) -> impl Iterator<Item = (usize, &'a Record, &'a Reason)> {
        let each = scenario.commands.iter().zip(&self.reasons).enumerate();
        each.filter_map(|(i, (command, reason))| reason.as_ref().map(|reason| (i, command, reason)))
    }

    /// The ledger, in order.
    pub fn issued(&self, scenario: &Scenario) -> Vec<Issued> {
        let mut by = HashMap::new();
        for (i, (command, reason)) in scenario.commands.iter().zip(&self.reasons).enumerate() {
            if reason.is_none() {
                for certificate in asked_for(command) {
                    by.entry(certificate).or_insert(i);
                }
            }
        }
        let each = |entry: Entry| {
            let by = by.get(&entry.certificate).copied().unwrap_or(0);
            let path = self.after.path(entry.certificate).map_or(Vec::new(), |path| path.collect());
            Issued { entry, family: scenario.commands.get(by).map_or("", |command| family(command.kind)), by, path }
        };
        self.after.ledger().map(each).collect()
    }
}
