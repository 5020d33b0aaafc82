//! What commands would do if they were accepted, found by party and term.

use std::collections::HashMap;

use crate::forms;
use crate::scenario::{Record, Scenario};
use crate::words::asked_for;

/// What a command would do with a term.
#[derive(Clone, Copy, Debug, PartialEq, Eq, Hash)]
pub enum Effect {
    /// A party learns it; the parts of it are not counted.
    Teaches(u8),
    /// A party's TPM has a ticket for a hash then.
    Tickets(u8),
    /// A credential is open then.
    Opens,
    /// A certificate is in the ledger then.
    Issues,
    /// A party's register shows it then.
    Shows(u8, u8),
}

/// The ordinals of the commands with an effect on a term, in order.
pub struct Effects(HashMap<(Effect, u16), Vec<usize>>);

impl Effects {
    pub fn of(scenario: &Scenario) -> Effects {
        let mut found: HashMap<(Effect, u16), Vec<usize>> = HashMap::new();
        for (i, command) in scenario.commands.iter().enumerate() {
            for effect in effects(scenario, command) {
                found.entry(effect).or_default().push(i);
            }
        }
        Effects(found)
    }

    /// Those of them before a command.
    pub fn before(&self, effect: Effect, term: u16, i: usize) -> &[usize] {
        let all = self.0.get(&(effect, term)).map_or(&[][..], |all| all);
        &all[..all.partition_point(|other| *other < i)]
    }
}

fn effects(scenario: &Scenario, command: &Record) -> Vec<(Effect, u16)> {
    let (p, r) = (command.party(0), command.term(1));
    match command.kind {
        0x30 if scenario.gets_no_ticket(r) => vec![(Effect::Teaches(p), r)],
        0x30 => vec![(Effect::Teaches(p), r), (Effect::Tickets(p), r)],
        0x31..=0x33 | 0x35..=0x37 | 0x3D | forms::QUOTE => vec![(Effect::Teaches(p), r)],
        forms::EXTEND => vec![(Effect::Shows(p, command.register()), command.term(2))],
        0x34 => {
            scenario.named(r, forms::CREDENTIAL, 1).into_iter().map(|number| (Effect::Teaches(p), number)).collect()
        }
        0x3C => vec![(Effect::Teaches(command.party(1)), command.term(2))],
        forms::CHALLENGE => vec![(Effect::Teaches(p), command.term(2)), (Effect::Opens, command.term(2))],
        _ => asked_for(command).into_iter().flat_map(|r| [(Effect::Teaches(p), r), (Effect::Issues, r)]).collect(),
    }
}
