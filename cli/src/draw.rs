//! The certificates of a run as a graph for Graphviz's dot: a cluster for each TPM, an edge from a certificate to its parent, and the desk
//! commands that were refused.

use std::collections::{BTreeMap, BTreeSet};
use std::fmt::Write;

use crate::effects::{Effect, Effects};
use crate::forms;
use crate::reasons::{meaning, Reason};
use crate::rehearsal::Rehearsal;
use crate::scenario::{Record, Scenario};
use crate::words::{asked_for, count};

/// Fill colours: of endorsement certificates, of the families of issued ones, of refused commands.
const ENDORSEMENT: &str = "#f3e3b3";
const REFUSED: &str = "#fbe3e3";
const REFUSED_EDGE: &str = "#c62828";

fn fill(family: &str) -> &'static str {
    match family {
        "IAK" => "#bcd7f2",
        "LAK" => "#c5e6c2",
        "IDevID" => "#dcd3f0",
        _ => "#d9efe9",
    }
}

/// The graph in dot's language.
pub fn draw(name: &str, scenario: &Scenario, rehearsal: &Rehearsal) -> String {
    let effects = Effects::of(scenario);
    let (nodes, edges, drawn) = (BTreeMap::new(), String::new(), BTreeSet::new());
    let mut picture = Picture { scenario, rehearsal, effects, nodes, edges, drawn };
    picture.endorsements();
    picture.issued();
    picture.refused();
    picture.text(name)
}

struct Picture<'a> {
    scenario: &'a Scenario,
    rehearsal: &'a Rehearsal,
    effects: Effects,
    /// Nodes by the party whose TPM they belong to; none for those outside.
    nodes: BTreeMap<Option<u8>, String>,
    edges: String,
    /// Certificates that have a node.
    drawn: BTreeSet<u16>,
}

impl Picture<'_> {
    fn node(&mut self, tpm: Option<u8>, id: &str, label: &[String], look: &str) {
        let label = label.iter().map(|line| escaped(line)).collect::<Vec<_>>().join("\\n");
        let _ = writeln!(self.nodes.entry(tpm).or_default(), "    {id} [label=\"{label}\", {look}];");
    }

    /// The one TPM that holds the private half of a key.
    fn tpm(&self, key: Option<u16>) -> Option<u8> {
        match self.scenario.half_holders(key?)[..] {
            [party] => Some(party),
            _ => None,
        }
    }

    fn certified(&self, certificate: u16) -> Option<u16> {
        self.scenario.named(certificate, forms::CERTIFICATE, 0)
    }

    /// Certificates of the set-up.
    fn endorsements(&mut self) {
        let given = |record: &&Record| {
            record.kind == forms::LEARNS && self.scenario.is_kind(record.term(1), forms::CERTIFICATE)
        };
        let given: BTreeSet<u16> = self.scenario.setup.iter().filter(given).map(|record| record.term(1)).collect();
        for t in given {
            let label =
                [self.scenario.term_name_of(t).to_string(), format!("EK certificate, {}", self.scenario.subject_of(t))];
            let tpm = self.tpm(self.certified(t));
            self.node(tpm, &format!("t{t}"), &label, &format!("fillcolor=\"{ENDORSEMENT}\", style=\"filled\""));
            self.drawn.insert(t);
        }
    }

    fn issued(&mut self) {
        for one in self.rehearsal.issued(self.scenario) {
            let t = one.entry.certificate;
            let label = [
                self.scenario.term_name_of(t).to_string(),
                format!("{}, {}, depth {}", one.family, self.scenario.subject_of(t), one.entry.depth),
            ];
            let tpm = self.tpm(self.certified(t));
            self.node(tpm, &format!("t{t}"), &label, &format!("fillcolor=\"{}\"", fill(one.family)));
            let _ = writeln!(self.edges, "  t{t} -> t{};", one.entry.parent);
            self.drawn.insert(t);
        }
    }

    /// The body of a request, where it is a pair with one.
    fn body(&self, request: u16) -> Option<&Record> {
        let body = self.scenario.named(request, forms::PAIR, 0)?;
        self.scenario.term(body).filter(|record| matches!(record.kind, forms::IDEVID_REQUEST | forms::LDEVID_REQUEST))
    }

    /// The requests that a desk command is about: of a credential, that of the challenge before which opened it.
    fn requests(&self, i: usize, command: &Record) -> Vec<u16> {
        let opened = |credential: u16| {
            let before = self.effects.before(Effect::Opens, credential, i);
            let by = before.iter().find(|i| self.rehearsal.reasons[**i].is_none());
            by.map(|i| self.scenario.commands[*i].term(1))
        };
        match command.kind {
            forms::ISSUE_IAK => opened(command.term(2)).into_iter().collect(),
            forms::ISSUE_IAKS => command.pairs().into_iter().filter_map(|(credential, _)| opened(credential)).collect(),
            _ => vec![command.term(1)],
        }
    }

    fn refused(&mut self) {
        let desks = |kind: u8| (forms::CHALLENGE..=forms::ISSUE_IAKS).contains(&kind);
        let refused: Vec<(usize, &Record, &Reason)> =
            self.rehearsal.refusals(self.scenario).filter(|(_, command, _)| desks(command.kind)).collect();
        for (i, command, reason) in refused {
            let (scenario, asked) = (self.scenario, asked_for(command));
            let desk = scenario.party_name(command.party(0));
            let mut label = vec![format!("{}, command {i} of {desk}", command.form().name)];
            label.extend(asked.iter().map(|t| format!("{}, {}", scenario.term_name_of(*t), scenario.subject_of(*t))));
            label.push(format!("refused, {}: {}", reason.number, meaning(reason.number)));
            let requests = self.requests(i, command);
            let bodies: Vec<&Record> = requests.iter().filter_map(|request| self.body(*request)).collect();
            let parents: BTreeSet<u16> = bodies.iter().map(|record| record.term(1)).collect();
            let named = |record: &Record| (record.kind == forms::IDEVID_REQUEST).then(|| record.term(2));
            let key =
                asked.first().and_then(|t| self.certified(*t)).or_else(|| bodies.first().and_then(|body| named(body)));
            let tpm = self.tpm(key);
            let look = format!("fillcolor=\"{REFUSED}\", color=\"{REFUSED_EDGE}\", fontcolor=\"{REFUSED_EDGE}\", style=\"filled,dashed\"");
            self.node(tpm, &format!("c{i}"), &label, &look);
            for parent in parents.intersection(&self.drawn) {
                let _ = writeln!(self.edges, "  c{i} -> t{parent} [color=\"{REFUSED_EDGE}\", style=dashed];");
            }
        }
    }

    fn text(&self, name: &str) -> String {
        let mut text = String::from("digraph certificates {\n  rankdir=BT; ordering=in;\n");
        let (accepted, refused) = (count(self.rehearsal.accepted, "command"), self.rehearsal.refused);
        let title = format!("{}\\n{accepted} accepted, {refused} refused", escaped(name));
        let _ = writeln!(text, "  label=\"{title}\"; labelloc=t; fontname=\"Helvetica\"; fontsize=16;");
        text.push_str(
            "  node [shape=box, style=\"filled,rounded\", fontname=\"Helvetica\", fontsize=12, color=\"#555555\"];\n",
        );
        text.push_str("  edge [color=\"#555555\"];\n  nodesep=0.3; ranksep=0.35;\n");
        for (tpm, nodes) in &self.nodes {
            match tpm {
                Some(party) => {
                    let label = format!("TPM of {}", self.scenario.party_name(*party));
                    let _ = writeln!(text, "  subgraph cluster_{party} {{");
                    let _ = writeln!(
                        text,
                        "    label=\"{}\"; labelloc=b; color=\"#999999\"; fontname=\"Helvetica\"; fontsize=14;",
                        escaped(&label)
                    );
                    let _ = writeln!(text, "{nodes}  }}");
                }
                None => text.push_str(nodes),
            }
        }
        let _ = writeln!(text, "{}}}", self.edges);
        text
    }
}

fn escaped(text: &str) -> String {
    text.replace('\\', "\\\\").replace('"', "\\\"")
}
