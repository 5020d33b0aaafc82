//! Why a file does not load: the refusal of a record, 2 to 12, in words, and which field or condition it is.

use birdweekly::FILE_BYTES;

use crate::forms::{self, kind_of, role_words, term_words, Field, Kind, Section};
use crate::scenario::{word, Record, Scenario, Subject};
use crate::words::count;

/// The most parties and terms of a file.
const PARTIES: usize = 8;
const TERMS: usize = 1_024;

/// A refusal's number, and what it is about.
pub type Fault = (u32, String);

/// Document 01's words for a refusal of loading.
pub fn meaning(number: u32) -> &'static str {
    match number {
        1 => "buffer short",
        2 => "file too long",
        3 => "unknown kind",
        4 => "cut short",
        5 => "section order",
        6 => "ninth party or 1,025th term",
        7 => "field out of range, undeclared or not lower",
        8 => "wrong kind of term",
        9 => "term alike an earlier one",
        10 => "set-up 20 (learns) not allowed",
        11 => "set-up 21 (holds) not allowed",
        12 => "set-up 22 (signs-with) not allowed",
        _ => "refused",
    }
}

/// What is wrong with the record at a place; the records before it are in order.
pub fn fault(bytes: &[u8], whole: &Scenario, place: usize) -> Option<Fault> {
    if bytes.len() > FILE_BYTES {
        return Some((2, format!("the file has more than {FILE_BYTES} bytes")));
    }
    let byte = *bytes.get(place)?;
    let Some(kind) = kind_of(byte) else {
        return Some((3, format!("{byte:02X} hex is the kind of no record")));
    };
    let left = bytes.len() - place - 1;
    if left < kind.body() {
        return Some((
            4,
            format!(
                "after the kind {byte:02X} hex ({}) {} must follow, and {left} do",
                kind.name,
                count(kind.body(), "byte")
            ),
        ));
    }
    let before = Before { scenario: whole, place };
    let body = &bytes[place + 1..place + 1 + kind.body()];
    before
        .section(kind)
        .or_else(|| before.count(kind))
        .or_else(|| before.fields(kind, body))
        .or_else(|| before.alike(kind))
        .or_else(|| before.set_up(kind))
}

/// The records before a place.
struct Before<'a> {
    scenario: &'a Scenario,
    place: usize,
}

impl<'a> Before<'a> {
    fn parties(&self) -> usize {
        self.scenario.parties.iter().filter(|record| record.place < self.place).count()
    }

    fn terms(&self) -> usize {
        self.scenario.terms.iter().filter(|record| record.place < self.place).count()
    }

    fn setup(&self) -> impl Iterator<Item = &'a Record> + '_ {
        self.scenario.setup.iter().filter(|record| record.place < self.place)
    }

    /// The record at the place.
    fn record(&self) -> Option<&'a Record> {
        self.scenario.records().find(|record| record.place == self.place)
    }

    fn term(&self, t: u16) -> &str {
        self.scenario.term_name_of(t)
    }

    fn party(&self, p: u8) -> &str {
        self.scenario.party_name(p)
    }

    fn section(&self, kind: &Kind) -> Option<Fault> {
        let latest = self
            .scenario
            .records()
            .filter(|record| record.place < self.place)
            .map(|record| record.form().section())
            .max()?;
        let words = format!(
            "{} stands after {}: parties, terms, set-up and commands go in this order",
            kind.section().words(),
            latest.words()
        );
        (kind.section() < latest).then_some((5, words))
    }

    fn count(&self, kind: &Kind) -> Option<Fault> {
        match kind.section() {
            Section::Parties if self.parties() >= PARTIES => {
                Some((6, format!("there are {PARTIES} parties already, and no more are allowed")))
            }
            Section::Terms if self.terms() >= TERMS => {
                Some((6, format!("there are {TERMS} terms already, and no more are allowed")))
            }
            _ => None,
        }
    }

    fn fields(&self, kind: &Kind, body: &[u8]) -> Option<Fault> {
        let mut at = 0;
        for (i, field) in kind.fields.iter().enumerate() {
            let which = format!("field {} of {}", i + 1, kind.fields.len());
            if let Some((number, words)) = self.field(*field, &body[at..]) {
                return Some((number, format!("{which}: {words}")));
            }
            at += field.width();
        }
        None
    }

    fn field(&self, field: Field, body: &[u8]) -> Option<Fault> {
        let first = body[0];
        match field {
            Field::Role if first >= forms::ROLES.len() as u8 => {
                Some((7, format!("{first} is no role; roles are 0 to 3")))
            }
            Field::Attributes if first >= forms::ATTRIBUTES => {
                Some((7, format!("{first:02X} hex is no sum of attributes")))
            }
            Field::Subject if first > 1 => Some((7, format!("{first} begins no Subject; 0 is a TPM, 1 a device"))),
            Field::Party if first as usize >= self.parties() => {
                Some((7, format!("party {first} is not declared; there are {}", self.parties())))
            }
            Field::Register if first >= forms::REGISTERS => {
                Some((7, format!("{first} is no register; registers are 0 to {}", forms::REGISTERS - 1)))
            }
            Field::Role | Field::Attributes | Field::Subject | Field::Party | Field::Register | Field::Identifier => {
                None
            }
            Field::AnyTerm => self.declared(word(body)),
            Field::Term(called_for) => self.of_kind(word(body), called_for),
            Field::Over(called_for, over) => {
                let t = word(body);
                self.of_kind(t, called_for).or_else(|| {
                    let content = self.scenario.term(t)?.term(0);
                    let kind = self.scenario.term(content)?.kind;
                    let words = format!(
                        "{} is {} of {}, {}; {} is called for",
                        self.term(t),
                        term_words(called_for),
                        self.term(content),
                        term_words(kind),
                        field.words()
                    );
                    (kind != over).then_some((8, words))
                })
            }
            Field::Pairs => (0..forms::PAIRS).find_map(|i| {
                let (credential, certificate) = (word(&body[4 * i..]), word(&body[4 * i + 2..]));
                if (credential, certificate) == (forms::EMPTY, forms::EMPTY) {
                    return None;
                }
                let found = self
                    .of_kind(credential, forms::CREDENTIAL)
                    .or_else(|| self.of_kind(certificate, forms::CERTIFICATE));
                found.map(|(number, words)| (number, format!("pair {}: {words}", i + 1)))
            }),
        }
    }

    fn declared(&self, t: u16) -> Option<Fault> {
        let terms = self.terms();
        (t as usize >= terms).then(|| (7, format!("term {t} is not declared before; there are {terms}")))
    }

    fn of_kind(&self, t: u16, called_for: u8) -> Option<Fault> {
        self.declared(t).or_else(|| {
            let kind = self.scenario.term(t)?.kind;
            let words =
                || format!("{} is {}; {} is called for", self.term(t), term_words(kind), term_words(called_for));
            (kind != called_for).then(|| (8, words()))
        })
    }

    fn alike(&self, kind: &Kind) -> Option<Fault> {
        if kind.section() != Section::Terms {
            return None;
        }
        let record = self.record()?;
        let same =
            |other: &&Record| other.place < self.place && other.kind == record.kind && other.values == record.values;
        let t = self.scenario.terms.iter().position(|other| same(&other))?;
        Some((9, format!("the same term as {} (term {t}); a file has each term once", self.term(t as u16))))
    }

    fn set_up(&self, kind: &Kind) -> Option<Fault> {
        let record = self.record()?;
        let (p, t) = (record.party(0), record.term(1));
        let (party, term) = (self.party(p), self.term(t));
        match kind.byte {
            forms::LEARNS => {
                self.may_not_learn(t).map(|words| (10, format!("{party} may not learn {term} at set-up: {words}")))
            }
            forms::HOLDS => {
                let other = self
                    .setup()
                    .find(|other| other.kind == forms::HOLDS && other.term(1) == t && other.party(0) != p)?;
                let fixed = self.scenario.attributes(t) & forms::FIXED_TPM != 0;
                let words = format!(
                    "{term} has fixedtpm, so that one TPM alone may hold it, and that of {} does",
                    self.party(other.party(0))
                );
                fixed.then_some((11, words))
            }
            forms::SIGNS_WITH => {
                self.may_not_sign(p, t).map(|words| (12, format!("{party} may not sign with {term}: {words}")))
            }
            _ => None,
        }
    }

    fn may_not_learn(&self, t: u16) -> Option<String> {
        let record = self.scenario.term(t)?;
        match record.kind {
            forms::PUBLIC_KEY | forms::NUMBER => None,
            forms::CERTIFICATE => {
                let signer = record.term(2);
                let makers = |other: &&Record| {
                    other.kind == forms::SIGNS_WITH
                        && other.term(1) == signer
                        && self.scenario.is_role(other.party(0), forms::TPM_MAKER)
                };
                if matches!(record.subject(), Some(Subject::Device(_))) {
                    Some("it is a certificate of a device; only those of TPMs are given at set-up".into())
                } else if self.setup().any(|other| makers(&other)) {
                    None
                } else {
                    let signs = |other: &&Record| other.kind == forms::SIGNS_WITH && other.term(1) == signer;
                    let whose = self.setup().find(signs).map(|other| other.party(0));
                    let whose = whose.map_or("nobody's signing key so far".into(), |party| {
                        let role = self.scenario.role(party).map_or("", role_words);
                        format!("the signing key of {}, {role}", self.party(party))
                    });
                    Some(format!("its signer {} is {whose}; that of a TPM maker is called for", self.term(signer)))
                }
            }
            kind => Some(format!(
                "it is {}; only public keys, numbers and certificates of TPMs are given at set-up",
                term_words(kind)
            )),
        }
    }

    fn may_not_sign(&self, p: u8, key: u16) -> Option<String> {
        let party = self.party(p);
        let attributes = self.scenario.attributes(key);
        if self.scenario.is_role(p, forms::DEVICE) {
            Some(format!("it is {}, and devices have no signing key", role_words(forms::DEVICE)))
        } else if let Some(other) = self.setup().find(|other| other.kind == forms::SIGNS_WITH && other.party(0) == p) {
            Some(format!("it has a signing key already, {}", self.term(other.term(1))))
        } else if attributes != forms::SIGNING_KEY {
            let (has, wanted) = (forms::attributes_text(attributes), forms::attributes_text(forms::SIGNING_KEY));
            Some(format!("the key has the attributes {has}; {wanted} are called for"))
        } else if !self.setup().any(|other| other.kind == forms::HOLDS && other.party(0) == p && other.term(1) == key) {
            Some(format!("no line before says that {party} holds it"))
        } else {
            None
        }
    }
}
