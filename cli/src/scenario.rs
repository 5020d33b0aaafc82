//! A scenario file cut into records, with a name for every party and term.

use crate::forms::{self, kind_of, Field, Kind, Section, EMPTY, PAIRS};

#[derive(Clone, Copy, Debug, PartialEq, Eq)]
pub enum Subject {
    Tpm(u16),
    Device(u16),
}

/// A field's value.
#[derive(Clone, Copy, Debug, PartialEq, Eq)]
pub enum Value {
    Role(u8),
    Identifier(u16),
    Attributes(u8),
    Subject(Subject),
    Party(u8),
    Register(u8),
    Term(u16),
    /// Pairs of credential and certificate; some may be empty.
    Pairs([Option<(u16, u16)>; PAIRS]),
}

/// A record with its first byte's place.
#[derive(Clone, Debug, PartialEq, Eq)]
pub struct Record {
    pub kind: u8,
    pub place: usize,
    pub values: Vec<Value>,
}

impl Record {
    pub fn form(&self) -> &'static Kind {
        kind_of(self.kind).expect("records are made of known kinds")
    }

    /// The term in field i.
    pub fn term(&self, i: usize) -> u16 {
        match self.values.get(i) {
            Some(Value::Term(t)) => *t,
            _ => EMPTY,
        }
    }

    /// The party in field i.
    pub fn party(&self, i: usize) -> u8 {
        match self.values.get(i) {
            Some(Value::Party(p)) => *p,
            _ => u8::MAX,
        }
    }

    pub fn attributes(&self) -> u8 {
        let found = self.values.iter().find_map(|value| match value {
            Value::Attributes(a) => Some(*a),
            _ => None,
        });
        found.unwrap_or(0)
    }

    pub fn subject(&self) -> Option<Subject> {
        self.values.iter().find_map(|value| match value {
            Value::Subject(subject) => Some(*subject),
            _ => None,
        })
    }

    /// The register of a 1B, a 1C or a 44.
    pub fn register(&self) -> u8 {
        let found = self.values.iter().find_map(|value| match value {
            Value::Register(register) => Some(*register),
            _ => None,
        });
        found.unwrap_or(u8::MAX)
    }

    /// The pairs of a 43 that are not empty.
    pub fn pairs(&self) -> Vec<(u16, u16)> {
        let pairs = self.values.iter().find_map(|value| match value {
            Value::Pairs(pairs) => Some(*pairs),
            _ => None,
        });
        pairs.into_iter().flatten().flatten().collect()
    }

    pub fn bytes(&self) -> Vec<u8> {
        let mut bytes = vec![self.kind];
        for value in &self.values {
            match *value {
                Value::Role(x) | Value::Attributes(x) | Value::Party(x) | Value::Register(x) => bytes.push(x),
                Value::Identifier(x) | Value::Term(x) => bytes.extend(x.to_be_bytes()),
                Value::Subject(Subject::Tpm(n)) => bytes.extend([0].into_iter().chain(n.to_be_bytes())),
                Value::Subject(Subject::Device(n)) => bytes.extend([1].into_iter().chain(n.to_be_bytes())),
                Value::Pairs(pairs) => {
                    for pair in pairs {
                        let (credential, certificate) = pair.unwrap_or((EMPTY, EMPTY));
                        bytes.extend(credential.to_be_bytes().into_iter().chain(certificate.to_be_bytes()));
                    }
                }
            }
        }
        bytes
    }
}

/// Two bytes, high byte first.
pub fn word(bytes: &[u8]) -> u16 {
    u16::from_be_bytes([bytes[0], bytes[1]])
}

fn value(field: Field, bytes: &[u8]) -> Value {
    match field {
        Field::Role => Value::Role(bytes[0]),
        Field::Attributes => Value::Attributes(bytes[0]),
        Field::Party => Value::Party(bytes[0]),
        Field::Register => Value::Register(bytes[0]),
        Field::Identifier => Value::Identifier(word(bytes)),
        Field::AnyTerm | Field::Term(_) | Field::Over(..) => Value::Term(word(bytes)),
        Field::Subject => {
            let number = word(&bytes[1..]);
            Value::Subject(if bytes[0] == 0 { Subject::Tpm(number) } else { Subject::Device(number) })
        }
        Field::Pairs => Value::Pairs(std::array::from_fn(|i| {
            let pair = (word(&bytes[4 * i..]), word(&bytes[4 * i + 2..]));
            (pair != (EMPTY, EMPTY)).then_some(pair)
        })),
    }
}

/// A file's records, section by section.
#[derive(Clone, Debug, Default, PartialEq, Eq)]
pub struct Scenario {
    pub parties: Vec<Record>,
    pub terms: Vec<Record>,
    pub setup: Vec<Record>,
    pub commands: Vec<Record>,
    pub party_names: Vec<String>,
    pub term_names: Vec<String>,
}

impl Scenario {
    /// The records of the bytes up to the first that is cut short or of no kind, named by what they are.
    pub fn of_bytes(bytes: &[u8]) -> Scenario {
        let mut scenario = Scenario::default();
        let mut place = 0;
        while let Some(kind) = bytes.get(place).and_then(|byte| kind_of(*byte)) {
            let mut at = place + 1;
            let end = at + kind.body();
            if end > bytes.len() {
                break;
            }
            let mut values = Vec::with_capacity(kind.fields.len());
            for field in kind.fields {
                values.push(value(*field, &bytes[at..]));
                at += field.width();
            }
            scenario.section_mut(kind.section()).push(Record { kind: kind.byte, place, values });
            place = end;
        }
        scenario.name();
        scenario
    }

    pub fn section_mut(&mut self, section: Section) -> &mut Vec<Record> {
        match section {
            Section::Parties => &mut self.parties,
            Section::Terms => &mut self.terms,
            Section::SetUp => &mut self.setup,
            Section::Commands => &mut self.commands,
        }
    }

    pub fn records(&self) -> impl Iterator<Item = &Record> {
        self.parties.iter().chain(&self.terms).chain(&self.setup).chain(&self.commands)
    }

    pub fn bytes(&self) -> Vec<u8> {
        self.records().flat_map(|record| record.bytes()).collect()
    }

    /// Names for a file that has none: keys and numbers by their id, registers by their index, parties and other terms
    /// by their own number.
    fn name(&mut self) {
        let short = ["device", "maker", "oem", "owner"];
        let party = |(p, record): (usize, &Record)| match record.values[..] {
            [Value::Role(role)] => format!("{}{p}", short.get(role as usize).unwrap_or(&"party")),
            _ => format!("party{p}"),
        };
        self.party_names = self.parties.iter().enumerate().map(party).collect();
        self.term_names = (0..self.terms.len()).map(|t| self.term_name(t)).collect();
    }

    fn term_name(&self, t: usize) -> String {
        let record = &self.terms[t];
        let id = match record.values[0] {
            Value::Identifier(id) => id,
            _ => 0,
        };
        match record.kind {
            forms::PUBLIC_KEY => key_name(id, record.attributes()),
            forms::PRIVATE_KEY => key_name(id, record.attributes()) + "-private",
            forms::NUMBER => format!("number{id}"),
            forms::REGISTER => format!("register{}", record.register()),
            forms::CERTIFICATE if matches!(record.subject(), Some(Subject::Tpm(_))) => format!("tpm-certificate{t}"),
            _ => format!("{}{t}", record.form().name),
        }
    }

    pub fn role(&self, party: u8) -> Option<u8> {
        match self.parties.get(party as usize)?.values[..] {
            [Value::Role(role)] => Some(role),
            _ => None,
        }
    }

    pub fn is_role(&self, party: u8, role: u8) -> bool {
        self.role(party) == Some(role)
    }

    pub fn party_name(&self, party: u8) -> &str {
        self.party_names.get(party as usize).map_or("an undeclared party", |name| name)
    }

    pub fn term_name_of(&self, term: u16) -> &str {
        self.term_names.get(term as usize).map_or("an undeclared term", |name| name)
    }

    pub fn term(&self, term: u16) -> Option<&Record> {
        self.terms.get(term as usize)
    }

    pub fn is_kind(&self, term: u16, kind: u8) -> bool {
        self.term(term).is_some_and(|record| record.kind == kind)
    }

    /// The term in field i of a term of this kind.
    pub fn named(&self, term: u16, kind: u8, i: usize) -> Option<u16> {
        self.term(term).filter(|record| record.kind == kind).map(|record| record.term(i))
    }

    /// A hash of what a TPM makes by itself.
    pub fn gets_no_ticket(&self, hash: u16) -> bool {
        let content = self.named(hash, forms::HASH, 0).and_then(|content| self.term(content));
        content.is_some_and(|record| forms::TPM_GENERATED.contains(&record.kind))
    }

    /// What an extend to a hash makes it of: the value that the register is to show before, and the term that is added.
    pub fn extended(&self, hash: u16) -> Option<(u16, u16)> {
        let pair = self.named(hash, forms::HASH, 0)?;
        Some((self.named(pair, forms::PAIR, 0)?, self.named(pair, forms::PAIR, 1)?))
    }

    /// What a register showed that shows a value now: that value and those before it, down to the 1B that it started
    /// at.
    pub fn register_values(&self, now: u16) -> Vec<u16> {
        std::iter::successors(Some(now), |t| self.extended(*t).map(|(old, _)| old)).collect()
    }

    /// A term or a command of it is about registers.
    pub fn has_registers(&self) -> bool {
        let of_registers = [forms::REGISTER, forms::QUOTE_BODY, forms::EXTEND, forms::QUOTE];
        self.records().any(|record| of_registers.contains(&record.kind))
    }

    /// What a signed quote says: the register, its value, and the number.
    pub fn quoted(&self, signature: u16) -> Option<(u8, u16, u16)> {
        let body = self.named(signature, forms::SIGNATURE, 0)?;
        let body = self.term(body).filter(|record| record.kind == forms::QUOTE_BODY)?;
        Some((body.register(), body.term(1), body.term(2)))
    }

    /// The Subject of a request or a certificate, as its line has it.
    pub fn subject_of(&self, term: u16) -> String {
        self.term(term).and_then(|record| record.subject()).map_or(String::new(), subject_text)
    }

    /// The attributes of a key.
    pub fn attributes(&self, key: u16) -> u8 {
        self.term(key).map_or(0, |record| record.attributes())
    }

    /// A public and a private key are a pair if id and attributes both agree.
    pub fn are_pair(&self, public: u16, private: u16) -> bool {
        match (self.term(public), self.term(private)) {
            (Some(a), Some(b)) => a.kind == forms::PUBLIC_KEY && b.kind == forms::PRIVATE_KEY && a.values == b.values,
            _ => false,
        }
    }

    /// The other half of a key, where the file has it.
    pub fn other_half(&self, key: u16) -> Option<u16> {
        (0..self.terms.len() as u16).find(|&other| self.are_pair(key, other) || self.are_pair(other, key))
    }

    /// The party whose signing key a private key is.
    pub fn signing_party(&self, key: u16) -> Option<u8> {
        let gives = |record: &&Record| record.kind == forms::SIGNS_WITH && record.term(1) == key;
        self.setup.iter().find(gives).map(|record| record.party(0))
    }

    /// A party's signing key.
    pub fn signing_key(&self, party: u8) -> Option<u16> {
        let gives = |record: &&Record| record.kind == forms::SIGNS_WITH && record.party(0) == party;
        self.setup.iter().find(gives).map(|record| record.term(1))
    }

    /// The parties whose TPMs hold a private key.
    pub fn holders(&self, key: u16) -> Vec<u8> {
        let gives = |record: &&Record| record.kind == forms::HOLDS && record.term(1) == key;
        let mut parties: Vec<u8> = self.setup.iter().filter(gives).map(|record| record.party(0)).collect();
        parties.sort_unstable();
        parties.dedup();
        parties
    }

    /// The parties whose TPMs hold the private half of a public key.
    pub fn half_holders(&self, public: u16) -> Vec<u8> {
        self.other_half(public).map_or(Vec::new(), |half| self.holders(half))
    }

    /// A record's line in the text; the name is that of the party or term that it declares.
    pub fn line(&self, record: &Record, name: &str) -> String {
        let mut line = record.form().line.replacen('@', name, 1);
        for (i, value) in record.values.iter().enumerate() {
            line = line.replacen(&format!("{{{i}}}"), &self.value_text(value), 1);
        }
        line
    }

    /// A term as its line has it, without its name.
    pub fn term_text(&self, term: u16) -> String {
        match self.term(term) {
            Some(record) => self.line(record, "").trim_start_matches(" = ").to_string(),
            None => "an undeclared term".into(),
        }
    }

    fn value_text(&self, value: &Value) -> String {
        match *value {
            Value::Role(role) => {
                forms::ROLES.get(role as usize).map_or_else(|| role.to_string(), |name| name.to_string())
            }
            Value::Identifier(id) => id.to_string(),
            Value::Attributes(attributes) => forms::attributes_text(attributes),
            Value::Subject(subject) => subject_text(subject),
            Value::Party(party) => self.party_name(party).to_string(),
            Value::Register(register) => register.to_string(),
            Value::Term(term) => self.term_name_of(term).to_string(),
            Value::Pairs(pairs) => {
                let used = pairs.iter().rposition(|pair| pair.is_some()).map_or(1, |last| last + 1);
                let text = |pair: &Option<(u16, u16)>| match *pair {
                    Some((credential, r)) => format!("{} for {}", self.term_name_of(r), self.term_name_of(credential)),
                    None => "-".to_string(),
                };
                pairs[..used].iter().map(text).collect::<Vec<_>>().join(", ")
            }
        }
    }
}

fn key_name(id: u16, attributes: u8) -> String {
    match attributes {
        forms::ATTESTATION_KEY => format!("ak{id}"),
        forms::ENDORSEMENT_KEY => format!("ek{id}"),
        forms::SIGNING_KEY => format!("sk{id}"),
        _ => {
            let letters: String = (0..4).filter(|i| attributes >> i & 1 == 1).map(|i| &forms::FLAGS[i][..1]).collect();
            format!("key{id}{}{letters}", if letters.is_empty() { "" } else { "-" })
        }
    }
}

pub fn subject_text(subject: Subject) -> String {
    match subject {
        Subject::Tpm(n) => format!("tpm {n}"),
        Subject::Device(n) => format!("device {n}"),
    }
}
