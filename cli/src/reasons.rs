//! Why a command is refused, in words. The tests of each command stand as in document 01 ("Device commands", "Desk commands", "Checks and
//! listing"), on the state that the engine left before the command; the engine's outcome byte is not looked at.

use birdweekly::{Buffers, Entry, Mark};

use crate::effects::{Effect, Effects};
use crate::forms::{self, attributes_text, role_words, term_words, DEVICE, OEM_DESK, OWNER_DESK, TPM_MAKER};
use crate::scenario::{subject_text, Record, Scenario, Subject};
use crate::words::known_to;

/// A refusal's number, and each thing that it is about.
#[derive(Clone, Debug, PartialEq, Eq)]
pub struct Reason {
    pub number: u8,
    pub details: Vec<String>,
}

/// The order in which refusals are looked for: 32 after 13, 33 after 17, 31 between 28 and 29, else by number; 22 is
/// not used.
const ORDER: [u8; 19] = [13, 32, 14, 15, 16, 17, 33, 18, 19, 20, 21, 23, 24, 25, 26, 27, 28, 31, 29];

/// The most steps from a certificate to an endorsement certificate.
const DEPTH: u16 = 8;

/// Document 01's words for a refusal.
pub fn meaning(number: u8) -> &'static str {
    match number {
        0 => "accepted",
        13 => "role may not do or send this",
        14 => "input not known",
        15 => "private half not held or none named",
        16 => "attributes forbid",
        17 => "restricted key, message no hash of this TPM",
        18 => "check false",
        19 => "request not of the right form",
        20 => "request's hash or a signature is wrong",
        21 => "certificate's Subject or signer is wrong",
        23 => "a key has other attributes than called for",
        24 => "number used, or not known to this desk alone",
        25 => "credential not open here",
        26 => "returning party no device, or without the number",
        27 => "result is not the one called for",
        28 => "certificate issued already",
        29 => "depth over 8",
        31 => "another endorsement key carries this Subject",
        32 => "all pairs empty, or two certificates alike",
        33 => "old or quoted value is not what the register shows",
        _ => "refused",
    }
}

/// Why the command of an ordinal is refused in the state before it; none where it is accepted.
pub fn reason(scenario: &Scenario, effects: &Effects, before: &Buffers, ordinal: usize) -> Option<Reason> {
    let command = scenario.commands.get(ordinal)?;
    let (closed, added, failed) = (Vec::new(), Vec::new(), Vec::new());
    let mut tests = Tests { scenario, effects, before, ordinal, closed, added, failed };
    tests.command(command);
    tests.lowest()
}

/// What an issuing command of a request asks: the desk's role, the new key's attributes, the roles that may have signed the parent.
struct Family {
    desk: u8,
    key: u8,
    signers: &'static [u8],
}

fn family(kind: u8) -> Family {
    match kind {
        forms::ISSUE_IDEVID => Family { desk: OEM_DESK, key: forms::SIGNING_KEY, signers: &[OEM_DESK] },
        forms::ISSUE_LDEVID => Family { desk: OWNER_DESK, key: forms::SIGNING_KEY, signers: &[OEM_DESK, OWNER_DESK] },
        _ => Family { desk: OWNER_DESK, key: forms::ATTESTATION_KEY, signers: &[OEM_DESK, OWNER_DESK] },
    }
}

struct Tests<'a> {
    scenario: &'a Scenario,
    effects: &'a Effects,
    before: &'a Buffers,
    /// Of the command.
    ordinal: usize,
    /// Inside a 43: the credentials that its pairs so far close, and the entries that they add.
    closed: Vec<u16>,
    added: Vec<Entry>,
    failed: Vec<(u8, String)>,
}

impl Tests<'_> {
    fn lowest(&self) -> Option<Reason> {
        let number = *ORDER.iter().find(|number| self.failed.iter().any(|(other, _)| other == *number))?;
        let mut details: Vec<String> = Vec::new();
        for (_, words) in self.failed.iter().filter(|(other, _)| *other == number) {
            if !details.contains(words) {
                details.push(words.clone());
            }
        }
        Some(Reason { number, details })
    }

    fn need(&mut self, number: u8, passes: bool, words: impl FnOnce(&Self) -> String) {
        if !passes {
            let words = words(self);
            self.failed.push((number, words));
        }
    }

    fn command(&mut self, command: &Record) {
        let (p, r) = (command.party(0), command.term(1));
        let name = command.form().name;
        match command.kind {
            0x30..=0x37 | 0x3D => {
                self.role(p, &[DEVICE], name);
                self.device(command.kind, p, r);
            }
            0x38..=0x3B => {
                self.role(p, &[DEVICE, OEM_DESK, OWNER_DESK], name);
                self.check(command, p, r);
            }
            0x3C => self.send(p, command.term(2)),
            forms::CHALLENGE => {
                self.role(p, &[OEM_DESK], name);
                self.challenge(p, r, command.term(2));
            }
            forms::ISSUE_IAK => {
                self.role(p, &[OEM_DESK], name);
                self.issue_iak(p, command.party(1), command.term(2), command.term(3));
            }
            forms::ISSUE_IAKS => {
                self.role(p, &[OEM_DESK], name);
                self.issue_iaks(p, command.party(1), &command.pairs());
            }
            forms::EXTEND => {
                self.role(p, &[DEVICE], name);
                self.extend(p, command.register(), command.term(2));
            }
            forms::QUOTE => {
                self.role(p, &[DEVICE], name);
                self.quote(p, r);
            }
            kind => {
                let family = family(kind);
                self.role(p, &[family.desk], name);
                self.issue(family, p, r, command.term(2));
            }
        }
    }

    // ---- names and tests that commands share

    fn name(&self, t: u16) -> String {
        self.scenario.term_name_of(t).to_string()
    }

    /// A term's name with what it is.
    fn told(&self, t: u16) -> String {
        format!("{} ({})", self.name(t), self.scenario.term_text(t))
    }

    fn party(&self, p: u8) -> String {
        self.scenario.party_name(p).to_string()
    }

    fn parties(&self, parties: &[u8]) -> String {
        let names: Vec<String> = parties.iter().map(|p| self.party(*p)).collect();
        forms::listed(&names, "and")
    }

    fn those(&self, test: impl Fn(u8) -> bool) -> Vec<u8> {
        (0..self.scenario.parties.len() as u8).filter(|p| test(*p)).collect()
    }

    fn role(&mut self, p: u8, roles: &[u8], name: &str) {
        let role = self.scenario.role(p).unwrap_or(u8::MAX);
        self.need(13, roles.contains(&role), |this| {
            let allowed: Vec<&str> = roles.iter().map(|role| role_words(*role)).collect();
            format!("{} is {}; {name} is for {} alone", this.party(p), role_words(role), forms::listed(&allowed, "or"))
        });
    }

    fn known(&mut self, p: u8, t: u16) {
        self.need(14, self.before.knows(p, t), |this| {
            format!("{} does not know {}; {}", this.party(p), this.told(t), this.knowers(p, t))
        });
    }

    /// Who knows a term that a party does not know, and what came of a command that would have taught it.
    fn knowers(&self, p: u8, t: u16) -> String {
        if self.scenario.is_kind(t, forms::PRIVATE_KEY) {
            return "nobody ever knows a private key".into();
        }
        let knowers = self.those(|q| self.before.knows(q, t));
        let mut who =
            if knowers.is_empty() { "nobody does".into() } else { format!("known to {}", self.parties(&knowers)) };
        if let Some(register) = (0..forms::REGISTERS).find(|register| self.before.register(p, *register) == Some(t)) {
            who.push_str(&format!("; its register {register} shows it, and a quote would tell it"));
        }
        // Whoever learns a term keeps it, so that a command before this one that would have taught it was refused.
        match self.earlier(Effect::Teaches(p), t) {
            [.., i] => format!("{who}; command {i}, which would have told it, was refused"),
            [] => who,
        }
    }

    /// The commands before this one with an effect on a term.
    fn earlier(&self, effect: Effect, term: u16) -> &[usize] {
        self.effects.before(effect, term, self.ordinal)
    }

    fn holders(&self, private: u16) -> String {
        let holders = self.those(|q| self.before.in_table(q, private));
        match holders.len() {
            0 => "no TPM does".into(),
            1 => format!("the TPM of {} does", self.parties(&holders)),
            _ => format!("the TPMs of {} do", self.parties(&holders)),
        }
    }

    fn held(&mut self, p: u8, private: u16) {
        self.need(15, self.before.in_table(p, private), |this| {
            format!("the TPM of {} does not hold {}; {}", this.party(p), this.told(private), this.holders(private))
        });
    }

    fn half_held(&mut self, p: u8, public: u16) {
        let half = self.scenario.other_half(public);
        self.need(15, half.is_some_and(|half| self.before.in_table(p, half)), |this| match half {
            Some(half) => format!(
                "the TPM of {} does not hold {}, the private half of {}; {}",
                this.party(p),
                this.name(half),
                this.told(public),
                this.holders(half)
            ),
            None => format!("the private half of {} is no term of this file, so no TPM holds it", this.told(public)),
        });
    }

    fn has(&mut self, key: u16, flag: u8) {
        let attributes = self.scenario.attributes(key);
        self.need(16, attributes & flag != 0, |this| {
            format!(
                "{} has the attributes {}, without {}",
                this.name(key),
                attributes_text(attributes),
                attributes_text(flag)
            )
        });
    }

    // ---- device commands

    fn device(&mut self, kind: u8, p: u8, r: u16) {
        let Some(record) = self.scenario.term(r) else { return };
        let (first, second, third) = (record.term(0), record.term(1), record.term(2));
        match kind {
            0x30 => self.known(p, first),
            0x31 => self.sign(p, first, second),
            0x32 => {
                let attested = self.scenario.named(first, forms::ATTEST, 0).unwrap_or(forms::EMPTY);
                self.held(p, second);
                self.half_held(p, attested);
                self.has(second, forms::SIGN);
            }
            0x33 => [first, second, third].into_iter().for_each(|t| self.known(p, t)),
            0x34 => self.activate(p, r, first, third),
            0x35 => [second, third].into_iter().for_each(|t| self.known(p, t)),
            0x36 | 0x37 => [first, second].into_iter().for_each(|t| self.known(p, t)),
            _ => {
                self.known(p, first);
                self.held(p, third);
                self.has(third, forms::SIGN);
                self.need(16, self.scenario.attributes(third) & forms::RESTRICTED == 0, |this| {
                    format!("{} is restricted; a key that signs certificates is not", this.name(third))
                });
            }
        }
    }

    fn sign(&mut self, p: u8, message: u16, key: u16) {
        let restricted = self.scenario.attributes(key) & forms::RESTRICTED != 0;
        if !restricted {
            self.known(p, message);
        }
        self.held(p, key);
        self.has(key, forms::SIGN);
        if !restricted {
            return;
        }
        let hash = self.scenario.is_kind(message, forms::HASH);
        let signs = "a restricted key signs only a hash for which its own TPM has a ticket";
        self.need(17, hash, |this| {
            let kind = this.scenario.term(message).map_or(0, |record| record.kind);
            format!("{} is restricted, and {} is {}: {signs}", this.name(key), this.name(message), term_words(kind))
        });
        self.need(17, !hash || self.before.in_table(p, message), |this| {
            let content = this.scenario.named(message, forms::HASH, 0).unwrap_or(forms::EMPTY);
            let others = this.those(|q| this.before.in_table(q, message));
            let why = if this.scenario.gets_no_ticket(message) {
                let kind = this.scenario.term(content).map_or(0, |record| record.kind);
                format!("; the hash of {} gets none", term_words(kind))
            } else if let [.., i] = this.earlier(Effect::Tickets(p), message) {
                format!("; command {i}, which would have made one, was refused")
            } else if others.is_empty() {
                format!("; {} did not hash {}", this.party(p), this.name(content))
            } else {
                format!("; that of {} has one", this.parties(&others))
            };
            let (key, message) = (this.name(key), this.told(message));
            format!("{key} is restricted, and the TPM of {} has no ticket for {message}: {signs}{why}", this.party(p))
        });
    }

    fn activate(&mut self, p: u8, r: u16, first: u16, key: u16) {
        self.known(p, r);
        self.half_held(p, key);
        let hashed = self.scenario.named(first, forms::HASH, 0);
        let named = hashed.filter(|t| self.scenario.is_kind(*t, forms::PUBLIC_KEY));
        match named {
            Some(public) => self.half_held(p, public),
            None => self.need(15, false, |this| {
                format!("{} is no hash of a public key, so the credential names no key", this.told(first))
            }),
        }
        self.has(key, forms::RESTRICTED);
        self.has(key, forms::DECRYPT);
    }

    fn extend(&mut self, p: u8, register: u8, r: u16) {
        let Some((old, added)) = self.scenario.extended(r) else { return };
        self.known(p, added);
        self.shows(p, register, old, &format!("{} extends", self.name(r)));
    }

    fn quote(&mut self, p: u8, r: u16) {
        let Some((register, value, number)) = self.scenario.quoted(r) else { return };
        let key = self.scenario.named(r, forms::SIGNATURE, 1).unwrap_or(forms::EMPTY);
        self.known(p, number);
        self.held(p, key);
        self.has(key, forms::SIGN);
        self.has(key, forms::RESTRICTED);
        self.shows(p, register, value, &format!("{} quotes", self.name(r)));
    }

    /// A party's register shows a value; what takes it to be so is told before it.
    fn shows(&mut self, p: u8, register: u8, value: u16, by: &str) {
        let now = self.before.register(p, register);
        self.need(33, now == Some(value), |this| {
            let (which, wanted) = (format!("register {register} of {}", this.party(p)), this.told(value));
            let Some(now) = now else {
                return format!("{which} is empty, since the file has no term register {register}; {by} {wanted}");
            };
            let (values, leads) = (this.scenario.register_values(now), this.scenario.register_values(value));
            let others = this.those(|q| this.before.register(q, register) == Some(value));
            let why = if values.contains(&value) {
                ", which the register showed before".into()
            } else if let [.., i] = this.earlier(Effect::Shows(p, register), value) {
                format!("; command {i}, which would have made it show that, was refused")
            } else if !others.is_empty() {
                format!("; register {register} of {} shows it", this.parties(&others))
            } else if values.last() == leads.last() {
                "; nothing before would have made it show that".into()
            } else {
                let start = leads.last().and_then(|start| this.scenario.term(*start));
                match start.filter(|start| start.kind == forms::REGISTER) {
                    Some(start) => format!("; only register {} can show that", start.register()),
                    None => "; no register can show that".into(),
                }
            };
            let known = known_to(this.scenario, this.before, now);
            format!("{which} shows {}, {known}; {by} {wanted}{why}", this.told(now))
        });
    }

    fn send(&mut self, p: u8, t: u16) {
        let role = self.scenario.role(p).unwrap_or(u8::MAX);
        let kind = self.scenario.term(t).map_or(0, |record| record.kind);
        let sent_by_desks = matches!(kind, forms::PUBLIC_KEY | forms::CREDENTIAL | forms::CERTIFICATE);
        let desk = matches!(role, OEM_DESK | OWNER_DESK);
        self.need(13, role == DEVICE || desk && sent_by_desks, |this| {
            if desk {
                let (who, what) = (this.party(p), this.name(t));
                format!(
                    "{who} is {}, and desks send public keys, credentials and certificates alone; {what} is {}",
                    role_words(role),
                    term_words(kind)
                )
            } else {
                format!("{} is {}; devices and desks alone send", this.party(p), role_words(role))
            }
        });
        self.known(p, t);
    }

    fn check(&mut self, command: &Record, p: u8, t: u16) {
        self.known(p, t);
        if command.kind != 0x3B {
            self.known(p, command.term(2));
        }
        let other = command.term(2);
        match command.kind {
            0x38 => {
                let content = self.scenario.named(t, forms::HASH, 0).unwrap_or(forms::EMPTY);
                self.need(18, content == other, |this| {
                    format!("{} is the hash of {}, not of {}", this.name(t), this.name(content), this.name(other))
                });
            }
            0x39 | 0x3A => {
                let (kind, i) = if command.kind == 0x39 { (forms::SIGNATURE, 1) } else { (forms::CERTIFICATE, 2) };
                let key = self.scenario.named(t, kind, i).unwrap_or(forms::EMPTY);
                self.paired(18, t, key, other, "");
            }
            _ => {
                let (has, asked) = (self.scenario.attributes(t), command.attributes());
                self.need(18, has == asked, |this| {
                    format!(
                        "{} has the attributes {}, not {}",
                        this.name(t),
                        attributes_text(has),
                        attributes_text(asked)
                    )
                });
            }
        }
    }

    /// What a private key signed is proved by its public half; which key that is to be is told behind it.
    fn paired(&mut self, number: u8, signed: u16, private: u16, public: u16, which: &str) {
        self.need(number, self.scenario.are_pair(public, private), |this| {
            let (a, b) = (this.scenario.term(public), this.scenario.term(private));
            let same_id = a.zip(b).is_some_and(|(a, b)| a.values.first() == b.values.first());
            let why = if same_id { "; their ids agree, their attributes do not" } else { "" };
            let (signed, private, public) = (this.name(signed), this.told(private), this.told(public));
            format!("{signed} is signed by {private}, which is not the private half of {public}{which}{why}")
        });
    }

    // ---- desk commands

    /// A request is a pair of its body and a signature of the body's hash. Its body and signature, where each is of the right kind.
    fn form(&mut self, request: u16, body_kind: u8) -> (Option<u16>, Option<u16>) {
        let pair = |this: &Self, i| this.scenario.named(request, forms::PAIR, i);
        let (Some(body), Some(signature)) = (pair(self, 0), pair(self, 1)) else {
            self.need(19, false, |this| {
                format!("{} is no request: a request is a pair of its body and a signature", this.told(request))
            });
            return (None, None);
        };
        let kind = self.scenario.term(body).map_or(0, |record| record.kind);
        self.need(19, kind == body_kind, |this| {
            format!(
                "the first of {} is {}, {}; {} is called for",
                this.name(request),
                this.name(body),
                term_words(kind),
                term_words(body_kind)
            )
        });
        let signed = self.scenario.named(signature, forms::SIGNATURE, 0);
        self.need(19, signed.is_some(), |this| {
            format!("the second of {} is {}; a signature is called for", this.name(request), this.told(signature))
        });
        let hash = signed.filter(|signed| self.scenario.is_kind(*signed, forms::HASH));
        if let Some(signed) = signed {
            self.need(19, hash.is_some(), |this| {
                format!("{} signs {}; a signature of a hash is called for", this.name(signature), this.told(signed))
            });
        }
        (Some(body).filter(|_| kind == body_kind), hash.map(|_| signature))
    }

    /// The hash is that of the body, and the new key's private half signed it; that key is the one of a term.
    fn proof(&mut self, body: u16, signature: u16, key: u16, key_of: u16) {
        let scenario = self.scenario;
        let digest = scenario.named(signature, forms::SIGNATURE, 0).unwrap_or(forms::EMPTY);
        let content = scenario.named(digest, forms::HASH, 0).unwrap_or(forms::EMPTY);
        let signer = scenario.named(signature, forms::SIGNATURE, 1).unwrap_or(forms::EMPTY);
        self.need(20, content == body, |this| {
            format!(
                "{} is the hash of {}, not of the request's body {}",
                this.name(digest),
                this.name(content),
                this.name(body)
            )
        });
        let which = format!(", the key of {}", self.name(key_of));
        self.paired(20, signature, signer, key, &which);
    }

    fn attributes(&mut self, key: u16, what: &str, called_for: u8) {
        let has = self.scenario.attributes(key);
        self.need(23, has == called_for, |this| {
            format!(
                "{what} {} has the attributes {}; {} are called for",
                this.name(key),
                attributes_text(has),
                attributes_text(called_for)
            )
        });
    }

    /// A key is the signing key of a party of some roles.
    fn signed_by(&mut self, certificate: u16, roles: &[u8]) {
        let key = self.scenario.named(certificate, forms::CERTIFICATE, 2).unwrap_or(forms::EMPTY);
        let party = self.scenario.signing_party(key);
        let role = party.and_then(|party| self.scenario.role(party));
        self.need(21, role.is_some_and(|role| roles.contains(&role)), |this| {
            let whose = match (party, role) {
                (Some(party), Some(role)) => format!("the signing key of {}, {}", this.party(party), role_words(role)),
                _ => "nobody's signing key (no signs-with has it)".into(),
            };
            let allowed: Vec<&str> = roles.iter().map(|role| role_words(*role)).collect();
            format!(
                "{} is signed by {}, {whose}; that of {} is called for",
                this.name(certificate),
                this.name(key),
                forms::listed(&allowed, "or")
            )
        });
    }

    fn challenge(&mut self, desk: u8, request: u16, r: u16) {
        self.known(desk, request);
        self.fresh(desk, self.scenario.named(r, forms::CREDENTIAL, 1).unwrap_or(forms::EMPTY));
        let (body, signature) = self.form(request, forms::IDEVID_REQUEST);
        let Some((body, record)) = body.and_then(|body| Some((body, self.scenario.term(body)?))) else { return };
        self.need(19, matches!(record.subject(), Some(Subject::Device(_))), |this| {
            let subject = this.scenario.subject_of(body);
            format!("{} is for {subject}; the Subject of a device is called for", this.name(body))
        });
        let (certificate, iak) = (record.term(1), record.term(2));
        if let Some(signature) = signature {
            self.proof(body, signature, iak, body);
        }
        let ek = self.scenario.named(certificate, forms::CERTIFICATE, 0).unwrap_or(forms::EMPTY);
        let subject = self.scenario.term(certificate).and_then(|record| record.subject());
        self.need(21, matches!(subject, Some(Subject::Tpm(_))), |this| {
            let subject = this.scenario.subject_of(certificate);
            format!("{} is for {subject}; the Subject of a TPM is called for", this.name(certificate))
        });
        self.signed_by(certificate, &[TPM_MAKER]);
        self.attributes(iak, "the IAK", forms::ATTESTATION_KEY);
        self.attributes(ek, "the EK", forms::ENDORSEMENT_KEY);
        self.credential_called_for(r, iak, ek);
    }

    /// r is (hash of the public IAK, number, EK).
    fn credential_called_for(&mut self, r: u16, iak: u16, ek: u16) {
        let first = self.scenario.named(r, forms::CREDENTIAL, 0).unwrap_or(forms::EMPTY);
        let key = self.scenario.named(r, forms::CREDENTIAL, 2).unwrap_or(forms::EMPTY);
        self.need(27, self.scenario.named(first, forms::HASH, 0) == Some(iak), |this| {
            format!("{} is of {}; the hash of {} is called for", this.name(r), this.told(first), this.name(iak))
        });
        self.need(27, key == ek, |this| {
            format!("{} is for {}; {} is called for", this.name(r), this.told(key), this.name(ek))
        });
    }

    /// Known to that desk and to exactly one party in all, and unused.
    fn fresh(&mut self, desk: u8, number: u16) {
        let knowers = self.those(|p| self.before.knows(p, number));
        self.need(24, knowers.contains(&desk), |this| {
            format!("{} does not know {}", this.party(desk), this.told(number))
        });
        let others: Vec<u8> = knowers.iter().copied().filter(|p| *p != desk).collect();
        self.need(24, others.is_empty(), |this| {
            let too = if knowers.contains(&desk) { " too" } else { "" };
            format!("{} is known to {}{too}; the desk alone may know it", this.told(number), this.parties(&others))
        });
        self.need(24, self.before.mark(number) != Mark::NumberUsed, |this| {
            format!("{} is used: an earlier challenge took it", this.told(number))
        });
    }

    /// r is (key, Subject, the desk's key).
    fn called_for(&mut self, desk: u8, r: u16, key: u16, subject_from: u16) {
        let subject = self.scenario.term(subject_from).and_then(|record| record.subject());
        let Some(record) = self.scenario.term(r) else { return };
        let (certified, signer, found) = (record.term(0), record.term(2), record.subject());
        self.need(27, certified == key, |this| {
            format!("{} certifies the key {}; {} is called for", this.name(r), this.told(certified), this.name(key))
        });
        self.need(27, found == subject, |this| {
            let text = |subject: Option<Subject>| subject.map_or(String::new(), subject_text);
            let (r, from) = (this.name(r), this.name(subject_from));
            format!("{r} has the Subject {}; {}, that of {from}, is called for", text(found), text(subject))
        });
        let own = self.scenario.signing_key(desk);
        self.need(27, own == Some(signer), |this| match own {
            Some(own) => format!(
                "{} is signed by {}; {}, the key of {}, is called for",
                this.name(r),
                this.name(signer),
                this.name(own),
                this.party(desk)
            ),
            None => format!(
                "{} is signed by {}, and {} has no signing key",
                this.name(r),
                this.name(signer),
                this.party(desk)
            ),
        });
    }

    fn ledger(&self) -> impl Iterator<Item = Entry> + '_ {
        self.before.ledger().chain(self.added.iter().copied())
    }

    fn not_issued(&mut self, r: u16) {
        let listed = self.ledger().any(|entry| entry.certificate == r);
        self.need(28, !listed, |this| {
            let by = match this.earlier(Effect::Issues, r) {
                [i] => format!(": command {i} issued it"),
                _ => String::new(),
            };
            format!("{} is in the ledger already{by}", this.name(r))
        });
    }

    /// The EK at the end of an entry's path.
    fn end(&self, entry: Entry) -> u16 {
        let last = self.before.path(entry.certificate).and_then(|path| path.last()).unwrap_or(entry.parent);
        self.scenario.named(last, forms::CERTIFICATE, 0).unwrap_or(forms::EMPTY)
    }

    fn issue_iak(&mut self, desk: u8, returning: u8, credential: u16, r: u16) {
        let number = self.scenario.named(credential, forms::CREDENTIAL, 1).unwrap_or(forms::EMPTY);
        let mark = if self.closed.contains(&credential) {
            Mark::CredentialClosed { desk, request: 0 }
        } else {
            self.before.mark(credential)
        };
        let open = match mark {
            Mark::CredentialOpen { desk: other, request } if other == desk => Some(request),
            _ => None,
        };
        self.need(25, open.is_some(), |this| match mark {
            Mark::CredentialOpen { desk: other, .. } => {
                format!("{} is open at {}, not at {}", this.name(credential), this.party(other), this.party(desk))
            }
            Mark::CredentialClosed { .. } if this.closed.contains(&credential) => {
                format!("{} is that of a pair before", this.name(credential))
            }
            Mark::CredentialClosed { .. } => {
                format!("{} is closed: a certificate was issued for it", this.name(credential))
            }
            _ => match this.earlier(Effect::Opens, credential) {
                [.., i] => format!("{} was not opened: its challenge, command {i}, was refused", this.name(credential)),
                [] => format!("{} was not opened: no challenge before gave it", this.name(credential)),
            },
        });
        self.need(26, self.scenario.is_role(returning, DEVICE), |this| {
            let role = this.scenario.role(returning).unwrap_or(u8::MAX);
            format!("{} is {}; a device has to return the number", this.party(returning), role_words(role))
        });
        self.need(26, self.before.knows(returning, number), |this| {
            let (who, name) = (this.party(returning), this.name(credential));
            let told = format!(
                "{who} does not know {}, the number of {name}; {}",
                this.name(number),
                this.knowers(returning, number)
            );
            match this.earlier(Effect::Teaches(returning), number) {
                [] if this.before.knows(returning, credential) => {
                    format!("{told}; it has {name} and did not activate it")
                }
                _ => told,
            }
        });
        let Some(request) = open else { return };
        let body = self.scenario.named(request, forms::PAIR, 0).unwrap_or(forms::EMPTY);
        let Some(record) = self.scenario.term(body) else { return };
        let (certificate, iak) = (record.term(1), record.term(2));
        self.called_for(desk, r, iak, body);
        self.not_issued(r);
        let ek = self.scenario.named(certificate, forms::CERTIFICATE, 0).unwrap_or(forms::EMPTY);
        let subject = self.scenario.term(r).and_then(|record| record.subject());
        let other = self.ledger().find(|entry| {
            self.scenario.term(entry.certificate).and_then(|record| record.subject()) == subject
                && self.end(*entry) != ek
        });
        self.need(31, other.is_none(), |this| {
            let entry = other.unwrap_or_default();
            let stands = if this.added.contains(&entry) { "is to stand on" } else { "stands already on" };
            format!(
                "{} {stands} {}, which leads to {}; this certificate would lead to {}",
                subject.map_or(String::new(), subject_text),
                this.name(entry.certificate),
                this.told(this.end(entry)),
                this.told(ek)
            )
        });
        self.closed.push(credential);
        self.added.push(Entry { certificate: r, parent: certificate, depth: 1 });
    }

    fn issue_iaks(&mut self, desk: u8, returning: u8, pairs: &[(u16, u16)]) {
        self.need(32, !pairs.is_empty(), |_| "all pairs are empty".into());
        for (i, (_, r)) in pairs.iter().enumerate() {
            let twice = pairs[..i].iter().any(|(_, earlier)| earlier == r);
            self.need(32, !twice, |this| format!("{} stands in two pairs", this.name(*r)));
        }
        for (credential, r) in pairs {
            let failed = self.failed.len();
            self.issue_iak(desk, returning, *credential, *r);
            if self.failed.len() > failed {
                let which = format!("{} for {}: ", self.name(*r), self.name(*credential));
                for (_, words) in &mut self.failed[failed..] {
                    words.insert_str(0, &which);
                }
                break;
            }
        }
    }

    fn issue(&mut self, family: Family, desk: u8, request: u16, r: u16) {
        self.known(desk, request);
        let (body, signature) = self.form(request, forms::LDEVID_REQUEST);
        let Some((body, record)) = body.and_then(|body| Some((body, self.scenario.term(body)?))) else { return };
        let (attested, parent) = (record.term(0), record.term(1));
        let attest = self.scenario.named(attested, forms::SIGNATURE, 0).unwrap_or(forms::EMPTY);
        let Some(key) = self.scenario.named(attest, forms::ATTEST, 0) else {
            self.need(19, false, |this| {
                format!("{} has {} in it; a signature of an attest is called for", this.name(body), this.told(attested))
            });
            return;
        };
        let attester = self.scenario.named(attested, forms::SIGNATURE, 1).unwrap_or(forms::EMPTY);
        let parent_key = self.scenario.named(parent, forms::CERTIFICATE, 0).unwrap_or(forms::EMPTY);
        if let Some(signature) = signature {
            self.proof(body, signature, key, attest);
        }
        let which = format!(", the key of {}", self.name(parent));
        self.paired(20, attested, attester, parent_key, &which);
        self.signed_by(parent, family.signers);
        self.attributes(key, "the new key", family.key);
        self.attributes(parent_key, "the parent's key", forms::ATTESTATION_KEY);
        self.called_for(desk, r, key, parent);
        self.not_issued(r);
        let depth = self.before.ledger().find(|entry| entry.certificate == parent).map_or(0, |entry| entry.depth);
        self.need(29, depth < DEPTH, |this| {
            format!(
                "{} has depth {depth}, so {} would have depth {}; {DEPTH} is the most",
                this.name(parent),
                this.name(r),
                depth + 1
            )
        });
    }
}
