//! A second reading of "Rehearsing DevID enrolment", with points 1 to 6 and 12
//! of its change requests, written from those texts alone, to test another
//! implementation against.
//!
//! The numbers in the comments are the kinds of records (hexadecimal, as in
//! the paper) and the refusals 1 to 33 but 22, and 39 (decimal).

#![forbid(unsafe_code)]

use std::collections::HashMap;

/// Most bytes of a scenario file.
pub const FILE_BYTES: usize = 32_768;
/// Bytes of state that are written: 8 for each possible term.
pub const STATE_BYTES: usize = 8_192;
/// Most terms, and the ledger places that are written.
pub const TERMS: usize = 1_024;
/// Outcome bytes that are written.
pub const OUTCOMES: usize = 8_192;
/// Most parties.
pub const PARTIES: usize = 8;
/// Register bytes that are written: 48 for each possible party.
pub const REGISTER_BYTES: usize = 384;
/// Least places of the list lent to `path`.
pub const LIST_PLACES: usize = 9;

/// Greatest depth of an issued certificate.
const DEPTH: u16 = 8;
/// Pairs of a 43, the empty ones too.
const PAIRS: usize = 4;
/// Registers of a device's TPM.
const REGISTERS: usize = 24;
/// The register bytes of one party.
const PARTY_REGISTER_BYTES: usize = 2 * REGISTERS;

/// A ledger entry.
#[derive(Clone, Copy, Debug, Default, PartialEq, Eq)]
pub struct Entry {
    pub certificate: u16,
    pub parent: u16,
    pub depth: u16,
}

/// What `load` answers.
#[derive(Debug, Clone, Copy, PartialEq, Eq)]
pub enum LoadAnswer {
    Loaded {
        parties: u32,
        terms: u32,
        commands: u32,
    },
    Refused {
        number: u32,
        place: u32,
    },
}

/// What `run` answers.
#[derive(Debug, Clone, Copy, PartialEq, Eq)]
pub enum RunAnswer {
    Ran {
        accepted: u32,
        refused: u32,
        issued: u32,
    },
    Refused {
        number: u32,
        place: u32,
    },
}

/// What `path` answers.
#[derive(Debug, Clone, Copy, PartialEq, Eq)]
pub enum PathAnswer {
    Steps(u32),
    Refused { number: u32, place: u32 },
}

/// What `stock` answers.
#[derive(Debug, Clone, Copy, PartialEq, Eq)]
pub enum StockAnswer {
    Boards { boards: u32, rest: u32 },
    Refused { number: u32, place: u32 },
}

/// Loads a file: its state after the set-up, with no command run.
pub fn load(file: &[u8], state: &mut [u8]) -> LoadAnswer {
    let refused = |number, place| LoadAnswer::Refused { number, place };
    if state.len() < STATE_BYTES {
        return refused(1, 0);
    }
    if file.len() > FILE_BYTES {
        return refused(2, 0);
    }
    match scan(file) {
        Err(refusal) => {
            state[..STATE_BYTES].fill(0);
            refused(refusal.number, refusal.place)
        }
        Ok(world) => {
            world.write_state(state);
            LoadAnswer::Loaded {
                parties: world.parties.len() as u32,
                terms: world.terms.len() as u32,
                commands: world.commands.len() as u32,
            }
        }
    }
}

/// Runs the first `n` commands of a file, or all if fewer.
pub fn run(
    file: &[u8],
    n: usize,
    state: &mut [u8],
    ledger: &mut [Entry],
    outcomes: &mut [u8],
    registers: &mut [u8],
) -> RunAnswer {
    match run_world(file, n, state, ledger, outcomes, registers) {
        Err(Refusal { number, place }) => RunAnswer::Refused { number, place },
        Ok((world, accepted, refused)) => RunAnswer::Ran {
            accepted,
            refused,
            issued: world.ledger.len() as u32,
        },
    }
}

/// Runs, then lists the way from an issued certificate to its EK certificate.
#[allow(clippy::too_many_arguments)]
pub fn path(
    file: &[u8],
    n: usize,
    state: &mut [u8],
    ledger: &mut [Entry],
    outcomes: &mut [u8],
    registers: &mut [u8],
    term: u16,
    list: &mut [u16],
) -> PathAnswer {
    if list.len() < LIST_PLACES {
        return PathAnswer::Refused {
            number: 1,
            place: 0,
        };
    }
    let world = match run_world(file, n, state, ledger, outcomes, registers) {
        Err(Refusal { number, place }) => return PathAnswer::Refused { number, place },
        Ok((world, _, _)) => world,
    };
    if world.entry(term).is_none() {
        return PathAnswer::Refused {
            number: 30,
            place: u32::from(term),
        };
    }
    let path = world.path(term);
    list[..path.len()].copy_from_slice(&path);
    PathAnswer::Steps(path.len() as u32 - 1)
}

/// Runs all commands, then tells for how many whole boards the numbers of an
/// OEM desk last, and how many numbers are left over.
pub fn stock(
    file: &[u8],
    state: &mut [u8],
    ledger: &mut [Entry],
    outcomes: &mut [u8],
    registers: &mut [u8],
    party: u8,
    iaks_per_board: u32,
) -> StockAnswer {
    let world = match run_world(file, usize::MAX, state, ledger, outcomes, registers) {
        Err(Refusal { number, place }) => return StockAnswer::Refused { number, place },
        Ok((world, _, _)) => world,
    };
    let oem_desk = match world.parties.get(usize::from(party)) {
        Some(declared) => declared.role == OEM_DESK,
        None => false,
    };
    if iaks_per_board == 0 || !oem_desk {
        return StockAnswer::Refused {
            number: 39,
            place: 0,
        };
    }
    let stock = world.stock(party);
    StockAnswer::Boards {
        boards: stock / iaks_per_board,
        rest: stock % iaks_per_board,
    }
}

/// What the listing program prints for a file.
pub fn listing(file: &[u8]) -> Vec<u8> {
    let mut state = vec![0; STATE_BYTES];
    let mut ledger = vec![Entry::default(); TERMS];
    let mut outcomes = vec![0; OUTCOMES];
    let mut registers = vec![0; REGISTER_BYTES];
    let mut text = String::new();
    let answer = run(
        file,
        usize::MAX,
        &mut state,
        &mut ledger,
        &mut outcomes,
        &mut registers,
    );
    match answer {
        RunAnswer::Refused { number, place } => text += &format!("F {number} {place}\n"),
        RunAnswer::Ran {
            accepted,
            refused,
            issued,
        } => {
            for (ordinal, outcome) in outcomes.iter().enumerate() {
                if *outcome != 0 {
                    text += &format!("R {ordinal} {outcome}\n");
                }
            }
            for entry in &ledger[..issued as usize] {
                let Entry {
                    certificate,
                    parent,
                    depth,
                } = entry;
                text += &format!("I {certificate} {parent} {depth}\n");
            }
            text += &format!("T {accepted} {refused} {issued}\n");
        }
    }
    text.into_bytes()
}

/// The common part of `run`, `path` and `stock`: checks the buffers, loads,
/// executes and writes the buffers. Gives the world, the accepted and the
/// refused.
fn run_world(
    file: &[u8],
    n: usize,
    state: &mut [u8],
    ledger: &mut [Entry],
    outcomes: &mut [u8],
    registers: &mut [u8],
) -> Result<(World, u32, u32), Refusal> {
    if state.len() < STATE_BYTES
        || ledger.len() < TERMS
        || outcomes.len() < OUTCOMES
        || registers.len() < REGISTER_BYTES
    {
        return Err(Refusal {
            number: 1,
            place: 0,
        });
    }
    if file.len() > FILE_BYTES {
        return Err(Refusal {
            number: 2,
            place: 0,
        });
    }
    state[..STATE_BYTES].fill(0);
    ledger[..TERMS].fill(Entry::default());
    outcomes[..OUTCOMES].fill(0);
    registers[..REGISTER_BYTES].fill(0);

    let mut world = scan(file)?;
    let mut accepted = 0;
    let mut refused = 0;
    let commands = std::mem::take(&mut world.commands);
    for (command, outcome) in commands.iter().take(n).zip(outcomes.iter_mut()) {
        *outcome = world.execute(*command);
        if *outcome == 0 {
            accepted += 1;
        } else {
            refused += 1;
        }
    }
    world.write_state(state);
    ledger[..world.ledger.len()].copy_from_slice(&world.ledger);
    world.write_registers(registers);
    Ok((world, accepted, refused))
}

// ---------------------------------------------------------------------------
// Terms
// ---------------------------------------------------------------------------

const RESTRICTED: u8 = 1;
const SIGN: u8 = 2;
const DECRYPT: u8 = 4;
const FIXED_TPM: u8 = 8;

/// Attributes of an IAK or LAK.
const ATTESTATION_KEY: u8 = RESTRICTED | SIGN | FIXED_TPM;
/// Attributes of an EK.
const ENDORSEMENT_KEY: u8 = RESTRICTED | DECRYPT | FIXED_TPM;
/// Attributes of an IDevID or LDevID, and of a signing key that a 22 gives.
const SIGNING_KEY: u8 = SIGN | FIXED_TPM;

/// What a public and a private key share; they are a pair if it is equal.
#[derive(Clone, Copy, PartialEq, Eq, Hash)]
struct Key {
    id: u16,
    attributes: u8,
}

#[derive(Clone, Copy, PartialEq, Eq, Hash)]
enum Subject {
    Tpm(u16),
    Device(u16),
}

/// A term; the two-byte fields that are not ids are numbers of lower terms.
#[derive(Clone, Copy, PartialEq, Eq, Hash)]
enum Term {
    PublicKey(Key),
    PrivateKey(Key),
    Hash {
        content: u16,
    },
    Signature {
        message: u16,
        key: u16,
    },
    Attest {
        key: u16,
    },
    Credential {
        first: u16,
        number: u16,
        key: u16,
    },
    Number {
        id: u16,
    },
    IdevidRequest {
        subject: Subject,
        certificate: u16,
        key: u16,
    },
    LdevidRequest {
        message: u16,
        certificate: u16,
    },
    Certificate {
        key: u16,
        subject: Subject,
        signer: u16,
    },
    Pair {
        first: u16,
        second: u16,
    },
    /// The starting value of a register.
    Start {
        register: u8,
    },
    QuoteBody {
        register: u8,
        value: u16,
        number: u16,
    },
}

impl Term {
    /// The kind byte.
    fn kind(self) -> u8 {
        match self {
            Term::PublicKey(_) => 0x10,
            Term::PrivateKey(_) => 0x11,
            Term::Hash { .. } => 0x12,
            Term::Signature { .. } => 0x13,
            Term::Attest { .. } => 0x14,
            Term::Credential { .. } => 0x15,
            Term::Number { .. } => 0x16,
            Term::IdevidRequest { .. } => 0x17,
            Term::LdevidRequest { .. } => 0x18,
            Term::Certificate { .. } => 0x19,
            Term::Pair { .. } => 0x1A,
            Term::Start { .. } => 0x1B,
            Term::QuoteBody { .. } => 0x1C,
        }
    }

    /// The parts that are learned with the term.
    fn parts(self) -> Vec<u16> {
        match self {
            Term::Signature { message, .. } => vec![message],
            Term::Attest { key } => vec![key],
            Term::Certificate { key, .. } => vec![key],
            Term::IdevidRequest {
                certificate, key, ..
            } => vec![certificate, key],
            Term::LdevidRequest {
                message,
                certificate,
            } => vec![message, certificate],
            Term::Pair { first, second } => vec![first, second],
            Term::QuoteBody { value, number, .. } => vec![value, number],
            Term::PublicKey(_)
            | Term::PrivateKey(_)
            | Term::Hash { .. }
            | Term::Credential { .. }
            | Term::Number { .. }
            | Term::Start { .. } => vec![],
        }
    }
}

// ---------------------------------------------------------------------------
// The world: parties, terms and what commands change
// ---------------------------------------------------------------------------

const DEVICE: u8 = 0;
const TPM_MAKER: u8 = 1;
const OEM_DESK: u8 = 2;
const OWNER_DESK: u8 = 3;

#[derive(Clone)]
struct Party {
    role: u8,
    /// The private key that a 22 gave.
    signing_key: Option<u16>,
    /// The term that each register of a device shows; none if it is empty, and
    /// for a party that is no device.
    registers: [Option<u16>; REGISTERS],
}

/// What differs between 40, 41 and 42.
#[derive(Clone, Copy)]
struct Family {
    /// The role of the desk.
    desk: u8,
    /// The attributes of the new key.
    attributes: u8,
    /// The roles whose keys may have signed the parent.
    parent_signers: &'static [u8],
}

/// 40.
const LAK: Family = Family {
    desk: OWNER_DESK,
    attributes: ATTESTATION_KEY,
    parent_signers: &[OEM_DESK, OWNER_DESK],
};
/// 41.
const IDEVID: Family = Family {
    desk: OEM_DESK,
    attributes: SIGNING_KEY,
    parent_signers: &[OEM_DESK],
};
/// 42.
const LDEVID: Family = Family {
    desk: OWNER_DESK,
    attributes: SIGNING_KEY,
    parent_signers: &[OEM_DESK, OWNER_DESK],
};

const NUMBER_USED: u8 = 1;
const CREDENTIAL_OPEN: u8 = 2;
const CREDENTIAL_CLOSED: u8 = 3;

/// The eight state bytes of a term.
#[derive(Clone, Default)]
struct TermState {
    /// Bit p: party p knows it.
    known: u8,
    /// Bit p: in the table of party p's TPM; on a private key, held.
    table: u8,
    mark: u8,
    desk: u8,
    request: u16,
    place: u16,
}

/// A pair of a 43 that is not empty.
#[derive(Clone, Copy)]
struct IakPair {
    credential: u16,
    r: u16,
}

/// A command of the last section; `r` is the result as in the paper.
#[derive(Clone, Copy)]
enum Command {
    Hash {
        party: u8,
        r: u16,
    },
    Sign {
        party: u8,
        r: u16,
    },
    Certify {
        party: u8,
        r: u16,
    },
    MakeCredential {
        party: u8,
        r: u16,
    },
    ActivateCredential {
        party: u8,
        r: u16,
    },
    /// 35, 36 and 37.
    Build {
        party: u8,
        r: u16,
    },
    CheckHash {
        party: u8,
        hash: u16,
        content: u16,
    },
    CheckSignature {
        party: u8,
        signature: u16,
        key: u16,
    },
    CheckCertificate {
        party: u8,
        certificate: u16,
        key: u16,
    },
    CheckAttributes {
        party: u8,
        key: u16,
        attributes: u8,
    },
    Send {
        party: u8,
        receiver: u8,
        term: u16,
    },
    SelfIssue {
        party: u8,
        r: u16,
    },
    Challenge {
        desk: u8,
        request: u16,
        r: u16,
    },
    IssueIak {
        desk: u8,
        returning: u8,
        credential: u16,
        r: u16,
    },
    /// 40, 41 and 42.
    IssueAttested {
        family: Family,
        desk: u8,
        request: u16,
        r: u16,
    },
    /// 43; none for an empty pair.
    IssueIaks {
        desk: u8,
        returning: u8,
        pairs: [Option<IakPair>; PAIRS],
    },
    Extend {
        party: u8,
        register: u8,
        r: u16,
    },
    Quote {
        party: u8,
        r: u16,
    },
}

impl Command {
    /// A pair of a 43 as a 3F of its own.
    fn of_pair(desk: u8, returning: u8, pair: IakPair) -> Command {
        Command::IssueIak {
            desk,
            returning,
            credential: pair.credential,
            r: pair.r,
        }
    }
}

/// A well-formed request of 3E, taken apart.
struct IakRequest {
    /// The 17.
    csr: u16,
    /// The Subject of the 17, always a device.
    subject: Subject,
    ek_certificate: u16,
    iak: u16,
    /// What the 12 hashes.
    hashed: u16,
    /// The private key that signed the 12.
    signed_by: u16,
}

/// A well-formed request of 40, 41 or 42, taken apart.
struct AttestedRequest {
    /// The 18.
    csr: u16,
    /// The new key, that of the 14.
    key: u16,
    /// The private key that signed the 14.
    attested_by: u16,
    /// The certificate in the 18.
    parent: u16,
    /// What the 12 hashes.
    hashed: u16,
    /// The private key that signed the 12.
    signed_by: u16,
}

/// The fields of a 19.
struct CertificateFields {
    key: u16,
    subject: Subject,
    signer: u16,
}

/// The refusals of a command, in the order that they are looked for: by
/// number, but 32 after 13, 33 after 17, and 31 between 28 and 29.
const ORDER: [u8; 19] = [
    13, 32, 14, 15, 16, 17, 33, 18, 19, 20, 21, 23, 24, 25, 26, 27, 28, 31, 29,
];

/// Where a refusal stands in the order.
fn place_in_order(number: u8) -> usize {
    ORDER
        .iter()
        .position(|other| *other == number)
        .expect("a refusal of a command")
}

/// The first refusal, in the order, that applies so far; 0 for none.
#[derive(Default)]
struct Verdict {
    first: u8,
}

impl Verdict {
    /// The refusal `number` applies unless `holds`.
    fn demand(&mut self, holds: bool, number: u8) {
        if !holds && (self.first == 0 || place_in_order(number) < place_in_order(self.first)) {
            self.first = number;
        }
    }
}

#[derive(Clone, Default)]
struct World {
    parties: Vec<Party>,
    terms: Vec<Term>,
    states: Vec<TermState>,
    commands: Vec<Command>,
    ledger: Vec<Entry>,
    /// The number of each term, to find one alike.
    numbers: HashMap<Term, u16>,
    /// The place in the ledger of each issued certificate.
    issued: HashMap<u16, usize>,
}

impl World {
    // ----- looking -----

    fn term(&self, t: u16) -> Term {
        self.terms[usize::from(t)]
    }

    fn kind(&self, t: u16) -> u8 {
        self.term(t).kind()
    }

    fn role(&self, party: u8) -> u8 {
        self.parties[usize::from(party)].role
    }

    fn known(&self, t: u16, party: u8) -> bool {
        self.states[usize::from(t)].known & bit(party) != 0
    }

    fn parts_known(&self, t: u16, party: u8) -> bool {
        self.term(t)
            .parts()
            .iter()
            .all(|part| self.known(*part, party))
    }

    /// In the table of this party's TPM; for a private key, held by it.
    fn in_table(&self, t: u16, party: u8) -> bool {
        self.states[usize::from(t)].table & bit(party) != 0
    }

    /// A key's id and attributes; `t` is a 10 or 11, as loading saw to.
    fn key(&self, t: u16) -> Key {
        match self.term(t) {
            Term::PublicKey(key) | Term::PrivateKey(key) => key,
            _ => unreachable!("a key by the checks of loading"),
        }
    }

    fn attributes(&self, t: u16) -> u8 {
        self.key(t).attributes
    }

    fn has(&self, t: u16, attribute: u8) -> bool {
        self.attributes(t) & attribute != 0
    }

    /// Whether a private and a public key are a pair.
    fn pairs(&self, private: u16, public: u16) -> bool {
        self.key(private) == self.key(public)
    }

    /// Whether the private half of a public key is named and held.
    fn half_held(&self, public: u16, party: u8) -> bool {
        match self.numbers.get(&Term::PrivateKey(self.key(public))) {
            Some(private) => self.in_table(*private, party),
            None => false,
        }
    }

    /// The fields of a 19, as loading saw to.
    fn certificate(&self, t: u16) -> CertificateFields {
        match self.term(t) {
            Term::Certificate {
                key,
                subject,
                signer,
            } => CertificateFields {
                key,
                subject,
                signer,
            },
            _ => unreachable!("a certificate by the checks of loading"),
        }
    }

    /// Whether a 22 gave this private key to a party of one of the roles.
    fn signing_key_of(&self, private: u16, roles: &[u8]) -> bool {
        self.parties
            .iter()
            .any(|party| party.signing_key == Some(private) && roles.contains(&party.role))
    }

    /// The term that a register of a party's TPM shows, if any.
    fn shown(&self, party: u8, register: u8) -> Option<u16> {
        self.parties[usize::from(party)].registers[usize::from(register)]
    }

    /// Of a 12 over a pair: the pair's two terms.
    fn hashed_pair(&self, t: u16) -> Option<(u16, u16)> {
        let Term::Hash { content } = self.term(t) else {
            return None;
        };
        let Term::Pair { first, second } = self.term(content) else {
            return None;
        };
        Some((first, second))
    }

    /// The ledger entry of a certificate.
    fn entry(&self, certificate: u16) -> Option<Entry> {
        self.issued
            .get(&certificate)
            .map(|place| self.ledger[*place])
    }

    /// A certificate of the ledger, its parents and the EK certificate.
    fn path(&self, certificate: u16) -> Vec<u16> {
        let mut path = vec![certificate];
        let mut last = certificate;
        while let Some(entry) = self.entry(last) {
            last = entry.parent;
            path.push(last);
        }
        path
    }

    /// The EK key, a 10, that the path of a certificate of the ledger ends at.
    fn end_of_path(&self, certificate: u16) -> u16 {
        let path = self.path(certificate);
        self.certificate(path[path.len() - 1]).key
    }

    /// Whether every ledger entry with this Subject has a path that ends at
    /// this EK key.
    fn all_end_at(&self, subject: Subject, ek: u16) -> bool {
        self.ledger
            .iter()
            .filter(|entry| self.certificate(entry.certificate).subject == subject)
            .all(|entry| self.end_of_path(entry.certificate) == ek)
    }

    /// How many unused numbers a declared party knows and no other does.
    fn stock(&self, desk: u8) -> u32 {
        let mut stock = 0;
        for t in 0..self.terms.len() as u16 {
            let Term::Number { .. } = self.term(t) else {
                continue;
            };
            let mut knowing = Vec::new();
            for party in 0..self.parties.len() as u8 {
                if self.known(t, party) {
                    knowing.push(party);
                }
            }
            let used = self.states[usize::from(t)].mark == NUMBER_USED;
            if knowing == [desk] && !used {
                stock += 1;
            }
        }
        stock
    }

    /// A pair of a 17 with device Subject and a 13 over a 12.
    fn iak_request(&self, request: u16) -> Option<IakRequest> {
        let Term::Pair { first, second } = self.term(request) else {
            return None;
        };
        let Term::IdevidRequest {
            subject,
            certificate,
            key,
        } = self.term(first)
        else {
            return None;
        };
        let Subject::Device(_) = subject else {
            return None;
        };
        let (hashed, signed_by) = self.signed_hash(second)?;
        Some(IakRequest {
            csr: first,
            subject,
            ek_certificate: certificate,
            iak: key,
            hashed,
            signed_by,
        })
    }

    /// A pair of an 18, its message a 13 over a 14, and a 13 over a 12.
    fn attested_request(&self, request: u16) -> Option<AttestedRequest> {
        let Term::Pair { first, second } = self.term(request) else {
            return None;
        };
        let Term::LdevidRequest {
            message,
            certificate,
        } = self.term(first)
        else {
            return None;
        };
        let Term::Signature {
            message: attest,
            key: attested_by,
        } = self.term(message)
        else {
            return None;
        };
        let Term::Attest { key } = self.term(attest) else {
            return None;
        };
        let (hashed, signed_by) = self.signed_hash(second)?;
        Some(AttestedRequest {
            csr: first,
            key,
            attested_by,
            parent: certificate,
            hashed,
            signed_by,
        })
    }

    /// Of a 13 over a 12: what the 12 hashes, and the signing key.
    fn signed_hash(&self, t: u16) -> Option<(u16, u16)> {
        let Term::Signature { message, key } = self.term(t) else {
            return None;
        };
        let Term::Hash { content } = self.term(message) else {
            return None;
        };
        Some((content, key))
    }

    /// Whether `r` is (key, Subject, the desk's key).
    fn is_certificate(&self, r: u16, key: u16, subject: Subject, desk: u8) -> bool {
        let fields = self.certificate(r);
        fields.key == key
            && fields.subject == subject
            && Some(fields.signer) == self.parties[usize::from(desk)].signing_key
    }

    // ----- changing -----

    /// The party learns the term and everything in it.
    fn learn(&mut self, t: u16, party: u8) {
        if self.known(t, party) {
            return;
        }
        self.states[usize::from(t)].known |= bit(party);
        for part in self.term(t).parts() {
            self.learn(part, party);
        }
    }

    fn enter_table(&mut self, t: u16, party: u8) {
        self.states[usize::from(t)].table |= bit(party);
    }

    fn issue(&mut self, certificate: u16, parent: u16, depth: u16) {
        self.issued.insert(certificate, self.ledger.len());
        self.ledger.push(Entry {
            certificate,
            parent,
            depth,
        });
    }

    /// Executes a command; gives its outcome byte.
    fn execute(&mut self, command: Command) -> u8 {
        let outcome = self.judge(command);
        if outcome == 0 {
            self.apply(command);
        }
        outcome
    }

    /// The first refusal, in the order, that applies, or 0.
    fn judge(&self, command: Command) -> u8 {
        let mut verdict = Verdict::default();
        match command {
            Command::Hash { party, r } => {
                verdict.demand(self.role(party) == DEVICE, 13);
                let Term::Hash { content } = self.term(r) else {
                    unreachable!("a 12 by the checks of loading")
                };
                verdict.demand(self.known(content, party), 14);
            }
            Command::Sign { party, r } => {
                verdict.demand(self.role(party) == DEVICE, 13);
                let Term::Signature { message, key } = self.term(r) else {
                    unreachable!("a 13 by the checks of loading")
                };
                verdict.demand(self.in_table(key, party), 15);
                verdict.demand(self.has(key, SIGN), 16);
                if self.has(key, RESTRICTED) {
                    let own_hash = self.kind(message) == 0x12 && self.in_table(message, party);
                    verdict.demand(own_hash, 17);
                } else {
                    verdict.demand(self.known(message, party), 14);
                }
            }
            Command::Certify { party, r } => {
                verdict.demand(self.role(party) == DEVICE, 13);
                let Term::Signature { message, key } = self.term(r) else {
                    unreachable!("a 13 by the checks of loading")
                };
                let Term::Attest { key: attested } = self.term(message) else {
                    unreachable!("a 14 by the checks of loading")
                };
                verdict.demand(self.in_table(key, party), 15);
                verdict.demand(self.has(key, SIGN), 16);
                verdict.demand(self.half_held(attested, party), 15);
            }
            Command::MakeCredential { party, r } => {
                verdict.demand(self.role(party) == DEVICE, 13);
                let Term::Credential { first, number, key } = self.term(r) else {
                    unreachable!("a 15 by the checks of loading")
                };
                verdict.demand(self.known(first, party), 14);
                verdict.demand(self.known(number, party), 14);
                verdict.demand(self.known(key, party), 14);
            }
            Command::ActivateCredential { party, r } => {
                verdict.demand(self.role(party) == DEVICE, 13);
                let Term::Credential { first, key, .. } = self.term(r) else {
                    unreachable!("a 15 by the checks of loading")
                };
                verdict.demand(self.known(r, party), 14);
                verdict.demand(self.half_held(key, party), 15);
                verdict.demand(self.has(key, RESTRICTED) && self.has(key, DECRYPT), 16);
                let named_half_held = match self.term(first) {
                    Term::Hash { content } => {
                        self.kind(content) == 0x10 && self.half_held(content, party)
                    }
                    _ => false,
                };
                verdict.demand(named_half_held, 15);
            }
            Command::Build { party, r } => {
                verdict.demand(self.role(party) == DEVICE, 13);
                verdict.demand(self.parts_known(r, party), 14);
            }
            Command::CheckHash {
                party,
                hash,
                content,
            } => {
                self.demand_checker(&mut verdict, party);
                verdict.demand(self.known(hash, party) && self.known(content, party), 14);
                verdict.demand(self.term(hash) == Term::Hash { content }, 18);
            }
            Command::CheckSignature {
                party,
                signature,
                key,
            } => {
                self.demand_checker(&mut verdict, party);
                verdict.demand(self.known(signature, party) && self.known(key, party), 14);
                let Term::Signature { key: signer, .. } = self.term(signature) else {
                    unreachable!("a 13 by the checks of loading")
                };
                verdict.demand(self.pairs(signer, key), 18);
            }
            Command::CheckCertificate {
                party,
                certificate,
                key,
            } => {
                self.demand_checker(&mut verdict, party);
                verdict.demand(self.known(certificate, party) && self.known(key, party), 14);
                verdict.demand(self.pairs(self.certificate(certificate).signer, key), 18);
            }
            Command::CheckAttributes {
                party,
                key,
                attributes,
            } => {
                self.demand_checker(&mut verdict, party);
                verdict.demand(self.known(key, party), 14);
                verdict.demand(self.attributes(key) == attributes, 18);
            }
            Command::Send { party, term, .. } => {
                let may_send = match self.role(party) {
                    DEVICE => true,
                    OEM_DESK | OWNER_DESK => matches!(self.kind(term), 0x10 | 0x15 | 0x19),
                    _ => false,
                };
                verdict.demand(may_send, 13);
                verdict.demand(self.known(term, party), 14);
            }
            Command::SelfIssue { party, r } => {
                let fields = self.certificate(r);
                verdict.demand(self.role(party) == DEVICE, 13);
                verdict.demand(self.known(fields.key, party), 14);
                verdict.demand(self.in_table(fields.signer, party), 15);
                let allowed = self.has(fields.signer, SIGN) && !self.has(fields.signer, RESTRICTED);
                verdict.demand(allowed, 16);
            }
            Command::Challenge { desk, request, r } => {
                let Term::Credential { first, number, key } = self.term(r) else {
                    unreachable!("a 15 by the checks of loading")
                };
                verdict.demand(self.role(desk) == OEM_DESK, 13);
                verdict.demand(self.known(request, desk), 14);
                let form = self.iak_request(request);
                verdict.demand(form.is_some(), 19);
                if let Some(form) = form {
                    let ek = self.certificate(form.ek_certificate);
                    verdict.demand(form.hashed == form.csr, 20);
                    verdict.demand(self.pairs(form.signed_by, form.iak), 20);
                    verdict.demand(matches!(ek.subject, Subject::Tpm(_)), 21);
                    verdict.demand(self.signing_key_of(ek.signer, &[TPM_MAKER]), 21);
                    verdict.demand(self.attributes(form.iak) == ATTESTATION_KEY, 23);
                    verdict.demand(self.attributes(ek.key) == ENDORSEMENT_KEY, 23);
                    let names_iak = self.term(first) == Term::Hash { content: form.iak };
                    verdict.demand(names_iak && key == ek.key, 27);
                }
                let state = &self.states[usize::from(number)];
                verdict.demand(state.known == bit(desk), 24);
                verdict.demand(state.mark != NUMBER_USED, 24);
            }
            Command::IssueIak {
                desk,
                returning,
                credential,
                r,
            } => {
                let Term::Credential { number, .. } = self.term(credential) else {
                    unreachable!("a 15 by the checks of loading")
                };
                verdict.demand(self.role(desk) == OEM_DESK, 13);
                let state = &self.states[usize::from(credential)];
                let open_here = state.mark == CREDENTIAL_OPEN && state.desk == desk;
                verdict.demand(open_here, 25);
                verdict.demand(self.role(returning) == DEVICE, 26);
                verdict.demand(self.known(number, returning), 26);
                if open_here && let Some(form) = self.iak_request(state.request) {
                    let called_for = self.is_certificate(r, form.iak, form.subject, desk);
                    verdict.demand(called_for, 27);
                    // Another EK key may not carry this Subject already.
                    let ek = self.certificate(form.ek_certificate).key;
                    verdict.demand(self.all_end_at(self.certificate(r).subject, ek), 31);
                }
                verdict.demand(self.entry(r).is_none(), 28);
            }
            Command::IssueAttested {
                family,
                desk,
                request,
                r,
            } => {
                verdict.demand(self.role(desk) == family.desk, 13);
                verdict.demand(self.known(request, desk), 14);
                let form = self.attested_request(request);
                verdict.demand(form.is_some(), 19);
                if let Some(form) = form {
                    let parent = self.certificate(form.parent);
                    verdict.demand(form.hashed == form.csr, 20);
                    verdict.demand(self.pairs(form.signed_by, form.key), 20);
                    verdict.demand(self.pairs(form.attested_by, parent.key), 20);
                    let by_desk = self.signing_key_of(parent.signer, family.parent_signers);
                    verdict.demand(by_desk, 21);
                    verdict.demand(self.attributes(form.key) == family.attributes, 23);
                    verdict.demand(self.attributes(parent.key) == ATTESTATION_KEY, 23);
                    let called_for = self.is_certificate(r, form.key, parent.subject, desk);
                    verdict.demand(called_for, 27);
                    // A parent that is not in the ledger has no depth.
                    if let Some(parent_entry) = self.entry(form.parent) {
                        verdict.demand(parent_entry.depth < DEPTH, 29);
                    }
                }
                verdict.demand(self.entry(r).is_none(), 28);
            }
            Command::IssueIaks {
                desk,
                returning,
                pairs,
            } => {
                let pairs: Vec<IakPair> = pairs.into_iter().flatten().collect();
                verdict.demand(self.role(desk) == OEM_DESK, 13);
                verdict.demand(!pairs.is_empty(), 32);
                for (place, pair) in pairs.iter().enumerate() {
                    let alike = pairs[..place].iter().any(|earlier| earlier.r == pair.r);
                    verdict.demand(!alike, 32);
                }
                // The first pair that fails, each in a world where those
                // before it were issued. This world stays as it is.
                let mut trial = self.clone();
                for pair in pairs {
                    let outcome = trial.execute(Command::of_pair(desk, returning, pair));
                    if outcome != 0 {
                        verdict.demand(false, outcome);
                        break;
                    }
                }
            }
            Command::Extend { party, register, r } => {
                let Some((old, t)) = self.hashed_pair(r) else {
                    unreachable!("a 12 over a 1A by the checks of loading")
                };
                verdict.demand(self.role(party) == DEVICE, 13);
                verdict.demand(self.known(t, party), 14);
                verdict.demand(self.shown(party, register) == Some(old), 33);
            }
            Command::Quote { party, r } => {
                let Term::Signature { message, key } = self.term(r) else {
                    unreachable!("a 13 by the checks of loading")
                };
                let Term::QuoteBody {
                    register,
                    value,
                    number,
                } = self.term(message)
                else {
                    unreachable!("a 1C by the checks of loading")
                };
                verdict.demand(self.role(party) == DEVICE, 13);
                verdict.demand(self.known(number, party), 14);
                verdict.demand(self.in_table(key, party), 15);
                verdict.demand(self.has(key, SIGN) && self.has(key, RESTRICTED), 16);
                verdict.demand(self.shown(party, register) == Some(value), 33);
            }
        }
        verdict.first
    }

    /// Checks are for the roles 0, 2 and 3.
    fn demand_checker(&self, verdict: &mut Verdict, party: u8) {
        verdict.demand(self.role(party) != TPM_MAKER, 13);
    }

    /// What an accepted command changes.
    fn apply(&mut self, command: Command) {
        match command {
            Command::Hash { party, r } => {
                self.learn(r, party);
                if let Term::Hash { content } = self.term(r)
                    && !matches!(self.kind(content), 0x14 | 0x1C)
                {
                    self.enter_table(r, party);
                }
            }
            Command::Sign { party, r }
            | Command::Certify { party, r }
            | Command::MakeCredential { party, r }
            | Command::Build { party, r }
            | Command::SelfIssue { party, r }
            | Command::Quote { party, r } => self.learn(r, party),
            Command::ActivateCredential { party, r } => {
                if let Term::Credential { number, .. } = self.term(r) {
                    self.learn(number, party);
                }
            }
            Command::CheckHash { .. }
            | Command::CheckSignature { .. }
            | Command::CheckCertificate { .. }
            | Command::CheckAttributes { .. } => {}
            Command::Send { receiver, term, .. } => self.learn(term, receiver),
            Command::Challenge { desk, request, r } => {
                if let Term::Credential { number, .. } = self.term(r) {
                    self.states[usize::from(number)].mark = NUMBER_USED;
                }
                let state = &mut self.states[usize::from(r)];
                state.mark = CREDENTIAL_OPEN;
                state.desk = desk;
                state.request = request;
                self.learn(r, desk);
            }
            Command::IssueIak {
                desk,
                credential,
                r,
                ..
            } => {
                let state = &mut self.states[usize::from(credential)];
                state.mark = CREDENTIAL_CLOSED;
                let request = state.request;
                if let Some(form) = self.iak_request(request) {
                    self.issue(r, form.ek_certificate, 1);
                }
                self.learn(r, desk);
            }
            Command::IssueAttested {
                desk, request, r, ..
            } => {
                if let Some(form) = self.attested_request(request)
                    && let Some(parent) = self.entry(form.parent)
                {
                    self.issue(r, form.parent, parent.depth + 1);
                }
                self.learn(r, desk);
            }
            Command::IssueIaks {
                desk,
                returning,
                pairs,
            } => {
                for pair in pairs.into_iter().flatten() {
                    self.apply(Command::of_pair(desk, returning, pair));
                }
            }
            Command::Extend { party, register, r } => {
                self.parties[usize::from(party)].registers[usize::from(register)] = Some(r);
            }
        }
    }

    /// Writes the first part of a state buffer that is long enough.
    fn write_state(&self, state: &mut [u8]) {
        state[..STATE_BYTES].fill(0);
        for (bytes, term) in state.chunks_exact_mut(8).zip(&self.states) {
            let [request_high, request_low] = term.request.to_be_bytes();
            let [place_high, place_low] = term.place.to_be_bytes();
            bytes.copy_from_slice(&[
                term.known,
                term.table,
                term.mark,
                term.desk,
                request_high,
                request_low,
                place_high,
                place_low,
            ]);
        }
    }

    /// Writes the first part of a register buffer that is long enough.
    fn write_registers(&self, registers: &mut [u8]) {
        registers[..REGISTER_BYTES].fill(0xFF);
        let of_parties = registers.chunks_exact_mut(PARTY_REGISTER_BYTES);
        for (bytes, party) in of_parties.zip(&self.parties) {
            for (two, shown) in bytes.chunks_exact_mut(2).zip(party.registers) {
                if let Some(t) = shown {
                    two.copy_from_slice(&t.to_be_bytes());
                }
            }
        }
    }
}

/// The bit of a party.
fn bit(party: u8) -> u8 {
    1 << party
}

// ---------------------------------------------------------------------------
// Loading
// ---------------------------------------------------------------------------

/// A refusal of a whole call.
struct Refusal {
    number: u32,
    place: u32,
}

/// The sections, in the order that they must stand in.
#[derive(Clone, Copy, Default, PartialEq, Eq, PartialOrd, Ord)]
enum Section {
    #[default]
    Parties,
    Terms,
    SetUp,
    Commands,
}

/// The section and the body length of a kind; none for an unknown kind.
fn shape(kind: u8) -> Option<(Section, usize)> {
    let section = match kind {
        0x01 => Section::Parties,
        0x10..=0x1C => Section::Terms,
        0x20..=0x22 => Section::SetUp,
        0x30..=0x45 => Section::Commands,
        _ => return None,
    };
    let length = match kind {
        0x01 | 0x1B => 1,
        0x12 | 0x14 | 0x16 => 2,
        0x10 | 0x11 | 0x20..=0x22 | 0x30..=0x37 | 0x3D | 0x45 => 3,
        0x13 | 0x18 | 0x1A | 0x3B | 0x3C | 0x44 => 4,
        0x1C | 0x38..=0x3A | 0x3E | 0x40..=0x42 => 5,
        0x15 | 0x3F => 6,
        0x17 | 0x19 => 7,
        0x43 => 2 + 4 * PAIRS,
        _ => return None,
    };
    Some((section, length))
}

/// Scans a file and does its set-up.
fn scan(file: &[u8]) -> Result<World, Refusal> {
    let mut world = World::default();
    let mut section = Section::default();
    let mut place = 0;
    while place < file.len() {
        match world.read_record(&file[place..], place, &mut section) {
            Ok(length) => place += length,
            Err(number) => {
                return Err(Refusal {
                    number,
                    place: place as u32,
                });
            }
        }
    }
    Ok(world)
}

/// The unread fields of one body, whose length was checked before.
struct Body<'a> {
    rest: &'a [u8],
}

impl Body<'_> {
    fn byte(&mut self) -> u8 {
        let byte = self.rest[0];
        self.rest = &self.rest[1..];
        byte
    }

    fn two(&mut self) -> u16 {
        let high = self.byte();
        let low = self.byte();
        u16::from_be_bytes([high, low])
    }

    /// Attributes: at most the sum of the four.
    fn attributes(&mut self) -> Result<u8, u32> {
        let attributes = self.byte();
        if attributes > RESTRICTED | SIGN | DECRYPT | FIXED_TPM {
            return Err(7);
        }
        Ok(attributes)
    }

    fn key(&mut self) -> Result<Key, u32> {
        Ok(Key {
            id: self.two(),
            attributes: self.attributes()?,
        })
    }

    fn subject(&mut self) -> Result<Subject, u32> {
        match self.byte() {
            0 => Ok(Subject::Tpm(self.two())),
            1 => Ok(Subject::Device(self.two())),
            _ => Err(7),
        }
    }

    /// A register: 0 to 23.
    fn register(&mut self) -> Result<u8, u32> {
        let register = self.byte();
        if usize::from(register) >= REGISTERS {
            return Err(7);
        }
        Ok(register)
    }

    /// A declared party.
    fn party(&mut self, world: &World) -> Result<u8, u32> {
        let party = self.byte();
        if usize::from(party) >= world.parties.len() {
            return Err(7);
        }
        Ok(party)
    }

    /// A term declared so far, of any kind. While a term is being read those
    /// are the lower ones.
    fn term(&mut self, world: &World) -> Result<u16, u32> {
        let t = self.two();
        if usize::from(t) >= world.terms.len() {
            return Err(7);
        }
        Ok(t)
    }

    /// A term declared so far, of that kind alone.
    fn term_of(&mut self, world: &World, kind: u8) -> Result<u16, u32> {
        let t = self.term(world)?;
        if world.kind(t) != kind {
            return Err(8);
        }
        Ok(t)
    }

    /// A 13 over a term of that kind.
    fn signature_over(&mut self, world: &World, kind: u8) -> Result<u16, u32> {
        let t = self.term_of(world, 0x13)?;
        match world.term(t) {
            Term::Signature { message, .. } if world.kind(message) == kind => Ok(t),
            _ => Err(8),
        }
    }

    /// A 12 over a 1A.
    fn hashed_pair(&mut self, world: &World) -> Result<u16, u32> {
        let t = self.term(world)?;
        match world.hashed_pair(t) {
            Some(_) => Ok(t),
            None => Err(8),
        }
    }

    /// A credential and a certificate; none for two FFFF, the empty pair. One
    /// FFFF alone is no declared term.
    fn iak_pair(&mut self, world: &World) -> Result<Option<IakPair>, u32> {
        if self.rest[..4] == [0xFF; 4] {
            self.rest = &self.rest[4..];
            return Ok(None);
        }
        Ok(Some(IakPair {
            credential: self.term_of(world, 0x15)?,
            r: self.term_of(world, 0x19)?,
        }))
    }
}

impl World {
    /// Reads the record at the start of `rest`; gives its length, or the
    /// refusal.
    fn read_record(
        &mut self,
        rest: &[u8],
        place: usize,
        current: &mut Section,
    ) -> Result<usize, u32> {
        let kind = rest[0];
        let (section, length) = shape(kind).ok_or(3u32)?;
        let body = rest.get(1..1 + length).ok_or(4u32)?;
        if section < *current {
            return Err(5);
        }
        *current = section;
        let body = Body { rest: body };
        match section {
            Section::Parties => self.read_party(body)?,
            Section::Terms => self.read_term(kind, body, place)?,
            Section::SetUp => self.read_set_up(kind, body)?,
            Section::Commands => {
                let command = self.read_command(kind, body)?;
                self.commands.push(command);
            }
        }
        Ok(1 + length)
    }

    fn read_party(&mut self, mut body: Body) -> Result<(), u32> {
        if self.parties.len() == PARTIES {
            return Err(6);
        }
        let role = body.byte();
        if role > OWNER_DESK {
            return Err(7);
        }
        self.parties.push(Party {
            role,
            signing_key: None,
            registers: [None; REGISTERS],
        });
        Ok(())
    }

    fn read_term(&mut self, kind: u8, mut body: Body, place: usize) -> Result<(), u32> {
        if self.terms.len() == TERMS {
            return Err(6);
        }
        let term = match kind {
            0x10 => Term::PublicKey(body.key()?),
            0x11 => Term::PrivateKey(body.key()?),
            0x12 => Term::Hash {
                content: body.term(self)?,
            },
            0x13 => Term::Signature {
                message: body.term(self)?,
                key: body.term_of(self, 0x11)?,
            },
            0x14 => Term::Attest {
                key: body.term_of(self, 0x10)?,
            },
            0x15 => Term::Credential {
                first: body.term(self)?,
                number: body.term_of(self, 0x16)?,
                key: body.term_of(self, 0x10)?,
            },
            0x16 => Term::Number { id: body.two() },
            0x17 => Term::IdevidRequest {
                subject: body.subject()?,
                certificate: body.term_of(self, 0x19)?,
                key: body.term_of(self, 0x10)?,
            },
            0x18 => Term::LdevidRequest {
                message: body.term(self)?,
                certificate: body.term_of(self, 0x19)?,
            },
            0x19 => Term::Certificate {
                key: body.term_of(self, 0x10)?,
                subject: body.subject()?,
                signer: body.term_of(self, 0x11)?,
            },
            0x1A => Term::Pair {
                first: body.term(self)?,
                second: body.term(self)?,
            },
            0x1B => Term::Start {
                register: body.register()?,
            },
            0x1C => Term::QuoteBody {
                register: body.register()?,
                value: body.term(self)?,
                number: body.term_of(self, 0x16)?,
            },
            _ => unreachable!("a kind of the section of terms"),
        };
        if self.numbers.contains_key(&term) {
            return Err(9);
        }
        let t = self.terms.len() as u16;
        self.numbers.insert(term, t);
        self.terms.push(term);
        self.states.push(TermState {
            place: place as u16,
            ..TermState::default()
        });
        // All parties stand before the terms.
        if let Term::Start { register } = term {
            for party in &mut self.parties {
                if party.role == DEVICE {
                    party.registers[usize::from(register)] = Some(t);
                }
            }
        }
        Ok(())
    }

    fn read_set_up(&mut self, kind: u8, mut body: Body) -> Result<(), u32> {
        let party = body.party(self)?;
        match kind {
            0x20 => {
                let t = body.term(self)?;
                let allowed = match self.term(t) {
                    Term::PublicKey(_) | Term::Number { .. } => true,
                    Term::Certificate {
                        subject: Subject::Tpm(_),
                        signer,
                        ..
                    } => self.signing_key_of(signer, &[TPM_MAKER]),
                    _ => false,
                };
                if !allowed {
                    return Err(10);
                }
                self.learn(t, party);
            }
            0x21 => {
                let t = body.term_of(self, 0x11)?;
                let others = self.states[usize::from(t)].table & !bit(party);
                if self.has(t, FIXED_TPM) && others != 0 {
                    return Err(11);
                }
                self.enter_table(t, party);
            }
            0x22 => {
                let t = body.term_of(self, 0x11)?;
                let allowed = self.role(party) != DEVICE
                    && self.parties[usize::from(party)].signing_key.is_none()
                    && self.attributes(t) == SIGNING_KEY
                    && self.in_table(t, party);
                if !allowed {
                    return Err(12);
                }
                self.parties[usize::from(party)].signing_key = Some(t);
            }
            _ => unreachable!("a kind of the section of set-up"),
        }
        Ok(())
    }

    fn read_command(&self, kind: u8, mut body: Body) -> Result<Command, u32> {
        let party = body.party(self)?;
        let command = match kind {
            0x30 => Command::Hash {
                party,
                r: body.term_of(self, 0x12)?,
            },
            0x31 => Command::Sign {
                party,
                r: body.term_of(self, 0x13)?,
            },
            0x32 => Command::Certify {
                party,
                r: body.signature_over(self, 0x14)?,
            },
            0x33 => Command::MakeCredential {
                party,
                r: body.term_of(self, 0x15)?,
            },
            0x34 => Command::ActivateCredential {
                party,
                r: body.term_of(self, 0x15)?,
            },
            0x35 => Command::Build {
                party,
                r: body.term_of(self, 0x17)?,
            },
            0x36 => Command::Build {
                party,
                r: body.term_of(self, 0x18)?,
            },
            0x37 => Command::Build {
                party,
                r: body.term_of(self, 0x1A)?,
            },
            0x38 => Command::CheckHash {
                party,
                hash: body.term_of(self, 0x12)?,
                content: body.term(self)?,
            },
            0x39 => Command::CheckSignature {
                party,
                signature: body.term_of(self, 0x13)?,
                key: body.term_of(self, 0x10)?,
            },
            0x3A => Command::CheckCertificate {
                party,
                certificate: body.term_of(self, 0x19)?,
                key: body.term_of(self, 0x10)?,
            },
            0x3B => Command::CheckAttributes {
                party,
                key: body.term_of(self, 0x10)?,
                attributes: body.attributes()?,
            },
            0x3C => Command::Send {
                party,
                receiver: body.party(self)?,
                term: body.term(self)?,
            },
            0x3D => Command::SelfIssue {
                party,
                r: body.term_of(self, 0x19)?,
            },
            0x3E => Command::Challenge {
                desk: party,
                request: body.term(self)?,
                r: body.term_of(self, 0x15)?,
            },
            0x3F => Command::IssueIak {
                desk: party,
                returning: body.party(self)?,
                credential: body.term_of(self, 0x15)?,
                r: body.term_of(self, 0x19)?,
            },
            0x40..=0x42 => Command::IssueAttested {
                family: match kind {
                    0x40 => LAK,
                    0x41 => IDEVID,
                    _ => LDEVID,
                },
                desk: party,
                request: body.term(self)?,
                r: body.term_of(self, 0x19)?,
            },
            0x43 => {
                let returning = body.party(self)?;
                let mut pairs = [None; PAIRS];
                for pair in &mut pairs {
                    *pair = body.iak_pair(self)?;
                }
                Command::IssueIaks {
                    desk: party,
                    returning,
                    pairs,
                }
            }
            0x44 => Command::Extend {
                party,
                register: body.register()?,
                r: body.hashed_pair(self)?,
            },
            0x45 => Command::Quote {
                party,
                r: body.signature_over(self, 0x1C)?,
            },
            _ => unreachable!("a kind of the section of commands"),
        };
        Ok(command)
    }
}
