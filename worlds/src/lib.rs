//! Deterministic test files: honest and hostile enrolments, random records,
//! damaged files. The same seed always gives the same file.

use std::collections::HashMap;

/// Longest scenario file, in bytes.
const FILE_BYTES: usize = 32_768;
/// Longest record, a 43.
const RECORD_BYTES: usize = 19;
/// Pairs of a 43, and what stands in both fields of an empty one.
const PAIRS: usize = 4;
const EMPTY: (u16, u16) = (0xFFFF, 0xFFFF);
/// Kinds of terms and of commands: the first and the last of their sections.
const TERM_KINDS: (u8, u8) = (0x10, 0x1C);
const COMMAND_KINDS: (u8, u8) = (0x30, 0x45);
/// Registers of a device.
pub const REGISTERS: u8 = 24;

/// Splitmix64.
pub struct Rng(u64);

impl Rng {
    /// A stream of its own for each seed and purpose.
    pub fn new(seed: u64, purpose: u64) -> Rng {
        let mut rng = Rng(seed ^ purpose.wrapping_mul(0xD6E8_FEB8_6659_FD93));
        let start = rng.next();
        Rng(start)
    }

    #[allow(clippy::should_implement_trait)]
    pub fn next(&mut self) -> u64 {
        self.0 = self.0.wrapping_add(0x9E37_79B9_7F4A_7C15);
        let mut z = self.0;
        z = (z ^ z >> 30).wrapping_mul(0xBF58_476D_1CE4_E5B9);
        z = (z ^ z >> 27).wrapping_mul(0x94D0_49BB_1331_11EB);
        z ^ z >> 31
    }

    /// From 0 to `bound` minus 1; 0 for an empty range.
    pub fn below(&mut self, bound: usize) -> usize {
        if bound == 0 {
            0
        } else {
            (self.next() % bound as u64) as usize
        }
    }

    pub fn chance(&mut self, percent: usize) -> bool {
        self.below(100) < percent
    }

    pub fn byte(&mut self) -> u8 {
        self.next() as u8
    }

    pub fn pick<T: Copy>(&mut self, items: &[T]) -> T {
        items[self.below(items.len())]
    }

    pub fn try_pick<T: Copy>(&mut self, items: &[T]) -> Option<T> {
        items.get(self.below(items.len())).copied()
    }

    pub fn shuffle<T>(&mut self, items: &mut [T]) {
        for i in (1..items.len()).rev() {
            items.swap(i, self.below(i + 1));
        }
    }
}

/// Kind byte and body.
#[derive(Clone, Copy, Debug, PartialEq, Eq, Hash)]
pub struct Record {
    bytes: [u8; RECORD_BYTES],
    length: u8,
}

impl Record {
    pub fn new(kind: u8) -> Record {
        let mut record = Record {
            bytes: [0; RECORD_BYTES],
            length: 0,
        };
        record.push(kind);
        record
    }

    fn push(&mut self, byte: u8) {
        self.bytes[self.length as usize] = byte;
        self.length += 1;
    }

    pub fn byte(mut self, byte: u8) -> Record {
        self.push(byte);
        self
    }

    pub fn word(self, word: u16) -> Record {
        let [high, low] = word.to_be_bytes();
        self.byte(high).byte(low)
    }

    pub fn subject(self, subject: Subject) -> Record {
        match subject {
            Subject::Tpm(number) => self.byte(0).word(number),
            Subject::Device(number) => self.byte(1).word(number),
        }
    }

    pub fn bytes(&self) -> &[u8] {
        &self.bytes[..self.length as usize]
    }

    pub fn kind(&self) -> u8 {
        self.bytes[0]
    }

    fn word_at(&self, i: usize) -> u16 {
        u16::from_be_bytes([self.bytes[i], self.bytes[i + 1]])
    }

    /// The pairs of a 43.
    fn pairs(&self) -> [(u16, u16); PAIRS] {
        std::array::from_fn(|i| (self.word_at(3 + 4 * i), self.word_at(5 + 4 * i)))
    }
}

#[derive(Clone, Copy, Debug, PartialEq, Eq)]
pub enum Subject {
    Tpm(u16),
    Device(u16),
}

pub const DEVICE: u8 = 0;
pub const MAKER: u8 = 1;
pub const OEM: u8 = 2;
pub const OWNER: u8 = 3;

/// Attributes of an attestation key (IAK, LAK).
pub const AK: u8 = 0x0B;
/// Attributes of an IDevID or LDevID key.
pub const DEVID: u8 = 0x0A;
/// Attributes of an endorsement key.
pub const EK: u8 = 0x0D;
/// Attributes of a signing key of a desk or a TPM maker.
pub const DESK_KEY: u8 = 0x0A;

/// A file in the making. Terms named twice are declared once.
#[derive(Clone, Default)]
pub struct Draft {
    pub roles: Vec<u8>,
    pub terms: Vec<Record>,
    pub setup: Vec<Record>,
    pub commands: Vec<Record>,
    numbers: HashMap<Record, u16>,
    kinds: [Vec<u16>; (TERM_KINDS.1 - TERM_KINDS.0) as usize + 1],
}

impl Draft {
    pub fn new() -> Draft {
        Draft::default()
    }

    pub fn party(&mut self, role: u8) -> u8 {
        self.roles.push(role);
        self.roles.len() as u8 - 1
    }

    pub fn term(&mut self, record: Record) -> u16 {
        if let Some(&t) = self.numbers.get(&record) {
            return t;
        }
        let t = self.terms.len() as u16;
        self.terms.push(record);
        self.numbers.insert(record, t);
        self.kinds[(record.kind() - TERM_KINDS.0) as usize].push(t);
        t
    }

    pub fn public(&mut self, id: u16, attributes: u8) -> u16 {
        self.term(Record::new(0x10).word(id).byte(attributes))
    }
    pub fn private(&mut self, id: u16, attributes: u8) -> u16 {
        self.term(Record::new(0x11).word(id).byte(attributes))
    }
    pub fn hash(&mut self, t: u16) -> u16 {
        self.term(Record::new(0x12).word(t))
    }
    pub fn signature(&mut self, message: u16, private: u16) -> u16 {
        self.term(Record::new(0x13).word(message).word(private))
    }
    pub fn attest(&mut self, public: u16) -> u16 {
        self.term(Record::new(0x14).word(public))
    }
    pub fn credential(&mut self, first: u16, number: u16, public: u16) -> u16 {
        self.term(Record::new(0x15).word(first).word(number).word(public))
    }
    pub fn number(&mut self, id: u16) -> u16 {
        self.term(Record::new(0x16).word(id))
    }
    pub fn idevid(&mut self, subject: Subject, certificate: u16, public: u16) -> u16 {
        self.term(
            Record::new(0x17)
                .subject(subject)
                .word(certificate)
                .word(public),
        )
    }
    pub fn ldevid(&mut self, message: u16, certificate: u16) -> u16 {
        self.term(Record::new(0x18).word(message).word(certificate))
    }
    pub fn certificate(&mut self, public: u16, subject: Subject, signer: u16) -> u16 {
        self.term(Record::new(0x19).word(public).subject(subject).word(signer))
    }
    pub fn pair(&mut self, first: u16, second: u16) -> u16 {
        self.term(Record::new(0x1A).word(first).word(second))
    }
    pub fn register(&mut self, register: u8) -> u16 {
        self.term(Record::new(0x1B).byte(register))
    }
    pub fn quote(&mut self, register: u8, value: u16, number: u16) -> u16 {
        self.term(Record::new(0x1C).byte(register).word(value).word(number))
    }
    /// What a register shows after an extend: the hash of its old value and a term.
    pub fn extended(&mut self, value: u16, t: u16) -> u16 {
        let pair = self.pair(value, t);
        self.hash(pair)
    }

    /// 20: the party learns the term.
    pub fn learns(&mut self, party: u8, t: u16) {
        self.setup.push(Record::new(0x20).byte(party).word(t));
    }
    /// 21: the party's TPM holds the private key.
    pub fn holds(&mut self, party: u8, private: u16) {
        self.setup.push(Record::new(0x21).byte(party).word(private));
    }
    /// 22: the party signs with the private key.
    pub fn signs(&mut self, party: u8, private: u16) {
        self.setup.push(Record::new(0x22).byte(party).word(private));
    }

    pub fn push(&mut self, command: Record) {
        self.commands.push(command);
    }

    /// Bytes of the file before its commands.
    fn head(&self) -> usize {
        let records = self.terms.iter().chain(&self.setup);
        2 * self.roles.len() + records.map(|r| r.length as usize).sum::<usize>()
    }

    pub fn file(&self) -> Vec<u8> {
        let mut file = Vec::with_capacity(FILE_BYTES);
        for &role in &self.roles {
            file.extend_from_slice(&[0x01, role]);
        }
        for record in self.terms.iter().chain(&self.setup).chain(&self.commands) {
            file.extend_from_slice(record.bytes());
        }
        file
    }

    fn of_kind(&self, kind: u8) -> &[u16] {
        &self.kinds[(kind - TERM_KINDS.0) as usize]
    }

    /// Hashes or signatures, by their kind, over a term of another kind.
    fn over(&self, kind: u8, inner: u8) -> Vec<u16> {
        let inside = |&t: &u16| self.terms[t as usize].word_at(1) as usize;
        let some = self.of_kind(kind).iter().copied();
        some.filter(|t| self.terms[inside(t)].kind() == inner)
            .collect()
    }

    fn parties_of(&self, role: u8) -> Vec<u8> {
        (0..self.roles.len() as u8)
            .filter(|&p| self.roles[p as usize] == role)
            .collect()
    }
}

/// 30 to 37, 3D and 45: party and result.
pub fn act(kind: u8, party: u8, r: u16) -> Record {
    Record::new(kind).byte(party).word(r)
}
/// 38 to 3A: party and two terms.
pub fn check(kind: u8, party: u8, left: u16, right: u16) -> Record {
    Record::new(kind).byte(party).word(left).word(right)
}
pub fn check_attributes(party: u8, public: u16, attributes: u8) -> Record {
    Record::new(0x3B).byte(party).word(public).byte(attributes)
}
pub fn send(party: u8, receiver: u8, t: u16) -> Record {
    Record::new(0x3C).byte(party).byte(receiver).word(t)
}
pub fn challenge(desk: u8, request: u16, r: u16) -> Record {
    Record::new(0x3E).byte(desk).word(request).word(r)
}
pub fn issue_iak(desk: u8, returning: u8, credential: u16, r: u16) -> Record {
    Record::new(0x3F)
        .byte(desk)
        .byte(returning)
        .word(credential)
        .word(r)
}
/// 43: desk, returning party and four pairs of credential and certificate.
pub fn issue_iaks(desk: u8, returning: u8, pairs: [(u16, u16); PAIRS]) -> Record {
    let start = Record::new(0x43).byte(desk).byte(returning);
    let add = |record: Record, (credential, r): (u16, u16)| record.word(credential).word(r);
    pairs.into_iter().fold(start, add)
}
/// 44: party, register and the hash of its old value and a term.
pub fn extend(party: u8, register: u8, r: u16) -> Record {
    Record::new(0x44).byte(party).byte(register).word(r)
}
/// 40 to 42: desk, 18 request and certificate.
pub fn issue(kind: u8, desk: u8, request: u16, r: u16) -> Record {
    Record::new(kind).byte(desk).word(request).word(r)
}

/// What stands in the body of a record.
#[derive(Clone, Copy, PartialEq, Eq)]
enum Field {
    Role,
    Party,
    Attributes,
    Subject,
    Word,
    Any,
    Term(u8),
    /// A hash or a signature, by its kind, over a term of the other kind.
    Over(u8, u8),
    Register,
    /// Credential and certificate, or empty.
    Pair,
}

impl Field {
    fn length(self) -> usize {
        match self {
            Field::Role | Field::Party | Field::Attributes | Field::Register => 1,
            Field::Word | Field::Any | Field::Term(_) | Field::Over(..) => 2,
            Field::Subject => 3,
            Field::Pair => 4,
        }
    }
}

fn fields(kind: u8) -> &'static [Field] {
    use Field::*;
    match kind {
        0x01 => &[Role],
        0x10 | 0x11 => &[Word, Attributes],
        0x12 => &[Any],
        0x13 => &[Any, Term(0x11)],
        0x14 => &[Term(0x10)],
        0x15 => &[Any, Term(0x16), Term(0x10)],
        0x16 => &[Word],
        0x17 => &[Subject, Term(0x19), Term(0x10)],
        0x18 => &[Any, Term(0x19)],
        0x19 => &[Term(0x10), Subject, Term(0x11)],
        0x1A => &[Any, Any],
        0x1B => &[Register],
        0x1C => &[Register, Any, Term(0x16)],
        0x20 => &[Party, Any],
        0x21 | 0x22 => &[Party, Term(0x11)],
        0x30 => &[Party, Term(0x12)],
        0x31 => &[Party, Term(0x13)],
        0x32 => &[Party, Over(0x13, 0x14)],
        0x33 | 0x34 => &[Party, Term(0x15)],
        0x35 => &[Party, Term(0x17)],
        0x36 => &[Party, Term(0x18)],
        0x37 => &[Party, Term(0x1A)],
        0x38 => &[Party, Term(0x12), Any],
        0x39 => &[Party, Term(0x13), Term(0x10)],
        0x3A => &[Party, Term(0x19), Term(0x10)],
        0x3B => &[Party, Term(0x10), Attributes],
        0x3C => &[Party, Party, Any],
        0x3D => &[Party, Term(0x19)],
        0x3E => &[Party, Any, Term(0x15)],
        0x3F => &[Party, Party, Term(0x15), Term(0x19)],
        0x40..=0x42 => &[Party, Any, Term(0x19)],
        0x43 => &[Party, Party, Pair, Pair, Pair, Pair],
        0x44 => &[Party, Register, Over(0x12, 0x1A)],
        0x45 => &[Party, Over(0x13, 0x1C)],
        _ => &[],
    }
}

/// Where the records of a file start, as far as kinds are known.
fn starts(file: &[u8]) -> Vec<usize> {
    let mut places = Vec::new();
    let mut place = 0;
    while place < file.len() && !fields(file[place]).is_empty() {
        places.push(place);
        place += 1 + fields(file[place])
            .iter()
            .map(|f| f.length())
            .sum::<usize>();
    }
    places
}

/// Kinds of the commands of a file that loads, in their order.
pub fn command_kinds(file: &[u8]) -> Vec<u8> {
    starts(file)
        .into_iter()
        .map(|place| file[place])
        .filter(|&kind| kind >= COMMAND_KINDS.0)
        .collect()
}

/// A record of this kind with fields that fit the draft, if it has such terms.
fn fitting(rng: &mut Rng, draft: &Draft, kind: u8, ids: usize) -> Option<Record> {
    let mut record = Record::new(kind);
    for &field in fields(kind) {
        record = match field {
            Field::Role => record.byte(rng.below(4) as u8),
            Field::Party => {
                if draft.roles.is_empty() {
                    return None;
                }
                record.byte(rng.below(draft.roles.len()) as u8)
            }
            Field::Attributes => {
                let usual = [AK, AK, EK, DESK_KEY, DESK_KEY, 0x02, 0x05, 0x03];
                let attributes = if rng.chance(85) {
                    rng.pick(&usual)
                } else {
                    rng.byte() % 16
                };
                record.byte(attributes)
            }
            Field::Subject => record.byte(rng.below(2) as u8).word(rng.below(ids) as u16),
            Field::Word => record.word(rng.below(ids) as u16),
            Field::Any => {
                if draft.terms.is_empty() {
                    return None;
                }
                let mut t = rng.below(draft.terms.len());
                // Nobody knows a private key, so few terms are made of one.
                if draft.terms[t].kind() == 0x11 && rng.chance(85) {
                    t = rng.below(draft.terms.len());
                }
                record.word(t as u16)
            }
            Field::Term(kind) => record.word(rng.try_pick(draft.of_kind(kind))?),
            Field::Over(kind, inner) => record.word(rng.try_pick(&draft.over(kind, inner))?),
            // Mostly one of the first, so that they meet.
            Field::Register if rng.chance(85) => record.byte(rng.below(3) as u8),
            Field::Register => record.byte(rng.below(REGISTERS as usize) as u8),
            Field::Pair => {
                let credential = rng.try_pick(draft.of_kind(0x15));
                let certificate = rng.try_pick(draft.of_kind(0x19));
                let some = credential.zip(certificate).filter(|_| rng.chance(50));
                let (credential, certificate) = some.unwrap_or(EMPTY);
                record.word(credential).word(certificate)
            }
        };
    }
    Some(record)
}

/// A command of any kind with fields that fit, mostly by a party whose role
/// may do it and mostly with a pair where a request goes. Half of the device
/// commands are done by `main`, if there is one.
fn stray(rng: &mut Rng, draft: &Draft, main: Option<u8>) -> Option<Record> {
    for _ in 0..8 {
        let (first, last) = COMMAND_KINDS;
        let kind = first + rng.below((last - first) as usize + 1) as u8;
        let Some(mut record) = fitting(rng, draft, kind, 4) else {
            continue;
        };
        let role = match kind {
            0x3E | 0x3F | 0x41 | 0x43 => OEM,
            0x40 | 0x42 => OWNER,
            _ => DEVICE,
        };
        match main {
            Some(p) if role == DEVICE && rng.chance(50) => record.bytes[1] = p,
            _ if rng.chance(85) => {
                if let Some(p) = rng.try_pick(&draft.parties_of(role)) {
                    record.bytes[1] = p;
                }
            }
            _ => {}
        }
        if matches!(kind, 0x3E | 0x40..=0x42) && rng.chance(85) {
            if let Some(t) = rng.try_pick(draft.of_kind(0x1A)) {
                record.bytes[2..4].copy_from_slice(&t.to_be_bytes());
            }
        }
        return Some(record);
    }
    None
}

/// The same command with one field taken anew, or another one of the same body.
fn twisted(rng: &mut Rng, draft: &Draft, command: Record) -> Option<Record> {
    let kind = command.kind();
    if matches!(kind, 0x40..=0x42) && rng.chance(30) {
        let mut record = command;
        record.bytes[0] = 0x40 + rng.below(3) as u8;
        return Some(record);
    }
    if kind == 0x43 && rng.chance(60) {
        let [_, desk, returning, ..] = command.bytes;
        return Some(issue_iaks(desk, returning, mixed(rng, command.pairs())));
    }
    let other = fitting(rng, draft, kind, 4)?;
    let list = fields(kind);
    let chosen = rng.below(list.len());
    let start = 1 + list[..chosen].iter().map(|f| f.length()).sum::<usize>();
    let end = start + list[chosen].length();
    let mut record = command;
    record.bytes[start..end].copy_from_slice(&other.bytes[start..end]);
    Some(record)
}

/// Other pairs of the same terms. Each pair is whole or empty.
fn mixed(rng: &mut Rng, mut pairs: [(u16, u16); PAIRS]) -> [(u16, u16); PAIRS] {
    let (i, j) = (rng.below(PAIRS), rng.below(PAIRS));
    let whole = pairs[i] != EMPTY && pairs[j] != EMPTY;
    match rng.below(7) {
        0 => pairs.swap(i, j),
        1 => rng.shuffle(&mut pairs),
        2 => pairs[i] = EMPTY,
        3 => pairs[i] = pairs[j],
        4 if whole => pairs[i].0 = pairs[j].0,
        5 if whole => pairs[i].1 = pairs[j].1,
        _ => {
            for k in (0..PAIRS).filter(|&k| k != i) {
                pairs[k] = EMPTY;
            }
        }
    }
    pairs
}

/// FFFF in one field of the pairs of a 43, in a whole pair, or in fields of two
/// pairs. An empty pair gets another number in one field.
fn half_empty(rng: &mut Rng, bytes: &mut [u8]) {
    let field = 3 + 2 * rng.below(2 * PAIRS);
    let length = if rng.chance(60) { 2 } else { 4 };
    let end = (field + length).min(bytes.len());
    for byte in &mut bytes[field..end] {
        *byte = if *byte == 0xFF && length == 2 {
            0
        } else {
            0xFF
        };
    }
}

/// Where the register byte of a record of this kind stands, if it has one.
fn register_place(kind: u8) -> Option<usize> {
    let list = fields(kind);
    let chosen = list.iter().position(|&f| f == Field::Register)?;
    Some(1 + list[..chosen].iter().map(|f| f.length()).sum::<usize>())
}

/// A byte that is no register's.
fn no_register(rng: &mut Rng) -> u8 {
    if rng.chance(70) {
        REGISTERS + rng.below(3) as u8
    } else {
        REGISTERS + rng.below(256 - REGISTERS as usize) as u8
    }
}

/// Whether a record is of change request 6.
fn of_registers(record: &Record) -> bool {
    matches!(record.kind(), 0x1B | 0x1C | 0x44 | 0x45)
}

/// Such a record with a register or a term that does not fit. An r is mostly of
/// the right kind, over a term of any.
fn misfit(rng: &mut Rng, draft: &Draft, mut record: Record) -> Record {
    let mut choices = Vec::new();
    let mut start = 1;
    for &field in fields(record.kind()) {
        if matches!(field, Field::Register | Field::Term(_) | Field::Over(..)) {
            choices.push((start, field));
        }
        start += field.length();
    }
    let Some((start, field)) = rng.try_pick(&choices) else {
        return record;
    };
    if field == Field::Register {
        record.bytes[start] = no_register(rng);
        return record;
    }
    let right = match field {
        Field::Over(kind, _) => rng.try_pick(draft.of_kind(kind)),
        _ => None,
    };
    let any = rng.below(draft.terms.len()) as u16;
    let t = right.filter(|_| rng.chance(80)).unwrap_or(any);
    record.bytes[start..start + 2].copy_from_slice(&t.to_be_bytes());
    record
}

/// One record of registers that does not fit, if there is any.
fn misfits(rng: &mut Rng, draft: &mut Draft) {
    let lists = [&draft.terms, &draft.commands];
    let chosen = rng.below(2);
    let all = 0..lists[chosen].len();
    let all: Vec<usize> = all.filter(|&i| of_registers(&lists[chosen][i])).collect();
    if let Some(i) = rng.try_pick(&all) {
        let record = misfit(rng, draft, lists[chosen][i]);
        let list = if chosen == 0 {
            &mut draft.terms
        } else {
            &mut draft.commands
        };
        list[i] = record;
    }
}

// ---------------------------------------------------------------------------
// Enrolment worlds

/// What a desk issues on an 18 request.
#[derive(Clone, Copy)]
struct Family {
    kind: u8,
    /// Of the desk.
    role: u8,
    /// Of the new key.
    attributes: u8,
}

const LAK: Family = Family {
    kind: 0x40,
    role: OWNER,
    attributes: AK,
};
const IDEVID: Family = Family {
    kind: 0x41,
    role: OEM,
    attributes: DEVID,
};
const LDEVID: Family = Family {
    kind: 0x42,
    role: OWNER,
    attributes: DEVID,
};

/// Where an enrolment of a key leaves the honest way.
#[derive(Clone, Copy, PartialEq, Eq)]
enum Slip {
    None,
    // In the request of either kind.
    SwappedPair,
    BareBody,
    OtherHash,
    OtherSigner,
    NoHash,
    WeakKey,
    SiblingKey,
    NotSent,
    ForeignKey,
    // In the certificate asked for.
    OtherSubject,
    OtherKey,
    OtherIssuer,
    Again,
    // IAK only.
    TpmSubject,
    SelfIssuedEndorsement,
    DeviceEndorsement,
    WeakEndorsement,
    UsedNumber,
    SharedNumber,
    UnknownNumber,
    OtherName,
    NoName,
    OtherEndorsement,
    NoActivation,
    ReturnedByDesk,
    ReturnedByOther,
    OtherDesk,
    WrongRole,
    ForeignEndorsement,
    OtherEk,
    SharedSubject,
    Twice,
    AgainByOtherEk,
    // Several IAKs together only.
    AllEmpty,
    SameCredential,
    SameCertificate,
    Crossed,
    // Under an issued certificate only.
    PlainAttest,
    NotAttest,
    SelfIssuedParent,
    EndorsementParent,
    OwnerParent,
    DevidParent,
    AgainElsewhere,
    OtherCommand,
    HashedAttest,
}

const IAK_SLIPS: [Slip; 39] = [
    Slip::SwappedPair,
    Slip::BareBody,
    Slip::OtherHash,
    Slip::OtherSigner,
    Slip::NoHash,
    Slip::WeakKey,
    Slip::SiblingKey,
    Slip::NotSent,
    Slip::ForeignKey,
    Slip::OtherSubject,
    Slip::OtherKey,
    Slip::OtherIssuer,
    Slip::Again,
    Slip::Again,
    Slip::TpmSubject,
    Slip::SelfIssuedEndorsement,
    Slip::DeviceEndorsement,
    Slip::WeakEndorsement,
    Slip::UsedNumber,
    Slip::SharedNumber,
    Slip::UnknownNumber,
    Slip::OtherName,
    Slip::NoName,
    Slip::OtherEndorsement,
    Slip::NoActivation,
    Slip::ReturnedByDesk,
    Slip::ReturnedByOther,
    Slip::OtherDesk,
    Slip::WrongRole,
    Slip::ForeignEndorsement,
    Slip::OtherEk,
    Slip::OtherEk,
    Slip::SharedSubject,
    Slip::SharedSubject,
    Slip::SharedSubject,
    Slip::Twice,
    Slip::AgainByOtherEk,
    Slip::AgainByOtherEk,
    Slip::HashedAttest,
];

/// Of one IAK among several, or of the 43.
const TOGETHER_SLIPS: [Slip; 26] = [
    Slip::WeakKey,
    Slip::NotSent,
    Slip::UsedNumber,
    Slip::NoActivation,
    Slip::NoActivation,
    Slip::OtherSubject,
    Slip::OtherKey,
    Slip::OtherIssuer,
    Slip::Again,
    Slip::Again,
    Slip::Again,
    Slip::Again,
    Slip::OtherEk,
    Slip::OtherEk,
    Slip::OtherEk,
    Slip::SharedSubject,
    Slip::SharedSubject,
    Slip::Twice,
    Slip::ReturnedByDesk,
    Slip::ReturnedByOther,
    Slip::OtherDesk,
    Slip::WrongRole,
    Slip::AllEmpty,
    Slip::SameCredential,
    Slip::SameCertificate,
    Slip::Crossed,
];

const FAMILY_SLIPS: [Slip; 23] = [
    Slip::SwappedPair,
    Slip::BareBody,
    Slip::OtherHash,
    Slip::OtherSigner,
    Slip::NoHash,
    Slip::WeakKey,
    Slip::SiblingKey,
    Slip::NotSent,
    Slip::ForeignKey,
    Slip::OtherSubject,
    Slip::OtherKey,
    Slip::OtherIssuer,
    Slip::Again,
    Slip::WrongRole,
    Slip::PlainAttest,
    Slip::NotAttest,
    Slip::SelfIssuedParent,
    Slip::EndorsementParent,
    Slip::OwnerParent,
    Slip::DevidParent,
    Slip::AgainElsewhere,
    Slip::OtherCommand,
    Slip::HashedAttest,
];

/// Where a remote attestation of a device leaves the honest way.
#[derive(Clone, Copy, PartialEq, Eq)]
enum Astray {
    No,
    // At an extend.
    StaleExtend,
    ExtendTwice,
    UnknownTerm,
    // At a quote.
    OldValue,
    OtherRegister,
    OtherParty,
    NoValue,
    UnknownNumber,
    PlainKey,
    DecryptKey,
    ForeignKey,
    // At both.
    EmptyRegister,
    Desk,
    OtherDevice,
    // Another way to a signature over a quote body.
    HashedQuote,
    SignedQuote,
    // Afterwards.
    Replay,
}

const ASTRAY: [Astray; 18] = [
    Astray::StaleExtend,
    Astray::ExtendTwice,
    Astray::UnknownTerm,
    Astray::OldValue,
    Astray::OldValue,
    Astray::OtherRegister,
    Astray::OtherParty,
    Astray::NoValue,
    Astray::UnknownNumber,
    Astray::PlainKey,
    Astray::DecryptKey,
    Astray::ForeignKey,
    Astray::EmptyRegister,
    Astray::Desk,
    Astray::OtherDevice,
    Astray::HashedQuote,
    Astray::SignedQuote,
    Astray::Replay,
];

/// Attributes near those of the keys that get certificates.
const WEAK: [u8; 7] = [0x03, 0x09, 0x0F, 0x02, 0x0E, 0x08, 0x01];

/// The attributes of the other keys that get certificates.
fn sibling(attributes: u8) -> u8 {
    if attributes == AK {
        DEVID
    } else {
        AK
    }
}

#[derive(Clone, Copy)]
struct Key {
    public: u16,
    private: u16,
}

struct Device {
    party: u8,
    subject: u16,
    /// Endorsement keys with a certificate each; the first key's certificates
    /// come first, and there may be several.
    endorsements: Vec<(Key, u16)>,
    /// A signing key that is not Restricted.
    plain: Key,
}

struct Desk {
    party: u8,
    key: Option<Key>,
}

/// A certificate that should have been issued.
#[derive(Clone, Copy)]
struct Node {
    device: usize,
    key: Key,
    attributes: u8,
    certificate: u16,
    depth: u16,
    flow: usize,
}

impl Node {
    /// Whether it may stand above a certificate of the family, but for depth 8.
    fn bears(&self, family: Family) -> bool {
        self.attributes == AK && (family.role == OWNER || self.depth == 1)
    }
}

/// An IAK whose credential is open.
#[derive(Clone, Copy)]
struct Opened {
    key: Key,
    credential: u16,
    certificate: u16,
}

/// Commands of one enrolment, to start when others are done.
struct Flow {
    after: Vec<usize>,
    commands: Vec<Record>,
}

struct Town {
    rng: Rng,
    draft: Draft,
    makers: Vec<Desk>,
    oems: Vec<Desk>,
    owners: Vec<Desk>,
    devices: Vec<Device>,
    nodes: Vec<Node>,
    flows: Vec<Flow>,
    /// Set-up in three groups: held, signing, learned.
    held: Vec<Record>,
    signing: Vec<Record>,
    learned: Vec<Record>,
    numbers: Vec<u16>,
    next_id: u16,
    /// Registers that have a starting value.
    started: Vec<u8>,
    /// What a register of a device should show once a flow is done.
    shown: HashMap<(usize, u8), (u16, usize)>,
    /// Quotes that should have been made: device, quote, flow.
    quotes: Vec<(usize, u16, usize)>,
}

impl Town {
    /// Parties, their keys and the endorsement certificates.
    fn new(mut rng: Rng) -> Town {
        let count = |rng: &mut Rng| if rng.chance(60) { 1 } else { 2 };
        let (makers, oems, owners) = (count(&mut rng), count(&mut rng), count(&mut rng));
        let most = 8 - makers - oems - owners;
        let devices = if rng.chance(40) {
            most
        } else {
            1 + rng.below(most)
        };
        let mut roles = Vec::new();
        for (role, count) in [
            (MAKER, makers),
            (OEM, oems),
            (OWNER, owners),
            (DEVICE, devices),
        ] {
            roles.extend(std::iter::repeat_n(role, count));
        }
        rng.shuffle(&mut roles);
        let mut started: Vec<u8> = (0..REGISTERS).collect();
        rng.shuffle(&mut started);
        started.truncate(match rng.below(10) {
            0 => 0,
            1 => REGISTERS as usize,
            _ => 1 + rng.below(4),
        });
        let mut town = Town {
            rng,
            draft: Draft::new(),
            makers: Vec::new(),
            oems: Vec::new(),
            owners: Vec::new(),
            devices: Vec::new(),
            nodes: Vec::new(),
            flows: Vec::new(),
            held: Vec::new(),
            signing: Vec::new(),
            learned: Vec::new(),
            numbers: Vec::new(),
            next_id: 0,
            started,
            shown: HashMap::new(),
            quotes: Vec::new(),
        };
        for &role in &roles {
            let party = town.draft.party(role);
            if role != DEVICE {
                let key = town.desk_key(party, role);
                let desk = Desk { party, key };
                match role {
                    MAKER => town.makers.push(desk),
                    OEM => town.oems.push(desk),
                    _ => town.owners.push(desk),
                }
            }
        }
        for (party, &role) in roles.iter().enumerate() {
            if role == DEVICE {
                town.device(party as u8);
            }
        }
        town
    }

    fn id(&mut self) -> u16 {
        // Ids are often shared between keys of other attributes.
        if !self.rng.chance(10) || self.next_id == 0 {
            self.next_id += 1;
        }
        self.next_id
    }

    fn key(&mut self, attributes: u8) -> Key {
        self.next_id += 1;
        self.key_of(self.next_id, attributes)
    }

    fn key_of(&mut self, id: u16, attributes: u8) -> Key {
        if self.rng.chance(50) {
            let public = self.draft.public(id, attributes);
            Key {
                public,
                private: self.draft.private(id, attributes),
            }
        } else {
            let private = self.draft.private(id, attributes);
            Key {
                public: self.draft.public(id, attributes),
                private,
            }
        }
    }

    fn learns(&mut self, party: u8, t: u16) {
        self.learned.push(Record::new(0x20).byte(party).word(t));
    }

    fn holds(&mut self, party: u8, private: u16) {
        self.held.push(Record::new(0x21).byte(party).word(private));
    }

    /// Signing key of a desk or a TPM maker; a few owner desks have none.
    fn desk_key(&mut self, party: u8, role: u8) -> Option<Key> {
        let key = self.key(DESK_KEY);
        if role != MAKER && self.rng.chance(3) {
            return None;
        }
        self.holds(party, key.private);
        self.signing
            .push(Record::new(0x22).byte(party).word(key.private));
        for p in 0..8 {
            if self.rng.chance(60) {
                self.learned
                    .push(Record::new(0x20).byte(p).word(key.public));
            }
        }
        Some(key)
    }

    fn device(&mut self, party: u8) {
        let subject = match self.devices.first() {
            // Serial numbers with the same low ten bits.
            Some(first) if self.rng.chance(30) => first
                .subject
                .wrapping_add(1_024 * self.devices.len() as u16),
            _ => self.id(),
        };
        let attributes = self.rng.pick(&[0x0A, 0x02, 0x0A, 0x06, 0x0E]);
        let plain = self.key(attributes);
        self.holds(party, plain.private);
        self.learns(party, plain.public);
        let mut endorsements = Vec::new();
        let mut ek = self.key(EK);
        self.holds(party, ek.private);
        for i in 0..1 + self.rng.below(3) {
            if i > 0 && self.rng.chance(60) {
                ek = self.key(EK);
                self.holds(party, ek.private);
            }
            let maker = self.rng.below(self.makers.len());
            let signer = self.makers[maker].key.map_or(plain.private, |k| k.private);
            let tpm = self.id();
            let certificate = self.draft.certificate(ek.public, Subject::Tpm(tpm), signer);
            self.learns(party, certificate);
            endorsements.push((ek, certificate));
        }
        self.devices.push(Device {
            party,
            subject,
            endorsements,
            plain,
        });
    }

    fn other_device(&mut self, d: usize) -> usize {
        (d + 1 + self.rng.below(self.devices.len().saturating_sub(1))) % self.devices.len()
    }

    /// The key of a desk, or any private key if it has none.
    fn issuer(&self, key: Option<Key>, d: usize) -> u16 {
        key.map_or(self.devices[d].plain.private, |k| k.private)
    }

    /// A desk of the role: its party and its key.
    fn desk(&mut self, role: u8) -> (u8, Option<Key>) {
        let desks = if role == OEM {
            &self.oems
        } else {
            &self.owners
        };
        let desk = &desks[self.rng.below(desks.len())];
        (desk.party, desk.key)
    }

    /// A new key for a device, and its set-up.
    fn new_key(&mut self, d: usize, attributes: u8, slip: Slip) -> Key {
        let attributes = match slip {
            Slip::WeakKey => self.rng.pick(&WEAK),
            Slip::SiblingKey => sibling(attributes),
            Slip::OwnerParent | Slip::DevidParent if self.rng.chance(25) => sibling(attributes),
            Slip::NoHash => DEVID,
            _ => attributes,
        };
        let key = self.key(attributes);
        let party = self.devices[d].party;
        let holder = if slip == Slip::ForeignKey {
            let other = self.other_device(d);
            self.devices[other].party
        } else {
            party
        };
        self.holds(holder, key.private);
        self.learns(party, key.public);
        key
    }

    /// Hash, signature and pair over a body, with the commands that make them.
    fn request(&mut self, d: usize, key: Key, body: u16, slip: Slip, to: &mut Vec<Record>) -> u16 {
        let p = self.devices[d].party;
        let hashed = if slip == Slip::OtherHash {
            key.public
        } else {
            body
        };
        let message = if slip == Slip::NoHash {
            body
        } else {
            let hash = self.draft.hash(hashed);
            to.push(act(0x30, p, hash));
            hash
        };
        let signer = if slip == Slip::OtherSigner {
            self.devices[d].plain.private
        } else {
            key.private
        };
        let signature = self.draft.signature(message, signer);
        to.push(act(0x31, p, signature));
        let request = if slip == Slip::SwappedPair {
            self.draft.pair(signature, body)
        } else {
            self.draft.pair(body, signature)
        };
        to.push(act(0x37, p, request));
        if slip == Slip::BareBody {
            body
        } else {
            request
        }
    }

    /// The certificate a desk is asked for.
    fn wanted(&mut self, d: usize, key: Key, subject: Subject, issuer: u16, slip: Slip) -> u16 {
        let subject = match (slip, subject) {
            (Slip::OtherSubject, Subject::Device(number)) => {
                if self.rng.chance(50) {
                    Subject::Device(number.wrapping_add(1))
                } else {
                    Subject::Tpm(number)
                }
            }
            _ => subject,
        };
        let public = if slip == Slip::OtherKey {
            self.devices[d].plain.public
        } else {
            key.public
        };
        let issuer = if slip == Slip::OtherIssuer {
            self.devices[d].plain.private
        } else {
            issuer
        };
        self.draft.certificate(public, subject, issuer)
    }

    /// A number as the slip has it.
    fn nonce(&mut self, oem: u8, slip: Slip) -> u16 {
        if slip == Slip::UsedNumber {
            if let Some(number) = self.rng.try_pick(&self.numbers) {
                return number;
            }
        }
        let id = self.next_id;
        self.next_id += 1;
        let number = self.draft.number(id);
        if slip != Slip::UnknownNumber {
            self.learns(oem, number);
        }
        if slip == Slip::SharedNumber {
            let other = self.rng.below(self.draft.roles.len()) as u8;
            self.learns(other, number);
        }
        self.numbers.push(number);
        number
    }

    /// Starting values that nobody uses, and numbers that no challenge asks for: an
    /// OEM desk's own, shared with another party, of another party alone, of
    /// nobody.
    fn spare(&mut self, mut rng: Rng) {
        for i in 0..self.started.len() {
            if self.draft.terms.len() < 1_000 {
                self.draft.register(self.started[i]);
            }
        }
        for i in 0..rng.below(24) {
            if self.draft.terms.len() >= 1_000 {
                return;
            }
            let number = self.draft.number(30_000 + i as u16);
            if rng.chance(85) {
                let oem = self.oems[rng.below(self.oems.len())].party;
                self.learns(oem, number);
            }
            if rng.chance(25) {
                let other = rng.below(self.draft.roles.len()) as u8;
                self.learns(other, number);
            }
        }
    }

    /// A certificate of a device's first endorsement key, or of any other.
    fn endorsement(&mut self, d: usize, other: bool) -> (Key, u16) {
        let all = &self.devices[d].endorsements;
        let first = all[0].0.public;
        let some: Vec<_> = all
            .iter()
            .filter(|e| (e.0.public == first) != other)
            .copied()
            .collect();
        self.rng
            .try_pick(&some)
            .unwrap_or(self.devices[d].endorsements[0])
    }

    /// Enrolment of an IAK on an endorsement certificate.
    fn enrol_iak(&mut self, d: usize, slip: Slip) {
        let mut commands = Vec::new();
        let p = self.devices[d].party;
        let subject = if slip == Slip::SharedSubject {
            let other = self.other_device(d);
            self.devices[other].subject
        } else {
            self.devices[d].subject
        };
        let desk = self.rng.below(self.oems.len());
        let (oem, desk_key) = (self.oems[desk].party, self.oems[desk].key);
        let key = self.new_key(d, AK, slip);

        let source = if slip == Slip::ForeignEndorsement {
            self.other_device(d)
        } else {
            d
        };
        let chosen = self.endorsement(source, slip == Slip::OtherEk);
        let (mut ek, mut endorsement) = chosen;
        let plain = self.devices[d].plain;
        match slip {
            Slip::SelfIssuedEndorsement | Slip::DeviceEndorsement => {
                let s = if slip == Slip::DeviceEndorsement {
                    Subject::Device(subject)
                } else {
                    Subject::Tpm(subject)
                };
                endorsement = self.draft.certificate(ek.public, s, plain.private);
                commands.push(act(0x3D, p, endorsement));
            }
            Slip::WeakEndorsement => {
                let attributes = self.rng.pick(&[0x05, 0x0C, 0x0F, 0x04]);
                ek = self.key(attributes);
                self.holds(p, ek.private);
                let signer = self.issuer(self.makers[0].key, d);
                endorsement = self
                    .draft
                    .certificate(ek.public, Subject::Tpm(subject), signer);
                self.learns(p, endorsement);
            }
            Slip::ForeignEndorsement => self.learns(p, endorsement),
            _ => {}
        }

        let named = if slip == Slip::TpmSubject {
            Subject::Tpm(subject)
        } else {
            Subject::Device(subject)
        };
        let body = self.draft.idevid(named, endorsement, key.public);
        commands.push(act(0x35, p, body));
        let request = self.request(d, key, body, slip, &mut commands);
        if slip == Slip::HashedAttest {
            let attest = self.draft.attest(key.public);
            let certified = self.draft.signature(attest, plain.private);
            let hash = self.draft.hash(attest);
            let signature = self.draft.signature(hash, key.private);
            commands.extend([
                act(0x32, p, certified),
                act(0x30, p, hash),
                act(0x31, p, signature),
            ]);
        }

        let first = match slip {
            Slip::OtherName => self.draft.hash(plain.public),
            Slip::NoName => key.public,
            _ => self.draft.hash(key.public),
        };
        let number = self.nonce(oem, slip);
        let under = if slip == Slip::OtherEndorsement {
            plain.public
        } else {
            ek.public
        };
        let credential = self.draft.credential(first, number, under);
        let issuer = self.issuer(desk_key, d);
        let certificate = self.wanted(d, key, Subject::Device(subject), issuer, slip);

        if slip != Slip::NotSent {
            commands.push(send(p, oem, request));
        }
        if self.rng.chance(25) {
            self.desk_checks(oem, request, &mut commands);
        }
        let opener = if slip == Slip::WrongRole {
            self.owners[0].party
        } else {
            oem
        };
        commands.push(challenge(opener, request, credential));
        commands.push(send(oem, p, credential));
        if slip != Slip::NoActivation {
            commands.push(act(0x34, p, credential));
        }
        let returning = match slip {
            Slip::ReturnedByDesk => oem,
            Slip::ReturnedByOther => {
                let other = self.other_device(d);
                self.devices[other].party
            }
            _ => p,
        };
        let closing = match slip {
            Slip::OtherDesk => self.oems[(desk + 1) % self.oems.len()].party,
            Slip::WrongRole => self.owners[0].party,
            _ => oem,
        };
        commands.push(issue_iak(closing, returning, credential, certificate));
        commands.push(send(oem, p, certificate));
        if slip == Slip::Twice {
            commands.push(issue_iak(oem, p, credential, certificate));
        }
        if slip == Slip::Again {
            let number = self.nonce(oem, Slip::None);
            let credential = self.draft.credential(first, number, ek.public);
            commands.extend([
                challenge(oem, request, credential),
                send(oem, p, credential),
                act(0x34, p, credential),
                issue_iak(oem, p, credential, certificate),
            ]);
        }
        if slip == Slip::AgainByOtherEk {
            let (ek, endorsement) = self.endorsement(d, true);
            let body = self.draft.idevid(named, endorsement, key.public);
            commands.push(act(0x35, p, body));
            let request = self.request(d, key, body, Slip::None, &mut commands);
            let number = self.nonce(oem, Slip::None);
            let credential = self.draft.credential(first, number, ek.public);
            commands.extend([
                send(p, oem, request),
                challenge(oem, request, credential),
                send(oem, p, credential),
                act(0x34, p, credential),
                issue_iak(oem, p, credential, certificate),
            ]);
        }
        let issued = matches!(
            slip,
            Slip::None | Slip::Twice | Slip::Again | Slip::AgainByOtherEk | Slip::HashedAttest
        );
        let node = Node {
            device: d,
            key,
            attributes: AK,
            certificate,
            depth: 1,
            flow: self.flows.len(),
        };
        self.finish(node, issued && desk_key.is_some(), Vec::new(), commands);
    }

    /// One IAK of several, up to the return of its number.
    fn open_iak(&mut self, d: usize, desk: usize, slip: Slip, to: &mut Vec<Record>) -> Opened {
        let p = self.devices[d].party;
        let (oem, desk_key) = (self.oems[desk].party, self.oems[desk].key);
        let number = if slip == Slip::SharedSubject {
            let other = self.other_device(d);
            self.devices[other].subject
        } else {
            self.devices[d].subject
        };
        let subject = Subject::Device(number);
        let key = self.new_key(d, AK, slip);
        let (ek, endorsement) = self.endorsement(d, slip == Slip::OtherEk);
        let body = self.draft.idevid(subject, endorsement, key.public);
        to.push(act(0x35, p, body));
        let request = self.request(d, key, body, slip, to);
        let name = self.draft.hash(key.public);
        let number = self.nonce(oem, slip);
        let mut credential = self.draft.credential(name, number, ek.public);
        let issuer = self.issuer(desk_key, d);
        let certificate = self.wanted(d, key, subject, issuer, slip);
        if slip != Slip::NotSent {
            to.push(send(p, oem, request));
        }
        to.push(challenge(oem, request, credential));
        to.push(send(oem, p, credential));
        if slip != Slip::NoActivation {
            to.push(act(0x34, p, credential));
        }
        if slip == Slip::Again {
            let number = self.nonce(oem, Slip::None);
            let again = self.draft.credential(name, number, ek.public);
            to.extend([
                challenge(oem, request, again),
                send(oem, p, again),
                act(0x34, p, again),
                issue_iak(oem, p, credential, certificate),
            ]);
            credential = again;
        }
        Opened {
            key,
            credential,
            certificate,
        }
    }

    /// Pairs in some of the four places, in their order.
    fn placed(&mut self, some: &[Opened]) -> [(u16, u16); PAIRS] {
        let mut pairs = [EMPTY; PAIRS];
        let mut left = some.len();
        for i in 0..PAIRS {
            if self.rng.below(PAIRS - i) < left {
                let iak = some[some.len() - left];
                pairs[i] = (iak.credential, iak.certificate);
                left -= 1;
            }
        }
        pairs
    }

    /// Enrolment of one to four IAKs of a device by one 43, with so many terms
    /// to spend.
    fn enrol_together(&mut self, d: usize, room: usize, slip: Slip) {
        let mut commands = Vec::new();
        let p = self.devices[d].party;
        let desk = self.rng.below(self.oems.len());
        let (oem, desk_key) = (self.oems[desk].party, self.oems[desk].key);
        let most = (room / 12).clamp(1, PAIRS);
        let count = 1 + self.rng.below(most).max(self.rng.below(most));
        // The slip is mostly in a later pair.
        let odd = self.rng.below(count).max(self.rng.below(count));
        let mut iaks = Vec::new();
        for i in 0..count {
            let slip = if i == odd { slip } else { Slip::None };
            iaks.push(self.open_iak(d, desk, slip, &mut commands));
        }
        let mut asked = iaks.clone();
        let before = (odd + count - 1) % count;
        match slip {
            Slip::AllEmpty => asked.clear(),
            Slip::SameCredential => asked[odd].credential = iaks[before].credential,
            Slip::SameCertificate if count == 1 => asked.push(iaks[0]),
            Slip::SameCertificate => asked[odd].certificate = iaks[before].certificate,
            Slip::Crossed => {
                asked[before].certificate = iaks[odd].certificate;
                asked[odd].certificate = iaks[before].certificate;
            }
            _ => {}
        }
        if slip == Slip::None || self.rng.chance(20) {
            self.rng.shuffle(&mut asked);
        }
        let returning = match slip {
            Slip::ReturnedByDesk => oem,
            Slip::ReturnedByOther => {
                let other = self.other_device(d);
                self.devices[other].party
            }
            _ => p,
        };
        let closing = match slip {
            Slip::OtherDesk => self.oems[(desk + 1) % self.oems.len()].party,
            Slip::WrongRole => self.owners[0].party,
            _ => oem,
        };
        // Now and then 3F issues one of them.
        if slip == Slip::None && count > 1 && self.rng.chance(15) {
            let alone = asked.remove(0);
            commands.push(issue_iak(oem, p, alone.credential, alone.certificate));
        }
        let pairs = self.placed(&asked);
        commands.push(issue_iaks(closing, returning, pairs));
        if slip == Slip::Twice {
            commands.push(issue_iaks(closing, returning, pairs));
        }
        // After a refusal the others are often asked for again.
        let mut issued = matches!(slip, Slip::None | Slip::Twice);
        if !issued && self.rng.chance(50) {
            iaks.remove(odd);
            let pairs = self.placed(&iaks);
            commands.push(issue_iaks(oem, p, pairs));
            issued = true;
        }
        for iak in &iaks {
            commands.push(send(oem, p, iak.certificate));
        }
        let flow = self.flows.len();
        self.flows.push(Flow {
            after: Vec::new(),
            commands,
        });
        for iak in iaks {
            if issued && desk_key.is_some() {
                self.nodes.push(Node {
                    device: d,
                    key: iak.key,
                    attributes: AK,
                    certificate: iak.certificate,
                    depth: 1,
                    flow,
                });
            }
        }
    }

    /// A certificate to stand above one of the family, mostly a late one if
    /// `deep` is high.
    fn parent(&mut self, family: Family, slip: Slip, deep: usize) -> Node {
        let nodes = self.nodes.iter().copied();
        let nodes: Vec<Node> = match slip {
            Slip::DevidParent => nodes.filter(|n| n.attributes == DEVID).collect(),
            Slip::OwnerParent => nodes.filter(|n| n.bears(LAK) && n.depth > 1).collect(),
            _ => nodes.filter(|n| n.bears(family)).collect(),
        };
        // The first is of an IAK.
        let last = *nodes.last().unwrap_or(&self.nodes[0]);
        if self.rng.chance(deep) {
            last
        } else {
            self.rng.try_pick(&nodes).unwrap_or(last)
        }
    }

    /// A request for a key under a certificate, with the commands that make it.
    fn attested(&mut self, key: Key, parent: Node, slip: Slip, to: &mut Vec<Record>) -> u16 {
        let (d, above) = (parent.device, parent.key);
        let mut parent_certificate = parent.certificate;
        let p = self.devices[d].party;
        let subject = self.devices[d].subject;
        let plain = self.devices[d].plain;

        let attest = self.draft.attest(key.public);
        let signer = if slip == Slip::PlainAttest {
            plain.private
        } else {
            above.private
        };
        let mut message = self.draft.signature(attest, signer);
        to.push(act(0x32, p, message));
        match slip {
            Slip::NotAttest => {
                message = if self.rng.chance(50) {
                    attest
                } else {
                    key.public
                }
            }
            Slip::SelfIssuedParent => {
                let s = Subject::Device(subject);
                parent_certificate = self.draft.certificate(above.public, s, plain.private);
                to.push(act(0x3D, p, parent_certificate));
            }
            Slip::EndorsementParent => {
                // A TPM maker's certificate, of this device or for this key.
                parent_certificate = self.devices[d].endorsements[0].1;
                if self.rng.chance(70) {
                    let signer = self.issuer(self.makers[0].key, d);
                    let s = Subject::Tpm(subject);
                    parent_certificate = self.draft.certificate(above.public, s, signer);
                    self.learns(p, parent_certificate);
                }
            }
            Slip::HashedAttest => {
                let hash = self.draft.hash(attest);
                let signature = self.draft.signature(hash, above.private);
                to.extend([act(0x30, p, hash), act(0x31, p, signature)]);
            }
            _ => {}
        }
        let body = self.draft.ldevid(message, parent_certificate);
        to.push(act(0x36, p, body));
        self.request(d, key, body, slip, to)
    }

    /// Enrolment of a key of the family on an issued certificate.
    fn enrol_under(&mut self, family: Family, parent: Node, slip: Slip) {
        let mut commands = Vec::new();
        let mut after = vec![parent.flow];
        let d = parent.device;
        let p = self.devices[d].party;
        let subject = Subject::Device(self.devices[d].subject);
        let (desk, desk_key) = self.desk(family.role);
        let key = self.new_key(d, family.attributes, slip);
        let request = self.attested(key, parent, slip, &mut commands);
        let issuer = self.issuer(desk_key, d);
        let certificate = self.wanted(d, key, subject, issuer, slip);
        if slip != Slip::NotSent {
            commands.push(send(p, desk, request));
        }
        if self.rng.chance(25) {
            self.desk_checks(desk, request, &mut commands);
        }
        let issuing = match slip {
            Slip::WrongRole => self.desk(if family.role == OEM { OWNER } else { OEM }).0,
            _ => desk,
        };
        commands.push(issue(family.kind, issuing, request, certificate));
        commands.push(send(desk, p, certificate));
        match slip {
            Slip::Again => commands.push(issue(family.kind, desk, request, certificate)),
            Slip::AgainElsewhere => {
                let nodes = self.nodes.iter().copied();
                let nodes: Vec<Node> = nodes
                    .filter(|n| n.device == d && n.bears(family) && n.flow != parent.flow)
                    .collect();
                if let Some(other) = self.rng.try_pick(&nodes) {
                    after.push(other.flow);
                    let request = self.attested(key, other, Slip::None, &mut commands);
                    commands.push(send(p, desk, request));
                    commands.push(issue(family.kind, desk, request, certificate));
                }
            }
            _ => {}
        }
        let other = match slip {
            Slip::OtherCommand => Some(self.rng.pick(&[LAK, IDEVID, LDEVID])),
            // One key may get both.
            Slip::None if family.attributes == DEVID && self.rng.chance(10) => {
                let other = if family.role == OEM { LDEVID } else { IDEVID };
                Some(other).filter(|&other| parent.bears(other))
            }
            _ => None,
        };
        if let Some(other) = other {
            let (desk, desk_key) = self.desk(other.role);
            let issuer = self.issuer(desk_key, d);
            let r = if slip == Slip::OtherCommand && self.rng.chance(50) {
                certificate
            } else {
                self.draft.certificate(key.public, subject, issuer)
            };
            commands.push(send(p, desk, request));
            commands.push(issue(other.kind, desk, request, r));
        }
        let issued = matches!(
            slip,
            Slip::None
                | Slip::Again
                | Slip::AgainElsewhere
                | Slip::OtherCommand
                | Slip::HashedAttest
        ) && parent.depth < 8;
        let node = Node {
            device: d,
            key,
            attributes: family.attributes,
            certificate,
            depth: parent.depth + 1,
            flow: self.flows.len(),
        };
        self.finish(node, issued && desk_key.is_some(), after, commands);
    }

    fn finish(&mut self, node: Node, issued: bool, after: Vec<usize>, commands: Vec<Record>) {
        self.flows.push(Flow { after, commands });
        // A few children of certificates never issued are asked for, too.
        if issued || self.rng.chance(2) {
            self.nodes.push(node);
        }
    }

    /// What a careful desk looks at, with a false check now and then.
    fn desk_checks(&mut self, desk: u8, request: u16, to: &mut Vec<Record>) {
        let pair = self.draft.terms[request as usize];
        if pair.kind() != 0x1A {
            return;
        }
        let (body, signature) = (pair.word_at(1), pair.word_at(3));
        if self.draft.terms[signature as usize].kind() != 0x13 {
            return;
        }
        let message = self.draft.terms[signature as usize].word_at(1);
        if self.draft.terms[message as usize].kind() == 0x12 {
            let content = if self.rng.chance(85) { body } else { message };
            to.push(check(0x38, desk, message, content));
        }
        let inner = self.draft.terms[body as usize];
        if inner.kind() == 0x17 {
            let (certificate, public) = (inner.word_at(4), inner.word_at(6));
            to.push(check(0x39, desk, signature, public));
            let attributes = if self.rng.chance(85) { AK } else { EK };
            to.push(check_attributes(desk, public, attributes));
            if let Some(maker) = self.makers[0].key {
                to.push(check(0x3A, desk, certificate, maker.public));
            }
        } else if inner.kind() == 0x18 {
            let (message, certificate) = (inner.word_at(1), inner.word_at(3));
            let public = self.draft.terms[certificate as usize].word_at(1);
            if self.draft.terms[message as usize].kind() == 0x13 {
                to.push(check(0x39, desk, message, public));
            }
            if let Some(key) = self.oems[0].key {
                to.push(check(0x3A, desk, certificate, key.public));
            }
        }
    }

    /// A device makes a credential for itself and opens it.
    fn rehearse(&mut self, d: usize) {
        let p = self.devices[d].party;
        let plain = self.devices[d].plain;
        let chosen = self.rng.below(self.devices[d].endorsements.len());
        let (ek, _) = self.devices[d].endorsements[chosen];
        let id = self.id();
        let number = self.draft.number(id);
        self.learns(p, number);
        let name = self.draft.hash(plain.public);
        let under = if self.rng.chance(85) { ek } else { plain };
        let credential = self.draft.credential(name, number, under.public);
        let commands = vec![
            act(0x30, p, name),
            act(0x33, p, credential),
            act(0x34, p, credential),
            check(0x38, p, name, plain.public),
        ];
        self.flows.push(Flow {
            after: Vec::new(),
            commands,
        });
    }

    /// What a register shows where it has a starting value, and the flow that has
    /// to be done for it; else any value.
    fn shows(&mut self, d: usize, register: u8) -> (u16, Option<usize>) {
        if let Some(&(value, flow)) = self.shown.get(&(d, register)) {
            return (value, Some(flow));
        }
        if self.started.contains(&register) {
            return (self.draft.register(register), None);
        }
        let public = self.devices[d].plain.public;
        let other = self
            .rng
            .try_pick(&self.started)
            .filter(|_| self.rng.chance(50));
        let value = match other {
            Some(other) => self.draft.register(other),
            None => self.draft.hash(public),
        };
        (value, None)
    }

    /// A register to attest, with a starting value or without.
    fn chosen_register(&mut self, started: bool) -> u8 {
        let any = self.rng.below(REGISTERS as usize) as u8;
        if started {
            // Mostly the first, so that there are chains.
            let few = self.started.len().min(3);
            let first = self.rng.try_pick(&self.started[..few]);
            let all = self.rng.try_pick(&self.started);
            return if self.rng.chance(80) { first } else { all }.unwrap_or(any);
        }
        let empty: Vec<u8> = (0..REGISTERS)
            .filter(|r| !self.started.contains(r))
            .collect();
        self.rng.try_pick(&empty).unwrap_or(any)
    }

    /// An attestation key of a device: one that should have a certificate, if
    /// there is any.
    fn attestation_key(&mut self, d: usize) -> Key {
        let nodes = self
            .nodes
            .iter()
            .filter(|n| n.device == d && n.attributes == AK);
        let keys: Vec<Key> = nodes.map(|n| n.key).collect();
        match self.rng.try_pick(&keys) {
            Some(key) => key,
            None => self.new_key(d, AK, Slip::None),
        }
    }

    /// The extends of a register of a device. What it showed, in order.
    fn extends(
        &mut self,
        d: usize,
        register: u8,
        value: u16,
        astray: Astray,
        to: &mut Vec<Record>,
    ) -> Vec<u16> {
        let p = self.devices[d].party;
        let least = match astray {
            Astray::StaleExtend => 2,
            Astray::ExtendTwice | Astray::UnknownTerm | Astray::OldValue => 1,
            _ => 0,
        };
        let count = least + self.rng.below(4 - least);
        let mut values = vec![value];
        for i in 0..count {
            let odd = i + 1 == count;
            let device = &self.devices[d];
            let known = [
                device.plain.public,
                device.endorsements[0].1,
                device.endorsements[0].0.public,
            ];
            let (private, t) = (device.plain.private, self.rng.pick(&known));
            let last = values[values.len() - 1];
            let (old, t) = match astray {
                Astray::StaleExtend if odd => (self.rng.pick(&values[..values.len() - 1]), t),
                Astray::UnknownTerm if odd => (last, private),
                _ => (last, t),
            };
            let r = self.draft.extended(old, t);
            let by = self.actor(d, astray);
            to.push(extend(by, register, r));
            if astray == Astray::ExtendTwice && odd {
                to.push(extend(by, register, r));
            }
            let refused = odd && matches!(astray, Astray::StaleExtend | Astray::UnknownTerm);
            if by == p && astray != Astray::EmptyRegister && !refused {
                values.push(r);
            }
        }
        values
    }

    /// Who extends and quotes: the device, mostly.
    fn actor(&mut self, d: usize, astray: Astray) -> u8 {
        match astray {
            Astray::Desk if self.rng.chance(70) => {
                let role = self.rng.pick(&[OEM, OWNER]);
                self.desk(role).0
            }
            Astray::OtherDevice if self.rng.chance(70) => {
                let other = self.other_device(d);
                self.devices[other].party
            }
            _ => self.devices[d].party,
        }
    }

    /// A number of a verifier that a device gets: typed in for both, or sent.
    fn fresh(&mut self, p: u8, verifier: u8, astray: Astray, to: &mut Vec<Record>) -> u16 {
        if self.rng.chance(5) {
            if let Some(number) = self.rng.try_pick(&self.numbers) {
                return number;
            }
        }
        let id = self.next_id;
        self.next_id += 1;
        let number = self.draft.number(id);
        self.learns(verifier, number);
        if astray == Astray::UnknownNumber {
            return number;
        }
        if self.draft.roles[verifier as usize] == DEVICE && self.rng.chance(80) {
            to.push(send(verifier, p, number));
        } else {
            self.learns(p, number);
        }
        number
    }

    /// Remote attestation: a device extends a register, and a verifier asks for a
    /// quote of it.
    fn attestation(&mut self, d: usize, astray: Astray) {
        let mut commands = Vec::new();
        let p = self.devices[d].party;
        let other = self.other_device(d);
        let verifier = match self.rng.below(3) {
            0 => self.desk(OEM).0,
            1 => self.desk(OWNER).0,
            _ => self.devices[other].party,
        };
        let register = self.chosen_register(astray != Astray::EmptyRegister);
        let (value, before) = self.shows(d, register);
        let mut after: Vec<usize> = before.into_iter().collect();
        let values = self.extends(d, register, value, astray, &mut commands);
        let last = values[values.len() - 1];
        let number = self.fresh(p, verifier, astray, &mut commands);
        let quoted = match astray {
            Astray::OldValue => values[values.len().saturating_sub(2)],
            Astray::OtherRegister => {
                let another = self.chosen_register(true);
                self.shows(d, another).0
            }
            Astray::OtherParty => self.shows(other, register).0,
            Astray::NoValue => self.rng.pick(&[number, self.devices[d].plain.public]),
            _ => last,
        };
        let plain = self.devices[d].plain;
        let key = match astray {
            Astray::PlainKey => plain,
            Astray::DecryptKey => self.devices[d].endorsements[0].0,
            Astray::ForeignKey => self.attestation_key(other),
            _ => self.attestation_key(d),
        };
        let body = self.draft.quote(register, quoted, number);
        let quote = self.draft.signature(body, key.private);
        if astray == Astray::SignedQuote {
            commands.push(act(0x31, p, quote));
        }
        let by = self.actor(d, astray);
        commands.push(act(0x45, by, quote));
        commands.push(send(p, verifier, quote));
        if self.rng.chance(30) {
            commands.push(check(0x39, verifier, quote, key.public));
        }
        match astray {
            Astray::HashedQuote => {
                let hash = self.draft.hash(body);
                let signature = self.draft.signature(hash, key.private);
                commands.extend([act(0x30, p, hash), act(0x31, p, signature)]);
            }
            Astray::SignedQuote => {
                let signature = self.draft.signature(body, plain.private);
                commands.push(act(0x31, p, signature));
            }
            Astray::Replay => {
                if let Some((old, quote, flow)) = self.rng.try_pick(&self.quotes) {
                    let party = self.devices[old].party;
                    commands.extend([send(party, verifier, quote), act(0x45, party, quote)]);
                    after.push(flow);
                }
            }
            _ => {}
        }
        let flow = self.flows.len();
        self.flows.push(Flow { after, commands });
        if self.started.contains(&register) {
            self.shown.insert((d, register), (last, flow));
        }
        if matches!(astray, Astray::No | Astray::HashedQuote | Astray::Replay) {
            self.quotes.push((d, quote, flow));
        }
    }

    /// Enrolments until the budget of terms is spent.
    fn enrol(&mut self, budget: usize, hostile: usize, deep: usize) {
        while self.draft.terms.len() + 16 <= budget {
            let iak = self.nodes.is_empty() || self.rng.chance(15);
            if self.rng.chance(3) {
                let d = self.rng.below(self.devices.len());
                self.rehearse(d);
            } else if self.rng.chance(12) {
                let d = self.rng.below(self.devices.len());
                let astray = if self.rng.chance(2 * hostile) {
                    self.rng.pick(&ASTRAY)
                } else {
                    Astray::No
                };
                self.attestation(d, astray);
            } else if iak {
                let together = self.rng.chance(40);
                let often = if together { 2 * hostile } else { hostile };
                let slip = if !self.rng.chance(often) {
                    Slip::None
                } else if together {
                    self.rng.pick(&TOGETHER_SLIPS)
                } else {
                    self.rng.pick(&IAK_SLIPS)
                };
                let d = self.rng.below(self.devices.len());
                if together {
                    self.enrol_together(d, budget - self.draft.terms.len(), slip);
                } else {
                    self.enrol_iak(d, slip);
                }
            } else {
                let slip = if self.rng.chance(hostile) {
                    self.rng.pick(&FAMILY_SLIPS)
                } else {
                    Slip::None
                };
                let family = self.rng.pick(&[LAK, LAK, LAK, IDEVID, LDEVID]);
                let parent = self.parent(family, slip, deep);
                self.enrol_under(family, parent, slip);
            }
        }
    }

    /// All flows merged, each after the one it needs.
    fn merge(&mut self, width: usize) {
        let mut done = vec![0; self.flows.len()];
        let mut active: Vec<usize> = Vec::new();
        let mut next = 0;
        loop {
            while active.len() < width && next < self.flows.len() {
                active.push(next);
                next += 1;
            }
            let ready: Vec<usize> = (0..active.len())
                .filter(|&i| {
                    let mut needed = self.flows[active[i]].after.iter();
                    needed.all(|&flow| done[flow] == self.flows[flow].commands.len())
                })
                .collect();
            let Some(i) = self.rng.try_pick(&ready) else {
                break;
            };
            let flow = active[i];
            self.draft
                .commands
                .push(self.flows[flow].commands[done[flow]]);
            done[flow] += 1;
            if done[flow] == self.flows[flow].commands.len() {
                active.remove(i);
            }
        }
    }

    /// A command that an enemy might add.
    fn hostile(&mut self) -> Option<Record> {
        let commands = self.draft.commands.len();
        match self.rng.below(10) {
            0..=2 => stray(&mut self.rng, &self.draft, None),
            3..=4 => {
                let p = self.rng.below(self.draft.roles.len()) as u8;
                let receiver = self.rng.below(self.draft.roles.len()) as u8;
                Some(send(
                    p,
                    receiver,
                    self.rng.below(self.draft.terms.len()) as u16,
                ))
            }
            5..=7 if commands > 0 => {
                let chosen = self.rng.below(commands);
                let command = self.draft.commands[chosen];
                twisted(&mut self.rng, &self.draft, command)
            }
            _ if commands > 0 => {
                let chosen = self.rng.below(commands);
                Some(self.draft.commands[chosen])
            }
            _ => None,
        }
    }

    /// Hostile commands between the others.
    fn interleave(&mut self, percent: usize) {
        let honest = self.draft.commands.clone();
        let mut all = Vec::with_capacity(honest.len() * 2);
        for command in honest {
            while self.rng.chance(percent) {
                all.extend(self.hostile());
            }
            all.push(command);
        }
        self.draft.commands = all;
    }

    /// Swaps, moves, losses and repeats.
    fn disturb(&mut self) {
        let commands = &mut self.draft.commands;
        for _ in 0..1 + self.rng.below(6) {
            if commands.len() < 2 {
                return;
            }
            let i = self.rng.below(commands.len());
            let j = self.rng.below(commands.len());
            match self.rng.below(6) {
                0 => {
                    let next = (i + 1) % commands.len();
                    commands.swap(i, next);
                }
                1 => commands.swap(i, j),
                2 => {
                    let command = commands.remove(i);
                    commands.insert(j.min(commands.len()), command);
                }
                3 => {
                    commands.remove(i);
                }
                4 => commands.insert(j, commands[i]),
                _ => {
                    let end = (i + 2 + j % 12).min(commands.len());
                    self.rng.shuffle(&mut commands[i..end]);
                }
            }
        }
    }

    /// Set-up in an order that is allowed, with a fault now and then.
    fn settle(&mut self, faults: usize) {
        self.rng.shuffle(&mut self.held);
        self.rng.shuffle(&mut self.signing);
        self.rng.shuffle(&mut self.learned);
        // Public keys of desks were offered to eight parties.
        let parties = self.draft.roles.len() as u8;
        self.learned.retain(|r| r.bytes[1] < parties);
        let mut all = std::mem::take(&mut self.held);
        all.append(&mut self.signing);
        all.append(&mut self.learned);
        // What needs no key given first may stand anywhere.
        for i in 0..all.len() {
            let free = all[i].kind() == 0x20
                && self.draft.terms[all[i].word_at(2) as usize].kind() != 0x19;
            if free && self.rng.chance(20) {
                let j = self.rng.below(i + 1);
                let record = all.remove(i);
                all.insert(j, record);
            }
        }
        if self.rng.chance(faults) {
            let kind = 0x20 + self.rng.below(3) as u8;
            if let Some(record) = fitting(&mut self.rng, &self.draft, kind, 4) {
                let place = self.rng.below(all.len() + 1);
                all.insert(place, record);
            }
        }
        self.draft.setup = all;
    }

    /// Commands cut so that the file is not too long.
    fn cut(&mut self) {
        let mut room = FILE_BYTES.saturating_sub(self.draft.head());
        let fits = self.draft.commands.iter().take_while(|r| {
            let fits = r.length as usize <= room;
            room = room.saturating_sub(r.length as usize);
            fits
        });
        let fits = fits.count();
        self.draft.commands.truncate(fits);
    }

    /// Commands added until the file has exactly the most bytes.
    fn fill(&mut self) {
        let used: usize = self.draft.commands.iter().map(|r| r.length as usize).sum();
        let Some(mut room) = FILE_BYTES.checked_sub(self.draft.head() + used) else {
            return;
        };
        let mut misses = 0;
        while room >= 4 && misses < 10_000 {
            let Some(record) = self.hostile() else {
                misses += 1;
                continue;
            };
            let length = record.length as usize;
            if length == room || length + 4 <= room {
                self.draft.commands.push(record);
                room -= length;
            } else {
                misses += 1;
            }
        }
    }
}

/// A town with this many terms, roughly.
fn town(rng: Rng, budget: usize) -> Town {
    let mut town = Town::new(rng);
    let hostile = if town.rng.chance(20) {
        0
    } else {
        3 + town.rng.below(45)
    };
    let deep = town.rng.pick(&[20, 60, 90]);
    town.enrol(budget, hostile, deep);
    let width = 1 + town.rng.below(6);
    town.merge(width);
    if !town.rng.chance(25) {
        let percent = 1 + town.rng.below(50);
        town.interleave(percent);
    }
    if town.rng.chance(35) {
        town.disturb();
    }
    if town.rng.chance(4) {
        let mut commands = std::mem::take(&mut town.draft.commands);
        town.rng.shuffle(&mut commands);
        town.draft.commands = commands;
    }
    town
}

/// Enrolment worlds: honest flows with hostile commands between them, from a
/// handful of terms up to the limits of the file.
pub fn world(seed: u64) -> Vec<u8> {
    let mut rng = Rng::new(seed, 1);
    let budget = match rng.below(10) {
        0..=3 => 40 + rng.below(120),
        4..=6 => 160 + rng.below(440),
        _ => 600 + rng.below(425),
    };
    let mut town = town(rng, budget);
    town.spare(Rng::new(seed, 2));
    if town.rng.chance(10) {
        // Up to the last term, and rarely past it.
        let limit = if town.rng.chance(90) { 1_024 } else { 1_025 };
        let mut id = 40_000;
        while town.draft.terms.len() < limit {
            town.draft.number(id);
            id += 1;
        }
    }
    town.settle(2);
    if town.rng.chance(1) {
        let mut together = town.draft.commands.iter_mut();
        if let Some(record) = together.find(|r| r.kind() == 0x43) {
            half_empty(&mut town.rng, &mut record.bytes);
        }
    }
    if town.rng.chance(2) {
        misfits(&mut town.rng, &mut town.draft);
    }
    if town.rng.chance(15) {
        town.fill();
    }
    if town.rng.chance(98) {
        town.cut();
    }
    town.draft.file()
}

// ---------------------------------------------------------------------------
// Random records

/// Random records in the right sections, with fields that mostly fit, so that
/// many of the files load.
pub fn random_records(seed: u64) -> Vec<u8> {
    let mut rng = Rng::new(seed, 2);
    let mut draft = Draft::new();
    let ids = 1 + rng.below(8);

    for _ in 0..1 + rng.below(8) {
        let role = rng.pick(&[DEVICE, DEVICE, DEVICE, MAKER, OEM, OEM, OWNER, OWNER]);
        draft.party(role);
    }

    let terms = match rng.below(20) {
        0 => 1_024,
        1..=3 => 1 + rng.below(600),
        _ => 1 + rng.below(120),
    };
    let mut misses = 0;
    while draft.terms.len() < terms && misses < 3 * terms {
        if draft.terms.len() < 6 && rng.chance(60) {
            let id = rng.below(ids) as u16;
            let attributes = rng.pick(&[AK, EK, DESK_KEY, 0x02]);
            draft.public(id, attributes);
            draft.private(id, attributes);
            continue;
        }
        let before = draft.terms.len();
        if rng.chance(8) {
            bundle(&mut rng, &mut draft);
        } else if rng.chance(8) {
            register_terms(&mut rng, &mut draft);
        } else {
            let kind = rng.pick(&[
                0x10, 0x10, 0x10, 0x11, 0x11, 0x11, 0x12, 0x12, 0x13, 0x13, 0x14, 0x15, 0x16, 0x16,
                0x17, 0x18, 0x19, 0x19, 0x1A, 0x1B, 0x1C,
            ]);
            let ids = if kind == 0x16 { 64 } else { ids };
            if let Some(record) = fitting(&mut rng, &draft, kind, ids) {
                draft.term(record);
            }
        }
        if draft.terms.len() == before {
            misses += 1;
        }
    }
    draft.terms.truncate(terms);
    for list in &mut draft.kinds {
        list.retain(|&t| (t as usize) < terms);
    }

    // One party gets much of what there is, so that its commands succeed.
    let main = rng.try_pick(&draft.parties_of(DEVICE)).unwrap_or(0);
    set_up_at_random(&mut rng, &mut draft, main);

    let commands = match rng.below(20) {
        0 => 5_000,
        1..=4 => rng.below(1_500),
        _ => rng.below(200),
    };
    for _ in 0..rng.below(4) {
        sweep(&mut rng, &mut draft, main);
    }
    while draft.commands.len() < commands {
        match stray(&mut rng, &draft, Some(main)) {
            Some(record) => draft.push(record),
            None => break,
        }
    }

    // One field or record that does not fit, in some files.
    if rng.chance(4) {
        misfits(&mut rng, &mut draft);
    } else if rng.chance(25) {
        let list = match rng.below(4) {
            0 | 1 => &mut draft.terms,
            2 => &mut draft.setup,
            _ => &mut draft.commands,
        };
        if !list.is_empty() {
            let i = rng.below(list.len());
            let record = &mut list[i];
            match rng.below(4) {
                0 if record.kind() == 0x43 && rng.chance(70) => {
                    half_empty(&mut rng, &mut record.bytes)
                }
                0 => {
                    let j = 1 + rng.below(record.length as usize - 1);
                    record.bytes[j] = rng.byte();
                }
                1 => record.bytes[record.length as usize - 1] ^= 1 << rng.below(8),
                2 => {
                    let copy = list[rng.below(list.len())];
                    list.insert(i, copy);
                }
                _ => {
                    list.remove(i);
                }
            }
        }
    }
    let mut file = draft.file();
    if file.len() > FILE_BYTES && rng.chance(90) {
        let last = starts(&file).into_iter().filter(|&s| s <= FILE_BYTES).max();
        file.truncate(last.unwrap_or(0));
    }
    file
}

/// A request over a body that is there already.
fn bundle(rng: &mut Rng, draft: &mut Draft) {
    let kind = rng.pick(&[0x17, 0x18]);
    let Some(body) = rng.try_pick(draft.of_kind(kind)) else {
        return;
    };
    let Some(key) = rng.try_pick(draft.of_kind(0x11)) else {
        return;
    };
    let hash = draft.hash(body);
    let signature = draft.signature(hash, key);
    draft.pair(body, signature);
}

/// A register's next value, or a quote of one.
fn register_terms(rng: &mut Rng, draft: &mut Draft) {
    let started = draft.register(rng.below(3) as u8);
    let values = draft.over(0x12, 0x1A);
    let value = rng.try_pick(&values).filter(|_| rng.chance(60));
    let value = value.unwrap_or(started);
    let numbers = draft.of_kind(0x16);
    let Some(number) = rng.try_pick(numbers) else {
        return;
    };
    if rng.chance(50) {
        let t = rng.try_pick(draft.of_kind(0x10)).filter(|_| rng.chance(50));
        draft.extended(value, t.unwrap_or(number));
    } else if let Some(key) = rng.try_pick(draft.of_kind(0x11)) {
        let register = register_of(draft, value).filter(|_| rng.chance(85));
        let register = register.unwrap_or(rng.below(3) as u8);
        let body = draft.quote(register, value, number);
        draft.signature(body, key);
    }
}

/// The register whose starting value a chain of extends begins with.
fn register_of(draft: &Draft, value: u16) -> Option<u8> {
    let record = draft.terms[value as usize];
    match record.kind() {
        0x1B => Some(record.bytes[1]),
        // The content of a hash, the first term of a pair.
        0x12 | 0x1A => register_of(draft, record.word_at(1)),
        _ => None,
    }
}

fn set_up_at_random(rng: &mut Rng, draft: &mut Draft, main: u8) {
    let parties = draft.roles.len();
    let lucky = |rng: &mut Rng| {
        if rng.chance(50) {
            main
        } else {
            rng.below(parties) as u8
        }
    };
    let mut makers_keys = Vec::new();
    let mut signing = vec![false; parties];
    for key in draft.of_kind(0x11).to_vec() {
        if rng.chance(25) {
            continue;
        }
        let attributes = draft.terms[key as usize].bytes[3];
        let mut p = lucky(rng) as usize;
        if attributes == DESK_KEY && rng.chance(70) {
            p = (0..parties)
                .find(|&q| draft.roles[q] != DEVICE && !signing[q])
                .unwrap_or(p);
        }
        draft.holds(p as u8, key);
        if attributes == DESK_KEY && draft.roles[p] != DEVICE && !signing[p] && rng.chance(90) {
            signing[p] = true;
            draft.signs(p as u8, key);
            if draft.roles[p] == MAKER {
                makers_keys.push(key);
            }
        } else if attributes & 8 == 0 && rng.chance(30) {
            draft.holds(rng.below(parties) as u8, key);
        }
    }
    let generous = rng.pick(&[20, 60, 95]);
    for t in 0..draft.terms.len() as u16 {
        let record = draft.terms[t as usize];
        let allowed = match record.kind() {
            0x10 | 0x16 => true,
            0x19 => record.bytes[3] == 0 && makers_keys.contains(&record.word_at(6)),
            _ => false,
        };
        if allowed && rng.chance(generous) {
            draft.learns(lucky(rng), t);
            if record.kind() != 0x16 && rng.chance(50) {
                draft.learns(lucky(rng), t);
            }
        }
    }
}

/// The commands that make the terms, in their order, mostly by one party.
fn sweep(rng: &mut Rng, draft: &mut Draft, main: u8) {
    for t in 0..draft.terms.len() as u16 {
        if rng.chance(30) {
            continue;
        }
        let record = draft.terms[t as usize];
        let p = if rng.chance(90) {
            main
        } else {
            rng.below(draft.roles.len()) as u8
        };
        let command = match record.kind() {
            0x12 => {
                let pair = draft.terms[record.word_at(1) as usize].kind() == 0x1A;
                match register_of(draft, t).filter(|_| pair && rng.chance(80)) {
                    Some(register) => extend(p, register, t),
                    None => act(0x30, p, t),
                }
            }
            0x13 => {
                let kind = match draft.terms[record.word_at(1) as usize].kind() {
                    0x14 if rng.chance(80) => 0x32,
                    0x1C if rng.chance(80) => 0x45,
                    _ => 0x31,
                };
                act(kind, p, t)
            }
            0x15 => act(rng.pick(&[0x33, 0x34]), p, t),
            0x17 => act(0x35, p, t),
            0x18 => act(0x36, p, t),
            0x19 => act(0x3D, p, t),
            0x1A => act(0x37, p, t),
            _ => send(rng.below(draft.roles.len()) as u8, p, t),
        };
        draft.push(command);
        if rng.chance(10) {
            let receiver = rng.below(draft.roles.len()) as u8;
            draft.push(send(p, receiver, t));
        }
    }
}

// ---------------------------------------------------------------------------
// Damage

/// A file that looks right, with bytes changed, added, lost or cut off.
pub fn damaged(seed: u64) -> Vec<u8> {
    let mut rng = Rng::new(seed, 3);
    let mut file = if rng.chance(60) {
        let budget = 30 + rng.below(150);
        let own = Rng::new(rng.next(), 4);
        let mut town = town(own, budget);
        town.settle(10);
        town.cut();
        town.draft.file()
    } else {
        random_records(rng.next())
    };
    let edits = if rng.chance(65) { 1 } else { 2 + rng.below(4) };
    for _ in 0..edits {
        if file.is_empty() {
            break;
        }
        let i = rng.below(file.len());
        match rng.below(11) {
            0..=2 => file[i] = rng.byte(),
            3 => file[i] ^= 1 << rng.below(8),
            4 => file[i] = file[i].wrapping_add(if rng.chance(50) { 1 } else { 255 }),
            5 => file.insert(i, rng.byte()),
            6 => {
                file.remove(i);
            }
            7 => file.truncate(i),
            _ => damage_record(&mut rng, &mut file),
        }
    }
    file
}

/// Whole records repeated, moved, put in or taken out.
fn damage_record(rng: &mut Rng, file: &mut Vec<u8>) {
    let mut places = starts(file);
    places.push(file.len());
    if places.len() < 3 {
        return;
    }
    let mut i = rng.below(places.len() - 1);
    let together = |&i: &usize| file[places[i]] == 0x43 && places[i] + RECORD_BYTES <= file.len();
    let all: Vec<usize> = (0..places.len() - 1).filter(together).collect();
    let chosen = rng.try_pick(&all).filter(|_| rng.chance(25));
    i = chosen.unwrap_or(i);
    let (start, end) = (places[i], places[i + 1].min(file.len()));
    if chosen.is_some() && rng.chance(60) {
        half_empty(rng, &mut file[start..end]);
        return;
    }
    if rng.chance(10) {
        let place = |&start: &usize| Some(start + register_place(*file.get(start)?)?);
        let all: Vec<usize> = places.iter().filter_map(place).collect();
        if let Some(place) = rng.try_pick(&all).filter(|&place| place < file.len()) {
            file[place] = no_register(rng);
            return;
        }
    }
    let record = file[start..end].to_vec();
    let target = rng.pick(&places).min(file.len());
    match rng.below(4) {
        0 => {
            file.splice(target..target, record);
        }
        1 => {
            file.drain(start..end);
        }
        2 => {
            let kind = rng.byte();
            file.insert(target, kind);
        }
        // Any kind, or one just past a section.
        _ if rng.chance(85) => file[start] = 0x01 + rng.byte() % COMMAND_KINDS.1,
        _ => file[start] = rng.pick(&[0x02, TERM_KINDS.1 + 1, 0x23, COMMAND_KINDS.1 + 1]),
    }
}

/// Any of these, and empty, over-long and meaningless files.
pub fn any(seed: u64) -> Vec<u8> {
    let mut rng = Rng::new(seed, 5);
    let own = rng.next();
    match rng.below(100) {
        0..=44 => world(own),
        45..=64 => random_records(own),
        65..=89 => damaged(own),
        90 => Vec::new(),
        91..=93 => {
            let mut file = world(own);
            let length = FILE_BYTES + 1 + rng.pick(&[0, 0, 1, 7, 300]);
            while file.len() < length {
                file.extend_from_slice(&[0x30, 0, 0, 0]);
            }
            file.truncate(length);
            file
        }
        _ => {
            let length = if rng.chance(90) {
                rng.below(200)
            } else {
                rng.below(33_000)
            };
            let usual = rng.chance(50);
            let kinds = COMMAND_KINDS.1 + 2;
            (0..length)
                .map(|_| {
                    if usual {
                        rng.byte() % kinds
                    } else {
                        rng.byte()
                    }
                })
                .collect()
        }
    }
}
