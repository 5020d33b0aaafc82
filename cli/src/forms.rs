//! Every kind of record: its name, its fields in the order of its body, and its line in the text form. One table serves assembling,
//! showing and the messages.

pub const PARTY: u8 = 0x01;
pub const PUBLIC_KEY: u8 = 0x10;
pub const PRIVATE_KEY: u8 = 0x11;
pub const HASH: u8 = 0x12;
pub const SIGNATURE: u8 = 0x13;
pub const ATTEST: u8 = 0x14;
pub const CREDENTIAL: u8 = 0x15;
pub const NUMBER: u8 = 0x16;
pub const IDEVID_REQUEST: u8 = 0x17;
pub const LDEVID_REQUEST: u8 = 0x18;
pub const CERTIFICATE: u8 = 0x19;
pub const PAIR: u8 = 0x1A;
pub const REGISTER: u8 = 0x1B;
pub const QUOTE_BODY: u8 = 0x1C;
pub const LEARNS: u8 = 0x20;
pub const HOLDS: u8 = 0x21;
pub const SIGNS_WITH: u8 = 0x22;
pub const CHALLENGE: u8 = 0x3E;
pub const ISSUE_IAK: u8 = 0x3F;
pub const ISSUE_LAK: u8 = 0x40;
pub const ISSUE_IDEVID: u8 = 0x41;
pub const ISSUE_LDEVID: u8 = 0x42;
pub const ISSUE_IAKS: u8 = 0x43;
pub const EXTEND: u8 = 0x44;
pub const QUOTE: u8 = 0x45;

/// Pairs of a 43, and what stands in both fields of an empty one.
pub const PAIRS: usize = 4;
pub const EMPTY: u16 = 0xFFFF;

/// Registers of a TPM.
pub const REGISTERS: u8 = birdweekly::REGISTERS as u8;

/// What a TPM makes by itself; a hash of it gets no ticket.
pub const TPM_GENERATED: [u8; 2] = [ATTEST, QUOTE_BODY];

/// Sections of a file, in their order.
#[derive(Clone, Copy, Debug, PartialEq, Eq, PartialOrd, Ord)]
pub enum Section {
    Parties,
    Terms,
    SetUp,
    Commands,
}

impl Section {
    pub fn words(self) -> &'static str {
        ["a party", "a term", "a set-up record", "a command"][self as usize]
    }
}

/// A field of a record's body.
#[derive(Clone, Copy, Debug, PartialEq, Eq)]
pub enum Field {
    Role,
    Identifier,
    Attributes,
    Subject,
    Party,
    AnyTerm,
    /// A term of one kind alone.
    Term(u8),
    /// A term of one kind whose first field is a term of another.
    Over(u8, u8),
    /// One of a TPM's registers.
    Register,
    /// The pairs of credential and certificate of a 43.
    Pairs,
}

impl Field {
    /// Bytes of the field.
    pub fn width(self) -> usize {
        match self {
            Field::Role | Field::Attributes | Field::Party | Field::Register => 1,
            Field::Identifier | Field::AnyTerm | Field::Term(_) | Field::Over(..) => 2,
            Field::Subject => 3,
            Field::Pairs => 4 * PAIRS,
        }
    }

    /// What is called for there.
    pub fn words(self) -> String {
        match self {
            Field::Role => format!("a role ({})", listed(&ROLES, "or")),
            Field::Identifier => "a number from 0 to 65535".into(),
            Field::Attributes => format!(
                "attributes (none, or a sum such as {} of {})",
                attributes_text(ATTESTATION_KEY),
                listed(&FLAGS, "and")
            ),
            Field::Subject => "a Subject (device or tpm, then a number)".into(),
            Field::Party => "the name of a party".into(),
            Field::AnyTerm => "the name of a term".into(),
            Field::Term(kind) => term_words(kind).into(),
            Field::Over(kind, over) => format!("{} of {}", term_words(kind), term_words(over)),
            Field::Register => format!("a register from 0 to {}", REGISTERS - 1),
            Field::Pairs => "a certificate and its credential, or -".into(),
        }
    }
}

/// A kind of record. In its line, @ is the name that it declares and {n} its field n.
pub struct Kind {
    pub byte: u8,
    pub name: &'static str,
    pub fields: &'static [Field],
    pub line: &'static str,
}

use Field::*;

const fn kind(byte: u8, name: &'static str, fields: &'static [Field], line: &'static str) -> Kind {
    Kind { byte, name, fields, line }
}

pub const KINDS: [Kind; 39] = [
    kind(PARTY, "party", &[Role], "party @ {0}"),
    kind(PUBLIC_KEY, "public-key", &[Identifier, Attributes], "@ = public-key {0} {1}"),
    kind(PRIVATE_KEY, "private-key", &[Identifier, Attributes], "@ = private-key {0} {1}"),
    kind(HASH, "hash", &[AnyTerm], "@ = hash of {0}"),
    kind(SIGNATURE, "signature", &[AnyTerm, Term(PRIVATE_KEY)], "@ = signature of {0} by {1}"),
    kind(ATTEST, "attest", &[Term(PUBLIC_KEY)], "@ = attest of {0}"),
    kind(
        CREDENTIAL,
        "credential",
        &[AnyTerm, Term(NUMBER), Term(PUBLIC_KEY)],
        "@ = credential of {0} with {1} for {2}",
    ),
    kind(NUMBER, "number", &[Identifier], "@ = number {0}"),
    kind(
        IDEVID_REQUEST,
        "idevid-request",
        &[Subject, Term(CERTIFICATE), Term(PUBLIC_KEY)],
        "@ = idevid-request of {2} for {0} under {1}",
    ),
    kind(LDEVID_REQUEST, "ldevid-request", &[AnyTerm, Term(CERTIFICATE)], "@ = ldevid-request of {0} under {1}"),
    kind(
        CERTIFICATE,
        "certificate",
        &[Term(PUBLIC_KEY), Subject, Term(PRIVATE_KEY)],
        "@ = certificate of {0} for {1} by {2}",
    ),
    kind(PAIR, "pair", &[AnyTerm, AnyTerm], "@ = pair of {0} and {1}"),
    kind(REGISTER, "register", &[Register], "@ = register {0}"),
    kind(
        QUOTE_BODY,
        "quote-body",
        &[Register, AnyTerm, Term(NUMBER)],
        "@ = quote-body of {1} in register {0} with {2}",
    ),
    kind(LEARNS, "learns", &[Party, AnyTerm], "{0} learns {1}"),
    kind(HOLDS, "holds", &[Party, Term(PRIVATE_KEY)], "{0} holds {1}"),
    kind(SIGNS_WITH, "signs-with", &[Party, Term(PRIVATE_KEY)], "{0} signs-with {1}"),
    kind(0x30, "hash", &[Party, Term(HASH)], "{0}: hash {1}"),
    kind(0x31, "sign", &[Party, Term(SIGNATURE)], "{0}: sign {1}"),
    kind(0x32, "certify", &[Party, Over(SIGNATURE, ATTEST)], "{0}: certify {1}"),
    kind(0x33, "make-credential", &[Party, Term(CREDENTIAL)], "{0}: make-credential {1}"),
    kind(0x34, "activate-credential", &[Party, Term(CREDENTIAL)], "{0}: activate-credential {1}"),
    kind(0x35, "make-idevid-request", &[Party, Term(IDEVID_REQUEST)], "{0}: make-idevid-request {1}"),
    kind(0x36, "make-ldevid-request", &[Party, Term(LDEVID_REQUEST)], "{0}: make-ldevid-request {1}"),
    kind(0x37, "make-pair", &[Party, Term(PAIR)], "{0}: make-pair {1}"),
    kind(0x38, "check-hash", &[Party, Term(HASH), AnyTerm], "{0}: check-hash {1} of {2}"),
    kind(0x39, "check-signature", &[Party, Term(SIGNATURE), Term(PUBLIC_KEY)], "{0}: check-signature {1} with {2}"),
    kind(
        0x3A,
        "check-certificate",
        &[Party, Term(CERTIFICATE), Term(PUBLIC_KEY)],
        "{0}: check-certificate {1} with {2}",
    ),
    kind(0x3B, "check-attributes", &[Party, Term(PUBLIC_KEY), Attributes], "{0}: check-attributes {1} are {2}"),
    kind(0x3C, "send", &[Party, Party, AnyTerm], "{0}: send {2} to {1}"),
    kind(0x3D, "self-issue", &[Party, Term(CERTIFICATE)], "{0}: self-issue {1}"),
    kind(CHALLENGE, "challenge", &[Party, AnyTerm, Term(CREDENTIAL)], "{0}: challenge {1} with {2}"),
    kind(
        ISSUE_IAK,
        "issue-iak",
        &[Party, Party, Term(CREDENTIAL), Term(CERTIFICATE)],
        "{0}: issue-iak {3} for {2} returned-by {1}",
    ),
    kind(ISSUE_LAK, "issue-lak", &[Party, AnyTerm, Term(CERTIFICATE)], "{0}: issue-lak {2} for {1}"),
    kind(ISSUE_IDEVID, "issue-idevid", &[Party, AnyTerm, Term(CERTIFICATE)], "{0}: issue-idevid {2} for {1}"),
    kind(ISSUE_LDEVID, "issue-ldevid", &[Party, AnyTerm, Term(CERTIFICATE)], "{0}: issue-ldevid {2} for {1}"),
    kind(ISSUE_IAKS, "issue-iaks", &[Party, Party, Pairs], "{0}: issue-iaks {2} returned-by {1}"),
    kind(EXTEND, "extend", &[Party, Register, Over(HASH, PAIR)], "{0}: extend register {1} to {2}"),
    kind(QUOTE, "quote", &[Party, Over(SIGNATURE, QUOTE_BODY)], "{0}: quote {1}"),
];

impl Kind {
    pub fn section(&self) -> Section {
        match self.byte {
            PARTY => Section::Parties,
            PUBLIC_KEY..=QUOTE_BODY => Section::Terms,
            LEARNS..=SIGNS_WITH => Section::SetUp,
            _ => Section::Commands,
        }
    }

    /// Bytes of the body.
    pub fn body(&self) -> usize {
        self.fields.iter().map(|field| field.width()).sum()
    }

    /// The line as a person reads it: what is called for in the place of each field.
    pub fn pattern(&self) -> String {
        let mut pattern = self.line.replace('@', "NAME");
        for (i, field) in self.fields.iter().enumerate() {
            pattern = pattern.replace(&format!("{{{i}}}"), placeholder(*field));
        }
        pattern
    }
}

fn placeholder(field: Field) -> &'static str {
    match field {
        Field::Role => "ROLE",
        Field::Identifier => "ID",
        Field::Attributes => "ATTRIBUTES",
        Field::Subject => "SUBJECT",
        Field::Party => "PARTY",
        Field::AnyTerm => "TERM",
        Field::Term(PUBLIC_KEY) => "PUBLIC-KEY",
        Field::Term(PRIVATE_KEY) => "PRIVATE-KEY",
        Field::Term(HASH) => "HASH",
        Field::Term(SIGNATURE) => "SIGNATURE",
        Field::Term(CREDENTIAL) => "CREDENTIAL",
        Field::Term(NUMBER) => "NUMBER",
        Field::Term(IDEVID_REQUEST) => "IDEVID-REQUEST",
        Field::Term(LDEVID_REQUEST) => "LDEVID-REQUEST",
        Field::Term(CERTIFICATE) => "CERTIFICATE",
        Field::Term(_) => "PAIR",
        Field::Over(_, ATTEST) => "SIGNED-ATTEST",
        Field::Over(_, QUOTE_BODY) => "SIGNED-QUOTE",
        Field::Over(..) => "HASH-OF-PAIR",
        Field::Register => "INDEX",
        Field::Pairs => "PAIRS",
    }
}

pub fn kind_of(byte: u8) -> Option<&'static Kind> {
    KINDS.iter().find(|kind| kind.byte == byte)
}

/// A term of this kind, in words.
pub fn term_words(kind: u8) -> &'static str {
    match kind {
        PUBLIC_KEY => "a public key",
        PRIVATE_KEY => "a private key",
        HASH => "a hash",
        SIGNATURE => "a signature",
        ATTEST => "an attest",
        CREDENTIAL => "a credential",
        NUMBER => "a number",
        IDEVID_REQUEST => "an IDevID request",
        LDEVID_REQUEST => "an LDevID request",
        CERTIFICATE => "a certificate",
        PAIR => "a pair",
        REGISTER => "a register",
        _ => "a quote body",
    }
}

pub const DEVICE: u8 = 0;
pub const TPM_MAKER: u8 = 1;
pub const OEM_DESK: u8 = 2;
pub const OWNER_DESK: u8 = 3;
pub const ROLES: [&str; 4] = ["device", "tpm-maker", "oem-desk", "owner-desk"];

/// A party of this role, in words.
pub fn role_words(role: u8) -> &'static str {
    ["a device", "a TPM maker", "an OEM desk", "an owner desk"].get(role as usize).copied().unwrap_or("of no role")
}

pub const RESTRICTED: u8 = 1;
pub const SIGN: u8 = 2;
pub const DECRYPT: u8 = 4;
pub const FIXED_TPM: u8 = 8;
/// In the order of their bits.
pub const FLAGS: [&str; 4] = ["restricted", "sign", "decrypt", "fixedtpm"];
/// Attributes are below this.
pub const ATTRIBUTES: u8 = 16;

/// Attributes of attestation keys (IAK, LAK), of endorsement keys, and of signing keys (IDevID, LDevID, desks and TPM makers).
pub const ATTESTATION_KEY: u8 = RESTRICTED + SIGN + FIXED_TPM;
pub const ENDORSEMENT_KEY: u8 = RESTRICTED + DECRYPT + FIXED_TPM;
pub const SIGNING_KEY: u8 = SIGN + FIXED_TPM;

/// Attributes as they stand in the text.
pub fn attributes_text(attributes: u8) -> String {
    let flags: Vec<&str> = (0..4).filter(|i| attributes >> i & 1 == 1).map(|i| FLAGS[i]).collect();
    if flags.is_empty() {
        "none".into()
    } else {
        flags.join("+")
    }
}

/// "a, b or c".
pub fn listed<T: AsRef<str>>(items: &[T], last: &str) -> String {
    match items {
        [] => String::new(),
        [one] => one.as_ref().into(),
        [more @ .., end] => {
            let more: Vec<&str> = more.iter().map(|item| item.as_ref()).collect();
            format!("{} {last} {}", more.join(", "), end.as_ref())
        }
    }
}
