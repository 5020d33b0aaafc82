//! Birdweekly for Rust: safe calls of the proved engine (`bind/engine` makes its library).
//!
//! The engine takes a scenario file, a factory's enrolment procedure as symbolic commands, and says which commands a
//! certificate desk accepts, which certificates come out and how each leads back to an endorsement key.
//!
//! [`load`], [`run`], [`path`] and [`stock`] take any bytes and lent buffers of any length: the answer is a result or
//! one refusal with its number and place, and every byte of every buffer is fixed in each case. [`Buffers`] owns
//! buffers of the right sizes, and reads them:
//!
//! ```
//! use birdweekly::{Buffers, RunAnswer};
//!
//! // The paper's example: a key is hashed, and a signature refused, since the TPM does not hold the key.
//! let file = [
//!     0x01, 0x00, 0x10, 0x00, 0x05, 0x0B, 0x11, 0x00, 0x05, 0x0B, 0x12, 0x00, 0x00, 0x13, 0x00, 0x02, 0x00, 0x01,
//!     0x20, 0x00, 0x00, 0x00, 0x30, 0x00, 0x00, 0x02, 0x31, 0x00, 0x00, 0x03,
//! ];
//! let mut buffers = Buffers::new();
//! assert_eq!(buffers.run_all(&file), RunAnswer::Ran { accepted: 1, refused: 1, issued: 0 });
//! assert_eq!(buffers.outcomes(), [0, 15]);
//! assert_eq!(buffers.ledger().count(), 0);
//! assert!(buffers.knows(0, 2));
//! ```
//!
//! Calls share nothing: they may run on as many threads as there are, each with buffers of its own. Nothing is
//! allocated but by `Buffers::new`, and no call panics.

use std::error::Error;
use std::fmt;

/// The longest scenario file.
pub const FILE_BYTES: usize = 32_768;
/// State bytes of a term.
const ROW_BYTES: usize = 8;
/// State bytes that are written: 8 a term.
pub const STATE_BYTES: usize = 1_024 * ROW_BYTES;
/// Ledger entries that are written.
pub const LEDGER_ENTRIES: usize = 1_024;
/// Outcome bytes that are written: one a command.
pub const OUTCOME_BYTES: usize = 8_192;
/// Platform registers of a device.
pub const REGISTERS: usize = 24;
/// Bytes of a register: a term number, high byte first.
const REGISTER_WIDTH: usize = 2;
/// Register bytes of a party.
const BANK_BYTES: usize = REGISTERS * REGISTER_WIDTH;
/// Register bytes that are written: 48 for each of 8 parties.
pub const REGISTER_BYTES: usize = 8 * BANK_BYTES;
/// What an empty register has, and each register of a party that is no device.
pub const EMPTY_REGISTER: u16 = 0xFFFF;
/// Places that a path may need, and that [`path`] asks for.
pub const PATH_PLACES: usize = 9;

/// An issued certificate, its parent and its depth: how many steps lead to an endorsement certificate.
#[repr(C)]
#[derive(Debug, Clone, Copy, Default, PartialEq, Eq)]
pub struct Entry {
    pub certificate: u16,
    pub parent: u16,
    pub depth: u16,
}

/// Why a call gave no result: 1 (a buffer is short), 2 (the file is too long), 3 to 12 (the file does not load), 30
/// (no issued certificate), 39 (no IAKs per board, or no OEM desk); and the place of the record, for 30 the term, for
/// 39 0.
#[derive(Debug, Clone, Copy, PartialEq, Eq)]
pub struct Refusal {
    pub number: u32,
    pub place: u32,
}

impl fmt::Display for Refusal {
    fn fmt(&self, f: &mut fmt::Formatter) -> fmt::Result {
        write!(f, "refused with {} at {}", self.number, self.place)
    }
}

impl Error for Refusal {}

#[derive(Debug, Clone, Copy, PartialEq, Eq)]
pub enum LoadAnswer {
    Loaded { parties: u32, terms: u32, commands: u32 },
    Refused(Refusal),
}

#[derive(Debug, Clone, Copy, PartialEq, Eq)]
pub enum RunAnswer {
    /// Commands accepted and refused, and certificates issued.
    Ran { accepted: u32, refused: u32, issued: u32 },
    Refused(Refusal),
}

#[derive(Debug, Clone, Copy, PartialEq, Eq)]
pub enum PathAnswer {
    /// The depth of the certificate; one place more is written.
    Steps(u32),
    Refused(Refusal),
}

#[derive(Debug, Clone, Copy, PartialEq, Eq)]
pub enum StockAnswer {
    /// Whole boards that a desk's stock of numbers is enough for, and the numbers left over.
    Boards { boards: u32, rest: u32 },
    Refused(Refusal),
}

/// What the commands did with a number or a credential: the desk and the request are those that the credential was
/// opened with.
#[derive(Debug, Clone, Copy, PartialEq, Eq)]
pub enum Mark {
    None,
    NumberUsed,
    CredentialOpen { desk: u8, request: u16 },
    CredentialClosed { desk: u8, request: u16 },
}

mod raw {
    use super::Entry;

    #[repr(C)]
    pub struct LoadNumbers {
        pub number: u32,
        pub place: u32,
        pub parties: u32,
        pub terms: u32,
        pub commands: u32,
    }

    #[repr(C)]
    pub struct RunNumbers {
        pub number: u32,
        pub place: u32,
        pub accepted: u32,
        pub refused: u32,
        pub issued: u32,
    }

    #[repr(C)]
    pub struct PathNumbers {
        pub number: u32,
        pub place: u32,
        pub steps: u32,
    }

    #[repr(C)]
    pub struct StockNumbers {
        pub number: u32,
        pub place: u32,
        pub boards: u32,
        pub rest: u32,
    }

    extern "C" {
        pub fn birdweekly_load(file: *const u8, file_len: usize, state: *mut u8, state_len: usize) -> LoadNumbers;

        pub fn birdweekly_run(
            file: *const u8,
            file_len: usize,
            n: usize,
            state: *mut u8,
            state_len: usize,
            ledger: *mut Entry,
            ledger_len: usize,
            outcomes: *mut u8,
            outcomes_len: usize,
            registers: *mut u8,
            registers_len: usize,
        ) -> RunNumbers;

        pub fn birdweekly_path(
            file: *const u8,
            file_len: usize,
            n: usize,
            state: *mut u8,
            state_len: usize,
            ledger: *mut Entry,
            ledger_len: usize,
            outcomes: *mut u8,
            outcomes_len: usize,
            registers: *mut u8,
            registers_len: usize,
            term: u16,
            list: *mut u16,
            list_len: usize,
        ) -> PathNumbers;

        pub fn birdweekly_stock(
            file: *const u8,
            file_len: usize,
            state: *mut u8,
            state_len: usize,
            ledger: *mut Entry,
            ledger_len: usize,
            outcomes: *mut u8,
            outcomes_len: usize,
            registers: *mut u8,
            registers_len: usize,
            party: u8,
            iaks_per_board: u32,
        ) -> StockNumbers;

        pub fn birdweekly_entry_at(ledger: *const Entry, ledger_len: usize, i: usize) -> Entry;
    }
}

/// Loads a scenario file into a lent state buffer.
pub fn load(file: &[u8], state: &mut [u8]) -> LoadAnswer {
    // Safety, here and below: each pointer comes with its own length, and the borrows rule out overlap.
    let n = unsafe { raw::birdweekly_load(file.as_ptr(), file.len(), state.as_mut_ptr(), state.len()) };
    match n.number {
        0 => LoadAnswer::Loaded { parties: n.parties, terms: n.terms, commands: n.commands },
        number => LoadAnswer::Refused(Refusal { number, place: n.place }),
    }
}

/// Loads a scenario file and executes its first `n` commands, or all if fewer.
pub fn run(
    file: &[u8],
    n: usize,
    state: &mut [u8],
    ledger: &mut [Entry],
    outcomes: &mut [u8],
    registers: &mut [u8],
) -> RunAnswer {
    let n = unsafe {
        raw::birdweekly_run(
            file.as_ptr(),
            file.len(),
            n,
            state.as_mut_ptr(),
            state.len(),
            ledger.as_mut_ptr(),
            ledger.len(),
            outcomes.as_mut_ptr(),
            outcomes.len(),
            registers.as_mut_ptr(),
            registers.len(),
        )
    };
    match n.number {
        0 => RunAnswer::Ran { accepted: n.accepted, refused: n.refused, issued: n.issued },
        number => RunAnswer::Refused(Refusal { number, place: n.place }),
    }
}

/// Runs as [`run`] does, and writes the path of an issued certificate into the list: the certificate, its parents and
/// the endorsement certificate.
#[allow(clippy::too_many_arguments)]
pub fn path(
    file: &[u8],
    n: usize,
    state: &mut [u8],
    ledger: &mut [Entry],
    outcomes: &mut [u8],
    registers: &mut [u8],
    term: u16,
    list: &mut [u16],
) -> PathAnswer {
    let n = unsafe {
        raw::birdweekly_path(
            file.as_ptr(),
            file.len(),
            n,
            state.as_mut_ptr(),
            state.len(),
            ledger.as_mut_ptr(),
            ledger.len(),
            outcomes.as_mut_ptr(),
            outcomes.len(),
            registers.as_mut_ptr(),
            registers.len(),
            term,
            list.as_mut_ptr(),
            list.len(),
        )
    };
    match n.number {
        0 => PathAnswer::Steps(n.steps),
        number => PathAnswer::Refused(Refusal { number, place: n.place }),
    }
}

/// Runs all commands, and tells how many whole boards the unused numbers that an OEM desk alone knows are enough for,
/// and how many of them are left over. Refused with 39 where there are no IAKs per board or the party is no OEM desk;
/// the buffers are as [`run`] leaves them then too.
pub fn stock(
    file: &[u8],
    state: &mut [u8],
    ledger: &mut [Entry],
    outcomes: &mut [u8],
    registers: &mut [u8],
    party: u8,
    iaks_per_board: u32,
) -> StockAnswer {
    let n = unsafe {
        raw::birdweekly_stock(
            file.as_ptr(),
            file.len(),
            state.as_mut_ptr(),
            state.len(),
            ledger.as_mut_ptr(),
            ledger.len(),
            outcomes.as_mut_ptr(),
            outcomes.len(),
            registers.as_mut_ptr(),
            registers.len(),
            party,
            iaks_per_board,
        )
    };
    match n.number {
        0 => StockAnswer::Boards { boards: n.boards, rest: n.rest },
        number => StockAnswer::Refused(Refusal { number, place: n.place }),
    }
}

/// The entry at a place of a ledger; zeros beyond its end.
pub fn entry_at(ledger: &[Entry], i: usize) -> Entry {
    unsafe { raw::birdweekly_entry_at(ledger.as_ptr(), ledger.len(), i) }
}

/// Buffers of the right sizes, and what the last call left in them.
pub struct Buffers {
    state: Box<[u8]>,
    ledger: Box<[Entry]>,
    outcomes: Box<[u8]>,
    registers: Box<[u8]>,
    ran: bool,
    commands: usize,
    issued: usize,
}

impl Buffers {
    pub fn new() -> Buffers {
        Buffers {
            state: vec![0; STATE_BYTES].into(),
            ledger: vec![Entry::default(); LEDGER_ENTRIES].into(),
            outcomes: vec![0; OUTCOME_BYTES].into(),
            registers: vec![0; REGISTER_BYTES].into(),
            ran: false,
            commands: 0,
            issued: 0,
        }
    }

    fn note(&mut self, answer: RunAnswer) -> RunAnswer {
        (self.ran, self.commands, self.issued) = match answer {
            RunAnswer::Ran { accepted, refused, issued } => (true, (accepted + refused) as usize, issued as usize),
            RunAnswer::Refused(_) => (false, 0, 0),
        };
        answer
    }

    /// Runs the first `n` commands of a file, or all if fewer.
    pub fn run(&mut self, file: &[u8], n: usize) -> RunAnswer {
        let answer = run(file, n, &mut self.state, &mut self.ledger, &mut self.outcomes, &mut self.registers);
        self.note(answer)
    }

    /// Runs all commands of a file.
    pub fn run_all(&mut self, file: &[u8]) -> RunAnswer {
        self.run(file, usize::MAX)
    }

    /// A call that runs all commands of a file and asks. It does not tell the totals: loading tells how many commands
    /// there are, and an entry of the ledger has a depth of 1 at least.
    fn ask<T>(&mut self, file: &[u8], call: impl FnOnce(&[u8], &mut Buffers) -> T) -> T {
        let loaded = load(file, &mut self.state);
        let answer = call(file, self);
        (self.ran, self.commands, self.issued) = match loaded {
            LoadAnswer::Loaded { commands, .. } => {
                (true, commands as usize, self.ledger.iter().take_while(|entry| entry.depth > 0).count())
            }
            LoadAnswer::Refused(_) => (false, 0, 0),
        };
        answer
    }

    /// Runs all commands of a file, and tells the boards left in a desk's stock of numbers; see [`stock`].
    pub fn stock(&mut self, file: &[u8], party: u8, iaks_per_board: u32) -> StockAnswer {
        self.ask(file, |file, b| {
            stock(file, &mut b.state, &mut b.ledger, &mut b.outcomes, &mut b.registers, party, iaks_per_board)
        })
    }

    /// The path of a certificate that the last run issued, from it to its endorsement certificate; none for another
    /// term.
    pub fn path(&self, term: u16) -> Option<impl Iterator<Item = u16> + '_> {
        let first = self.ledger().find(|entry| entry.certificate == term)?;
        let parent = |entry: &Entry| self.ledger().find(|other| other.certificate == entry.parent);
        let issued = std::iter::successors(Some(first), parent);
        let last = std::iter::successors(Some(first), parent).last()?.parent;
        Some(issued.map(|entry| entry.certificate).chain([last]))
    }

    /// One byte a command that was executed: 0, or the refusal, 13 to 29 (22 is not used), 31 to 33.
    pub fn outcomes(&self) -> &[u8] {
        &self.outcomes[..self.commands]
    }

    /// The certificates that were issued, in order.
    pub fn ledger(&self) -> impl Iterator<Item = Entry> + '_ {
        self.ledger[..self.issued].iter().copied()
    }

    /// The state, 8 bytes a term (document 01, "Run and Path").
    pub fn state(&self) -> &[u8] {
        &self.state
    }

    /// The registers, 48 bytes a party, high byte first; zeros before the first call.
    pub fn registers(&self) -> &[u8] {
        &self.registers
    }

    /// The state bytes of a term; zeros for one that is beyond them.
    fn row(&self, term: u16) -> [u8; ROW_BYTES] {
        let row = self.state.chunks_exact(ROW_BYTES).nth(term as usize);
        row.and_then(|row| row.try_into().ok()).unwrap_or_default()
    }

    /// Whether a party knows a term.
    pub fn knows(&self, party: u8, term: u16) -> bool {
        party < 8 && self.row(term)[0] >> party & 1 == 1
    }

    /// Whether a party's TPM table has a term: a hash that it made, or a private key that it holds.
    pub fn in_table(&self, party: u8, term: u16) -> bool {
        party < 8 && self.row(term)[1] >> party & 1 == 1
    }

    /// The term that a register of a device shows after the last run; none where the register is empty, where the party
    /// is no device or there is no such register, and where nothing was run: before the first call, and after a
    /// refusal other than 39.
    pub fn register(&self, party: u8, register: u8) -> Option<u16> {
        let bank = self.registers.chunks_exact(BANK_BYTES).nth(party as usize).filter(|_| self.ran)?;
        let shown = bank.chunks_exact(REGISTER_WIDTH).nth(register as usize)?;
        Some(u16::from_be_bytes([shown[0], shown[1]])).filter(|&term| term != EMPTY_REGISTER)
    }

    /// What the commands did with a number or a credential.
    pub fn mark(&self, term: u16) -> Mark {
        let row = self.row(term);
        let (desk, request) = (row[3], u16::from_be_bytes([row[4], row[5]]));
        match row[2] {
            1 => Mark::NumberUsed,
            2 => Mark::CredentialOpen { desk, request },
            3 => Mark::CredentialClosed { desk, request },
            _ => Mark::None,
        }
    }
}

impl Default for Buffers {
    fn default() -> Buffers {
        Buffers::new()
    }
}
