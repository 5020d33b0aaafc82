//! The C implementation (peer.c).

use birdweekly::Entry;

#[repr(C)]
struct LoadNumbers {
    number: u32,
    place: u32,
    parties: u32,
    terms: u32,
    commands: u32,
}

#[repr(C)]
struct RunNumbers {
    number: u32,
    place: u32,
    accepted: u32,
    refused: u32,
    issued: u32,
}

extern "C" {
    fn peer_load(file: *const u8, file_len: usize, state: *mut u8, state_len: usize) -> LoadNumbers;
    fn peer_run(
        file: *const u8,
        file_len: usize,
        n: usize,
        state: *mut u8,
        state_len: usize,
        ledger: *mut Entry,
        ledger_len: usize,
        outcomes: *mut u8,
        outcomes_len: usize,
        registers: *mut u8,
        registers_len: usize,
    ) -> RunNumbers;
}

/// Parties, terms and commands of a file that loads.
pub fn load(file: &[u8], state: &mut [u8]) -> [u32; 3] {
    // SAFETY: each pointer has its slice's length.
    let a = unsafe { peer_load(file.as_ptr(), file.len(), state.as_mut_ptr(), state.len()) };
    assert_eq!((a.number, a.place), (0, 0), "a timed file loads");
    [a.parties, a.terms, a.commands]
}

/// Accepted, refused and issued of all commands of a file that loads.
pub fn run(
    file: &[u8],
    state: &mut [u8],
    ledger: &mut [Entry],
    outcomes: &mut [u8],
    registers: &mut [u8],
) -> [u32; 3] {
    // SAFETY: each pointer has its slice's length.
    let a = unsafe {
        peer_run(
            file.as_ptr(),
            file.len(),
            usize::MAX,
            state.as_mut_ptr(),
            state.len(),
            ledger.as_mut_ptr(),
            ledger.len(),
            outcomes.as_mut_ptr(),
            outcomes.len(),
            registers.as_mut_ptr(),
            registers.len(),
        )
    };
    assert_eq!((a.number, a.place), (0, 0), "a timed file loads");
    [a.accepted, a.refused, a.issued]
}
