//! What each call answers and leaves, on the paper's example and on an honest enrolment.

use birdweekly::{
    entry_at, load, path, run, stock, Buffers, Entry, LoadAnswer, Mark, PathAnswer, Refusal, RunAnswer, StockAnswer,
    EMPTY_REGISTER, LEDGER_ENTRIES, OUTCOME_BYTES, REGISTERS, REGISTER_BYTES, STATE_BYTES,
};

const EXAMPLE: [u8; 30] = [
    0x01, 0x00, 0x10, 0x00, 0x05, 0x0B, 0x11, 0x00, 0x05, 0x0B, 0x12, 0x00, 0x00, 0x13, 0x00, 0x02, 0x00, 0x01, 0x20,
    0x00, 0x00, 0x00, 0x30, 0x00, 0x00, 0x02, 0x31, 0x00, 0x00, 0x03,
];

/// Certificates up to depth 8, each the parent of the next.
const CHAIN: &[u8] = include_bytes!("../../../crates/cases/data/s_depth_8");

/// All four families of certificates.
const FAMILIES: &[u8] = include_bytes!("../../../crates/cases/data/s_idevid_and_ldevid");

/// A board with four IAKs enrolled; the desk, party 2, has eleven numbers more, two of which others know too.
const LINE: &[u8] = include_bytes!("../../../crates/cases/data/s_stock_of_a_line");

/// Parties 0 and 4 are devices, 1, 2, 3 and 5 are not. Registers 0 and 23 start at terms 11 and 12; the commands of
/// party 0 extend its register 0 to terms 15 and 17, and quote it.
const QUOTED: &[u8] = include_bytes!("../../../crates/cases/data/s_extend_twice_and_quote");

/// Files that do not load, by 3 to 12.
const REFUSED: [&[u8]; 10] = [
    include_bytes!("../../../crates/cases/data/f03_kind_46_after_a_record_of_each_kind"),
    include_bytes!("../../../crates/cases/data/f04_44_cut_short"),
    include_bytes!("../../../crates/cases/data/f05_1B_after_set_up"),
    include_bytes!("../../../crates/cases/data/f06_ninth_party"),
    include_bytes!("../../../crates/cases/data/f07_44_register_24"),
    include_bytes!("../../../crates/cases/data/f08_45_result_signature_over_attest"),
    include_bytes!("../../../crates/cases/data/f09_1B_twice"),
    include_bytes!("../../../crates/cases/data/f10_20_of_a_1B"),
    include_bytes!("../../../crates/cases/data/f11_lower_party_second"),
    include_bytes!("../../../crates/cases/data/f12_device"),
];

#[test]
fn the_example_loads() {
    let mut state = vec![0xFF; STATE_BYTES + 3];
    assert_eq!(load(&EXAMPLE, &mut state), LoadAnswer::Loaded { parties: 1, terms: 4, commands: 2 });
    // Party 0 knows term 0, whose record stands at place 2; what lies beyond the first part is untouched.
    assert_eq!(state[..8], [1, 0, 0, 0, 0, 0, 0, 2]);
    assert_eq!(state[8..16], [0, 0, 0, 0, 0, 0, 0, 6]);
    assert!(state[32..STATE_BYTES].iter().all(|&b| b == 0));
    assert_eq!(state[STATE_BYTES..], [0xFF; 3]);
}

#[test]
fn refusals_leave_what_they_say() {
    let mut short = vec![7; STATE_BYTES - 1];
    assert_eq!(load(&EXAMPLE, &mut short), LoadAnswer::Refused(Refusal { number: 1, place: 0 }));
    assert!(short.iter().all(|&b| b == 7));
    let mut state = vec![7; STATE_BYTES + 1];
    assert_eq!(load(&[0; 32_769], &mut state), LoadAnswer::Refused(Refusal { number: 2, place: 0 }));
    assert!(state.iter().all(|&b| b == 7));
    assert_eq!(load(&EXAMPLE[..29], &mut state), LoadAnswer::Refused(Refusal { number: 4, place: 26 }));
    assert!(state[..STATE_BYTES].iter().all(|&b| b == 0));
    assert_eq!(state[STATE_BYTES], 7);
    let short = run(&EXAMPLE, 1, &mut state, &mut [], &mut [], &mut []);
    assert_eq!(short, RunAnswer::Refused(Refusal { number: 1, place: 0 }));
    assert_eq!(state[STATE_BYTES], 7);
}

#[test]
fn the_tables_and_marks_of_a_run() {
    let mut buffers = Buffers::new();
    // Before the challenge, after it, and after the certificate: number 15, credential 17, request 14, desk 2.
    for (n, number, credential) in [
        (5, Mark::None, Mark::None),
        (6, Mark::NumberUsed, Mark::CredentialOpen { desk: 2, request: 14 }),
        (9, Mark::NumberUsed, Mark::CredentialClosed { desk: 2, request: 14 }),
    ] {
        buffers.run(CHAIN, n);
        assert_eq!((buffers.mark(15), buffers.mark(17)), (number, credential), "{n}");
    }
    // The board's TPM holds its IAK and made the request's hash; it knows no private key.
    assert!(buffers.in_table(0, 1) && buffers.in_table(0, 12) && !buffers.in_table(1, 1) && !buffers.in_table(8, 1));
    assert!(buffers.knows(0, 12) && !buffers.knows(0, 1) && !buffers.knows(8, 12));
    assert_eq!((buffers.mark(1_024), buffers.knows(0, 1_024)), (Mark::None, false));
}

#[test]
fn a_chain_of_certificates() {
    let mut buffers = Buffers::new();
    let RunAnswer::Ran { refused: 0, issued: 8, .. } = buffers.run_all(CHAIN) else {
        panic!("the chain is issued")
    };
    let ledger: Vec<Entry> = buffers.ledger().collect();
    assert_eq!(ledger.iter().map(|e| e.depth).collect::<Vec<_>>(), [1, 2, 3, 4, 5, 6, 7, 8]);
    let last = ledger[7].certificate;
    let steps: Vec<u16> = buffers.path(last).unwrap().collect();
    assert_eq!(steps.len(), 9);
    assert_eq!(steps[7], ledger[0].certificate);
    assert_eq!(steps[8], ledger[0].parent);
    assert!(buffers.path(steps[8]).is_none());

    // The engine's own path is the same, and leaves the places beyond it.
    let mut state = vec![0; STATE_BYTES];
    let mut entries = vec![Entry::default(); LEDGER_ENTRIES];
    let mut outcomes = vec![0; OUTCOME_BYTES];
    let mut registers = vec![0; REGISTER_BYTES];
    let mut list = [9_999; 11];
    assert_eq!(
        path(CHAIN, usize::MAX, &mut state, &mut entries, &mut outcomes, &mut registers, last, &mut list),
        PathAnswer::Steps(8)
    );
    assert_eq!(list[..9], steps[..]);
    assert_eq!(list[9..], [9_999; 2]);
    assert_eq!(entries[..8], ledger[..]);
    assert_eq!(
        path(CHAIN, 5, &mut state, &mut entries, &mut outcomes, &mut registers, last, &mut list),
        PathAnswer::Refused(Refusal { number: 30, place: last as u32 })
    );
}

/// An IAK certificate, below it those of an LAK and an IDevID, and below the LAK's that of an LDevID.
#[test]
fn four_families_of_one_board() {
    let mut buffers = Buffers::new();
    let RunAnswer::Ran { refused: 0, issued: 4, .. } = buffers.run_all(FAMILIES) else {
        panic!("the four certificates are issued")
    };
    let ledger: Vec<Entry> = buffers.ledger().collect();
    let [iak, lak, idevid, ldevid] = ledger[..] else { panic!("four entries") };
    assert_eq!([iak.depth, lak.depth, idevid.depth, ldevid.depth], [1, 2, 2, 3]);
    assert_eq!([lak.parent, idevid.parent, ldevid.parent], [iak.certificate, iak.certificate, lak.certificate]);
    let steps: Vec<u16> = buffers.path(ldevid.certificate).unwrap().collect();
    assert_eq!(steps, [ldevid.certificate, lak.certificate, iak.certificate, iak.parent]);
    let steps: Vec<u16> = buffers.path(idevid.certificate).unwrap().collect();
    assert_eq!(steps, [idevid.certificate, iak.certificate, iak.parent]);
}

#[test]
fn boards_left_in_the_stock_of_numbers() {
    let mut buffers = Buffers::new();
    assert_eq!(buffers.stock(LINE, 2, 4), StockAnswer::Boards { boards: 2, rest: 1 });
    // What the commands left is read as after a run of them all.
    assert_eq!(buffers.ledger().count(), 4);
    assert_eq!(buffers.outcomes().iter().filter(|&&o| o != 0).count(), 0);
    let mut ran = Buffers::new();
    ran.run_all(LINE);
    assert!(buffers.state() == ran.state() && buffers.registers() == ran.registers());
    assert!(buffers.ledger().eq(ran.ledger()) && buffers.outcomes() == ran.outcomes());

    // 39 leaves the same, Run's refusals what they leave, and nothing beyond the first parts is touched.
    let refused = |number, place| StockAnswer::Refused(Refusal { number, place });
    let other = Entry { certificate: 9, parent: 9, depth: 9 };
    for (party, iaks) in [(2, 0), (0, 4), (3, 4), (6, 4), (255, 0)] {
        let (mut state, mut ledger) = (vec![7; STATE_BYTES + 1], vec![other; LEDGER_ENTRIES + 1]);
        let (mut outcomes, mut registers) = (vec![7; OUTCOME_BYTES + 1], vec![7; REGISTER_BYTES + 1]);
        let (s, l, o, r) = (&mut state, &mut ledger, &mut outcomes, &mut registers);
        assert_eq!(stock(LINE, s, l, o, r, party, iaks), refused(39, 0));
        assert_eq!(s[..STATE_BYTES], *ran.state());
        assert!(l[..4].iter().copied().eq(ran.ledger()));
        assert!(l[4..LEDGER_ENTRIES].iter().all(|&e| e == Entry::default()));
        assert_eq!(o[..ran.outcomes().len()], *ran.outcomes());
        assert_eq!(r[..REGISTER_BYTES], *ran.registers());
        assert_eq!((s[STATE_BYTES], l[LEDGER_ENTRIES], o[OUTCOME_BYTES], r[REGISTER_BYTES]), (7, other, 7, 7));
        let cut = &LINE[..LINE.len() - 1];
        assert_eq!(stock(cut, s, l, o, r, party, iaks), refused(4, LINE.len() as u32 - 5));
        assert!(s[..STATE_BYTES].iter().chain(&r[..REGISTER_BYTES]).all(|&b| b == 0));
        assert!(l[..LEDGER_ENTRIES].iter().all(|&e| e == Entry::default()));
        assert_eq!(stock(LINE, &mut s[1..STATE_BYTES], l, o, r, party, iaks), refused(1, 0));
        assert_eq!(buffers.stock(LINE, party, iaks), refused(39, 0));
        assert_eq!(buffers.ledger().count(), 4);
    }
    assert_eq!(buffers.stock(&[0; 32_769], 2, 4), refused(2, 0));
    assert_eq!(buffers.ledger().count(), 0);
}

/// What the registers show, party by party; of all others nothing.
fn shown(buffers: &Buffers) -> Vec<(u8, u8, u16)> {
    let all = (0..=u8::MAX).flat_map(|party| (0..=u8::MAX).map(move |register| (party, register)));
    all.filter_map(|(party, register)| Some((party, register, buffers.register(party, register)?))).collect()
}

#[test]
fn the_registers_of_a_run() {
    let mut buffers = Buffers::new();
    assert_eq!(shown(&buffers), []);
    // No command, the first extend, the second, the quote, all.
    for (n, first) in [(0, 11), (1, 15), (2, 17), (3, 17), (usize::MAX, 17)] {
        buffers.run(QUOTED, n);
        assert_eq!(shown(&buffers), [(0, 0, first), (0, 23, 12), (4, 0, 11), (4, 23, 12)], "{n}");
        let mut bytes = [0xFF; REGISTER_BYTES];
        for (place, term) in [(0, first), (46, 12), (192, 11), (238, 12)] {
            bytes[place..place + 2].copy_from_slice(&[0, term as u8]);
        }
        assert_eq!(buffers.registers(), bytes, "{n}");
    }
    // The registers of a device with no starting value, and of parties that are not there.
    for (file, n) in [(&EXAMPLE[..], 0), (&EXAMPLE, 2), (&[], 0)] {
        buffers.run(file, n);
        assert_eq!(buffers.registers(), [0xFF; REGISTER_BYTES]);
        assert_eq!(shown(&buffers), []);
    }
    assert_eq!(REGISTER_BYTES, 8 * 2 * REGISTERS);
    assert_eq!(EMPTY_REGISTER, u16::from_be_bytes([0xFF; 2]));
    // Stock runs all commands, at 39 too; a file that does not load leaves nothing to be read.
    for iaks in [1, 0] {
        buffers.stock(QUOTED, 2, iaks);
        assert_eq!((buffers.register(0, 0), buffers.register(4, 0)), (Some(17), Some(11)));
    }
    buffers.run_all(&QUOTED[1..]);
    assert!(shown(&buffers).is_empty() && buffers.registers().iter().all(|&b| b == 0));
    buffers.run_all(QUOTED);
    buffers.stock(&[0; 32_769], 2, 1);
    assert!(shown(&buffers).is_empty());
}

/// Each call with a register buffer of some length; the state says whether the others were touched.
fn lent(file: &[u8], length: usize) -> [(u32, Vec<u8>, Vec<u8>); 3] {
    let number = |refusal: Refusal| refusal.number;
    [0, 1, 2].map(|call| {
        let (mut state, mut ledger) = (vec![7; STATE_BYTES], vec![Entry::default(); LEDGER_ENTRIES]);
        let (mut outcomes, mut registers, mut list) = (vec![7; OUTCOME_BYTES], vec![7; length], [7; 9]);
        let (s, l, o, r) = (&mut state, &mut ledger, &mut outcomes, &mut registers);
        let answer = match call {
            0 => match run(file, usize::MAX, s, l, o, r) {
                RunAnswer::Ran { .. } => 0,
                RunAnswer::Refused(refusal) => number(refusal),
            },
            1 => match path(file, usize::MAX, s, l, o, r, 0, &mut list) {
                PathAnswer::Steps(_) => 0,
                PathAnswer::Refused(refusal) => number(refusal),
            },
            _ => match stock(file, s, l, o, r, 2, 1) {
                StockAnswer::Boards { .. } => 0,
                StockAnswer::Refused(refusal) => number(refusal),
            },
        };
        assert_eq!(list, [7; 9]);
        (answer, state, registers)
    })
}

#[test]
fn the_lent_registers() {
    // Enough, more, too few.
    let mut ran = Buffers::new();
    ran.run_all(QUOTED);
    for length in [REGISTER_BYTES, REGISTER_BYTES + 1, REGISTER_BYTES + 48] {
        for ((number, state, registers), expected) in lent(QUOTED, length).into_iter().zip([0, 30, 0]) {
            assert_eq!((number, &state[..]), (expected, ran.state()));
            assert_eq!(registers[..REGISTER_BYTES], *ran.registers());
            assert!(registers[REGISTER_BYTES..].iter().all(|&b| b == 7));
        }
    }
    for length in [0, 1, 48, REGISTER_BYTES - 1] {
        for file in [QUOTED, &[0; 32_769], REFUSED[0]] {
            for (number, state, registers) in lent(file, length) {
                assert_eq!(number, 1);
                assert!(state.iter().chain(&registers).all(|&b| b == 7));
            }
        }
    }
    for (number, state, registers) in lent(&[0; 32_769], REGISTER_BYTES + 1) {
        assert_eq!(number, 2);
        assert!(state.iter().chain(&registers).all(|&b| b == 7));
    }
    for (file, expected) in REFUSED.into_iter().zip(3..) {
        for (number, state, registers) in lent(file, REGISTER_BYTES + 1) {
            assert_eq!(number, expected);
            assert!(state.iter().chain(&registers[..REGISTER_BYTES]).all(|&b| b == 0), "{expected}");
            assert_eq!(registers[REGISTER_BYTES], 7);
        }
    }
}

#[test]
fn an_entry_at_a_place() {
    let ledger = [1, 2, 3].map(|k| Entry { certificate: 1_000 * k, parent: 0xFF00 + k, depth: k });
    for i in 0..3 {
        assert_eq!(entry_at(&ledger, i), ledger[i]);
    }
    for i in [3, 4, 1_024, usize::MAX] {
        assert_eq!(entry_at(&ledger, i), Entry::default());
    }
    assert_eq!(entry_at(&ledger[..2], 2), Entry::default());
    assert_eq!(entry_at(&[], 0), Entry::default());
}

#[test]
fn calls_on_many_threads_share_nothing() {
    let expected = {
        let mut buffers = Buffers::new();
        (buffers.run_all(CHAIN), buffers.state().to_vec(), buffers.ledger().collect::<Vec<_>>())
    };
    std::thread::scope(|scope| {
        for i in 0..8 {
            let expected = &expected;
            scope.spawn(move || {
                let mut buffers = Buffers::new();
                for round in 0..200 {
                    // other work in between, in the same buffers
                    buffers.run(if (i + round) % 2 == 0 { &EXAMPLE } else { CHAIN }, round);
                    assert_eq!(buffers.run_all(CHAIN), expected.0);
                    assert_eq!(buffers.state(), expected.1);
                    assert!(buffers.ledger().eq(expected.2.iter().copied()));
                }
            });
        }
    });
}
