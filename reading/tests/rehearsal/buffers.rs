//! Short and long buffers, what is left, and Path.

use crate::builder::*;
use reading::*;

const FILLER: Entry = Entry {
    certificate: 9,
    parent: 8,
    depth: 7,
};

struct Lent {
    state: Vec<u8>,
    ledger: Vec<Entry>,
    outcomes: Vec<u8>,
    registers: Vec<u8>,
    list: Vec<u16>,
}

fn lent(state: usize, ledger: usize, outcomes: usize, registers: usize, list: usize) -> Lent {
    Lent {
        state: vec![0xAA; state],
        ledger: vec![FILLER; ledger],
        outcomes: vec![0xBB; outcomes],
        registers: vec![0xDD; registers],
        list: vec![0xCCCC; list],
    }
}

impl Lent {
    fn run(&mut self, file: &[u8], n: usize) -> RunAnswer {
        run(
            file,
            n,
            &mut self.state,
            &mut self.ledger,
            &mut self.outcomes,
            &mut self.registers,
        )
    }

    fn path(&mut self, file: &[u8], n: usize, term: u16) -> PathAnswer {
        path(
            file,
            n,
            &mut self.state,
            &mut self.ledger,
            &mut self.outcomes,
            &mut self.registers,
            term,
            &mut self.list,
        )
    }

    fn untouched(&self) -> bool {
        self.state.iter().all(|byte| *byte == 0xAA)
            && self.ledger.iter().all(|entry| *entry == FILLER)
            && self.outcomes.iter().all(|byte| *byte == 0xBB)
            && self.registers.iter().all(|byte| *byte == 0xDD)
            && self.list_untouched()
    }

    fn list_untouched(&self) -> bool {
        self.list.iter().all(|place| *place == 0xCCCC)
    }
}

#[test]
fn short_buffers() {
    let (b, n) = honest();
    let good = b.bytes();
    let long = vec![0xFF; FILE_BYTES + 1];
    let bad = vec![0xFF];
    for file in [&good, &long, &bad] {
        for (state, ledger, outcomes, registers) in [
            (8191, 1024, 8192, 384),
            (8192, 1023, 8192, 384),
            (8192, 1024, 8191, 384),
            (8192, 1024, 8192, 383),
            (8192, 1024, 8192, 0),
        ] {
            let mut l = lent(state, ledger, outcomes, registers, 9);
            assert_eq!(
                l.run(file, 99),
                RunAnswer::Refused {
                    number: 1,
                    place: 0
                }
            );
            assert_eq!(
                l.path(file, 99, n.iak_certificate),
                PathAnswer::Refused {
                    number: 1,
                    place: 0
                }
            );
            assert!(l.untouched());
        }
        let mut l = lent(8192, 1024, 8192, 384, 8);
        assert_eq!(
            l.path(file, 99, n.iak_certificate),
            PathAnswer::Refused {
                number: 1,
                place: 0
            }
        );
        assert!(l.untouched());
        for length in [0, 1, 8191] {
            let mut state = vec![0xAA; length];
            assert_eq!(
                load(file, &mut state),
                LoadAnswer::Refused {
                    number: 1,
                    place: 0
                }
            );
            assert!(state.iter().all(|byte| *byte == 0xAA));
        }
    }
}

#[test]
fn long_file() {
    let file = vec![0xFF; FILE_BYTES + 1];
    let mut l = lent(8192, 1024, 8192, 384, 9);
    let number = 2;
    let place = 0;
    assert_eq!(l.run(&file, 1), RunAnswer::Refused { number, place });
    assert_eq!(l.path(&file, 1, 0), PathAnswer::Refused { number, place });
    assert_eq!(
        load(&file, &mut l.state),
        LoadAnswer::Refused { number, place }
    );
    assert!(l.untouched());
    assert_eq!(listing(&file), b"F 2 0\n");
    // One byte less is scanned.
    assert_eq!(
        l.run(&file[1..], 1),
        RunAnswer::Refused { number: 3, place }
    );
    assert_eq!(listing(&file[1..]), b"F 3 0\n");
}

#[test]
fn refused_load_leaves_zeros_in_the_first_parts() {
    let (b, n) = honest();
    let mut file = b.bytes();
    file.push(0xFF);
    let place = file.len() as u32 - 1;
    let mut l = lent(8200, 1030, 8200, 390, 12);
    assert_eq!(
        l.path(&file, 9, n.iak_certificate),
        PathAnswer::Refused { number: 3, place }
    );
    assert!(l.state[..8192].iter().all(|byte| *byte == 0));
    assert!(l.state[8192..].iter().all(|byte| *byte == 0xAA));
    assert!(l.ledger[..1024].iter().all(|e| *e == Entry::default()));
    assert!(l.ledger[1024..].iter().all(|e| *e == FILLER));
    assert!(l.outcomes[..8192].iter().all(|byte| *byte == 0));
    assert!(l.outcomes[8192..].iter().all(|byte| *byte == 0xBB));
    assert!(l.registers[..384].iter().all(|byte| *byte == 0));
    assert!(l.registers[384..].iter().all(|byte| *byte == 0xDD));
    assert!(l.list_untouched());
    let mut state = vec![0xAA; 8200];
    assert_eq!(
        load(&file, &mut state),
        LoadAnswer::Refused { number: 3, place }
    );
    assert_eq!(state, l.state);
}

#[test]
fn long_buffers() {
    let (b, n, _, laks) = chain(3);
    let small = b.run();
    let mut l = lent(9000, 1100, 9000, 400, 40);
    let answer = l.run(&b.bytes(), usize::MAX);
    assert_eq!(answer, small.answer);
    assert_eq!(l.state[..8192], small.state);
    assert_eq!(l.ledger[..1024], small.ledger);
    assert_eq!(l.outcomes[..8192], small.outcomes);
    assert!(l.state[8192..].iter().all(|byte| *byte == 0xAA));
    assert!(l.ledger[1024..].iter().all(|e| *e == FILLER));
    assert!(l.outcomes[8192..].iter().all(|byte| *byte == 0xBB));
    assert_eq!(l.registers[..384], small.registers);
    assert!(l.registers[384..].iter().all(|byte| *byte == 0xDD));
    assert!(l.list_untouched());

    let mut l = lent(9000, 1100, 9000, 400, 40);
    let answer = l.path(&b.bytes(), usize::MAX, laks[2].certificate);
    assert_eq!(answer, PathAnswer::Steps(4));
    assert_eq!(
        l.list[..5],
        [
            laks[2].certificate,
            laks[1].certificate,
            laks[0].certificate,
            n.iak_certificate,
            n.ek_certificate
        ]
    );
    assert!(l.list[5..].iter().all(|place| *place == 0xCCCC));
    assert_eq!(l.state[..8192], small.state);
    assert_eq!(l.ledger[..1024], small.ledger);
    assert_eq!(l.outcomes[..8192], small.outcomes);
    assert!(l.state[8192..].iter().all(|byte| *byte == 0xAA));
    assert_eq!(l.registers[..384], small.registers);
    assert!(l.registers[384..].iter().all(|byte| *byte == 0xDD));
}

#[test]
fn path_of_every_depth() {
    let (b, n, _, laks) = chain(8);
    let file = b.bytes();
    let mut chain: Vec<u16> = vec![n.ek_certificate, n.iak_certificate];
    chain.extend(laks.iter().take(7).map(|l| l.certificate));
    for depth in 1..=8 {
        let mut l = lent(8192, 1024, 8192, 384, 9);
        let answer = l.path(&file, usize::MAX, chain[depth]);
        assert_eq!(answer, PathAnswer::Steps(depth as u32));
        let expected: Vec<u16> = chain[..=depth].iter().rev().copied().collect();
        assert_eq!(l.list[..=depth], expected);
        assert!(l.list[depth + 1..].iter().all(|place| *place == 0xCCCC));
    }
}

#[test]
fn path_of_no_issued_certificate() {
    let (b, n, _, laks) = chain(8);
    let file = b.bytes();
    let ran = b.run();
    // Not issued (depth 9), not a certificate, the EK's, no term at all.
    for term in [
        laks[7].certificate,
        n.iak,
        n.ek_certificate,
        b.terms(),
        1024,
        0xFFFF,
    ] {
        let mut l = lent(8192, 1024, 8192, 384, 9);
        assert_eq!(
            l.path(&file, usize::MAX, term),
            PathAnswer::Refused {
                number: 30,
                place: u32::from(term)
            }
        );
        assert_eq!(l.state, ran.state);
        assert_eq!(l.ledger, ran.ledger);
        assert_eq!(l.outcomes, ran.outcomes);
        assert_eq!(l.registers, ran.registers);
        assert!(l.list_untouched());
    }
    // Issued only by the ninth command.
    let (b, n) = honest();
    let mut l = lent(8192, 1024, 8192, 384, 9);
    assert_eq!(
        l.path(&b.bytes(), 8, n.iak_certificate),
        PathAnswer::Refused {
            number: 30,
            place: u32::from(n.iak_certificate)
        }
    );
    assert_eq!(
        l.path(&b.bytes(), 9, n.iak_certificate),
        PathAnswer::Steps(1)
    );
}

#[test]
fn first_n() {
    let (b, ..) = chain(2);
    let all = b.run();
    for n in 0..b.commands() + 3 {
        let some = b.run_first(n);
        let (accepted, refused, issued) = some.totals();
        let count = n.min(b.commands());
        assert_eq!((accepted + refused) as usize, count);
        assert_eq!(some.outcomes[..count], all.outcomes[..count]);
        assert!(some.outcomes[count..].iter().all(|o| *o == 0));
        let issued = issued as usize;
        assert_eq!(some.ledger[..issued], all.ledger[..issued]);
        assert!(some.ledger[issued..].iter().all(|e| *e == Entry::default()));
    }
}

#[test]
fn terms_places_in_two_bytes() {
    let (b, _) = honest();
    let ran = b.run();
    for t in 0..b.terms() {
        assert_eq!(ran.term(t)[6..], (b.place(t) as u16).to_be_bytes());
    }
}
