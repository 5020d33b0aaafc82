//! 43: several IAKs together, all or none; refusal 32.

use crate::builder::*;
use reading::*;

/// The pairs of the IAKs in the first places, the others empty.
fn first_places(iaks: &[&Names]) -> [(u16, u16); 4] {
    let mut pairs = [EMPTY; 4];
    for (place, iak) in pairs.iter_mut().zip(iaks) {
        *place = iak.pair();
    }
    pairs
}

/// Every order of the four places.
fn orders() -> Vec<[usize; 4]> {
    let mut orders = Vec::new();
    for a in 0..4 {
        for b in 0..4 {
            for c in 0..4 {
                for d in 0..4 {
                    if (1 << a | 1 << b | 1 << c | 1 << d) == 15 {
                        orders.push([a, b, c, d]);
                    }
                }
            }
        }
    }
    assert_eq!(orders.len(), 24);
    orders
}

/// The 43 is accepted, as one command, and leaves what a 3F for each of the
/// IAKs would, in this order.
fn accepted_as(b: &Build, iaks: &[&Names], returning: u8, pairs: [(u16, u16); 4]) {
    let before = b.run();
    let (accepted, refused, issued) = before.totals();
    let (start, count) = (issued as usize, iaks.len());

    let mut one_by_one = b.clone();
    for iak in iaks {
        let at = one_by_one.issue_iak(iak.oem, returning, iak.credential, iak.iak_certificate);
        assert_eq!(one_by_one.outcome(at), 0);
    }
    let one_by_one = one_by_one.run();

    let mut b = b.clone();
    let at = b.issue_iaks(iaks[0].oem, returning, pairs);
    // Before it and after it; there is nothing between.
    assert_eq!(b.run_first(at), before);
    let ran = b.run_first(at + 1);
    assert_eq!(ran.outcomes[at], 0);
    assert_eq!(ran.totals(), (accepted + 1, refused, issued + count as u32));
    assert_eq!(ran.state, one_by_one.state);
    assert_eq!(ran.ledger, one_by_one.ledger);
    assert_eq!(ran.registers, one_by_one.registers);
    for (entry, iak) in ran.ledger[start..start + count].iter().zip(iaks) {
        assert_eq!(
            *entry,
            Entry {
                certificate: iak.iak_certificate,
                parent: iak.ek_certificate,
                depth: 1
            }
        );
        assert!(ran.knows(iak.oem, iak.iak_certificate));
        assert!(!ran.knows(iak.device, iak.iak_certificate));
        // Closed; desk and request stay.
        let [request_hi, request_lo] = iak.request.to_be_bytes();
        assert_eq!(
            ran.term(iak.credential)[2..6],
            [3, iak.oem, request_hi, request_lo]
        );
    }
}

#[test]
fn one_to_four_pairs() {
    let (b, iaks) = four_iaks();
    for count in 1..=4 {
        let iaks: Vec<&Names> = iaks[..count].iter().collect();
        accepted_as(&b, &iaks, iaks[0].device, first_places(&iaks));
    }
    let (b, iaks, _) = together();
    let ek = iaks[0].ek_certificate;
    let [first, second, third, fourth] = iaks.map(|iak| iak.iak_certificate);
    assert_eq!(
        b.text(),
        format!(
            "I {first} {ek} 1\nI {second} {ek} 1\nI {third} {ek} 1\nI {fourth} {ek} 1\nT 33 0 4\n"
        )
    );
}

#[test]
fn ledger_order_is_that_of_the_pairs() {
    let (b, iaks) = four_iaks();
    for order in orders() {
        let iaks = order.map(|place| &iaks[place]);
        accepted_as(&b, &iaks, iaks[0].device, first_places(&iaks));
    }
}

#[test]
fn empty_pairs_in_each_place() {
    let (b, iaks) = four_iaks();
    for full in 1..16 {
        let mut pairs = [EMPTY; 4];
        let mut issued = Vec::new();
        for (place, iak) in iaks.iter().enumerate() {
            if full >> place & 1 == 1 {
                pairs[place] = iak.pair();
                issued.push(iak);
            }
        }
        accepted_as(&b, &issued, iaks[0].device, pairs);
    }
}

#[test]
fn all_empty() {
    let (mut b, [n, ..]) = four_iaks();
    // Also where no returning party would do.
    for returning in [n.device, n.maker, n.oem, n.owner] {
        let at = b.issue_iaks(n.oem, returning, [EMPTY; 4]);
        refused_cleanly(&b, at, 32);
    }
    // With no IAK in the world, and no key of the desk.
    let mut b = Build::default();
    let oem = b.party(2);
    let at = b.issue_iaks(oem, oem, [EMPTY; 4]);
    refused_cleanly(&b, at, 32);
    assert_eq!(b.text(), "R 0 32\nT 0 1 0\n");
}

#[test]
fn two_certificates_alike() {
    let (b, iaks) = four_iaks();
    let [n, ..] = &iaks;
    for one in 0..4 {
        for other in 0..one {
            let mut b = b.clone();
            // Each with its own credential, with one credential, and with no
            // others.
            let mut own = iaks.each_ref().map(Names::pair);
            own[one].1 = own[other].1;
            let mut same = own;
            same[one].0 = same[other].0;
            let mut alone = [EMPTY; 4];
            alone[one] = same[one];
            alone[other] = same[other];
            for pairs in [own, same, alone] {
                let at = b.issue_iaks(n.oem, n.device, pairs);
                refused_cleanly(&b, at, 32);
            }
        }
    }
    // Two and two, and all four.
    let mut b = b.clone();
    let [first, second, third, fourth] = iaks.each_ref().map(|iak| iak.credential);
    let (one, other) = (n.iak_certificate, iaks[1].iak_certificate);
    for certificates in [[one, other, other, one], [one; 4]] {
        let pairs = [
            (first, certificates[0]),
            (second, certificates[1]),
            (third, certificates[2]),
            (fourth, certificates[3]),
        ];
        let at = b.issue_iaks(n.oem, n.device, pairs);
        refused_cleanly(&b, at, 32);
    }
}

#[test]
fn role_before_32() {
    let (mut b, iaks) = four_iaks();
    let [n, ..] = &iaks;
    let good = iaks.each_ref().map(Names::pair);
    let alike = [good[0], good[0], EMPTY, EMPTY];
    for party in [n.device, n.maker, n.owner] {
        for pairs in [good, alike, [EMPTY; 4]] {
            for returning in [n.device, party] {
                let at = b.issue_iaks(party, returning, pairs);
                refused_cleanly(&b, at, 13);
            }
        }
    }
    let at = b.issue_iaks(n.oem, n.device, good);
    assert_eq!(b.outcome(at), 0);
}

#[test]
fn same_credential_twice() {
    let (mut b, iaks) = four_iaks();
    let [n, ..] = &iaks;
    let other = iaks[1].iak_certificate;
    // Closed by the pair before: 25, also in a later place, also with an empty
    // pair or another IAK between.
    let first = n.pair();
    let again = (n.credential, other);
    let third = iaks[2].pair();
    for pairs in [
        [first, again, EMPTY, EMPTY],
        [first, again, third, EMPTY],
        [first, EMPTY, again, EMPTY],
        [EMPTY, first, EMPTY, again],
        [first, third, again, EMPTY],
        [third, first, iaks[3].pair(), again],
    ] {
        let at = b.issue_iaks(n.oem, n.device, pairs);
        refused_cleanly(&b, at, 25);
    }
    // The other way round the first pair fails.
    let at = b.issue_iaks(n.oem, n.device, [again, first, EMPTY, EMPTY]);
    refused_cleanly(&b, at, 27);
    // Two credentials of one IAK: the second calls for the same certificate.
    let number = b.number(78);
    let credential = b.credential(n.iak_hash, number, n.ek);
    b.give(n.oem, number);
    b.challenge(n.oem, n.request, credential);
    b.send(n.oem, n.device, credential);
    b.act(0x34, n.device, credential);
    let same = (credential, n.iak_certificate);
    let wrong = (credential, other);
    for (pairs, expected) in [
        ([first, same, EMPTY, EMPTY], 32),
        ([first, wrong, EMPTY, EMPTY], 27),
    ] {
        let at = b.issue_iaks(n.oem, n.device, pairs);
        refused_cleanly(&b, at, expected);
    }
    let at = b.issue_iaks(n.oem, n.device, [EMPTY, EMPTY, same, EMPTY]);
    assert_eq!(b.outcome(at), 0);
    let at = b.issue_iaks(n.oem, n.device, [EMPTY, EMPTY, first, EMPTY]);
    refused_cleanly(&b, at, 28);
}

/// A pair that fails, and its refusal.
type Fault = ((u16, u16), u8);

/// The world of four IAKs, with pairs that fail.
fn faults() -> (Build, [Names; 4], Vec<Fault>) {
    let (mut b, iaks) = four_iaks();
    let n = iaks[0].clone();
    let spare = ready_iak(&mut b, &n, 510, 200);

    // 25: never opened, closed already, open at another desk.
    let number = b.number(600);
    let unopened = b.credential(spare.iak_hash, number, n.ek);
    b.give(n.oem, number);
    let closed = another_iak(&mut b, &n, 511, 200);
    assert_eq!(b.outcome(last_iak(&b)), 0);
    let mut second_desk = n.clone();
    second_desk.oem = b.party(2);
    second_desk.oem_private = b.private(601, CA);
    b.hold(second_desk.oem, second_desk.oem_private);
    b.desk_key(second_desk.oem, second_desk.oem_private);
    let elsewhere = ready_iak(&mut b, &second_desk, 512, 200);
    let elsewhere_here = b.certificate(elsewhere.iak, DEV, 200, n.oem_private);

    // 26: challenged but not activated, activated by another board.
    let waiting = another_iak_terms(&mut b, &n, 513, 200);
    make_request(&mut b, &waiting);
    b.challenge(n.oem, waiting.request, waiting.credential);
    let second_board = another_board(&mut b, &n, 11, 101);
    let beside = ready_iak(&mut b, &second_board, 514, 201);

    // 27.
    let wrong_key = b.certificate(n.ek, DEV, 200, n.oem_private);
    let wrong_number = b.certificate(spare.iak, DEV, 201, n.oem_private);
    let wrong_subject = b.certificate(spare.iak, TPM, 200, n.oem_private);
    let wrong_signer = b.certificate(spare.iak, DEV, 200, n.owner_private);

    // 28: the closed one by a new challenge.
    let number = b.number(602);
    let again = Names {
        number,
        credential: b.credential(closed.iak_hash, number, n.ek),
        ..closed.clone()
    };
    b.give(n.oem, number);
    activate(&mut b, &again);

    // 31: the second board carries the Subject.
    another_iak(&mut b, &second_board, 515, 202);
    assert_eq!(b.outcome(last_iak(&b)), 0);
    let late = ready_iak(&mut b, &n, 516, 202);

    let faults = vec![
        ((unopened, spare.iak_certificate), 25),
        (closed.pair(), 25),
        (elsewhere.pair(), 25),
        ((elsewhere.credential, elsewhere_here), 25),
        (waiting.pair(), 26),
        (beside.pair(), 26),
        ((spare.credential, wrong_key), 27),
        ((spare.credential, wrong_number), 27),
        ((spare.credential, wrong_subject), 27),
        ((spare.credential, wrong_signer), 27),
        ((spare.credential, n.ek_certificate), 27),
        ((spare.credential, closed.iak_certificate), 27),
        (again.pair(), 28),
        (late.pair(), 31),
    ];
    (b, iaks, faults)
}

#[test]
fn one_pair_fails_and_nothing_is_left_behind() {
    let (b, iaks, faults) = faults();
    let [n, ..] = &iaks;
    let good = iaks.each_ref().map(Names::pair);
    for (fault, number) in faults {
        // As it is by a 3F.
        let mut b = b.clone();
        let at = b.issue_iak(n.oem, n.device, fault.0, fault.1);
        refused_cleanly(&b, at, number);
        // In each place with three that would be issued, as the second of two,
        // and alone.
        for place in 0..4 {
            let mut pairs = good;
            pairs[place] = fault;
            let at = b.issue_iaks(n.oem, n.device, pairs);
            refused_cleanly(&b, at, number);
        }
        for pairs in [
            [good[0], fault, EMPTY, EMPTY],
            [EMPTY, good[0], EMPTY, fault],
            [fault, EMPTY, EMPTY, EMPTY],
            [EMPTY, EMPTY, EMPTY, fault],
        ] {
            let at = b.issue_iaks(n.oem, n.device, pairs);
            refused_cleanly(&b, at, number);
        }
        // The good ones are still issued, together or one by one.
        let iaks: Vec<&Names> = iaks.iter().collect();
        accepted_as(&b, &iaks, n.device, good);
    }
}

#[test]
fn the_first_failing_pair_gives_the_refusal() {
    // Not the lowest number of all pairs; but 32 is before.
    let (b, iaks, faults) = faults();
    let [n, ..] = &iaks;
    for (one, number) in &faults {
        let mut b = b.clone();
        for (other, _) in &faults {
            let expected = if one.1 == other.1 { 32 } else { *number };
            for pairs in [
                [*one, *other, EMPTY, EMPTY],
                [n.pair(), *one, EMPTY, *other],
            ] {
                let at = b.issue_iaks(n.oem, n.device, pairs);
                assert_eq!(b.outcome(at), expected);
            }
        }
    }
}

#[test]
fn alike_before_every_other_refusal() {
    let (b, iaks, faults) = faults();
    let [n, second, third, _] = &iaks;
    let alike = (third.credential, second.iak_certificate);
    for (fault, _) in faults {
        let mut b = b.clone();
        for pairs in [
            [fault, EMPTY, second.pair(), alike],
            [second.pair(), fault, alike, EMPTY],
            [fault, fault, EMPTY, EMPTY],
        ] {
            for returning in [n.device, n.oem] {
                let at = b.issue_iaks(n.oem, returning, pairs);
                refused_cleanly(&b, at, 32);
            }
        }
    }
}

#[test]
fn one_returning_party_for_all_pairs() {
    let (mut b, iaks) = four_iaks();
    let [n, ..] = &iaks;
    let good = iaks.each_ref().map(Names::pair);
    let bystander = b.party(0);
    for party in [bystander, n.maker, n.oem, n.owner] {
        let at = b.issue_iaks(n.oem, party, good);
        refused_cleanly(&b, at, 26);
    }
    // Any device that knows all four numbers.
    for iak in &iaks {
        let at = b.issue_iaks(n.oem, bystander, good);
        refused_cleanly(&b, at, 26);
        b.send(n.device, bystander, iak.number);
    }
    let iaks: Vec<&Names> = iaks.iter().collect();
    accepted_as(&b, &iaks, bystander, good);
}

#[test]
fn a_desk_without_a_key() {
    let mut b = Build::default();
    let n = iak_terms(&mut b, AK, EK);
    b.hold(n.maker, n.maker_private);
    b.desk_key(n.maker, n.maker_private);
    b.hold(n.oem, n.oem_private);
    device_set_up(&mut b, &n);
    make_request(&mut b, &n);
    activate(&mut b, &n);
    let at = b.issue_iaks(n.oem, n.device, first_places(&[&n]));
    refused_cleanly(&b, at, 27);
}

#[test]
fn another_ek_key_in_an_earlier_pair() {
    // Two boards ask for one Subject; nobody carries it before. One device
    // knows both numbers.
    let (mut b, iaks) = four_iaks();
    let [n, more, ..] = &iaks;
    let second = another_board(&mut b, n, 11, 101);
    let second = ready_iak(&mut b, &second, 520, 200);
    b.send(second.device, n.device, second.number);
    for pairs in [
        first_places(&[n, &second]),
        first_places(&[&second, n]),
        first_places(&[n, more, &second]),
        [n.pair(), EMPTY, EMPTY, second.pair()],
        [EMPTY, second.pair(), more.pair(), n.pair()],
    ] {
        let at = b.issue_iaks(n.oem, n.device, pairs);
        refused_cleanly(&b, at, 31);
    }
    // Each by itself; then the other is 31 by the ledger.
    for (one, other) in [(n, &second), (&second, n)] {
        accepted_as(&b, &[one], n.device, first_places(&[one]));
        let mut b = b.clone();
        let at = b.issue_iaks(n.oem, n.device, first_places(&[one]));
        assert_eq!(b.outcome(at), 0);
        let at = b.issue_iaks(n.oem, n.device, first_places(&[other]));
        refused_cleanly(&b, at, 31);
    }
    // 27 of a later pair does not come before 31 of an earlier one.
    let wrong = (more.credential, iaks[2].iak_certificate);
    let (first, second) = (n.pair(), second.pair());
    for (pairs, expected) in [
        ([first, second, wrong, EMPTY], 31),
        ([first, wrong, second, EMPTY], 27),
    ] {
        let at = b.issue_iaks(n.oem, n.device, pairs);
        refused_cleanly(&b, at, expected);
    }
}

#[test]
fn several_subjects_certificates_and_boards() {
    // Nothing asks that the pairs are of one board: another Subject, another
    // certificate of the EK key, another EK key, another board.
    let (mut b, iaks) = four_iaks();
    let [n, ..] = &iaks;
    let by_subject = Names {
        ek_certificate: b.certificate(n.ek, TPM, 101, n.maker_private),
        ..n.clone()
    };
    b.give(n.device, by_subject.ek_certificate);
    let by_subject = ready_iak(&mut b, &by_subject, 520, 200);
    let another = ready_iak(&mut b, n, 521, 201);
    let beside = another_ek(&mut b, n, 11, 102);
    let beside = ready_iak(&mut b, &beside, 522, 202);
    let second = another_board(&mut b, n, 12, 103);
    let second = ready_iak(&mut b, &second, 523, 203);
    b.send(second.device, n.device, second.number);
    let all = [&by_subject, &another, &beside, &second];
    for order in orders() {
        let iaks = order.map(|place| all[place]);
        accepted_as(&b, &iaks, n.device, first_places(&iaks));
    }
    // The path ends at the EK certificate of each.
    let mut b = b.clone();
    b.issue_iaks(n.oem, n.device, first_places(&all));
    for iak in all {
        let mut again = b.run();
        let mut list = vec![0; LIST_PLACES];
        let answer = path(
            &b.bytes(),
            usize::MAX,
            &mut again.state,
            &mut again.ledger,
            &mut again.outcomes,
            &mut again.registers,
            iak.iak_certificate,
            &mut list,
        );
        assert_eq!(answer, PathAnswer::Steps(1));
        assert_eq!(list[..2], [iak.iak_certificate, iak.ek_certificate]);
    }
}

#[test]
fn after_it() {
    let (mut b, iaks, at) = together();
    let [n, ..] = &iaks;
    let good = iaks.each_ref().map(Names::pair);
    assert_eq!(b.outcome(at), 0);
    // The credentials are closed.
    let last = b.issue_iaks(n.oem, n.device, good);
    refused_cleanly(&b, last, 25);
    for iak in &iaks {
        let last = b.issue_iak(n.oem, n.device, iak.credential, iak.iak_certificate);
        refused_cleanly(&b, last, 25);
    }
    // The certificates are issued, also by a new challenge.
    let number = b.number(78);
    let credential = b.credential(iaks[3].iak_hash, number, n.ek);
    b.give(n.oem, number);
    b.challenge(n.oem, iaks[3].request, credential);
    b.send(n.oem, n.device, credential);
    b.act(0x34, n.device, credential);
    let r = iaks[3].iak_certificate;
    let last = b.issue_iak(n.oem, n.device, credential, r);
    refused_cleanly(&b, last, 28);
    let last = b.issue_iaks(n.oem, n.device, [EMPTY, (credential, r), EMPTY, EMPTY]);
    refused_cleanly(&b, last, 28);
    // Another board cannot have the Subject, this one may go on.
    let second = another_board(&mut b, n, 11, 101);
    another_iak(&mut b, &second, 520, 200);
    let last = last_iak(&b);
    refused_cleanly(&b, last, 31);
    another_iak(&mut b, n, 521, 200);
    assert_eq!(b.outcome(last_iak(&b)), 0);
    // Each is a parent as an IAK certificate by a 3F is.
    for (id, iak) in (1000..).zip(&iaks) {
        b.send(n.oem, n.device, iak.iak_certificate);
        let parent = (iak.iak_private, iak.iak_certificate);
        for kind in 0x40..=0x42 {
            let issued = b.run().totals().2 as usize;
            let id = id + 100 * u16::from(kind - 0x40);
            let (at, a) = enrol(&mut b, n, kind, id, parent);
            assert_eq!(b.outcome(at), 0);
            assert_eq!(
                b.run().ledger[issued],
                Entry {
                    certificate: a.certificate,
                    parent: iak.iak_certificate,
                    depth: 2
                }
            );
        }
    }
}

#[test]
fn some_issued_before() {
    // A board of which one IAK is enrolled already: the others together.
    let (mut b, iaks) = four_iaks();
    let [n, second, third, fourth] = &iaks;
    b.issue_iak(n.oem, n.device, third.credential, third.iak_certificate);
    let at = b.issue_iaks(n.oem, n.device, first_places(&[n, second, third, fourth]));
    refused_cleanly(&b, at, 25);
    let iaks = [n, second, fourth];
    accepted_as(&b, &iaks, n.device, first_places(&iaks));
}
