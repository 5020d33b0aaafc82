//! Refusals 2 to 12, their places and their order.

use crate::builder::*;
use reading::*;

/// Loads, runs and lists; all three must refuse alike, and leave zeros.
fn refused(file: &[u8]) -> (u32, u32) {
    let mut state = vec![9; STATE_BYTES];
    let LoadAnswer::Refused { number, place } = load(file, &mut state) else {
        panic!("loaded")
    };
    assert!(state.iter().all(|byte| *byte == 0));
    let ran = run_bytes(file, usize::MAX);
    assert_eq!(ran.answer, RunAnswer::Refused { number, place });
    assert!(ran.state.iter().all(|byte| *byte == 0));
    assert!(ran.outcomes.iter().all(|byte| *byte == 0));
    assert!(ran.registers.iter().all(|byte| *byte == 0));
    assert!(ran.ledger.iter().all(|e| *e == Entry::default()));
    assert_eq!(listing(file), format!("F {number} {place}\n").as_bytes());
    (number, place)
}

fn loads(file: &[u8]) {
    let mut state = vec![9; STATE_BYTES];
    let answer = load(file, &mut state);
    assert!(matches!(answer, LoadAnswer::Loaded { .. }), "{answer:?}");
}

/// A builder with one device and the terms 0 to 12, one of each kind in the
/// order of the kinds as far as that goes.
struct OfEach {
    b: Build,
    device: u8,
    /// Term numbers by kind, from 10 on.
    of: [u16; 13],
}

fn of_each() -> OfEach {
    let mut b = Build::default();
    let device = b.party(0);
    let public = b.public(1, AK);
    let private = b.private(1, AK);
    let hash = b.hash(public);
    let signature = b.signature(hash, private);
    let attest = b.attest(public);
    let number = b.number(1);
    let credential = b.credential(hash, number, public);
    let certificate = b.certificate(public, TPM, 1, private);
    let idevid = b.idevid(DEV, 1, certificate, public);
    let ldevid = b.ldevid(signature, certificate);
    let pair = b.pair(hash, hash);
    let start = b.start(0);
    let quote_body = b.quote_body(0, start, number);
    OfEach {
        b,
        device,
        of: [
            public,
            private,
            hash,
            signature,
            attest,
            credential,
            number,
            idevid,
            ldevid,
            certificate,
            pair,
            start,
            quote_body,
        ],
    }
}

#[test]
fn counts() {
    let (b, _) = honest();
    let mut state = vec![9; STATE_BYTES];
    assert_eq!(
        load(&b.bytes(), &mut state),
        LoadAnswer::Loaded {
            parties: 4,
            terms: u32::from(b.terms()),
            commands: 9
        }
    );
    // Loading leaves what a run of no command leaves.
    assert_eq!(state, b.run_first(0).state);
}

#[test]
fn unknown_kinds() {
    let known: Vec<u8> = [0x01]
        .into_iter()
        .chain(0x10..=0x1C)
        .chain(0x20..=0x22)
        .chain(0x30..=0x45)
        .collect();
    for kind in 0..=255u8 {
        let (number, place) = refused(&[0x01, 0x00, kind]);
        let expected = if known.contains(&kind) { 4 } else { 3 };
        assert_eq!((number, place), (expected, 2), "kind {kind:02x}");
    }
}

#[test]
fn body_lengths() {
    let lengths = [
        (0x01, 1),
        (0x10, 3),
        (0x11, 3),
        (0x12, 2),
        (0x13, 4),
        (0x14, 2),
        (0x15, 6),
        (0x16, 2),
        (0x17, 7),
        (0x18, 4),
        (0x19, 7),
        (0x1A, 4),
        (0x1B, 1),
        (0x1C, 5),
        (0x20, 3),
        (0x21, 3),
        (0x22, 3),
        (0x30, 3),
        (0x31, 3),
        (0x32, 3),
        (0x33, 3),
        (0x34, 3),
        (0x35, 3),
        (0x36, 3),
        (0x37, 3),
        (0x38, 5),
        (0x39, 5),
        (0x3A, 5),
        (0x3B, 4),
        (0x3C, 4),
        (0x3D, 3),
        (0x3E, 5),
        (0x3F, 6),
        (0x40, 5),
        (0x41, 5),
        (0x42, 5),
        (0x43, 18),
        (0x44, 4),
        (0x45, 3),
    ];
    for (kind, length) in lengths {
        let mut record = vec![kind];
        record.extend(vec![0xFF; length - 1]);
        assert_eq!(refused(&record), (4, 0), "kind {kind:02x}");
        record.push(0xFF);
        // Long enough: either it loads (16) or a field fails.
        if kind == 0x16 {
            loads(&record);
        } else {
            assert_eq!(refused(&record), (7, 0), "kind {kind:02x}");
        }
        // The next record starts after the body.
        if kind == 0x16 {
            record.push(0x00);
            assert_eq!(refused(&record), (3, 3));
        }
    }
}

#[test]
fn last_kinds() {
    // 45 is the last kind; a body of 41 to 45 cut at any byte is 4.
    let (b, n, [_, idevid, ldevid]) = board();
    let start = b.bytes().len() as u32;
    for (kind, desk, a) in [(0x41, n.oem, idevid), (0x42, n.owner, ldevid)] {
        let mut b = b.clone();
        b.issue(kind, desk, a.request, a.certificate);
        let file = b.bytes();
        loads(&file);
        for cut in 1..=5 {
            assert_eq!(refused(&file[..file.len() - cut]), (4, start));
        }
    }
    for pairs in [[n.pair(); 4], [EMPTY; 4]] {
        let mut b = b.clone();
        b.issue_iaks(n.oem, n.device, pairs);
        let file = b.bytes();
        loads(&file);
        for cut in 1..=18 {
            assert_eq!(refused(&file[..file.len() - cut]), (4, start));
        }
    }
    for (record, length) in [(&[0x44, 0, 23, 0, 5][..], 4), (&[0x45, 0, 0, 7], 3)] {
        let mut b = Build::default();
        b.party(0);
        let (start, number) = (b.start(23), b.number(1));
        let key = b.private(1, AK);
        let (pair, body) = (b.pair(start, number), b.quote_body(23, start, number));
        assert_eq!((b.hash(pair), b.hash(body)), (5, 6));
        assert_eq!(b.signature(body, key), 7);
        let start = b.bytes().len() as u32;
        b.raw(record);
        let file = b.bytes();
        loads(&file);
        for cut in 1..=length {
            assert_eq!(refused(&file[..file.len() - cut]), (4, start));
        }
    }
    let mut record = vec![0, n.oem, n.device];
    record.extend([0xFF; 16]);
    for kind in 0x46..=0xFF {
        let mut b = b.clone();
        record[0] = kind;
        b.raw(&record);
        assert_eq!(refused(&b.bytes()), (3, start));
    }
}

#[test]
fn section_order() {
    let number = [0x16, 0, 0];
    let party = [0x01, 0];
    assert_eq!(refused(&[&number[..], &party[..]].concat()), (5, 3));
    let o = of_each();
    let mut file = o.b.bytes();
    let device = o.device;
    file.extend([0x20, device, 0, 0]);
    let after_set_up = file.len() as u32;
    let mut term_again = file.clone();
    term_again.extend([0x16, 0, 9]);
    assert_eq!(refused(&term_again), (5, after_set_up));
    file.extend([0x3C, device, device, 0, 0]);
    let end = file.len() as u32;
    for record in [
        &[0x01, 0][..],
        &[0x16, 0, 9],
        &[0x20, 0, 0, 0],
        &[0x21, 0, 0, 1],
    ] {
        let mut late = file.clone();
        late.extend(record);
        assert_eq!(refused(&late), (5, end));
    }
    // Within a section any order; sections may be empty.
    loads(&[0x01, 0, 0x01, 3, 0x01, 1]);
    loads(&[0x16, 0, 0]);
}

#[test]
fn ninth_party() {
    let mut b = Build::default();
    for _ in 0..8 {
        b.party(3);
    }
    loads(&b.bytes());
    b.party(3);
    assert_eq!(refused(&b.bytes()), (6, 16));
}

#[test]
fn order_of_three_to_seven() {
    // 3 before 4: an unknown kind at the end.
    assert_eq!(refused(&[0x02]), (3, 0));
    // 4 before 5: a party cut short after a term.
    assert_eq!(refused(&[0x16, 0, 0, 0x01]), (4, 3));
    // 5 before 6: a ninth party after a term.
    let mut b = Build::default();
    for _ in 0..8 {
        b.party(0);
    }
    let full = b.bytes();
    let mut late = full.clone();
    late.extend([0x16, 0, 0, 0x01, 0]);
    assert_eq!(refused(&late), (5, 19));
    // 5 before 7.
    assert_eq!(refused(&[0x16, 0, 0, 0x01, 9]), (5, 3));
    // 4 before 6.
    let mut cut = full.clone();
    cut.push(0x01);
    assert_eq!(refused(&cut), (4, 16));
    // 6 before 7: a ninth party of no role.
    let mut ninth = full;
    ninth.extend([0x01, 4]);
    assert_eq!(refused(&ninth), (6, 16));
    // 6 before 7, 8 and 9 at a term.
    let mut b = Build::default();
    for id in 0..1024 {
        b.number(id);
    }
    for record in [&[0x12, 9, 9][..], &[0x14, 0, 0], &[0x16, 0, 0]] {
        let mut file = b.bytes();
        file.extend(record);
        assert_eq!(refused(&file), (6, 3072));
    }
    // File order: an early 12 before a later 3.
    assert_eq!(
        refused(&[0x01, 0, 0x11, 0, 0, 0x0A, 0x22, 0, 0, 0, 0xFF]),
        (12, 6)
    );
}

#[test]
fn roles_attributes_subjects() {
    for role in 0..=255 {
        if role < 4 {
            loads(&[0x01, role]);
        } else {
            assert_eq!(refused(&[0x01, role]), (7, 0));
        }
        let attributes = role;
        for kind in [0x10, 0x11] {
            if attributes < 16 {
                loads(&[kind, 0xFF, 0xFF, attributes]);
            } else {
                assert_eq!(refused(&[kind, 0, 0, attributes]), (7, 0));
            }
        }
    }
    let o = of_each();
    let start = o.b.bytes().len() as u32;
    let [public, private, _, _, _, _, _, _, _, certificate, ..] = o.of;
    for what in 2..=255 {
        let mut b = o.b.clone();
        b.certificate(public, what, 5, private);
        assert_eq!(refused(&b.bytes()), (7, start));
        let mut b = o.b.clone();
        b.idevid(what, 5, certificate, public);
        assert_eq!(refused(&b.bytes()), (7, start));
    }
}

#[test]
fn fields_of_terms_must_be_lower() {
    // With thirteen terms before, 13 is the term itself and 12 is fine.
    let o = of_each();
    let start = o.b.bytes().len() as u32;
    let own = o.b.terms();
    let [
        public,
        private,
        hash,
        _,
        _,
        _,
        number,
        _,
        _,
        certificate,
        ..,
    ] = o.of;
    let refuse7 = |make: &dyn Fn(&mut Build, u16)| {
        for t in [own, own + 1, 0xFFFF] {
            let mut b = o.b.clone();
            make(&mut b, t);
            assert_eq!(refused(&b.bytes()), (7, start));
        }
    };
    refuse7(&|b, t| {
        b.hash(t);
    });
    refuse7(&|b, t| {
        b.signature(t, private);
    });
    refuse7(&|b, t| {
        b.signature(hash, t);
    });
    refuse7(&|b, t| {
        b.attest(t);
    });
    refuse7(&|b, t| {
        b.credential(t, number, public);
    });
    refuse7(&|b, t| {
        b.credential(hash, t, public);
    });
    refuse7(&|b, t| {
        b.credential(hash, number, t);
    });
    refuse7(&|b, t| {
        b.idevid(DEV, 9, t, public);
    });
    refuse7(&|b, t| {
        b.idevid(DEV, 9, certificate, t);
    });
    refuse7(&|b, t| {
        b.ldevid(t, certificate);
    });
    refuse7(&|b, t| {
        b.ldevid(hash, t);
    });
    refuse7(&|b, t| {
        b.certificate(t, DEV, 9, private);
    });
    refuse7(&|b, t| {
        b.certificate(public, DEV, 9, t);
    });
    refuse7(&|b, t| {
        b.pair(t, hash);
    });
    refuse7(&|b, t| {
        b.pair(hash, t);
    });
    refuse7(&|b, t| {
        b.quote_body(1, t, number);
    });
    refuse7(&|b, t| {
        b.quote_body(1, hash, t);
    });
    let mut b = o.b.clone();
    b.hash(own - 1);
    loads(&b.bytes());
}

#[test]
fn kinds_of_fields_of_terms() {
    let o = of_each();
    let start = o.b.bytes().len() as u32;
    let [
        public,
        private,
        hash,
        _,
        _,
        _,
        number,
        _,
        _,
        certificate,
        ..,
    ] = o.of;
    let only = |kind: u8, make: &dyn Fn(&mut Build, u16)| {
        for (index, t) in o.of.iter().enumerate() {
            let mut b = o.b.clone();
            make(&mut b, *t);
            if index as u8 + 0x10 == kind {
                loads(&b.bytes());
            } else {
                assert_eq!(refused(&b.bytes()), (8, start));
            }
        }
    };
    only(0x11, &|b, t| {
        b.signature(number, t);
    });
    only(0x16, &|b, t| {
        b.credential(number, t, public);
    });
    only(0x10, &|b, t| {
        b.credential(number, number, t);
    });
    only(0x19, &|b, t| {
        b.idevid(DEV, 9, t, public);
    });
    only(0x10, &|b, t| {
        b.idevid(DEV, 9, certificate, t);
    });
    only(0x19, &|b, t| {
        b.ldevid(number, t);
    });
    only(0x10, &|b, t| {
        b.certificate(t, DEV, 9, private);
    });
    only(0x11, &|b, t| {
        b.certificate(public, DEV, 9, t);
    });
    only(0x16, &|b, t| {
        b.quote_body(1, hash, t);
    });
    // A 14 of the one public key would be alike, so its kind is seen by 9.
    for (index, t) in o.of.iter().enumerate() {
        let mut b = o.b.clone();
        b.attest(*t);
        let number = if index == 0 { 9 } else { 8 };
        assert_eq!(refused(&b.bytes()), (number, start));
    }
    // Bare fields take any kind; a term alike one of the thirteen is 9.
    let any = |make: &dyn Fn(&mut Build, u16), alike: Option<u16>| {
        for t in o.of {
            let mut b = o.b.clone();
            make(&mut b, t);
            if alike == Some(t) {
                assert_eq!(refused(&b.bytes()), (9, start));
            } else {
                loads(&b.bytes());
            }
        }
    };
    let signature = o.of[3];
    any(
        &|b, t| {
            b.hash(t);
        },
        Some(public),
    );
    any(
        &|b, t| {
            b.signature(t, private);
        },
        Some(hash),
    );
    any(
        &|b, t| {
            b.credential(t, number, public);
        },
        Some(hash),
    );
    any(
        &|b, t| {
            b.ldevid(t, certificate);
        },
        Some(signature),
    );
    any(
        &|b, t| {
            b.pair(t, public);
        },
        None,
    );
    any(
        &|b, t| {
            b.pair(hash, t);
        },
        Some(hash),
    );
    let start_value = o.of[11];
    any(
        &|b, t| {
            b.quote_body(0, t, number);
        },
        Some(start_value),
    );
}

#[test]
fn fields_in_their_order() {
    let o = of_each();
    let start = o.b.bytes().len() as u32;
    let [public, private, hash, ..] = o.of;
    let refuse = |expected, make: &dyn Fn(&mut Build)| {
        let mut b = o.b.clone();
        make(&mut b);
        assert_eq!(refused(&b.bytes()), (expected, start));
    };
    // An earlier 8 before a later 7, an earlier 7 before a later 8.
    refuse(8, &|b| {
        b.certificate(private, 7, 9, 0xFFFF);
    });
    refuse(7, &|b| {
        b.certificate(0xFFFF, 7, 9, public);
    });
    refuse(7, &|b| {
        b.certificate(public, 7, 9, public);
    });
    refuse(8, &|b| {
        b.credential(hash, hash, 0xFFFF);
    });
    refuse(7, &|b| {
        b.idevid(2, 0, hash, hash);
    });
    refuse(7, &|b| {
        b.check(0x39, 1, hash, hash);
    });
    refuse(8, &|b| {
        b.check(0x39, 0, hash, 0xFFFF);
    });
    refuse(8, &|b| {
        b.check_attributes(0, hash, 99);
    });
    refuse(7, &|b| {
        b.issue_iak(0, 1, hash, hash);
    });
    refuse(7, &|b| {
        b.quote_body(24, 0xFFFF, hash);
    });
    refuse(7, &|b| {
        b.quote_body(1, 0xFFFF, hash);
    });
    refuse(8, &|b| {
        b.quote_body(1, hash, hash);
    });
    refuse(7, &|b| {
        b.extend(1, 0, hash);
    });
    refuse(7, &|b| {
        b.extend(0, 24, hash);
    });
    refuse(8, &|b| {
        b.extend(0, 23, hash);
    });
}

#[test]
fn alike_terms() {
    let o = of_each();
    let start = o.b.bytes().len() as u32;
    let whole = o.b.bytes();
    for (index, t) in o.of.iter().enumerate() {
        let place = o.b.place(*t);
        let length = match index as u8 + 0x10 {
            0x10 | 0x11 => 4,
            0x12 | 0x14 | 0x16 => 3,
            0x13 | 0x18 | 0x1A => 5,
            0x15 => 7,
            0x1B => 2,
            0x1C => 6,
            _ => 8,
        };
        let mut file = whole.clone();
        file.extend(&whole[place..place + length]);
        assert_eq!(refused(&file), (9, start));
    }
    // Same id with other attributes, or of another kind, is not alike.
    let mut b = o.b.clone();
    b.public(1, EK);
    b.private(1, EK);
    b.certificate(o.of[0], DEV, 1, o.of[1]);
    b.certificate(o.of[0], TPM, 2, o.of[1]);
    b.start(1);
    b.quote_body(1, o.of[11], o.of[6]);
    loads(&b.bytes());
}

#[test]
fn set_up_fields() {
    let o = of_each();
    let start = o.b.bytes().len() as u32;
    let terms = o.b.terms();
    let [public, private, ..] = o.of;
    for kind in 0..3 {
        let make = |b: &mut Build, party, t| match kind {
            0 => b.give(party, t),
            1 => b.hold(party, t),
            _ => b.desk_key(party, t),
        };
        let good = if kind == 0 { public } else { private };
        for (party, t) in [(1, good), (255, good), (0, terms), (0, 0xFFFF)] {
            let mut b = o.b.clone();
            make(&mut b, party, t);
            assert_eq!(refused(&b.bytes()), (7, start));
        }
        if kind > 0 {
            for t in o.of {
                if t != private {
                    let mut b = o.b.clone();
                    make(&mut b, 0, t);
                    assert_eq!(refused(&b.bytes()), (8, start));
                }
            }
        }
    }
}

#[test]
fn set_up_20() {
    // Only a 10 and a 16 of these; the 19 has no maker's signer.
    let o = of_each();
    let start = o.b.bytes().len() as u32;
    for (index, t) in o.of.iter().enumerate() {
        let mut b = o.b.clone();
        b.give(o.device, *t);
        if matches!(index, 0 | 6) {
            loads(&b.bytes());
            assert!(b.run().knows(o.device, *t));
        } else {
            assert_eq!(refused(&b.bytes()), (10, start));
        }
    }
    // A 19 of a TPM maker's earlier 22, with its public key.
    let mut b = Build::default();
    let maker = b.party(1);
    let oem = b.party(2);
    let key = b.public(1, EK);
    let signer = b.private(2, CA);
    let desk = b.private(3, CA);
    let good = b.certificate(key, TPM, 5, signer);
    let of_device = b.certificate(key, DEV, 5, signer);
    let of_desk = b.certificate(key, TPM, 5, desk);
    b.hold(maker, signer);
    b.hold(oem, desk);
    let mut early = b.clone();
    let place = early.bytes().len() as u32;
    early.give(oem, good);
    early.desk_key(maker, signer);
    assert_eq!(refused(&early.bytes()), (10, place));
    b.desk_key(maker, signer);
    b.desk_key(oem, desk);
    let place = b.bytes().len() as u32;
    for bad in [of_device, of_desk] {
        let mut b = b.clone();
        b.give(oem, bad);
        assert_eq!(refused(&b.bytes()), (10, place));
    }
    b.give(oem, good);
    let ran = b.run();
    assert!(ran.knows(oem, good) && ran.knows(oem, key) && !ran.knows(oem, signer));
    assert!(!ran.knows(maker, good));
}

#[test]
fn set_up_21() {
    let mut b = Build::default();
    let one = b.party(0);
    let two = b.party(1);
    let fixed = b.private(1, 8);
    let loose = b.private(2, 7);
    b.hold(one, fixed);
    b.hold(one, fixed);
    b.hold(one, loose);
    b.hold(two, loose);
    let ran = b.run();
    assert_eq!(ran.term(fixed)[..2], [0, 1]);
    assert_eq!(ran.term(loose)[..2], [0, 3]);
    let place = b.bytes().len() as u32;
    b.hold(two, fixed);
    assert_eq!(refused(&b.bytes()), (11, place));
}

#[test]
fn set_up_22() {
    for role in 0..4 {
        for attributes in 0..16 {
            let mut b = Build::default();
            let party = b.party(role);
            let key = b.private(1, attributes);
            b.hold(party, key);
            let place = b.bytes().len() as u32;
            b.desk_key(party, key);
            if role != 0 && attributes == CA {
                loads(&b.bytes());
            } else {
                assert_eq!(refused(&b.bytes()), (12, place));
            }
        }
    }
    let mut b = Build::default();
    let oem = b.party(2);
    let owner = b.party(3);
    let first = b.private(1, CA);
    let second = b.private(2, CA);
    b.hold(oem, first);
    b.hold(oem, second);
    // Not held by it.
    let mut other = b.clone();
    let place = other.bytes().len() as u32;
    other.desk_key(owner, first);
    assert_eq!(refused(&other.bytes()), (12, place));
    // One each, also the same again.
    b.desk_key(oem, first);
    let place = b.bytes().len() as u32;
    for again in [first, second] {
        let mut b = b.clone();
        b.desk_key(oem, again);
        assert_eq!(refused(&b.bytes()), (12, place));
    }
    // Held only later.
    let mut b = Build::default();
    let oem = b.party(2);
    let key = b.private(1, CA);
    let place = b.bytes().len() as u32;
    b.desk_key(oem, key);
    b.hold(oem, key);
    assert_eq!(refused(&b.bytes()), (12, place));
}

#[test]
fn command_fields() {
    let o = of_each();
    let start = o.b.bytes().len() as u32;
    let terms = o.b.terms();
    let [public, private, hash, signature, attest, ..] = o.of;
    let (credential, number, certificate) = (o.of[5], o.of[6], o.of[9]);
    let _ = (private, attest, number);
    // The kinds of r, and of the party.
    for (kind, r_kind) in [
        (0x30, 0x12),
        (0x31, 0x13),
        (0x33, 0x15),
        (0x34, 0x15),
        (0x35, 0x17),
        (0x36, 0x18),
        (0x37, 0x1A),
        (0x3D, 0x19),
    ] {
        for (index, t) in o.of.iter().enumerate() {
            let mut b = o.b.clone();
            b.act(kind, 0, *t);
            if index as u8 + 0x10 == r_kind {
                loads(&b.bytes());
            } else {
                assert_eq!(refused(&b.bytes()), (8, start));
            }
            let mut b = o.b.clone();
            b.act(kind, 1, *t);
            assert_eq!(refused(&b.bytes()), (7, start));
        }
        let mut b = o.b.clone();
        b.act(kind, 0, terms);
        assert_eq!(refused(&b.bytes()), (7, start));
    }
    // 32 takes a 13 over a 14 alone.
    let mut b = o.b.clone();
    b.act(0x32, 0, signature);
    assert_eq!(refused(&b.bytes()), (8, start));
    let mut b = o.b.clone();
    let over_attest = b.signature(attest, private);
    b.act(0x32, 0, over_attest);
    loads(&b.bytes());
    let mut b = o.b.clone();
    b.act(0x32, 0, attest);
    assert_eq!(refused(&b.bytes()), (8, start));
    // The checks.
    for (kind, first, second) in [
        (0x38, hash, None),
        (0x39, signature, Some(public)),
        (0x3A, certificate, Some(public)),
    ] {
        for t in o.of {
            let mut b = o.b.clone();
            b.check(kind, 0, first, t);
            if second.is_none_or(|only| only == t) {
                loads(&b.bytes());
            } else {
                assert_eq!(refused(&b.bytes()), (8, start));
            }
            let mut b = o.b.clone();
            b.check(kind, 0, t, public);
            if t == first {
                loads(&b.bytes());
            } else {
                assert_eq!(refused(&b.bytes()), (8, start));
            }
        }
        let mut b = o.b.clone();
        b.check(kind, 0, first, terms);
        assert_eq!(refused(&b.bytes()), (7, start));
    }
    for t in o.of {
        let mut b = o.b.clone();
        b.check_attributes(0, t, 15);
        if t == public {
            loads(&b.bytes());
        } else {
            assert_eq!(refused(&b.bytes()), (8, start));
        }
    }
    let mut b = o.b.clone();
    b.check_attributes(0, public, 16);
    assert_eq!(refused(&b.bytes()), (7, start));
    // Send takes any term; both parties must be declared.
    for t in o.of {
        let mut b = o.b.clone();
        b.send(0, 0, t);
        loads(&b.bytes());
    }
    for (party, receiver, t) in [(1, 0, public), (0, 1, public), (0, 0, terms)] {
        let mut b = o.b.clone();
        b.send(party, receiver, t);
        assert_eq!(refused(&b.bytes()), (7, start));
    }
    // Requests take any term; credentials and certificates their kind.
    for t in o.of {
        let mut b = o.b.clone();
        b.challenge(0, t, credential);
        for kind in 0x40..=0x42 {
            b.issue(kind, 0, t, certificate);
        }
        loads(&b.bytes());
        for (kind, only) in [
            (0x3E, credential),
            (0x40, certificate),
            (0x41, certificate),
            (0x42, certificate),
        ] {
            let mut b = o.b.clone();
            b.check(kind, 0, public, t);
            if t == only {
                loads(&b.bytes());
            } else {
                assert_eq!(refused(&b.bytes()), (8, start));
            }
        }
        let mut b = o.b.clone();
        b.issue_iak(0, 0, t, certificate);
        if t == credential {
            loads(&b.bytes());
        } else {
            assert_eq!(refused(&b.bytes()), (8, start));
        }
        let mut b = o.b.clone();
        b.issue_iak(0, 0, credential, t);
        if t == certificate {
            loads(&b.bytes());
        } else {
            assert_eq!(refused(&b.bytes()), (8, start));
        }
    }
    for record in [
        &[0x3E, 0, 0, 13, 0, 0][..],
        &[0x3E, 0, 0, 0, 0, 13],
        &[0x3F, 0, 1, 0, 0, 0, 0],
        &[0x3F, 0, 0, 0, 13, 0, 0],
        &[0x40, 0, 0, 13, 0, 0],
        &[0x40, 0, 0, 0, 0, 13],
        &[0x41, 1, 0, 0, 0, 0],
        &[0x41, 0, 0, 13, 0, 0],
        &[0x41, 0, 0, 0, 0, 13],
        &[0x42, 1, 0, 0, 0, 0],
        &[0x42, 0, 0, 13, 0, 0],
        &[0x42, 0, 0, 0, 0, 13],
        &[0x44, 1, 0, 0, 0],
        &[0x44, 0, 0, 0, 13],
        &[0x45, 1, 0, 0],
        &[0x45, 0, 0, 13],
    ] {
        let mut b = o.b.clone();
        b.raw(record);
        assert_eq!(refused(&b.bytes()), (7, start));
    }
}

#[test]
fn fields_of_pairs() {
    let o = of_each();
    let start = o.b.bytes().len() as u32;
    let terms = o.b.terms();
    let (credential, certificate) = (o.of[5], o.of[9]);
    let good = (credential, certificate);
    let load = |desk, returning, pairs, expected: Option<u32>| {
        let mut b = o.b.clone();
        b.issue_iaks(desk, returning, pairs);
        match expected {
            None => loads(&b.bytes()),
            Some(number) => assert_eq!(refused(&b.bytes()), (number, start)),
        }
    };
    // The parties.
    load(0, 0, [good; 4], None);
    for (desk, returning) in [(1, 0), (0, 1), (255, 255)] {
        load(desk, returning, [good; 4], Some(7));
        load(desk, returning, [EMPTY; 4], Some(7));
    }
    // Empty pairs in each place, also all.
    for full in 0..16 {
        let mut pairs = [EMPTY; 4];
        for (place, pair) in pairs.iter_mut().enumerate() {
            if full >> place & 1 == 1 {
                *pair = good;
            }
        }
        load(0, 0, pairs, None);
    }
    // One pair in each place, the others right or empty.
    let one = |pair, expected| {
        for other in [good, EMPTY] {
            for place in 0..4 {
                let mut pairs = [other; 4];
                pairs[place] = pair;
                load(0, 0, pairs, expected);
            }
        }
    };
    // Each field takes its kind alone; one FFFF alone is no empty pair, and
    // no declared term.
    for t in o.of {
        one((t, certificate), (t != credential).then_some(8));
        one((credential, t), (t != certificate).then_some(8));
        one((t, 0xFFFF), Some(if t == credential { 7 } else { 8 }));
        one((0xFFFF, t), Some(7));
    }
    for t in [terms, 0x00FF, 0xFF00, 0xFFFE] {
        one((t, certificate), Some(7));
        one((credential, t), Some(7));
        one((t, 0xFFFF), Some(7));
        one((0xFFFF, t), Some(7));
        one((t, t), Some(7));
    }
    // The fields of the pairs in their order.
    let public = o.of[0];
    for (first, second, expected) in [
        ((credential, public), (0xFFFF, certificate), 8),
        ((credential, 0xFFFF), (public, public), 7),
        ((0xFFFF, public), (public, public), 7),
        ((public, 0xFFFF), (terms, terms), 8),
        (good, (credential, 0xFFFF), 7),
        (EMPTY, (public, 0xFFFF), 8),
    ] {
        for pairs in [
            [first, second, EMPTY, EMPTY],
            [EMPTY, first, good, second],
            [good, good, first, second],
        ] {
            load(0, 0, pairs, Some(expected));
        }
        // The parties come before.
        load(0, 1, [first, second, EMPTY, EMPTY], Some(7));
        load(1, 0, [first, second, EMPTY, EMPTY], Some(7));
    }
    // FFFF is empty also where there are as many terms as can be; and across
    // two pairs it is not.
    let mut b = o.b.clone();
    for id in 2..=1024 - terms + 1 {
        b.number(id);
    }
    assert_eq!(b.terms(), 1024);
    let full = b.bytes().len() as u32;
    for (pairs, expected) in [
        ([EMPTY; 4], None),
        ([good, EMPTY, good, EMPTY], None),
        ([good, (0xFFFF, certificate), EMPTY, EMPTY], Some(7)),
        (
            [(credential, 0xFFFF), (0xFFFF, certificate), EMPTY, EMPTY],
            Some(7),
        ),
        ([(1023, 0xFFFF), EMPTY, EMPTY, EMPTY], Some(8)),
        ([(1024, 0xFFFF), EMPTY, EMPTY, EMPTY], Some(7)),
    ] {
        let mut b = b.clone();
        b.issue_iaks(0, 0, pairs);
        match expected {
            None => loads(&b.bytes()),
            Some(number) => assert_eq!(refused(&b.bytes()), (number, full)),
        }
    }
    // Anywhere else FFFF is 7.
    let mut b = o.b.clone();
    b.issue_iak(0, 0, 0xFFFF, 0xFFFF);
    assert_eq!(refused(&b.bytes()), (7, start));
}

#[test]
fn commands_past_n_are_scanned_too() {
    let (mut b, _) = honest();
    let place = b.bytes().len() as u32;
    b.raw(&[0x30, 9, 0, 0]);
    assert_eq!(
        b.run_first(0).answer,
        RunAnswer::Refused { number: 7, place }
    );
}

#[test]
fn full_file() {
    // The longest file, and one byte more.
    let mut b = Build::default();
    let device = b.party(0);
    let key = b.public(1, 0);
    let hash = b.hash(key);
    b.give(device, key);
    // 2 + 4 + 3 + 4 = 13 bytes; 5-byte and 4-byte commands fill the rest.
    for _ in 0..3 {
        b.send(device, device, key);
    }
    while b.bytes().len() + 4 <= FILE_BYTES {
        for _ in 0..8 {
            if b.bytes().len() + 4 <= FILE_BYTES {
                b.act(0x30, device, hash);
            }
        }
    }
    let mut file = b.bytes();
    assert_eq!(file.len(), FILE_BYTES);
    let count = b.commands() as u32;
    assert_eq!(
        run_bytes(&file, usize::MAX).answer,
        RunAnswer::Ran {
            accepted: count,
            refused: 0,
            issued: 0
        }
    );
    file.push(0);
    assert_eq!(listing(&file), b"F 2 0\n");
}
