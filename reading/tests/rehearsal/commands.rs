//! Device commands and checks, 30 to 3D: refusals 13 to 18.

use crate::builder::*;

/// A device command by each role: 13 unless role 0.
#[test]
fn roles_of_device_commands() {
    for role in 0..4 {
        let mut b = Build::default();
        let party = b.party(role);
        let (public, private) = b.keys(1, CA);
        let (ek, ek_private) = b.keys(2, EK);
        let hash = b.hash(public);
        let signature = b.signature(public, private);
        let attest = b.attest(public);
        let certified = b.signature(attest, private);
        let number = b.number(1);
        let credential = b.credential(hash, number, ek);
        let certificate = b.certificate(public, TPM, 1, private);
        let idevid = b.idevid(DEV, 1, certificate, public);
        let ldevid = b.ldevid(certified, certificate);
        let pair = b.pair(public, number);
        b.hold(party, private);
        b.hold(party, ek_private);
        b.give(party, public);
        b.give(party, ek);
        b.give(party, number);
        for (kind, r) in [
            (0x30, hash),
            (0x31, signature),
            (0x32, certified),
            (0x33, credential),
            (0x34, credential),
            (0x3D, certificate),
            (0x35, idevid),
            (0x36, ldevid),
            (0x37, pair),
        ] {
            b.act(kind, party, r);
        }
        let expected = if role == 0 { 0 } else { 13 };
        let ran = b.run();
        assert_eq!(ran.outcomes[..9], [expected; 9]);
        // A refused command changes nothing.
        if role != 0 {
            assert_eq!(ran.state, b.run_first(0).state);
        } else {
            assert!(ran.knows(party, pair) && ran.knows(party, attest));
        }
    }
}

#[test]
fn hash() {
    let mut b = Build::default();
    let device = b.party(0);
    let known = b.public(1, 0);
    let unknown = b.public(2, 0);
    let of_known = b.hash(known);
    let of_unknown = b.hash(unknown);
    let of_hash = b.hash(of_known);
    b.give(device, known);
    b.act(0x30, device, of_unknown);
    b.act(0x30, device, of_hash);
    b.act(0x30, device, of_known);
    b.act(0x30, device, of_hash);
    b.act(0x30, device, of_known);
    let ran = b.run();
    assert_eq!(ran.outcomes[..5], [14, 14, 0, 0, 0]);
    assert!(ran.knows(device, of_known) && ran.table(device, of_known));
    assert!(!ran.knows(device, of_unknown) && !ran.table(device, of_unknown));
}

#[test]
fn sign_with_a_key_not_restricted() {
    for attributes in [0, 2, 4, 8, 10, 14] {
        let mut b = Build::default();
        let device = b.party(0);
        let key = b.private(1, attributes);
        let known = b.number(1);
        let unknown = b.number(2);
        let good = b.signature(known, key);
        let bad = b.signature(unknown, key);
        b.give(device, known);
        let mut held = b.clone();
        held.hold(device, key);
        for b in [&mut b, &mut held] {
            b.act(0x31, device, good);
            b.act(0x31, device, bad);
        }
        // 14 before 15 before 16.
        assert_eq!(b.run().outcomes[..2], [15, 14]);
        let sign = if attributes & 2 != 0 { 0 } else { 16 };
        assert_eq!(held.run().outcomes[..2], [sign, 14]);
    }
}

#[test]
fn sign_with_a_restricted_key() {
    for attributes in [1, 3, 5, 11] {
        let mut b = Build::default();
        let device = b.party(0);
        let other = b.party(0);
        let key = b.private(1, attributes);
        let plain = b.number(1);
        let own = b.hash(plain);
        let number = b.number(2);
        let foreign = b.hash(number);
        let never = b.hash(own);
        let messages = [plain, own, foreign, never];
        let signed: Vec<u16> = messages.iter().map(|m| b.signature(*m, key)).collect();
        b.give(device, plain);
        b.give(other, number);
        let mut held = b.clone();
        held.hold(device, key);
        for b in [&mut b, &mut held] {
            b.act(0x30, device, own);
            b.act(0x30, other, foreign);
            b.send(other, device, foreign);
            for r in &signed {
                b.act(0x31, device, *r);
            }
        }
        assert_eq!(b.run().outcomes[..7], [0, 0, 0, 15, 15, 15, 15]);
        let expected = if attributes & 2 != 0 {
            // A known non-hash, an own hash, a known foreign hash, a hash
            // that is not even known.
            [17, 0, 17, 17]
        } else {
            [16; 4]
        };
        assert_eq!(held.run().outcomes[3..7], expected);
    }
}

#[test]
fn certify() {
    let mut b = Build::default();
    let device = b.party(0);
    let other = b.party(0);
    let (_, signer) = b.keys(1, AK);
    let (_, no_sign) = b.keys(2, EK);
    let (here, here_private) = b.keys(3, EK);
    let (there, there_private) = b.keys(4, AK);
    let lone = b.public(5, AK);
    let unheld = b.private(6, AK);
    let attests: Vec<u16> = [here, there, lone].iter().map(|k| b.attest(*k)).collect();
    let mut rs = Vec::new();
    for key in [signer, no_sign, unheld] {
        for attest in &attests {
            rs.push(b.signature(*attest, key));
        }
    }
    b.hold(device, signer);
    b.hold(device, no_sign);
    b.hold(device, here_private);
    b.hold(other, there_private);
    for r in &rs {
        b.act(0x32, device, *r);
    }
    let ran = b.run();
    assert_eq!(ran.outcomes[..9], [0, 15, 15, 16, 15, 15, 15, 15, 15]);
    // The attested key need not sign, nor be known; now it is.
    assert!(ran.knows(device, rs[0]) && ran.knows(device, attests[0]) && ran.knows(device, here));
    assert!(!ran.knows(device, there));
}

#[test]
fn make_credential() {
    for missing in 0..4 {
        let mut b = Build::default();
        let device = b.party(0);
        let name = b.public(1, AK);
        let number = b.number(1);
        let key = b.public(2, EK);
        let r = b.credential(name, number, key);
        for (index, t) in [name, number, key].iter().enumerate() {
            if index != missing {
                b.give(device, *t);
            }
        }
        let made = b.act(0x33, device, r);
        let expected = if missing == 3 { 0 } else { 14 };
        assert_eq!(b.outcome(made), expected);
        assert_eq!(b.run().knows(device, r), missing == 3);
        // No mark: it is not open, its number not used.
        assert_eq!(b.run().term(r)[2..6], [0; 4]);
        assert_eq!(b.run().term(number)[2..6], [0; 4]);
    }
}

#[test]
fn activate_credential() {
    // A maker of credentials sends them to the device.
    for ek_attributes in 0..16 {
        let mut b = Build::default();
        let device = b.party(0);
        let maker = b.party(0);
        let (ek, ek_private) = b.keys(1, ek_attributes);
        let (iak, iak_private) = b.keys(2, AK);
        let lone = b.public(3, AK);
        let number = b.number(1);
        let iak_hash = b.hash(iak);
        let lone_hash = b.hash(lone);
        let private_hash = b.hash(iak_private);
        let number_hash = b.hash(number);
        let good = b.credential(iak_hash, number, ek);
        let none_held = b.credential(lone_hash, number, ek);
        let no_hash = b.credential(iak, number, ek);
        let of_number = b.credential(number_hash, number, ek);
        let of_private = b.credential(private_hash, number, ek);
        let other_key = b.credential(iak_hash, number, lone);
        for t in [ek, iak, lone, number] {
            b.give(maker, t);
        }
        b.hold(device, ek_private);
        b.hold(device, iak_private);
        for h in [iak_hash, lone_hash, number_hash] {
            b.act(0x30, maker, h);
        }
        let before = b.commands();
        for r in [none_held, no_hash, of_number, other_key] {
            b.act(0x33, maker, r);
            b.act(0x34, device, r);
            b.send(maker, device, r);
            b.act(0x34, device, r);
        }
        b.act(0x34, device, of_private);
        b.act(0x33, maker, good);
        b.send(maker, device, good);
        b.act(0x34, device, good);
        let ran = b.run();
        for index in 0..4 {
            let at = before + 4 * index;
            assert_eq!(ran.outcomes[at..at + 4], [0, 14, 0, 15]);
        }
        let at = before + 16;
        let last = if ek_attributes & 5 == 5 { 0 } else { 16 };
        assert_eq!(ran.outcomes[at..at + 4], [14, 0, 0, last]);
        assert_eq!(ran.knows(device, number), last == 0);
        assert!(!ran.knows(device, iak_hash) && !ran.knows(device, ek));
    }
}

#[test]
fn requests_and_pairs() {
    let mut b = Build::default();
    let n = iak_terms(&mut b, AK, EK);
    let attest = b.attest(n.iak);
    let signed = b.signature(attest, n.iak_private);
    let ldevid = b.ldevid(signed, n.ek_certificate);
    let pair = b.pair(signed, n.number);
    desk_set_up(&mut b, &n);
    b.hold(n.device, n.iak_private);
    let mut with_key = b.clone();
    with_key.give(n.device, n.iak);
    with_key.act(0x35, n.device, n.csr);
    assert_eq!(with_key.run().outcomes[0], 14);
    b.give(n.device, n.ek_certificate);
    let first = b.act(0x35, n.device, n.csr);
    b.act(0x36, n.device, ldevid);
    b.act(0x37, n.device, pair);
    b.act(0x32, n.device, signed);
    // The 32 made the public IAK known.
    b.act(0x35, n.device, n.csr);
    b.act(0x36, n.device, ldevid);
    b.act(0x37, n.device, pair);
    b.send(n.device, n.device, pair);
    assert_eq!(first, 0);
    assert_eq!(b.run().outcomes[..8], [14, 14, 14, 0, 0, 0, 14, 14]);
}

#[test]
fn send() {
    for role in 0..4 {
        let mut b = Build::default();
        let party = b.party(role);
        let receiver = b.party(1);
        let helper = b.party(0);
        let key = b.public(1, 0);
        let hidden = b.public(2, 0);
        let private = b.private(3, 2);
        let number = b.number(1);
        let hash = b.hash(key);
        let signature = b.signature(key, private);
        let credential = b.credential(key, number, key);
        let certificate = b.certificate(key, DEV, 1, private);
        let pair = b.pair(key, number);
        b.hold(helper, private);
        b.give(helper, key);
        b.give(helper, number);
        for (kind, r) in [
            (0x30, hash),
            (0x31, signature),
            (0x33, credential),
            (0x3D, certificate),
            (0x37, pair),
        ] {
            b.act(kind, helper, r);
        }
        for t in [hash, signature, credential, certificate, pair] {
            b.send(helper, party, t);
        }
        let start = b.commands();
        let all = [
            key,
            credential,
            certificate,
            number,
            hash,
            signature,
            pair,
            hidden,
            private,
        ];
        for t in all {
            b.send(party, receiver, t);
        }
        let ran = b.run();
        assert_eq!(ran.outcomes[..start], vec![0; start]);
        let expected = match role {
            0 => [0, 0, 0, 0, 0, 0, 0, 14, 14],
            1 => [13; 9],
            _ => [0, 0, 0, 13, 13, 13, 13, 14, 13],
        };
        assert_eq!(ran.outcomes[start..start + 9], expected);
        for (t, outcome) in all.iter().zip(expected) {
            assert_eq!(ran.knows(receiver, *t), outcome == 0, "term {t}");
        }
        // Sending enters no TPM table.
        assert!(!ran.table(receiver, hash) && !ran.table(party, hash));
    }
}

#[test]
fn learning_opens_all_parts() {
    let (b, n, ordinals, laks) = chain(1);
    let ran = b.run_first(ordinals[0]);
    let l = &laks[0];
    for t in [
        l.request,
        l.csr,
        l.csr_signature,
        l.csr_hash,
        l.signed_attest,
        l.attest,
        l.public,
        n.iak_certificate,
        n.iak,
    ] {
        assert!(ran.knows(n.owner, t), "term {t}");
    }
    for t in [
        l.private,
        n.iak_private,
        n.oem_private,
        n.ek_certificate,
        n.ek,
        n.csr,
    ] {
        assert!(!ran.knows(n.owner, t), "term {t}");
    }
}

#[test]
fn self_issue() {
    for attributes in 0..16 {
        let mut b = Build::default();
        let device = b.party(0);
        let signer = b.private(1, attributes);
        let known = b.public(2, 0);
        let unknown = b.public(3, 0);
        let good = b.certificate(known, DEV, 1, signer);
        let bad = b.certificate(unknown, TPM, 1, signer);
        b.give(device, known);
        let mut held = b.clone();
        held.hold(device, signer);
        for b in [&mut b, &mut held] {
            b.act(0x3D, device, good);
            b.act(0x3D, device, bad);
        }
        assert_eq!(b.run().outcomes[..2], [15, 14]);
        let expected = if attributes & 3 == 2 { 0 } else { 16 };
        let ran = held.run();
        assert_eq!(ran.outcomes[..2], [expected, 14]);
        assert_eq!(ran.knows(device, good), expected == 0);
        assert_eq!(ran.totals().2, 0);
    }
}

#[test]
fn checks() {
    for role in 0..4 {
        let mut b = Build::default();
        let party = b.party(role);
        let helper = b.party(0);
        let (key, private) = b.keys(1, 2);
        let near = b.public(1, 3);
        let hidden = b.public(9, 2);
        let hash = b.hash(key);
        let other_hash = b.hash(near);
        let signature = b.signature(key, private);
        let certificate = b.certificate(key, DEV, 1, private);
        let secret = b.certificate(near, DEV, 1, private);
        b.hold(helper, private);
        for t in [key, near] {
            b.give(helper, t);
            b.give(party, t);
        }
        for (kind, r) in [
            (0x30, hash),
            (0x30, other_hash),
            (0x31, signature),
            (0x3D, certificate),
            (0x3D, secret),
        ] {
            b.act(kind, helper, r);
        }
        for t in [hash, signature, certificate] {
            b.send(helper, party, t);
        }
        let start = b.commands();
        let before = b.run();
        b.check(0x38, party, hash, key);
        b.check(0x38, party, hash, near);
        b.check(0x38, party, other_hash, near);
        b.check(0x38, party, hash, hidden);
        b.check(0x39, party, signature, key);
        b.check(0x39, party, signature, near);
        b.check(0x39, party, signature, hidden);
        b.check(0x3A, party, certificate, key);
        b.check(0x3A, party, certificate, near);
        b.check(0x3A, party, certificate, hidden);
        b.check(0x3A, party, secret, key);
        b.check_attributes(party, key, 2);
        b.check_attributes(party, key, 3);
        b.check_attributes(party, key, 0);
        b.check_attributes(party, hidden, 2);
        let expected = [0, 18, 14, 14, 0, 18, 14, 0, 18, 14, 14, 0, 18, 18, 14];
        let expected = expected.map(|e| if role == 1 { 13 } else { e });
        let ran = b.run();
        assert_eq!(ran.outcomes[start..start + 15], expected, "role {role}");
        assert_eq!(ran.state, before.state);
        assert_eq!(ran.ledger, before.ledger);
    }
}
