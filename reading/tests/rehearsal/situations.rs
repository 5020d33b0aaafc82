//! The situations of the paper.

use crate::builder::*;
use reading::*;

#[test]
fn empty_file() {
    assert_eq!(listing(&[]), b"T 0 0 0\n");
    assert_eq!(run_bytes(&[], 5).totals(), (0, 0, 0));
}

#[test]
fn example() {
    let file = [
        0x01, 0x00, 0x10, 0x00, 0x05, 0x0B, 0x11, 0x00, 0x05, 0x0B, 0x12, 0x00, 0x00, 0x13, 0x00,
        0x02, 0x00, 0x01, 0x20, 0x00, 0x00, 0x00, 0x30, 0x00, 0x00, 0x02, 0x31, 0x00, 0x00, 0x03,
    ];
    assert_eq!(listing(&file), b"R 1 15\nT 1 1 0\n");
    let ran = run_bytes(&file, 9);
    assert_eq!(ran.term(0), [1, 0, 0, 0, 0, 0, 0, 2]);
    assert_eq!(ran.term(1), [0, 0, 0, 0, 0, 0, 0, 6]);
    assert_eq!(ran.term(2), [1, 1, 0, 0, 0, 0, 0, 10]);
    assert_eq!(ran.term(3), [0, 0, 0, 0, 0, 0, 0, 13]);
    assert!(ran.state[32..].iter().all(|byte| *byte == 0));
}

#[test]
fn honest_iak() {
    let (b, n) = honest();
    assert_eq!(
        b.text(),
        format!("I {} {} 1\nT 9 0 1\n", n.iak_certificate, n.ek_certificate)
    );
    let ran = b.run();
    assert_eq!(ran.totals(), (9, 0, 1));
    assert_eq!(
        ran.ledger[0],
        Entry {
            certificate: n.iak_certificate,
            parent: n.ek_certificate,
            depth: 1
        }
    );
    assert!(ran.ledger[1..].iter().all(|e| *e == Entry::default()));
    assert!(ran.outcomes.iter().all(|o| *o == 0));

    // The desk knows the certificate, the device does not yet.
    assert!(ran.knows(n.oem, n.iak_certificate));
    assert!(!ran.knows(n.device, n.iak_certificate));
    // The number is used, known to desk and device.
    let [number_hi, number_lo] = (b.place(n.number) as u16).to_be_bytes();
    assert_eq!(
        ran.term(n.number),
        [0b0101, 0, 1, 0, 0, 0, number_hi, number_lo]
    );
    // The credential is closed; desk and request stay.
    let [place_hi, place_lo] = (b.place(n.credential) as u16).to_be_bytes();
    let [request_hi, request_lo] = n.request.to_be_bytes();
    assert_eq!(
        ran.term(n.credential),
        [
            0b0101, 0, 3, n.oem, request_hi, request_lo, place_hi, place_lo
        ]
    );
    // Held keys are in the table and known to nobody.
    assert_eq!(ran.term(n.ek_private)[..4], [0, 1, 0, 0]);
    assert_eq!(ran.term(n.oem_private)[..4], [0, 0b0100, 0, 0]);
    // The desk learned all that is in the request.
    for t in [
        n.request,
        n.csr,
        n.csr_signature,
        n.csr_hash,
        n.ek_certificate,
        n.ek,
        n.iak,
    ] {
        assert!(ran.knows(n.oem, t));
    }
    // The table entry of the hash is the device's alone.
    assert_eq!(ran.term(n.csr_hash)[1], 1);
    // Nobody learned the hash within the credential.
    assert_eq!(ran.term(n.iak_hash)[0], 0);
}

#[test]
fn open_credential_after_the_challenge() {
    let (b, n) = honest();
    let ran = b.run_first(6);
    assert_eq!(ran.totals(), (6, 0, 0));
    assert_eq!(ran.term(n.credential)[..4], [0b0100, 0, 2, n.oem]);
    assert_eq!(ran.term(n.number)[..3], [0b0100, 0, 1]);
}

#[test]
fn without_activation() {
    let (mut b, n) = asked();
    b.challenge(n.oem, n.request, n.credential);
    b.send(n.oem, n.device, n.credential);
    let last = b.issue_iak(n.oem, n.device, n.credential, n.iak_certificate);
    assert_eq!(b.outcome(last), 26);
    assert_eq!(b.run().totals(), (7, 1, 0));
    assert_eq!(b.run().term(n.credential)[2], 2);
}

#[test]
fn returned_by_the_desk() {
    let (mut b, n) = asked();
    b.challenge(n.oem, n.request, n.credential);
    b.send(n.oem, n.device, n.credential);
    b.act(0x34, n.device, n.credential);
    let last = b.issue_iak(n.oem, n.oem, n.credential, n.iak_certificate);
    assert_eq!(b.outcome(last), 26);
}

#[test]
fn ek_in_another_tpm() {
    let mut b = Build::default();
    let n = iak_terms(&mut b, AK, EK);
    let other = b.party(0);
    desk_set_up(&mut b, &n);
    b.hold(other, n.ek_private);
    b.hold(n.device, n.iak_private);
    b.give(n.device, n.iak);
    b.give(n.device, n.ek_certificate);
    b.give(n.oem, n.number);
    make_request(&mut b, &n);
    b.challenge(n.oem, n.request, n.credential);
    b.send(n.oem, n.device, n.credential);
    let here = b.act(0x34, n.device, n.credential);
    b.send(n.device, other, n.credential);
    let there = b.act(0x34, other, n.credential);
    let last = b.issue_iak(n.oem, n.device, n.credential, n.iak_certificate);
    assert_eq!(b.outcome(here), 15);
    // The other TPM holds the EK but not the IAK.
    assert_eq!(b.outcome(there), 15);
    assert_eq!(b.outcome(last), 26);
}

#[test]
fn number_used_twice() {
    let (mut b, n) = honest();
    let again = b.challenge(n.oem, n.request, n.credential);
    assert_eq!(b.outcome(again), 24);
    let (mut b, n) = asked();
    b.challenge(n.oem, n.request, n.credential);
    let again = b.challenge(n.oem, n.request, n.credential);
    assert_eq!(b.outcome(again), 24);
}

#[test]
fn same_certificate_by_a_new_challenge() {
    let (mut b, n) = honest();
    let number = b.number(78);
    let credential = b.credential(n.iak_hash, number, n.ek);
    b.give(n.oem, number);
    b.challenge(n.oem, n.request, credential);
    b.send(n.oem, n.device, credential);
    b.act(0x34, n.device, credential);
    let last = b.issue_iak(n.oem, n.device, credential, n.iak_certificate);
    assert_eq!(b.outcome(last), 28);
    let ran = b.run();
    assert_eq!(ran.totals(), (12, 1, 1));
    assert_eq!(ran.term(credential)[2], 2);
}

#[test]
fn depth_eight_and_nine() {
    let (b, n, ordinals, laks) = chain(8);
    let ran = b.run();
    for ordinal in &ordinals[..7] {
        assert_eq!(ran.outcomes[*ordinal], 0);
    }
    assert_eq!(ran.outcomes[ordinals[7]], 29);
    // The last LAK's certificate is not issued, so the desk cannot send it.
    assert_eq!(ran.outcomes[b.commands() - 1], 14);
    let (_, refused, issued) = ran.totals();
    assert_eq!((refused, issued), (2, 8));
    assert_eq!(
        ran.ledger[7],
        Entry {
            certificate: laks[6].certificate,
            parent: laks[5].certificate,
            depth: 8
        }
    );
    assert_eq!(ran.ledger[1].parent, n.iak_certificate);
}

/// The certificates of a path.
fn path_of(b: &Build, certificate: u16) -> Vec<u16> {
    let mut again = b.run();
    let mut list = vec![0; LIST_PLACES];
    let answer = path(
        &b.bytes(),
        usize::MAX,
        &mut again.state,
        &mut again.ledger,
        &mut again.outcomes,
        &mut again.registers,
        certificate,
        &mut list,
    );
    let PathAnswer::Steps(steps) = answer else {
        panic!("{answer:?}")
    };
    list[..=steps as usize].to_vec()
}

#[test]
fn idevid_and_ldevid_of_one_board() {
    // Beside an IAK and a LAK, all four of one Subject.
    let (mut b, n, [lak, idevid, ldevid]) = board();
    let iak = n.iak_certificate;
    let ek = n.ek_certificate;
    assert_eq!(
        b.text(),
        format!(
            "I {iak} {ek} 1\nI {} {iak} 2\nI {} {iak} 2\nI {} {iak} 2\nT 34 0 4\n",
            lak.certificate, idevid.certificate, ldevid.certificate
        )
    );
    let ran = b.run();
    for (a, desk, other) in [(idevid, n.oem, n.owner), (ldevid, n.owner, n.oem)] {
        assert!(ran.knows(desk, a.certificate) && ran.knows(n.device, a.certificate));
        assert!(!ran.knows(other, a.certificate));
        assert_eq!(ran.term(a.certificate)[1..6], [0; 5]);
        assert_eq!(path_of(&b, a.certificate), [a.certificate, iak, ek]);
    }
    // Another LDevID, under the LAK.
    let parent = (lak.private, lak.certificate);
    let (at, deeper) = enrol(&mut b, &n, 0x42, 2000, parent);
    assert_eq!(b.outcome(at), 0);
    let certificates = [deeper.certificate, lak.certificate, iak, ek];
    assert_eq!(path_of(&b, deeper.certificate), certificates);
}

#[test]
fn depths_of_idevid_and_ldevid() {
    let (mut b, n, _, laks) = chain(7);
    for (depth, lak) in (2..).zip(&laks) {
        let parent = (lak.private, lak.certificate);
        let issued = b.run().totals().2 as usize;
        // Under a LAK of that depth: an IDevID never, an LDevID up to 8.
        let (at, _) = enrol(&mut b, &n, 0x41, 2000 + depth, parent);
        assert_eq!(b.outcome(at), 21);
        let (at, ldevid) = enrol(&mut b, &n, 0x42, 3000 + depth, parent);
        if depth == 8 {
            assert_eq!(b.outcome(at), 29);
            continue;
        }
        assert_eq!(b.outcome(at), 0);
        assert_eq!(
            b.run().ledger[issued],
            Entry {
                certificate: ldevid.certificate,
                parent: lak.certificate,
                depth: depth + 1
            }
        );
    }
    // An IDevID stands at depth 2, under each IAK.
    let second = another_iak(&mut b, &n, 500, 200);
    for (id, n) in [(4000, &n), (4001, &second)] {
        let issued = b.run().totals().2 as usize;
        let parent = (n.iak_private, n.iak_certificate);
        let (at, idevid) = enrol(&mut b, n, 0x41, id, parent);
        assert_eq!(b.outcome(at), 0);
        assert_eq!(
            b.run().ledger[issued],
            Entry {
                certificate: idevid.certificate,
                parent: n.iak_certificate,
                depth: 2
            }
        );
    }
}

#[test]
fn hash_of_an_attest_signed_by_a_restricted_key() {
    let mut b = Build::default();
    let device = b.party(0);
    let (public, private) = b.keys(1, AK);
    let attest = b.attest(public);
    let signed = b.signature(attest, private);
    let hash = b.hash(attest);
    let forged = b.signature(hash, private);
    b.hold(device, private);
    b.act(0x32, device, signed);
    b.act(0x30, device, hash);
    let last = b.act(0x31, device, forged);
    let ran = b.run();
    assert_eq!(ran.outcomes[..3], [0, 0, 17]);
    assert!(ran.knows(device, hash));
    assert!(!ran.table(device, hash));
    assert_eq!(b.outcome(last), 17);
}

#[test]
fn many_terms() {
    let mut b = Build::default();
    for id in 0..1024 {
        b.number(id);
    }
    let mut state = vec![1; STATE_BYTES];
    assert_eq!(
        load(&b.bytes(), &mut state),
        LoadAnswer::Loaded {
            parties: 0,
            terms: 1024,
            commands: 0
        }
    );
    assert_eq!(state[8190..], (3 * 1023u16).to_be_bytes());
    b.number(1024);
    assert_eq!(
        load(&b.bytes(), &mut state),
        LoadAnswer::Refused {
            number: 6,
            place: 3072
        }
    );
    assert!(state.iter().all(|byte| *byte == 0));
    assert_eq!(b.text(), "F 6 3072\n");
}

#[test]
fn pair_of_a_term_with_itself() {
    let mut b = Build::default();
    let device = b.party(0);
    let key = b.public(1, 0);
    let pair = b.pair(key, key);
    b.give(device, key);
    b.act(0x37, device, pair);
    assert_eq!(b.text(), "T 1 0 0\n");
}

#[test]
fn slip_matching_keys_by_id_alone() {
    // The device holds a key of the IAK's id with other attributes.
    let mut b = Build::default();
    let device = b.party(0);
    let (_, signer) = b.keys(1, AK);
    let attested = b.public(2, AK);
    let near = b.private(2, CA);
    let attest = b.attest(attested);
    let signed = b.signature(attest, signer);
    b.hold(device, signer);
    b.hold(device, near);
    let certify = b.act(0x32, device, signed);
    assert_eq!(b.outcome(certify), 15);
}

#[test]
fn slip_number_of_another_credential() {
    // Another credential with the same number, made and activated by the
    // device once it knows the number, is not open at the desk.
    let (mut b, n) = asked();
    let other = b.credential(n.csr_hash, n.number, n.ek);
    b.challenge(n.oem, n.request, n.credential);
    b.send(n.oem, n.device, n.credential);
    b.act(0x34, n.device, n.credential);
    let made = b.act(0x33, n.device, other);
    let last = b.issue_iak(n.oem, n.device, other, n.iak_certificate);
    assert_eq!(b.outcome(made), 0);
    assert_eq!(b.outcome(last), 25);
}

#[test]
fn slip_restricted_key_signs_a_private_key() {
    let mut b = Build::default();
    let device = b.party(0);
    let held = b.private(1, AK);
    let other = b.private(2, AK);
    let signed = b.signature(other, held);
    let own = b.signature(held, held);
    b.hold(device, held);
    b.hold(device, other);
    b.act(0x31, device, signed);
    b.act(0x31, device, own);
    assert_eq!(b.run().outcomes[..2], [17, 17]);
}
