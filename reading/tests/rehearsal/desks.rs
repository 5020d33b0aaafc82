//! Desk commands, 3E to 42: refusals 13 to 29 but 22, and 31.
//!
//! 22 is no refusal any more. A 40, 41 or 42 whose parent is not in the ledger
//! is 14 or 21 at the latest: a 19 signed by a desk's key first becomes known
//! by an accepted 3F, 40, 41, 42 or 43, which puts it in the ledger.

use crate::builder::*;

#[test]
fn challenge_role() {
    for role in [0, 1, 3] {
        let (mut b, n) = asked();
        let party = b.party(role);
        b.send(n.device, party, n.request);
        let last = b.challenge(party, n.request, n.credential);
        refused_cleanly(&b, last, 13);
    }
    // 13 even when nothing else is right.
    let (mut b, n) = asked();
    let last = b.challenge(n.owner, n.iak, n.credential);
    refused_cleanly(&b, last, 13);
}

#[test]
fn challenge_request_not_known() {
    let mut b = Build::default();
    let n = iak_terms(&mut b, AK, EK);
    desk_set_up(&mut b, &n);
    device_set_up(&mut b, &n);
    let first = b.challenge(n.oem, n.request, n.credential);
    let formless = b.challenge(n.oem, n.iak_hash, n.credential);
    refused_cleanly(&b, first, 14);
    refused_cleanly(&b, formless, 14);
}

#[test]
fn challenge_form() {
    let (mut b, n) = asked();
    let swapped = b.pair(n.csr_signature, n.csr);
    let alone = b.pair(n.csr, n.csr);
    let tpm_csr = b.idevid(TPM, 200, n.ek_certificate, n.iak);
    let tpm_hash = b.hash(tpm_csr);
    let tpm_signature = b.signature(tpm_hash, n.iak_private);
    let tpm_request = b.pair(tpm_csr, tpm_signature);
    let plain = b.private(50, 2);
    let over_csr = b.signature(n.csr, plain);
    let over_csr_request = b.pair(n.csr, over_csr);
    b.hold(n.device, plain);
    for (kind, r) in [
        (0x37, swapped),
        (0x37, alone),
        (0x35, tpm_csr),
        (0x30, tpm_hash),
        (0x31, tpm_signature),
        (0x37, tpm_request),
        (0x31, over_csr),
        (0x37, over_csr_request),
    ] {
        let at = b.act(kind, n.device, r);
        assert_eq!(b.outcome(at), 0);
    }
    for request in [swapped, alone, tpm_request, over_csr_request] {
        b.send(n.device, n.oem, request);
        let last = b.challenge(n.oem, request, n.credential);
        refused_cleanly(&b, last, 19);
    }
    for request in [n.csr, n.csr_signature, n.iak] {
        let last = b.challenge(n.oem, request, n.credential);
        refused_cleanly(&b, last, 19);
    }
}

#[test]
fn challenge_hash_and_signature() {
    let (mut b, n) = asked();
    // The 12 hashes another 17; the 13 is by another key, also one of the
    // same id.
    let other_csr = b.idevid(DEV, 201, n.ek_certificate, n.iak);
    let mixed = b.pair(other_csr, n.csr_signature);
    let other = b.private(50, AK);
    let near = b.private(2, CA);
    let by_other = b.signature(n.csr_hash, other);
    let by_near = b.signature(n.csr_hash, near);
    let other_request = b.pair(n.csr, by_other);
    let near_request = b.pair(n.csr, by_near);
    b.hold(n.device, other);
    b.hold(n.device, near);
    for (kind, r) in [
        (0x35, other_csr),
        (0x37, mixed),
        (0x31, by_other),
        (0x31, by_near),
        (0x37, other_request),
        (0x37, near_request),
    ] {
        let at = b.act(kind, n.device, r);
        assert_eq!(b.outcome(at), 0);
    }
    for request in [mixed, other_request, near_request] {
        b.send(n.device, n.oem, request);
        let last = b.challenge(n.oem, request, n.credential);
        refused_cleanly(&b, last, 20);
    }
}

/// A challenge on a 17 with another certificate, which the device makes by a
/// 3D, or learns in some other way.
fn challenge_with_certificate(what: u8, by_desk: bool) -> u8 {
    let mut b = Build::default();
    let n = iak_terms(&mut b, AK, EK);
    let own = b.private(60, 2);
    let signer = if by_desk { n.oem_private } else { own };
    let certificate = b.certificate(n.ek, what, 100, signer);
    let csr = b.idevid(DEV, 200, certificate, n.iak);
    let hash = b.hash(csr);
    let signature = b.signature(hash, n.iak_private);
    let request = b.pair(csr, signature);
    desk_set_up(&mut b, &n);
    device_set_up(&mut b, &n);
    b.hold(n.device, own);
    b.act(0x3D, n.device, certificate);
    b.act(0x35, n.device, csr);
    b.act(0x30, n.device, hash);
    b.act(0x31, n.device, signature);
    b.act(0x37, n.device, request);
    b.send(n.device, n.oem, request);
    let last = b.challenge(n.oem, request, n.credential);
    b.outcome(last)
}

#[test]
fn challenge_certificate() {
    assert_eq!(challenge_with_certificate(TPM, false), 21);
    assert_eq!(challenge_with_certificate(DEV, false), 21);
    // A desk's key cannot self-issue, so the request is never known.
    assert_eq!(challenge_with_certificate(DEV, true), 14);
    // The issued IAK certificate in a 17: a desk's key, a device's Subject.
    let (mut b, n) = honest();
    let csr = b.idevid(DEV, 200, n.iak_certificate, n.iak);
    let hash = b.hash(csr);
    let signature = b.signature(hash, n.iak_private);
    let request = b.pair(csr, signature);
    let number = b.number(78);
    let credential = b.credential(n.iak_hash, number, n.iak);
    b.give(n.oem, number);
    b.send(n.oem, n.device, n.iak_certificate);
    b.act(0x35, n.device, csr);
    b.act(0x30, n.device, hash);
    b.act(0x31, n.device, signature);
    b.act(0x37, n.device, request);
    b.send(n.device, n.oem, request);
    let last = b.challenge(n.oem, request, credential);
    refused_cleanly(&b, last, 21);
}

#[test]
fn challenge_attributes() {
    for attributes in 0..16 {
        // IAKs: those that cannot sign are refused before the desk.
        let mut b = Build::default();
        let n = iak_terms(&mut b, attributes, EK);
        desk_set_up(&mut b, &n);
        device_set_up(&mut b, &n);
        make_request(&mut b, &n);
        let last = b.challenge(n.oem, n.request, n.credential);
        let expected = match attributes {
            AK => 0,
            _ if attributes & 2 == 0 => 14,
            _ => 23,
        };
        assert_eq!(b.outcome(last), expected, "IAK {attributes:x}");
        // EKs.
        let mut b = Build::default();
        let n = iak_terms(&mut b, AK, attributes);
        desk_set_up(&mut b, &n);
        device_set_up(&mut b, &n);
        make_request(&mut b, &n);
        let last = b.challenge(n.oem, n.request, n.credential);
        let expected = if attributes == EK { 0 } else { 23 };
        assert_eq!(b.outcome(last), expected, "EK {attributes:x}");
    }
}

#[test]
fn challenge_number() {
    // Not known to the desk, known to the desk and another, known to another
    // alone, known to nobody: 24, never 14.
    for (desk, other, expected) in [
        (true, false, 0),
        (true, true, 24),
        (false, true, 24),
        (false, false, 24),
    ] {
        let (mut b, n) = asked();
        let number = b.number(78);
        let credential = b.credential(n.iak_hash, number, n.ek);
        if desk {
            b.give(n.oem, number);
        }
        if other {
            b.give(n.maker, number);
        }
        let last = b.challenge(n.oem, n.request, credential);
        assert_eq!(b.outcome(last), expected);
        if expected != 0 {
            refused_cleanly(&b, last, expected);
        }
    }
}

#[test]
fn challenge_result() {
    let (mut b, n) = asked();
    let ek_hash = b.hash(n.ek);
    let wrong_hash = b.credential(ek_hash, n.number, n.ek);
    let wrong_key = b.credential(n.iak_hash, n.number, n.iak);
    let no_hash = b.credential(n.iak, n.number, n.ek);
    for r in [wrong_hash, wrong_key, no_hash] {
        let last = b.challenge(n.oem, n.request, r);
        refused_cleanly(&b, last, 27);
    }
    // 24 before 27.
    let number = b.number(78);
    let both = b.credential(ek_hash, number, n.ek);
    let last = b.challenge(n.oem, n.request, both);
    refused_cleanly(&b, last, 24);
    // The right one is still accepted after all.
    let last = b.challenge(n.oem, n.request, n.credential);
    assert_eq!(b.outcome(last), 0);
}

#[test]
fn issue_iak_role() {
    let (b, n) = asked();
    for party in [n.device, n.maker, n.owner] {
        let mut b = b.clone();
        b.challenge(n.oem, n.request, n.credential);
        b.send(n.oem, n.device, n.credential);
        b.act(0x34, n.device, n.credential);
        let last = b.issue_iak(party, n.device, n.credential, n.iak_certificate);
        refused_cleanly(&b, last, 13);
    }
}

#[test]
fn issue_iak_credential() {
    // Never opened.
    let (mut b, n) = asked();
    let last = b.issue_iak(n.oem, n.device, n.credential, n.iak_certificate);
    refused_cleanly(&b, last, 25);
    // Closed already, though the certificate is also issued already.
    let (mut b, n) = honest();
    let last = b.issue_iak(n.oem, n.device, n.credential, n.iak_certificate);
    refused_cleanly(&b, last, 25);
    // Open at another desk.
    let (mut b, n) = asked();
    let second = b.party(2);
    let key = b.private(70, CA);
    let certificate = b.certificate(n.iak, DEV, 200, key);
    b.hold(second, key);
    b.desk_key(second, key);
    b.challenge(n.oem, n.request, n.credential);
    b.send(n.oem, n.device, n.credential);
    b.send(n.oem, second, n.credential);
    b.act(0x34, n.device, n.credential);
    let last = b.issue_iak(second, n.device, n.credential, certificate);
    refused_cleanly(&b, last, 25);
    let last = b.issue_iak(n.oem, n.device, n.credential, n.iak_certificate);
    assert_eq!(b.outcome(last), 0);
}

#[test]
fn issue_iak_returning_party() {
    let (mut b, n) = asked();
    let bystander = b.party(0);
    b.challenge(n.oem, n.request, n.credential);
    b.send(n.oem, n.device, n.credential);
    b.act(0x34, n.device, n.credential);
    b.send(n.device, n.owner, n.number);
    for party in [bystander, n.maker, n.oem, n.owner] {
        let last = b.issue_iak(n.oem, party, n.credential, n.iak_certificate);
        refused_cleanly(&b, last, 26);
    }
    // Any device that knows the number may return it.
    b.send(n.device, bystander, n.number);
    let last = b.issue_iak(n.oem, bystander, n.credential, n.iak_certificate);
    assert_eq!(b.outcome(last), 0);
}

#[test]
fn issue_iak_result() {
    let (mut b, n) = asked();
    let wrong_key = b.certificate(n.ek, DEV, 200, n.oem_private);
    let wrong_number = b.certificate(n.iak, DEV, 201, n.oem_private);
    let wrong_subject = b.certificate(n.iak, TPM, 200, n.oem_private);
    let wrong_signer = b.certificate(n.iak, DEV, 200, n.owner_private);
    b.challenge(n.oem, n.request, n.credential);
    b.send(n.oem, n.device, n.credential);
    let early = b.issue_iak(n.oem, n.device, n.credential, wrong_key);
    b.act(0x34, n.device, n.credential);
    // 26 before 27.
    refused_cleanly(&b, early, 26);
    for r in [
        wrong_key,
        wrong_number,
        wrong_subject,
        wrong_signer,
        n.ek_certificate,
    ] {
        let last = b.issue_iak(n.oem, n.device, n.credential, r);
        refused_cleanly(&b, last, 27);
    }
    let last = b.issue_iak(n.oem, n.device, n.credential, n.iak_certificate);
    assert_eq!(b.outcome(last), 0);
}

#[test]
fn issue_iak_by_a_desk_without_a_key() {
    let mut b = Build::default();
    let n = iak_terms(&mut b, AK, EK);
    b.hold(n.maker, n.maker_private);
    b.desk_key(n.maker, n.maker_private);
    b.hold(n.oem, n.oem_private);
    device_set_up(&mut b, &n);
    make_request(&mut b, &n);
    finish_iak(&mut b, &n);
    let ran = b.run();
    assert_eq!(ran.outcomes[..9], [0, 0, 0, 0, 0, 0, 0, 0, 27]);
}

#[test]
fn issued_certificate_called_for_is_27_before_28() {
    let (mut b, n) = honest();
    let number = b.number(78);
    let credential = b.credential(n.iak_hash, number, n.ek);
    let csr = b.idevid(DEV, 300, n.ek_certificate, n.iak);
    let hash = b.hash(csr);
    let signature = b.signature(hash, n.iak_private);
    let request = b.pair(csr, signature);
    let second = b.certificate(n.iak, DEV, 300, n.oem_private);
    b.give(n.oem, number);
    b.act(0x35, n.device, csr);
    b.act(0x30, n.device, hash);
    b.act(0x31, n.device, signature);
    b.act(0x37, n.device, request);
    b.send(n.device, n.oem, request);
    b.challenge(n.oem, request, credential);
    b.send(n.oem, n.device, credential);
    b.act(0x34, n.device, credential);
    // Issued already, but not the one that this request calls for.
    let last = b.issue_iak(n.oem, n.device, credential, n.iak_certificate);
    refused_cleanly(&b, last, 27);
    // The same IAK for another Subject is another certificate.
    let last = b.issue_iak(n.oem, n.device, credential, second);
    assert_eq!(b.outcome(last), 0);
    assert_eq!(b.run().totals().2, 2);
}

#[test]
fn one_subject_two_boards() {
    let (mut b, n, second, at) = two_boards();
    refused_cleanly(&b, at, 31);
    // The certificate is not issued, so the desk cannot send it.
    assert_eq!(
        b.text(),
        format!(
            "R {at} 31\nR {} 14\nI {} {} 1\nT 17 2 1\n",
            at + 1,
            n.iak_certificate,
            n.ek_certificate
        )
    );
    let ran = b.run();
    // The credential stays open, and a later 3F gets no further.
    assert_eq!(ran.term(second.credential)[2], 2);
    let again = b.issue_iak(
        n.oem,
        second.device,
        second.credential,
        second.iak_certificate,
    );
    refused_cleanly(&b, again, 31);
    // Nor does it help that the first board returns the number.
    b.send(second.device, n.device, second.number);
    let again = b.issue_iak(n.oem, n.device, second.credential, second.iak_certificate);
    refused_cleanly(&b, again, 31);
    // The first board keeps the Subject, the second may have another.
    for (board, id, who, expected) in [
        (&n, 501, 200, 0),
        (&second, 502, 201, 0),
        (&second, 503, 201, 0),
        (&n, 504, 201, 31),
        (&second, 505, 200, 31),
        (&n, 506, 202, 0),
        (&second, 507, 202, 31),
    ] {
        another_iak(&mut b, board, id, who);
        assert_eq!(b.outcome(last_iak(&b)), expected, "{id}");
    }
    assert_eq!(b.run().totals().2, 5);
}

#[test]
fn the_first_board_issued_has_the_subject() {
    // Both boards are challenged before either has its certificate: 3E does
    // not look at the ledger's Subjects, and an open credential has none.
    for second_first in [false, true] {
        let (mut b, n) = asked();
        let second = another_board(&mut b, &n, 11, 101);
        let second = another_iak_terms(&mut b, &second, 500, 200);
        make_request(&mut b, &second);
        let mut boards = [n, second];
        for n in &boards {
            let at = b.challenge(n.oem, n.request, n.credential);
            assert_eq!(b.outcome(at), 0);
            b.send(n.oem, n.device, n.credential);
            b.act(0x34, n.device, n.credential);
        }
        if second_first {
            boards.reverse();
        }
        for (n, expected) in boards.iter().zip([0, 31]) {
            let at = b.issue_iak(n.oem, n.device, n.credential, n.iak_certificate);
            assert_eq!(b.outcome(at), expected);
        }
    }
}

#[test]
fn one_ek_key_by_two_certificates() {
    // Another TPM Subject, or another maker.
    let (mut b, n) = honest();
    let maker = b.party(1);
    let key = b.private(70, CA);
    b.hold(maker, key);
    b.desk_key(maker, key);
    let by_subject = b.certificate(n.ek, TPM, 101, n.maker_private);
    let by_maker = b.certificate(n.ek, TPM, 100, key);
    for (id, ek_certificate) in [(500, by_subject), (501, by_maker)] {
        b.give(n.device, ek_certificate);
        let n = Names {
            ek_certificate,
            ..n.clone()
        };
        let issued = b.run().totals().2 as usize;
        let other = another_iak(&mut b, &n, id, 200);
        assert_eq!(b.outcome(last_iak(&b)), 0);
        let entry = b.run().ledger[issued];
        assert_eq!(entry.certificate, other.iak_certificate);
        assert_eq!(entry.parent, ek_certificate);
    }
}

#[test]
fn two_ek_keys_in_one_tpm() {
    // Also with the TPM Subject of the first.
    for who in [100, 101] {
        let (mut b, n) = honest();
        let second = another_ek(&mut b, &n, 11, who);
        another_iak(&mut b, &second, 500, 200);
        let at = last_iak(&b);
        refused_cleanly(&b, at, 31);
        another_iak(&mut b, &second, 501, 201);
        assert_eq!(b.outcome(last_iak(&b)), 0);
    }
}

#[test]
fn tpm_subjects_may_repeat() {
    // Two boards whose EK certificates have one Subject, and a TPM Subject
    // with the number of a device's.
    for who in [100, 200] {
        let (mut b, n) = honest();
        let second = another_board(&mut b, &n, 11, who);
        another_iak(&mut b, &second, 500, 201);
        assert_eq!(b.outcome(last_iak(&b)), 0);
        another_iak(&mut b, &second, 501, 200);
        let at = last_iak(&b);
        refused_cleanly(&b, at, 31);
        another_iak(&mut b, &n, 502, who);
        assert_eq!(b.outcome(last_iak(&b)), 0);
    }
}

#[test]
fn one_subject_at_two_oem_desks() {
    // The ledger is one for all desks.
    let (mut b, n) = honest();
    let oem = b.party(2);
    let oem_private = b.private(70, CA);
    b.hold(oem, oem_private);
    b.desk_key(oem, oem_private);
    let n = Names {
        oem,
        oem_private,
        ..n
    };
    let second = another_board(&mut b, &n, 11, 101);
    another_iak(&mut b, &second, 500, 200);
    let at = last_iak(&b);
    refused_cleanly(&b, at, 31);
    another_iak(&mut b, &n, 501, 200);
    assert_eq!(b.outcome(last_iak(&b)), 0);
}

#[test]
fn one_subject_over_long_paths() {
    // Entries of every family and depth have the Subject.
    let (mut b, n, _, laks) = chain(7);
    let iak = (n.iak_private, n.iak_certificate);
    let lak = (laks[5].private, laks[5].certificate);
    for (kind, id, parent) in [(0x41, 2000, iak), (0x42, 2001, iak), (0x42, 2002, lak)] {
        let (at, _) = enrol(&mut b, &n, kind, id, parent);
        assert_eq!(b.outcome(at), 0);
    }
    let second = another_board(&mut b, &n, 11, 101);
    another_iak(&mut b, &second, 500, 200);
    let at = last_iak(&b);
    refused_cleanly(&b, at, 31);
    another_iak(&mut b, &n, 501, 200);
    assert_eq!(b.outcome(last_iak(&b)), 0);
    assert_eq!(b.run().totals().2, 12);
}

#[test]
fn refusals_before_31() {
    // 13, 25, 26 and 27, at the 3F of the second board.
    let (mut b, n, second, at) = two_boards();
    let wrong_number = b.certificate(second.iak, DEV, 201, n.oem_private);
    let wrong_key = b.certificate(second.ek, DEV, 200, n.oem_private);
    let unopened = b.credential(second.iak_hash, n.number, second.ek);
    refused_cleanly(&b, at, 31);
    let (device, credential, r) = (second.device, second.credential, second.iak_certificate);
    for (desk, returning, credential, r, expected) in [
        (n.owner, device, credential, r, 13),
        (n.oem, device, unopened, r, 25),
        (n.oem, n.device, credential, r, 26),
        (n.oem, n.oem, credential, r, 26),
        (n.oem, device, credential, wrong_number, 27),
        (n.oem, device, credential, wrong_key, 27),
        // Issued, of this Subject and of another EK key.
        (n.oem, device, credential, n.iak_certificate, 27),
        (n.oem, device, credential, r, 31),
    ] {
        let last = b.issue_iak(desk, returning, credential, r);
        refused_cleanly(&b, last, expected);
    }
}

#[test]
fn issued_already_before_another_ek_key() {
    // The same IAK and Subject by another EK key of the TPM: the certificate
    // is in the ledger, and its path ends at the first EK key.
    let (mut b, n) = honest();
    let second = another_ek(&mut b, &n, 11, 101);
    let csr = b.idevid(DEV, 200, second.ek_certificate, n.iak);
    let csr_hash = b.hash(csr);
    let csr_signature = b.signature(csr_hash, n.iak_private);
    let request = b.pair(csr, csr_signature);
    let number = b.number(78);
    let credential = b.credential(n.iak_hash, number, second.ek);
    let second = Names {
        csr,
        csr_hash,
        csr_signature,
        request,
        number,
        credential,
        ..second
    };
    b.give(n.oem, number);
    make_request(&mut b, &second);
    finish_iak(&mut b, &second);
    let last = b.commands() - 1;
    refused_cleanly(&b, last, 28);
    assert_eq!(b.run().totals(), (17, 1, 1));
}

/// An IAK and under it a new key, up to but not with its 40, 41 or 42. Gives
/// also the desk that is asked.
fn attested_asked(kind: u8) -> (Build, Names, u8, Attested) {
    let (mut b, n) = honest();
    b.send(n.oem, n.device, n.iak_certificate);
    let (desk, desk_private) = n.desk(kind);
    let parent = (n.iak_private, n.iak_certificate);
    let a = attested_terms(&mut b, 1000, new_key(kind), parent, desk_private);
    b.hold(n.device, a.private);
    ask(&mut b, n.device, desk, &a);
    (b, n, desk, a)
}

#[test]
fn issue_attested() {
    for kind in 0x40..=0x42 {
        let (mut b, n, desk, a) = attested_asked(kind);
        let last = b.issue(kind, desk, a.request, a.certificate);
        assert_eq!(b.outcome(last), 0);
        let ran = b.run();
        assert_eq!(ran.totals().2, 2);
        assert_eq!(ran.ledger[1].certificate, a.certificate);
        assert_eq!(ran.ledger[1].parent, n.iak_certificate);
        assert_eq!(ran.ledger[1].depth, 2);
        for party in [n.device, n.maker, n.oem, n.owner] {
            assert_eq!(ran.knows(party, a.certificate), party == desk);
        }
        let again = b.issue(kind, desk, a.request, a.certificate);
        refused_cleanly(&b, again, 28);
    }
}

#[test]
fn issue_attested_role_and_knowledge() {
    for kind in 0x40..=0x42 {
        let (mut b, n, desk, a) = attested_asked(kind);
        for party in [n.device, n.maker, n.oem, n.owner] {
            if party != desk {
                b.send(n.device, party, a.request);
                let last = b.issue(kind, party, a.request, a.certificate);
                refused_cleanly(&b, last, 13);
            }
        }
        let second = b.party(if kind == 0x41 { 2 } else { 3 });
        let last = b.issue(kind, second, a.request, a.certificate);
        refused_cleanly(&b, last, 14);
        // Known, but this desk has no key: no r is the one called for.
        b.send(n.device, second, a.request);
        let last = b.issue(kind, second, a.request, a.certificate);
        refused_cleanly(&b, last, 27);
    }
}

/// Builds and sends a request of an 18 and a 13; gives the ordinal of its 40,
/// 41 or 42.
fn try_attested(b: &mut Build, n: &Names, kind: u8, csr: u16, signer: u16, r: u16) -> usize {
    let hash = b.hash(csr);
    let signature = b.signature(hash, signer);
    let request = b.pair(csr, signature);
    for (kind, t) in [
        (0x36, csr),
        (0x30, hash),
        (0x31, signature),
        (0x37, request),
    ] {
        let at = b.act(kind, n.device, t);
        assert_eq!(b.outcome(at), 0);
    }
    let (desk, _) = n.desk(kind);
    b.send(n.device, desk, request);
    b.issue(kind, desk, request, r)
}

#[test]
fn issue_attested_form() {
    for kind in 0x40..=0x42 {
        let (mut b, n, desk, a) = attested_asked(kind);
        let swapped = b.pair(a.csr_signature, a.csr);
        b.act(0x37, n.device, swapped);
        b.send(n.device, desk, swapped);
        let plain = b.private(50, 2);
        b.hold(n.device, plain);
        let unhashed = b.signature(a.csr, plain);
        let unhashed_request = b.pair(a.csr, unhashed);
        b.act(0x31, n.device, unhashed);
        b.act(0x37, n.device, unhashed_request);
        b.send(n.device, desk, unhashed_request);
        // A 3E request here.
        b.send(n.device, desk, n.request);
        for request in [swapped, unhashed_request, n.request, a.csr, a.csr_signature] {
            let last = b.issue(kind, desk, request, a.certificate);
            refused_cleanly(&b, last, 19);
        }
        // The 18's message: a bare 14, a 13 over a 12.
        let bare = b.ldevid(a.attest, n.iak_certificate);
        let last = try_attested(&mut b, &n, kind, bare, a.private, a.certificate);
        refused_cleanly(&b, last, 19);
        let over_hash = b.ldevid(a.csr_signature, n.iak_certificate);
        let last = try_attested(&mut b, &n, kind, over_hash, a.private, a.certificate);
        refused_cleanly(&b, last, 19);
        // The request at a 3E.
        let number = b.number(78);
        let credential = b.credential(n.iak_hash, number, n.ek);
        b.give(n.oem, number);
        b.send(n.device, n.oem, a.request);
        let last = b.challenge(n.oem, a.request, credential);
        refused_cleanly(&b, last, 19);
    }
}

#[test]
fn issue_attested_hash_and_signatures() {
    for kind in 0x40..=0x42 {
        let (mut b, n, desk, a) = attested_asked(kind);
        // Signed by the IAK, not the new key.
        let by_iak = b.signature(a.csr_hash, n.iak_private);
        let by_iak_request = b.pair(a.csr, by_iak);
        b.act(0x31, n.device, by_iak);
        b.act(0x37, n.device, by_iak_request);
        b.send(n.device, desk, by_iak_request);
        let last = b.issue(kind, desk, by_iak_request, a.certificate);
        refused_cleanly(&b, last, 20);
        // The hash of something else.
        let other_signature = b.signature(n.iak_hash, a.private);
        let other_request = b.pair(a.csr, other_signature);
        b.act(0x30, n.device, n.iak_hash);
        b.act(0x31, n.device, other_signature);
        b.act(0x37, n.device, other_request);
        b.send(n.device, desk, other_request);
        let last = b.issue(kind, desk, other_request, a.certificate);
        refused_cleanly(&b, last, 20);
        // The attest signed by the new key itself, not the certificate's.
        let own_attest = b.signature(a.attest, a.private);
        let csr = b.ldevid(own_attest, n.iak_certificate);
        b.act(0x32, n.device, own_attest);
        let last = try_attested(&mut b, &n, kind, csr, a.private, a.certificate);
        refused_cleanly(&b, last, 20);
        // The attest signed by an unrestricted key of the IAK's id.
        let near = b.private(2, CA);
        let near_attest = b.signature(a.attest, near);
        let csr = b.ldevid(near_attest, n.iak_certificate);
        b.hold(n.device, near);
        b.act(0x31, n.device, near_attest);
        let last = try_attested(&mut b, &n, kind, csr, a.private, a.certificate);
        refused_cleanly(&b, last, 20);
    }
}

#[test]
fn issue_attested_signer() {
    for kind in 0x40..=0x42 {
        // The EK certificate as parent: the maker's key is no desk's. The
        // attest must be signed by the EK to get so far, and an EK cannot
        // sign; so use a maker's certificate of the IAK.
        let (mut b, n, _, a) = attested_asked(kind);
        let by_maker = b.certificate(n.iak, TPM, 100, n.maker_private);
        b.give(n.device, by_maker);
        let csr = b.ldevid(a.signed_attest, by_maker);
        let last = try_attested(&mut b, &n, kind, csr, a.private, a.certificate);
        refused_cleanly(&b, last, 21);
        // A self-issued certificate of the IAK, also by a key with the
        // attributes of a desk's.
        for attributes in [2, CA] {
            let own = b.private(60, attributes);
            let self_issued = b.certificate(n.iak, DEV, 200, own);
            b.hold(n.device, own);
            b.act(0x3D, n.device, self_issued);
            let csr = b.ldevid(a.signed_attest, self_issued);
            let last = try_attested(&mut b, &n, kind, csr, a.private, a.certificate);
            refused_cleanly(&b, last, 21);
        }
    }
}

#[test]
fn issue_attested_parent_not_in_the_ledger() {
    // Of a desk's key but not issued: all is as called for, but nobody can
    // know the parent, so the request never reaches the desk.
    for kind in 0x40..=0x42 {
        let (b, n, desk, a) = attested_asked(kind);
        for signer in [n.oem_private, n.owner_private] {
            let mut b = b.clone();
            let parent = b.certificate(n.iak, DEV, 201, signer);
            let csr = b.ldevid(a.signed_attest, parent);
            let hash = b.hash(csr);
            let signature = b.signature(hash, a.private);
            let request = b.pair(csr, signature);
            let r = b.certificate(a.public, DEV, 201, n.desk(kind).1);
            // A Restricted key wants a hash of its TPM, another a known one.
            let unsigned = if kind == 0x40 { 17 } else { 14 };
            for (kind, t, expected) in [
                (0x3D, parent, 15),
                (0x36, csr, 14),
                (0x30, hash, 14),
                (0x31, signature, unsigned),
                (0x37, request, 14),
            ] {
                let at = b.act(kind, n.device, t);
                refused_cleanly(&b, at, expected);
            }
            let at = b.send(n.device, desk, request);
            refused_cleanly(&b, at, 14);
            let last = b.issue(kind, desk, request, r);
            refused_cleanly(&b, last, 14);
        }
    }
}

#[test]
fn issue_attested_attributes_of_the_new_key() {
    for kind in 0x40..=0x42 {
        for attributes in 0..16 {
            let (mut b, n) = honest();
            b.send(n.oem, n.device, n.iak_certificate);
            let (desk, desk_private) = n.desk(kind);
            let parent = (n.iak_private, n.iak_certificate);
            let a = attested_terms(&mut b, 1000, attributes, parent, desk_private);
            b.hold(n.device, a.private);
            ask(&mut b, n.device, desk, &a);
            let last = b.issue(kind, desk, a.request, a.certificate);
            let expected = match attributes {
                _ if attributes == new_key(kind) => 0,
                _ if attributes & 2 == 0 => 14,
                _ => 23,
            };
            assert_eq!(b.outcome(last), expected, "{kind:x}, key {attributes:x}");
        }
    }
}

#[test]
fn one_request_at_the_other_commands() {
    let (mut b, n, [lak, idevid, ldevid]) = board();
    for a in [lak, idevid, ldevid] {
        b.send(n.device, n.oem, a.request);
        b.send(n.device, n.owner, a.request);
    }
    let lak_by_oem = b.certificate(lak.public, DEV, 200, n.oem_private);
    let idevid_by_owner = b.certificate(idevid.public, DEV, 200, n.owner_private);
    let ldevid_by_oem = b.certificate(ldevid.public, DEV, 200, n.oem_private);
    for (kind, a, r) in [
        (0x40, idevid, idevid_by_owner),
        (0x40, ldevid, ldevid.certificate),
        (0x41, lak, lak_by_oem),
        (0x42, lak, lak.certificate),
    ] {
        let last = b.issue(kind, n.desk(kind).0, a.request, r);
        refused_cleanly(&b, last, 23);
    }
    // A key may have both an IDevID and an LDevID certificate.
    for (kind, a, r) in [
        (0x41, ldevid, ldevid_by_oem),
        (0x42, idevid, idevid_by_owner),
    ] {
        let last = b.issue(kind, n.desk(kind).0, a.request, r);
        assert_eq!(b.outcome(last), 0);
    }
    let ran = b.run();
    assert_eq!(ran.totals().2, 6);
    assert_eq!((ran.ledger[4].depth, ran.ledger[5].depth), (2, 2));
}

#[test]
fn issue_attested_parents() {
    // Of an IDevID or LDevID: 23, and 21 before it.
    let (b, n, [lak, idevid, ldevid]) = board();
    for (parent, expected) in [
        (lak, [0, 21, 0]),
        (idevid, [23, 23, 23]),
        (ldevid, [23, 21, 23]),
    ] {
        for (kind, expected) in (0x40..=0x42).zip(expected) {
            let mut b = b.clone();
            let parent = (parent.private, parent.certificate);
            let (at, _) = enrol(&mut b, &n, kind, 2000, parent);
            assert_eq!(b.outcome(at), expected);
            if expected != 0 {
                refused_cleanly(&b, at, expected);
            }
        }
    }
    // Of such a key too, but its signer is no desk: 21.
    for kind in 0x40..=0x42 {
        let (mut b, n, _, a) = attested_asked(kind);
        let own = b.private(60, 2);
        let (parent, parent_private) = b.keys(61, ID);
        let certificate = b.certificate(parent, DEV, 200, own);
        b.hold(n.device, own);
        b.hold(n.device, parent_private);
        b.give(n.device, parent);
        b.act(0x3D, n.device, certificate);
        let parent = (parent_private, certificate);
        let last = try_again(&mut b, &n, kind, &a, parent, a.certificate);
        refused_cleanly(&b, last, 21);
    }
}

#[test]
fn attest_signed_by_an_unrestricted_key() {
    // An IDevID or LDevID signs, by a 31, the attest of a key that another
    // TPM holds.
    let (b, n, [_, idevid, ldevid]) = board();
    for (parent, expected) in [(idevid, [23, 23, 23]), (ldevid, [23, 21, 23])] {
        for (kind, expected) in (0x40..=0x42).zip(expected) {
            let mut b = b.clone();
            let other = b.party(0);
            let (desk, desk_private) = n.desk(kind);
            let parent = (parent.private, parent.certificate);
            let a = attested_terms(&mut b, 2000, new_key(kind), parent, desk_private);
            let own_attest = b.signature(a.attest, a.private);
            b.hold(other, a.private);
            b.act(0x32, other, own_attest);
            b.send(other, n.device, own_attest);
            b.act(0x31, n.device, a.signed_attest);
            b.act(0x36, n.device, a.csr);
            b.send(n.device, other, a.csr);
            b.act(0x30, other, a.csr_hash);
            b.act(0x31, other, a.csr_signature);
            b.act(0x37, other, a.request);
            let sent = b.send(other, desk, a.request);
            assert_eq!(b.outcome(sent), 0);
            let last = b.issue(kind, desk, a.request, a.certificate);
            refused_cleanly(&b, last, expected);
        }
    }
}

#[test]
fn idevid_by_another_oem_desk() {
    // The parent is signed by an OEM desk, not by this one.
    let (mut b, n, _, a) = attested_asked(0x41);
    let second = b.party(2);
    let key = b.private(70, CA);
    let certificate = b.certificate(a.public, DEV, 200, key);
    b.hold(second, key);
    b.desk_key(second, key);
    b.send(n.device, second, a.request);
    let last = b.issue(0x41, second, a.request, a.certificate);
    refused_cleanly(&b, last, 27);
    for (desk, r) in [(second, certificate), (n.oem, a.certificate)] {
        let last = b.issue(0x41, desk, a.request, r);
        assert_eq!(b.outcome(last), 0);
    }
}

#[test]
fn issue_attested_result() {
    for kind in 0x40..=0x42 {
        let (mut b, n, desk, a) = attested_asked(kind);
        let (_, desk_private) = n.desk(kind);
        let other_private = if kind == 0x41 {
            n.owner_private
        } else {
            n.oem_private
        };
        let wrong_key = b.certificate(n.ek, DEV, 200, desk_private);
        let wrong_number = b.certificate(a.public, DEV, 201, desk_private);
        let wrong_subject = b.certificate(a.public, TPM, 200, desk_private);
        let wrong_signer = b.certificate(a.public, DEV, 200, other_private);
        for r in [
            wrong_key,
            wrong_number,
            wrong_subject,
            wrong_signer,
            n.iak_certificate,
        ] {
            let last = b.issue(kind, desk, a.request, r);
            refused_cleanly(&b, last, 27);
        }
    }
}

/// Asks for a certificate of a key under another parent.
fn try_again(
    b: &mut Build,
    n: &Names,
    kind: u8,
    a: &Attested,
    parent: (u16, u16),
    r: u16,
) -> usize {
    let attest = b.signature(a.attest, parent.0);
    let csr = b.ldevid(attest, parent.1);
    b.act(0x32, n.device, attest);
    try_attested(b, n, kind, csr, a.private, r)
}

#[test]
fn issued_already_under_another_parent() {
    // Under another IAK of the board.
    let (mut b, n, issued) = board();
    let [lak, idevid, ldevid] = issued;
    let second = another_iak(&mut b, &n, 500, 200);
    let parent = (second.iak_private, second.iak_certificate);
    for (kind, a) in (0x40..=0x42).zip(issued) {
        let at = try_again(&mut b, &n, kind, &a, parent, a.certificate);
        refused_cleanly(&b, at, 28);
    }
    // Under the LAK; 21 and 23 come before.
    let parent = (lak.private, lak.certificate);
    let at = try_again(&mut b, &n, 0x42, &ldevid, parent, ldevid.certificate);
    refused_cleanly(&b, at, 28);
    let at = try_again(&mut b, &n, 0x41, &idevid, parent, idevid.certificate);
    refused_cleanly(&b, at, 21);
    let parent = (idevid.private, idevid.certificate);
    let at = try_again(&mut b, &n, 0x42, &ldevid, parent, ldevid.certificate);
    refused_cleanly(&b, at, 23);
    // Under an IAK of another Subject another certificate is called for.
    let third = another_iak(&mut b, &n, 501, 300);
    let parent = (third.iak_private, third.iak_certificate);
    for (kind, a) in (0x40..=0x42).zip(issued) {
        let mut b = b.clone();
        let other = b.certificate(a.public, DEV, 300, n.desk(kind).1);
        let at = try_again(&mut b, &n, kind, &a, parent, other);
        assert_eq!(b.outcome(at), 0);
    }
    let at = try_again(&mut b, &n, 0x41, &idevid, parent, idevid.certificate);
    refused_cleanly(&b, at, 27);
}

#[test]
fn issued_already_before_too_deep() {
    // At depth 9 a certificate that is in the ledger already: 28. The keys of
    // depth 2 ask again, certified by the LAK of depth 8.
    let (mut b, n, _, laks) = chain(7);
    let iak = (n.iak_private, n.iak_certificate);
    let (_, ldevid) = enrol(&mut b, &n, 0x42, 2000, iak);
    let parent = (laks[6].private, laks[6].certificate);
    for (kind, a) in [(0x40, laks[0]), (0x42, ldevid)] {
        let at = try_again(&mut b, &n, kind, &a, parent, a.certificate);
        refused_cleanly(&b, at, 28);
    }
}

#[test]
fn lak_may_be_its_own_certifier() {
    // The IAK asks for a LAK certificate of itself: nothing forbids it.
    let (mut b, n) = honest();
    b.send(n.oem, n.device, n.iak_certificate);
    let attest = b.attest(n.iak);
    let signed = b.signature(attest, n.iak_private);
    let csr = b.ldevid(signed, n.iak_certificate);
    let by_owner = b.certificate(n.iak, DEV, 200, n.owner_private);
    b.act(0x32, n.device, signed);
    // An IDevID or LDevID it cannot be.
    for (kind, r) in [(0x41, n.iak_certificate), (0x42, by_owner)] {
        let mut b = b.clone();
        let at = try_attested(&mut b, &n, kind, csr, n.iak_private, r);
        refused_cleanly(&b, at, 23);
    }
    let at = try_attested(&mut b, &n, 0x40, csr, n.iak_private, by_owner);
    assert_eq!(b.outcome(at), 0);
    assert_eq!(b.run().ledger[1].depth, 2);
}
