//! Registers and quotes: 1B, 1C, 44 and 45; refusal 33.

use crate::builder::*;
use reading::*;

/// What an empty register shows, and one of a party that is no device.
const NONE: u16 = 0xFFFF;

/// Loads the file; gives the refusal.
fn load_refusal(b: &Build) -> Option<u32> {
    let mut state = vec![9; STATE_BYTES];
    match load(&b.bytes(), &mut state) {
        LoadAnswer::Loaded { .. } => None,
        LoadAnswer::Refused { number, .. } => Some(number),
    }
}

#[test]
fn extended_twice_then_quoted() {
    let (b, m) = quoted();
    let [start, first, second] = m.values;
    let device = m.n.device;
    let at = b.commands() - 4;
    let shown: Vec<u16> = (at..=b.commands())
        .map(|n| b.run_first(n).register(device, REGISTER))
        .collect();
    assert_eq!(shown, [start, first, second, second, second]);
    assert_eq!(
        b.text(),
        format!(
            "I {} {} 1\nT 13 0 1\n",
            m.n.iak_certificate, m.n.ek_certificate
        )
    );
    // 44 changes the register alone.
    let before = b.run_first(at);
    let extended = b.run_first(at + 2);
    assert_eq!(extended.state, before.state);
    assert_eq!(extended.ledger, before.ledger);
    for t in [start, first, second] {
        assert_eq!(extended.term(t)[..6], [0; 6]);
    }
    // 45 teaches the quote with value and number, and nothing in the value.
    let quote = b.run_first(at + 3);
    assert_eq!(quote.registers, extended.registers);
    for t in [m.quotes[2], m.bodies[2], second, m.number] {
        assert!(quote.knows(device, t));
        assert_eq!(quote.term(t)[1..6], [0; 5]);
    }
    for t in [m.quotes[1], m.bodies[1], first, start, second - 1] {
        assert_eq!(quote.term(t)[0], 0);
    }
    // So does the 3C.
    let sent = b.run();
    for t in [m.quotes[2], m.bodies[2], second, m.number] {
        assert!(sent.knows(m.n.owner, t));
    }
    assert!(!sent.knows(m.n.owner, first));
}

#[test]
fn bytes_of_the_registers() {
    let (b, m) = quoted();
    let mut expected = [0xFF; REGISTER_BYTES];
    expected[10..12].copy_from_slice(&m.values[2].to_be_bytes());
    let of_other = 48 * usize::from(m.other) + 10;
    expected[of_other..of_other + 2].copy_from_slice(&m.values[0].to_be_bytes());
    assert_eq!(b.run().registers, expected);
}

#[test]
fn starting_values() {
    // No party, no term.
    assert_eq!(run_bytes(&[], 0).registers, [0xFF; REGISTER_BYTES]);
    // A party of each role; one that comes after the devices.
    let mut b = Build::default();
    for role in [1, 0, 2, 3, 0] {
        b.party(role);
    }
    assert_eq!(b.run_first(0).registers, [0xFF; REGISTER_BYTES]);
    b.number(1);
    let of_23 = b.start(23);
    b.number(2);
    let of_0 = b.start(0);
    for n in [0, 1] {
        let ran = b.run_first(n);
        for party in 0..8 {
            for register in 0..24 {
                let expected = match (party, register) {
                    (1 | 4, 23) => of_23,
                    (1 | 4, 0) => of_0,
                    _ => NONE,
                };
                assert_eq!(ran.register(party, register), expected);
            }
        }
    }
    // Nobody knows a starting value.
    assert_eq!(b.run().term(of_0)[..6], [0; 6]);
    // No party at all.
    let mut b = Build::default();
    b.start(3);
    assert_eq!(b.run().registers, [0xFF; REGISTER_BYTES]);
}

#[test]
fn all_registers_of_eight_devices() {
    let mut b = Build::default();
    for _ in 0..8 {
        b.party(0);
    }
    // Terms above 255, so that the high byte counts.
    for id in 0..300 {
        b.number(id);
    }
    let values: Vec<u16> = (0..24).map(|register| b.start(register)).collect();
    let bytes: Vec<u8> = values.iter().flat_map(|t| t.to_be_bytes()).collect();
    assert_eq!(b.run().registers, bytes.repeat(8));
    // The last register of the last party.
    b.give(7, 0);
    let r = extension(&mut b, values[23], 0);
    let at = b.extend(7, 23, r);
    assert_eq!(b.outcome(at), 0);
    let mut expected = bytes.repeat(8);
    expected[382..].copy_from_slice(&r.to_be_bytes());
    assert_eq!(b.run().registers, expected);
}

#[test]
fn quote_of_another_value() {
    let (mut b, m) = measured();
    let device = m.n.device;
    let mut place = 0;
    for shown in 0..3 {
        for (value, quote) in m.quotes.iter().enumerate() {
            let at = b.act(0x45, device, *quote);
            if value == shown {
                assert_eq!(b.outcome(at), 0);
            } else {
                // Old, or not yet.
                refused_cleanly(&b, at, 33);
            }
            place = at;
        }
        if shown < 2 {
            b.extend(device, REGISTER, m.values[shown + 1]);
        }
    }
    // A known quote of an old value is no better.
    let at = b.act(0x45, device, m.quotes[0]);
    assert!(b.run_first(place).knows(device, m.quotes[0]));
    refused_cleanly(&b, at, 33);
    assert!(b.text().contains(&format!("R {at} 33\n")));
}

#[test]
fn extension_of_another_value() {
    let (mut b, m) = measured();
    let device = m.n.device;
    // Not yet.
    let at = b.extend(device, REGISTER, m.values[2]);
    refused_cleanly(&b, at, 33);
    let at = b.extend(device, REGISTER, m.values[1]);
    assert_eq!(b.outcome(at), 0);
    // The same again is on a stale value.
    let at = b.extend(device, REGISTER, m.values[1]);
    refused_cleanly(&b, at, 33);
    // Another one on the start.
    let late = extension(&mut b, m.values[0], m.n.ek);
    let at = b.extend(device, REGISTER, late);
    refused_cleanly(&b, at, 33);
    // The pair is ordered.
    let swapped = extension(&mut b, m.n.iak, m.values[1]);
    let at = b.extend(device, REGISTER, swapped);
    refused_cleanly(&b, at, 14);
    let swapped = extension(&mut b, m.n.iak, m.n.ek);
    let at = b.extend(device, REGISTER, swapped);
    refused_cleanly(&b, at, 33);
    let at = b.extend(device, REGISTER, m.values[2]);
    assert_eq!(b.outcome(at), 0);
}

#[test]
fn empty_registers() {
    let (mut b, m) = measured();
    let device = m.n.device;
    // No 1B for register 6: nothing is its value, not even another's start.
    for value in [m.values[0], m.n.iak, m.number] {
        let r = extension(&mut b, value, m.n.ek);
        let at = b.extend(device, 6, r);
        refused_cleanly(&b, at, 33);
        let body = b.quote_body(6, value, m.number);
        let quote = b.signature(body, m.n.iak_private);
        let at = b.act(0x45, device, quote);
        refused_cleanly(&b, at, 33);
    }
    assert_eq!(b.run().register(device, 6), NONE);
    // With its 1B, also where that stands after the others.
    let start = b.start(6);
    assert_eq!(b.run().register(device, 6), start);
    let r = extension(&mut b, start, m.n.iak);
    let at = b.extend(device, 6, r);
    assert_eq!(b.outcome(at), 0);
}

#[test]
fn another_register() {
    let (mut b, m) = measured();
    let device = m.n.device;
    let start = b.start(6);
    // The old value is of register 5, and the register said is 6.
    let at = b.extend(device, 6, m.values[1]);
    refused_cleanly(&b, at, 33);
    let body = b.quote_body(6, m.values[0], m.number);
    let quote = b.signature(body, m.n.iak_private);
    let at = b.act(0x45, device, quote);
    refused_cleanly(&b, at, 33);
    b.extend(device, REGISTER, m.values[1]);
    let ran = b.run();
    assert_eq!(ran.register(device, REGISTER), m.values[1]);
    assert_eq!(ran.register(device, 6), start);
}

#[test]
fn another_party() {
    let (mut b, m) = measured();
    let (device, other) = (m.n.device, m.other);
    let own = b.private(901, AK);
    b.hold(other, own);
    b.give(other, m.n.iak);
    b.give(other, m.number);
    let with_own = m.bodies.map(|body| b.signature(body, own));
    // The other device extends its own register.
    let at = b.extend(other, REGISTER, m.values[1]);
    assert_eq!(b.outcome(at), 0);
    let ran = b.run();
    assert_eq!(ran.register(device, REGISTER), m.values[0]);
    assert_eq!(ran.register(other, REGISTER), m.values[1]);
    for (party, quote, outcome) in [
        (device, m.quotes[1], 33),
        (other, with_own[0], 33),
        // The key of the other TPM.
        (device, with_own[0], 15),
        (other, m.quotes[1], 15),
    ] {
        let at = b.act(0x45, party, quote);
        refused_cleanly(&b, at, outcome);
    }
    for (party, quote) in [(device, m.quotes[0]), (other, with_own[1])] {
        let at = b.act(0x45, party, quote);
        assert_eq!(b.outcome(at), 0);
    }
    // The term of the second extension is not known there.
    let at = b.extend(other, REGISTER, m.values[2]);
    refused_cleanly(&b, at, 14);
    // The same values may be reached by both.
    let at = b.extend(device, REGISTER, m.values[1]);
    assert_eq!(b.outcome(at), 0);
    assert_eq!(b.run().register(device, REGISTER), m.values[1]);
}

#[test]
fn a_key_of_two_tpms() {
    // Without FixedTPM, one key quotes the registers of either.
    let (mut b, m) = measured();
    let key = b.private(901, 3);
    for party in [m.n.device, m.other] {
        b.hold(party, key);
        b.give(party, m.number);
    }
    let quotes = m.bodies.map(|body| b.signature(body, key));
    b.extend(m.n.device, REGISTER, m.values[1]);
    for (party, quote, outcome) in [
        (m.n.device, quotes[0], 33),
        (m.other, quotes[1], 33),
        (m.n.device, quotes[1], 0),
        (m.other, quotes[0], 0),
    ] {
        let at = b.act(0x45, party, quote);
        assert_eq!(b.outcome(at), outcome);
    }
}

#[test]
fn roles() {
    // Nothing is right but the form: 13 comes first.
    let (b, m) = measured();
    for role in 1..4 {
        let mut b = b.clone();
        let party = b.party(role);
        for party in [party, role] {
            for register in [REGISTER, 6] {
                let at = b.extend(party, register, m.values[1]);
                refused_cleanly(&b, at, 13);
            }
            let at = b.act(0x45, party, m.quotes[0]);
            refused_cleanly(&b, at, 13);
        }
    }
    // All is right but the role.
    for role in 1..4 {
        let mut b = b.clone();
        let party = b.party(role);
        let key = b.private(901, AK);
        let quote = b.signature(m.bodies[0], key);
        b.hold(party, key);
        b.give(party, m.n.iak);
        b.give(party, m.number);
        let at = b.act(0x45, party, quote);
        refused_cleanly(&b, at, 13);
        let at = b.extend(party, REGISTER, m.values[1]);
        refused_cleanly(&b, at, 13);
        assert_eq!(b.run().register(party, REGISTER), NONE);
    }
}

#[test]
fn inputs_before_33() {
    let (mut b, m) = measured();
    let device = m.n.device;
    // 44: the term, known to another device alone.
    let unknown = b.number(902);
    b.give(m.other, unknown);
    for old in [m.values[0], m.n.iak] {
        let r = extension(&mut b, old, unknown);
        let at = b.extend(device, REGISTER, r);
        refused_cleanly(&b, at, 14);
        let at = b.extend(device, 6, r);
        refused_cleanly(&b, at, 14);
    }
    // 45: 14, 15, 16, 33, each with all that come after.
    let foreign = b.private(903, 8);
    let weak = b.private(904, 8);
    b.hold(device, weak);
    let mut outcome = |number, key, value| {
        let body = b.quote_body(REGISTER, value, number);
        let quote = b.signature(body, key);
        let at = b.act(0x45, device, quote);
        b.outcome(at)
    };
    let iak = m.n.iak_private;
    assert_eq!(outcome(unknown, foreign, m.values[2]), 14);
    assert_eq!(outcome(unknown, iak, m.values[0]), 14);
    assert_eq!(outcome(m.number, foreign, m.n.iak), 15);
    assert_eq!(outcome(m.number, weak, m.n.csr), 16);
    assert_eq!(outcome(m.number, iak, m.n.ek), 33);
}

#[test]
fn attributes_of_the_quoting_key() {
    for attributes in 0..16 {
        let (mut b, m) = measured();
        let device = m.n.device;
        let key = b.private(901, attributes);
        let quotes = m.bodies.map(|body| b.signature(body, key));
        b.hold(device, key);
        // Restricted and Sign; with an old value 16 is still first.
        let may = attributes & 3 == 3;
        for (quote, expected) in [(quotes[1], 33), (quotes[0], 0)] {
            let at = b.act(0x45, device, quote);
            let expected = if may { expected } else { 16 };
            assert_eq!(b.outcome(at), expected);
        }
    }
}

#[test]
fn values_need_not_be_known() {
    let (mut b, m) = quoted();
    let device = m.n.device;
    let ran = b.run_first(b.commands() - 2);
    assert!(!ran.knows(device, m.values[1]) && !ran.knows(device, m.values[2]));
    // A value as the term: now it has to be.
    let [_, first, second] = m.values;
    for (t, outcome) in [(first, 14), (second, 0)] {
        let r = extension(&mut b, second, t);
        let at = b.extend(device, REGISTER, r);
        assert_eq!(b.outcome(at), outcome);
    }
}

#[test]
fn an_extension_is_no_hash_of_the_tpm() {
    let (mut b, m) = measured();
    let device = m.n.device;
    let [start, first, _] = m.values;
    let signed = b.signature(first, m.n.iak_private);
    b.extend(device, REGISTER, first);
    let at = b.act(0x31, device, signed);
    refused_cleanly(&b, at, 17);
    let at = b.act(0x30, device, first);
    refused_cleanly(&b, at, 14);
    // By 45, 37 and 30 it is one.
    let (mut b, m) = measured();
    let signed = b.signature(first, m.n.iak_private);
    for (kind, r) in [
        (0x45, m.quotes[0]),
        (0x37, first - 1),
        (0x30, first),
        (0x31, signed),
    ] {
        let at = b.act(kind, device, r);
        assert_eq!(b.outcome(at), 0);
    }
    assert_eq!(b.run().register(device, REGISTER), start);
    assert!(b.run().table(device, first));
}

#[test]
fn hash_of_a_quote_body() {
    let (mut b, m) = measured();
    let device = m.n.device;
    let loose = b.private(901, CA);
    b.hold(device, loose);
    let body = m.bodies[0];
    let hash = b.hash(body);
    let [forged, plain] = [m.n.iak_private, loose].map(|key| b.signature(hash, key));
    let plain_body = b.signature(body, loose);
    // The body is not known yet, and there is no command that builds one.
    let at = b.act(0x30, device, hash);
    refused_cleanly(&b, at, 14);
    let at = b.act(0x31, device, plain_body);
    refused_cleanly(&b, at, 14);
    b.act(0x45, device, m.quotes[0]);
    // Learned, but without ticket.
    let at = b.act(0x30, device, hash);
    assert_eq!(b.outcome(at), 0);
    assert!(b.run().knows(device, hash));
    assert!(!b.run().table(device, hash));
    let at = b.act(0x31, device, forged);
    refused_cleanly(&b, at, 17);
    // Nor is the body a message for a Restricted key.
    let at = b.act(0x31, device, m.quotes[0]);
    refused_cleanly(&b, at, 17);
    let at = b.act(0x31, device, m.quotes[1]);
    refused_cleanly(&b, at, 17);
    // An unrestricted key signs what is known.
    for r in [plain, plain_body] {
        let at = b.act(0x31, device, r);
        assert_eq!(b.outcome(at), 0);
    }
    // A hash of a pair with the body is as any.
    let pair = b.pair(body, body);
    let hash = b.hash(pair);
    b.act(0x37, device, pair);
    b.act(0x30, device, hash);
    assert!(b.run().table(device, hash));
}

#[test]
fn sending_and_checking_quotes() {
    let (mut b, m) = quoted();
    let (device, owner) = (m.n.device, m.n.owner);
    let quote = m.quotes[2];
    b.send(m.n.device, owner, m.n.iak);
    let at = b.check(0x39, owner, quote, m.n.iak);
    assert_eq!(b.outcome(at), 0);
    // Desks send no quote, body, value or number.
    for t in [quote, m.bodies[2], m.values[2], m.number] {
        let at = b.send(owner, device, t);
        refused_cleanly(&b, at, 13);
        let at = b.send(device, m.other, t);
        assert_eq!(b.outcome(at), 0);
    }
    // The number is not used by a quote: it quotes again.
    assert_eq!(b.run().term(m.number)[2], 0);
    let at = b.act(0x45, device, quote);
    assert_eq!(b.outcome(at), 0);
}

#[test]
fn register_bytes_of_the_file() {
    for register in 0..=255 {
        let (b, m) = measured();
        let expected = (register > 23).then_some(7);
        let mut with_start = b.clone();
        with_start.start(register);
        // Register 5 has its 1B already.
        let of_start = if register == REGISTER {
            Some(9)
        } else {
            expected
        };
        assert_eq!(load_refusal(&with_start), of_start);
        let mut with_body = b.clone();
        with_body.quote_body(register, m.n.iak, m.number);
        assert_eq!(load_refusal(&with_body), expected);
        let mut with_extend = b.clone();
        with_extend.extend(m.n.device, register, m.values[1]);
        assert_eq!(load_refusal(&with_extend), expected);
        // Also at a desk, which may extend none.
        let mut with_extend = b;
        with_extend.extend(m.n.owner, register, m.values[1]);
        assert_eq!(load_refusal(&with_extend), expected);
    }
}

#[test]
fn forms_of_the_results() {
    let (mut b, m) = measured();
    let key = m.n.iak_private;
    let some = [m.values[0], m.n.ek, m.number, m.quotes[0], m.bodies[0]];
    let mut bad_extensions: Vec<u16> = some.iter().map(|t| b.hash(*t)).collect();
    bad_extensions.extend(some);
    // The pair itself, a hash of the hash.
    bad_extensions.push(m.values[1] - 1);
    bad_extensions.push(b.hash(m.values[1]));
    let mut bad_quotes: Vec<u16> = [m.values[0], m.values[1], m.n.iak, m.quotes[0]]
        .iter()
        .map(|t| b.signature(*t, key))
        .collect();
    let attest = b.attest(m.n.iak);
    bad_quotes.push(b.signature(attest, key));
    let hash = b.hash(attest);
    bad_quotes.extend([hash, m.bodies[0], m.values[1], m.n.csr_signature]);
    for r in bad_extensions {
        let mut b = b.clone();
        b.extend(m.n.device, REGISTER, r);
        assert_eq!(load_refusal(&b), Some(8));
    }
    for r in bad_quotes {
        let mut b = b.clone();
        b.act(0x45, m.n.device, r);
        assert_eq!(load_refusal(&b), Some(8));
    }
    // A quote is no result of 32.
    let mut with_certify = b.clone();
    with_certify.act(0x32, m.n.device, m.quotes[0]);
    assert_eq!(load_refusal(&with_certify), Some(8));
    // Any old value and term, any quoted value.
    for t in 0..b.terms() {
        let mut b = b.clone();
        let r = extension(&mut b, t, t);
        let number = b.number(905);
        let body = b.quote_body(7, t, number);
        let quote = b.signature(body, key);
        b.extend(m.n.device, REGISTER, r);
        b.act(0x45, m.n.device, quote);
        assert_eq!(load_refusal(&b), None);
    }
}

/// A call on long, filled buffers, and the registers that it leaves.
fn on_long_buffers(
    call: impl Fn(&mut [u8], &mut [Entry], &mut [u8], &mut [u8]) -> Option<u32>,
) -> (Option<u32>, Vec<u8>) {
    let mut registers = vec![0xDD; REGISTER_BYTES + 7];
    let number = call(
        &mut vec![1; STATE_BYTES + 7],
        &mut vec![Entry::default(); TERMS + 7],
        &mut vec![1; OUTCOMES + 7],
        &mut registers,
    );
    assert_eq!(registers.split_off(REGISTER_BYTES), [0xDD; 7]);
    (number, registers)
}

/// Run, Path and Stock: the refusal and the registers of each.
fn three_calls(file: &[u8], term: u16, party: u8) -> [(Option<u32>, Vec<u8>); 3] {
    [
        on_long_buffers(|state, ledger, outcomes, registers| {
            match run(file, usize::MAX, state, ledger, outcomes, registers) {
                RunAnswer::Ran { .. } => None,
                RunAnswer::Refused { number, .. } => Some(number),
            }
        }),
        on_long_buffers(|state, ledger, outcomes, registers| {
            let n = usize::MAX;
            let mut list = [0; LIST_PLACES];
            match path(file, n, state, ledger, outcomes, registers, term, &mut list) {
                PathAnswer::Steps(_) => None,
                PathAnswer::Refused { number, .. } => Some(number),
            }
        }),
        on_long_buffers(|state, ledger, outcomes, registers| {
            match stock(file, state, ledger, outcomes, registers, party, 1) {
                StockAnswer::Boards { .. } => None,
                StockAnswer::Refused { number, .. } => Some(number),
            }
        }),
    ]
}

#[test]
fn registers_left_by_each_call() {
    let (b, m) = quoted();
    let ran = b.run().registers;
    let file = b.bytes();
    for (number, registers) in three_calls(&file, m.n.iak_certificate, m.n.oem) {
        assert_eq!((number, &registers), (None, &ran));
    }
    // 30 and 39 leave what Run leaves.
    let [_, by_path, by_stock] = three_calls(&file, m.n.iak, m.n.owner);
    assert_eq!(by_path, (Some(30), ran.clone()));
    assert_eq!(by_stock, (Some(39), ran));
    // 2: untouched.
    let mut long = file.clone();
    long.resize(FILE_BYTES + 1, 0);
    for (number, registers) in three_calls(&long, m.n.iak, m.n.owner) {
        assert_eq!((number, registers), (Some(2), vec![0xDD; REGISTER_BYTES]));
    }
    // 3 to 12: zero.
    for number in 3..=12 {
        let mut b = b.clone();
        let raw: &[u8] = match number {
            3 => &[0x46],
            4 => &[0x44, 0, 0, 0],
            5 => &[0x1B, 9],
            7 => &[0x44, 0, 24, 0, 0],
            8 => &[0x45, 0, 0, 0],
            _ => &[],
        };
        if !raw.is_empty() {
            b.raw(raw);
        }
        match number {
            6 => {
                for _ in 0..5 {
                    b.party(0);
                }
            }
            9 => {
                b.start(REGISTER);
            }
            10 => b.give(m.n.device, m.values[0]),
            11 => b.hold(m.other, m.n.iak_private),
            12 => b.desk_key(m.other, m.n.iak_private),
            _ => {}
        }
        for call in three_calls(&b.bytes(), m.n.iak, m.n.owner) {
            assert_eq!(call, (Some(number), vec![0; REGISTER_BYTES]));
        }
    }
}
