//! Random files: no panic, and the answers agree with one another.

use crate::builder::*;
use reading::*;
use std::collections::HashMap;

/// A small generator (xorshift).
struct Dice(u64);

impl Dice {
    fn roll(&mut self, sides: u64) -> u64 {
        self.0 ^= self.0 << 13;
        self.0 ^= self.0 >> 7;
        self.0 ^= self.0 << 17;
        self.0 % sides
    }
}

/// The two bytes at a place of the file.
fn two(file: &[u8], place: usize) -> u16 {
    u16::from_be_bytes([file[place], file[place + 1]])
}

/// Where a term's record starts, read from the state.
fn place(ran: &Ran, t: u16) -> usize {
    usize::from(two(&ran.term(t), 6))
}

/// The attributes of a certificate's key and the role that its signer was
/// given to, read from the file.
fn key_and_signer(file: &[u8], ran: &Ran, certificate: u16) -> (u8, u8) {
    let at = place(ran, certificate);
    let attributes = file[place(ran, two(file, at + 1)) + 3];
    // A desk's key is FixedTPM, so that its one holder is the desk.
    let holder = ran.term(two(file, at + 6))[1].trailing_zeros() as usize;
    (attributes, file[2 * holder + 1])
}

/// An entry is of one of the four families.
fn check_entry(file: &[u8], ran: &Ran, entry: &Entry) {
    let certificate = key_and_signer(file, ran, entry.certificate);
    let parent = key_and_signer(file, ran, entry.parent);
    match (certificate, parent) {
        // 3F and 43, 41.
        ((AK, 2), (EK, 1)) => assert_eq!(entry.depth, 1),
        ((ID, 2), (AK, 2)) => assert_eq!(entry.depth, 2),
        // 40, 42.
        ((AK | ID, 3), (AK, 2)) => assert_eq!(entry.depth, 2),
        ((AK | ID, 3), (AK, 3)) => assert!((3..=8).contains(&entry.depth)),
        both => panic!("{both:?}"),
    }
}

/// The TPMs that hold the private half of a public key.
fn holders(file: &[u8], ran: &Ran, public: u16) -> u8 {
    let at = place(ran, public);
    let key = &file[at + 1..at + 4];
    (0..TERMS as u16)
        .filter(|t| {
            let at = place(ran, *t);
            file[at] == 0x11 && file[at + 1..at + 4] == *key
        })
        .fold(0, |held, t| held | ran.term(t)[1])
}

/// Entries of equal Subject have paths that end at one EK key, and their keys
/// are, with it, in one TPM. The paths are given by certificate and end.
fn check_subjects(file: &[u8], ran: &Ran, paths: &[(u16, u16)]) {
    let mut carriers = HashMap::new();
    for (certificate, end) in paths {
        let at = place(ran, *certificate);
        let key = two(file, at + 1);
        let subject = &file[at + 3..at + 6];
        let ek = two(file, place(ran, *end) + 1);
        let tpm = holders(file, ran, ek);
        assert_eq!(tpm.count_ones(), 1);
        assert_eq!(holders(file, ran, key), tpm);
        assert_eq!(*carriers.entry(subject).or_insert(ek), ek);
    }
}

/// The stock of each party, told in another way: of the numbers that the
/// set-up gave to an OEM desk alone, all but those in the credentials that it
/// opened. No command teaches a desk a number that nobody else knows, and none
/// teaches an unused number of one desk to another party.
fn check_stock(file: &[u8]) {
    let before = run_bytes(file, 0);
    let after = run_bytes(file, usize::MAX);
    let mut state = vec![1; STATE_BYTES];
    let (parties, terms) = match load(file, &mut state) {
        LoadAnswer::Refused { number, place } => {
            for (party, iaks_per_board) in [(0, 1), (0, 0), (255, 1)] {
                assert_eq!(
                    stock_bytes(file, party, iaks_per_board),
                    StockAnswer::Refused { number, place }
                );
            }
            return;
        }
        LoadAnswer::Loaded { parties, terms, .. } => (parties, terms as u16),
    };
    for party in 0..parties as u8 {
        if file[2 * usize::from(party) + 1] != 2 {
            assert_eq!(
                stock_bytes(file, party, 1),
                StockAnswer::Refused {
                    number: 39,
                    place: 0
                }
            );
            continue;
        }
        let given = (0..terms)
            .filter(|t| file[place(&before, *t)] == 0x16 && before.term(*t)[0] == 1 << party)
            .count() as u32;
        let opened = (0..terms)
            .filter(|t| matches!(after.term(*t)[2..4], [2 | 3, desk] if desk == party))
            .count() as u32;
        let stock = given - opened;
        for iaks_per_board in [1, 3] {
            assert_eq!(
                stock_bytes(file, party, iaks_per_board),
                StockAnswer::Boards {
                    boards: stock / iaks_per_board,
                    rest: stock % iaks_per_board
                }
            );
        }
    }
}

/// Each known quote by a FixedTPM Restricted key tells what the register of the
/// TPM that holds the key showed before some command.
fn check_quotes(file: &[u8], terms: u16, commands: usize) {
    let ran = run_bytes(file, commands);
    let mut runs = Vec::new();
    for t in 0..terms {
        let at = place(&ran, t);
        if ran.term(t)[0] == 0 || file[at] != 0x13 {
            continue;
        }
        let (message, key) = (two(file, at + 1), two(file, at + 3));
        let body = place(&ran, message);
        if file[body] != 0x1C || file[place(&ran, key) + 3] & 9 != 9 {
            continue;
        }
        assert_eq!(ran.term(key)[1].count_ones(), 1);
        let tpm = ran.term(key)[1].trailing_zeros() as u8;
        let (register, value) = (file[body + 1], two(file, body + 2));
        if runs.is_empty() {
            runs = (0..commands).map(|n| run_bytes(file, n)).collect();
        }
        assert!(runs.iter().any(|r| r.register(tpm, register) == value));
    }
}

/// Registers are of devices alone, and each shows nothing, its 1B or a 12.
fn check_registers(file: &[u8], ran: &Ran, parties: u32) {
    for party in 0..8 {
        let device = u32::from(party) < parties && file[2 * usize::from(party) + 1] == 0;
        for register in 0..24 {
            let shown = ran.register(party, register);
            if shown == 0xFFFF {
                continue;
            }
            assert!(device);
            let at = place(ran, shown);
            assert!(file[at] == 0x12 || file[at..at + 2] == [0x1B, register]);
        }
    }
}

fn check(file: &[u8], n: usize) {
    check_stock(file);
    let ran = run_bytes(file, n);
    let mut state = vec![1; STATE_BYTES];
    match (load(file, &mut state), ran.answer) {
        (
            LoadAnswer::Refused { number, place },
            RunAnswer::Refused {
                number: again,
                place: there,
            },
        ) => {
            assert_eq!((number, place), (again, there));
            assert!((place as usize) < file.len());
        }
        (
            LoadAnswer::Loaded {
                parties,
                terms,
                commands,
            },
            RunAnswer::Ran { .. },
        ) => {
            check_registers(file, &ran, parties);
            check_quotes(file, terms as u16, n.min(commands as usize));
            let (accepted, refused, issued) = ran.totals();
            let count = n.min(commands as usize);
            let refusals = ran.outcomes.iter().filter(|o| **o != 0).count();
            assert_eq!((accepted + refused) as usize, count);
            assert_eq!(refusals, refused as usize);
            for outcome in &ran.outcomes {
                assert!(matches!(outcome, 0 | 13..=29 | 31..=33));
                // No refusal any more, and the number is never used again.
                assert_ne!(*outcome, 22);
            }
            assert_eq!(run_bytes(file, 0).state, state);
            let mut paths = Vec::new();
            for entry in &ran.ledger[..issued as usize] {
                check_entry(file, &ran, entry);
                let mut list = vec![0; LIST_PLACES];
                let mut again = ran.clone();
                let answer = path(
                    file,
                    n,
                    &mut again.state,
                    &mut again.ledger,
                    &mut again.outcomes,
                    &mut again.registers,
                    entry.certificate,
                    &mut list,
                );
                assert_eq!(answer, PathAnswer::Steps(u32::from(entry.depth)));
                assert_eq!(list[1], entry.parent);
                paths.push((entry.certificate, list[usize::from(entry.depth)]));
            }
            check_subjects(file, &ran, &paths);
        }
        both => panic!("{both:?}"),
    }
}

#[test]
fn noise() {
    let mut dice = Dice(0x1234_5678_9ABC_DEF1);
    let kinds: Vec<u8> = [0x01]
        .into_iter()
        .chain(0x10..=0x1C)
        .chain(0x20..=0x22)
        .chain(0x30..=0x45)
        .collect();
    for _ in 0..2000 {
        let length = dice.roll(60);
        let file: Vec<u8> = (0..length)
            .map(|_| match dice.roll(3) {
                0 => kinds[dice.roll(kinds.len() as u64) as usize],
                1 => dice.roll(4) as u8,
                _ => 0,
            })
            .collect();
        check(&file, dice.roll(5) as usize);
    }
}

#[test]
fn honest_files_with_changed_bytes() {
    let mut dice = Dice(0xFEED_F00D_0000_0001);
    for good in [
        chain(2).0,
        board().0,
        two_boards().0,
        together().0,
        quoted().0,
    ] {
        let good = good.bytes();
        check(&good, usize::MAX);
        for _ in 0..3000 {
            let mut file = good.clone();
            for _ in 0..=dice.roll(2) {
                let at = dice.roll(file.len() as u64) as usize;
                file[at] = match dice.roll(3) {
                    0 => dice.roll(4) as u8,
                    1 => dice.roll(0x47) as u8,
                    _ => file[at] ^ (1 << dice.roll(8)),
                };
            }
            check(&file, usize::MAX);
        }
    }
}

#[test]
fn honest_terms_with_random_commands() {
    let mut dice = Dice(0xABCD_EF01_2345_6789);
    let (base, ..) = chain(2);
    let terms = u64::from(base.terms());
    for _ in 0..300 {
        let mut b = base.clone();
        for _ in 0..60 {
            let party = dice.roll(4) as u8;
            let t = dice.roll(terms) as u16;
            b.send(party, dice.roll(4) as u8, t);
        }
        check(&b.bytes(), usize::MAX);
    }
}

#[test]
fn requests_at_random_desks() {
    // Keys of 0A and 0B hex, under every kind of parent, each asked for at
    // every desk by every command.
    let mut dice = Dice(0x0A0B_0C0D_0E0F_0102);
    let (mut base, n, issued) = board();
    let second = another_iak(&mut base, &n, 500, 200);
    let iaks = [&n, &second].map(|n| (n.iak_private, n.iak_certificate));
    let parents: Vec<(u16, u16)> = iaks
        .into_iter()
        .chain(issued.map(|a| (a.private, a.certificate)))
        .collect();
    let mut requests = Vec::new();
    let mut certificates = Vec::new();
    for (id, attributes) in [(2000, AK), (2001, ID)] {
        let (public, private) = base.keys(id, attributes);
        let attest = base.attest(public);
        base.hold(n.device, private);
        for (parent_private, parent) in &parents {
            let signed = base.signature(attest, *parent_private);
            let csr = base.ldevid(signed, *parent);
            let hash = base.hash(csr);
            let signature = base.signature(hash, private);
            let request = base.pair(csr, signature);
            base.act(0x32, n.device, signed);
            base.act(0x36, n.device, csr);
            base.act(0x30, n.device, hash);
            base.act(0x31, n.device, signature);
            base.act(0x37, n.device, request);
            base.send(n.device, n.oem, request);
            base.send(n.device, n.owner, request);
            requests.push(request);
        }
        for signer in [n.oem_private, n.owner_private] {
            certificates.push(base.certificate(public, DEV, 200, signer));
        }
    }
    let before = base.commands();
    let mut seen = [0; 32];
    for _ in 0..200 {
        let mut b = base.clone();
        for _ in 0..40 {
            let kind = 0x40 + dice.roll(3) as u8;
            let desk = [n.oem, n.owner][dice.roll(2) as usize];
            let request = requests[dice.roll(requests.len() as u64) as usize];
            let r = certificates[dice.roll(certificates.len() as u64) as usize];
            b.issue(kind, desk, request, r);
        }
        check(&b.bytes(), usize::MAX);
        for outcome in &b.run().outcomes[before..b.commands()] {
            seen[usize::from(*outcome)] += 1;
        }
    }
    // These and no others.
    for (outcome, count) in seen.iter().enumerate() {
        assert_eq!(*count > 0, matches!(outcome, 0 | 13 | 21 | 23 | 27 | 28));
    }
}

#[test]
fn iaks_at_random_boards() {
    // Three EK keys in two TPMs, the first with two certificates; of each, IAKs
    // that ask for one of three Subjects. All are challenged and activated
    // before the first 3F.
    let mut dice = Dice(0x3F31_2803_0405_0607);
    let mut seen = [0; 32];
    for _ in 0..200 {
        let mut b = Build::default();
        let n = iak_terms(&mut b, AK, EK);
        let again = b.certificate(n.ek, TPM, 101, n.maker_private);
        desk_set_up(&mut b, &n);
        device_set_up(&mut b, &n);
        b.give(n.device, again);
        let beside = another_ek(&mut b, &n, 11, 100);
        let second = another_board(&mut b, &n, 12, 100);
        let again = Names {
            ek_certificate: again,
            ..n.clone()
        };
        let mut asked = Vec::new();
        for id in 500..512 {
            let board = [&n, &again, &beside, &second][dice.roll(4) as usize];
            let who = 200 + dice.roll(3) as u16;
            let iak = another_iak_terms(&mut b, board, id, who);
            make_request(&mut b, &iak);
            b.challenge(iak.oem, iak.request, iak.credential);
            b.send(iak.oem, iak.device, iak.credential);
            b.act(0x34, iak.device, iak.credential);
            asked.push((iak, who));
        }
        // What should come of it: the EK key that carries each Subject.
        let mut carriers = HashMap::new();
        let mut closed = Vec::new();
        let mut expected = Vec::new();
        for _ in 0..40 {
            let (iak, who) = &asked[dice.roll(12) as usize];
            let right = dice.roll(8) > 0;
            let r = if right { iak } else { &asked[0].0 }.iak_certificate;
            let at = b.issue_iak(iak.oem, iak.device, iak.credential, r);
            let outcome = if closed.contains(&iak.credential) {
                25
            } else if r != iak.iak_certificate {
                27
            } else if *carriers.entry(*who).or_insert(iak.ek) != iak.ek {
                31
            } else {
                closed.push(iak.credential);
                0
            };
            expected.push((at, outcome));
        }
        check(&b.bytes(), usize::MAX);
        let ran = b.run();
        for (at, outcome) in expected {
            assert_eq!(ran.outcomes[at], outcome);
            seen[usize::from(outcome)] += 1;
        }
        assert_eq!(ran.totals().2 as usize, closed.len());
    }
    // These and no others.
    for (outcome, count) in seen.iter().enumerate() {
        assert_eq!(*count > 0, matches!(outcome, 0 | 25 | 27 | 31));
    }
}

/// What should come of 3F and 43, with the EK key that carries each Subject.
#[derive(Clone, Default)]
struct Expected {
    closed: Vec<u16>,
    carriers: HashMap<u16, u16>,
    issued: Vec<u16>,
}

/// An IAK that waits for its certificate.
struct Waiting {
    iak: Names,
    who: u16,
    /// The devices that know the number.
    knowing: Vec<u8>,
}

impl Expected {
    /// The outcome of a 3F; it is issued if that is 0.
    fn issue(&mut self, waiting: &Waiting, returning: u8, r: u16) -> u8 {
        let Waiting { iak, who, knowing } = waiting;
        if self.closed.contains(&iak.credential) {
            25
        } else if !knowing.contains(&returning) {
            26
        } else if r != iak.iak_certificate {
            27
        } else if *self.carriers.entry(*who).or_insert(iak.ek) != iak.ek {
            31
        } else {
            self.closed.push(iak.credential);
            self.issued.push(r);
            0
        }
    }

    /// The outcome of a 43.
    fn issue_all(&mut self, pairs: &[(&Waiting, u16)], returning: u8) -> u8 {
        let mut certificates: Vec<u16> = pairs.iter().map(|(_, r)| *r).collect();
        certificates.sort();
        certificates.dedup();
        if pairs.is_empty() || certificates.len() < pairs.len() {
            return 32;
        }
        let before = self.clone();
        for (waiting, r) in pairs {
            let outcome = self.issue(waiting, returning, *r);
            if outcome != 0 {
                *self = before;
                return outcome;
            }
        }
        0
    }
}

#[test]
fn iaks_together_at_random_boards() {
    // Two EK keys in one TPM and one in another; of each, IAKs that ask for one
    // of three Subjects. Some numbers go to the other board too. Then 3F and
    // 43 of any of them, with any pairs empty.
    let mut dice = Dice(0x4332_3125_2627_0809);
    let mut seen = [0; 33];
    let mut sizes = [0; 5];
    for _ in 0..300 {
        let mut b = Build::default();
        let n = iak_terms(&mut b, AK, EK);
        desk_set_up(&mut b, &n);
        device_set_up(&mut b, &n);
        let beside = another_ek(&mut b, &n, 11, 100);
        let second = another_board(&mut b, &n, 12, 100);
        let devices = [n.device, second.device];
        let mut asked = Vec::new();
        for id in 500..516 {
            let board = [&n, &n, &beside, &second][dice.roll(4) as usize];
            let who = 200 + dice.roll(3) as u16;
            let iak = ready_iak(&mut b, board, id, who);
            let mut knowing = vec![iak.device];
            if dice.roll(4) > 0 {
                for device in devices {
                    b.send(iak.device, device, iak.number);
                }
                knowing = devices.to_vec();
            }
            asked.push(Waiting { iak, who, knowing });
        }
        let mut expected = Expected::default();
        let mut outcomes = Vec::new();
        for _ in 0..24 {
            let returning = devices[dice.roll(8) as usize / 7];
            if dice.roll(6) == 0 {
                let waiting = &asked[dice.roll(16) as usize];
                let (credential, r) = waiting.iak.pair();
                let at = b.issue_iak(n.oem, returning, credential, r);
                let outcome = expected.issue(waiting, returning, r);
                outcomes.push((at, outcome));
                continue;
            }
            let mut pairs = [EMPTY; 4];
            let mut full = Vec::new();
            for pair in &mut pairs {
                if dice.roll(2) == 0 {
                    continue;
                }
                let waiting = &asked[dice.roll(16) as usize];
                *pair = waiting.iak.pair();
                if dice.roll(16) == 0 {
                    pair.1 = asked[dice.roll(16) as usize].iak.iak_certificate;
                }
                full.push((waiting, pair.1));
            }
            let at = b.issue_iaks(n.oem, returning, pairs);
            let outcome = expected.issue_all(&full, returning);
            if outcome == 0 {
                sizes[full.len()] += 1;
            }
            outcomes.push((at, outcome));
        }
        check(&b.bytes(), usize::MAX);
        let ran = b.run();
        for (at, outcome) in outcomes {
            assert_eq!(ran.outcomes[at], outcome);
            seen[usize::from(outcome)] += 1;
        }
        let issued = ran.totals().2 as usize;
        let ledger: Vec<u16> = ran.ledger[..issued]
            .iter()
            .map(|entry| entry.certificate)
            .collect();
        assert_eq!(ledger, expected.issued);
    }
    // These and no others, and 43 with each number of pairs.
    for (outcome, count) in seen.iter().enumerate() {
        assert_eq!(*count > 0, matches!(outcome, 0 | 25 | 26 | 27 | 31 | 32));
    }
    assert_eq!(sizes[0], 0);
    assert!(sizes[1..].iter().all(|count| *count > 0));
}

#[test]
fn stocks_of_random_desks() {
    // Two OEM desks and twelve IAKs of one board, whose requests reach both.
    // Each number is known to any of the parties. Then challenges at either
    // desk, with the rest of the way, and numbers sent about.
    let mut dice = Dice(0x1639_0012_3E24_0A0B);
    let mut stocks = [0; 13];
    for _ in 0..200 {
        let mut b = Build::default();
        let n = iak_terms(&mut b, AK, EK);
        let second = b.party(2);
        desk_set_up(&mut b, &n);
        b.hold(n.device, n.ek_private);
        b.give(n.device, n.ek_certificate);
        let desks = [n.oem, second];
        let mut asked = Vec::new();
        for id in 500..512 {
            let (iak, iak_private) = b.keys(id, AK);
            let csr = b.idevid(DEV, id, n.ek_certificate, iak);
            let csr_hash = b.hash(csr);
            let csr_signature = b.signature(csr_hash, iak_private);
            let request = b.pair(csr, csr_signature);
            let iak_hash = b.hash(iak);
            let number = b.number(id);
            let credential = b.credential(iak_hash, number, n.ek);
            b.hold(n.device, iak_private);
            b.give(n.device, iak);
            b.give(desks[dice.roll(2) as usize], number);
            if dice.roll(3) == 0 {
                b.give(dice.roll(5) as u8, number);
            }
            for (kind, r) in [
                (0x35, csr),
                (0x30, csr_hash),
                (0x31, csr_signature),
                (0x37, request),
            ] {
                b.act(kind, n.device, r);
            }
            for desk in desks {
                b.send(n.device, desk, request);
            }
            asked.push((request, number, credential));
        }
        for _ in 0..dice.roll(30) {
            let (request, number, credential) = asked[dice.roll(12) as usize];
            let desk = desks[dice.roll(2) as usize];
            match dice.roll(4) {
                0 => {
                    b.act(0x33, n.device, credential);
                    b.send(n.device, dice.roll(5) as u8, number);
                }
                1 => {
                    b.send(desk, n.device, credential);
                    b.act(0x34, n.device, credential);
                }
                _ => {
                    b.challenge(desk, request, credential);
                }
            }
        }
        check(&b.bytes(), usize::MAX);
        for desk in desks {
            match b.stock(desk, 1) {
                StockAnswer::Boards { boards, rest: 0 } => stocks[boards as usize] += 1,
                answer => panic!("{answer:?}"),
            }
        }
    }
    assert!(stocks[..6].iter().all(|count| *count > 0), "{stocks:?}");
}

#[test]
fn registers_of_random_devices() {
    // Two devices, each with a key that may quote and one that may not, three
    // registers of which one has no 1B, and a tree of values. Then 44 and 45
    // of any of them, also by a desk, and numbers sent about.
    let mut dice = Dice(0x4445_3314_1516_1B1C);
    let mut seen = [0; 34];
    for _ in 0..300 {
        let mut b = Build::default();
        let parties = [b.party(0), b.party(2), b.party(0)];
        let numbers = [b.number(1), b.number(2)];
        let registers = [3, 7, 11];
        let mut values = vec![b.start(3), b.start(7)];
        // (old, t, r)
        let mut extensions = Vec::new();
        for place in 0..8 {
            let old = values[dice.roll(2 + place) as usize];
            let number = numbers[dice.roll(2) as usize];
            if extensions.iter().any(|(o, t, _)| (*o, *t) == (old, number)) {
                values.push(old);
                continue;
            }
            let r = extension(&mut b, old, number);
            extensions.push((old, number, r));
            values.push(r);
        }
        let starts = [values[0], values[1], 0xFFFF];
        values.sort();
        values.dedup();
        let keys = [(1, AK, 0), (2, CA, 0), (3, AK, 2), (4, 2, 2), (5, 3, 2)];
        let keys = keys.map(|(id, attributes, holder)| {
            let key = b.private(id, attributes);
            b.hold(holder, key);
            (key, attributes, holder)
        });
        // (place of the register, value, number, attributes, holder, r)
        let mut quotes = Vec::new();
        for value in &values {
            for (place, _) in registers.iter().enumerate() {
                for number in numbers {
                    let body = b.quote_body(registers[place], *value, number);
                    let (key, attributes, holder) = keys[dice.roll(5) as usize];
                    let r = b.signature(body, key);
                    quotes.push((place, *value, number, attributes, holder, r));
                }
            }
        }
        let mut shown = [starts, [0xFFFF; 3], starts];
        let mut knows = [[false; 2]; 3];
        for (party, number) in [(0, 0), (2, 1), (1, 0)] {
            b.give(party, numbers[number]);
            knows[usize::from(party)][number] = true;
        }
        let mut expected = Vec::new();
        for _ in 0..60 {
            let party = parties[dice.roll(10) as usize % 3];
            let p = usize::from(party);
            let known = |t: u16| knows[p][usize::from(t == numbers[1])];
            let outcome = match dice.roll(12) {
                0 => {
                    let number = dice.roll(2) as usize;
                    let to = dice.roll(3) as usize;
                    b.send(party, to as u8, numbers[number]);
                    if party == 1 {
                        13
                    } else if !knows[p][number] {
                        14
                    } else {
                        knows[to][number] = true;
                        0
                    }
                }
                1..=5 => {
                    let place = dice.roll(7) as usize % 3;
                    let (old, t, r) = extensions[dice.roll(extensions.len() as u64) as usize];
                    b.extend(party, registers[place], r);
                    if party == 1 {
                        13
                    } else if !known(t) {
                        14
                    } else if shown[p][place] != old {
                        33
                    } else {
                        shown[p][place] = r;
                        0
                    }
                }
                _ => {
                    let (place, value, number, attributes, holder, r) =
                        quotes[dice.roll(quotes.len() as u64) as usize];
                    b.act(0x45, party, r);
                    if party == 1 {
                        13
                    } else if !known(number) {
                        14
                    } else if holder != party {
                        15
                    } else if attributes & 3 != 3 {
                        16
                    } else if shown[p][place] != value {
                        33
                    } else {
                        0
                    }
                }
            };
            expected.push(outcome);
            seen[usize::from(outcome)] += 1;
        }
        check(&b.bytes(), usize::MAX);
        let ran = b.run();
        assert_eq!(ran.outcomes[..60], expected);
        for (p, values) in shown.iter().enumerate() {
            for (place, value) in values.iter().enumerate() {
                assert_eq!(ran.register(p as u8, registers[place]), *value);
            }
        }
    }
    // These and no others.
    for (outcome, count) in seen.iter().enumerate() {
        assert_eq!(*count > 0, matches!(outcome, 0 | 13..=16 | 33));
    }
}
