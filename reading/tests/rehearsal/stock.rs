//! The stock of numbers of an OEM desk, in boards; refusal 39.

use crate::builder::*;
use reading::*;

/// The call refuses a party or the IAKs per board.
const NO_DESK: StockAnswer = StockAnswer::Refused {
    number: 39,
    place: 0,
};

fn boards(boards: u32, rest: u32) -> StockAnswer {
    StockAnswer::Boards { boards, rest }
}

/// The stock, told by boards of one IAK and by a board that is too large.
fn in_stock(b: &Build, desk: u8, count: u32) {
    assert_eq!(b.stock(desk, 1), boards(count, 0));
    assert_eq!(b.stock(desk, u32::MAX), boards(0, count));
}

/// An OEM desk that so many numbers are given to, and these.
fn desk_with(count: u16) -> (Build, u8, Vec<u16>) {
    let mut b = Build::default();
    let oem = b.party(2);
    let numbers: Vec<u16> = (0..count).map(|id| b.number(id)).collect();
    for number in &numbers {
        b.give(oem, *number);
    }
    (b, oem, numbers)
}

#[test]
fn nothing_in_stock() {
    // No term, and a number that nobody knows.
    let (mut b, oem, _) = desk_with(0);
    in_stock(&b, oem, 0);
    let number = b.number(1);
    in_stock(&b, oem, 0);
    for iaks_per_board in [1, 2, 1024, u32::MAX] {
        assert_eq!(b.stock(oem, iaks_per_board), boards(0, 0));
    }
    // Known to another party alone, of each role.
    for role in 0..4 {
        let mut b = b.clone();
        let other = b.party(role);
        b.give(other, number);
        in_stock(&b, oem, 0);
    }
}

#[test]
fn numbers_of_the_desk_alone() {
    for count in [1, 2, 3, 50] {
        let (mut b, oem, numbers) = desk_with(count);
        in_stock(&b, oem, u32::from(count));
        // Given again, it is the same number; and one that is not given.
        b.give(oem, numbers[0]);
        b.number(2000);
        in_stock(&b, oem, u32::from(count));
    }
}

#[test]
fn desk_without_a_key() {
    // The role makes the desk; a 22 is not asked for.
    let (mut b, oem, _) = desk_with(2);
    in_stock(&b, oem, 2);
    let key = b.private(1, CA);
    b.hold(oem, key);
    in_stock(&b, oem, 2);
    b.desk_key(oem, key);
    in_stock(&b, oem, 2);
}

#[test]
fn numbers_that_another_party_knows() {
    // Each two of eight desks: the number that both know is in no stock, and
    // each has its own.
    for one in 0..8 {
        for other in 0..8 {
            if one == other {
                continue;
            }
            let mut b = Build::default();
            for _ in 0..8 {
                b.party(2);
            }
            let [own, shared, others] = [1, 2, 3].map(|id| b.number(id));
            b.give(one, own);
            b.give(one, shared);
            b.give(other, shared);
            b.give(other, others);
            for party in 0..8 {
                in_stock(&b, party, u32::from(party == one || party == other));
            }
        }
    }
    // A party of each role.
    for role in 0..4 {
        let (mut b, oem, numbers) = desk_with(3);
        let other = b.party(role);
        b.give(other, numbers[1]);
        in_stock(&b, oem, 2);
    }
    // All parties.
    let (mut b, oem, numbers) = desk_with(3);
    for role in [0, 0, 1, 2, 3, 3, 2] {
        let other = b.party(role);
        b.give(other, numbers[0]);
    }
    in_stock(&b, oem, 2);
}

#[test]
fn two_desks_have_their_own_stock() {
    let (mut b, first, _) = desk_with(3);
    let second = b.party(2);
    for id in 100..105 {
        let number = b.number(id);
        b.give(second, number);
    }
    in_stock(&b, first, 3);
    in_stock(&b, second, 5);
}

#[test]
fn numbers_that_are_sent() {
    let (mut b, oem, numbers) = desk_with(2);
    let device = b.party(0);
    let owner = b.party(3);
    let number = b.number(100);
    b.give(device, number);
    in_stock(&b, oem, 2);
    // The desk learns it, but not alone.
    let at = b.send(device, oem, number);
    assert_eq!(b.outcome(at), 0);
    assert!(b.run().knows(oem, number));
    in_stock(&b, oem, 2);
    // A desk may send no number, and a device none that it does not know.
    let at = b.send(oem, owner, numbers[0]);
    refused_cleanly(&b, at, 13);
    let at = b.send(device, owner, numbers[0]);
    refused_cleanly(&b, at, 14);
    in_stock(&b, oem, 2);
}

#[test]
fn used_numbers() {
    let (mut b, n) = asked();
    let spare = b.number(78);
    b.give(n.oem, spare);
    in_stock(&b, n.oem, 2);
    // Refused challenges use none.
    let at = b.challenge(n.oem, n.csr, n.credential);
    refused_cleanly(&b, at, 19);
    let at = b.challenge(n.owner, n.request, n.credential);
    refused_cleanly(&b, at, 13);
    in_stock(&b, n.oem, 2);
    // Used, though this desk alone still knows it.
    let at = b.challenge(n.oem, n.request, n.credential);
    assert_eq!(b.outcome(at), 0);
    assert_eq!(b.run().term(n.number)[..3], [1 << n.oem, 0, 1]);
    in_stock(&b, n.oem, 1);
    // A second challenge with it is refused and uses none.
    let at = b.challenge(n.oem, n.request, n.credential);
    refused_cleanly(&b, at, 24);
    in_stock(&b, n.oem, 1);
    // It does not come back, neither open nor closed.
    b.send(n.oem, n.device, n.credential);
    in_stock(&b, n.oem, 1);
    b.act(0x34, n.device, n.credential);
    in_stock(&b, n.oem, 1);
    let at = b.issue_iak(n.oem, n.device, n.credential, n.iak_certificate);
    assert_eq!(b.outcome(at), 0);
    in_stock(&b, n.oem, 1);
    // The other one, for the same IAK again.
    let credential = b.credential(n.iak_hash, spare, n.ek);
    in_stock(&b, n.oem, 1);
    let at = b.challenge(n.oem, n.request, credential);
    assert_eq!(b.outcome(at), 0);
    in_stock(&b, n.oem, 0);
}

#[test]
fn a_whole_board_used() {
    let (mut b, iaks, _) = together();
    let n = &iaks[0];
    in_stock(&b, n.oem, 0);
    for id in 2000..2006 {
        let number = b.number(id);
        b.give(n.oem, number);
    }
    assert_eq!(b.stock(n.oem, 4), boards(1, 2));
    // A seventh comes with one more IAK, whose challenge uses it.
    let more = another_iak_terms(&mut b, n, 503, 200);
    assert_eq!(b.stock(n.oem, 4), boards(1, 3));
    make_request(&mut b, &more);
    activate(&mut b, &more);
    assert_eq!(b.stock(n.oem, 4), boards(1, 2));
}

#[test]
fn terms_that_name_a_number_of_the_desk() {
    // Nobody knows any of them, and no device can make one.
    let (mut b, oem, numbers) = desk_with(1);
    let number = numbers[0];
    let device = b.party(0);
    let (ek, ek_private) = b.keys(1, EK);
    let plain = b.private(2, 2);
    let ek_hash = b.hash(ek);
    let hash = b.hash(number);
    let signature = b.signature(number, plain);
    let credential = b.credential(ek_hash, number, ek);
    let pair = b.pair(number, number);
    b.give(device, ek);
    b.hold(device, ek_private);
    b.hold(device, plain);
    in_stock(&b, oem, 1);
    b.act(0x30, device, ek_hash);
    for (kind, r) in [
        (0x30, hash),
        (0x31, signature),
        (0x33, credential),
        (0x34, credential),
        (0x37, pair),
    ] {
        let at = b.act(kind, device, r);
        refused_cleanly(&b, at, 14);
    }
    in_stock(&b, oem, 1);
}

#[test]
fn numbers_inside_known_terms() {
    // The device knows a number and makes terms of it. A 12 and a 15 do not
    // open it to the desk, a 13 and a 1A do, but not to the desk alone. The
    // desk has a number of its own besides.
    let (mut b, oem, _) = desk_with(1);
    let second = b.party(2);
    let device = b.party(0);
    let number = b.number(100);
    let (ek, ek_private) = b.keys(1, EK);
    let plain = b.private(2, 2);
    let ek_hash = b.hash(ek);
    let hash = b.hash(number);
    let signature = b.signature(number, plain);
    let credential = b.credential(ek_hash, number, ek);
    let pair = b.pair(ek, number);
    let pair_of_hash = b.pair(hash, credential);
    b.give(device, ek);
    b.give(device, number);
    b.hold(device, ek_private);
    b.hold(device, plain);
    b.act(0x30, device, ek_hash);
    for (kind, r, opens) in [
        (0x30, hash, false),
        (0x33, credential, false),
        (0x37, pair_of_hash, false),
        (0x31, signature, true),
        (0x37, pair, true),
    ] {
        let at = b.act(kind, device, r);
        assert_eq!(b.outcome(at), 0);
        // At this desk, at the other, and at both.
        for desks in [&[oem][..], &[second], &[oem, second]] {
            let mut b = b.clone();
            for desk in desks {
                let at = b.send(device, *desk, r);
                assert_eq!(b.outcome(at), 0);
                assert!(b.run().knows(*desk, r));
                assert_eq!(b.run().knows(*desk, number), opens);
            }
            in_stock(&b, oem, 1);
            in_stock(&b, second, 0);
            // The number given to the desk too: the device knows it.
            b.give(oem, number);
            in_stock(&b, oem, 1);
            in_stock(&b, second, 0);
        }
    }
}

#[test]
fn other_terms_are_not_counted() {
    // A public key and an EK certificate that this desk alone knows.
    let mut b = Build::default();
    let n = iak_terms(&mut b, AK, EK);
    desk_set_up(&mut b, &n);
    b.give(n.oem, n.iak);
    b.give(n.oem, n.ek_certificate);
    let ran = b.run();
    for t in [n.iak, n.ek_certificate, n.ek] {
        assert_eq!(ran.term(t)[0], 1 << n.oem);
    }
    in_stock(&b, n.oem, 0);
    // A held key is in the desk's TPM, a number only known.
    assert!(ran.table(n.oem, n.oem_private));
    b.give(n.oem, n.number);
    in_stock(&b, n.oem, 1);
}

#[test]
fn credentials_are_not_counted() {
    // Open, and this desk alone knows it; the number is used.
    let (mut b, n) = asked();
    in_stock(&b, n.oem, 1);
    b.challenge(n.oem, n.request, n.credential);
    assert_eq!(b.run().term(n.credential)[..3], [1 << n.oem, 0, 2]);
    in_stock(&b, n.oem, 0);
    // Closed, and the issued certificate too is known to the desk.
    let (b, n) = honest();
    assert_eq!(b.run().term(n.credential)[2], 3);
    assert_eq!(b.run().term(n.iak_certificate)[0], 1 << n.oem);
    in_stock(&b, n.oem, 0);
}

#[test]
fn boards_and_rest() {
    let (b, oem, _) = desk_with(7);
    for (iaks_per_board, whole, rest) in [
        (1, 7, 0),
        (2, 3, 1),
        (3, 2, 1),
        (4, 1, 3),
        (5, 1, 2),
        (6, 1, 1),
        (7, 1, 0),
        (8, 0, 7),
        (100, 0, 7),
        (u32::MAX, 0, 7),
    ] {
        assert_eq!(b.stock(oem, iaks_per_board), boards(whole, rest));
    }
    // The most that a file can have.
    let (b, oem, _) = desk_with(1024);
    for (iaks_per_board, whole, rest) in [
        (1, 1024, 0),
        (3, 341, 1),
        (4, 256, 0),
        (512, 2, 0),
        (513, 1, 511),
        (1023, 1, 1),
        (1024, 1, 0),
        (1025, 0, 1024),
        (u32::MAX - 1, 0, 1024),
        (u32::MAX, 0, 1024),
    ] {
        assert_eq!(b.stock(oem, iaks_per_board), boards(whole, rest));
    }
    // stock = boards times IAKs per board + rest.
    for count in 0..20 {
        let (b, oem, _) = desk_with(count);
        for iaks_per_board in 1..25 {
            let StockAnswer::Boards { boards, rest } = b.stock(oem, iaks_per_board) else {
                panic!("refused");
            };
            assert_eq!(boards * iaks_per_board + rest, u32::from(count));
            assert!(rest < iaks_per_board);
        }
    }
}

#[test]
fn no_iaks_per_board() {
    let (b, n) = honest();
    // Also where the party would not do either.
    for party in [n.oem, n.device, n.maker, n.owner, 4, 7, 8, 255] {
        assert_eq!(b.stock(party, 0), NO_DESK);
    }
    let (b, oem, _) = desk_with(0);
    assert_eq!(b.stock(oem, 0), NO_DESK);
    let (b, oem, _) = desk_with(5);
    assert_eq!(b.stock(oem, 0), NO_DESK);
}

#[test]
fn no_oem_desk() {
    let (mut b, n) = honest();
    // A device, a TPM maker and an owner desk, each with a number of its own.
    for (party, id) in [(n.device, 500), (n.maker, 501), (n.owner, 502)] {
        let number = b.number(id);
        b.give(party, number);
    }
    assert_eq!(b.stock(n.oem, 1), boards(0, 0));
    for iaks_per_board in [1, 2, u32::MAX] {
        for party in [n.device, n.maker, n.owner] {
            assert_eq!(b.stock(party, iaks_per_board), NO_DESK);
        }
        // Not declared, and no party of any file.
        for party in [4, 5, 6, 7, 8, 9, 10, 16, 127, 128, 255] {
            assert_eq!(b.stock(party, iaks_per_board), NO_DESK);
        }
    }
    // One more desk takes the next place, and no other.
    let next = b.party(2);
    assert_eq!(next, 4);
    assert_eq!(b.stock(4, 1), boards(0, 0));
    assert_eq!(b.stock(5, 1), NO_DESK);
    // Eight desks, and none after them.
    let mut b = Build::default();
    for _ in 0..8 {
        b.party(2);
    }
    for party in 0..8 {
        assert_eq!(b.stock(party, 1), boards(0, 0));
    }
    for party in 8..=255 {
        assert_eq!(b.stock(party, 1), NO_DESK);
    }
    // The empty file has no party.
    for party in [0, 1, 2, 7, 8, 255] {
        assert_eq!(stock_bytes(&[], party, 1), NO_DESK);
    }
}

const FILLER: Entry = Entry {
    certificate: 9,
    parent: 8,
    depth: 7,
};

/// What is left in the buffers.
struct Left {
    state: Vec<u8>,
    ledger: Vec<Entry>,
    outcomes: Vec<u8>,
    registers: Vec<u8>,
}

/// The call on filled buffers of these lengths, and what is left in them.
fn on_buffers(
    file: &[u8],
    (state, ledger, outcomes, registers): (usize, usize, usize, usize),
    (party, iaks_per_board): (u8, u32),
) -> (StockAnswer, Left) {
    let mut state = vec![0xAA; state];
    let mut ledger = vec![FILLER; ledger];
    let mut outcomes = vec![0xBB; outcomes];
    let mut registers = vec![0xDD; registers];
    let answer = stock(
        file,
        &mut state,
        &mut ledger,
        &mut outcomes,
        &mut registers,
        party,
        iaks_per_board,
    );
    let left = Left {
        state,
        ledger,
        outcomes,
        registers,
    };
    (answer, left)
}

impl Left {
    fn untouched(&self) -> bool {
        self.untouched_from(0, 0, 0, 0)
    }

    fn untouched_after_first_parts(&self) -> bool {
        self.untouched_from(8192, 1024, 8192, 384)
    }

    fn untouched_from(
        &self,
        state: usize,
        ledger: usize,
        outcomes: usize,
        registers: usize,
    ) -> bool {
        self.state[state..].iter().all(|byte| *byte == 0xAA)
            && self.ledger[ledger..].iter().all(|entry| *entry == FILLER)
            && self.outcomes[outcomes..].iter().all(|byte| *byte == 0xBB)
            && self.registers[registers..].iter().all(|byte| *byte == 0xDD)
    }
}

/// Arguments for the file of `honest`: a right one, and some for 39.
const ARGUMENTS: [(u8, u32); 6] = [(2, 1), (2, 0), (0, 1), (3, 0), (7, 1), (255, 0)];

#[test]
fn short_buffers_come_first() {
    let good = honest().0.bytes();
    let long = vec![0xFF; FILE_BYTES + 1];
    let bad = vec![0xFF];
    let refused = StockAnswer::Refused {
        number: 1,
        place: 0,
    };
    for file in [&good, &long, &bad] {
        for lengths in [
            (8191, 1024, 8192, 384),
            (8192, 1023, 8192, 384),
            (8192, 1024, 8191, 384),
            (8192, 1024, 8192, 383),
            (0, 1024, 8192, 384),
            (8192, 0, 8192, 384),
            (8192, 1024, 0, 384),
            (8192, 1024, 8192, 0),
            (0, 0, 0, 0),
        ] {
            for arguments in ARGUMENTS {
                let (answer, left) = on_buffers(file, lengths, arguments);
                assert_eq!(answer, refused);
                assert!(left.untouched());
            }
        }
    }
}

#[test]
fn long_file_comes_before_39() {
    let mut long = honest().0.bytes();
    long.resize(FILE_BYTES + 1, 0);
    for arguments in ARGUMENTS {
        let (answer, left) = on_buffers(&long, (8200, 1030, 8200, 390), arguments);
        assert_eq!(
            answer,
            StockAnswer::Refused {
                number: 2,
                place: 0
            }
        );
        assert!(left.untouched());
    }
}

#[test]
fn load_refusals_come_before_39() {
    let (b, _) = honest();
    let end = b.bytes().len() as u32;
    let mut files = Vec::new();
    // An unknown kind, a record cut short, a section out of order, an
    // undeclared party, a wrong kind of term.
    for (number, more) in [
        (3, &[0xFF][..]),
        (3, &[0x46]),
        (4, &[0x30]),
        (5, &[0x01, 0x00]),
        (7, &[0x3C, 9, 0, 0, 0]),
        (8, &[0x30, 0, 0, 0]),
    ] {
        files.push(([&b.bytes()[..], more].concat(), number, end));
    }
    // A ninth party.
    let mut parties = b.clone();
    for _ in 0..5 {
        parties.party(2);
    }
    files.push((parties.bytes(), 6, 16));
    // A term alike an earlier one, and each record of the set-up.
    let mut base = Build::default();
    let n = iak_terms(&mut base, AK, EK);
    let place = base.bytes().len() as u32;
    for number in 9..=12 {
        let mut b = base.clone();
        match number {
            9 => {
                b.number(77);
            }
            10 => b.give(n.oem, n.credential),
            11 => {
                b.hold(n.device, n.ek_private);
                b.hold(n.oem, n.ek_private);
            }
            _ => b.desk_key(n.oem, n.oem_private),
        }
        let place = if number == 11 { place + 4 } else { place };
        files.push((b.bytes(), number, place));
    }
    for (file, number, place) in files {
        assert_eq!(
            run_bytes(&file, usize::MAX).answer,
            RunAnswer::Refused { number, place }
        );
        for arguments in ARGUMENTS {
            let (answer, left) = on_buffers(&file, (8200, 1030, 8200, 390), arguments);
            assert_eq!(answer, StockAnswer::Refused { number, place });
            // First parts zero, and no more.
            assert!(left.state[..8192].iter().all(|byte| *byte == 0));
            assert!(left.ledger[..1024].iter().all(|e| *e == Entry::default()));
            assert!(left.outcomes[..8192].iter().all(|byte| *byte == 0));
            assert!(left.registers[..384].iter().all(|byte| *byte == 0));
            assert!(left.untouched_after_first_parts());
        }
    }
}

#[test]
fn buffers_are_those_of_a_run_of_all() {
    // With accepted and refused commands and a ledger; also at 39.
    for b in [
        chain(8).0,
        board().0,
        two_boards().0,
        together().0,
        quoted().0,
    ] {
        let ran = b.run();
        let (accepted, _, issued) = ran.totals();
        assert!(accepted > 0 && issued > 0);
        for arguments in ARGUMENTS {
            let (answer, left) = on_buffers(&b.bytes(), (9000, 1100, 9000, 400), arguments);
            if arguments == (2, 1) {
                assert_eq!(answer, boards(0, 0));
            } else {
                assert_eq!(answer, NO_DESK);
            }
            assert_eq!(left.state[..8192], ran.state);
            assert_eq!(left.ledger[..1024], ran.ledger);
            assert_eq!(left.outcomes[..8192], ran.outcomes);
            assert_eq!(left.registers[..384], ran.registers);
            assert!(left.untouched_after_first_parts());
        }
    }
}

#[test]
fn last_command_is_run() {
    // A file with no room for one more, its last command the one that uses
    // the number.
    let (mut b, n) = asked();
    while b.bytes().len() + 4 + 6 <= FILE_BYTES {
        b.act(0x30, n.device, n.csr_hash);
    }
    in_stock(&b, n.oem, 1);
    let at = b.challenge(n.oem, n.request, n.credential);
    assert!(at > 8000 && at < OUTCOMES);
    assert_eq!(b.outcome(at), 0);
    in_stock(&b, n.oem, 0);
}
