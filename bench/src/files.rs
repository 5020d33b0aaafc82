//! The files that are timed, the same at every run.

use crate::walk;
use birdweekly::{LEDGER_ENTRIES, OUTCOME_BYTES, REGISTER_BYTES, STATE_BYTES};
use worlds::Rng;

const FILE_LIMIT: usize = 32_768;
const TERM_LIMIT: u16 = 1_024;

const DEVICE: u8 = 0;
const MAKER: u8 = 1;

/// Attributes of an attestation key, an endorsement key, a key that signs anything, and a signing key of a desk or
/// maker.
const AK: u8 = 0x0B;
const EK: u8 = 0x0D;
const SIGN: u8 = 0x02;
const DESK_KEY: u8 = 0x0A;

/// Subject byte.
const TPM: u8 = 0;
const BOARD: u8 = 1;

/// A file in the making.
#[derive(Default)]
struct Draft {
    bytes: Vec<u8>,
    terms: u16,
}

impl Draft {
    fn word(&mut self, word: u16) {
        self.bytes.extend(word.to_be_bytes());
    }

    fn party(&mut self, role: u8) {
        self.bytes.extend([0x01, role]);
    }

    /// A term of a kind that has words alone; its number.
    fn term(&mut self, kind: u8, words: &[u16]) -> u16 {
        self.bytes.push(kind);
        words.iter().for_each(|&word| self.word(word));
        self.terms += 1;
        self.terms - 1
    }

    fn public(&mut self, id: u16, attributes: u8) -> u16 {
        let t = self.term(0x10, &[id]);
        self.bytes.push(attributes);
        t
    }

    fn private(&mut self, id: u16, attributes: u8) -> u16 {
        let t = self.term(0x11, &[id]);
        self.bytes.push(attributes);
        t
    }

    fn hash(&mut self, t: u16) -> u16 {
        self.term(0x12, &[t])
    }

    fn number(&mut self, id: u16) -> u16 {
        self.term(0x16, &[id])
    }

    fn certificate(&mut self, key: u16, tag: u8, number: u16, signer: u16) -> u16 {
        let t = self.term(0x19, &[key]);
        self.bytes.push(tag);
        self.word(number);
        self.word(signer);
        t
    }

    /// A 17 with a device Subject.
    fn idevid(&mut self, serial: u16, certificate: u16, key: u16) -> u16 {
        self.word(u16::from_be_bytes([0x17, BOARD]));
        [serial, certificate, key].into_iter().for_each(|word| self.word(word));
        self.terms += 1;
        self.terms - 1
    }

    fn pair(&mut self, t: u16, u: u16) -> u16 {
        self.term(0x1A, &[t, u])
    }

    /// A set-up record, or a command, of a party and a term.
    fn act(&mut self, kind: u8, party: u8, t: u16) {
        self.bytes.extend([kind, party]);
        self.word(t);
    }

    /// As many of these as the file has room for.
    fn fill(&mut self, mut next: impl FnMut(usize) -> (u8, u8, u16)) {
        for i in 0..(FILE_LIMIT - self.bytes.len()) / 4 {
            let (kind, party, t) = next(i);
            self.act(kind, party, t);
        }
    }
}

fn numbers(factor: u16) -> Draft {
    let mut f = Draft::default();
    for i in 0..TERM_LIMIT {
        f.number(i.wrapping_mul(factor));
    }
    f
}

fn certificates() -> Draft {
    let mut f = Draft::default();
    let key = f.public(1, DESK_KEY);
    let signer = f.private(1, DESK_KEY);
    for i in 0..1_022 {
        f.certificate(key, BOARD, i, signer);
    }
    f
}

fn keys_and_certificates() -> Draft {
    let mut f = Draft::default();
    let signer = f.private(0, DESK_KEY);
    for i in 0..511 {
        f.public(i, DESK_KEY);
    }
    for i in 0..512 {
        f.certificate(1 + i % 511, BOARD, i, signer);
    }
    f
}

fn key_pairs_and_pairs() -> Draft {
    let mut f = Draft::default();
    let mut rng = Rng::new(1, 20);
    for i in 0..256 {
        f.public(i, AK);
        f.private(i, AK);
    }
    for i in 0..512 {
        f.pair(i, rng.below(512) as u16);
    }
    f
}

fn nested_pairs() -> Draft {
    let mut f = Draft::default();
    let mut t = f.number(0);
    for _ in 0..1_023 {
        t = f.pair(t, t);
    }
    f
}

/// 223 bytes: a device and 65 terms; and what the commands 30 to 37 may make of them.
fn device() -> (Draft, [Vec<u16>; 8]) {
    let mut f = Draft::default();
    f.party(DEVICE);
    let public = f.public(0, AK);
    let private = f.private(0, AK);
    let number = f.number(0);
    let hash = f.hash(public);
    let signature = f.term(0x13, &[hash, private]);
    let attest = f.term(0x14, &[public]);
    let certified = f.term(0x13, &[attest, private]);
    let credential = f.term(0x15, &[hash, number, public]);
    let certificate = f.certificate(public, BOARD, 1, private);
    // Kind and Subject byte are a word together.
    f.word(u16::from_be_bytes([0x17, BOARD]));
    [1, certificate, public].into_iter().for_each(|word| f.word(word));
    let request = f.terms;
    f.terms += 1;
    let next = f.term(0x18, &[certified, certificate]);
    let pair = f.pair(request, signature);
    let other = f.pair(next, signature);
    let mut hashes = vec![hash];
    for i in 0..52 {
        hashes.push(f.hash(hashes[i]));
    }
    let results = [
        hashes,
        vec![signature, certified],
        vec![certified],
        vec![credential],
        vec![credential],
        vec![request],
        vec![next],
        vec![pair, other],
    ];
    (f, results)
}

/// The first so many kinds from 30 on, in no order.
fn commands(kinds: usize) -> Draft {
    let (mut f, results) = device();
    let mut rng = Rng::new(2, 20);
    f.fill(|_| {
        let kind = rng.below(kinds);
        (0x30 + kind as u8, 0, rng.pick(&results[kind]))
    });
    f
}

fn learning_one_key() -> Draft {
    let mut f = Draft::default();
    f.party(DEVICE);
    let public = f.public(0, AK);
    f.fill(|_| (0x20, 0, public));
    f
}

fn holding_one_key() -> Draft {
    let mut f = Draft::default();
    f.party(DEVICE);
    let private = f.private(0, AK);
    f.fill(|_| (0x21, 0, private));
    f
}

fn learning_in_turn() -> Draft {
    let mut f = Draft::default();
    f.party(MAKER);
    (0..7).for_each(|_| f.party(DEVICE));
    let key = f.public(0, DESK_KEY);
    let signer = f.private(0, DESK_KEY);
    for i in 0..1_022 {
        f.certificate(key, TPM, i, signer);
    }
    f.act(0x21, 0, signer);
    f.act(0x22, 0, signer);
    f.fill(|i| (0x20, (i % 8) as u8, 2 + (i / 8 % 1_022) as u16));
    f
}

/// Public keys that meet in one bucket: of all ids and attributes there are 1,027 in each.
fn one_bucket() -> Draft {
    let mut f = Draft::default();
    for key in (0..1 << 20).step_by(walk::PRIME).take(TERM_LIMIT as usize) {
        f.public(key as u16, (key >> 16) as u8);
    }
    f
}

/// Certificates whose index keys have the lowest 40 bits the same, in buckets of their own.
fn common_beginnings() -> Draft {
    let mut f = Draft::default();
    let key = f.public(0, DESK_KEY);
    for i in 0..16 {
        f.private(i, DESK_KEY);
    }
    for i in 0..TERM_LIMIT - f.terms {
        f.certificate(key, TPM, (i / 16) << 8, 1 + i % 16);
    }
    f
}

/// Both together: the certificates of one public key, by signers 1 on, that meet in so many buckets, and of these the
/// ones with the lowest bits of their keys the same. That order of entering makes the walks as long as any we found.
fn deepest(f: &mut Draft, signers: u16, buckets: usize) {
    let key = f.public(0, DESK_KEY);
    for i in 0..signers {
        f.private(i, DESK_KEY);
    }
    let each = (TERM_LIMIT - f.terms) as usize / buckets;
    for bucket in 0..buckets {
        let all = (0..=u16::MAX).flat_map(|number| (1..=signers).map(move |signer| (number, signer)));
        let index_key = |(number, signer)| walk::key([key as u64, TPM as u64, number as u64, signer as u64]);
        let mut here: Vec<_> = all.filter(|&c| walk::bucket(index_key(c)) == bucket).collect();
        here.sort_by_key(|&c| index_key(c).reverse_bits());
        for &(number, signer) in here.iter().take(each) {
            f.certificate(key, TPM, number, signer);
        }
    }
}

/// Forty signers leave the most certificates with the most bits in common.
fn deepest_alone() -> Draft {
    let mut f = Draft::default();
    deepest(&mut f, 40, 1);
    f
}

/// Eight makers' certificates, and set-up records that teach them to all parties, in no order.
fn deepest_and_learning() -> Draft {
    let mut f = Draft::default();
    (0..8).for_each(|_| f.party(MAKER));
    deepest(&mut f, 8, 2);
    for p in 0..8 {
        f.act(0x21, p, 1 + p as u16);
        f.act(0x22, p, 1 + p as u16);
    }
    let certificates = 9..f.terms as usize;
    let mut rng = Rng::new(3, 20);
    f.fill(|_| (0x20, rng.below(8) as u8, (certificates.start + rng.below(certificates.len())) as u16));
    f
}

fn stored(bytes: &[u8]) -> Draft {
    Draft { bytes: bytes.to_vec(), terms: 0 }
}

/// A device that makes the same terms again and again; where it may not, it holds no key and knows nothing.
fn maker(accepted: bool, shuffled: bool) -> Draft {
    let mut f = Draft::default();
    f.party(DEVICE);
    let [key, key_] = [f.public(0, AK), f.private(0, AK)];
    let [ek, ek_] = [f.public(1, EK), f.private(1, EK)];
    let free = f.private(2, SIGN);
    let number = f.number(0);
    let hash = f.hash(key);
    let signature = f.term(0x13, &[hash, key_]);
    let attest = f.term(0x14, &[key]);
    let certified = f.term(0x13, &[attest, key_]);
    let credential = f.term(0x15, &[hash, number, ek]);
    let certificate = f.certificate(key, BOARD, 1, free);
    let request = f.idevid(1, certificate, key);
    let next = f.term(0x18, &[certified, certificate]);
    let pair = f.pair(request, signature);
    let made = [hash, signature, certified, credential, credential, request, next, pair];
    if accepted {
        [key_, ek_, free].into_iter().for_each(|k| f.act(0x21, 0, k));
        [key, ek, number].into_iter().for_each(|t| f.act(0x20, 0, t));
        f.act(0x3D, 0, certificate);
        made.iter().enumerate().for_each(|(i, &t)| f.act(0x30 + i as u8, 0, t));
    }
    let mut rng = Rng::new(4, 20);
    f.fill(|_| {
        let kind = if shuffled { rng.below(8) } else { 0 };
        (0x30 + kind as u8, 0, made[kind])
    });
    f
}

/// A stored file, and then its last command, of so many bytes, again and again.
fn again(file: &[u8], length: usize) -> Draft {
    let mut f = stored(file);
    let last = f.bytes[f.bytes.len() - length..].to_vec();
    while f.bytes.len() + length <= FILE_LIMIT {
        f.bytes.extend(&last);
    }
    f
}

/// Four pairs, the last of which is refused for those before it (31), again and again. The stored file goes on after
/// that 43: 31 bytes.
fn refused_together() -> Draft {
    let file = include_bytes!("../../crates/cases/data/c43_31_by_three_pairs_before");
    again(&file[..file.len() - 31], 19)
}

/// A request of a device: its 17, the hash, the hash signed, the pair.
fn requested(f: &mut Draft, serial: u16, certificate: u16, key: u16, key_: u16) -> [u16; 4] {
    let body = f.idevid(serial, certificate, key);
    let hash = f.hash(body);
    let signature = f.term(0x13, &[hash, key_]);
    [body, hash, signature, f.pair(body, signature)]
}

/// Serial numbers in a row.
fn in_a_row(i: u16) -> u16 {
    100 + i
}

/// Serial numbers of which 64 after the other share their low ten bits.
fn in_one_bucket(i: u16) -> u16 {
    100 + 1_024 * (i % 64) + i / 64
}

/// As many IAK certificates as a file has terms for: of Subjects with these serial numbers, each by so many OEM desks,
/// all on one EK. Then the first Subject is asked for on another EK, again and again (31).
fn subjects(serial: fn(u16) -> u16, desks: u8) -> Draft {
    const OEM: u8 = 2;
    let (maker, device, first) = (0, 1, 2);
    let mut f = Draft::default();
    f.party(MAKER);
    f.party(DEVICE);
    (0..desks).for_each(|_| f.party(OEM));
    let maker_ = f.private(1, DESK_KEY);
    let keys: Vec<u16> = (0..desks).map(|d| f.private(10 + d as u16, DESK_KEY)).collect();
    // Two EKs and two IAKs, each pair of one id, with certificates and names.
    let eks: Vec<[u16; 2]> = (2..4).map(|id| [f.public(id, EK), f.private(id, EK)]).collect();
    let iaks: Vec<[u16; 2]> = (4..6).map(|id| [f.public(id, AK), f.private(id, AK)]).collect();
    let certificates: Vec<u16> = eks.iter().map(|ek| f.certificate(ek[0], TPM, 1, maker_)).collect();
    let names: Vec<u16> = iaks.iter().map(|iak| f.hash(iak[0])).collect();
    // Of each enrolment the request, and of each desk the number, the credential and the certificate.
    let mut enrolments = Vec::new();
    let enrol = |f: &mut Draft, serial: u16, which: usize, desks: u8| {
        let request = requested(f, serial, certificates[which], iaks[which][0], iaks[which][1]);
        let asked: Vec<[u16; 3]> = (0..desks as usize)
            .map(|d| {
                let number = f.number(f.terms);
                let credential = f.term(0x15, &[names[which], number, eks[which][0]]);
                [number, credential, f.certificate(iaks[which][0], BOARD, serial, keys[d])]
            })
            .collect();
        (request, asked)
    };
    while f.terms + 4 + 3 * desks as u16 + 7 <= TERM_LIMIT {
        let made = enrol(&mut f, serial(enrolments.len() as u16), 0, desks);
        enrolments.push(made);
    }
    let last = enrol(&mut f, serial(0), 1, 1);
    enrolments.push(last);
    f.act(0x21, maker, maker_);
    f.act(0x22, maker, maker_);
    for (d, &key) in keys.iter().enumerate() {
        f.act(0x21, first + d as u8, key);
        f.act(0x22, first + d as u8, key);
    }
    eks.iter().chain(&iaks).for_each(|key| f.act(0x21, device, key[1]));
    certificates.iter().chain(iaks.iter().map(|iak| &iak[0])).for_each(|&t| f.act(0x20, device, t));
    for (_, asked) in &enrolments {
        asked.iter().enumerate().for_each(|(d, a)| f.act(0x20, first + d as u8, a[0]));
    }
    let mut issue = Vec::new();
    for (request, asked) in &enrolments {
        [0x35, 0x30, 0x31, 0x37].into_iter().zip(request).for_each(|(kind, &t)| f.act(kind, device, t));
        for (d, a) in asked.iter().enumerate() {
            let desk = first + d as u8;
            f.bytes.extend([0x3C, device, desk]);
            f.word(request[3]);
            f.act(0x3E, desk, request[3]);
            f.word(a[1]);
            f.bytes.extend([0x3C, desk, device]);
            f.word(a[1]);
            f.act(0x34, device, a[1]);
            issue = [&[0x3F, desk, device][..], &a[1].to_be_bytes(), &a[2].to_be_bytes()].concat();
            f.bytes.extend(&issue);
        }
    }
    while f.bytes.len() + issue.len() <= FILE_LIMIT {
        f.bytes.extend(&issue);
    }
    f
}

/// 1,024 halves of key pairs.
fn keys() -> Draft {
    let mut f = Draft::default();
    for id in 0..512 {
        f.public(id, AK);
        f.private(id, AK);
    }
    f
}

/// The first of the worlds made from seeds that fills a file with commands and issues fifty certificates: enrolments of
/// several boards, honest and hostile, mixed.
fn world() -> Draft {
    let (mut state, mut ledger) = ([0; STATE_BYTES], [reading::Entry::default(); LEDGER_ENTRIES]);
    let (mut outcomes, mut registers) = ([0; OUTCOME_BYTES], [0; REGISTER_BYTES]);
    let full = |file: &Vec<u8>| {
        match reading::run(file, usize::MAX, &mut state, &mut ledger, &mut outcomes, &mut registers) {
            reading::RunAnswer::Ran { accepted, refused, issued } => {
                file.len() + 768 >= FILE_LIMIT && accepted + refused >= 4_500 && issued >= 50
            }
            reading::RunAnswer::Refused { .. } => false,
        }
    };
    Draft { bytes: (0..).map(worlds::world).find(full).unwrap(), terms: 0 }
}

fn nested_and_sent() -> Draft {
    let mut f = Draft::default();
    (0..8).for_each(|_| f.party(DEVICE));
    let number = f.number(0);
    let pairs: Vec<u16> = (0..1_023).scan(number, |t, _| { *t = f.pair(*t, *t); Some(*t) }).collect();
    f.act(0x20, 0, number);
    pairs.iter().for_each(|&t| f.act(0x37, 0, t));
    for receiver in 1..8 {
        f.bytes.extend([0x3C, 0, receiver]);
        f.word(pairs[1_022]);
    }
    f
}

/// A register extended as often as a file has terms for, and its last value quoted again and again.
fn extended_and_quoted() -> Draft {
    let register = 0;
    let mut f = Draft::default();
    f.party(DEVICE);
    let key_ = f.private(0, AK);
    let number = f.number(0);
    f.bytes.extend([0x1B, register]);
    let mut value = f.terms;
    f.terms += 1;
    let mut extends = Vec::new();
    while f.terms + 2 + 2 <= TERM_LIMIT {
        let pair = f.pair(value, number);
        value = f.hash(pair);
        extends.push(value);
    }
    f.bytes.extend([0x1C, register]);
    [value, number].into_iter().for_each(|word| f.word(word));
    let body = f.terms;
    f.terms += 1;
    let quote = f.term(0x13, &[body, key_]);
    f.act(0x21, 0, key_);
    f.act(0x20, 0, number);
    for r in extends {
        f.bytes.extend([0x44, 0, register]);
        f.word(r);
    }
    f.fill(|_| (0x45, 0, quote));
    f
}

/// 1,024 numbers of an OEM desk, party 2.
fn numbers_of_a_desk() -> Draft {
    let mut f = Draft::default();
    f.bytes.extend([0x01, 0x00, 0x01, 0x01, 0x01, 0x02]);
    let numbers: Vec<u16> = (0..TERM_LIMIT).map(|id| f.number(id)).collect();
    numbers.into_iter().for_each(|t| f.act(0x20, 2, t));
    f
}

pub struct File {
    pub name: &'static str,
    pub bytes: Vec<u8>,
}

fn named<const N: usize>(files: [(&'static str, Draft); N]) -> Vec<File> {
    files.into_iter().map(|(name, draft)| File { name, bytes: draft.bytes }).collect()
}

/// The files whose loading is timed.
pub fn loaded() -> Vec<File> {
    named([
        ("empty", Draft::default()),
        ("1,024 numbers", numbers(1)),
        ("1,024 numbers, scattered", numbers(40_503)),
        ("1,024 terms, 1,022 of them certificates", certificates()),
        ("512 keys and 512 certificates", keys_and_certificates()),
        ("512 key pairs", keys()),
        ("256 key pairs and 512 pairs", key_pairs_and_pairs()),
        ("1,023 pairs inside each other", nested_pairs()),
        ("8,136 commands 30", commands(1)),
        ("8,136 commands 30 to 37, shuffled", commands(8)),
        ("set-up 20, of one key", learning_one_key()),
        ("set-up 21, of one key", holding_one_key()),
        ("set-up 20, of 1,022 certificates in turn to 8 parties", learning_in_turn()),
        ("made against the index: 1,024 keys in one bucket", one_bucket()),
        ("made against the index: common beginnings", common_beginnings()),
        ("made against the index: both", deepest_alone()),
        ("both, and set-up 20 shuffled", deepest_and_learning()),
    ])
}

/// The files of which the stock of party 2 is asked for.
pub fn stocks() -> Vec<File> {
    named([
        ("a line of boards", stored(include_bytes!("../../crates/cases/data/s_stock_of_a_line"))),
        ("1,024 numbers of a desk", numbers_of_a_desk()),
    ])
}

/// The files whose run is timed.
pub fn run() -> Vec<File> {
    named([
        ("empty", Draft::default()),
        ("honest IAK", stored(include_bytes!("../../crates/cases/data/s_honest_iak"))),
        ("honest IAK and LAK", stored(include_bytes!("../../crates/cases/data/s_honest_lak"))),
        ("IAK, LAK, IDevID and LDevID", stored(include_bytes!("../../crates/cases/data/s_idevid_and_ldevid"))),
        ("certificates up to depth 8", stored(include_bytes!("../../crates/cases/data/s_depth_8"))),
        ("accepted: commands 30", maker(true, false)),
        ("accepted: commands 30 to 37, shuffled", maker(true, true)),
        ("refused: commands 30", maker(false, false)),
        ("refused: commands 30 to 37, shuffled", maker(false, true)),
        ("commands 3F", again(include_bytes!("../../crates/cases/data/s_honest_iak"), 7)),
        ("commands 3F, Subjects in a row", subjects(in_a_row, 1)),
        ("commands 3F, made against the lists of serial numbers", subjects(in_one_bucket, 1)),
        ("commands 3F, the same by six desks", subjects(in_one_bucket, 6)),
        ("commands 41, issued already", again(include_bytes!("../../crates/cases/data/c41_28"), 6)),
        ("commands 42, issued already", again(include_bytes!("../../crates/cases/data/c42_28"), 6)),
        ("four IAKs together", stored(include_bytes!("../../crates/cases/data/s_four_iaks_together"))),
        ("commands 43, refused at the fourth pair", refused_together()),
        ("a world: enrolments mixed", world()),
        ("1,023 pairs inside each other, sent to seven parties", nested_and_sent()),
        ("a register extended and quoted", extended_and_quoted()),
    ])
}
