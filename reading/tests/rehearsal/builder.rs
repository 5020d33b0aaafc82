//! A small builder of scenario files, and worlds to vary.

use reading::*;

/// Subject bytes.
pub const TPM: u8 = 0;
pub const DEV: u8 = 1;

/// Attributes.
pub const AK: u8 = 0x0B;
pub const EK: u8 = 0x0D;
pub const CA: u8 = 0x0A;
/// Of an IDevID or LDevID.
pub const ID: u8 = 0x0A;

/// The empty pair of a 43.
pub const EMPTY: (u16, u16) = (0xFFFF, 0xFFFF);

/// The attributes of the new key of a 40, 41 or 42.
pub fn new_key(kind: u8) -> u8 {
    if kind == 0x40 { AK } else { ID }
}

/// The sections of a file, each in the order added.
#[derive(Clone, Default)]
pub struct Build {
    parties: Vec<u8>,
    terms: Vec<u8>,
    set_up: Vec<u8>,
    commands: Vec<u8>,
    party_count: u8,
    term_count: u16,
    command_count: usize,
    term_places: Vec<usize>,
}

fn hi(t: u16) -> u8 {
    t.to_be_bytes()[0]
}

fn lo(t: u16) -> u8 {
    t.to_be_bytes()[1]
}

impl Build {
    pub fn bytes(&self) -> Vec<u8> {
        [
            &self.parties[..],
            &self.terms[..],
            &self.set_up[..],
            &self.commands[..],
        ]
        .concat()
    }

    pub fn party(&mut self, role: u8) -> u8 {
        self.parties.extend([0x01, role]);
        self.party_count += 1;
        self.party_count - 1
    }

    fn term(&mut self, record: &[u8]) -> u16 {
        self.term_places.push(self.terms.len());
        self.terms.extend(record);
        self.term_count += 1;
        self.term_count - 1
    }

    /// Where the record of a term starts in the file.
    pub fn place(&self, t: u16) -> usize {
        self.parties.len() + self.term_places[usize::from(t)]
    }

    pub fn terms(&self) -> u16 {
        self.term_count
    }

    pub fn commands(&self) -> usize {
        self.command_count
    }

    pub fn public(&mut self, id: u16, attributes: u8) -> u16 {
        self.term(&[0x10, hi(id), lo(id), attributes])
    }

    pub fn private(&mut self, id: u16, attributes: u8) -> u16 {
        self.term(&[0x11, hi(id), lo(id), attributes])
    }

    /// A public and a private key.
    pub fn keys(&mut self, id: u16, attributes: u8) -> (u16, u16) {
        (self.public(id, attributes), self.private(id, attributes))
    }

    pub fn hash(&mut self, t: u16) -> u16 {
        self.term(&[0x12, hi(t), lo(t)])
    }

    pub fn signature(&mut self, t: u16, private: u16) -> u16 {
        self.term(&[0x13, hi(t), lo(t), hi(private), lo(private)])
    }

    pub fn attest(&mut self, public: u16) -> u16 {
        self.term(&[0x14, hi(public), lo(public)])
    }

    pub fn credential(&mut self, t: u16, number: u16, public: u16) -> u16 {
        self.term(&[
            0x15,
            hi(t),
            lo(t),
            hi(number),
            lo(number),
            hi(public),
            lo(public),
        ])
    }

    pub fn number(&mut self, id: u16) -> u16 {
        self.term(&[0x16, hi(id), lo(id)])
    }

    pub fn idevid(&mut self, what: u8, who: u16, certificate: u16, public: u16) -> u16 {
        self.term(&[
            0x17,
            what,
            hi(who),
            lo(who),
            hi(certificate),
            lo(certificate),
            hi(public),
            lo(public),
        ])
    }

    pub fn ldevid(&mut self, t: u16, certificate: u16) -> u16 {
        self.term(&[0x18, hi(t), lo(t), hi(certificate), lo(certificate)])
    }

    pub fn certificate(&mut self, public: u16, what: u8, who: u16, signer: u16) -> u16 {
        self.term(&[
            0x19,
            hi(public),
            lo(public),
            what,
            hi(who),
            lo(who),
            hi(signer),
            lo(signer),
        ])
    }

    pub fn pair(&mut self, a: u16, b: u16) -> u16 {
        self.term(&[0x1A, hi(a), lo(a), hi(b), lo(b)])
    }

    pub fn start(&mut self, register: u8) -> u16 {
        self.term(&[0x1B, register])
    }

    pub fn quote_body(&mut self, register: u8, value: u16, number: u16) -> u16 {
        self.term(&[0x1C, register, hi(value), lo(value), hi(number), lo(number)])
    }

    fn set(&mut self, record: &[u8]) {
        self.set_up.extend(record);
    }

    /// 20.
    pub fn give(&mut self, party: u8, t: u16) {
        self.set(&[0x20, party, hi(t), lo(t)]);
    }

    /// 21.
    pub fn hold(&mut self, party: u8, t: u16) {
        self.set(&[0x21, party, hi(t), lo(t)]);
    }

    /// 22.
    pub fn desk_key(&mut self, party: u8, t: u16) {
        self.set(&[0x22, party, hi(t), lo(t)]);
    }

    /// Any command; gives its ordinal.
    pub fn raw(&mut self, record: &[u8]) -> usize {
        self.commands.extend(record);
        self.command_count += 1;
        self.command_count - 1
    }

    /// 30 to 37, 3D and 45.
    pub fn act(&mut self, kind: u8, party: u8, r: u16) -> usize {
        self.raw(&[kind, party, hi(r), lo(r)])
    }

    /// 38, 39 and 3A.
    pub fn check(&mut self, kind: u8, party: u8, a: u16, b: u16) -> usize {
        self.raw(&[kind, party, hi(a), lo(a), hi(b), lo(b)])
    }

    /// 3B.
    pub fn check_attributes(&mut self, party: u8, key: u16, attributes: u8) -> usize {
        self.raw(&[0x3B, party, hi(key), lo(key), attributes])
    }

    /// 3C.
    pub fn send(&mut self, party: u8, receiver: u8, t: u16) -> usize {
        self.raw(&[0x3C, party, receiver, hi(t), lo(t)])
    }

    /// 3E.
    pub fn challenge(&mut self, desk: u8, request: u16, r: u16) -> usize {
        self.check(0x3E, desk, request, r)
    }

    /// 3F.
    pub fn issue_iak(&mut self, desk: u8, returning: u8, credential: u16, r: u16) -> usize {
        self.raw(&[
            0x3F,
            desk,
            returning,
            hi(credential),
            lo(credential),
            hi(r),
            lo(r),
        ])
    }

    /// 40, 41 and 42.
    pub fn issue(&mut self, kind: u8, desk: u8, request: u16, r: u16) -> usize {
        self.check(kind, desk, request, r)
    }

    /// 43.
    pub fn issue_iaks(&mut self, desk: u8, returning: u8, pairs: [(u16, u16); 4]) -> usize {
        let mut record = vec![0x43, desk, returning];
        for (credential, r) in pairs {
            record.extend([hi(credential), lo(credential), hi(r), lo(r)]);
        }
        self.raw(&record)
    }

    /// 44.
    pub fn extend(&mut self, party: u8, register: u8, r: u16) -> usize {
        self.raw(&[0x44, party, register, hi(r), lo(r)])
    }

    /// Runs the first n commands.
    pub fn run_first(&self, n: usize) -> Ran {
        run_bytes(&self.bytes(), n)
    }

    /// Runs all; the file must load.
    pub fn run(&self) -> Ran {
        self.run_first(usize::MAX)
    }

    /// The outcome of one command of a run of all.
    pub fn outcome(&self, ordinal: usize) -> u8 {
        let ran = self.run();
        assert!(
            matches!(ran.answer, RunAnswer::Ran { .. }),
            "{:?}",
            ran.answer
        );
        ran.outcomes[ordinal]
    }

    /// What `stock` answers for a party.
    pub fn stock(&self, party: u8, iaks_per_board: u32) -> StockAnswer {
        stock_bytes(&self.bytes(), party, iaks_per_board)
    }

    pub fn text(&self) -> String {
        String::from_utf8(listing(&self.bytes())).unwrap()
    }
}

/// What a run leaves in buffers of the least size.
#[derive(Clone, Debug, PartialEq)]
pub struct Ran {
    pub answer: RunAnswer,
    pub state: Vec<u8>,
    pub ledger: Vec<Entry>,
    pub outcomes: Vec<u8>,
    pub registers: Vec<u8>,
}

/// Buffers of the least size: state, ledger, outcomes and registers.
fn filled() -> (Vec<u8>, Vec<Entry>, Vec<u8>, Vec<u8>) {
    let entry = Entry {
        certificate: 7,
        parent: 7,
        depth: 7,
    };
    (
        vec![0xEE; STATE_BYTES],
        vec![entry; TERMS],
        vec![0xEE; OUTCOMES],
        vec![0xEE; REGISTER_BYTES],
    )
}

pub fn run_bytes(file: &[u8], n: usize) -> Ran {
    let (mut state, mut ledger, mut outcomes, mut registers) = filled();
    let answer = run(
        file,
        n,
        &mut state,
        &mut ledger,
        &mut outcomes,
        &mut registers,
    );
    Ran {
        answer,
        state,
        ledger,
        outcomes,
        registers,
    }
}

/// What `stock` answers. Whatever it is, the buffers are left as a run of all
/// commands leaves them.
pub fn stock_bytes(file: &[u8], party: u8, iaks_per_board: u32) -> StockAnswer {
    let (mut state, mut ledger, mut outcomes, mut registers) = filled();
    let answer = stock(
        file,
        &mut state,
        &mut ledger,
        &mut outcomes,
        &mut registers,
        party,
        iaks_per_board,
    );
    let ran = run_bytes(file, usize::MAX);
    assert_eq!(state, ran.state);
    assert_eq!(ledger, ran.ledger);
    assert_eq!(outcomes, ran.outcomes);
    assert_eq!(registers, ran.registers);
    answer
}

impl Ran {
    /// The eight state bytes of a term.
    pub fn term(&self, t: u16) -> [u8; 8] {
        let at = 8 * usize::from(t);
        self.state[at..at + 8].try_into().unwrap()
    }

    pub fn knows(&self, party: u8, t: u16) -> bool {
        self.term(t)[0] >> party & 1 == 1
    }

    pub fn table(&self, party: u8, t: u16) -> bool {
        self.term(t)[1] >> party & 1 == 1
    }

    /// The term that a register of a party shows; FFFF if none.
    pub fn register(&self, party: u8, register: u8) -> u16 {
        let at = 48 * usize::from(party) + 2 * usize::from(register);
        u16::from_be_bytes([self.registers[at], self.registers[at + 1]])
    }

    pub fn totals(&self) -> (u32, u32, u32) {
        match self.answer {
            RunAnswer::Ran {
                accepted,
                refused,
                issued,
            } => (accepted, refused, issued),
            RunAnswer::Refused { number, place } => panic!("refused {number} at {place}"),
        }
    }
}

/// A command is refused, and changes nothing but its outcome byte.
pub fn refused_cleanly(b: &Build, ordinal: usize, number: u8) {
    let before = b.run_first(ordinal);
    let after = b.run_first(ordinal + 1);
    let (accepted, refused, issued) = before.totals();
    assert_eq!(after.outcomes[ordinal], number);
    assert_eq!(after.totals(), (accepted, refused + 1, issued));
    assert_eq!(before.state, after.state);
    assert_eq!(before.ledger, after.ledger);
    assert_eq!(before.registers, after.registers);
}

/// A device, a TPM maker, an OEM desk and an owner desk, with the terms of an
/// honest IAK enrolment and its set-up, but no command.
#[derive(Clone)]
pub struct Names {
    pub device: u8,
    pub maker: u8,
    pub oem: u8,
    pub owner: u8,
    pub ek: u16,
    pub ek_private: u16,
    pub iak: u16,
    pub iak_private: u16,
    pub maker_private: u16,
    pub oem_private: u16,
    pub owner_private: u16,
    pub ek_certificate: u16,
    pub csr: u16,
    pub csr_hash: u16,
    pub csr_signature: u16,
    pub request: u16,
    pub iak_hash: u16,
    pub number: u16,
    pub credential: u16,
    pub iak_certificate: u16,
}

impl Names {
    /// The pair of a 43.
    pub fn pair(&self) -> (u16, u16) {
        (self.credential, self.iak_certificate)
    }

    /// The desk that does a 40, 41 or 42, and its key.
    pub fn desk(&self, kind: u8) -> (u8, u16) {
        if kind == 0x41 {
            (self.oem, self.oem_private)
        } else {
            (self.owner, self.owner_private)
        }
    }
}

/// The terms of the IAK world; the attributes of IAK and EK may vary.
pub fn iak_terms(b: &mut Build, iak_attributes: u8, ek_attributes: u8) -> Names {
    let device = b.party(0);
    let maker = b.party(1);
    let oem = b.party(2);
    let owner = b.party(3);
    let (ek, ek_private) = b.keys(1, ek_attributes);
    let (iak, iak_private) = b.keys(2, iak_attributes);
    let maker_private = b.private(3, CA);
    let oem_private = b.private(4, CA);
    let owner_private = b.private(5, CA);
    let ek_certificate = b.certificate(ek, TPM, 100, maker_private);
    let csr = b.idevid(DEV, 200, ek_certificate, iak);
    let csr_hash = b.hash(csr);
    let csr_signature = b.signature(csr_hash, iak_private);
    let request = b.pair(csr, csr_signature);
    let iak_hash = b.hash(iak);
    let number = b.number(77);
    let credential = b.credential(iak_hash, number, ek);
    let iak_certificate = b.certificate(iak, DEV, 200, oem_private);
    Names {
        device,
        maker,
        oem,
        owner,
        ek,
        ek_private,
        iak,
        iak_private,
        maker_private,
        oem_private,
        owner_private,
        ek_certificate,
        csr,
        csr_hash,
        csr_signature,
        request,
        iak_hash,
        number,
        credential,
        iak_certificate,
    }
}

/// The keys of the three desks.
pub fn desk_set_up(b: &mut Build, n: &Names) {
    for (party, key) in [
        (n.maker, n.maker_private),
        (n.oem, n.oem_private),
        (n.owner, n.owner_private),
    ] {
        b.hold(party, key);
        b.desk_key(party, key);
    }
}

/// What the device holds and learns, and the number of the OEM desk.
pub fn device_set_up(b: &mut Build, n: &Names) {
    b.hold(n.device, n.ek_private);
    b.hold(n.device, n.iak_private);
    b.give(n.device, n.iak);
    b.give(n.device, n.ek_certificate);
    b.give(n.oem, n.number);
}

/// 35, 30, 31, 37, 3C: the request reaches the OEM desk.
pub fn make_request(b: &mut Build, n: &Names) {
    b.act(0x35, n.device, n.csr);
    b.act(0x30, n.device, n.csr_hash);
    b.act(0x31, n.device, n.csr_signature);
    b.act(0x37, n.device, n.request);
    b.send(n.device, n.oem, n.request);
}

/// The IAK world with its set-up and the request at the OEM desk.
pub fn asked() -> (Build, Names) {
    let mut b = Build::default();
    let n = iak_terms(&mut b, AK, EK);
    desk_set_up(&mut b, &n);
    device_set_up(&mut b, &n);
    make_request(&mut b, &n);
    (b, n)
}

/// The honest IAK enrolment: nine commands.
pub fn honest() -> (Build, Names) {
    let (mut b, n) = asked();
    finish_iak(&mut b, &n);
    (b, n)
}

/// 3E, 3C, 34: the device knows the number.
pub fn activate(b: &mut Build, n: &Names) {
    b.challenge(n.oem, n.request, n.credential);
    b.send(n.oem, n.device, n.credential);
    b.act(0x34, n.device, n.credential);
}

/// 3E, 3C, 34, 3F.
pub fn finish_iak(b: &mut Build, n: &Names) {
    activate(b, n);
    b.issue_iak(n.oem, n.device, n.credential, n.iak_certificate);
}

/// The terms and the set-up of one more IAK of the board, with that id, for a
/// device Subject. The names are those of the new IAK.
pub fn another_iak_terms(b: &mut Build, n: &Names, id: u16, who: u16) -> Names {
    let (iak, iak_private) = b.keys(id, AK);
    let csr = b.idevid(DEV, who, n.ek_certificate, iak);
    let csr_hash = b.hash(csr);
    let csr_signature = b.signature(csr_hash, iak_private);
    let request = b.pair(csr, csr_signature);
    let iak_hash = b.hash(iak);
    let number = b.number(id);
    let credential = b.credential(iak_hash, number, n.ek);
    let iak_certificate = b.certificate(iak, DEV, who, n.oem_private);
    b.hold(n.device, iak_private);
    b.give(n.device, iak);
    b.give(n.oem, number);
    Names {
        iak,
        iak_private,
        csr,
        csr_hash,
        csr_signature,
        request,
        iak_hash,
        number,
        credential,
        iak_certificate,
        ..n.clone()
    }
}

/// One more IAK of the board, with that id, enrolled for a device Subject; its
/// certificate is sent to the device. The names are those of the new IAK.
pub fn another_iak(b: &mut Build, n: &Names, id: u16, who: u16) -> Names {
    let other = another_iak_terms(b, n, id, who);
    make_request(b, &other);
    finish_iak(b, &other);
    b.send(n.oem, n.device, other.iak_certificate);
    other
}

/// Another EK key with that id in the device's TPM, and a certificate of it for
/// a TPM Subject. The names are those of the new EK.
pub fn another_ek(b: &mut Build, n: &Names, id: u16, who: u16) -> Names {
    let (ek, ek_private) = b.keys(id, EK);
    let ek_certificate = b.certificate(ek, TPM, who, n.maker_private);
    b.hold(n.device, ek_private);
    b.give(n.device, ek_certificate);
    Names {
        ek,
        ek_private,
        ek_certificate,
        ..n.clone()
    }
}

/// Another board with an EK of that id, and its certificate for a TPM Subject.
/// The names are those of the new board, which has no IAK yet.
pub fn another_board(b: &mut Build, n: &Names, id: u16, who: u16) -> Names {
    let mut other = n.clone();
    other.device = b.party(0);
    another_ek(b, &other, id, who)
}

/// The ordinal of the 3F of the last `another_iak`.
pub fn last_iak(b: &Build) -> usize {
    b.commands() - 2
}

/// The terms of one step by 40, 41 or 42.
#[derive(Clone, Copy)]
pub struct Attested {
    pub public: u16,
    pub private: u16,
    pub attest: u16,
    pub signed_attest: u16,
    pub csr: u16,
    pub csr_hash: u16,
    pub csr_signature: u16,
    pub request: u16,
    pub certificate: u16,
}

/// Terms for a new key with that id, under a parent's private key and
/// certificate.
pub fn attested_terms(
    b: &mut Build,
    id: u16,
    attributes: u8,
    (parent_private, parent_certificate): (u16, u16),
    desk_private: u16,
) -> Attested {
    let (public, private) = b.keys(id, attributes);
    let attest = b.attest(public);
    let signed_attest = b.signature(attest, parent_private);
    let csr = b.ldevid(signed_attest, parent_certificate);
    let csr_hash = b.hash(csr);
    let csr_signature = b.signature(csr_hash, private);
    let request = b.pair(csr, csr_signature);
    let certificate = b.certificate(public, DEV, 200, desk_private);
    Attested {
        public,
        private,
        attest,
        signed_attest,
        csr,
        csr_hash,
        csr_signature,
        request,
        certificate,
    }
}

/// 32, 36, 30, 31, 37, 3C: the request reaches a desk; the device must know
/// the parent.
pub fn ask(b: &mut Build, device: u8, desk: u8, a: &Attested) {
    b.act(0x32, device, a.signed_attest);
    b.act(0x36, device, a.csr);
    b.act(0x30, device, a.csr_hash);
    b.act(0x31, device, a.csr_signature);
    b.act(0x37, device, a.request);
    b.send(device, desk, a.request);
}

/// A whole step by 40, 41 or 42, for a new key with that id under a parent,
/// and the certificate sent to the device. Gives the ordinal of the command.
pub fn enrol(b: &mut Build, n: &Names, kind: u8, id: u16, parent: (u16, u16)) -> (usize, Attested) {
    let (desk, desk_private) = n.desk(kind);
    let a = attested_terms(b, id, new_key(kind), parent, desk_private);
    b.hold(n.device, a.private);
    ask(b, n.device, desk, &a);
    let at = b.issue(kind, desk, a.request, a.certificate);
    b.send(desk, n.device, a.certificate);
    (at, a)
}

/// An honest IAK and under it a chain of `count` LAKs, each the parent of the
/// next. Gives the ordinals of the 40s and the LAKs.
pub fn chain(count: u16) -> (Build, Names, Vec<usize>, Vec<Attested>) {
    let (mut b, n) = honest();
    b.send(n.oem, n.device, n.iak_certificate);
    let mut parent = (n.iak_private, n.iak_certificate);
    let mut ordinals = Vec::new();
    let mut laks = Vec::new();
    for step in 0..count {
        let (at, l) = enrol(&mut b, &n, 0x40, 1000 + step, parent);
        ordinals.push(at);
        parent = (l.private, l.certificate);
        laks.push(l);
    }
    (b, n, ordinals, laks)
}

/// An honest IAK and under it a LAK, an IDevID and an LDevID, in this order.
pub fn board() -> (Build, Names, [Attested; 3]) {
    let (mut b, n) = honest();
    b.send(n.oem, n.device, n.iak_certificate);
    let parent = (n.iak_private, n.iak_certificate);
    let issued =
        [0x40, 0x41, 0x42].map(|kind| enrol(&mut b, &n, kind, 1000 + u16::from(kind), parent).1);
    (b, n, issued)
}

/// A board with an IAK of Subject 200, and an IAK of another board that asks
/// for the same Subject. Gives the names of both and the ordinal of the second
/// 3F.
pub fn two_boards() -> (Build, Names, Names, usize) {
    let (mut b, n) = honest();
    let second = another_board(&mut b, &n, 11, 101);
    let second = another_iak(&mut b, &second, 500, 200);
    let at = last_iak(&b);
    (b, n, second, at)
}

/// One more IAK of a board, with that id, up to but not with its 3F or 43.
pub fn ready_iak(b: &mut Build, n: &Names, id: u16, who: u16) -> Names {
    let other = another_iak_terms(b, n, id, who);
    make_request(b, &other);
    activate(b, &other);
    other
}

/// A board with four IAKs of Subject 200, each up to but not with its 3F or
/// 43.
pub fn four_iaks() -> (Build, [Names; 4]) {
    let (mut b, n) = asked();
    activate(&mut b, &n);
    let others = [500, 501, 502].map(|id| ready_iak(&mut b, &n, id, 200));
    let [second, third, fourth] = others;
    (b, [n, second, third, fourth])
}

/// The four IAKs, issued by one 43. Gives its ordinal.
pub fn together() -> (Build, [Names; 4], usize) {
    let (mut b, iaks) = four_iaks();
    let pairs = iaks.each_ref().map(Names::pair);
    let at = b.issue_iaks(iaks[0].oem, iaks[0].device, pairs);
    (b, iaks, at)
}

/// Register 5 of the device of the honest IAK, and a second device.
#[derive(Clone)]
pub struct Measured {
    pub n: Names,
    pub other: u8,
    /// The number of the quotes, which the device knows.
    pub number: u16,
    /// What the register shows at the start, after one and after two 44s.
    pub values: [u16; 3],
    /// A 1C of each value.
    pub bodies: [u16; 3],
    /// The bodies, signed by the IAK.
    pub quotes: [u16; 3],
}

/// The register of `Measured`.
pub const REGISTER: u8 = 5;

/// The value after an extension of a value with a term.
pub fn extension(b: &mut Build, old: u16, t: u16) -> u16 {
    let pair = b.pair(old, t);
    b.hash(pair)
}

/// An honest IAK, and what is needed to extend register 5 with two terms that
/// the device knows and to quote each value.
pub fn measured() -> (Build, Measured) {
    let (mut b, n) = honest();
    let other = b.party(0);
    let number = b.number(900);
    let start = b.start(REGISTER);
    let first = extension(&mut b, start, n.iak);
    let second = extension(&mut b, first, n.ek);
    let values = [start, first, second];
    let bodies = values.map(|value| b.quote_body(REGISTER, value, number));
    let quotes = bodies.map(|body| b.signature(body, n.iak_private));
    b.give(n.device, number);
    let measured = Measured {
        n,
        other,
        number,
        values,
        bodies,
        quotes,
    };
    (b, measured)
}

/// 44, 44, 45, 3C: the last value is quoted, and the quote sent to the owner.
pub fn quoted() -> (Build, Measured) {
    let (mut b, m) = measured();
    b.extend(m.n.device, REGISTER, m.values[1]);
    b.extend(m.n.device, REGISTER, m.values[2]);
    b.act(0x45, m.n.device, m.quotes[2]);
    b.send(m.n.device, m.n.owner, m.quotes[2]);
    (b, m)
}
