#!/usr/bin/env python3
"""Writes the stored scenario files of commands into data/: the situations of document 01 and of change requests 1, 3,
4, 6 and 12, for each command each refusal alone and beside the next one of its order, and what loading refuses of a 43
and of the records of registers. A name says what is expected: c31_15_16 is a 31 to which 15 and 16 apply, and 15 is its
outcome; f07_43_... does not load, by 7.
Usage: make.py [DIRECTORY [--expected | --stock]]: --expected prints the outcomes, --stock the questions on stocks of
numbers with their answers."""
import os
import sys
from collections import namedtuple

DEVICE, MAKER, OEM, OWNER = 0, 1, 2, 3
RESTRICTED, SIGN, DECRYPT, FIXED = 1, 2, 4, 8
IAK, EK, DESK, DEVID = 0x0B, 0x0D, 0x0A, 0x0A


class World:
    def __init__(self, *roles):
        self.roles, self.terms, self.setup, self.commands = list(roles), [], [], []
        self.expected, self.fault, self.asked = [], None, []

    def term(self, kind, *body):
        record = bytes([kind, *body])
        if record not in self.terms:
            self.terms.append(record)
        return self.terms.index(record)

    # terms
    def public(self, id, attributes): return self.term(0x10, *two(id), attributes)
    def private(self, id, attributes): return self.term(0x11, *two(id), attributes)
    def hash(self, t): return self.term(0x12, *two(t))
    def signature(self, t, key): return self.term(0x13, *two(t), *two(key))
    def attest(self, key): return self.term(0x14, *two(key))
    def credential(self, t, number, key): return self.term(0x15, *two(t), *two(number), *two(key))
    def number(self, id): return self.term(0x16, *two(id))
    def idevid(self, subject, certificate, key): return self.term(0x17, subject[0], *two(subject[1]), *two(certificate), *two(key))
    def ldevid(self, t, certificate): return self.term(0x18, *two(t), *two(certificate))
    def certificate(self, key, subject, signer): return self.term(0x19, *two(key), subject[0], *two(subject[1]), *two(signer))
    def pair(self, t, u): return self.term(0x1A, *two(t), *two(u))
    def register(self, i): return self.term(0x1B, i)
    def quote_body(self, i, t, number): return self.term(0x1C, i, *two(t), *two(number))

    # set-up
    def learns(self, p, t): self.setup.append(bytes([0x20, p, *two(t)]))
    def holds(self, p, k): self.setup.append(bytes([0x21, p, *two(k)]))
    def signs(self, p, k): self.holds(p, k); self.setup.append(bytes([0x22, p, *two(k)]))

    # a command with its expected outcome
    def do(self, kind, party, *fields, gives=0, bytes_=()):
        body = [party]
        for f in fields:
            body += two(f)
        self.commands.append(bytes([kind, *body, *bytes_]))
        self.expected.append(gives)

    def send(self, p, q, t, gives=0): self.commands.append(bytes([0x3C, p, q, *two(t)])); self.expected.append(gives)

    def issue_iak(self, p, q, c, r, gives=0): self.commands.append(bytes([0x3F, p, q, *two(c), *two(r)])); self.expected.append(gives)

    def issue_iaks(self, p, q, *pairs, gives=0):
        """The pairs that are not given, up to four, are empty ones after them."""
        body = [two(t) for pair in pairs + (4 - len(pairs)) * (EMPTY,) for t in pair]
        self.commands.append(bytes([0x43, p, q, *sum(body, [])]))
        self.expected.append(gives)

    def extend(self, p, i, r, gives=0): self.commands.append(bytes([0x44, p, i, *two(r)])); self.expected.append(gives)

    def refuses(self, number):
        """The last record does not load."""
        self.fault = number, len(self.file()) - len(self.commands[-1])
        return self

    def stock(self, desk, iaks, boards=None, rest=None):
        """What is answered on a desk's stock of numbers after all commands; without boards it is refused, Run's refusal first."""
        refusal = self.fault or (39, 0)
        self.asked.append((desk, iaks, "refused with %d at %d" % refusal if boards is None else "boards %d, numbers left over %d" % (boards, rest)))

    def file(self):
        return b"".join([bytes([0x01, r]) for r in self.roles] + self.terms + self.setup + self.commands)


def two(x):
    return [x // 256, x % 256]


EMPTY = 0xFFFF, 0xFFFF

TPM = lambda n: (0, n)
BOARD = lambda n: (1, n)

# ---- the parties: a board, a TPM maker, an OEM desk, an owner desk, another board, another OEM desk
B, M, D, O, B2, D2 = 0, 1, 2, 3, 4, 5

# ---- what is issued on an 18 request: a name, the command, its desk, a desk of another role, the attributes of the new key
Family = namedtuple("Family", "name kind desk other attributes")
LAK = Family("lak", 0x40, O, D, IAK)
IDEVID = Family("idevid", 0x41, D, O, DEVID)
LDEVID = Family("ldevid", 0x42, O, D, DEVID)
FAMILIES = LAK, IDEVID, LDEVID


def shop(family=LAK):
    """Parties, their keys and the board's endorsement certificate. The new key is one of the family."""
    w = World(DEVICE, MAKER, OEM, OWNER, DEVICE, OEM)
    w.iak, w.iak_ = w.public(1, IAK), w.private(1, IAK)
    w.ek, w.ek_ = w.public(2, EK), w.private(2, EK)
    w.maker, w.maker_ = w.public(3, DESK), w.private(3, DESK)
    w.oem_ = w.private(4, DESK)
    w.owner_ = w.private(5, DESK)
    w.desk_keys = {D: w.oem_, O: w.owner_}
    w.family = family
    w.new, w.new_ = w.public(6, family.attributes), w.private(6, family.attributes)
    w.ek_certificate = w.certificate(w.ek, TPM(1), w.maker_)
    w.subject = BOARD(100)
    w.signs(M, w.maker_)
    w.signs(D, w.oem_)
    w.signs(O, w.owner_)
    for k in (w.iak_, w.ek_, w.new_):
        w.holds(B, k)
    for t in (w.iak, w.ek_certificate):
        w.learns(B, t)
    return w


def request(w, subject=None, certificate=None, key=None, key_=None, over=None, to=D, turned=False, sent=True, by=B):
    """A board makes a request for an IAK certificate and sends it."""
    w.body = w.idevid(subject or w.subject, w.ek_certificate if certificate is None else certificate, w.iak if key is None else key)
    w.do(0x35, by, w.body)
    digest = w.hash(w.body if over is None else over)
    w.do(0x30, by, digest)
    proof = w.signature(digest, w.iak_ if key_ is None else key_)
    w.do(0x31, by, proof)
    w.request = w.pair(proof, w.body) if turned else w.pair(w.body, proof)
    w.do(0x37, by, w.request)
    if sent:
        w.send(by, to, w.request)


def challenge(w, number=9, desk=D, learners=None, name=None, ek=None, gives=0, request=None):
    """A desk's challenge; the learners get its number at set-up."""
    w.nonce = w.number(number)
    for p in [desk] if learners is None else learners:
        w.learns(p, w.nonce)
    w.open = w.credential(w.hash(w.iak) if name is None else name, w.nonce, w.ek if ek is None else ek)
    w.do(0x3E, desk, w.request if request is None else request, w.open, gives=gives)


def give_back(w, desk=D, by=B):
    w.send(desk, by, w.open)
    w.do(0x34, by, w.open)


def iak_certificate(w, key=None, subject=None, signer=None):
    return w.certificate(w.iak if key is None else key, subject or w.subject, w.oem_ if signer is None else signer)


def enrolled(family=LAK):
    """Up to an issued IAK certificate, which the board has."""
    w = shop(family)
    enrol(w)
    return w


def enrol(w, number=9):
    """The board gets a certificate of its IAK."""
    request(w)
    challenge(w, number=number)
    give_back(w)
    w.issued = iak_certificate(w)
    w.issue_iak(D, B, w.open, w.issued)
    w.send(D, B, w.issued)


def attested_request(w, key=None, key_=None, signer=None, parent=None, attest=None, over=None, turned=False, sent=True, to=None, by_certify=True):
    """The board makes a request with an attest of the new key and sends it."""
    key = w.new if key is None else key
    attest = w.attest(key) if attest is None else attest
    w.attested = w.signature(attest, w.iak_ if signer is None else signer)
    w.do(0x32 if by_certify else 0x31, B, w.attested)
    attested_body(w, w.attested, key_, parent, over, turned, sent, to)


def attested_body(w, message, key_=None, parent=None, over=None, turned=False, sent=True, to=None):
    """The request from its 18 on, whatever the message is."""
    w.lbody = w.ldevid(message, w.issued if parent is None else parent)
    w.do(0x36, B, w.lbody)
    digest = w.hash(w.lbody if over is None else over)
    w.do(0x30, B, digest)
    proof = w.signature(digest, w.new_ if key_ is None else key_)
    w.do(0x31, B, proof)
    w.lrequest = w.pair(proof, w.lbody) if turned else w.pair(w.lbody, proof)
    w.do(0x37, B, w.lrequest)
    if sent:
        w.send(B, w.family.desk if to is None else to, w.lrequest)


def new_certificate(w, key=None, subject=None, signer=None):
    return w.certificate(w.new if key is None else key, subject or w.subject, w.desk_keys[w.family.desk] if signer is None else signer)


def issue(w, r=None, gives=0):
    """The desk is asked for r on the last request."""
    w.do(w.family.kind, w.family.desk, w.lrequest, new_certificate(w) if r is None else r, gives=gives)


def grow(w, family, id, parent, gives=0):
    """A key of the family, with this id, is asked for under a parent. Parents, and what is returned, are certificate and private key."""
    w.family = family
    key, key_ = w.public(id, family.attributes), w.private(id, family.attributes)
    w.holds(B, key_)
    attested_request(w, key=key, key_=key_, parent=parent[0], signer=parent[1])
    c = new_certificate(w, key=key)
    issue(w, c, gives=gives)
    w.send(family.desk, B, c, gives=14 if gives else 0)
    return c, key_


CASES = {}


def case(f):
    CASES[f.__name__] = f
    return f


def each(*families):
    """A case for each family; NN in its name is the command."""
    def enter(f):
        for family in families:
            CASES[f.__name__.replace("NN", "%02X" % family.kind)] = lambda family=family: f(family)
        return f
    return enter


# ---- situations of document 01

@case
def s_empty(): return World()


@case
def s_example():
    w = World(DEVICE)
    k, k_ = w.public(5, IAK), w.private(5, IAK)
    h = w.hash(k)
    w.learns(0, k)
    w.do(0x30, 0, h)
    w.do(0x31, 0, w.signature(h, k_), gives=15)
    return w


@case
def s_honest_iak():
    w = shop()
    request(w)
    challenge(w)
    give_back(w)
    w.issue_iak(D, B, w.open, iak_certificate(w))
    return w


@case
def s_without_34():
    w = shop()
    request(w)
    challenge(w)
    w.send(D, B, w.open)
    w.issue_iak(D, B, w.open, iak_certificate(w), gives=26)
    return w


@case
def s_returned_by_the_desk():
    w = shop()
    request(w)
    challenge(w)
    give_back(w)
    w.issue_iak(D, D, w.open, iak_certificate(w), gives=26)
    return w


@case
def s_ek_in_another_tpm():
    w = World(DEVICE, MAKER, OEM, OWNER, DEVICE)
    w.iak, w.iak_ = w.public(1, IAK), w.private(1, IAK)
    w.ek, w.ek_ = w.public(2, EK), w.private(2, EK)
    w.maker_, w.oem_ = w.private(3, DESK), w.private(4, DESK)
    w.ek_certificate = w.certificate(w.ek, TPM(1), w.maker_)
    w.subject = BOARD(100)
    w.signs(M, w.maker_)
    w.signs(D, w.oem_)
    w.holds(B, w.iak_)
    w.holds(B2, w.ek_)
    w.learns(B, w.iak)
    w.learns(B, w.ek_certificate)
    request(w)
    challenge(w)
    w.send(D, B, w.open)
    w.do(0x34, B, w.open, gives=15)
    w.issue_iak(D, B, w.open, iak_certificate(w), gives=26)
    return w


@case
def s_number_used_twice():
    w = shop()
    request(w)
    challenge(w)
    w.do(0x3E, D, w.request, w.open, gives=24)
    return w


@case
def s_same_certificate_by_a_new_challenge():
    w = enrolled()
    challenge(w, number=10)
    give_back(w)
    w.issue_iak(D, B, w.open, w.issued, gives=28)
    return w


def chain(last, family=LAK):
    """Certificates up to a depth, each the parent of the next; the last one is of the family."""
    w = enrolled()
    w.chain = [(w.issued, w.iak_)]
    for d in range(2, last + 1):
        w.chain.append(grow(w, family if d == last else LAK, 20 + d, w.chain[-1], gives=29 if d > 8 else 0))
    return w


@case
def s_depth_8(): return chain(8)


@case
def s_depth_9(): return chain(9)


@case
def s_hash_of_an_attest_signed():
    w = shop()
    a = w.attest(w.new)
    w.learns(B, w.new)
    h = w.hash(a)
    certified = w.signature(a, w.iak_)
    w.do(0x32, B, certified)
    w.do(0x30, B, h)
    w.do(0x31, B, w.signature(h, w.iak_), gives=17)
    return w


def numbers(count):
    w = World(DEVICE)
    for i in range(count):
        w.number(i)
    return w


@case
def s_1024_terms(): return numbers(1024)


@case
def s_1025_terms(): return numbers(1025)


@case
def s_pair_of_a_term_with_itself():
    w = World(DEVICE, DEVICE)
    t = w.number(7)
    w.learns(0, t)
    p = w.pair(t, t)
    q = w.pair(p, p)
    w.do(0x37, 0, p)
    w.do(0x37, 0, q)
    w.send(0, 1, q)
    w.do(0x37, 1, p)
    return w


@case
def s_nested_pairs():
    """1,023 pairs inside each other, sent to seven parties: the deepest learning."""
    w = World(*[DEVICE] * 8)
    t = w.number(7)
    w.learns(0, t)
    for i in range(1023):
        t = w.pair(t, t)
        w.do(0x37, 0, t)
    for p in range(1, 8):
        w.send(0, p, t)
    return w


def honest(family):
    w = enrolled(family)
    attested_request(w)
    issue(w)
    return w


for _family in FAMILIES:
    CASES["s_honest_" + _family.name] = lambda f=_family: honest(f)


# ---- situations of change request 1

@case
def s_idevid_and_ldevid():
    """An IAK, a LAK, an IDevID and an LDevID of one board."""
    w = enrolled()
    iak = w.issued, w.iak_
    lak = grow(w, LAK, 21, iak)
    grow(w, IDEVID, 22, iak)
    grow(w, LDEVID, 23, lak)
    return w


@case
def s_idevid_and_ldevid_of_one_key():
    """One request, which both desks answer."""
    w = enrolled(IDEVID)
    attested_request(w)
    issue(w)
    w.send(B, O, w.lrequest)
    w.family = LDEVID
    issue(w)
    return w


@case
def s_idevid_beside_a_chain():
    """Beside LAKs of every depth an IDevID is at depth 2, under the IAK alone."""
    w = chain(8)
    grow(w, IDEVID, 30, w.chain[0])
    grow(w, IDEVID, 31, w.chain[1], gives=21)
    grow(w, IDEVID, 32, w.chain[7], gives=21)
    return w


@case
def s_ldevid_depth_8(): return chain(8, LDEVID)


@case
def s_ldevid_depth_9(): return chain(9, LDEVID)


# ---- situations of change request 3: one Subject, one EK

Endorsed = namedtuple("Endorsed", "board ek certificate")


def endorsed(w, id, board, subject=TPM(1)):
    """Another EK, in a board's TPM, with a certificate. TPM Subjects may repeat."""
    ek, ek_ = w.public(id, EK), w.private(id, EK)
    w.holds(board, ek_)
    return certified(w, board, ek, subject)


def certified(w, board, ek, subject):
    """A certificate of an EK, which a board knows."""
    c = w.certificate(ek, subject, w.maker_)
    w.learns(board, c)
    return Endorsed(board, ek, c)


def first(w): return Endorsed(B, w.ek, w.ek_certificate)


def opened(w, under, id=30, number=10, subject=None, desk=D, signer=None, key=None, returned=True):
    """Another IAK of a board is challenged under an endorsement certificate, and the board answers; the certificate asked for may name another key than
    the IAK. Credential, certificate and private key."""
    iak, iak_ = w.public(id, IAK), w.private(id, IAK)
    w.holds(under.board, iak_)
    w.learns(under.board, iak)
    request(w, subject=subject, certificate=under.certificate, key=iak, key_=iak_, to=desk, by=under.board)
    challenge(w, number=number, desk=desk, name=w.hash(iak), ek=under.ek)
    if returned:
        give_back(w, desk=desk, by=under.board)
    return w.open, iak_certificate(w, key=iak if key is None else key, subject=subject, signer=signer), iak_


def second(w, under, desk=D, gives=0, **options):
    """Another IAK of a board is enrolled."""
    credential, c, iak_ = opened(w, under, desk=desk, **options)
    w.issue_iak(desk, under.board, credential, c, gives=gives)
    return c, iak_


@case
def s_two_boards_one_subject():
    w = enrolled()
    c, _ = second(w, endorsed(w, 31, B2), gives=31)
    w.issue_iak(D, B2, w.open, c, gives=31)
    return w


@case
def s_two_eks_of_a_tpm_one_subject():
    w = enrolled()
    second(w, endorsed(w, 31, B), gives=31)
    return w


@case
def s_two_boards_one_subject_two_desks():
    w = enrolled()
    oem2_ = w.private(14, DESK)
    w.signs(D2, oem2_)
    second(w, endorsed(w, 31, B2), desk=D2, signer=oem2_, gives=31)
    return w


@case
def s_second_iak_by_the_same_ek_certificate():
    w = enrolled()
    second(w, first(w))
    return w


@case
def s_second_iak_by_another_ek_certificate():
    w = enrolled()
    second(w, certified(w, B, w.ek, TPM(2)))
    return w


@case
def s_second_board_another_subject():
    w = enrolled()
    second(w, endorsed(w, 31, B2), subject=BOARD(101))
    return w


@case
def s_one_ek_two_subjects():
    w = enrolled()
    second(w, first(w), subject=BOARD(101))
    return w


@case
def s_subject_refused_then_another():
    """A refused certificate carries no Subject: the second board gets its own, and then the first board may not have that."""
    w = enrolled()
    other = endorsed(w, 31, B2)
    second(w, other, gives=31)
    second(w, other, id=32, number=11, subject=BOARD(101))
    second(w, first(w), id=33, number=12, subject=BOARD(101), gives=31)
    return w


@case
def s_subject_of_all_families():
    """The first board's Subject stands on certificates of all families, two steps down and more."""
    w = enrolled()
    lak = grow(w, LAK, 22, (w.issued, w.iak_))
    grow(w, IDEVID, 23, (w.issued, w.iak_))
    grow(w, LDEVID, 24, lak)
    second(w, endorsed(w, 31, B2), gives=31)
    second(w, certified(w, B, w.ek, TPM(2)), id=32, number=11)
    return w


@case
def s_subjects_alike_in_ten_bits():
    """Serial numbers with the same low ten bits, each on its own EK: each is found among the others."""
    w = enrolled()
    eks = [first(w)] + [endorsed(w, 40 + i, B2) for i in range(3)]
    serials = [100 + 1024 * i for i in range(4)]
    number = 10
    for i in range(1, 4):
        second(w, eks[i], id=50 + i, number=number, subject=BOARD(serials[i]))
        number += 1
    for i in range(4):
        for j in range(4):
            second(w, eks[j], id=60 + 4 * i + j, number=number, subject=BOARD(serials[i]), gives=0 if i == j else 31)
            number += 1
    return w


# ---- situations of change request 4: all IAKs of a board together

def several(count, w=None, **options):
    """IAKs of the board, challenged and answered, as pairs of a 43."""
    w = w or shop()
    return w, [opened(w, first(w), id=30 + i, number=10 + i, **options)[:2] for i in range(count)]


def unissued(w, pair, desk=D, by=B):
    """Nothing is left of a pair: the desk does not know its certificate, and its credential is open."""
    w.send(desk, by, pair[1], gives=14)
    w.issue_iak(desk, by, *pair)


@case
def s_four_iaks_together():
    """A board with four IAKs, enrolled by one 43; it gets the certificates."""
    w, pairs = several(4)
    w.issue_iaks(D, B, *pairs)
    for _, c in pairs:
        w.send(D, B, c)
    return w


@case
def s_four_iaks_together_and_below():
    """All families below IAKs that one 43 issued."""
    w = shop()
    iaks = [opened(w, first(w), id=30 + i, number=10 + i) for i in range(4)]
    w.issue_iaks(D, B, *[x[:2] for x in iaks])
    for _, c, _ in iaks:
        w.send(D, B, c)
    lak = grow(w, LAK, 22, iaks[0][1:])
    grow(w, IDEVID, 23, iaks[3][1:])
    grow(w, LDEVID, 24, lak)
    grow(w, LDEVID, 25, iaks[2][1:])
    return w


@case
def s_four_iaks_together_in_the_order_of_the_pairs():
    w, (a, b, c, d) = several(4)
    w.issue_iaks(D, B, d, b, a, c)
    return w


@case
def s_three_iaks_together():
    w, (a, b, c) = several(3)
    w.issue_iaks(D, B, c, EMPTY, a, b)
    return w


@case
def s_two_iaks_together():
    w, (a, b, c, d) = several(4)
    w.issue_iaks(D, B, b, EMPTY, EMPTY, a)
    w.issue_iaks(D, B, EMPTY, d, c)
    return w


@case
def s_one_iak_in_each_place():
    w, pairs = several(4)
    for i, pair in enumerate(pairs):
        w.issue_iaks(D, B, *i * (EMPTY,), pair)
    return w


@case
def s_together_and_alone():
    """3F and 43 by turns."""
    w, (a, b, c, d) = several(4)
    w.issue_iak(D, B, *b)
    w.issue_iaks(D, B, c, a)
    w.issue_iak(D, B, *d)
    w.issue_iaks(D, B, c, a, gives=25)
    w.issue_iak(D, B, *a, gives=25)
    return w


@case
def s_together_after_a_refusal():
    """What a refused 43 would have issued is issued by the next one."""
    w, (a, b, c) = several(3)
    other = opened(w, first(w), id=40, number=20, returned=False)[:2]
    w.issue_iaks(D, B, a, b, c, other, gives=26)
    for _, r in (a, b, c, other):
        w.send(D, B, r, gives=14)
    w.issue_iaks(D, B, a, b, c)
    give_back(w)
    w.issue_iaks(D, B, other)
    return w


@case
def s_together_two_eks_one_subject():
    """The pair before carries the Subject, whichever of the two it is; alone each would be issued."""
    w = shop()
    a = opened(w, first(w))[:2]
    b = opened(w, endorsed(w, 31, B), id=32, number=11)[:2]
    w.issue_iaks(D, B, a, EMPTY, EMPTY, b, gives=31)
    w.issue_iaks(D, B, b, a, gives=31)
    w.issue_iaks(D, B, EMPTY, b)
    w.issue_iaks(D, B, EMPTY, a, gives=31)
    return w


@case
def s_together_two_eks_two_subjects():
    w = shop()
    a = opened(w, first(w))[:2]
    b = opened(w, endorsed(w, 31, B), id=32, number=11, subject=BOARD(101))[:2]
    w.issue_iaks(D, B, a, b)
    return w


@case
def s_together_two_certificates_of_an_ek():
    w = shop()
    a = opened(w, first(w))[:2]
    b = opened(w, certified(w, B, w.ek, TPM(2)), id=32, number=11)[:2]
    w.issue_iaks(D, B, b, a)
    return w


@case
def s_together_of_two_boards():
    """One board returns the number of another, which sent it."""
    w = shop()
    a = opened(w, first(w))[:2]
    b = opened(w, endorsed(w, 31, B2), id=32, number=11, subject=BOARD(101))[:2]
    w.issue_iaks(D, B, a, b, gives=26)
    w.issue_iaks(D, B2, b, a, gives=26)
    w.send(B2, B, w.nonce)
    w.issue_iaks(D, B, a, b)
    return w


# ---- situations of change request 6: platform registers and quotes

# Two registers with a starting value each; another has none.
FIRST, LAST, UNSTARTED = 0, 23, 7


def measured(w=None):
    """A shop whose registers start, and a verifier's number that the board and the OEM desk know."""
    w = w or shop()
    w.start, w.other_start = w.register(FIRST), w.register(LAST)
    w.fresh = w.number(500)
    for p in B, D:
        w.learns(p, w.fresh)
    return w


def extend(w, old, t, by=B, register=FIRST, gives=0):
    """A register is extended; what it shows then."""
    r = w.hash(w.pair(old, t))
    w.extend(by, register, r, gives=gives)
    return r


def quoted(w, value, register=FIRST, number=None, key_=None):
    """A quote under the board's IAK."""
    body = w.quote_body(register, value, w.fresh if number is None else number)
    return w.signature(body, w.iak_ if key_ is None else key_)


def quote(w, value, by=B, gives=0, **options):
    q = quoted(w, value, **options)
    w.do(0x45, by, q, gives=gives)
    return q


@case
def s_extend_twice_and_quote():
    """The verifier gets the quote and checks its signature."""
    w = measured()
    w.learns(D, w.iak)
    a = extend(w, w.start, w.iak)
    b = extend(w, a, w.ek_certificate)
    q = quote(w, b)
    w.send(B, D, q)
    w.do(0x39, D, q, w.iak)
    return w


@case
def s_attestation_after_enrolment():
    """Quotes under an IAK with a certificate; an old one may be sent again, but not made again."""
    w = measured(enrolled())
    again = w.number(501)
    for p in B, D:
        w.learns(p, again)
    a = extend(w, w.start, w.ek_certificate)
    old = quote(w, a)
    w.send(B, D, old)
    w.do(0x39, D, old, w.iak)
    b = extend(w, a, w.issued)
    w.do(0x45, B, old, gives=33)
    quote(w, a, number=again, gives=33)
    w.send(B, D, old)
    w.send(B, D, quote(w, b, number=again))
    return w


@case
def s_quote_of_an_old_value():
    w = measured()
    a = extend(w, w.start, w.iak)
    quote(w, w.start, gives=33)
    q = quote(w, a)
    extend(w, a, w.iak)
    w.do(0x45, B, q, gives=33)
    return w


@case
def s_extend_on_a_stale_value():
    """The register stays where it was."""
    w = measured()
    a = extend(w, w.start, w.iak)
    extend(w, w.start, w.ek_certificate, gives=33)
    extend(w, w.start, w.iak, gives=33)
    quote(w, a)
    return w


@case
def s_empty_register():
    """An empty register shows no term: no old value and no quoted one is right."""
    w = measured()
    a = extend(w, w.start, w.iak)
    for value in w.start, w.other_start, a, w.iak:
        extend(w, value, w.iak, register=UNSTARTED, gives=33)
        quote(w, value, register=UNSTARTED, gives=33)
    quote(w, a)
    return w


@case
def s_registers_of_one_device():
    """Each has its own value; the last is moved by its own extend alone."""
    w = measured()
    a = extend(w, w.start, w.iak)
    extend(w, a, w.iak, register=LAST, gives=33)
    quote(w, a, register=LAST, gives=33)
    quote(w, w.other_start, register=LAST)
    b = extend(w, w.other_start, w.iak, register=LAST)
    quote(w, b, register=LAST)
    quote(w, b, gives=33)
    quote(w, a)
    return w


@case
def s_register_of_another_party():
    """Another board's register starts at the same value and goes its own way. Extends alike lead to one value."""
    w = measured()
    key_ = w.private(30, IAK)
    w.holds(B2, key_)
    for t in w.fresh, w.iak:
        w.learns(B2, t)
    a = extend(w, w.start, w.iak)
    quote(w, a, by=B2, key_=key_, gives=33)
    quote(w, w.start, by=B2, key_=key_)
    extend(w, a, w.iak, by=B2, gives=33)
    extend(w, w.start, w.iak, by=B2)
    quote(w, a, by=B2, key_=key_)
    b = extend(w, a, w.iak, by=B2)
    quote(w, b, gives=33)
    quote(w, a)
    return w


@case
def s_desks_at_44_and_45():
    """A desk has no registers, whatever it knows and holds."""
    w = measured()
    for p, id in (M, 31), (D, 32), (O, 33):
        key_ = w.private(id, IAK)
        w.holds(p, key_)
        w.learns(p, w.fresh)
        extend(w, w.start, w.fresh, by=p, gives=13)
        quote(w, w.start, by=p, key_=key_, gives=13)
    return w


@case
def s_unknown_before_the_value():
    """14 comes before 33."""
    w = measured()
    unknown = w.number(501)
    a = extend(w, w.start, w.iak)
    extend(w, w.start, unknown, gives=14)
    quote(w, w.start, number=unknown, gives=14)
    extend(w, a, unknown, gives=14)
    quote(w, a, number=unknown, gives=14)
    quote(w, a)
    return w


@case
def s_quote_by_an_unrestricted_key():
    """Sign and Restricted are asked for, FixedTPM is not."""
    w = measured()
    for id, (attributes, gives) in enumerate([
        (DEVID, 16), (SIGN, 16), (RESTRICTED, 16), (EK, 16), (RESTRICTED | FIXED, 16), (0, 16),
        (RESTRICTED | SIGN, 0), (15, 0),
    ]):
        key_ = w.private(40 + id, attributes)
        w.holds(B, key_)
        quote(w, w.start, key_=key_, gives=gives)
    return w


@case
def s_hash_of_a_quote_signed():
    """The hash of a quote body gets no ticket, as that of an attest; a Restricted key signs the body by 45 alone."""
    w = measured()
    free_ = w.private(30, DEVID)
    w.holds(B, free_)
    q = quoted(w, w.start)
    body = w.quote_body(FIRST, w.start, w.fresh)
    h = w.hash(body)
    w.do(0x31, B, q, gives=17)
    w.do(0x30, B, h, gives=14)
    w.do(0x45, B, q)
    w.do(0x31, B, q, gives=17)
    w.do(0x30, B, h)
    w.do(0x31, B, w.signature(h, w.iak_), gives=17)
    w.do(0x31, B, w.signature(h, free_))
    w.do(0x31, B, w.signature(body, free_))
    return w


@case
def s_extend_teaches_nothing():
    """Neither the new value is learnt nor what is in it, and it gets no ticket; a quote teaches it."""
    w = measured()
    pair = w.pair(w.start, w.iak)
    a = extend(w, w.start, w.iak)
    w.send(B, D, a, gives=14)
    w.send(B, D, w.start, gives=14)
    w.send(B, D, pair, gives=14)
    proof = w.signature(a, w.iak_)
    w.do(0x31, B, proof, gives=17)
    quote(w, a)
    w.send(B, D, a)
    w.send(B, D, pair, gives=14)
    w.send(B, D, w.start, gives=14)
    w.do(0x31, B, proof, gives=17)
    return w


@case
def s_quote_teaches_what_is_in_it():
    """Who gets a quote knows its value and its number, not what the value is a hash of."""
    w = measured()
    name = w.hash(w.start)
    twice = w.pair(w.start, w.fresh)
    w.do(0x30, B, name, gives=14)
    q = quote(w, w.start)
    w.do(0x30, B, name)
    w.do(0x31, B, w.signature(name, w.iak_))
    w.send(B, B2, q)
    w.do(0x37, B2, twice)
    w.do(0x30, B2, name)
    return w


# ---- situations of change request 12: boards left in the stock of numbers

def stocked(w, desk, *ids):
    """Numbers that a desk has from set-up."""
    numbers = [w.number(id) for id in ids]
    for t in numbers:
        w.learns(desk, t)
    return numbers


@case
def s_stock_of_a_line():
    """An OEM desk has numbers for a line of boards with four IAKs each. One board is enrolled; two numbers of the rest were typed into the sheets of
    another desk and of a board as well, so that the desk cannot use them."""
    w, pairs = several(4)
    rest = stocked(w, D, *range(200, 211))
    w.learns(D2, rest[0])
    w.learns(B2, rest[1])
    w.issue_iaks(D, B, *pairs)
    for _, c in pairs:
        w.send(D, B, c)
    w.stock(D, 4, 2, 1)
    w.stock(D, 1, 9, 0)
    w.stock(D, 2, 4, 1)
    w.stock(D, 3, 3, 0)
    w.stock(D, 9, 1, 0)
    w.stock(D, 10, 0, 9)
    w.stock(D, 2 ** 32 - 1, 0, 9)
    w.stock(D2, 4, 0, 0)
    for desk, iaks in (D, 0), (B, 4), (M, 4), (O, 4), (B2, 4), (6, 4), (7, 4), (255, 4), (6, 0):
        w.stock(desk, iaks)
    return w


@case
def s_stock_before_the_line():
    """The same desk before its first command."""
    w = shop()
    stocked(w, D, *range(200, 211))
    w.stock(D, 4, 2, 3)
    w.stock(D2, 4, 0, 0)
    return w


@case
def s_stock_of_two_desks():
    """Each desk has its own numbers, and one that both have, which neither can use."""
    w = shop()
    both, *_ = stocked(w, D, *range(200, 205))
    stocked(w, D2, *range(300, 307))
    w.learns(D2, both)
    w.stock(D, 4, 1, 0)
    w.stock(D2, 4, 1, 3)
    return w


@case
def s_stock_with_a_credential_not_sent():
    """After a challenge the desk alone knows the credential, which is no number; its number is used."""
    w = shop()
    stocked(w, D, 200, 201)
    request(w)
    challenge(w)
    w.stock(D, 1, 2, 0)
    w.stock(D, 3, 0, 2)
    return w


@case
def s_stock_after_a_refused_challenge():
    """A refused challenge uses no number."""
    w = shop()
    stocked(w, D, 200)
    request(w)
    challenge(w, name=w.hash(w.ek), gives=27)
    challenge(w, number=10)
    w.stock(D, 1, 2, 0)
    return w


@case
def s_stock_of_a_number_that_a_board_sends():
    """A number that comes from a board is known to two."""
    w = shop()
    n, = stocked(w, B, 200)
    w.send(B, D, n)
    w.stock(D, 1, 0, 0)
    return w


@case
def s_stock_of_an_owner_desk():
    """An owner desk's numbers are nobody's stock."""
    w = shop()
    stocked(w, O, 200, 201, 202, 203)
    w.stock(O, 4)
    w.stock(D, 4, 0, 0)
    return w


@case
def f03_stock_of_a_file_that_does_not_load():
    """Run's refusal comes before 39."""
    w = shop()
    stocked(w, D, 200)
    w.commands.append(bytes([0x46]))
    w.refuses(3)
    w.stock(D, 1)
    w.stock(D, 0)
    w.stock(B, 1)
    return w


# ---- slips that document 01 excludes

@case
def x_keys_by_id_alone():
    """A key of the IAK's id and other attributes does not prove the IAK."""
    w = shop()
    other_ = w.private(1, SIGN)
    w.holds(B, other_)
    request(w, key_=other_)
    challenge(w, gives=20)
    return w


@case
def x_number_of_another_credential():
    """The number came back by another credential with that number, which the board made for itself."""
    w = shop()
    request(w)
    challenge(w)
    w.issue_iak(D, B, w.credential(w.hash(w.iak), w.number(10), w.ek), iak_certificate(w), gives=25)
    w.issue_iak(D, B2, w.open, iak_certificate(w), gives=26)
    return w


@case
def x_attest_by_an_unrestricted_key():
    """An attest signed by 31 with a key that is not Restricted is no attest of the parent's key."""
    w = enrolled()
    free_ = w.private(1, SIGN | FIXED)
    w.holds(B, free_)
    w.learns(B, w.new)
    a = w.attest(w.new)
    w.do(0x32, B, w.signature(a, free_))
    attested_body(w, w.signature(a, free_))
    issue(w, gives=20)
    return w


@case
def x_private_key_signed_by_a_restricted_key():
    w = shop()
    w.do(0x31, B, w.signature(w.new_, w.iak_), gives=17)
    w.do(0x30, B, w.hash(w.new_), gives=14)
    return w


# ---- 30 to 37

@case
def c30_13():
    w = shop()
    w.learns(D, w.iak)
    w.do(0x30, D, w.hash(w.iak), gives=13)
    return w


@case
def c30_13_14():
    w = shop()
    w.do(0x30, D, w.hash(w.iak), gives=13)
    return w


@case
def c30_14():
    w = shop()
    w.do(0x30, B, w.hash(w.new), gives=14)
    return w


def signing(party=B, attributes=SIGN, held=True, known=True, message=None, gives=0):
    w = shop()
    key_ = w.private(50, attributes)
    if held:
        w.holds(party, key_)
    t = w.number(60) if message is None else message(w)
    if known:
        w.learns(party, w.number(60))
    w.do(0x31, party, w.signature(t, key_), gives=gives)
    return w


@case
def c31_13(): return signing(party=D, gives=13)
@case
def c31_13_14(): return signing(party=D, known=False, gives=13)
@case
def c31_14(): return signing(known=False, gives=14)
@case
def c31_14_15(): return signing(known=False, held=False, gives=14)
@case
def c31_15(): return signing(held=False, gives=15)
@case
def c31_15_16(): return signing(held=False, attributes=DECRYPT, gives=15)
@case
def c31_16(): return signing(attributes=DECRYPT, gives=16)
@case
def c31_16_17(): return signing(attributes=RESTRICTED | DECRYPT, gives=16)
@case
def c31_17_no_hash(): return signing(attributes=RESTRICTED | SIGN, gives=17)
@case
def c31_17_hash_of_another_tpm():
    w = shop()
    w.learns(B2, w.iak)
    h = w.hash(w.iak)
    w.do(0x30, B2, h)
    w.send(B2, B, h)
    w.do(0x31, B, w.signature(h, w.iak_), gives=17)
    return w


def certifying(party=B, held=True, attested=True, attributes=IAK, gives=0):
    w = shop()
    key_ = w.private(50, attributes)
    half, half_ = w.public(51, IAK), w.private(51, IAK)
    if held:
        w.holds(party, key_)
    if attested:
        w.holds(party, half_)
    w.do(0x32, party, w.signature(w.attest(half), key_), gives=gives)
    return w


@case
def c32_13(): return certifying(party=D, gives=13)
@case
def c32_13_15(): return certifying(party=D, held=False, gives=13)
@case
def c32_15(): return certifying(held=False, gives=15)
@case
def c32_15_attested_key(): return certifying(attested=False, gives=15)
@case
def c32_15_16(): return certifying(held=False, attributes=EK, gives=15)
@case
def c32_16(): return certifying(attributes=EK, gives=16)


def wrapping(party=B, known=(True, True, True), gives=0):
    w = shop()
    t, n, k = w.number(70), w.number(71), w.public(72, EK)
    for yes, u in zip(known, (t, n, k)):
        if yes:
            w.learns(party, u)
    w.do(0x33, party, w.credential(t, n, k), gives=gives)
    return w


@case
def c33_13(): return wrapping(party=D, gives=13)
@case
def c33_13_14(): return wrapping(party=D, known=(False, True, True), gives=13)
@case
def c33_14_first(): return wrapping(known=(False, True, True), gives=14)
@case
def c33_14_number(): return wrapping(known=(True, False, True), gives=14)
@case
def c33_14_key(): return wrapping(known=(True, True, False), gives=14)
@case
def c33_0(): return wrapping()


def activating(party=B, known=True, held=True, first="hash", named_held=True, attributes=EK, gives=0):
    w = shop()
    key, key_ = w.public(80, attributes), w.private(80, attributes)
    named, named_ = w.public(81, IAK), w.private(81, IAK)
    n = w.number(82)
    t = {"hash": lambda: w.hash(named), "number": lambda: w.number(83), "hash of a number": lambda: w.hash(n)}[first]()
    if held:
        w.holds(party, key_)
    if named_held:
        w.holds(party, named_)
    c = w.credential(t, n, key)
    for u in (named, n, key, w.number(83)):
        w.learns(B2, u)
    if first != "number":
        w.do(0x30, B2, t)
    w.do(0x33, B2, c)
    if known:
        w.send(B2, party, c)
    w.do(0x34, party, c, gives=gives)
    return w


@case
def c34_0(): return activating()
@case
def c34_13(): return activating(party=D, gives=13)
@case
def c34_13_14(): return activating(party=D, known=False, gives=13)
@case
def c34_14(): return activating(known=False, gives=14)
@case
def c34_14_15(): return activating(known=False, held=False, gives=14)
@case
def c34_15(): return activating(held=False, gives=15)
@case
def c34_15_no_hash(): return activating(first="number", gives=15)
@case
def c34_15_hash_of_no_key(): return activating(first="hash of a number", gives=15)
@case
def c34_15_named_key(): return activating(named_held=False, gives=15)
@case
def c34_15_16(): return activating(held=False, attributes=IAK, gives=15)
@case
def c34_16_not_restricted(): return activating(attributes=DECRYPT, gives=16)
@case
def c34_16_no_decrypt(): return activating(attributes=RESTRICTED, gives=16)


def making(kind, party=B, known=(True, True), gives=0):
    w = shop()
    if kind == 0x35:
        parts = (w.ek_certificate, w.public(90, IAK))
        r = w.idevid(w.subject, *parts)
    elif kind == 0x36:
        parts = (w.number(91), w.ek_certificate)
        r = w.ldevid(*parts)
    else:
        parts = (w.number(91), w.number(92))
        r = w.pair(*parts)
    w.setup = [x for x in w.setup if x != bytes([0x20, B, *two(w.ek_certificate)])]
    for yes, u in zip(known, parts):
        if yes:
            w.learns(party, u)
    w.do(kind, party, r, gives=gives)
    return w


for _kind in (0x35, 0x36, 0x37):
    for _name, _options in {
        "13": dict(party=D, gives=13),
        "13_14": dict(party=D, known=(False, True), gives=13),
        "14_first": dict(known=(False, True), gives=14),
        "14_second": dict(known=(True, False), gives=14),
        "0": dict(),
    }.items():
        CASES["c%02X_%s" % (_kind, _name)] = lambda k=_kind, o=_options: making(k, **o)


# ---- checks, 38 to 3B

def checking(kind, party=B, known=(True, True), right=True, gives=0):
    w = shop()
    key, key_ = w.public(40, SIGN), w.private(40, SIGN)
    other = w.public(41, SIGN)
    w.holds(B2, key_)
    t = w.number(42)
    for u in (t, key, other):
        w.learns(B2, u)
    if kind == 0x38:
        first, second = w.hash(t), (t if right else key)
        w.do(0x30, B2, first)
    elif kind == 0x39:
        first, second = w.signature(t, key_), (key if right else other)
        w.do(0x31, B2, first)
    elif kind == 0x3A:
        first, second = w.certificate(other, BOARD(5), key_), (key if right else other)
        w.do(0x3D, B2, first)
    else:
        if known[0]:
            w.learns(party, key)
        w.do(kind, party, key, gives=gives, bytes_=(SIGN if right else DECRYPT,))
        return w
    if known[0]:
        w.send(B2, party, first)
    if known[1]:
        w.learns(party, second)
    w.do(kind, party, first, second, gives=gives)
    return w


for _kind in (0x38, 0x39, 0x3A, 0x3B):
    for _name, _options in {
        "0": dict(),
        "0_desk": dict(party=O),
        "13": dict(party=M, gives=13),
        "13_14": dict(party=M, known=(False, False), gives=13),
        "14": dict(known=(False, True), gives=14),
        "14_18": dict(known=(False, True), right=False, gives=14),
        "18": dict(right=False, gives=18),
    }.items():
        CASES["c%02X_%s" % (_kind, _name)] = lambda k=_kind, o=_options: checking(k, **o)


# ---- 3C, 3D

@case
def c3C_13_maker():
    w = shop()
    w.learns(M, w.iak)
    w.send(M, B, w.iak, gives=13)
    return w


@case
def c3C_13_desk_sends_a_number():
    w = shop()
    t = w.number(7)
    w.learns(D, t)
    w.send(D, B, t, gives=13)
    return w


@case
def c3C_13_14():
    w = shop()
    w.send(D, B, w.number(7), gives=13)
    return w


@case
def c3C_14():
    w = shop()
    w.send(D, B, w.iak, gives=14)
    return w


@case
def c3C_0_desk_sends_10_15_19():
    w = enrolled()
    w.learns(D, w.iak)
    w.send(D, B2, w.iak)
    w.send(D, B2, w.open)
    w.send(D, B2, w.issued)
    w.send(D, D, w.issued)
    return w


def self_issuing(party=B, known=True, held=True, attributes=SIGN, gives=0):
    w = shop()
    key_ = w.private(30, attributes)
    subject_key = w.public(31, IAK)
    if held:
        w.holds(party, key_)
    if known:
        w.learns(party, subject_key)
    w.do(0x3D, party, w.certificate(subject_key, BOARD(9), key_), gives=gives)
    return w


@case
def c3D_0(): return self_issuing()
@case
def c3D_13(): return self_issuing(party=D, gives=13)
@case
def c3D_13_14(): return self_issuing(party=D, known=False, gives=13)
@case
def c3D_14(): return self_issuing(known=False, gives=14)
@case
def c3D_14_15(): return self_issuing(known=False, held=False, gives=14)
@case
def c3D_15(): return self_issuing(held=False, gives=15)
@case
def c3D_15_16(): return self_issuing(held=False, attributes=DECRYPT, gives=15)
@case
def c3D_16_no_sign(): return self_issuing(attributes=DECRYPT, gives=16)
@case
def c3D_16_restricted(): return self_issuing(attributes=SIGN | RESTRICTED, gives=16)


# ---- 3E

@case
def c3E_13():
    w = shop()
    request(w, to=O)
    challenge(w, desk=O, gives=13)
    return w


@case
def c3E_13_14():
    w = shop()
    request(w, sent=False)
    challenge(w, desk=O, gives=13)
    return w


@case
def c3E_14():
    w = shop()
    request(w, sent=False)
    challenge(w, gives=14)
    return w


@case
def c3E_14_19():
    w = shop()
    request(w, sent=False, turned=True)
    challenge(w, gives=14)
    return w


@case
def c3E_19_turned():
    w = shop()
    request(w, turned=True)
    challenge(w, gives=19)
    return w


@case
def c3E_19_no_pair():
    w = shop()
    request(w)
    challenge(w, request=w.body, gives=19)
    return w


@case
def c3E_19_tpm_subject():
    w = shop()
    request(w, subject=TPM(100))
    challenge(w, gives=19)
    return w


@case
def c3E_19_signature_over_no_hash():
    w = shop()
    free, free_ = w.public(15, SIGN), w.private(15, SIGN)
    w.holds(B, free_)
    w.body = w.idevid(w.subject, w.ek_certificate, w.iak)
    w.do(0x35, B, w.body)
    proof = w.signature(w.body, free_)
    w.do(0x31, B, proof)
    w.request = w.pair(w.body, proof)
    w.do(0x37, B, w.request)
    w.send(B, D, w.request)
    challenge(w, gives=19)
    return w


@case
def c3E_19_20():
    w = shop()
    request(w, subject=TPM(100), over=w.iak)
    challenge(w, gives=19)
    return w


@case
def c3E_20_hash():
    w = shop()
    request(w, over=w.iak)
    challenge(w, gives=20)
    return w


@case
def c3E_20_key():
    w = shop()
    request(w, key_=w.new_)
    challenge(w, gives=20)
    return w


def self_signed(w, subject=TPM(1), ek=None):
    """A certificate of the EK that the board made for itself."""
    key_ = w.private(16, SIGN)
    w.holds(B, key_)
    w.learns(B, w.ek if ek is None else ek)
    c = w.certificate(w.ek if ek is None else ek, subject, key_)
    w.do(0x3D, B, c)
    return c


@case
def c3E_20_21():
    w = shop()
    request(w, certificate=self_signed(w), key_=w.new_)
    challenge(w, gives=20)
    return w


@case
def c3E_21_signer():
    w = shop()
    request(w, certificate=self_signed(w))
    challenge(w, gives=21)
    return w


@case
def c3E_21_subject():
    w = shop()
    request(w, certificate=self_signed(w, subject=BOARD(1)))
    challenge(w, gives=21)
    return w


def other_iak(w, attributes):
    key, key_ = w.public(17, attributes), w.private(17, attributes)
    w.holds(B, key_)
    w.learns(B, key)
    return key, key_


@case
def c3E_21_23():
    w = shop()
    c = self_signed(w)
    key, key_ = other_iak(w, DESK)
    request(w, certificate=c, key=key, key_=key_)
    challenge(w, name=w.hash(key), gives=21)
    return w


@case
def c3E_23_iak():
    w = shop()
    key, key_ = other_iak(w, DESK)
    request(w, key=key, key_=key_)
    challenge(w, name=w.hash(key), gives=23)
    return w


def other_ek(w, attributes):
    ek, ek_ = w.public(18, attributes), w.private(18, attributes)
    w.holds(B, ek_)
    c = w.certificate(ek, TPM(2), w.maker_)
    w.learns(B, c)
    return ek, c


@case
def c3E_23_ek():
    w = shop()
    ek, c = other_ek(w, DECRYPT | FIXED)
    request(w, certificate=c)
    challenge(w, ek=ek, gives=23)
    return w


@case
def c3E_23_24():
    w = shop()
    ek, c = other_ek(w, DECRYPT | FIXED)
    request(w, certificate=c)
    challenge(w, ek=ek, learners=[], gives=23)
    return w


@case
def c3E_24_not_known():
    w = shop()
    request(w)
    challenge(w, learners=[], gives=24)
    return w


@case
def c3E_24_known_elsewhere():
    w = shop()
    request(w)
    challenge(w, learners=[B2], gives=24)
    return w


@case
def c3E_24_known_to_two():
    w = shop()
    request(w)
    challenge(w, learners=[D, B2], gives=24)
    return w


@case
def c3E_24_27():
    w = shop()
    request(w)
    challenge(w, learners=[], name=w.hash(w.new), gives=24)
    return w


@case
def c3E_27_name():
    w = shop()
    request(w)
    challenge(w, name=w.hash(w.new), gives=27)
    return w


@case
def c3E_27_no_hash():
    w = shop()
    request(w)
    challenge(w, name=w.iak, gives=27)
    return w


@case
def c3E_27_ek():
    w = shop()
    request(w)
    challenge(w, ek=w.public(19, EK), gives=27)
    return w


# ---- 3F

def challenged(desk=D):
    w = shop()
    request(w, to=desk)
    challenge(w, desk=desk)
    give_back(w, desk=desk)
    return w


@case
def c3F_13():
    w = challenged()
    w.issue_iak(O, B, w.open, iak_certificate(w, signer=w.owner_), gives=13)
    return w


@case
def c3F_25_never_opened():
    w = shop()
    w.issue_iak(D, B, w.credential(w.hash(w.iak), w.number(9), w.ek), iak_certificate(w), gives=25)
    return w


@case
def c3F_25_other_desk():
    w = challenged()
    oem2_ = w.private(14, DESK)
    w.signs(D2, oem2_)
    w.issue_iak(D2, B, w.open, iak_certificate(w, signer=oem2_), gives=25)
    return w


@case
def c3F_25_closed():
    w = enrolled()
    w.issue_iak(D, B, w.open, iak_certificate(w, subject=BOARD(101)), gives=25)
    return w


@case
def c3F_25_26():
    w = shop()
    w.issue_iak(D, D, w.credential(w.hash(w.iak), w.number(9), w.ek), iak_certificate(w), gives=25)
    return w


@case
def c3F_26_number_not_known():
    w = challenged()
    w.issue_iak(D, B2, w.open, iak_certificate(w), gives=26)
    return w


@case
def c3F_26_27():
    w = challenged()
    w.issue_iak(D, B2, w.open, iak_certificate(w, key=w.new), gives=26)
    return w


@case
def c3F_27_key():
    w = challenged()
    w.issue_iak(D, B, w.open, iak_certificate(w, key=w.new), gives=27)
    return w


@case
def c3F_27_subject_number():
    w = challenged()
    w.issue_iak(D, B, w.open, iak_certificate(w, subject=BOARD(101)), gives=27)
    return w


@case
def c3F_27_subject_kind():
    w = challenged()
    w.issue_iak(D, B, w.open, iak_certificate(w, subject=TPM(100)), gives=27)
    return w


@case
def c3F_27_signer():
    w = challenged()
    w.issue_iak(D, B, w.open, iak_certificate(w, signer=w.owner_), gives=27)
    return w


@case
def c3F_27_desk_without_key():
    w = challenged(desk=D2)
    w.issue_iak(D2, B, w.open, iak_certificate(w), gives=27)
    return w


@case
def c3F_27_28():
    w = enrolled()
    request(w, subject=BOARD(101))
    challenge(w, number=10)
    give_back(w)
    w.issue_iak(D, B, w.open, w.issued, gives=27)
    return w


@case
def c3F_27_31():
    w = enrolled()
    second(w, endorsed(w, 31, B2), key=w.new, gives=27)
    return w


@case
def c3F_26_31():
    w = enrolled()
    c, _ = second(w, endorsed(w, 31, B2), gives=31)
    w.issue_iak(D, B, w.open, c, gives=26)
    return w


@case
def c3F_28_31():
    """The certificate that was issued, asked for again with another EK of the TPM."""
    w = enrolled()
    other = endorsed(w, 31, B)
    request(w, certificate=other.certificate)
    challenge(w, number=10, ek=other.ek)
    give_back(w)
    w.issue_iak(D, B, w.open, w.issued, gives=28)
    return w


# ---- 40 to 42

@each(*FAMILIES)
def cNN_13(f):
    w = enrolled(f)
    attested_request(w, to=f.other)
    by_the_other_desk(w)
    return w


def by_the_other_desk(w):
    f = w.family
    w.do(f.kind, f.other, w.lrequest, new_certificate(w, signer=w.desk_keys[f.other]), gives=13)


@each(*FAMILIES)
def cNN_13_14(f):
    w = enrolled(f)
    attested_request(w, sent=False)
    by_the_other_desk(w)
    return w


@each(*FAMILIES)
def cNN_14(f):
    w = enrolled(f)
    attested_request(w, sent=False)
    issue(w, gives=14)
    return w


@each(*FAMILIES)
def cNN_14_19(f):
    w = enrolled(f)
    attested_request(w, sent=False, turned=True)
    issue(w, gives=14)
    return w


@each(*FAMILIES)
def cNN_19_turned(f):
    w = enrolled(f)
    attested_request(w, turned=True)
    issue(w, gives=19)
    return w


@each(*FAMILIES)
def cNN_19_idevid_request(f):
    """A pair of a 17 and its signature."""
    w = enrolled(f)
    w.lrequest = w.request
    w.send(B, f.desk, w.lrequest)
    issue(w, gives=19)
    return w


@each(*FAMILIES)
def cNN_19_no_attest(f):
    """The 18's message is a signature over a hash."""
    w = enrolled(f)
    h = w.hash(w.iak)
    w.do(0x30, B, h)
    attested_request(w, attest=h, by_certify=False)
    issue(w, gives=19)
    return w


@each(*FAMILIES)
def cNN_19_no_signature(f):
    """The 18's message is no signature."""
    w = enrolled(f)
    attested_body(w, w.iak)
    issue(w, gives=19)
    return w


@each(*FAMILIES)
def cNN_19_20(f):
    w = enrolled(f)
    h = w.hash(w.iak)
    w.do(0x30, B, h)
    attested_request(w, attest=h, by_certify=False, over=w.iak)
    issue(w, gives=19)
    return w


@each(*FAMILIES)
def cNN_20_hash(f):
    w = enrolled(f)
    attested_request(w, over=w.iak)
    issue(w, gives=20)
    return w


@each(*FAMILIES)
def cNN_20_key(f):
    w = enrolled(f)
    attested_request(w, key_=w.iak_)
    issue(w, gives=20)
    return w


@each(*FAMILIES)
def cNN_20_attest(f):
    w = enrolled(f)
    attested_request(w, signer=w.new_)
    issue(w, gives=20)
    return w


def own_parent(w):
    """A certificate of the IAK that the board made for itself."""
    key_ = w.private(16, SIGN)
    w.holds(B, key_)
    c = w.certificate(w.iak, w.subject, key_)
    w.do(0x3D, B, c)
    return c


@each(*FAMILIES)
def cNN_20_21(f):
    w = enrolled(f)
    attested_request(w, parent=own_parent(w), signer=w.new_)
    issue(w, gives=20)
    return w


@each(*FAMILIES)
def cNN_21(f):
    w = enrolled(f)
    attested_request(w, parent=own_parent(w))
    issue(w, gives=21)
    return w


@each(*FAMILIES)
def cNN_21_ek_certificate(f):
    """The parent is the endorsement certificate: its signer is a TPM maker's."""
    w = enrolled(f)
    ek, c = other_ek(w, IAK)
    key_ = w.private(18, IAK)
    attested_request(w, parent=c, signer=key_)
    issue(w, gives=21)
    return w


def another_new_key(w, attributes):
    w.new, w.new_ = w.public(21, attributes), w.private(21, attributes)
    w.holds(B, w.new_)


def misfit(f):
    """Attributes of a new key of the other families: 0A hex for a LAK, 0B hex for the others."""
    return f.attributes ^ RESTRICTED


@each(*FAMILIES)
def cNN_21_23(f):
    w = enrolled(f)
    another_new_key(w, misfit(f))
    attested_request(w, parent=own_parent(w))
    issue(w, gives=21)
    return w


def asked_with(f, attributes, subject=None):
    """A new key of these attributes."""
    w = enrolled(f)
    another_new_key(w, attributes)
    attested_request(w)
    issue(w, new_certificate(w, subject=subject), gives=23)
    return w


CASES["c40_23"] = lambda: asked_with(LAK, misfit(LAK))
CASES["c41_23_attestation_key"] = lambda: asked_with(IDEVID, misfit(IDEVID))
CASES["c42_23_attestation_key"] = lambda: asked_with(LDEVID, misfit(LDEVID))


@each(*FAMILIES)
def cNN_23_not_fixed(f): return asked_with(f, f.attributes - FIXED)
@each(*FAMILIES)
def cNN_23_decrypt(f): return asked_with(f, f.attributes + DECRYPT)
@each(*FAMILIES)
def cNN_23_27(f): return asked_with(f, misfit(f), subject=BOARD(101))


def under(parent, f, gives, fits=True):
    """Asked for under an issued certificate of another family, or of its own."""
    w = enrolled()
    above = grow(w, parent, 22, (w.issued, w.iak_))
    w.family = f
    another_new_key(w, f.attributes if fits else misfit(f))
    attested_request(w, parent=above[0], signer=above[1])
    issue(w, gives=gives)
    return w


@case
def c41_21_lak_parent(): return under(LAK, IDEVID, gives=21)
@case
def c41_21_23_lak_parent(): return under(LAK, IDEVID, gives=21, fits=False)
@case
def c41_21_23_ldevid_parent(): return under(LDEVID, IDEVID, gives=21)
@each(*FAMILIES)
def cNN_23_idevid_parent(f): return under(IDEVID, f, gives=23)
@each(LAK, LDEVID)
def cNN_23_ldevid_parent(f): return under(LDEVID, f, gives=23)


@each(*FAMILIES)
def cNN_27_key(f):
    w = enrolled(f)
    attested_request(w)
    issue(w, new_certificate(w, key=w.iak), gives=27)
    return w


@each(*FAMILIES)
def cNN_27_subject(f):
    w = enrolled(f)
    attested_request(w)
    issue(w, new_certificate(w, subject=BOARD(101)), gives=27)
    return w


@each(*FAMILIES)
def cNN_27_signer(f):
    w = enrolled(f)
    attested_request(w)
    issue(w, new_certificate(w, signer=w.desk_keys[f.other]), gives=27)
    return w


def at_the_second_desk(gives):
    w = enrolled(IDEVID)
    attested_request(w, to=D2)
    w.do(0x41, D2, w.lrequest, new_certificate(w, signer=w.private(14, DESK)), gives=gives)
    return w


@case
def c41_0_under_another_desk():
    """One OEM desk signed the parent, another one issues."""
    w = at_the_second_desk(gives=0)
    w.signs(D2, w.private(14, DESK))
    return w


@case
def c41_27_desk_without_key(): return at_the_second_desk(gives=27)


@each(*FAMILIES)
def cNN_27_28(f):
    w = enrolled(f)
    attested_request(w)
    issue(w, w.issued, gives=27)
    return w


@each(*FAMILIES)
def cNN_28(f):
    w = honest(f)
    issue(w, gives=28)
    return w


@each(*FAMILIES)
def cNN_28_other_iak(f):
    """A certificate is asked for again under another IAK of the board."""
    w = honest(f)
    w.iak, w.iak_ = other_iak(w, IAK)
    enrol(w, number=10)
    attested_request(w)
    issue(w, gives=28)
    return w


@each(LAK, LDEVID)
def cNN_28_under_a_lak(f):
    """A certificate issued under the IAK is asked for again under a LAK."""
    w = honest(f)
    parent, key_ = grow(w, LAK, 22, (w.issued, w.iak_))
    w.family = f
    attested_request(w, parent=parent, signer=key_)
    issue(w, gives=28)
    return w


@each(LAK, LDEVID)
def cNN_28_29(f):
    """A certificate issued at depth 2 is asked for again under a parent of depth 8."""
    w = chain(8)
    if f != LAK:
        grow(w, f, 22, w.chain[0])
    w.new, w.new_ = w.public(22, f.attributes), w.private(22, f.attributes)
    deep, deep_ = w.chain[7]
    attested_request(w, parent=deep, signer=deep_)
    issue(w, gives=28)
    return w


def by_another_command(issued, f, gives):
    """A certificate that one command issued is asked for by another, on the same request."""
    w = honest(issued)
    c = new_certificate(w)
    w.send(B, f.desk, w.lrequest)
    w.family = f
    issue(w, c, gives=gives)
    return w


@case
def c40_23_27_idevid_certificate(): return by_another_command(IDEVID, LAK, gives=23)
@case
def c40_23_28_ldevid_certificate(): return by_another_command(LDEVID, LAK, gives=23)
@case
def c41_23_27_lak_certificate(): return by_another_command(LAK, IDEVID, gives=23)
@case
def c41_27_28_ldevid_certificate(): return by_another_command(LDEVID, IDEVID, gives=27)
@case
def c42_23_28_lak_certificate(): return by_another_command(LAK, LDEVID, gives=23)
@case
def c42_27_28_idevid_certificate(): return by_another_command(IDEVID, LDEVID, gives=27)


# ---- 43

@case
def c43_13():
    w, pairs = several(2)
    w.issue_iaks(O, B, *pairs, gives=13)
    unissued(w, pairs[0])
    return w


@case
def c43_13_board():
    w, pairs = several(2)
    w.issue_iaks(B, B, *pairs, gives=13)
    return w


@case
def c43_13_32_all_empty():
    w = shop()
    for p in (O, B, M):
        w.issue_iaks(p, B, gives=13)
    return w


@case
def c43_13_32_alike():
    w, (a,) = several(1)
    w.issue_iaks(O, B, a, a, gives=13)
    return w


@case
def c43_13_25():
    w, (a,) = several(1)
    w.issue_iaks(D, B, a)
    w.issue_iaks(O, B, a, gives=13)
    return w


@case
def c43_32_all_empty():
    w, (a,) = several(1)
    w.issue_iaks(D, B, gives=32)
    unissued(w, a)
    return w


def alike(i, j):
    """One certificate in two places, each with a credential of its own, both open."""
    w, (a, b, c, d) = several(4)
    places = [a, b, c, d]
    places[j] = places[j][0], places[i][1]
    w.issue_iaks(D, B, *places, gives=32)
    unissued(w, a)
    return w


for _i in range(4):
    for _j in range(_i + 1, 4):
        CASES["c43_32_alike_%d_%d" % (_i + 1, _j + 1)] = lambda i=_i, j=_j: alike(i, j)


@case
def c43_32_alike_between_empty_pairs():
    w, (a, b) = several(2)
    w.issue_iaks(D, B, EMPTY, a, EMPTY, (b[0], a[1]), gives=32)
    unissued(w, a)
    return w


@case
def c43_32_pair_twice():
    w, (a,) = several(1)
    w.issue_iaks(D, B, a, a, gives=32)
    unissued(w, a)
    return w


@case
def c43_32_25():
    """The first pair is closed; the last two have one certificate."""
    w, (a, b, c) = several(3)
    w.issue_iaks(D, B, a)
    w.issue_iaks(D, B, a, b, c, (b[0], c[1]), gives=32)
    unissued(w, b)
    return w


@case
def c43_32_26():
    w, (a, b) = several(2)
    w.issue_iaks(D, B2, a, (b[0], a[1]), gives=32)
    return w


@case
def c43_32_all_empty_26():
    w = shop()
    w.issue_iaks(D, D, gives=32)
    return w


def never_opened(w):
    """A credential that no challenge opened, and the certificate that it would be for."""
    iak = w.public(41, IAK)
    return w.credential(w.hash(iak), w.number(21), w.ek), iak_certificate(w, key=iak)


def failing(place, pair, gives, before=None):
    """A pair that fails in a place, the others fine: nothing is left of those."""
    w, fine = several(3, w=before)
    w.issue_iaks(D, B, *fine[:place], pair(w), *fine[place:], gives=gives)
    unissued(w, fine[0])
    w.issue_iaks(D, B, *fine[1:])
    return w


for _place, _name in enumerate(("first", "second", "third", "fourth")):
    CASES["c43_25_never_opened_" + _name] = lambda i=_place: failing(i, never_opened, 25)


@case
def c43_25_other_desk():
    """Open at another desk."""
    w, (a,) = several(1)
    oem2_ = w.private(14, DESK)
    w.signs(D2, oem2_)
    other = opened(w, first(w), id=40, number=20, desk=D2, signer=oem2_)[:2]
    w.issue_iaks(D, B, a, other, gives=25)
    w.issue_iaks(D2, B, other, a, gives=25)
    unissued(w, a)
    unissued(w, other, desk=D2)
    return w


@case
def c43_25_closed():
    w, (a, b) = several(2)
    w.issue_iak(D, B, *b)
    w.issue_iaks(D, B, a, b, gives=25)
    unissued(w, a)
    return w


@case
def c43_25_credential_twice():
    w, (a, b) = several(2)
    w.issue_iaks(D, B, a, (a[0], b[1]), gives=25)
    unissued(w, a)
    return w


@case
def c43_25_credential_twice_apart():
    w, (a, b, c) = several(3)
    w.issue_iaks(D, B, a, EMPTY, c, (a[0], b[1]), gives=25)
    unissued(w, a)
    return w


@case
def c43_25_26():
    """The second credential is not open, and the board does not know its number."""
    w, (a,) = several(1)
    w.issue_iaks(D, B, a, never_opened(w), gives=25)
    return w


def not_returned(w): return opened(w, first(w), id=40, number=20, returned=False)[:2]


for _place, _name in enumerate(("first", "second", "third", "fourth")):
    CASES["c43_26_not_returned_" + _name] = lambda i=_place: failing(i, not_returned, 26)


@case
def c43_26_other_board():
    w, pairs = several(2)
    w.issue_iaks(D, B2, *pairs, gives=26)
    unissued(w, pairs[0])
    return w


@case
def c43_26_returned_by_the_desk():
    w, pairs = several(2)
    w.issue_iaks(D, D, *pairs, gives=26)
    unissued(w, pairs[0])
    return w


@case
def c43_26_other_board_knows_the_first():
    w, (a, b) = several(2)
    w.send(B, B2, w.number(10))
    w.issue_iaks(D, B2, a, b, gives=26)
    w.issue_iaks(D, B2, b, a, gives=26)
    unissued(w, a)
    return w


@case
def c43_26_27():
    w, (a,) = several(1)
    b = opened(w, first(w), id=40, number=20, key=w.new, returned=False)[:2]
    w.issue_iaks(D, B, a, b, gives=26)
    return w


def other_certificate(**options):
    """A pair whose certificate is not the one called for."""
    def make(w):
        credential, c, _ = opened(w, first(w), id=40, number=20)
        return credential, iak_certificate(w, **dict(dict(key=w.public(40, IAK)), **{k: v(w) for k, v in options.items()}))
    return make


@case
def c43_27_key(): return failing(1, other_certificate(key=lambda w: w.new), 27)
@case
def c43_27_subject(): return failing(2, other_certificate(subject=lambda w: BOARD(101)), 27)
@case
def c43_27_subject_kind(): return failing(3, other_certificate(subject=lambda w: TPM(100)), 27)
@case
def c43_27_signer(): return failing(1, other_certificate(signer=lambda w: w.owner_), 27)


@case
def c43_27_crossed():
    """The certificates of two pairs, each with the other's credential."""
    w, (a, b) = several(2)
    w.issue_iaks(D, B, (a[0], b[1]), (b[0], a[1]), gives=27)
    w.issue_iaks(D, B, b, a)
    return w


@case
def c43_27_desk_without_key():
    w, pairs = several(2, desk=D2)
    w.issue_iaks(D2, B, *pairs, gives=27)
    return w


def again(w, subject=None):
    """The certificate that enrolled() issued, by a new challenge."""
    request(w, subject=subject)
    challenge(w, number=20)
    give_back(w)
    return w.open, w.issued


@case
def c43_28(): return failing(1, again, 28, before=enrolled())
@case
def c43_28_first(): return failing(0, again, 28, before=enrolled())
@case
def c43_27_28(): return failing(2, lambda w: again(w, subject=BOARD(101)), 27, before=enrolled())


@case
def c43_28_by_an_earlier_43():
    """A certificate that a 43 issued is asked for again, by a 43 and by a 3F."""
    w = shop()
    request(w)
    challenge(w)
    give_back(w)
    w.issued = iak_certificate(w)
    w.issue_iaks(D, B, EMPTY, (w.open, w.issued))
    a = opened(w, first(w), id=30)[:2]
    b = again(w)
    w.issue_iaks(D, B, a, b, gives=28)
    w.issue_iak(D, B, *b, gives=28)
    unissued(w, a)
    return w


@case
def c43_28_31():
    """The certificate that was issued, asked for again with another EK of the TPM."""
    w = enrolled()
    a = opened(w, first(w), id=30)[:2]
    other = endorsed(w, 31, B)
    request(w, certificate=other.certificate)
    challenge(w, number=20, ek=other.ek)
    give_back(w)
    w.issue_iaks(D, B, a, (w.open, w.issued), gives=28)
    unissued(w, a)
    return w


def with_other_ek(w, **options): return opened(w, endorsed(w, 31, B), id=40, number=20, **options)[:2]


@case
def c43_31(): return failing(1, with_other_ek, 31, before=enrolled())
@case
def c43_31_first(): return failing(0, with_other_ek, 31, before=enrolled())
@case
def c43_31_by_the_pair_before(): return failing(1, with_other_ek, 31)
@case
def c43_31_by_three_pairs_before(): return failing(3, with_other_ek, 31)
@case
def c43_27_31(): return failing(1, lambda w: with_other_ek(w, key=w.new), 27)
@case
def c43_26_31(): return failing(1, lambda w: with_other_ek(w, returned=False), 26)


@case
def c43_31_other_ek_first():
    """The first pair has the other EK, so that the next one fails."""
    w, (a, b) = several(2)
    other = with_other_ek(w)
    w.issue_iaks(D, B, other, a, b, gives=31)
    w.issue_iaks(D, B, a, b)
    w.issue_iaks(D, B, other, gives=31)
    return w


@case
def c43_31_then_25():
    """The refusal is that of the first pair that fails, though a later one has a lower number."""
    w, (a,) = several(1)
    w.issue_iaks(D, B, a, with_other_ek(w), never_opened(w), gives=31)
    unissued(w, a)
    return w


@case
def c43_27_then_26_and_25():
    w, (a, b) = several(2)
    w.issue_iaks(D, B, (a[0], b[1]), not_returned(w), (a[0], a[1]), gives=27)
    unissued(w, a)
    return w


@case
def c43_26_then_25():
    """26 at the first pair, 25 at the second; and the other way round."""
    w, (a,) = several(1)
    w.issue_iaks(D, B2, a, never_opened(w), gives=26)
    w.issue_iaks(D, B2, never_opened(w), a, gives=25)
    unissued(w, a)
    return w


# ---- 44, 45

@case
def c44_13():
    w = measured()
    extend(w, w.start, w.fresh, by=D, gives=13)
    return w


@case
def c44_13_14():
    w = measured()
    extend(w, w.start, w.ek, by=D, gives=13)
    return w


@case
def c44_14():
    w = measured()
    extend(w, w.start, w.ek_, gives=14)
    extend(w, w.start, w.start, gives=14)
    return w


@case
def c44_14_33():
    w = measured()
    extend(w, w.other_start, w.ek_, gives=14)
    return w


@case
def c44_33():
    w = measured()
    extend(w, w.other_start, w.fresh, gives=33)
    extend(w, w.fresh, w.fresh, gives=33)
    return w


@case
def c45_13():
    w = measured()
    quote(w, w.start, by=D, key_=w.oem_, gives=13)
    return w


@case
def c45_13_14():
    w = measured()
    quote(w, w.start, by=O, key_=w.owner_, gives=13)
    return w


@case
def c45_14():
    w = measured()
    quote(w, w.start, number=w.number(501), gives=14)
    return w


@case
def c45_14_15():
    w = measured()
    quote(w, w.start, number=w.number(501), key_=w.oem_, gives=14)
    return w


@case
def c45_15():
    """The key is another board's."""
    w = measured()
    key_ = w.private(30, IAK)
    w.holds(B2, key_)
    quote(w, w.start, key_=key_, gives=15)
    return w


@case
def c45_15_16():
    w = measured()
    quote(w, w.start, key_=w.oem_, gives=15)
    return w


@case
def c45_16():
    w = measured()
    quote(w, w.start, key_=w.ek_, gives=16)
    return w


@case
def c45_16_33():
    w = measured()
    quote(w, w.other_start, key_=w.ek_, gives=16)
    return w


@case
def c45_15_33():
    w = measured()
    quote(w, w.other_start, key_=w.private(30, IAK), gives=15)
    return w


@case
def c45_33():
    w = measured()
    quote(w, w.other_start, gives=33)
    quote(w, w.fresh, gives=33)
    return w


# ---- 43 at loading

def a_term_of_each_kind():
    w = World(DEVICE, MAKER, OEM, OWNER)
    key, key_ = w.public(5, IAK), w.private(5, IAK)
    digest = w.hash(key)
    proof = w.signature(digest, key_)
    w.wrong_credential = w.attest(key)
    attested = w.signature(w.wrong_credential, key_)
    w.open = w.credential(digest, w.number(9), key)
    maker_ = w.private(1, DESK)
    w.issued = w.certificate(key, TPM(7), maker_)
    body = w.idevid(BOARD(8), w.issued, key)
    w.wrong_certificate = w.ldevid(attested, w.issued)
    w.request = w.pair(body, proof)
    w.signs(1, maker_)
    w.learns(0, w.issued)
    return w


def loading(*pairs, desk=2, returning=0, gives):
    """A 43 that does not load. Pairs are functions of the world; those that are not given are empty."""
    w = a_term_of_each_kind()
    w.issue_iaks(desk, returning, *[pair(w) for pair in pairs])
    w.expected = []
    return w.refuses(gives)


def proper(w): return w.open, w.issued
def empty(w): return EMPTY


for _i in range(4):
    for _name, _pair in {
        "f07_43_credential_%d_undeclared": lambda w: (len(w.terms), w.issued),
        "f07_43_certificate_%d_undeclared": lambda w: (w.open, len(w.terms)),
        "f07_43_credential_%d_FFFF_alone": lambda w: (0xFFFF, w.issued),
        "f07_43_certificate_%d_FFFF_alone": lambda w: (w.open, 0xFFFF),
        "f08_43_credential_%d_of_kind_14": lambda w: (w.wrong_credential, w.issued),
        "f08_43_certificate_%d_of_kind_18": lambda w: (w.open, w.wrong_certificate),
    }.items():
        CASES[_name % (_i + 1)] = lambda i=_i, pair=_pair, n=int(_name[1:3]): loading(*i * (proper,), pair, gives=n)

for _name, _make in {
    "f07_43_party_undeclared": lambda: loading(proper, desk=4, gives=7),
    "f07_43_returning_undeclared": lambda: loading(proper, returning=4, gives=7),
    "f07_43_returning_undeclared_all_empty": lambda: loading(returning=4, gives=7),
    "f07_43_FFFF_across_pairs_1_2": lambda: loading(lambda w: (w.open, 0xFFFF), lambda w: (0xFFFF, w.issued), gives=7),
    "f07_43_FFFF_across_pairs_2_3": lambda: loading(empty, lambda w: (w.open, 0xFFFF), lambda w: (0xFFFF, w.issued), gives=7),
    "f07_43_FFFF_across_pairs_3_4": lambda: loading(proper, empty, lambda w: (w.open, 0xFFFF), lambda w: (0xFFFF, w.issued), gives=7),
    "f07_43_FFFF_before_empty_pairs": lambda: loading(lambda w: (w.open, 0xFFFF), gives=7),
    "f07_43_FFFF_after_empty_pairs": lambda: loading(empty, empty, empty, lambda w: (0xFFFF, w.issued), gives=7),
    "f07_43_FFFE_twice": lambda: loading(lambda w: (0xFFFE, 0xFFFE), gives=7),
    "f07_43_FFFF_and_FFFE": lambda: loading(proper, lambda w: (0xFFFF, 0xFFFE), gives=7),
    "f08_43_turned": lambda: loading(lambda w: (w.issued, w.open), gives=8),
    "two_8_then_7_in_43": lambda: loading(lambda w: (w.wrong_credential, 0xFFFF), gives=8),
    "two_7_then_8_in_43": lambda: loading(lambda w: (0xFFFF, w.wrong_certificate), gives=7),
    "two_8_then_7_in_pairs_of_43": lambda: loading(empty, lambda w: (w.open, w.wrong_certificate), lambda w: (0xFFFF, w.issued), gives=8),
    "two_7_then_8_in_pairs_of_43": lambda: loading(empty, lambda w: (w.open, 0xFFFF), lambda w: (w.wrong_credential, w.issued), gives=7),
    "two_7_party_then_8_in_43": lambda: loading(lambda w: (w.wrong_credential, w.issued), desk=4, gives=7),
}.items():
    CASES[_name] = _make


@case
def f04_43_cut_short():
    """One byte of the last pair is missing."""
    w = a_term_of_each_kind()
    w.issue_iaks(2, 0, proper(w))
    w.commands[-1] = w.commands[-1][:-1]
    return w.refuses(4)


@case
def f05_party_after_43():
    w = a_term_of_each_kind()
    w.issue_iaks(2, 0, proper(w), gives=25)
    w.commands.append(bytes([0x01, DEVICE]))
    return w.refuses(5)


@case
def f07_43_no_term():
    w = World(OEM, DEVICE)
    w.issue_iaks(0, 1, EMPTY, (0, 0))
    return w.refuses(7)


def every_kind():
    """A record of each kind, as the files of the kinds to 42 have them, and a 43."""
    w = a_term_of_each_kind()
    digest, proof, attested = 2, 3, 5
    body, lbody = 10, 11
    for kind, r, gives in (0x30, digest, 0), (0x31, proof, 15), (0x32, attested, 15), (0x33, w.open, 14), (0x34, w.open, 14), (0x35, body, 0), (0x36, lbody, 14), (0x37, w.request, 14):
        w.do(kind, 0, r, gives=gives)
    w.do(0x38, 0, digest, 0)
    w.do(0x39, 0, proof, 0, gives=14)
    w.do(0x3A, 0, w.issued, 0, gives=18)
    w.do(0x3B, 0, 0, bytes_=(15,), gives=18)
    w.send(0, 2, w.request, gives=14)
    w.do(0x3D, 0, w.issued, gives=15)
    w.do(0x3E, 2, w.request, w.open, gives=14)
    w.issue_iak(2, 0, w.open, w.issued, gives=25)
    w.do(0x40, 3, w.request, w.issued, gives=14)
    w.do(0x41, 2, w.request, w.issued, gives=14)
    w.do(0x42, 3, w.request, w.issued, gives=14)
    w.issue_iaks(2, 0, EMPTY, (w.open, w.issued), gives=25)
    return w


@case
def load_every_kind_to_43(): return every_kind()


@case
def load_43_all_empty():
    """Empty pairs name no term, also where there is none."""
    w = World(OEM, DEVICE)
    w.issue_iaks(0, 1, gives=32)
    w.issue_iaks(1, 1, gives=13)
    return w


@case
def cut_two_iaks_together():
    """Cut at each length: before the 43, inside it, after it, inside the next command."""
    w, (a, b) = several(2)
    w.issue_iaks(D, B, EMPTY, a, EMPTY, b)
    w.send(D, B, b[1])
    return w


# ---- 1B, 1C, 44 and 45 at loading

# Terms of a_term_of_each_kind.
KEY_, DIGEST, PROOF, ATTESTED, NUMBER = 1, 2, 3, 5, 6


def a_term_of_each_kind_to_1C():
    """The terms of each kind to 1A, a 1B and a 1C, with what a 44 and a 45 take."""
    w = a_term_of_each_kind()
    w.start = w.register(FIRST)
    w.extended = w.hash(w.pair(w.start, 0))
    w.body = w.quote_body(FIRST, w.start, NUMBER)
    w.quote = w.signature(w.body, KEY_)
    return w


def record(kind, *body, gives, after=a_term_of_each_kind_to_1C):
    """A last record that does not load. A part of its body that is a function is asked of the world. No set-up stands
    before a term."""
    w = after()
    if kind < 0x20:
        w.setup = []
    w.commands.append(bytes([kind, *[b for f in body for b in (f(w) if callable(f) else [f])]]))
    return w.refuses(gives)


def term(name): return lambda w: two(getattr(w, name))
def undeclared(w): return two(len(w.terms))


for _name, _body in {
    "f07_1B_register_24": (0x1B, 24),
    "f07_1B_register_255": (0x1B, 255),
    "f07_1C_register_24": (0x1C, 24, term("start"), 0, NUMBER),
    "f07_1C_value_not_lower": (0x1C, 1, undeclared, 0, NUMBER),
    "f07_1C_number_not_lower": (0x1C, 1, term("start"), undeclared),
    "f07_44_party_undeclared": (0x44, 4, FIRST, term("extended")),
    "f07_44_register_24": (0x44, 0, 24, term("extended")),
    "f07_44_register_255": (0x44, 0, 255, term("extended")),
    "f07_44_result_undeclared": (0x44, 0, FIRST, undeclared),
    "f07_45_party_undeclared": (0x45, 4, term("quote")),
    "f07_45_result_undeclared": (0x45, 0, undeclared),
    "f08_1C_number_of_kind_15": (0x1C, 1, term("start"), term("open")),
    "f08_44_result_of_kind_11": (0x44, 0, FIRST, 0, KEY_),
    "f08_44_result_pair": (0x44, 0, FIRST, term("request")),
    "f08_44_result_hash_of_a_key": (0x44, 0, FIRST, 0, DIGEST),
    "f08_45_result_of_kind_12": (0x45, 0, 0, DIGEST),
    "f08_45_result_quote_body": (0x45, 0, term("body")),
    "f08_45_result_signature_over_attest": (0x45, 0, 0, ATTESTED),
    "f08_45_result_signature_over_hash": (0x45, 0, 0, PROOF),
    "f08_32_result_signature_over_quote_body": (0x32, 0, term("quote")),
    "f09_1B_twice": (0x1B, FIRST),
    "f09_1C_twice": (0x1C, FIRST, term("start"), 0, NUMBER),
    "f10_20_of_a_1B": (0x20, 0, term("start")),
    "f10_20_of_a_1C": (0x20, 0, term("body")),
    "two_7_register_then_7_in_1C": (0x1C, 24, undeclared, 0, NUMBER),
    "two_7_register_then_8_in_1C": (0x1C, 24, term("start"), 0, KEY_),
    "two_7_value_then_8_in_1C": (0x1C, 1, undeclared, 0, KEY_),
    "two_7_register_then_8_in_44": (0x44, 0, 24, 0, KEY_),
}.items():
    CASES[_name] = lambda body=_body, n=7 if _name.startswith("two") else int(_name[1:3]): record(*body, gives=n)


def alone(kind): return record(kind, gives=4, after=World)


for _kind in 0x1B, 0x1C, 0x44, 0x45:
    CASES["f04_kind_%02X_alone" % _kind] = lambda kind=_kind: alone(kind)
for _kind, _body in {0x1C: (1, term("start"), 0), 0x44: (0, FIRST, 0), 0x45: (0, 0)}.items():
    CASES["f04_%02X_cut_short" % _kind] = lambda kind=_kind, body=_body: record(kind, *body, gives=4)


def late(kind, *body, command=False):
    """A term after set-up, or after a command."""
    w = a_term_of_each_kind_to_1C()
    if command:
        w.extend(0, FIRST, w.extended)
    w.commands.append(bytes([kind, *body]))
    return w.refuses(5)


@case
def f05_1B_after_set_up(): return late(0x1B, LAST)
@case
def f05_1C_after_command(): return late(0x1C, LAST, 0, 0, 0, NUMBER, command=True)


@case
def load_24_registers():
    """The last terms first; then a quote of each, and what no quote shows."""
    w = World(DEVICE)
    key_, number = w.private(1, IAK), w.number(1)
    w.holds(0, key_)
    w.learns(0, number)
    starts = {i: w.register(i) for i in reversed(range(24))}
    for i in range(24):
        w.do(0x45, 0, w.signature(w.quote_body(i, starts[i], number), key_))
    w.do(0x45, 0, w.signature(w.quote_body(0, starts[23], number), key_), gives=33)
    return w


@case
def load_1C_alike_but_for_one_field():
    w = World(DEVICE)
    a, b = w.number(1), w.number(2)
    w.quote_body(0, a, a)
    w.quote_body(1, a, a)
    w.quote_body(0, b, a)
    w.quote_body(0, a, b)
    return w


def every_kind_to_45():
    """A record of each kind: those to 43, then a 1B, a 1C, a 44 and a 45."""
    w = every_kind()
    start = w.register(FIRST)
    extended = w.hash(w.pair(start, 0))
    quote = w.signature(w.quote_body(FIRST, start, NUMBER), KEY_)
    w.extend(0, FIRST, extended)
    w.do(0x45, 0, quote, gives=14)
    return w


@case
def load_every_kind_to_45(): return every_kind_to_45()


@case
def f03_kind_1D(): return record(0x1D, gives=3, after=World)
@case
def f03_kind_46(): return record(0x46, gives=3, after=World)
@case
def f03_kind_46_after_a_record_of_each_kind(): return record(0x46, gives=3, after=every_kind_to_45)


@case
def cut_extended_and_quoted():
    """Cut at each length: inside a 1B and a 1C, before, inside and after a 44 and a 45."""
    w = World(DEVICE, DEVICE)
    key_, number = w.private(1, IAK), w.number(1)
    w.holds(0, key_)
    w.learns(0, number)
    start = w.register(LAST)
    a = w.hash(w.pair(start, number))
    q = w.signature(w.quote_body(LAST, a, number), key_)
    w.do(0x45, 0, q, gives=33)
    w.extend(0, LAST, a)
    w.do(0x45, 0, q)
    w.send(0, 1, q)
    return w


def main():
    directory = sys.argv[1] if len(sys.argv) > 1 else os.path.join(os.path.dirname(os.path.abspath(__file__)), "data")
    for name, make in sorted(CASES.items()):
        w = make()
        with open(os.path.join(directory, name), "wb") as f:
            f.write(w.file())
    if "--expected" in sys.argv:
        for name, make in sorted(CASES.items()):
            w = make()
            print(name, *("F", *w.fault) if w.fault else w.expected)
    if "--stock" in sys.argv:
        for name, make in sorted(CASES.items()):
            for question in make().asked:
                print(name, *question)


if __name__ == "__main__":
    main()
