/* An engine for scenario files in plain C, the speed baseline of the proved one. Written from the papers (document 01
   and, of document 02, requests 1 to 6 and 12) and the readings in docs/DECISIONS.md and reading/READINGS.md, so that
   it is no third reading of the papers. peer_load, peer_run and peer_path are birdweekly_load, birdweekly_run and
   birdweekly_path by another name; the stock of request 12 is left out.

       gcc -std=c11 -O3 -c peer.c

   A file is gone through twice: `load` checks every record and keeps the terms as words, `execute` runs the commands.
   Lent first parts are written in place, and what is left of them is cleared at the end. */
#include <stddef.h>
#include <stdint.h>
#include <string.h>

typedef struct {
    uint16_t certificate, parent, depth;
} peer_entry;

typedef struct {
    uint32_t number, place, parties, terms, commands;
} peer_load_numbers;

typedef struct {
    uint32_t number, place, accepted, refused, issued;
} peer_run_numbers;

typedef struct {
    uint32_t number, place, steps;
} peer_path_numbers;

enum {
    FILE_BYTES = 32768,
    TERMS = 1024,
    PARTIES = 8,
    STATE_BYTES = 8192,
    ENTRIES = 1024,
    OUTCOMES = 8192,
    REGISTERS = 24,
    REGISTER_BYTES = PARTIES * REGISTERS * 2,
    PLACES = 9,
    BUCKETS = 128, /* a file has terms for some 146 IAK certificates at most */
    NONE = 0xFFFF, /* no term has this number */
};

enum { DEVICE, MAKER, OEM, OWNER };
enum { RESTRICTED = 1, SIGN = 2, DECRYPT = 4, FIXED = 8 };
enum {
    AK = RESTRICTED | SIGN | FIXED, EK = RESTRICTED | DECRYPT | FIXED, DEVID = SIGN | FIXED, DESK_KEY = SIGN | FIXED,
};
enum { USED = 1, OPEN = 2, CLOSED = 3 };

enum {
    PUBLIC = 0x10, PRIVATE, HASH, SIGNATURE, ATTEST, CREDENTIAL, NUMBER, IDEVID, LDEVID, CERTIFICATE, PAIR,
    REGISTER, QUOTE,
};

/* A term is one word: kind, attributes, first byte of the Subject or register, and up to three more fields. Two terms
   are alike where their words are equal. The parts of a term stand first.

       kind          8..15        16..31       32..47       48..63
       PUBLIC        attributes   id
       PRIVATE       attributes   id
       HASH                       content
       SIGNATURE                  message      private key
       ATTEST                     public key
       CREDENTIAL                 first term   number       public key
       NUMBER                     id
       IDEVID        Subject      certificate  public key   serial number
       LDEVID                     message      certificate
       CERTIFICATE   Subject      public key   private key  serial number
       PAIR                       first        second
       REGISTER      register
       QUOTE         register     value        number */
static inline uint64_t word(unsigned kind, unsigned x, unsigned a, unsigned b, unsigned c)
{
    return (uint64_t)kind | (uint64_t)x << 8 | (uint64_t)a << 16 | (uint64_t)b << 32 | (uint64_t)c << 48;
}

static inline unsigned kind_of(uint64_t w) { return (uint8_t)w; }
static inline unsigned x_of(uint64_t w) { return (uint8_t)(w >> 8); }
static inline unsigned a_of(uint64_t w) { return (uint16_t)(w >> 16); }
static inline unsigned b_of(uint64_t w) { return (uint16_t)(w >> 32); }
static inline unsigned c_of(uint64_t w) { return (uint16_t)(w >> 48); }

static const uint8_t parts_of[16] = {
    [SIGNATURE & 15] = 1, [ATTEST & 15] = 1, [CERTIFICATE & 15] = 1,
    [IDEVID & 15] = 2, [LDEVID & 15] = 2, [PAIR & 15] = 2, [QUOTE & 15] = 2,
};

/* What is found out about a term beside its fields. */
typedef struct {
    uint16_t link;   /* public key: its private half, or NONE; issued IAK certificate: the next of its bucket, plus 1 */
    uint16_t ek;     /* issued certificate: the EK key that its path ends at */
    uint16_t parent; /* issued certificate */
    uint8_t depth;   /* issued certificate: 1 to 8; any other: 0 */
    uint8_t role;    /* private key that a 22 gave: the role of its party; any other: 0 */
} side_info;

typedef struct {
    uint64_t term[TERMS];
    side_info side[TERMS];
    uint16_t index[2 * TERMS]; /* open addressing by a term's word; term plus 1, or 0 */
    uint16_t stack[TERMS];     /* terms still to be opened */
    uint16_t bucket[BUCKETS];  /* the first IAK certificate of each Subject, by serial number; term plus 1, or 0 */
    uint16_t sign[PARTIES];    /* signing keys, or NONE */
    uint16_t start[REGISTERS]; /* starting values of the registers, or NONE */
    uint8_t role[PARTIES];
    uint32_t parties, terms, commands;
    uint32_t first; /* where the first command stands */
} engine;

static inline unsigned be16(const uint8_t *p) { return (unsigned)p[0] << 8 | p[1]; }
static inline void put16(uint8_t *p, unsigned t) { p[0] = (uint8_t)(t >> 8); p[1] = (uint8_t)t; }

/* The state of a term: known by, TPM table, mark, desk, request, place. */
static inline uint8_t *row(uint8_t *state, unsigned t) { return state + 8 * (size_t)t; }
static inline unsigned knows(const uint8_t *state, unsigned t, unsigned bit) { return state[8 * (size_t)t] & bit; }
static inline unsigned holds(const uint8_t *state, unsigned t, unsigned bit) { return state[8 * (size_t)t + 1] & bit; }

/* A party learns a term and everything in it. A term is opened once at most and then pushes one part, so that the stack
   has room. */
static inline void learn(engine *restrict e, uint8_t *restrict state, unsigned t, unsigned bit)
{
    unsigned top = 0;
    for (;;) {
        uint8_t *known = row(state, t);
        if (!(*known & bit)) {
            *known |= bit;
            uint64_t w = e->term[t];
            unsigned parts = parts_of[kind_of(w) & 15];
            if (parts != 0) {
                t = a_of(w);
                if (parts == 2)
                    e->stack[top++] = (uint16_t)b_of(w);
                continue;
            }
        }
        if (top == 0)
            return;
        t = e->stack[--top];
    }
}

/* ---------------------------------------------------------------------------------------------------------- loading */

/* The length of a kind's record, 0 for an unknown kind. */
static unsigned record_length(unsigned kind)
{
    static const uint8_t length[0x46] = {
        [0x01] = 2, [0x10] = 4, [0x11] = 4, [0x12] = 3, [0x13] = 5, [0x14] = 3, [0x15] = 7, [0x16] = 3, [0x17] = 8,
        [0x18] = 5, [0x19] = 8, [0x1A] = 5, [0x1B] = 2, [0x1C] = 6, [0x20] = 4, [0x21] = 4, [0x22] = 4, [0x30] = 4,
        [0x31] = 4, [0x32] = 4, [0x33] = 4, [0x34] = 4, [0x35] = 4, [0x36] = 4, [0x37] = 4, [0x38] = 6, [0x39] = 6,
        [0x3A] = 6, [0x3B] = 5, [0x3C] = 5, [0x3D] = 4, [0x3E] = 6, [0x3F] = 7, [0x40] = 6, [0x41] = 6, [0x42] = 6,
        [0x43] = 19, [0x44] = 5, [0x45] = 4,
    };
    return kind < sizeof length ? length[kind] : 0;
}

#define REFUSE(n) do { number = (n); goto refused; } while (0)
/* The record has this many bytes, kind byte included. */
#define WHOLE(bytes) do { if (end - p < (bytes)) REFUSE(4); } while (0)
#define WHOLE_TERM(bytes) do { WHOLE(bytes); size = (bytes); if (terms == TERMS) REFUSE(6); } while (0)
/* The field at this byte of the record: a term of any kind, or of one kind. */
#define ANY(t, at) do { (t) = be16(p + (at)); if ((t) >= terms) REFUSE(7); } while (0)
#define OF(t, at, kind) do { ANY(t, at); if (kind_of(e->term[t]) != (kind)) REFUSE(8); } while (0)
#define PARTY(at) do { if (p[at] >= parties) REFUSE(7); } while (0)
#define REGISTER_BYTE(at) do { if (p[at] >= REGISTERS) REFUSE(7); } while (0)

/* The kind of a command's r, and of the first term of 39 and 3A, by the kind of the command less 30 hex. */
static const uint8_t result[] = {
    HASH, SIGNATURE, SIGNATURE, CREDENTIAL, CREDENTIAL, IDEVID, LDEVID, PAIR, 0, SIGNATURE, CERTIFICATE, 0, 0,
    CERTIFICATE, CREDENTIAL, 0, CERTIFICATE, CERTIFICATE, CERTIFICATE, 0, HASH, SIGNATURE,
};

/* The kind of what is in a command's r: its content or message. */
static inline unsigned inner_kind(const engine *e, unsigned r) { return kind_of(e->term[a_of(e->term[r])]); }

/* Checks the file and leaves what its set-up leaves. 0, or the refusal; its place is in e->first then. */
static unsigned load(engine *restrict e, const uint8_t *restrict file, size_t len, uint8_t *restrict state)
{
    const uint8_t *p = file, *const end = file + len;
    unsigned number, parties = 0, terms = 0, commands = 0, a, b, c;

    /* A term has 3 bytes or more, but for 24 of 2 bytes: the index is at most half full. */
    unsigned bits = 4, most = (len + REGISTERS) / 3 < TERMS ? (unsigned)((len + REGISTERS) / 3) : TERMS;
    while (1u << bits < 2 * most)
        bits++;
    const unsigned shift = 64 - bits, mask = (1u << bits) - 1;
    memset(e->index, 0, sizeof e->index[0] << bits);
    memset(e->start, 0xFF, sizeof e->start);

    for (; p < end && *p == 0x01; p += 2) {
        WHOLE(2);
        if (parties == PARTIES)
            REFUSE(6);
        if (p[1] > OWNER)
            REFUSE(7);
        e->sign[parties] = NONE;
        e->role[parties++] = p[1];
    }

    while (p < end) {
        uint64_t w, key;
        unsigned size;
        switch (*p) {
        case PUBLIC:
        case PRIVATE:
            WHOLE_TERM(4);
            if (p[3] > 15)
                REFUSE(7);
            w = word(*p, p[3], be16(p + 1), 0, 0);
            break;
        case HASH:
            WHOLE_TERM(3);
            ANY(a, 1);
            w = word(HASH, 0, a, 0, 0);
            break;
        case SIGNATURE:
            WHOLE_TERM(5);
            ANY(a, 1);
            OF(b, 3, PRIVATE);
            w = word(SIGNATURE, 0, a, b, 0);
            break;
        case ATTEST:
            WHOLE_TERM(3);
            OF(a, 1, PUBLIC);
            w = word(ATTEST, 0, a, 0, 0);
            break;
        case CREDENTIAL:
            WHOLE_TERM(7);
            ANY(a, 1);
            OF(b, 3, NUMBER);
            OF(c, 5, PUBLIC);
            w = word(CREDENTIAL, 0, a, b, c);
            break;
        case NUMBER:
            WHOLE_TERM(3);
            w = word(NUMBER, 0, be16(p + 1), 0, 0);
            break;
        case IDEVID:
            WHOLE_TERM(8);
            if (p[1] > 1)
                REFUSE(7);
            OF(a, 4, CERTIFICATE);
            OF(b, 6, PUBLIC);
            w = word(IDEVID, p[1], a, b, be16(p + 2));
            break;
        case LDEVID:
            WHOLE_TERM(5);
            ANY(a, 1);
            OF(b, 3, CERTIFICATE);
            w = word(LDEVID, 0, a, b, 0);
            break;
        case CERTIFICATE:
            WHOLE_TERM(8);
            OF(a, 1, PUBLIC);
            if (p[3] > 1)
                REFUSE(7);
            OF(b, 6, PRIVATE);
            w = word(CERTIFICATE, p[3], a, b, be16(p + 4));
            break;
        case PAIR:
            WHOLE_TERM(5);
            ANY(a, 1);
            ANY(b, 3);
            w = word(PAIR, 0, a, b, 0);
            break;
        case REGISTER:
            WHOLE_TERM(2);
            REGISTER_BYTE(1);
            w = word(REGISTER, p[1], 0, 0, 0);
            e->start[p[1]] = (uint16_t)terms;
            break;
        case QUOTE:
            WHOLE_TERM(6);
            REGISTER_BYTE(1);
            ANY(a, 2);
            OF(b, 4, NUMBER);
            w = word(QUOTE, p[1], a, b, 0);
            break;
        default:
            goto set_up;
        }

        /* The halves of a key differ in the last bit of the kind; both are entered under the public one's. */
        unsigned half = NONE;
        key = kind_of(w) <= PRIVATE ? w & ~(uint64_t)1 : w;
        unsigned i = (unsigned)(key * 0x9E3779B97F4A7C15u >> shift), s;
        while ((s = e->index[i]) != 0) {
            uint64_t differ = e->term[s - 1] ^ w;
            if (differ <= 1) {
                if (differ == 0)
                    REFUSE(9);
                if (kind_of(w) <= PRIVATE)
                    half = s - 1;
            }
            i = (i + 1) & mask;
        }
        e->index[i] = (uint16_t)(terms + 1);
        e->term[terms] = w;
        e->side[terms] = (side_info){.link = (uint16_t)half};
        if (half != NONE)
            e->side[half].link = (uint16_t)terms;
        unsigned place = (unsigned)(p - file);
        memcpy(row(state, terms), (uint8_t[8]){0, 0, 0, 0, 0, 0, (uint8_t)(place >> 8), (uint8_t)place}, 8);
        terms++;
        p += size;
    }

set_up:
    for (; p < end; p += 4) {
        switch (*p) {
        case 0x20: {
            WHOLE(4);
            PARTY(1);
            ANY(a, 2);
            uint64_t w = e->term[a];
            if (kind_of(w) != PUBLIC && kind_of(w) != NUMBER
                && (kind_of(w) != CERTIFICATE || x_of(w) != 0 || e->side[b_of(w)].role != MAKER))
                REFUSE(10);
            learn(e, state, a, 1u << p[1]);
            break;
        }
        case 0x21: {
            WHOLE(4);
            PARTY(1);
            OF(a, 2, PRIVATE);
            uint8_t *held = row(state, a) + 1;
            if (x_of(e->term[a]) & FIXED && *held & ~(1u << p[1]))
                REFUSE(11);
            *held |= 1u << p[1];
            break;
        }
        case 0x22:
            WHOLE(4);
            PARTY(1);
            OF(a, 2, PRIVATE);
            if (e->role[p[1]] == DEVICE || e->sign[p[1]] != NONE || x_of(e->term[a]) != DESK_KEY
                || !holds(state, a, 1u << p[1]))
                REFUSE(12);
            e->sign[p[1]] = (uint16_t)a;
            e->side[a].role = e->role[p[1]];
            break;
        default:
            goto last;
        }
    }

last:
    e->first = (uint32_t)(p - file);
    for (; p < end; commands++) {
        switch (*p) {
        case 0x30: case 0x31: case 0x32: case 0x33: case 0x34: case 0x35: case 0x36: case 0x37: case 0x3D:
            WHOLE(4);
            PARTY(1);
            OF(a, 2, result[*p - 0x30]);
            if (*p == 0x32 && inner_kind(e, a) != ATTEST)
                REFUSE(8);
            p += 4;
            break;
        case 0x38:
            WHOLE(6);
            PARTY(1);
            OF(a, 2, HASH);
            ANY(b, 4);
            p += 6;
            break;
        case 0x39: case 0x3A:
            WHOLE(6);
            PARTY(1);
            OF(a, 2, result[*p - 0x30]);
            OF(b, 4, PUBLIC);
            p += 6;
            break;
        case 0x3B:
            WHOLE(5);
            PARTY(1);
            OF(a, 2, PUBLIC);
            if (p[4] > 15)
                REFUSE(7);
            p += 5;
            break;
        case 0x3C:
            WHOLE(5);
            PARTY(1);
            PARTY(2);
            ANY(a, 3);
            p += 5;
            break;
        case 0x3E: case 0x40: case 0x41: case 0x42:
            WHOLE(6);
            PARTY(1);
            ANY(a, 2);
            OF(b, 4, result[*p - 0x30]);
            p += 6;
            break;
        case 0x3F:
            WHOLE(7);
            PARTY(1);
            PARTY(2);
            OF(a, 3, CREDENTIAL);
            OF(b, 5, CERTIFICATE);
            p += 7;
            break;
        case 0x43:
            WHOLE(19);
            PARTY(1);
            PARTY(2);
            for (unsigned at = 3; at < 19; at += 4) {
                if (be16(p + at) == NONE && be16(p + at + 2) == NONE)
                    continue;
                OF(a, at, CREDENTIAL);
                OF(b, at + 2, CERTIFICATE);
            }
            p += 19;
            break;
        case 0x44:
            WHOLE(5);
            PARTY(1);
            REGISTER_BYTE(2);
            OF(a, 3, result[*p - 0x30]);
            if (inner_kind(e, a) != PAIR)
                REFUSE(8);
            p += 5;
            break;
        case 0x45:
            WHOLE(4);
            PARTY(1);
            OF(a, 2, result[*p - 0x30]);
            if (inner_kind(e, a) != QUOTE)
                REFUSE(8);
            p += 4;
            break;
        default: {
            unsigned length = record_length(*p);
            REFUSE(length == 0 ? 3 : end - p < (ptrdiff_t)length ? 4 : 5);
        }
        }
    }

    e->parties = parties;
    e->terms = terms;
    e->commands = commands;
    memset(row(state, terms), 0, STATE_BYTES - 8 * (size_t)terms);
    return 0;

refused:
    e->first = (uint32_t)(p - file);
    memset(state, 0, STATE_BYTES);
    return number;
}

/* -------------------------------------------------------------------------------------------------------- executing */

/* A certificate that an OEM desk is asked for, and what it is issued on. */
typedef struct {
    unsigned credential, certificate, parent, ek;
} iak;

/* The IAK certificate in the ledger that carries this serial number, plus 1; 0 if there is none. */
static inline unsigned carrier(const engine *e, unsigned serial)
{
    unsigned s = e->bucket[serial % BUCKETS];
    while (s != 0 && c_of(e->term[s - 1]) != serial)
        s = e->side[s - 1].link;
    return s;
}

/* The refusals of a 3F after 13. The request of an open credential has the form: its 3E saw to that. */
static inline unsigned judge(const engine *restrict e, const uint8_t *restrict state, unsigned desk, unsigned returning,
                             iak *k)
{
    const uint8_t *opened = state + 8 * (size_t)k->credential;
    if (opened[2] != OPEN || opened[3] != desk)
        return 25;
    if (e->role[returning] != DEVICE || !knows(state, b_of(e->term[k->credential]), 1u << returning))
        return 26;
    uint64_t request = e->term[a_of(e->term[be16(opened + 4)])];
    if (e->term[k->certificate] != word(CERTIFICATE, x_of(request), b_of(request), e->sign[desk], c_of(request)))
        return 27;
    if (e->side[k->certificate].depth != 0)
        return 28;
    k->parent = a_of(request);
    k->ek = a_of(e->term[k->parent]);
    unsigned other = carrier(e, c_of(request));
    return other != 0 && e->side[other - 1].ek != k->ek ? 31 : 0;
}

/* The ledger gains a certificate, and the desk learns it: it has no parts but its public key, which has none. */
static inline void enter(engine *restrict e, uint8_t *restrict state, peer_entry *restrict entry, unsigned desk,
                         unsigned r, unsigned parent, unsigned ek, unsigned depth)
{
    side_info *side = &e->side[r];
    side->ek = (uint16_t)ek;
    side->parent = (uint16_t)parent;
    side->depth = (uint8_t)depth;
    *entry = (peer_entry){(uint16_t)r, (uint16_t)parent, (uint16_t)depth};
    *row(state, r) |= 1u << desk;
    *row(state, a_of(e->term[r])) |= 1u << desk;
}

static inline void issue(engine *restrict e, uint8_t *restrict state, peer_entry *restrict entry, unsigned desk,
                         const iak *k)
{
    unsigned r = k->certificate, serial = c_of(e->term[r]);
    if (carrier(e, serial) == 0) {
        e->side[r].link = e->bucket[serial % BUCKETS];
        e->bucket[serial % BUCKETS] = (uint16_t)(r + 1);
    }
    row(state, k->credential)[2] = CLOSED;
    enter(e, state, entry, desk, r, k->parent, k->ek, 1);
}

/* A register's two bytes: the term that it shows, or NONE. */
static inline uint8_t *shown(uint8_t *registers, unsigned party, unsigned i)
{
    return registers + 2 * (REGISTERS * (size_t)party + i);
}

/* Each register of a device shows its starting value; all others are empty. */
static void start_registers(const engine *restrict e, uint8_t *restrict registers)
{
    memset(registers, 0xFF, REGISTER_BYTES);
    for (unsigned party = 0; party < e->parties; party++)
        for (unsigned i = 0; e->role[party] == DEVICE && i < REGISTERS; i++)
            put16(shown(registers, party, i), e->start[i]);
}

#define NO(n) do { outcome = (n); goto done; } while (0)

/* Executes the first n commands of a file that is loaded. */
static peer_run_numbers execute(engine *restrict e, const uint8_t *restrict file, size_t n, uint8_t *restrict state,
                                peer_entry *restrict ledger, uint8_t *restrict outcomes, uint8_t *restrict registers)
{
    const uint8_t *p = file + e->first;
    const size_t count = n < e->commands ? n : e->commands;
    unsigned accepted = 0, issued = 0;
    const uint64_t *const term = e->term;
    const side_info *const side = e->side;
    memset(e->bucket, 0, sizeof e->bucket);
    start_registers(e, registers);

    for (size_t i = 0; i < count; i++) {
        const uint8_t *const body = p + 1;
        const unsigned party = body[0], bit = 1u << party, role = e->role[party];
        unsigned outcome = 0;

        switch (*p) {
        case 0x30: { /* Hash */
            p += 4;
            unsigned r = be16(body + 1), content = a_of(term[r]);
            if (role != DEVICE)
                NO(13);
            if (!knows(state, content, bit))
                NO(14);
            row(state, r)[0] |= bit;
            if (kind_of(term[content]) != ATTEST && kind_of(term[content]) != QUOTE)
                row(state, r)[1] |= bit;
            break;
        }
        case 0x31: { /* Sign */
            p += 4;
            unsigned r = be16(body + 1), message = a_of(term[r]), key = b_of(term[r]), attributes = x_of(term[key]);
            if (role != DEVICE)
                NO(13);
            if (!(attributes & RESTRICTED) && !knows(state, message, bit))
                NO(14);
            if (!holds(state, key, bit))
                NO(15);
            if (!(attributes & SIGN))
                NO(16);
            if (attributes & RESTRICTED && (kind_of(term[message]) != HASH || !holds(state, message, bit)))
                NO(17);
            learn(e, state, r, bit);
            break;
        }
        case 0x32: { /* Certify */
            p += 4;
            unsigned r = be16(body + 1), key = b_of(term[r]), half = side[a_of(term[a_of(term[r])])].link;
            if (role != DEVICE)
                NO(13);
            if (!holds(state, key, bit) || half == NONE || !holds(state, half, bit))
                NO(15);
            if (!(x_of(term[key]) & SIGN))
                NO(16);
            learn(e, state, r, bit);
            break;
        }
        case 0x33: { /* MakeCredential */
            p += 4;
            unsigned r = be16(body + 1);
            uint64_t w = term[r];
            if (role != DEVICE)
                NO(13);
            if (!knows(state, a_of(w), bit) || !knows(state, b_of(w), bit) || !knows(state, c_of(w), bit))
                NO(14);
            row(state, r)[0] |= bit;
            break;
        }
        case 0x34: { /* ActivateCredential */
            p += 4;
            unsigned r = be16(body + 1);
            uint64_t w = term[r], first = term[a_of(w)];
            if (role != DEVICE)
                NO(13);
            if (!knows(state, r, bit))
                NO(14);
            unsigned half = side[c_of(w)].link;
            if (half == NONE || !holds(state, half, bit))
                NO(15);
            if (kind_of(first) != HASH || kind_of(term[a_of(first)]) != PUBLIC)
                NO(15);
            half = side[a_of(first)].link;
            if (half == NONE || !holds(state, half, bit))
                NO(15);
            if ((x_of(term[c_of(w)]) & (RESTRICTED | DECRYPT)) != (RESTRICTED | DECRYPT))
                NO(16);
            row(state, b_of(w))[0] |= bit;
            break;
        }
        case 0x35: /* a request or a pair is put together */
        case 0x36:
        case 0x37: {
            p += 4;
            unsigned r = be16(body + 1);
            if (role != DEVICE)
                NO(13);
            if (!knows(state, a_of(term[r]), bit) || !knows(state, b_of(term[r]), bit))
                NO(14);
            row(state, r)[0] |= bit;
            break;
        }
        case 0x38: { /* checks */
            p += 6;
            unsigned hash = be16(body + 1), t = be16(body + 3);
            if (role == MAKER)
                NO(13);
            if (!knows(state, hash, bit) || !knows(state, t, bit))
                NO(14);
            if (a_of(term[hash]) != t)
                NO(18);
            break;
        }
        case 0x39:
        case 0x3A: {
            p += 6;
            unsigned t = be16(body + 1), key = be16(body + 3);
            if (role == MAKER)
                NO(13);
            if (!knows(state, t, bit) || !knows(state, key, bit))
                NO(14);
            if (b_of(term[t]) != side[key].link)
                NO(18);
            break;
        }
        case 0x3B: {
            p += 5;
            unsigned key = be16(body + 1);
            if (role == MAKER)
                NO(13);
            if (!knows(state, key, bit))
                NO(14);
            if (x_of(term[key]) != body[3])
                NO(18);
            break;
        }
        case 0x3C: { /* Send */
            p += 5;
            unsigned t = be16(body + 2);
            if (role != DEVICE) {
                unsigned kind = kind_of(term[t]);
                if (role == MAKER || (kind != PUBLIC && kind != CREDENTIAL && kind != CERTIFICATE))
                    NO(13);
            }
            if (!knows(state, t, bit))
                NO(14);
            learn(e, state, t, 1u << body[1]);
            break;
        }
        case 0x3D: { /* SelfIssue */
            p += 4;
            unsigned r = be16(body + 1), key = b_of(term[r]);
            if (role != DEVICE)
                NO(13);
            if (!knows(state, a_of(term[r]), bit))
                NO(14);
            if (!holds(state, key, bit))
                NO(15);
            if ((x_of(term[key]) & (SIGN | RESTRICTED)) != SIGN)
                NO(16);
            row(state, r)[0] |= bit;
            break;
        }
        case 0x3E: { /* Challenge */
            p += 6;
            unsigned asked = be16(body + 1), r = be16(body + 3);
            if (role != OEM)
                NO(13);
            if (!knows(state, asked, bit))
                NO(14);
            uint64_t pair = term[asked];
            if (kind_of(pair) != PAIR)
                NO(19);
            uint64_t request = term[a_of(pair)], signature = term[b_of(pair)];
            if (kind_of(request) != IDEVID || x_of(request) != 1 || kind_of(signature) != SIGNATURE)
                NO(19);
            uint64_t hash = term[a_of(signature)];
            if (kind_of(hash) != HASH)
                NO(19);
            if (a_of(hash) != a_of(pair) || side[b_of(request)].link != b_of(signature))
                NO(20);
            uint64_t certificate = term[a_of(request)];
            if (x_of(certificate) != 0 || side[b_of(certificate)].role != MAKER)
                NO(21);
            if (x_of(term[b_of(request)]) != AK || x_of(term[a_of(certificate)]) != EK)
                NO(23);
            uint64_t w = term[r];
            uint8_t *fresh = row(state, b_of(w));
            if (fresh[0] != bit || fresh[2] != 0)
                NO(24);
            if (term[a_of(w)] != word(HASH, 0, b_of(request), 0, 0) || c_of(w) != a_of(certificate))
                NO(27);
            fresh[2] = USED;
            uint8_t *opened = row(state, r);
            opened[0] |= bit;
            opened[2] = OPEN;
            opened[3] = (uint8_t)party;
            put16(opened + 4, asked);
            break;
        }
        case 0x3F: { /* IssueIAK */
            p += 7;
            iak k = {.credential = be16(body + 2), .certificate = be16(body + 4)};
            if (role != OEM)
                NO(13);
            if ((outcome = judge(e, state, party, body[1], &k)) != 0)
                goto done;
            issue(e, state, &ledger[issued++], party, &k);
            break;
        }
        case 0x40: /* IssueLAK, IDevID and LDevID certificates */
        case 0x41:
        case 0x42: {
            const unsigned kind = *p;
            p += 6;
            unsigned asked = be16(body + 1), r = be16(body + 3);
            if (role != (kind == 0x41 ? OEM : OWNER))
                NO(13);
            if (!knows(state, asked, bit))
                NO(14);
            uint64_t pair = term[asked];
            if (kind_of(pair) != PAIR)
                NO(19);
            uint64_t request = term[a_of(pair)], signature = term[b_of(pair)];
            if (kind_of(request) != LDEVID || kind_of(signature) != SIGNATURE)
                NO(19);
            uint64_t hash = term[a_of(signature)], certified = term[a_of(request)];
            if (kind_of(hash) != HASH || kind_of(certified) != SIGNATURE)
                NO(19);
            uint64_t attest = term[a_of(certified)];
            if (kind_of(attest) != ATTEST)
                NO(19);
            unsigned key = a_of(attest), parent = b_of(request);
            uint64_t certificate = term[parent];
            if (a_of(hash) != a_of(pair) || side[key].link != b_of(signature)
                || side[a_of(certificate)].link != b_of(certified))
                NO(20);
            unsigned signer = side[b_of(certificate)].role;
            if (signer != OEM && (signer != OWNER || kind == 0x41))
                NO(21);
            if (x_of(term[key]) != (kind == 0x40 ? AK : DEVID) || x_of(term[a_of(certificate)]) != AK)
                NO(23);
            if (term[r] != word(CERTIFICATE, x_of(certificate), key, e->sign[party], c_of(certificate)))
                NO(27);
            if (side[r].depth != 0)
                NO(28);
            if (side[parent].depth == 8)
                NO(29);
            enter(e, state, &ledger[issued++], party, r, parent, side[parent].ek, side[parent].depth + 1u);
            break;
        }
        case 0x44: { /* Extend */
            p += 5;
            unsigned r = be16(body + 2);
            uint64_t pair = term[a_of(term[r])];
            if (role != DEVICE)
                NO(13);
            if (!knows(state, b_of(pair), bit))
                NO(14);
            uint8_t *value = shown(registers, party, body[1]);
            if (be16(value) != a_of(pair))
                NO(33);
            put16(value, r);
            break;
        }
        case 0x45: { /* Quote */
            p += 4;
            unsigned r = be16(body + 1), key = b_of(term[r]);
            uint64_t quote = term[a_of(term[r])];
            if (role != DEVICE)
                NO(13);
            if (!knows(state, b_of(quote), bit))
                NO(14);
            if (!holds(state, key, bit))
                NO(15);
            if ((x_of(term[key]) & (SIGN | RESTRICTED)) != (SIGN | RESTRICTED))
                NO(16);
            if (be16(shown(registers, party, x_of(quote))) != a_of(quote))
                NO(33);
            learn(e, state, r, bit);
            break;
        }
        default: { /* 43: all IAKs of a board */
            p += 19;
            iak k[4];
            unsigned pairs = 0;
            if (role != OEM)
                NO(13);
            for (unsigned at = 2; at < 18; at += 4) {
                unsigned credential = be16(body + at), certificate = be16(body + at + 2);
                if (credential == NONE)
                    continue;
                for (unsigned j = 0; j < pairs; j++)
                    if (k[j].certificate == certificate)
                        NO(32);
                k[pairs++] = (iak){.credential = credential, .certificate = certificate};
            }
            if (pairs == 0)
                NO(32);
            /* Of what a pair is judged by, the pairs before it change two things: credentials are closed, and Subjects
               have an EK. */
            for (unsigned j = 0; j < pairs; j++) {
                for (unsigned h = 0; h < j; h++)
                    if (k[h].credential == k[j].credential)
                        NO(25);
                if ((outcome = judge(e, state, party, body[1], &k[j])) != 0)
                    goto done;
                for (unsigned h = 0; h < j; h++)
                    if (c_of(term[k[h].certificate]) == c_of(term[k[j].certificate]) && k[h].ek != k[j].ek)
                        NO(31);
            }
            for (unsigned j = 0; j < pairs; j++)
                issue(e, state, &ledger[issued++], party, &k[j]);
            break;
        }
        }
        accepted++;
    done:
        outcomes[i] = (uint8_t)outcome;
    }

    memset(ledger + issued, 0, (ENTRIES - issued) * sizeof *ledger);
    memset(outcomes + count, 0, OUTCOMES - count);
    return (peer_run_numbers){.accepted = accepted, .refused = (uint32_t)count - accepted, .issued = issued};
}

/* Loads and executes; buffers are long enough. */
static peer_run_numbers run(engine *restrict e, const uint8_t *restrict file, size_t len, size_t n,
                            uint8_t *restrict state, peer_entry *restrict ledger, uint8_t *restrict outcomes,
                            uint8_t *restrict registers)
{
    unsigned number = load(e, file, len, state);
    if (number != 0) {
        memset(ledger, 0, ENTRIES * sizeof *ledger);
        memset(outcomes, 0, OUTCOMES);
        memset(registers, 0, REGISTER_BYTES);
        return (peer_run_numbers){.number = number, .place = e->first};
    }
    return execute(e, file, n, state, ledger, outcomes, registers);
}

/* ------------------------------------------------------------------------------------------------------------ calls */

peer_load_numbers peer_load(const uint8_t *file, size_t file_len, uint8_t *state, size_t state_len)
{
    engine e;
    if (state_len < STATE_BYTES)
        return (peer_load_numbers){.number = 1};
    if (file_len > FILE_BYTES)
        return (peer_load_numbers){.number = 2};
    unsigned number = load(&e, file, file_len, state);
    if (number != 0)
        return (peer_load_numbers){.number = number, .place = e.first};
    return (peer_load_numbers){.parties = e.parties, .terms = e.terms, .commands = e.commands};
}

peer_run_numbers peer_run(const uint8_t *file, size_t file_len, size_t n, uint8_t *state, size_t state_len,
                          peer_entry *ledger, size_t ledger_len, uint8_t *outcomes, size_t outcomes_len,
                          uint8_t *registers, size_t registers_len)
{
    engine e;
    if (state_len < STATE_BYTES || ledger_len < ENTRIES || outcomes_len < OUTCOMES || registers_len < REGISTER_BYTES)
        return (peer_run_numbers){.number = 1};
    if (file_len > FILE_BYTES)
        return (peer_run_numbers){.number = 2};
    return run(&e, file, file_len, n, state, ledger, outcomes, registers);
}

peer_path_numbers peer_path(const uint8_t *file, size_t file_len, size_t n, uint8_t *state, size_t state_len,
                            peer_entry *ledger, size_t ledger_len, uint8_t *outcomes, size_t outcomes_len,
                            uint8_t *registers, size_t registers_len, uint16_t t, uint16_t *list, size_t list_len)
{
    engine e;
    if (state_len < STATE_BYTES || ledger_len < ENTRIES || outcomes_len < OUTCOMES || registers_len < REGISTER_BYTES
        || list_len < PLACES)
        return (peer_path_numbers){.number = 1};
    if (file_len > FILE_BYTES)
        return (peer_path_numbers){.number = 2};
    peer_run_numbers ran = run(&e, file, file_len, n, state, ledger, outcomes, registers);
    if (ran.number != 0)
        return (peer_path_numbers){.number = ran.number, .place = ran.place};
    if (t >= e.terms || e.side[t].depth == 0)
        return (peer_path_numbers){.number = 30, .place = t};
    unsigned steps = e.side[t].depth, c = t;
    for (unsigned i = 0; i < steps; i++, c = e.side[c].parent)
        list[i] = (uint16_t)c;
    list[steps] = (uint16_t)c;
    return (peer_path_numbers){.steps = steps};
}
