/* Birdweekly for C: link target/staticlib/libbirdweekly.a (bind/engine makes it).

   Every call takes any bytes and lent buffers of any length; a null pointer with length 0 is fine. An answer has number
   0 (place 0 then) and its values, or a refusal with its number and place, and values 0. Every place of every buffer is
   fixed in each case: refusals 1 and 2 leave all untouched, 3 to 12 leave the first parts zero; what lies beyond the
   first parts is never touched. Nothing is allocated, and calls share nothing: they may run on as many threads as there
   are, each with buffers of its own. Buffers of one call must not overlap. */
#ifndef BIRDWEEKLY_H
#define BIRDWEEKLY_H
#include <stddef.h>
#include <stdint.h>

#define BIRDWEEKLY_FILE_BYTES 32768    /* the longest file: more is refusal 2 */
#define BIRDWEEKLY_STATE_BYTES 8192    /* first parts: less is refusal 1 */
#define BIRDWEEKLY_LEDGER_ENTRIES 1024
#define BIRDWEEKLY_OUTCOME_BYTES 8192
#define BIRDWEEKLY_REGISTER_BYTES 384
#define BIRDWEEKLY_PATH_PLACES 9

#define BIRDWEEKLY_REGISTERS 24           /* of a party, 2 bytes each: party p's from byte 48p */
#define BIRDWEEKLY_EMPTY_REGISTER 0xFFFF  /* shows no term */

/* an issued certificate, its parent, and how many steps lead to an endorsement certificate */
typedef struct {
    uint16_t certificate, parent, depth;
} birdweekly_entry;

typedef struct {
    uint32_t number, place, parties, terms, commands;
} birdweekly_load_numbers;

typedef struct {
    uint32_t number, place, accepted, refused, issued;
} birdweekly_run_numbers;

typedef struct {
    uint32_t number, place, steps;
} birdweekly_path_numbers;

typedef struct {
    uint32_t number, place, boards, rest;
} birdweekly_stock_numbers;

/* Loads a scenario file: the state that its set-up leaves, 8 bytes a term. */
birdweekly_load_numbers birdweekly_load(const uint8_t *file, size_t file_len, uint8_t *state, size_t state_len);

/* Loads a scenario file and executes its first n commands, or all if fewer: the state, the certificates issued, one
   byte a command, 0 or the refusal, 13 to 29 (22 is not used) or 31 to 33, and the platform registers, each with the
   number of the term that it shows, high byte first. FFFF stands in an empty register and in all of a party that is no
   device, declared or not. */
birdweekly_run_numbers birdweekly_run(const uint8_t *file, size_t file_len, size_t n, uint8_t *state, size_t state_len,
                                      birdweekly_entry *ledger, size_t ledger_len, uint8_t *outcomes,
                                      size_t outcomes_len, uint8_t *registers, size_t registers_len);

/* Runs in the same way, and writes the path of an issued certificate into a list: the certificate, its parents and the
   endorsement certificate, steps + 1 places. Another term is refusal 30, its place the term; the list is untouched
   then. */
birdweekly_path_numbers birdweekly_path(const uint8_t *file, size_t file_len, size_t n, uint8_t *state,
                                        size_t state_len, birdweekly_entry *ledger, size_t ledger_len,
                                        uint8_t *outcomes, size_t outcomes_len, uint8_t *registers,
                                        size_t registers_len, uint16_t term, uint16_t *list, size_t list_len);

/* Runs all commands, and tells how many whole boards the unused numbers that an OEM desk alone knows are enough for,
   and how many of them are left over. Run's refusals come first; 39 (place 0) when the IAKs per board are 0 or the
   party is no OEM desk. The buffers are as birdweekly_run leaves them, at 39 too. */
birdweekly_stock_numbers birdweekly_stock(const uint8_t *file, size_t file_len, uint8_t *state, size_t state_len,
                                          birdweekly_entry *ledger, size_t ledger_len, uint8_t *outcomes,
                                          size_t outcomes_len, uint8_t *registers, size_t registers_len, uint8_t party,
                                          uint32_t iaks_per_board);

/* The entry at place i of a ledger of any length; zeros beyond its end. */
birdweekly_entry birdweekly_entry_at(const birdweekly_entry *ledger, size_t ledger_len, size_t i);

#endif
