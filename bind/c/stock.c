/* Tells a planner how many boards an OEM desk's numbers are still enough for, after all commands of a scenario file.

       bind/engine
       gcc -O2 -Ibind/c bind/c/stock.c target/staticlib/libbirdweekly.a -o target/stock
       target/stock crates/cases/data/s_stock_of_a_line 2 4

   The second argument is the desk, by its number in the file; the third the IAKs per board. Exit status 0 with an
   answer, 1 where the engine refuses, 2 where it could not be asked. */
#include "birdweekly.h"
#include <errno.h>
#include <stdio.h>
#include <stdlib.h>

static uint8_t file[BIRDWEEKLY_FILE_BYTES + 1];
static uint8_t state[BIRDWEEKLY_STATE_BYTES];
static uint8_t outcomes[BIRDWEEKLY_OUTCOME_BYTES];
static uint8_t registers[BIRDWEEKLY_REGISTER_BYTES];
static birdweekly_entry ledger[BIRDWEEKLY_LEDGER_ENTRIES];

/* A word of the command line as a number up to a limit; nothing is cut off to make it fit. */
static uint32_t number(const char *word, uint32_t limit) {
    char *end = NULL;
    errno = 0;
    unsigned long long value = strtoull(word, &end, 10);
    if (*word < '0' || *word > '9' || *end || errno || value > limit) {
        fprintf(stderr, "%s: a number from 0 to %u is wanted\n", word, limit);
        exit(2);
    }
    return (uint32_t)value;
}

int main(int count, char **words) {
    if (count != 4) {
        fprintf(stderr, "usage: %s FILE DESK IAKS-PER-BOARD\n", words[0]);
        return 2;
    }
    uint8_t desk = (uint8_t)number(words[2], UINT8_MAX);
    uint32_t iaks_per_board = number(words[3], UINT32_MAX);
    FILE *input = fopen(words[1], "rb");
    size_t length = input ? fread(file, 1, sizeof file, input) : 0;
    if (!input || ferror(input)) {
        perror(words[1]);
        return 2;
    }
    fclose(input);
    birdweekly_stock_numbers stock =
        birdweekly_stock(file, length, state, sizeof state, ledger, BIRDWEEKLY_LEDGER_ENTRIES, outcomes,
                         sizeof outcomes, registers, sizeof registers, desk, iaks_per_board);
    if (stock.number) {
        printf("refused with %u at %u\n", stock.number, stock.place);
        return 1;
    }
    printf("boards %u, numbers left over %u\n", stock.boards, stock.rest);
    return 0;
}
