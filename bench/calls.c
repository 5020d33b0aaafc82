/* Loads or runs a file a number of times, for counting what that takes (bench/instructions.py).
   Arguments: the file, how often, and `load` or `run`. */
#include "birdweekly.h"
#include <stdio.h>
#include <stdlib.h>

static uint8_t file[BIRDWEEKLY_FILE_BYTES], state[BIRDWEEKLY_STATE_BYTES], outcomes[BIRDWEEKLY_OUTCOME_BYTES];
static uint8_t registers[BIRDWEEKLY_REGISTER_BYTES];
static birdweekly_entry ledger[BIRDWEEKLY_LEDGER_ENTRIES];

int main(int count, char **words) {
    FILE *input = count == 4 ? fopen(words[1], "rb") : NULL;
    if (!input) return 2;
    size_t length = fread(file, 1, sizeof file, input);
    uint32_t sum = 0;
    for (int left = atoi(words[2]); left; left--)
        sum += words[3][0] == 'l' ? birdweekly_load(file, length, state, sizeof state).commands
                                  : birdweekly_run(file, length, SIZE_MAX, state, sizeof state, ledger,
                                                   BIRDWEEKLY_LEDGER_ENTRIES, outcomes, sizeof outcomes, registers,
                                                   sizeof registers)
                                        .accepted;
    printf("%u\n", sum);
    return 0;
}
