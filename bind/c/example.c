/* Runs a scenario file, prints its listing, and the path of each certificate that was issued.

       bind/engine
       gcc -O2 -Ibind/c bind/c/example.c target/staticlib/libbirdweekly.a -o target/example
       target/example crates/cases/data/s_honest_lak */
#include "birdweekly.h"
#include <stdio.h>

static uint8_t file[BIRDWEEKLY_FILE_BYTES + 1];
static uint8_t state[BIRDWEEKLY_STATE_BYTES];
static uint8_t outcomes[BIRDWEEKLY_OUTCOME_BYTES];
static uint8_t registers[BIRDWEEKLY_REGISTER_BYTES];
static birdweekly_entry ledger[BIRDWEEKLY_LEDGER_ENTRIES];

int main(int count, char **names) {
    FILE *input = count > 1 ? fopen(names[1], "rb") : stdin;
    if (!input) {
        perror(names[1]);
        return 2;
    }
    size_t length = fread(file, 1, sizeof file, input);
    birdweekly_run_numbers run =
        birdweekly_run(file, length, SIZE_MAX, state, sizeof state, ledger, BIRDWEEKLY_LEDGER_ENTRIES, outcomes,
                       sizeof outcomes, registers, sizeof registers);
    if (run.number) {
        printf("F %u %u\n", run.number, run.place);
        return 1;
    }
    for (uint32_t i = 0; i < run.accepted + run.refused; i++)
        if (outcomes[i])
            printf("R %u %u\n", i, outcomes[i]);
    for (uint32_t i = 0; i < run.issued; i++)
        printf("I %u %u %u\n", ledger[i].certificate, ledger[i].parent, ledger[i].depth);
    printf("T %u %u %u\n", run.accepted, run.refused, run.issued);
    for (uint32_t i = 0; i < run.issued; i++) {
        uint16_t list[BIRDWEEKLY_PATH_PLACES];
        birdweekly_path_numbers path =
            birdweekly_path(file, length, SIZE_MAX, state, sizeof state, ledger, BIRDWEEKLY_LEDGER_ENTRIES, outcomes,
                            sizeof outcomes, registers, sizeof registers, ledger[i].certificate, list,
                            BIRDWEEKLY_PATH_PLACES);
        printf("path");
        for (uint32_t step = 0; !path.number && step <= path.steps; step++)
            printf(" %u", list[step]);
        printf("\n");
    }
    return 0;
}
