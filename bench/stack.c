/* The bytes of stack that a run of standard input takes: how much deeper a thread writes into its stack that runs.

       bind/engine
       gcc -O2 -pthread -Ibind/c bench/stack.c target/staticlib/libbirdweekly.a -o target/stack
       target/stack < crates/cases/data/s_nested_pairs */
#include <pthread.h>
#include <stdint.h>
#include <stdio.h>
#include <string.h>
#include "birdweekly.h"

enum { SIZE = 1 << 20 };
static uint8_t stack[SIZE] __attribute__((aligned(4096)));
static uint8_t file[BIRDWEEKLY_FILE_BYTES + 1], state[BIRDWEEKLY_STATE_BYTES], outcomes[BIRDWEEKLY_OUTCOME_BYTES];
static uint8_t registers[BIRDWEEKLY_REGISTER_BYTES];
static birdweekly_entry ledger[BIRDWEEKLY_LEDGER_ENTRIES];
static uint16_t list[BIRDWEEKLY_PATH_PLACES];
static size_t length;

static void *idle(void *answer) { return answer; }

static void *loads(void *answer) {
    *(uint32_t *)answer = birdweekly_load(file, length, state, sizeof state).number;
    return answer;
}

static void *runs(void *answer) {
    *(uint32_t *)answer = birdweekly_run(file, length, SIZE_MAX, state, sizeof state, ledger, BIRDWEEKLY_LEDGER_ENTRIES,
                                         outcomes, sizeof outcomes, registers, sizeof registers)
                              .number;
    return answer;
}

static void *paths(void *answer) {
    *(uint32_t *)answer = birdweekly_path(file, length, SIZE_MAX, state, sizeof state, ledger,
                                          BIRDWEEKLY_LEDGER_ENTRIES, outcomes, sizeof outcomes, registers,
                                          sizeof registers, 0, list, BIRDWEEKLY_PATH_PLACES)
                              .number;
    return answer;
}

static void *stocks(void *answer) {
    *(uint32_t *)answer = birdweekly_stock(file, length, state, sizeof state, ledger, BIRDWEEKLY_LEDGER_ENTRIES,
                                           outcomes, sizeof outcomes, registers, sizeof registers, 2, 4)
                              .number;
    return answer;
}

/* The bytes of its stack that a thread has written to, down to the lowest. */
static size_t written(void *(*what)(void *), void *answer) {
    pthread_attr_t own;
    pthread_t thread;
    size_t untouched = 0;
    memset(stack, 0xA5, SIZE);
    pthread_attr_init(&own);
    if (pthread_attr_setstack(&own, stack, SIZE) || pthread_create(&thread, &own, what, answer)
        || pthread_join(thread, NULL))
        return 0;
    while (untouched < SIZE && stack[untouched] == 0xA5) untouched++;
    return SIZE - untouched;
}

int main(void) {
    static const struct {
        const char *name;
        void *(*what)(void *);
    } calls[] = {{"load", loads}, {"run", runs}, {"path", paths}, {"stock", stocks}};
    uint32_t number = 0;
    length = fread(file, 1, sizeof file, stdin);
    size_t bare = written(idle, &number);
    for (int i = 0; i < 4; i++) {
        size_t all = written(calls[i].what, &number);
        printf("%s: number %u, %zu bytes of stack\n", calls[i].name, number, all - bare);
    }
    return 0;
}
