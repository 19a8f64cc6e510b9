/* Calls from several threads at once: each feeds a store of its own and asks one that all share, and has the bytes and answers that one
 * thread alone has. The last line is "N passed, M failed". */
#define _XOPEN_SOURCE 700
#include <pthread.h>
#include <stdio.h>
#include <stdlib.h>
#include <string.h>

#include "lomkhvide.h"

enum { THREADS = 4, ROUNDS = 60, STORE = 16384 };

/* What a thread is lent and what it was answered. */
struct work {
    uint8_t store[STORE], table[LOMKHVIDE_TABLE_LEN], events[LOMKHVIDE_EVENTS_LEN], stretches[8 * LOMKHVIDE_STRETCH_LEN];
    uint8_t positions[LOMKHVIDE_POSITIONS_LEN], slip[8192];
    uint64_t answers[ROUNDS + 3];
};

static const uint8_t one[8] = {1};
static uint8_t shared[STORE], locator[LOMKHVIDE_LOCATOR_LEN];

/* A sole owner's chain: the block of round 1 shares. */
static void feed_chain(struct work *work) {
    uint8_t record[108] = {0};
    memset(work, 0, sizeof *work);
    work->store[4] = 16;
    for (size_t round = 0; round < ROUNDS; round++) {
        record[8] = (uint8_t)round;
        record[49] = round > 0;
        record[51] = round == 1;
        memcpy(record + 104, "\0\1\0g", 4);
        size_t n = round == 0 ? 56 : round == 1 ? 108 : 104;
        work->answers[round] = lomkhvide_feed(one, sizeof one, work->store, STORE, work->table, sizeof work->table, work->events,
                                              sizeof work->events, record, n);
        memcpy(record + 56, record, 48);
    }
}

static void ask_shared(struct work *work) {
    uint64_t *answers = work->answers + ROUNDS;
    answers[0] = lomkhvide_finality(one, sizeof one, shared, STORE, work->positions, sizeof work->positions, locator, sizeof locator);
    answers[1] = lomkhvide_final_stretches(one, sizeof one, shared, STORE, locator, 0, work->stretches, sizeof work->stretches);
    answers[2] = lomkhvide_write_slip(one, sizeof one, shared, STORE, locator, sizeof locator, work->slip, sizeof work->slip);
}

static void *run(void *given) {
    struct work *work = given;
    for (int again = 0; again < 10; again++) {
        feed_chain(work);
        ask_shared(work);
    }
    return NULL;
}

int main(void) {
    struct work *works = calloc(THREADS + 1, sizeof *works);
    pthread_t threads[THREADS];
    int passed = 0;
    if (works == NULL) {
        return 2;
    }
    locator[8] = 1;
    feed_chain(&works[THREADS]);
    memcpy(shared, works[THREADS].store, STORE);
    ask_shared(&works[THREADS]);
    if (works[THREADS].answers[ROUNDS] != 2 * (ROUNDS - 1) + 1 || LOMKHVIDE_IS_REFUSED(works[THREADS].answers[ROUNDS + 2])) {
        printf("one thread alone has another answer\n");
        return 1;
    }
    for (int i = 0; i < THREADS; i++) {
        if (pthread_create(&threads[i], NULL, run, &works[i]) != 0) {
            return 2;
        }
    }
    for (int i = 0; i < THREADS; i++) {
        pthread_join(threads[i], NULL);
        passed += memcmp(&works[i], &works[THREADS], sizeof *works) == 0;
    }
    free(works);
    printf("%d passed, %d failed\n", passed, THREADS - passed);
    return passed != THREADS;
}
