/* Calls each function of lomkhvide.h and compares the words. The last line is "N passed, M failed". */
#include <inttypes.h>
#include <stdio.h>
#include <stdlib.h>
#include <string.h>

#include "lomkhvide.h"

static int passed, failed;

static void same(const char *what, uint64_t got, uint64_t want) {
    if (got == want) {
        passed++;
    } else {
        failed++;
        printf("%s: %" PRIu64 ", not %" PRIu64 "\n", what, got, want);
    }
}

static uint64_t refused(uint64_t number) {
    return (UINT64_C(1) << 63) + number;
}

/* The sentences of refusals: of a word that is refused, and of no other. */
static void sentences(void) {
    uint8_t zero[8] = {0};
    const char *told = lomkhvide_sentence(lomkhvide_new_committee(zero, 8));
    same("the sentence of 2", told != NULL && strcmp(told, "a stake of the committee is zero") == 0, 1);
    same("the sentence of an answer", lomkhvide_sentence(2) == NULL, 1);
    same("the sentence of a number that is not listed", lomkhvide_sentence(refused(99)) == NULL, 1);
}

static void put_word(uint8_t *to, uint64_t word) {
    for (int i = 0; i < 8; i++) {
        to[i] = (uint8_t)(word >> (8 * i));
    }
}

/* a question for the next locator of a list, or for the list in bulk */
typedef uint64_t (*list_call)(const uint8_t *, size_t, const uint8_t *, size_t, const uint8_t *, size_t, uint8_t *, size_t);
typedef uint64_t (*indexed_call)(const uint8_t *, size_t, const uint8_t *, size_t, const uint64_t *, size_t, const uint8_t *, size_t, uint8_t *, size_t);

/* n stakes, each of them `stake`, but for the last, which is `last`; lent from their own allocation, so that a read past the
 * end can be seen by a checker of memory */
static uint64_t set(size_t n, uint64_t stake, uint64_t last, size_t cut) {
    uint8_t *bytes = malloc(8 * n + 1);
    for (size_t i = 0; i < n; i++) {
        put_word(bytes + 8 * i, i + 1 < n ? stake : last);
    }
    uint64_t word = lomkhvide_new_committee(bytes, 8 * n - cut);
    free(bytes);
    return word;
}

static void committees(void) {
    const uint64_t most = (UINT64_C(1) << 63) - 1;
    same("no stakes", set(0, 0, 0, 0), refused(1));
    same("one stake", set(1, 0, 1, 0), 1);
    same("a stake of zero", set(4, 1, 0, 0), refused(2));
    same("128 stakes", set(128, 1, 1, 0), 128);
    same("129 stakes", set(129, 1, 1, 0), refused(3));
    same("129 stakes, one of them zero", set(129, 1, 0, 0), refused(2));
    same("5000 stakes", set(5000, 1, 1, 0), refused(3));
    same("5000 stakes, one of them zero", set(5000, 1, 0, 0), refused(2));
    same("the most", set(1, 0, most, 0), most);
    same("one more", set(2, 1, most, 0), refused(4));
    same("stakes that sum past 2^64", set(3, UINT64_C(1) << 63, 1, 0), refused(4));
    for (size_t cut = 1; cut < 8; cut++) {
        same("bytes that are not whole words", set(4, 1, 1, cut), refused(5));
        same("bytes that are not whole words, thousands", set(5000, 1, 1, cut), refused(5));
    }
    const uint64_t course[] = {5, 3, 3, 2, 2, 1, 1};
    uint8_t bytes[56];
    for (int i = 0; i < 7; i++) {
        put_word(bytes + 8 * i, course[i]);
    }
    same("the course committee", lomkhvide_new_committee(bytes, sizeof bytes), 17);
    same("a refusal is one", LOMKHVIDE_IS_REFUSED(refused(5)), 1);
    same("the most is no refusal", LOMKHVIDE_IS_REFUSED(most), 0);
    same("a refusal's number", LOMKHVIDE_REFUSAL(refused(42)), 42);
}

static void quorums(void) {
    const uint64_t most = (UINT64_C(1) << 63) - 1;
    same("3 of 4", lomkhvide_is_quorum(4, 3), 1);
    same("2 of 4", lomkhvide_is_quorum(4, 2), 0);
    same("2 of 4 is valid", lomkhvide_is_valid(4, 2), 1);
    same("1 of 4 is not", lomkhvide_is_valid(4, 1), 0);
    same("2 of 3", lomkhvide_is_quorum(3, 2), 0);
    same("3 of 3", lomkhvide_is_quorum(3, 3), 1);
    same("all of the most", lomkhvide_is_quorum(most, most), 1);
    same("two thirds of the most", lomkhvide_is_quorum(most, most / 3 * 2), 0);
    same("all of every word", lomkhvide_is_quorum(UINT64_MAX, UINT64_MAX), 1);
    same("a third of every word", lomkhvide_is_valid(UINT64_MAX, UINT64_MAX / 3), 0);
    same("one more", lomkhvide_is_valid(UINT64_MAX, UINT64_MAX / 3 + 1), 1);
}

static void put_aggregator(uint8_t *to, uint64_t low, uint64_t high, uint64_t stake) {
    put_word(to, low);
    put_word(to + 8, high);
    put_word(to + 16, stake);
}

/* Stakes of 1, but for author 2, who has 3: 6 in all. */
static void adding(void) {
    uint8_t stakes[32], held[32], want[32];
    for (int i = 0; i < 4; i++) {
        put_word(stakes + 8 * i, i == 2 ? 3 : 1);
    }
    memset(held, 9, sizeof held);
    memset(want, 9, sizeof want);
    put_aggregator(held, 0, 0, 0);
    same("the first vote", lomkhvide_add(stakes, 32, held, 24, 2), LOMKHVIDE_NEW_BELOW);
    put_aggregator(want, 4, 0, 3);
    same("its aggregator", memcmp(held, want, sizeof held), 0);
    same("the same vote again", lomkhvide_add(stakes, 32, held, 24, 2), LOMKHVIDE_REPEATED_BELOW);
    same("counts once", memcmp(held, want, sizeof held), 0);
    same("a second voter, no quorum yet", lomkhvide_add(stakes, 32, held, 24, 0), LOMKHVIDE_NEW_BELOW);
    same("a third voter crosses quorum", lomkhvide_add(stakes, 32, held, 24, 3), LOMKHVIDE_NEW_CROSSED);
    put_aggregator(want, 13, 0, 5);
    same("their aggregator", memcmp(held, want, sizeof held), 0);
    same("again, and it crosses no more", lomkhvide_add(stakes, 32, held, 24, 3), LOMKHVIDE_REPEATED_WITH);
    same("counts once", memcmp(held, want, sizeof held), 0);
    same("a fourth voter, and quorum held", lomkhvide_add(stakes, 32, held, 24, 1), LOMKHVIDE_NEW_WITH);
    put_aggregator(held, 13, 0, 5);
    same("an unknown voter", lomkhvide_add(stakes, 32, held, 24, 4), refused(21));
    same("no voter at all", lomkhvide_add(stakes, 32, held, 24, UINT64_MAX), refused(21));
    for (size_t n = 0; n <= sizeof held; n++) {
        if (n != 24) {
            same("an aggregator of any length", lomkhvide_add(stakes, 32, held, n, 1), refused(6));
            same("no committee", lomkhvide_add(stakes, 31, held, n, 1), refused(5));
        }
    }
    same("refused, so nothing is written", memcmp(held, want, sizeof held), 0);
    put_aggregator(want, 13, 0, 6);
    memcpy(held, want, sizeof held);
    same("a stake that is no sum", lomkhvide_add(stakes, 32, held, 24, 1), refused(6));
    put_aggregator(want, 13, 1, 5);
    memcpy(held, want, sizeof held);
    same("a voter who is not known", lomkhvide_add(stakes, 32, held, 24, 9), refused(6));
    same("nothing is written", memcmp(held, want, sizeof held), 0);
}

/* A block record: author 0, the given round, a digest whose fourth byte is k; with an include, if there is one, and a share, if its
 * payload is not empty. Answers its length. */
static size_t put_record(uint8_t *to, uint64_t round, uint8_t k, const uint8_t *include, const char *payload) {
    size_t n = 56;
    memset(to, 0, n);
    put_word(to + 8, round);
    to[16 + 3] = k;
    if (include != NULL) {
        to[49] = 1;
        memcpy(to + n, include, 48);
        n += 48;
    }
    if (*payload != 0) {
        to[51] = 1;
        to[n] = 0;
        to[n + 1] = (uint8_t)strlen(payload);
        to[n + 2] = 0;
        memcpy(to + n + 3, payload, strlen(payload));
        n += 3 + strlen(payload);
    }
    return n;
}

/* A sole owner shares twice and rejects the first share in the same block; a block above takes the second one back too late for that block. */
static void withdrawn(void) {
    static uint8_t store[1024], table[LOMKHVIDE_TABLE_LEN], events[LOMKHVIDE_EVENTS_LEN], positions[LOMKHVIDE_POSITIONS_LEN];
    uint8_t one[8], digest[32] = {0}, first[56] = {0}, record[512], given[128] = {0}, locator[56] = {0}, found[56];
    static uint8_t stretches[2 * LOMKHVIDE_STRETCH_LEN];
    put_word(one, 1);
    store[4] = 16;
    same("a block of round 0", lomkhvide_feed(one, 8, store, sizeof store, table, sizeof table, events, sizeof events, first, 56), 0);
    locator[8] = 1;
    /* two empty shares, a reject of the first of them */
    given[10] = 2;
    memcpy(given + 11, locator, 56);
    uint64_t n = lomkhvide_write_record(0, 1, digest, 32, 0, first, 48, given, 5 + 5 + 58, record, 256);
    same("a share is rejected", lomkhvide_feed(one, 8, store, sizeof store, table, sizeof table, events, sizeof events, record, n), 0);
    same("the old reading", lomkhvide_finality(one, 8, store, sizeof store, positions, sizeof positions, locator, 56), 3);
    same("it was withdrawn", lomkhvide_finality_withdrawing(one, 8, store, sizeof store, positions, sizeof positions, locator, 56), 0);
    locator[48] = 1;
    same("the other share", lomkhvide_finality_withdrawing(one, 8, store, sizeof store, positions, sizeof positions, locator, 56), 3);
    same("the list begins with it", lomkhvide_next_final_withdrawing(one, 8, store, sizeof store, found, 0, found, 56), 1);
    same("it is the other share", memcmp(found, locator, 56), 0);
    same("one stretch", lomkhvide_wide_stretches_withdrawing(one, 8, store, sizeof store, found, 0, stretches, sizeof stretches), 2);
    same("from offset 1", stretches[48], 1);
    given[0] = 2;
    memcpy(given + 1, locator, 56);
    given[57] = 0;
    n = lomkhvide_write_record(0, 2, digest, 32, 0, record, 48, given, 58, record + 256, 256);
    same("it is rejected above", lomkhvide_feed(one, 8, store, sizeof store, table, sizeof table, events, sizeof events, record + 256, n), 0);
    same("two certify it", lomkhvide_finality(one, 8, store, sizeof store, positions, sizeof positions, locator, 56), 5);
    same("for that block only", lomkhvide_finality_withdrawing(one, 8, store, sizeof store, positions, sizeof positions, locator, 56), 3);
}

/* A store with a block of round 0 and one of round 1 that includes it and shares "gain". */
static void payloads(void) {
    uint8_t one[8], store[512], locator[57], kept[512];
    put_word(one, 1);
    memset(store, 0, sizeof store);
    size_t first = put_record(store + 24, 0, 1, NULL, "");
    size_t second_at = 24 + first;
    size_t second = put_record(store + second_at + 8, 1, 2, store + 24, "gain");
    store[0] = 16;
    store[4] = (uint8_t)(second_at + 8 + second);
    store[8] = 2;
    store[16] = (uint8_t)second_at;
    store[20] = (uint8_t)first;
    store[second_at + 4] = (uint8_t)second;
    memset(locator, 0, sizeof locator);
    memcpy(locator, store + second_at + 8, 48);
    memcpy(kept, store, sizeof store);
    same("a payload's length", lomkhvide_payload_length(one, 8, store, sizeof store, locator, 56), 4);
    uint64_t at = lomkhvide_payload_start(one, 8, store, sizeof store, locator, 56);
    same("where it begins", at, second_at + 8 + 56 + 48 + 3);
    same("what stands there", memcmp(store + at, "gain", 4), 0);
    for (size_t n = 0; n < 58; n++) {
        uint64_t want = n == 56 ? 4 : refused(20);
        same("a locator of any length", lomkhvide_payload_length(one, 8, store, sizeof store, locator, n), want);
        want = n == 56 ? at : refused(20);
        same("the same for its place", lomkhvide_payload_start(one, 8, store, sizeof store, locator, n), want);
    }
    locator[48] = 1;
    same("no such share", lomkhvide_payload_length(one, 8, store, sizeof store, locator, 56), refused(41));
    same("nor its place", lomkhvide_payload_start(one, 8, store, sizeof store, locator, 56), refused(41));
    same("no committee", lomkhvide_payload_length(one, 0, store, sizeof store, locator, 3), refused(5));
    same("stakes cut short", lomkhvide_payload_start(one, 7, store, sizeof store, locator, 3), refused(5));
    same("a store cut short", lomkhvide_payload_length(one, 8, store, second_at, locator, 3), refused(10));
    same("no store", lomkhvide_payload_start(one, 8, store, 0, locator, 3), refused(10));
    same("nothing is written", memcmp(store, kept, sizeof store), 0);

    static uint8_t positions[LOMKHVIDE_POSITIONS_LEN + 8], before[LOMKHVIDE_POSITIONS_LEN + 8];
    memset(positions, 9, sizeof positions);
    memcpy(before, positions, sizeof positions);
    for (size_t n = 0; n < 58; n++) {
        if (n != 56) {
            uint64_t word = lomkhvide_finality(one, 8, store, sizeof store, positions, LOMKHVIDE_POSITIONS_LEN, locator, n);
            same("finality, a locator of any length", word, refused(20));
        }
    }
    for (size_t n = 0; n < sizeof positions; n += n < 64 ? 1 : 509) {
        if (n != LOMKHVIDE_POSITIONS_LEN) {
            same("finality, positions of any length", lomkhvide_finality(one, 8, store, sizeof store, positions, n, locator, 56), refused(40));
        }
    }
    same("no committee", lomkhvide_finality(one, 0, store, sizeof store, positions, 8, locator, 3), refused(5));
    same("no store", lomkhvide_finality(one, 8, store, 0, positions, 8, locator, 3), refused(10));
    same("20 before 40", lomkhvide_finality(one, 8, store, sizeof store, positions, 8, locator, 3), refused(20));
    same("refused, so nothing is written", memcmp(positions, before, sizeof positions), 0);
    same("no vote, so not final", lomkhvide_finality(one, 8, store, sizeof store, positions, LOMKHVIDE_POSITIONS_LEN, locator, 56), 0);
    same("no certifying block, so nothing is written", memcmp(positions, before, sizeof positions), 0);
    locator[48] = 0;
    same("a sole owner's share is final", lomkhvide_finality(one, 8, store, sizeof store, positions, LOMKHVIDE_POSITIONS_LEN, locator, 56), 3);
    put_word(before, second_at);
    same("the position of its block", memcmp(positions, before, sizeof positions), 0);
    same("the store is as it was", memcmp(store, kept, sizeof store), 0);

    memset(positions, 9, 8);
    same("nobody withdraws, so both readings say the same", lomkhvide_finality_withdrawing(one, 8, store, sizeof store, positions,
         LOMKHVIDE_POSITIONS_LEN, locator, 56), 3);
    same("with the same position", memcmp(positions, before, sizeof positions), 0);
    for (size_t n = 0; n < 58; n++) {
        if (n != 56) {
            uint64_t word = lomkhvide_finality_withdrawing(one, 8, store, sizeof store, positions, LOMKHVIDE_POSITIONS_LEN, locator, n);
            same("the second reading, a locator of any length", word, refused(20));
        }
    }
    for (size_t n = 0; n < sizeof positions; n += n < 64 ? 1 : 509) {
        if (n != LOMKHVIDE_POSITIONS_LEN) {
            uint64_t word = lomkhvide_finality_withdrawing(one, 8, store, sizeof store, positions, n, locator, 56);
            same("the second reading, positions of any length", word, refused(40));
        }
    }
    same("no committee", lomkhvide_finality_withdrawing(one, 0, store, sizeof store, positions, 8, locator, 3), refused(5));
    same("no store", lomkhvide_finality_withdrawing(one, 8, store, 0, positions, 8, locator, 3), refused(10));
    same("20 before 40", lomkhvide_finality_withdrawing(one, 8, store, sizeof store, positions, 8, locator, 3), refused(20));
    same("refused, so nothing is written", memcmp(positions, before, sizeof positions), 0);

    uint8_t found[58], room[58];
    memset(found, 9, sizeof found);
    const list_call nexts[4] = {lomkhvide_next_final, lomkhvide_next_wide, lomkhvide_next_final_withdrawing,
                                lomkhvide_next_wide_withdrawing};
    for (int k = 0; k < 4; k++) {
        list_call next = nexts[k];
        memset(found, 9, sizeof found);
        memcpy(room, found, sizeof found);
        for (size_t n = 0; n < 58; n++) {
            if (n != 0 && n != 56) {
                same("next final after bytes of any length", next(one, 8, store, sizeof store, locator, n, found, 8), refused(20));
            }
            if (n != 56) {
                same("room of any length", next(one, 8, store, sizeof store, locator, 0, found, n), refused(40));
                same("and after a locator", next(one, 8, store, sizeof store, locator, 56, found, n), refused(40));
            }
        }
        same("no committee", next(one, 7, store, sizeof store, locator, 3, found, 3), refused(5));
        same("no store", next(one, 8, store, 15, locator, 3, found, 3), refused(10));
        same("none after it", next(one, 8, store, sizeof store, locator, 56, found, 56), 0);
        same("nothing is written", memcmp(found, room, sizeof found), 0);
        same("one from the start", next(one, 8, store, sizeof store, locator, 0, found, 56), 1);
        memcpy(room, locator, 56);
        same("it is the share", memcmp(found, room, sizeof found), 0);
    }

    static uint8_t stretches[5 * LOMKHVIDE_STRETCH_LEN + 8], blank[5 * LOMKHVIDE_STRETCH_LEN + 8];
    const size_t held = 5 * LOMKHVIDE_STRETCH_LEN;
    const list_call bulks[4] = {lomkhvide_final_stretches, lomkhvide_wide_stretches, lomkhvide_final_stretches_withdrawing,
                                lomkhvide_wide_stretches_withdrawing};
    for (int k = 0; k < 4; k++) {
        list_call bulk = bulks[k];
        memset(stretches, 9, sizeof stretches);
        memcpy(blank, stretches, sizeof stretches);
        for (size_t n = 0; n < 58; n++) {
            if (n != 0 && n != 56) {
                same("stretches after bytes of any length", bulk(one, 8, store, sizeof store, locator, n, stretches, 8), refused(20));
            }
        }
        for (size_t n = 0; n < sizeof stretches; n++) {
            if (n == 0 || n % LOMKHVIDE_STRETCH_LEN != 0) {
                same("stretches of any length", bulk(one, 8, store, sizeof store, locator, 0, stretches, n), refused(40));
            }
        }
        same("no committee", bulk(one, 7, store, sizeof store, locator, 3, stretches, 3), refused(5));
        same("no store", bulk(one, 8, store, 15, locator, 3, stretches, 3), refused(10));
        same("none after it", bulk(one, 8, store, sizeof store, locator, 56, stretches, held), 0);
        same("nothing is written", memcmp(stretches, blank, sizeof stretches), 0);
        same("one from the start", bulk(one, 8, store, sizeof store, locator, 0, stretches, held), 2);
        /* author 0, round 1, a digest whose fourth byte is 2, offsets 0 to 1, one block, stake 1 */
        const uint64_t words[10] = {0, 1, UINT64_C(2) << 24, 0, 0, 0, 0, 1, 1, 1};
        for (int i = 0; i < 10; i++) {
            put_word(blank + 8 * i, words[i]);
        }
        same("it is the share", memcmp(stretches, blank, sizeof stretches), 0);
    }

    /* the first block votes for nothing, the second for its share; two words more */
    const uint64_t index[15] = {13, 0, 1, 0, 1, UINT64_C(2) << 24, 0, 0, 0, 0, 1, 1, 0, 9, 9};
    const indexed_call indexed[2] = {lomkhvide_final_stretches_indexed, lomkhvide_wide_stretches_indexed};
    for (int k = 0; k < 2; k++) {
        indexed_call bulk = indexed[k];
        memset(stretches, 9, sizeof stretches);
        memset(blank, 9, sizeof blank);
        for (size_t n = 0; n < 58; n++) {
            if (n != 0 && n != 56) {
                same("stretches with the index after bytes of any length", bulk(one, 8, store, sizeof store, index, 15, locator, n, stretches, 8), refused(20));
            }
        }
        for (size_t n = 0; n < sizeof stretches; n++) {
            if (n == 0 || n % LOMKHVIDE_STRETCH_LEN != 0) {
                same("stretches with the index of any length", bulk(one, 8, store, sizeof store, index, 15, locator, 0, stretches, n), refused(40));
            }
        }
        for (size_t n = 0; n < 13; n++) {
            same("an index of any length", bulk(one, 8, store, sizeof store, index, n, locator, 3, stretches, 3), refused(54));
        }
        same("no committee", bulk(one, 7, store, sizeof store, index, 0, locator, 3, stretches, 3), refused(5));
        same("no store", bulk(one, 8, store, 15, index, 0, locator, 3, stretches, 3), refused(10));
        same("none after it", bulk(one, 8, store, sizeof store, index, 13, locator, 56, stretches, held), 0);
        same("nothing is written", memcmp(stretches, blank, sizeof stretches), 0);
        same("one from the start", bulk(one, 8, store, sizeof store, index, 15, locator, 0, stretches, held), 2);
        const uint64_t words[10] = {0, 1, UINT64_C(2) << 24, 0, 0, 0, 0, 1, 1, 1};
        for (int i = 0; i < 10; i++) {
            put_word(blank + 8 * i, words[i]);
        }
        same("it is the share", memcmp(stretches, blank, sizeof stretches), 0);
    }

    static uint8_t table[LOMKHVIDE_TABLE_LEN + 8], lent[LOMKHVIDE_TABLE_LEN + 8];
    same("nothing is pending", lomkhvide_pending_stake(one, 8, store, sizeof store, table, LOMKHVIDE_TABLE_LEN, locator, 56), refused(42));
    put_word(table, 1);
    put_word(table + 8, second_at);
    put_word(table + 24, 1);
    put_word(table + 32, 1);
    put_word(table + 48, 1);
    memcpy(lent, table, sizeof table);
    same("a pending share's stake", lomkhvide_pending_stake(one, 8, store, sizeof store, table, LOMKHVIDE_TABLE_LEN, locator, 56), 1);
    same("its voters", lomkhvide_pending_voters(one, 8, store, sizeof store, table, LOMKHVIDE_TABLE_LEN, locator, 56), 1);
    for (size_t n = 0; n < sizeof table; n += n < 64 ? 1 : 499) {
        if (n != LOMKHVIDE_TABLE_LEN) {
            same("a table of any length", lomkhvide_pending_stake(one, 8, store, sizeof store, table, n, locator, 3), refused(11));
            same("the same for voters", lomkhvide_pending_voters(one, 8, store, sizeof store, table, n, locator, 3), refused(11));
        }
    }
    for (size_t n = 0; n < 58; n++) {
        if (n != 56) {
            same("pending, a locator of any length", lomkhvide_pending_stake(one, 8, store, sizeof store, table, LOMKHVIDE_TABLE_LEN, locator, n), refused(20));
        }
    }
    same("no store", lomkhvide_pending_stake(one, 8, store, 8, table, 3, locator, 3), refused(10));
    same("no committee", lomkhvide_pending_voters(one, 1, store, 8, table, 3, locator, 3), refused(5));
    same("the table is as it was", memcmp(table, lent, sizeof table), 0);
    put_word(table + 48, 2);
    same("a stake that is no sum", lomkhvide_pending_voters(one, 8, store, sizeof store, table, LOMKHVIDE_TABLE_LEN, locator, 3), refused(11));
    same("the store is as it was", memcmp(store, kept, sizeof store), 0);
}

/* Everything that a feed is lent to write. */
static struct {
    uint8_t store[1024], table[LOMKHVIDE_TABLE_LEN + 8], events[LOMKHVIDE_EVENTS_LEN + 8];
} lent, kept;

/* Feeds a record, lent from its own allocation, with memory of these sizes. */
static uint64_t feed(const uint8_t *stakes, size_t stakes_len, size_t store, size_t table, size_t events, const uint8_t *record, size_t n) {
    uint8_t *own = malloc(n + 1);
    memcpy(own, record, n);
    uint64_t word = lomkhvide_feed(stakes, stakes_len, lent.store, store, lent.table, table, lent.events, events, own, n);
    free(own);
    return word;
}

/* A sole owner's block of round 0, one of round 1 that shares, one of round 2 that accepts the share. */
static void feeding(void) {
    const size_t t = LOMKHVIDE_TABLE_LEN, v = LOMKHVIDE_EVENTS_LEN;
    uint8_t one[8], first[256], second[256], third[256], locator[56], found[56];
    put_word(one, 1);
    memset(&lent, 0, sizeof lent);
    lent.store[4] = 16;
    memset(lent.events, 9, sizeof lent.events);
    kept = lent;
    size_t n = put_record(first, 0, 1, NULL, "");
    for (size_t cut = 0; cut < n; cut++) {
        same("a record cut short", feed(one, 8, 1024, t, v, first, cut), refused(20));
    }
    same("no committee", feed(one, 7, 0, 0, 0, first, 0), refused(5));
    same("no store", feed(one, 8, 15, 0, 0, first, 0), refused(10));
    for (size_t m = 0; m < sizeof lent.table; m += m < 64 ? 1 : 499) {
        if (m != t) {
            same("a table of any length", feed(one, 8, 1024, m, 0, first, 0), refused(11));
        }
    }
    for (size_t m = 0; m < sizeof lent.events; m += m < 64 ? 1 : 499) {
        if (m != v) {
            same("events of any length", feed(one, 8, 1024, t, m, first, n), refused(15));
            same("20 before 15", feed(one, 8, 1024, t, m, first, n - 1), refused(20));
        }
    }
    same("a store that is full", feed(one, 8, 16 + 8 + n - 1, t, v, first, n), refused(13));
    same("refused, so nothing is written", memcmp(&lent, &kept, sizeof lent), 0);
    same("the first block", feed(one, 8, 1024, t, v, first, n), 0);
    same("it is stored", memcmp(lent.store + 24, first, n), 0);
    same("once", feed(one, 8, 1024, t, v, first, n), refused(23));
    same("the second block", feed(one, 8, 1024, t, v, second, put_record(second, 1, 2, first, "gain")), 0);
    memcpy(locator, second, 48);
    memset(locator + 48, 0, 8);
    same("its share is pending", lomkhvide_pending_stake(one, 8, lent.store, 1024, lent.table, t, locator, 56), 1);
    same("no events", memcmp(lent.events, kept.events, sizeof lent.events), 0);
    n = put_record(third, 2, 3, second, "");
    third[51] = 1;
    third[n] = 1;
    memcpy(third + n + 1, locator, 56);
    n += 57;
    same("the third block", feed(one, 8, 1024, t, v, third, n), 1);
    put_word(kept.events, 1);
    put_word(kept.events + 8, 0);
    put_word(kept.events + 16, 0);
    same("the share is processed", memcmp(lent.events, kept.events, sizeof lent.events), 0);
    same("and no longer pending", lomkhvide_pending_stake(one, 8, lent.store, 1024, lent.table, t, locator, 56), refused(42));
    same("and final", lomkhvide_next_final(one, 8, lent.store, 1024, locator, 0, found, 56), 1);
    same("no byte past the table", memcmp(lent.table + t, kept.table + t, sizeof lent.table - t), 0);
}

/* Three records, each after its length, and the memory as single feeds leave it after each of them. */
static struct {
    uint8_t records[512];
    size_t ends[4];
    uint8_t store[4][1024], table[4][LOMKHVIDE_TABLE_LEN];
    uint64_t event[3];
} three;

/* Puts a record after its length. */
static size_t put_framed(uint8_t *to, const uint8_t *record, size_t n) {
    to[0] = (uint8_t)n;
    to[1] = (uint8_t)(n >> 8);
    to[2] = to[3] = 0;
    memcpy(to + 4, record, n);
    return 4 + n;
}

static void fresh(void) {
    memset(&lent, 0, sizeof lent);
    lent.store[4] = 16;
}

/* The blocks of `feeding`, by single feeds. */
static void feed_three(const uint8_t *one) {
    uint8_t record[3][256];
    size_t n[3] = {put_record(record[0], 0, 1, NULL, ""), put_record(record[1], 1, 2, record[0], "gain"), put_record(record[2], 2, 3, record[1], "")};
    record[2][51] = 1;
    record[2][n[2]] = 1;
    memcpy(record[2] + n[2] + 1, record[1], 48);
    memset(record[2] + n[2] + 49, 0, 8);
    n[2] += 57;
    fresh();
    for (int k = 0; k < 4; k++) {
        memcpy(three.store[k], lent.store, 1024);
        memcpy(three.table[k], lent.table, LOMKHVIDE_TABLE_LEN);
        if (k < 3) {
            same("a single feed", feed(one, 8, 1024, LOMKHVIDE_TABLE_LEN, LOMKHVIDE_EVENTS_LEN, record[k], n[k]), k == 2);
            three.ends[k + 1] = three.ends[k] + put_framed(three.records + three.ends[k], record[k], n[k]);
        }
    }
    memcpy(three.event, lent.events, sizeof three.event);
}

/* Feeds n bytes of records to fresh memory with so many words for events and outcomes, each slice an allocation of its own. The answer and the
 * outcomes have to be these, the store and the table those after `fed` single feeds, with the event of the third record if it is told. */
static void fed_as(const char *what, size_t store, const uint8_t *records, size_t n, size_t events, size_t words, uint64_t want,
                   const uint64_t *outcomes, int fed) {
    const uint8_t one[8] = {1};
    uint64_t *v = malloc(8 * events + 1), *o = malloc(8 * words + 1);
    uint8_t *own = malloc(n + 1);
    memcpy(own, records, n);
    memset(v, 9, 8 * events);
    memset(o, 7, 8 * words);
    fresh();
    same(what, lomkhvide_feed_records(one, 8, lent.store, store, lent.table, LOMKHVIDE_TABLE_LEN, v, events, o, words, own, n), want);
    same("the store of single feeds", memcmp(lent.store, three.store[fed], 1024), 0);
    same("the table of single feeds", memcmp(lent.table, three.table[fed], LOMKHVIDE_TABLE_LEN), 0);
    for (size_t i = 0; i < words; i++) {
        same("an outcome, or a word as it was", o[i], want >> 63 == 0 && i < want ? outcomes[i] : UINT64_C(0x0707070707070707));
    }
    for (size_t i = 0; i < events; i++) {
        same("an event, or a word as it was", v[i], fed == 3 && i < 3 ? three.event[i] : UINT64_C(0x0909090909090909));
    }
    free(own);
    free(o);
    free(v);
}

/* Many records in one call, beside single feeds: cut at every byte, a refused one at every place, slices of every length. */
static void many(void) {
    const uint8_t one[8] = {1};
    const uint64_t right[4] = {0, 0, 1, refused(20)};
    memset(&three, 0, sizeof three);
    feed_three(one);
    const size_t all = three.ends[3];
    for (size_t n = 0; n <= all; n++) {
        int whole = 0;
        while (whole < 3 && three.ends[whole + 1] <= n) {
            whole++;
        }
        uint64_t outcomes[4];
        memcpy(outcomes, right, sizeof outcomes);
        outcomes[whole] = refused(20);
        size_t count = (size_t)whole + (three.ends[whole] < n);
        fed_as("records cut at a byte", 1024, three.records, n, 4, 4, count, outcomes, whole);
        fed_as("a word short for outcomes", 1024, three.records, n, 4, count == 0 ? 0 : count - 1, count == 0 ? 0 : refused(64), outcomes, 0);
    }
    for (size_t words = 0; words < 5; words++) {
        fed_as("outcomes of any length", 1024, three.records, all, 3, words, words < 3 ? refused(64) : 3, right, words < 3 ? 0 : 3);
    }
    const uint64_t untold[3] = {0, 0, refused(15)};
    for (size_t events = 0; events < 6; events++) {
        fed_as("events of any length", 1024, three.records, all, events, 3, 3, events < 3 ? untold : right, events < 3 ? 2 : 3);
    }
    /* no bytes, the first record again, two bytes: at every place, fed between the others */
    uint8_t bad[3][256];
    const uint64_t number[3] = {20, 23, 20};
    size_t size[3] = {put_framed(bad[0], one, 0), three.ends[1], put_framed(bad[2], one, 2)};
    memcpy(bad[1], three.records, three.ends[1]);
    for (int b = 0; b < 3; b++) {
        for (size_t place = b == 1; place < 4; place++) {
            uint8_t bytes[768];
            uint64_t outcomes[4];
            size_t cut = three.ends[place];
            memcpy(bytes, three.records, cut);
            memcpy(bytes + cut, bad[b], size[b]);
            memcpy(bytes + cut + size[b], three.records + cut, all - cut);
            for (size_t i = 0, k = 0; i < 4; i++) {
                outcomes[i] = i == place ? refused(number[b]) : right[k++];
            }
            fed_as("a refused record at any place", 1024, bytes, all + size[b], 3, 4, 4, outcomes, 3);
        }
    }
    for (size_t store = 16; store <= 1024; store++) {
        size_t used = 16 + 8 + three.ends[1] - 4, more = used + 8 + (three.ends[2] - three.ends[1]) - 4;
        const uint64_t none[3] = {refused(13), refused(30), refused(30)}, first[3] = {0, refused(13), refused(30)}, two[3] = {0, 0, refused(13)};
        size_t end = more + 8 + (all - three.ends[2]) - 4;
        int fed = store < used ? 0 : store < more ? 1 : store < end ? 2 : 3;
        fed_as("a store of any length", store, three.records, all, 3, 3, 3, fed == 0 ? none : fed == 1 ? first : fed == 2 ? two : right, fed);
    }
    fresh();
    kept = lent;
    uint64_t events[3] = {5, 5, 5}, outcomes[3] = {6, 6, 6};
    for (size_t m = 0; m < sizeof lent.table; m += m < 64 ? 1 : 499) {
        if (m != LOMKHVIDE_TABLE_LEN) {
            same("a table of any length", lomkhvide_feed_records(one, 8, lent.store, 1024, lent.table, m, events, 3, outcomes, 0, three.records, all),
                 refused(11));
        }
    }
    for (size_t m = 0; m < 16; m++) {
        same("no store", lomkhvide_feed_records(one, 8, lent.store, m, lent.table, 7, events, 3, outcomes, 0, three.records, all), refused(10));
        same("no committee", lomkhvide_feed_records(one, m % 8, lent.store, m, lent.table, 7, events, 3, outcomes, 0, three.records, all), refused(5));
    }
    put_word(lent.table, 1);
    same("a table not in order", lomkhvide_feed_records(one, 8, lent.store, 1024, lent.table, LOMKHVIDE_TABLE_LEN, events, 3, outcomes, 0,
         three.records, all), refused(11));
    put_word(lent.table, 0);
    same("no records", lomkhvide_feed_records(one, 8, lent.store, 1024, lent.table, LOMKHVIDE_TABLE_LEN, events, 3, outcomes, 3, three.records, 0), 0);
    same("nothing is written", memcmp(&lent, &kept, sizeof lent), 0);
    same("nor to events and outcomes", events[0] + events[1] + events[2] + outcomes[0] + outcomes[1] + outcomes[2], 33);
}

/* Feeds with an index of these words, lent from its own allocation. */
static uint64_t feed_indexed(const uint8_t *stakes, size_t stakes_len, size_t store, size_t table, uint64_t *index, size_t words,
                             size_t events, const uint8_t *record, size_t n) {
    uint8_t *own = malloc(n + 1);
    uint64_t *ours = malloc(8 * words + 1);
    memcpy(own, record, n);
    memcpy(ours, index, 8 * words);
    uint64_t word = lomkhvide_feed_indexed(stakes, stakes_len, lent.store, store, lent.table, table, ours, words, lent.events, events, own, n);
    memcpy(index, ours, 8 * words);
    free(ours);
    free(own);
    return word;
}

/* The same three blocks with the index: a part without runs, and twice the sharer's run. */
static void indexing(void) {
    const size_t t = LOMKHVIDE_TABLE_LEN, v = LOMKHVIDE_EVENTS_LEN;
    uint8_t one[8], first[256], second[256], third[256];
    /* used words; no run; author, round, a digest whose fourth byte is 2, offsets 0 to 1, owner 0; the same */
    const uint64_t right[24] = {24, 0, 1, 0, 1, UINT64_C(2) << 24, 0, 0, 0, 0, 1, 1, 0, 1, 0, 1, UINT64_C(2) << 24, 0, 0, 0, 0, 1, 1, 0};
    uint64_t index[26], before[26];
    put_word(one, 1);
    memset(&lent, 0, sizeof lent);
    lent.store[4] = 16;
    memset(lent.events, 9, sizeof lent.events);
    memset(index, 7, sizeof index);
    index[0] = 1;
    memcpy(before, index, sizeof index);
    kept = lent;
    size_t n = put_record(first, 0, 1, NULL, "");
    same("no committee", feed_indexed(one, 7, 0, 0, index, 0, 0, first, 0), refused(5));
    same("no store", feed_indexed(one, 8, 15, 0, index, 0, 0, first, 0), refused(10));
    for (size_t m = 0; m < sizeof lent.table; m += m < 64 ? 1 : 499) {
        if (m != t) {
            same("a table of any length", feed_indexed(one, 8, 1024, m, index, 0, 0, first, 0), refused(11));
        }
    }
    same("no words", feed_indexed(one, 8, 1024, t, index, 0, 0, first, 0), refused(54));
    for (uint64_t used = 0; used < 28; used++) {
        index[0] = used;
        same("used words, right for 1", feed_indexed(one, 8, 1024, t, index, 26, 0, first, 0), refused(used == 1 ? 20 : 54));
    }
    index[0] = 1;
    for (size_t m = 0; m < sizeof lent.events; m += m < 64 ? 1 : 499) {
        if (m != v) {
            same("events of any length", feed_indexed(one, 8, 1024, t, index, 1, m, first, n), refused(15));
            same("20 before 15", feed_indexed(one, 8, 1024, t, index, 1, m, first, n - 1), refused(20));
            same("54 before 20", feed_indexed(one, 8, 1024, t, index, 0, m, first, n - 1), refused(54));
        }
    }
    same("13 before 55", feed_indexed(one, 8, 16 + 8 + n - 1, t, index, 1, v, first, n), refused(13));
    same("no word for the part", feed_indexed(one, 8, 1024, t, index, 1, v, first, n), refused(55));
    same("refused, so nothing is written", memcmp(&lent, &kept, sizeof lent), 0);
    same("nor to the index", memcmp(index, before, sizeof index), 0);
    same("the first block", feed_indexed(one, 8, 1024, t, index, 2, v, first, n), 0);
    same("a part without runs", index[0] == 2 && index[1] == 0 && index[2] == before[2], 1);
    same("once", feed_indexed(one, 8, 1024, t, index, 26, v, first, n), refused(23));
    n = put_record(second, 1, 2, first, "gain");
    for (size_t words = 0; words < 13; words++) {
        same("an index of any length", feed_indexed(one, 8, 1024, t, index, words, v, second, n), refused(words < 2 ? 54 : 55));
    }
    same("the second block", feed_indexed(one, 8, 1024, t, index, 13, v, second, n), 0);
    same("its share's run", index[0] == 13 && memcmp(index + 1, right + 1, 96) == 0 && index[13] == before[13], 1);
    n = put_record(third, 2, 3, second, "");
    for (size_t at = 0; at < 13; at++) {
        index[at] ^= 1;
        same("any word changed", feed_indexed(one, 8, 1024, t, index, 26, v, third, n), refused(54));
        index[at] ^= 1;
    }
    for (size_t words = 13; words < 24; words++) {
        same("a word short", feed_indexed(one, 8, 1024, t, index, words, v, third, n), refused(55));
    }
    same("the third block", feed_indexed(one, 8, 1024, t, index, 25, v, third, n), 0);
    same("its include's run", memcmp(index, right, sizeof right), 0);
    same("the words past it stay", memcmp(index + 24, before + 24, 16), 0);
}

/* The three records of `many` with the index in one call: what single feeds with it leave, for every number of words of the index. */
static void many_indexed(void) {
    const uint8_t one[8] = {1};
    const uint64_t right[24] = {24, 0, 1, 0, 1, UINT64_C(2) << 24, 0, 0, 0, 0, 1, 1, 0, 1, 0, 1, UINT64_C(2) << 24, 0, 0, 0, 0, 1, 1, 0};
    const size_t all = three.ends[3];
    for (size_t words = 0; words < 28; words++) {
        uint64_t *index = malloc(8 * words + 1), *told = malloc(8 * 3), *events = malloc(8 * 3);
        memset(index, 7, 8 * words);
        memset(events, 9, 8 * 3);
        if (words > 0) {
            index[0] = 1;
        }
        fresh();
        uint64_t word = lomkhvide_feed_records_indexed(one, 8, lent.store, 1024, lent.table, LOMKHVIDE_TABLE_LEN, index, words, events, 3, told, 3,
                                                       three.records, all);
        /* each part that has no room is 55, and what includes its block is 30 */
        int fed = words < 2 ? 0 : words < 13 ? 1 : words < 24 ? 2 : 3;
        same("an index of any length", word, words == 0 ? refused(54) : 3);
        same("the store of single feeds", memcmp(lent.store, three.store[fed], 1024), 0);
        same("the table of single feeds", memcmp(lent.table, three.table[fed], LOMKHVIDE_TABLE_LEN), 0);
        if (words > 0) {
            same("used words", index[0], fed == 0 ? 1 : fed == 1 ? 2 : fed == 2 ? 13 : 24);
            same("the parts", memcmp(index + 1, right + 1, 8 * (index[0] - 1)), 0);
            for (size_t i = index[0]; i < words; i++) {
                same("the words past them stay", index[i], UINT64_C(0x0707070707070707));
            }
            for (int i = 0; i < 3; i++) {
                same("its outcome", told[i], i < fed ? i == 2 : refused(i == fed ? 55 : 30));
            }
        }
        same("the event", memcmp(events, three.event, 24) == 0, fed == 3);
        free(events);
        free(told);
        free(index);
    }
    uint64_t index[26], events[3] = {5, 5, 5}, outcomes[3] = {6, 6, 6};
    memset(index, 7, sizeof index);
    index[0] = 1;
    fresh();
    kept = lent;
    for (size_t m = 0; m < 16; m++) {
        same("no committee", lomkhvide_feed_records_indexed(one, m % 8, lent.store, m, lent.table, 7, index, 0, events, 3, outcomes, 0, three.records, all), refused(5));
        same("no store", lomkhvide_feed_records_indexed(one, 8, lent.store, m, lent.table, 7, index, 0, events, 3, outcomes, 0, three.records, all), refused(10));
    }
    for (size_t m = 0; m < sizeof lent.table; m += m < 64 ? 1 : 499) {
        if (m != LOMKHVIDE_TABLE_LEN) {
            same("a table of any length", lomkhvide_feed_records_indexed(one, 8, lent.store, 1024, lent.table, m, index, 0, events, 3, outcomes, 0, three.records, all), refused(11));
        }
    }
    for (size_t words = 0; words < 3; words++) {
        same("54 before 64", lomkhvide_feed_records_indexed(one, 8, lent.store, 1024, lent.table, LOMKHVIDE_TABLE_LEN, index, 0, events, 3, outcomes, words, three.records, all), refused(54));
        same("64", lomkhvide_feed_records_indexed(one, 8, lent.store, 1024, lent.table, LOMKHVIDE_TABLE_LEN, index, 26, events, 3, outcomes, words, three.records, all), refused(64));
    }
    same("nothing is written", memcmp(&lent, &kept, sizeof lent), 0);
    same("nor to events and outcomes", events[0] + events[1] + events[2] + outcomes[0] + outcomes[1] + outcomes[2], 33);
    same("nor to the index", index[0] == 1 && index[1] == UINT64_C(0x0707070707070707), 1);
}

/* A record of the file of stakes. Answers where the next one goes. */
static uint8_t *put_member(uint8_t *to, uint16_t next, const char *name, uint64_t stake) {
    to[0] = (uint8_t)next;
    to[1] = (uint8_t)(next >> 8);
    memset(to + 2, 0, 16);
    memcpy(to + 2, name, strlen(name));
    put_word(to + 18, stake);
    return to + 26;
}

/* Loads from a file that is lent from its own allocation. */
static uint64_t load(const uint8_t *file, size_t n, uint8_t *stakes, size_t stakes_len) {
    uint8_t *bytes = malloc(n + 1);
    memcpy(bytes, file, n);
    uint64_t word = lomkhvide_load_stakes(bytes, n, stakes, stakes_len);
    free(bytes);
    return word;
}

static void loading(void) {
    static uint8_t file[2 + 26 * 2522], stakes[LOMKHVIDE_STAKES_LEN + 8], want[LOMKHVIDE_STAKES_LEN + 8];
    const size_t room = LOMKHVIDE_STAKES_LEN;
    memset(stakes, 9, sizeof stakes);
    memcpy(want, stakes, sizeof stakes);
    /* the second record, the third, then the first */
    file[0] = 2;
    uint8_t *end = put_member(put_member(put_member(file + 2, 0, "quarry", 7), 3, "karst", 2), 1, "dam", 3);
    const size_t three = (size_t)(end - file);
    for (size_t n = 1; n < three; n++) {
        same("a file cut short", load(file, n, stakes, room), refused(56));
    }
    for (size_t n = 1; n < 26; n++) {
        same("bytes after the last record", load(file, three + n, stakes, room), refused(56));
    }
    for (size_t n = 0; n <= sizeof stakes; n++) {
        if (n != room) {
            same("room of any length", load(file, three, stakes, n), refused(40));
            same("56 before 40", load(file, three - 1, stakes, n), refused(56));
            same("the course committee", load(file, 0, stakes, n), refused(40));
        }
    }
    same("refused, so nothing is written", memcmp(stakes, want, sizeof stakes), 0);
    same("three members", load(file, three, stakes, room), 3);
    put_word(want, 2);
    put_word(want + 8, 3);
    put_word(want + 16, 7);
    same("in chain order, and no byte past them", memcmp(stakes, want, sizeof stakes), 0);
    same("they are a committee", lomkhvide_new_committee(stakes, 24), 12);
    file[0] = 0;
    same("nobody on the chain", load(file, three, stakes, room), refused(1));
    same("the index alone", load(file, 2, stakes, room), refused(1));
    file[0] = 4;
    same("an index past the last record", load(file, three, stakes, room), refused(56));
    file[0] = 1;
    file[1] = 1;
    same("its high byte counts", load(file, three, stakes, room), refused(56));
    file[1] = 0;
    put_member(file + 2, 3, "quarry", 7);
    same("an index for the second time", load(file, three, stakes, room), refused(56));
    put_member(file + 2, 2, "karst", 0);
    put_member(file + 28, 0, "karst", 2);
    same("a name for the second time", load(file, three, stakes, room), refused(57));
    file[4] = 0;
    same("a byte after a zero", load(file, three, stakes, room), refused(57));
    put_member(file + 2, 2, "", 2);
    same("no name", load(file, three, stakes, room), refused(57));
    put_member(file + 2, 2, "sixteen letters.", 0);
    same("a stake of zero", load(file, three, stakes, room), refused(2));
    put_member(file + 2, 2, "sixteen letters.", UINT64_C(1) << 63);
    same("a total over the most", load(file, three, stakes, room), refused(4));
    same("refused, so nothing is written", memcmp(stakes, want, sizeof stakes), 0);
    /* as many records as fit, each with the next one after it; the last is the most that 65,536 bytes hold */
    for (size_t i = 1; i <= 2522; i++) {
        char name[17];
        snprintf(name, sizeof name, "owner %zu", i);
        put_member(file + 2 + 26 * (i - 1), (uint16_t)(i + 1), name, 1);
    }
    for (size_t n = 2519; n <= 2522; n++) {
        file[2 + 26 * (n - 1)] = 0;
        file[2 + 26 * (n - 1) + 1] = 0;
        same("thousands of members", load(file, 2 + 26 * n, stakes, room), n <= 2520 ? refused(3) : refused(56));
        file[2 + 26 * (n - 1)] = (uint8_t)(n + 1);
        file[2 + 26 * (n - 1) + 1] = (uint8_t)((n + 1) >> 8);
    }
    for (size_t n = 127; n <= 129; n++) {
        file[2 + 26 * (n - 1)] = 0;
        file[2 + 26 * (n - 1) + 1] = 0;
        same("as many as a committee has", load(file, 2 + 26 * 2520, stakes, room), n <= 128 ? n : refused(3));
        file[2 + 26 * (n - 1)] = (uint8_t)(n + 1);
    }
}

/* ---- whom to ring */

/* Asks with `found` of a length, lent from its own allocation, and compares the words that stand there afterwards. */
static void rung(const char *what, const uint8_t *stakes, size_t table, uint64_t low, uint64_t high, const uint8_t *locator, size_t n, size_t room,
                 uint64_t want, uint64_t set, uint64_t stake) {
    uint8_t *found = malloc(room + 24), right[24];
    memset(found, 9, room + 24);
    memset(right, 9, sizeof right);
    same(what, lomkhvide_whom_to_ring(stakes, 24, lent.store, 1024, lent.table, table, low, high, locator, n, found, room), want);
    if (want >> 63 == 0) {
        put_word(right, set);
        put_word(right + 8, 0);
        put_word(right + 16, stake);
    }
    same("the set and the stake, or nothing written", memcmp(found, right, room < 24 ? room : 24), 0);
    free(found);
}

/* Owners of stakes 3, 2 and 2, with quorum from 5: owner 0 shares, and nobody else has voted. */
static void ringing(void) {
    const size_t t = LOMKHVIDE_TABLE_LEN, v = LOMKHVIDE_EVENTS_LEN;
    uint8_t stakes[24], first[256], second[256], third[320], locator[60];
    for (int i = 0; i < 3; i++) {
        put_word(stakes + 8 * i, i == 0 ? 3 : 2);
    }
    memset(&lent, 0, sizeof lent);
    lent.store[4] = 16;
    same("the first owner's block", feed(stakes, 24, 1024, t, v, first, put_record(first, 0, 1, NULL, "")), 0);
    size_t n = put_record(second, 0, 2, NULL, "");
    second[0] = 1;
    same("the second owner's", feed(stakes, 24, 1024, t, v, second, n), 0);
    n = put_record(third, 1, 3, first, "gain");
    memmove(third + 56 + 96, third + 56 + 48, n - 56 - 48);
    memcpy(third + 56 + 48, second, 48);
    third[49] = 2;
    n += 48;
    same("a share", feed(stakes, 24, 1024, t, v, third, n), 0);
    memset(locator, 0, sizeof locator);
    memcpy(locator, third, 48);
    kept = lent;
    rung("of equals the lower number", stakes, t, 6, 0, locator, 56, 24, 1, 2, 2);
    rung("who can be reached", stakes, t, 4, 0, locator, 56, 24, 1, 4, 2);
    rung("unknown numbers", stakes, t, ~UINT64_C(3), UINT64_MAX, locator, 56, 24, 1, 4, 2);
    rung("nobody", stakes, t, 0, 0, locator, 56, 24, refused(60), 0, 0);
    rung("who has voted, and unknown numbers", stakes, t, ~UINT64_C(6), UINT64_MAX, locator, 56, 24, refused(60), 0, 0);
    for (size_t room = 0; room < 40; room++) {
        if (room != 24) {
            rung("room of any length", stakes, t, 0, 0, locator, 56, room, refused(40), 0, 0);
        }
    }
    for (size_t m = 0; m < sizeof locator; m++) {
        if (m != 56) {
            rung("a locator of any length", stakes, t, 6, 0, locator, m, 7, refused(20), 0, 0);
        }
    }
    for (size_t m = 0; m < sizeof lent.table; m += m < 64 ? 1 : 499) {
        if (m != t) {
            rung("a table of any length", stakes, m, 6, 0, locator, 7, 7, refused(11), 0, 0);
        }
    }
    locator[48] = 1;
    rung("42 before 60", stakes, t, 0, 0, locator, 56, 24, refused(42), 0, 0);
    rung("40 before 42", stakes, t, 0, 0, locator, 56, 23, refused(40), 0, 0);
    locator[48] = 0;
    uint8_t found[24];
    same("no committee", lomkhvide_whom_to_ring(stakes, 23, lent.store, 15, lent.table, 7, 6, 0, locator, 7, found, 7), refused(5));
    same("no store", lomkhvide_whom_to_ring(stakes, 24, lent.store, 15, lent.table, 7, 6, 0, locator, 7, found, 7), refused(10));
    same("only read", memcmp(&lent, &kept, sizeof lent), 0);
    /* the second owner's vote makes quorum: the item would have left, but a table may hold it */
    put_word(lent.table + 32, 3);
    put_word(lent.table + 48, 5);
    rung("quorum already", stakes, t, 0, 0, locator, 56, 24, 0, 0, 0);
}

/* Asks the same of a committee alone. */
static void fewest(const char *what, const uint8_t *stakes, size_t stakes_len, uint64_t voters_low, uint64_t voters_high, uint64_t low,
                   uint64_t high, size_t room, uint64_t want, uint64_t set, uint64_t stake) {
    uint8_t *found = malloc(room + 24), right[24];
    memset(found, 9, room + 24);
    memset(right, 9, sizeof right);
    same(what, lomkhvide_fewest_owners(stakes, stakes_len, voters_low, voters_high, low, high, found, room), want);
    if (want >> 63 == 0) {
        put_word(right, set);
        put_word(right + 8, 0);
        put_word(right + 16, stake);
    }
    same("the set and the stake, or nothing written", memcmp(found, right, 24), 0);
    free(found);
}

/* Owners of stakes 3, 2 and 2, with quorum from 5, and any of them for voters. */
static void ringing_voters(void) {
    uint8_t stakes[24];
    for (int i = 0; i < 3; i++) {
        put_word(stakes + 8 * i, i == 0 ? 3 : 2);
    }
    fewest("nobody has voted", stakes, 24, 0, 0, 7, 0, 24, 2, 3, 5);
    fewest("of equals the lower number", stakes, 24, 1, 0, 6, 0, 24, 1, 2, 2);
    fewest("voters are not rung", stakes, 24, 1, 0, 7, 0, 24, 1, 2, 2);
    fewest("the larger stake", stakes, 24, 4, 0, 3, 0, 24, 1, 1, 3);
    fewest("quorum already", stakes, 24, 3, 0, 0, 0, 24, 0, 0, 0);
    fewest("unknown numbers in both sets", stakes, 24, ~UINT64_C(6), UINT64_MAX, ~UINT64_C(1), UINT64_MAX, 24, 1, 2, 2);
    fewest("unknown voters have no stake", stakes, 24, ~UINT64_C(7), UINT64_MAX, 4, 0, 24, refused(60), 0, 0);
    fewest("nobody can be reached", stakes, 24, 1, 0, 0, 0, 24, refused(60), 0, 0);
    for (size_t room = 0; room < 40; room++) {
        if (room != 24) {
            fewest("room of any length", stakes, 24, 1, 0, 0, 0, room, refused(40), 0, 0);
            fewest("5 before 40", stakes, 23, 1, 0, 0, 0, room, refused(5), 0, 0);
        }
    }
    for (size_t n = 0; n < 24; n++) {
        /* one member has quorum alone, of two the first misses it */
        fewest("stakes of any length", stakes, n, 1, 0, 0, 0, 24, n == 8 ? 0 : refused(n == 16 ? 60 : 5), 0, 0);
    }
}

/* ---- the blast calendar */

/* Asks for the first open second over n bytes of a calendar, lent from their own allocation; `found` gets the word that was written. */
static uint64_t next_open(const uint8_t *calendar, size_t n, uint64_t time, uint64_t *found) {
    uint8_t *own = malloc(n + 1), out[8];
    memcpy(own, calendar, n);
    put_word(out, *found);
    uint64_t word = lomkhvide_next_open(own, n, time, out, sizeof out);
    *found = 0;
    for (int i = 0; i < 8; i++) {
        *found |= (uint64_t)out[i] << (8 * i);
    }
    same("open where no wait is", lomkhvide_is_open(own, n, time), word == 1 ? *found == time : word);
    free(own);
    return word;
}

static void first_open(const char *what, const uint8_t *calendar, size_t n, uint64_t time, uint64_t want) {
    uint64_t found = 9;
    same(what, next_open(calendar, n, time, &found), 1);
    same(what, found, want);
}

static void none_open(const char *what, const uint8_t *calendar, size_t n, uint64_t time, uint64_t want) {
    uint64_t found = 9;
    same(what, next_open(calendar, n, time, &found), want);
    same("nothing is written", found, 9);
}

static void put_words(uint8_t *to, const uint64_t *words, size_t n) {
    for (size_t i = 0; i < n; i++) {
        put_word(to + 8 * i, words[i]);
    }
}

static void calendars(void) {
    const uint64_t monday = 345600, last = UINT64_MAX;
    const uint64_t three[] = {0, 3600, 3600, 7200, 600000, 604800};
    uint8_t bytes[8 * 140];
    put_words(bytes, three, 6);
    first_open("a Thursday", bytes, 48, 0, 0);
    first_open("the last second before a window", bytes, 48, monday - 4801, monday - 4801);
    first_open("over the week's end", bytes, 48, monday - 4800, monday + 7200);
    first_open("a Monday", bytes, 48, monday, monday + 7200);
    first_open("the second of two windows that touch", bytes, 48, monday + 3600, monday + 7200);
    first_open("its last second", bytes, 48, monday + 7199, monday + 7200);
    first_open("its end", bytes, 48, monday + 7200, monday + 7200);
    first_open("the next Monday", bytes, 48, monday + 604800, monday + 604800 + 7200);
    const uint64_t full[] = {0, 300000, 300000, 604800};
    put_words(bytes, full, 4);
    none_open("a full week", bytes, 32, 5, 0);
    none_open("a full week at the end", bytes, 32, last, 0);
    /* the last second of the count is second 284,415 of its week */
    const uint64_t end[] = {284400, 284415, 284416, 284417};
    put_words(bytes, end, 4);
    first_open("the last second", bytes, 32, last - 15, last);
    put_word(bytes + 16, 284415);
    none_open("past the last second", bytes, 32, last - 15, 0);
    none_open("the last second is closed", bytes, 32, last, 0);
    first_open("no windows", bytes, 0, last, last);
    /* each way to be refused */
    const uint64_t bad[][4] = {{5, 5, 6, 7}, {5, 4, 6, 7}, {5, 604801, 0, 0}, {5, 9, 8, 12}, {8, 12, 5, 8}, {0, UINT64_MAX, 0, 0}};
    for (size_t i = 0; i < sizeof bad / sizeof bad[0]; i++) {
        put_words(bytes, bad[i], 4);
        none_open("a calendar that is not good", bytes, 32, 7, refused(59));
    }
    /* 70 windows of half an hour, one each two hours: every length, and both ends of every window */
    for (size_t i = 0; i < 70; i++) {
        put_word(bytes + 16 * i, 7200 * i);
        put_word(bytes + 16 * i + 8, 7200 * i + 1800);
    }
    for (size_t n = 0; n <= sizeof bytes; n++) {
        if (n % 16 != 0 || n > 1024) {
            none_open("a calendar of any length", bytes, n, monday, refused(59));
        } else {
            first_open("as many windows", bytes, n, monday, n == 0 ? monday : monday + 1800);
        }
    }
    for (uint64_t i = 0; i < 64; i++) {
        const uint64_t start = monday + 7200 * i;
        first_open("before a window", bytes, 1024, start - 1, start - 1);
        first_open("its start", bytes, 1024, start, start + 1800);
        first_open("its last second", bytes, 1024, start + 1799, start + 1800);
        first_open("its end", bytes, 1024, start + 1800, start + 1800);
    }
    /* 59, then 40 */
    uint8_t out[24], kept[24];
    memset(out, 9, sizeof out);
    memset(kept, 9, sizeof kept);
    for (size_t n = 0; n <= sizeof out; n++) {
        if (n != 8) {
            same("room of any length", lomkhvide_next_open(bytes, 1024, monday, out, n), refused(40));
            same("room of any length, no windows", lomkhvide_next_open(bytes, 0, monday, out, n), refused(40));
            same("59 before 40", lomkhvide_next_open(bytes, 1032, monday, out, n), refused(59));
        }
    }
    same("refused, so nothing is written", memcmp(out, kept, sizeof out), 0);
    same("room of eight bytes", lomkhvide_next_open(bytes, 1024, monday, out, 8), 1);
    same("no byte past it", memcmp(out + 8, kept, sizeof out - 8), 0);
}

/* ---- records of our own */

/* A statement of that kind, and the locator of an offset under a reference of zeros; answers the bytes written. */
static size_t put_vote(uint8_t *to, uint8_t kind, uint64_t offset) {
    memset(to, 0, 57);
    to[0] = kind;
    put_word(to + 49, offset);
    return 57;
}

/* Writes a record from these statements into n bytes, every slice lent from its own allocation, and holds bytes and answer to `want`
 * and its length, or to a refusal. */
static void written(const char *what, const uint8_t *statements, size_t length, const uint8_t *want, size_t n, uint64_t answer) {
    uint8_t *digest = malloc(32), *include = malloc(48), *own = malloc(length + 1), *out = malloc(n + 1), *kept = malloc(n + 1);
    memset(digest, 7, 32);
    memset(include, 3, 48);
    memcpy(own, statements, length);
    memset(out, 9, n + 1);
    memset(kept, 9, n + 1);
    if (!LOMKHVIDE_IS_REFUSED(answer)) {
        memcpy(kept, want, answer);
    }
    same(what, lomkhvide_write_record(5, 6, digest, 32, 1, include, 48, own, length, out, n), answer);
    same(what, memcmp(out, kept, n + 1), 0);
    free(digest);
    free(include);
    free(own);
    free(out);
    free(kept);
}

/* A share, two neighbouring accepts, a lone one, a reject, a given range. */
static void writing(void) {
    uint8_t given[400], want[400];
    memset(want, 0, sizeof want);
    put_word(want, 5);
    put_word(want + 8, 6);
    memset(want + 16, 7, 32);
    want[48] = 1;
    want[49] = 1;
    want[51] = 5;
    memset(want + 56, 3, 48);
    const uint8_t share[] = {0, 2, 0, 0, 0, 1, 2};
    size_t n = sizeof share, at = 104;
    memcpy(given, share, n);
    want[at + 1] = 2;
    want[at + 3] = 1;
    want[at + 4] = 2;
    at += 5;
    n += put_vote(given + n, 1, 4);
    n += put_vote(given + n, 1, 5);
    want[at] = 3;
    put_word(want + at + 49, 4);
    put_word(want + at + 57, 6);
    at += 65;
    n += put_vote(given + n, 1, 7);
    at += put_vote(want + at, 1, 7);
    n += put_vote(given + n, 2, 8);
    given[n++] = 0;
    at += put_vote(want + at, 2, 8);
    want[at++] = 0;
    n += put_vote(given + n, 3, 8);
    put_word(given + n, 9);
    n += 8;
    at += put_vote(want + at, 3, 8);
    put_word(want + at, 9);
    at += 8;
    for (size_t length = 0; length < at + 40; length++) {
        written("a record in a slice of any length", given, n, want, length, length < at ? refused(50) : at);
    }
    for (size_t cut = 1; cut < 8; cut++) {
        written("statements cut short", given, n - cut, want, at, refused(51));
        written("51 before 50", given, n - cut, want, 0, refused(51));
    }
    uint8_t out[400], include[96] = {0};
    memset(out, 9, sizeof out);
    for (size_t length = 0; length < 40; length++) {
        same("a digest of any length", lomkhvide_write_record(5, 6, want, length, 0, include, 0, given, 0, out, 60), length == 32 ? 56 : refused(51));
    }
    for (size_t length = 0; length <= sizeof include; length++) {
        uint64_t answer = length % 48 == 0 ? 56 + length : refused(51);
        same("includes of any length", lomkhvide_write_record(5, 6, want, 32, 0, include, length, given, 0, out, 200), answer);
    }
    same("a mark of 2", lomkhvide_write_record(5, 6, want, 32, 2, include, 0, given, 0, out, 60), refused(51));
    same("a mark of 256", lomkhvide_write_record(5, 6, want, 32, 256, include, 0, given, 0, out, 60), refused(51));
    same("a kind of 4", lomkhvide_write_record(5, 6, want, 32, 0, include, 0, (const uint8_t *)"\4", 1, out, 60), refused(51));
    given[n - 65] = 1;
    same("bytes left over", lomkhvide_write_record(5, 6, want, 32, 0, include, 0, given, n, out, 300), refused(51));
    uint8_t *long_share = calloc(5 + 65536, 1);
    uint8_t *room = malloc(56 + 3 + 65535);
    put_word(long_share + 1, 65535);
    same("a payload of 65,535 bytes", lomkhvide_write_record(5, 6, want, 32, 0, include, 0, long_share, 5 + 65535, room, 56 + 3 + 65535), 56 + 3 + 65535);
    memset(long_share, 0, 9);
    put_word(long_share + 1, 65536);
    same("one more", lomkhvide_write_record(5, 6, want, 32, 0, include, 0, long_share, 5 + 65536, room, 56 + 3 + 65535), refused(51));
    free(long_share);
    free(room);
}

/* ---- the time of a block */

/* A record of round 0 by the first owner: of the second edition with its time where it has 72 bytes, and of the first where it has 56. */
static uint64_t fed(uint8_t *store, const uint8_t *record, size_t length) {
    static uint8_t table[LOMKHVIDE_TABLE_LEN], events[LOMKHVIDE_EVENTS_LEN];
    const uint8_t stakes[8] = {1};
    memset(table, 0, sizeof table);
    memset(store, 0, 400);
    store[4] = 16;
    return lomkhvide_feed(stakes, sizeof stakes, store, 400, table, sizeof table, events, sizeof events, record, length);
}

static void times(void) {
    const uint64_t last = UINT64_MAX;
    uint8_t digest[32], want[72] = {0}, out[112], kept[112], store[400], found[16];
    memset(digest, 7, sizeof digest);
    memset(want + 16, 7, 32);
    want[53] = 2;
    put_word(want + 56, last - 1);
    memset(kept, 9, sizeof kept);
    for (size_t length = 0; length <= sizeof out; length++) {
        memset(out, 9, sizeof out);
        uint64_t answer = length < 72 ? refused(50) : 72;
        same("a record with a time, in a slice of any length", lomkhvide_write_timed_record(0, 0, digest, 32, 0, last - 1, digest, 0, digest, 0, out, length), answer);
        same("its bytes", memcmp(out, length < 72 ? kept : want, 72), 0);
        same("no byte past it", memcmp(out + 72, kept, sizeof out - 72), 0);
    }
    same("a mark of 2", lomkhvide_write_timed_record(0, 0, digest, 32, 2, 5, digest, 0, digest, 0, out, 0), refused(51));
    /* every byte of the edition and of the time */
    for (size_t at = 53; at < 72; at++) {
        for (unsigned byte = 0; byte < 256; byte++) {
            uint8_t record[72];
            memcpy(record, want, sizeof record);
            record[at] = (uint8_t)byte;
            int good = at < 56 ? byte == (at == 53 ? 2 : 0) : at < 64 || byte == 0;
            same("a byte of the edition or of the time", fed(store, record, sizeof record), good ? 0 : refused(20));
        }
    }
    for (size_t length = 0; length < 72; length++) {
        same("cut short", fed(store, want, length), refused(20));
    }
    /* the time of the stored block */
    const uint8_t stakes[8] = {1};
    const size_t lengths[] = {48, 8};
    uint8_t reference[64] = {0};
    memset(reference + 16, 7, 32);
    same("fed", fed(store, want, sizeof want), 0);
    for (size_t n = 0; n <= 60; n++) {
        for (size_t room = 0; room <= sizeof found; room++) {
            memset(found, 9, sizeof found);
            uint64_t answer = n != lengths[0] ? refused(20) : room != lengths[1] ? refused(40) : 1;
            same("a reference and room of any length", lomkhvide_creation_time(stakes, 8, store, 400, reference, n, found, room), answer);
            uint8_t time[16];
            memset(time, 9, sizeof time);
            if (answer == 1) {
                put_word(time, last - 1);
            }
            same("the time", memcmp(found, time, sizeof found), 0);
        }
    }
    same("no committee", lomkhvide_creation_time(stakes, 7, store, 3, reference, 3, found, 3), refused(5));
    same("no store", lomkhvide_creation_time(stakes, 8, store, 3, reference, 3, found, 3), refused(10));
    reference[0] = 1;
    memset(found, 9, sizeof found);
    same("another reference", lomkhvide_creation_time(stakes, 8, store, 400, reference, 48, found, 8), 0);
    same("nothing is written", memcmp(found, kept, sizeof found), 0);
    reference[0] = 0;
    want[53] = 0;
    same("fed without a time", fed(store, want, 56), 0);
    same("no time", lomkhvide_creation_time(stakes, 8, store, 400, reference, 48, found, 8), 0);
    same("nothing is written", memcmp(found, kept, sizeof found), 0);
}

/* ---- finality slips */

/* Reads a slip; it and the records are lent from their own allocations. */
static uint64_t read_slip(const uint8_t *stakes, size_t m, const uint8_t *slip, size_t n, const uint8_t *records, size_t k) {
    uint8_t *lent_slip = malloc(n + 1), *lent_records = malloc(k + 1);
    memcpy(lent_slip + 1, slip, n);
    memcpy(lent_records + 1, records, k);
    uint64_t word = lomkhvide_read_slip(stakes, m, lent_slip + 1, n, lent_records + 1, k);
    same("the slip is only read", memcmp(lent_slip + 1, slip, n), 0);
    same("the records are only read", memcmp(lent_records + 1, records, k), 0);
    free(lent_slip);
    free(lent_records);
    return word;
}

/* One owner: its second block shares, and its third one includes that and is the certifying block of the slip. */
static void slips(void) {
    uint8_t one[8], first[64], second[160], third[200], records[512], slip[160];
    put_word(one, 1);
    put_record(first, 0, 1, NULL, "");
    size_t n = put_record(second, 1, 2, first, "gain");
    size_t only = put_framed(records, second, n);
    n = put_record(third, 2, 3, second, "");
    size_t both = only + put_framed(records + only, third, n);
    memset(slip, 0, sizeof slip);
    memcpy(slip + 1, second, 48);
    slip[57] = 1;
    memcpy(slip + 59, third, 48);
    slip[107] = 1;
    slip[116] = 1;
    for (size_t length = 0; length <= sizeof slip; length++) {
        same("a slip of any length", read_slip(one, 8, slip, length, records, both), length == 0 ? refused(61) : length == 119 ? 1 : refused(52));
    }
    for (size_t length = 0; length <= both + 8; length++) {
        memset(records + both, 0, 8);
        uint64_t want = length == both ? 1 : length == 0 || length == only ? refused(53) : refused(52);
        same("records of any length", read_slip(one, 8, slip, 119, records, length), want);
    }
    same("the vote's record left out", read_slip(one, 8, slip, 119, records + only, both - only), refused(53));
    same("no committee", read_slip(one, 0, slip, 7, records, 7), refused(5));
    for (size_t cut = 1; cut < 8; cut++) {
        same("stakes cut short", read_slip(one, 8 - cut, slip, 119, records, both), refused(5));
    }
    records[only + 4 + 48] = 1;
    same("a marked block", read_slip(one, 8, slip, 119, records, both), refused(52));
    same("53 before that", read_slip(one, 8, slip, 119, records + only, both - only), refused(53));
    records[only + 4 + 48] = 0;
    slip[118] = 1;
    same("a place past the includes", read_slip(one, 8, slip, 119, records, both), refused(52));
    slip[118] = 0;
    slip[49] = 1;
    same("another locator", read_slip(one, 8, slip, 119, records, both), refused(52));
    slip[49] = 0;
    slip[108] = 1;
    same("another author", read_slip(one, 8, slip, 119, records, both), refused(52));
    slip[108] = 0;
    slip[0] = 1;
    same("a block of the ancestry is missing", read_slip(one, 8, slip, 119, records, both), refused(53));
    size_t all = both + put_framed(records + both, first, put_record(first, 0, 1, NULL, ""));
    for (size_t length = 0; length <= sizeof slip; length++) {
        uint64_t want = length == 0 ? refused(61) : length == 119 ? 1 : refused(52);
        same("a new slip of any length", read_slip(one, 8, slip, length, records, all), want);
    }
    for (unsigned byte = 2; byte < 256; byte++) {
        slip[0] = (uint8_t)byte;
        same("another first byte", read_slip(one, 8, slip, 119, records, all), refused(61));
        same("61 before 52", read_slip(one, 8, slip, 1, records, 3), refused(61));
        same("5 before 61", read_slip(one, 7, slip, 119, records, all), refused(5));
    }
    same("no first byte", read_slip(one, 8, slip, 0, records, 3), refused(61));
    /* the owner rejects the share in the certifying block: the old slip holds, the new one does not */
    n = put_record(third, 2, 3, second, "");
    third[51] = 1;
    third[n] = 2;
    memcpy(third + n + 1, second, 48);
    memset(third + n + 49, 0, 9);
    only = put_framed(records, first, put_record(first, 0, 1, NULL, ""));
    only += put_framed(records + only, second, put_record(second, 1, 2, first, "gain"));
    all = only + put_framed(records + only, third, n + 58);
    for (uint8_t byte = 0; byte < 2; byte++) {
        slip[0] = byte;
        same("a listed voter rejects", read_slip(one, 8, slip, 119, records, all), byte == 0 ? 1 : refused(52));
    }
    third[n + 49] = 1;
    put_framed(records + only, third, n + 58);
    same("another share rejected", read_slip(one, 8, slip, 119, records, all), 1);
}

/* ---- slips */

/* A sole owner. Round 0: a block; round 1: one that shares and one that accepts the share; round 2: one that includes all three. */
static void written_slips(void) {
    const size_t t = LOMKHVIDE_TABLE_LEN, v = LOMKHVIDE_EVENTS_LEN, size = 237;
    uint8_t one[8], first[256], shares[256], accepts[256], last[320], locator[60], want[300], right[300];
    put_word(one, 1);
    memset(&lent, 0, sizeof lent);
    lent.store[4] = 16;
    same("the first block", feed(one, 8, 1024, t, v, first, put_record(first, 0, 1, NULL, "")), 0);
    same("a share", feed(one, 8, 1024, t, v, shares, put_record(shares, 1, 2, first, "gain")), 0);
    size_t n = put_record(accepts, 1, 3, first, "");
    accepts[51] = 1;
    accepts[n] = 1;
    memcpy(accepts + n + 1, shares, 48);
    memset(accepts + n + 49, 0, 8);
    same("an accept", feed(one, 8, 1024, t, v, accepts, n + 57), 1);
    n = put_record(last, 2, 4, first, "");
    memcpy(last + n, accepts, 48);
    memcpy(last + n + 48, shares, 48);
    last[49] = 3;
    same("all three included", feed(one, 8, 1024, t, v, last, n + 96), 0);
    kept = lent;
    memset(locator, 0, sizeof locator);
    memcpy(locator, shares, 48);
    /* three certifying blocks, ascending; from the last one the accept is the first vote that is one include away */
    memset(want, 0, sizeof want);
    memcpy(want + 1, locator, 56);
    want[57] = 3;
    memcpy(want + 59, shares, 48);
    want[107] = 1;
    memcpy(want + 118, accepts, 48);
    want[166] = 1;
    memcpy(want + 177, last, 48);
    want[225] = 1;
    want[234] = 1;
    want[236] = 1;
    for (size_t room = 0; room < sizeof want; room++) {
        uint8_t *out = malloc(room);
        memset(right, 9, sizeof right);
        if (room > 0) {
            memset(out, 9, room);
        }
        same("room of any length", lomkhvide_write_slip(one, 8, lent.store, 1024, locator, 56, out, room), room < size ? refused(50) : size);
        if (room >= size) {
            memcpy(right, want, size);
        }
        same("the slip, or nothing written", room > 0 && memcmp(out, right, room) != 0, 0);
        free(out);
    }
    uint8_t out[300];
    want[0] = 1;
    for (size_t room = 0; room < sizeof want; room++) {
        memset(out, 9, sizeof out);
        memset(right, 9, sizeof right);
        uint64_t word = lomkhvide_write_slip_withdrawing(one, 8, lent.store, 1024, locator, 56, out, room);
        same("the new reading, room of any length", word, room < size ? refused(50) : size);
        if (room >= size) {
            memcpy(right, want, size);
        }
        same("nobody withdraws: the slip but for its first byte", memcmp(out, right, sizeof out), 0);
    }
    for (size_t m = 0; m < sizeof locator; m++) {
        if (m != 56) {
            same("a locator of any length", lomkhvide_write_slip_withdrawing(one, 8, lent.store, 1024, locator, m, out, 7), refused(20));
        }
    }
    same("no committee", lomkhvide_write_slip_withdrawing(one, 7, lent.store, 15, locator, 7, out, 0), refused(5));
    same("no store", lomkhvide_write_slip_withdrawing(one, 8, lent.store, 15, locator, 7, out, 0), refused(10));
    memset(out, 9, sizeof out);
    memset(right, 9, sizeof right);
    for (size_t m = 0; m < sizeof locator; m++) {
        if (m != 56) {
            same("a locator of any length", lomkhvide_write_slip(one, 8, lent.store, 1024, locator, m, out, 7), refused(20));
        }
    }
    locator[48] = 1;
    same("not final", lomkhvide_write_slip_withdrawing(one, 8, lent.store, 1024, locator, 56, out, sizeof out), refused(52));
    same("not final", lomkhvide_write_slip(one, 8, lent.store, 1024, locator, 56, out, sizeof out), refused(52));
    same("52 before 50", lomkhvide_write_slip(one, 8, lent.store, 1024, locator, 56, out, 0), refused(52));
    same("no committee", lomkhvide_write_slip(one, 7, lent.store, 15, locator, 7, out, 0), refused(5));
    for (size_t m = 0; m < 16; m++) {
        same("no store", lomkhvide_write_slip(one, 8, lent.store, m, locator, 7, out, 0), refused(10));
    }
    same("nothing written", memcmp(out, right, sizeof out), 0);
    same("only read", memcmp(&lent, &kept, sizeof lent), 0);
}

/* A program of round 1, and in round 2 a gain table that needs it, one that needs itself, and a payload a byte too short to need anything; of
 * a sole owner, so that all are final. */
static void loadable_shares(void) {
    static uint8_t store[2048], kept[2048], table[LOMKHVIDE_TABLE_LEN], events[LOMKHVIDE_EVENTS_LEN];
    uint8_t one[8], first[56] = {0}, digest[32] = {0}, given[256] = {0}, program[256], tables[512], locator[57] = {0};
    put_word(one, 1);
    store[4] = 16;
    lomkhvide_feed(one, 8, store, sizeof store, table, sizeof table, events, sizeof events, first, 56);
    given[1] = 4;
    uint64_t n = lomkhvide_write_record(0, 1, digest, 32, 0, first, 48, given, 9, program, sizeof program);
    lomkhvide_feed(one, 8, store, sizeof store, table, sizeof table, events, sizeof events, program, n);
    uint64_t at = 16 + 8 + 56, next = at + 8 + n;
    memset(given, 0, sizeof given);
    given[1] = 57;
    given[5] = 1;
    memcpy(given + 6, program, 48);
    given[62 + 1] = 57;
    given[62 + 5] = 1;
    given[62 + 6 + 8] = 2;
    given[62 + 6 + 48] = 1;
    given[124 + 1] = 56;
    given[124 + 5] = 1;
    n = lomkhvide_write_record(0, 2, digest, 32, 0, program, 48, given, 62 + 62 + 61, tables, sizeof tables);
    same("tables are fed", lomkhvide_feed(one, 8, store, sizeof store, table, sizeof table, events, sizeof events, tables, n), 0);
    memcpy(kept, store, sizeof store);
    memcpy(locator, tables, 48);
    const uint64_t want[4] = {1, 0, 1, 0};
    for (uint8_t offset = 0; offset < 4; offset++) {
        locator[48] = offset;
        same("a table", lomkhvide_is_loadable(one, 8, store, sizeof store, locator, 56), want[offset]);
    }
    memcpy(locator, program, 48);
    locator[48] = 0;
    for (size_t m = 0; m < 58; m++) {
        same("the program, a locator of any length", lomkhvide_is_loadable(one, 8, store, sizeof store, locator, m), m == 56 ? 1 : refused(20));
    }
    same("no committee", lomkhvide_is_loadable(one, 7, store, sizeof store, locator, 3), refused(5));
    same("no store", lomkhvide_is_loadable(one, 8, store, 15, locator, 3), refused(10));
    const uint64_t listed[6] = {at, 0, next, 0, next, 2};
    for (size_t m = 0; m < 12; m++) {
        /* an allocation of its own, so that a write past the end can be seen by a checker of memory */
        uint64_t *places = malloc(8 * m + 8);
        for (size_t i = 0; i < m; i++) {
            places[i] = 77 + i;
        }
        same("places of any number", lomkhvide_loadable(one, 8, store, sizeof store, places, m), m < 8 ? refused(58) : 3);
        for (size_t i = 0; i < m; i++) {
            same("a word of them", places[i], m < 8 || i >= 6 ? 77 + i : listed[i]);
        }
        same("no committee", lomkhvide_loadable(one, 9, store, sizeof store, places, m), refused(5));
        same("no store", lomkhvide_loadable(one, 8, store, 0, places, m), refused(10));
        free(places);
    }
    same("the store is as it was", memcmp(store, kept, sizeof store), 0);
    /* without rejects both readings answer the same, refusals too */
    same("withdrawing, the program", lomkhvide_is_loadable_withdrawing(one, 8, store, sizeof store, locator, 56), 1);
    same("withdrawing, no locator", lomkhvide_is_loadable_withdrawing(one, 8, store, sizeof store, locator, 55), refused(20));
    same("withdrawing, no committee", lomkhvide_is_loadable_withdrawing(one, 7, store, sizeof store, locator, 3), refused(5));
    same("withdrawing, no store", lomkhvide_is_loadable_withdrawing(one, 8, store, 15, locator, 3), refused(10));
    uint64_t places[9] = {7, 7, 7, 7, 7, 7, 7, 7, 7};
    same("withdrawing, too few places", lomkhvide_loadable_withdrawing(one, 8, store, sizeof store, places, 7), refused(58));
    same("withdrawing, the list", lomkhvide_loadable_withdrawing(one, 8, store, sizeof store, places, 9), 3);
    for (size_t i = 0; i < 9; i++) {
        same("withdrawing, a word", places[i], i < 6 ? listed[i] : 7);
    }
    /* in round 3 the owner rejects his program: that block does not certify it in the second reading, and those of rounds 1 and 2 do still; so
     * what was loadable stays so */
    uint8_t rejecting[256];
    memset(given, 0, sizeof given);
    given[0] = 2;
    memcpy(given + 1, program, 48);
    n = lomkhvide_write_record(0, 3, digest, 32, 0, tables, 48, given, 58, rejecting, sizeof rejecting);
    same("a reject is fed", lomkhvide_feed(one, 8, store, sizeof store, table, sizeof table, events, sizeof events, rejecting, n), 0);
    same("what was loadable stays so", lomkhvide_is_loadable_withdrawing(one, 8, store, sizeof store, locator, 56), 1);
    same("in the old reading too", lomkhvide_is_loadable(one, 8, store, sizeof store, locator, 56), 1);
}

/* A sole owner whose program is rejected in the block that shares it: by the old rule the program and the table that needs it are loadable, and where
 * an owner may withdraw neither is. */
static void loadable_withdrawn(void) {
    static uint8_t store[2048], table[LOMKHVIDE_TABLE_LEN], events[LOMKHVIDE_EVENTS_LEN];
    uint8_t one[8], first[56] = {0}, digest[32] = {0}, given[256] = {0}, program[256], tables[256], locator[56] = {0};
    put_word(one, 1);
    store[4] = 16;
    lomkhvide_feed(one, 8, store, sizeof store, table, sizeof table, events, sizeof events, first, 56);
    /* a share without bytes, and a reject of it: kind, author, round, digest, offset, and no other locator */
    given[5] = 2;
    given[5 + 1 + 8] = 1;
    uint64_t n = lomkhvide_write_record(0, 1, digest, 32, 0, first, 48, given, 5 + 58, program, sizeof program);
    same("a program and its reject are fed", lomkhvide_feed(one, 8, store, sizeof store, table, sizeof table, events, sizeof events, program, n), 0);
    memset(given, 0, sizeof given);
    given[1] = 57;
    given[5] = 1;
    memcpy(given + 6, program, 48);
    n = lomkhvide_write_record(0, 2, digest, 32, 0, program, 48, given, 62, tables, sizeof tables);
    same("a table is fed", lomkhvide_feed(one, 8, store, sizeof store, table, sizeof table, events, sizeof events, tables, n), 0);
    uint64_t places[4];
    memcpy(locator, tables, 48);
    same("a table by the old rule", lomkhvide_is_loadable(one, 8, store, sizeof store, locator, 56), 1);
    same("a table whose program is withdrawn", lomkhvide_is_loadable_withdrawing(one, 8, store, sizeof store, locator, 56), 0);
    memcpy(locator, program, 48);
    same("a program by the old rule", lomkhvide_is_loadable(one, 8, store, sizeof store, locator, 56), 1);
    same("a program withdrawn", lomkhvide_is_loadable_withdrawing(one, 8, store, sizeof store, locator, 56), 0);
    same("both by the old rule", lomkhvide_loadable(one, 8, store, sizeof store, places, 4), 2);
    same("neither where owners may withdraw", lomkhvide_loadable_withdrawing(one, 8, store, sizeof store, places, 4), 0);
}

/* ---- sorted lists */

/* The replies, and the words after them, which were 9. */
static void replied(const char *what, const uint64_t *index, size_t index_len, const uint8_t *locators, size_t n, size_t room, uint64_t want) {
    static const uint64_t right[12] = {1, 1, 0, 1, 1, 0, 0, 0, 0, 9, 9, 9};
    uint8_t one[8];
    put_word(one, 1);
    uint64_t *replies = malloc(8 * room + 8);
    for (size_t i = 0; i < room; i++) {
        replies[i] = 9;
    }
    same(what, lomkhvide_answer_sorted(one, 8, lent.store, 1024, index, index_len, locators, n, replies, room), want);
    for (size_t i = 0; i < room; i++) {
        same("a word of the replies", replies[i], want >> 63 == 0 && i < 3 * want ? right[i] : 9);
    }
    free(replies);
}

/* One owner, whose second block shares: it has itself for a voter. The list is that share, twice, and the offset after it. */
static void sorted_lists(void) {
    const size_t t = LOMKHVIDE_TABLE_LEN, v = LOMKHVIDE_EVENTS_LEN;
    uint8_t one[8], first[256], shares[256], locators[168], turned[168];
    put_word(one, 1);
    memset(&lent, 0, sizeof lent);
    lent.store[4] = 16;
    same("the first block", feed(one, 8, 1024, t, v, first, put_record(first, 0, 1, NULL, "")), 0);
    same("a share", feed(one, 8, 1024, t, v, shares, put_record(shares, 1, 2, first, "gain")), 0);
    kept = lent;
    uint64_t index[14] = {13, 0, 1, 0, 1, UINT64_C(2) << 24, 0, 0, 0, 0, 1, 1, 0, 5};
    memset(locators, 0, sizeof locators);
    for (size_t i = 0; i < 3; i++) {
        memcpy(locators + 56 * i, shares, 48);
    }
    locators[56 * 2 + 48] = 1;
    memcpy(turned, locators + 112, 56);
    memcpy(turned + 56, locators, 112);
    for (size_t n = 0; n <= 168; n++) {
        replied("a list of any length", index, 13, locators, n, 12, n % 56 == 0 ? n / 56 : refused(62));
    }
    for (size_t room = 0; room < 12; room++) {
        replied("replies of any length", index, 13, locators, 168, room, room < 9 ? refused(63) : 3);
        replied("62 before 63", index, 13, turned, 168, room, refused(62));
    }
    for (size_t words = 0; words <= 14; words++) {
        replied("an index of any length", index, words, locators, 168, 9, words < 13 ? refused(54) : 3);
        replied("54 before 62 and 63", index, words, turned, 167, 0, words < 13 ? refused(54) : refused(62));
    }
    for (size_t i = 0; i < 14; i++) {
        index[i]++;
        replied("a word of the index changed", index, 14, locators, 168, 9, i < 13 ? refused(54) : 3);
        index[i]--;
    }
    uint64_t replies[9];
    same("no committee", lomkhvide_answer_sorted(one, 7, lent.store, 15, index, 12, turned, 167, replies, 0), refused(5));
    for (size_t m = 0; m < 16; m++) {
        same("no store", lomkhvide_answer_sorted(one, 8, lent.store, m, index, 12, turned, 167, replies, 0), refused(10));
    }
    same("only read", memcmp(&lent, &kept, sizeof lent), 0);
}

int main(void) {
    sentences();
    loading();
    committees();
    quorums();
    adding();
    payloads();
    withdrawn();
    loadable_shares();
    loadable_withdrawn();
    feeding();
    many();
    indexing();
    many_indexed();
    ringing();
    ringing_voters();
    written_slips();
    sorted_lists();
    calendars();
    writing();
    times();
    slips();
    printf("%d passed, %d failed\n", passed, failed);
    return failed != 0;
}
