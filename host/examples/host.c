/* A small host in C, or in C++. Four owners of stake 1: owner 0 shares a change, owners 1 and 2 accept it, and the next round certifies it.
 * It feeds the records, asks whether the change is final, lists all that is, writes the slip for a station, reads it there, and asks the blast
 * calendar. lomkhvide.h says how to compile it. */
#include <inttypes.h>
#include <stdio.h>
#include <stdlib.h>
#include <string.h>

#include "lomkhvide.h"

#if LOMKHVIDE_CALLS != 2
#error "this host was written for another version of the calls"
#endif

enum { OWNERS = 4, MOST_RECORDS = 16 };

/* What the engine is lent belongs to the host. */
static uint8_t stakes[8 * OWNERS], store[65536], table[LOMKHVIDE_TABLE_LEN], events[LOMKHVIDE_EVENTS_LEN];

/* The records that were fed, each after its length of 4 bytes, as a station is sent them. */
static uint8_t records[16384];
static size_t records_len;

/* The reference of each record, as an include and a locator hold it. */
static uint8_t references[MOST_RECORDS][LOMKHVIDE_REFERENCE_LEN];
static size_t fed;

/* A call's answer; a refusal ends the program with its sentence. */
static uint64_t answered(const char *what, uint64_t word) {
    if (LOMKHVIDE_IS_REFUSED(word)) {
        const char *sentence = lomkhvide_sentence(word);
        fprintf(stderr, "%s: refused %" PRIu64 ", %s\n", what, LOMKHVIDE_REFUSAL(word), sentence != NULL ? sentence : "unknown");
        exit(1);
    }
    return word;
}

static void put_word(uint8_t *to, uint64_t word) {
    for (int i = 0; i < 8; i++) {
        to[i] = (uint8_t)(word >> (8 * i));
    }
}

static uint64_t word_at(const uint8_t *from) {
    uint64_t word = 0;
    for (int i = 0; i < 8; i++) {
        word |= (uint64_t)from[i] << (8 * i);
    }
    return word;
}

/* Writes a record that includes `count` records from the first one on, and feeds it. Its digest is its number: a digest is taken as given. */
static void feed(uint64_t author, uint64_t round, size_t first, size_t count, const uint8_t *statements, size_t statements_len) {
    uint8_t digest[32] = {0}, *record = records + records_len + 4;
    digest[3] = (uint8_t)(fed + 1);
    uint64_t length = answered("write_record", lomkhvide_write_record(author, round, digest, sizeof digest, 0, references[first],
                                                                      count * LOMKHVIDE_REFERENCE_LEN, statements, statements_len, record,
                                                                      sizeof records - records_len - 4));
    for (int i = 0; i < 4; i++) {
        record[i - 4] = (uint8_t)(length >> (8 * i));
    }
    uint64_t told = answered("feed", lomkhvide_feed(stakes, sizeof stakes, store, sizeof store, table, sizeof table, events, sizeof events,
                                                    record, (size_t)length));
    for (uint64_t i = 0; i < told; i++) {
        const char *const kinds[] = {"processed", "late", "unknown"};
        const uint8_t *event = events + 24 * i;
        printf("record %zu: %s, statement %" PRIu64 ", offset %" PRIu64 "\n", fed + 1, kinds[word_at(event) - 1], word_at(event + 8),
               word_at(event + 16));
    }
    memcpy(references[fed], record, LOMKHVIDE_REFERENCE_LEN);
    records_len += 4 + (size_t)length;
    fed++;
}

/* The course run: records 1 to 4 of round 0, 5 to 7 of round 1, 8 to 10 of round 2, 11 to 13 of round 3. */
static void feed_all(uint8_t *change) {
    const uint8_t share[] = {0, 4, 0, 0, 0, 'g', 'a', 'i', 'n'};
    uint8_t accept[1 + LOMKHVIDE_LOCATOR_LEN] = {1};
    for (uint64_t owner = 0; owner < OWNERS; owner++) {
        feed(owner, 0, 0, 0, share, 0);
    }
    for (uint64_t owner = 0; owner < 3; owner++) {
        feed(owner, 1, 0, 3, share, owner == 0 ? sizeof share : 0);
    }
    /* a locator is the reference of the block and the offset in it: here record 5 and 0 */
    memcpy(change, references[4], LOMKHVIDE_REFERENCE_LEN);
    put_word(change + LOMKHVIDE_REFERENCE_LEN, 0);
    memcpy(accept + 1, change, LOMKHVIDE_LOCATOR_LEN);
    for (uint64_t owner = 0; owner < 3; owner++) {
        feed(owner, 2, 4, 3, accept, owner == 0 ? 0 : sizeof accept);
    }
    for (uint64_t owner = 0; owner < 3; owner++) {
        feed(owner, 3, 7, 3, accept, 0);
    }
}

static void ask(const uint8_t *change) {
    static uint8_t positions[LOMKHVIDE_POSITIONS_LEN];
    uint64_t told = answered("finality", lomkhvide_finality(stakes, sizeof stakes, store, sizeof store, positions, sizeof positions, change,
                                                            LOMKHVIDE_LOCATOR_LEN));
    printf("the change is %s: %" PRIu64 " blocks certify it\n", told % 2 == 1 ? "final" : "not final", told / 2);
    uint64_t start = answered("payload_start", lomkhvide_payload_start(stakes, sizeof stakes, store, sizeof store, change, LOMKHVIDE_LOCATOR_LEN));
    uint64_t length = answered("payload_length", lomkhvide_payload_length(stakes, sizeof stakes, store, sizeof store, change, LOMKHVIDE_LOCATOR_LEN));
    printf("its payload: %.*s\n", (int)length, (const char *)(store + start));
}

/* The list, asked on after the last locator of the last stretch until no more follow. At first there is none: `after` has no bytes. */
static void list(void) {
    static uint8_t stretches[16 * LOMKHVIDE_STRETCH_LEN];
    uint8_t after[LOMKHVIDE_LOCATOR_LEN];
    size_t after_len = 0;
    uint64_t told;
    do {
        told = answered("final_stretches", lomkhvide_final_stretches(stakes, sizeof stakes, store, sizeof store, after, after_len, stretches,
                                                                    sizeof stretches));
        for (uint64_t i = 0; i < told / 2; i++) {
            const uint8_t *stretch = stretches + LOMKHVIDE_STRETCH_LEN * i, *digest = stretch + 16;
            printf("final: %" PRIu64 "/%" PRIu64 "/%02x%02x%02x%02x/%" PRIu64 " to %" PRIu64 ", by %" PRIu64 " blocks, stake %" PRIu64 "\n",
                   word_at(stretch + 8), word_at(stretch), digest[0], digest[1], digest[2], digest[3], word_at(stretch + 48),
                   word_at(stretch + 56), word_at(stretch + 64), word_at(stretch + 72));
            memcpy(after, stretch, LOMKHVIDE_REFERENCE_LEN);
            put_word(after + LOMKHVIDE_REFERENCE_LEN, word_at(stretch + 56) - 1);
            after_len = sizeof after;
        }
    } while (told % 2 == 1);
}

/* The node writes the slip; the station reads it with the records alone. */
static void slip(const uint8_t *change) {
    uint8_t written[4096];
    uint64_t length = answered("write_slip", lomkhvide_write_slip(stakes, sizeof stakes, store, sizeof store, change, LOMKHVIDE_LOCATOR_LEN,
                                                                  written, sizeof written));
    uint64_t blocks = answered("read_slip", lomkhvide_read_slip(stakes, sizeof stakes, written, (size_t)length, records, records_len));
    printf("a slip of %" PRIu64 " bytes, read with %zu records: %" PRIu64 " blocks certify\n", length, fed, blocks);
}

/* Nothing may be loaded on Mondays from 10:00 to 10:30; this Monday is 5 January 1970. */
static void calendar(void) {
    const uint64_t monday = 345600;
    uint8_t windows[16], found[8];
    put_word(windows, 36000);
    put_word(windows + 8, 37800);
    uint64_t open = answered("is_open", lomkhvide_is_open(windows, sizeof windows, monday + 36000));
    answered("next_open", lomkhvide_next_open(windows, sizeof windows, monday + 36000, found, sizeof found));
    printf("on Monday at 10:00 loading is %s, and open %" PRIu64 " minutes later\n", open == 1 ? "open" : "closed",
           (word_at(found) - monday - 36000) / 60);
}

int main(void) {
    uint8_t change[LOMKHVIDE_LOCATOR_LEN];
    for (size_t i = 0; i < OWNERS; i++) {
        put_word(stakes + 8 * i, 1);
    }
    printf("a committee of stake %" PRIu64 "\n", answered("new_committee", lomkhvide_new_committee(stakes, sizeof stakes)));
    store[4] = 16;
    feed_all(change);
    ask(change);
    list();
    slip(change);
    calendar();
    return 0;
}
