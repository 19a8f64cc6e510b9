/* How much stack calls need: each runs on a stack of its own, which is filled beforehand, and is held to the table of lomkhvide.h, of which
 * every call must be tried. The last line is "N passed, M failed". */
#define _XOPEN_SOURCE 700
#include <stdio.h>
#include <stdlib.h>
#include <string.h>
#include <ucontext.h>

#include "lomkhvide.h"

static uint8_t stack[1 << 20];
static ucontext_t outside, inside;
static void (*run)(void);

static void enter(void) {
    run();
}

/* The bytes of stack that a call changes, with those of the frame that calls it. */
static size_t stack_of(void (*call)(void)) {
    memset(stack, 0xa5, sizeof stack);
    run = call;
    if (getcontext(&inside) != 0) {
        exit(2);
    }
    inside.uc_stack.ss_sp = stack;
    inside.uc_stack.ss_size = sizeof stack;
    inside.uc_link = &outside;
    makecontext(&inside, enter, 0);
    if (swapcontext(&outside, &inside) != 0) {
        exit(2);
    }
    size_t untouched = 0;
    while (untouched < sizeof stack && stack[untouched] == 0xa5) {
        untouched++;
    }
    return sizeof stack - untouched;
}

static uint8_t calendar[1024], found[8];
static uint64_t answer;

/* Two committees of 128: the second has a stake of zero at its end. */
static uint8_t members[1024], zero_last[1024], aggregator[LOMKHVIDE_AGGREGATOR_LEN];

static void new_committee(void) {
    answer = lomkhvide_new_committee(members, sizeof members);
}

static void new_committee_refused(void) {
    answer = lomkhvide_new_committee(zero_last, sizeof zero_last);
}

static void is_quorum(void) {
    answer = lomkhvide_is_quorum(17, 12);
}

static void is_valid(void) {
    answer = lomkhvide_is_valid(17, 6);
}

static void add(void) {
    answer = lomkhvide_add(members, sizeof members, aggregator, sizeof aggregator, 127);
}

static void is_open(void) {
    answer = lomkhvide_is_open(calendar, sizeof calendar, 345600);
}

static void next_open(void) {
    answer = lomkhvide_next_open(calendar, sizeof calendar, 345600, found, sizeof found);
}

/* One member: "k", stake 1. */
static const uint8_t file[28] = {[0] = 1, [4] = 'k', [20] = 1};
static uint8_t stakes[LOMKHVIDE_STAKES_LEN];

static void load_stakes(void) {
    answer = lomkhvide_load_stakes(file, sizeof file, stakes, sizeof stakes);
}

/* 128 owners, of whom the first shares and all can be reached: most passes over the committee */
static uint8_t owners[1024], store[65536], table[LOMKHVIDE_TABLE_LEN], events[LOMKHVIDE_EVENTS_LEN], locator[56], ring[LOMKHVIDE_RING_LEN];

static void whom_to_ring(void) {
    answer = lomkhvide_whom_to_ring(owners, sizeof owners, store, sizeof store, table, sizeof table, UINT64_MAX, UINT64_MAX, locator,
                                    sizeof locator, ring, sizeof ring);
}

static void fewest_owners(void) {
    answer = lomkhvide_fewest_owners(owners, sizeof owners, 1, 0, UINT64_MAX, UINT64_MAX, ring, sizeof ring);
}

/* Feeds a block of each owner and one of round 1 that includes them all and shares. */
static void share(void) {
    static uint8_t record[8192];
    store[4] = 16;
    size_t n = 56;
    for (size_t i = 0; i < 128; i++) {
        owners[8 * i] = 1;
        memset(record + n, 0, 48);
        record[n] = (uint8_t)i;
        n += 48;
    }
    for (size_t i = 0; i < 128; i++) {
        uint8_t first[56] = {(uint8_t)i};
        lomkhvide_feed(owners, sizeof owners, store, sizeof store, table, sizeof table, events, sizeof events, first, sizeof first);
    }
    record[8] = 1;
    record[49] = 128;
    record[51] = 1;
    memcpy(record + n, "\0\1\0g", 4);
    lomkhvide_feed(owners, sizeof owners, store, sizeof store, table, sizeof table, events, sizeof events, record, n + 4);
    locator[8] = 1;
}

static uint8_t out[128];

static void write_record(void) {
    answer = lomkhvide_write_record(0, 0, owners, 32, 0, owners, 0, owners, 0, out, sizeof out);
}

static void write_timed_record(void) {
    answer = lomkhvide_write_timed_record(0, 0, owners, 32, 0, 5, owners, 0, owners, 0, out, sizeof out);
}

static void pending_stake(void) {
    answer = lomkhvide_pending_stake(owners, sizeof owners, store, sizeof store, table, sizeof table, locator, sizeof locator);
}

static void pending_voters(void) {
    answer = lomkhvide_pending_voters(owners, sizeof owners, store, sizeof store, table, sizeof table, locator, sizeof locator);
}

static void payload_length(void) {
    answer = lomkhvide_payload_length(owners, sizeof owners, store, sizeof store, locator, sizeof locator);
}

static void payload_start(void) {
    answer = lomkhvide_payload_start(owners, sizeof owners, store, sizeof store, locator, sizeof locator);
}

static void creation_time(void) {
    answer = lomkhvide_creation_time(owners, sizeof owners, store, sizeof store, locator, 48, found, sizeof found);
}

/* The stack of the slip's reader does not depend on what it reads, but on how deep it goes: into a vote's record. */
static const uint8_t owner[8] = {1};
static uint8_t slip[118], supplied[4 + 56 + 48 + 4];

static void read_slip(void) {
    answer = lomkhvide_read_slip(owner, sizeof owner, slip, sizeof slip, supplied, sizeof supplied);
}

/* A block of round 1 that shares, and the slip in which it certifies its own share. */
static void certify(void) {
    uint8_t *record = supplied + 4;
    supplied[0] = sizeof supplied - 4;
    record[8] = 1;
    record[49] = 1;
    record[51] = 1;
    memcpy(record + 56 + 48, "\0\1\0g", 4);
    slip[9] = 1;
    slip[57] = 1;
    slip[59 + 8] = 1;
    slip[59 + 48] = 1;
}

/* a sole owner's share, which is final: the frames of the slip's writer do not depend on what is stored */
static uint8_t written[256];

static void write_slip(void) {
    answer = lomkhvide_write_slip(owners, 8, store, sizeof store, locator, sizeof locator, written, sizeof written);
}

static void write_slip_withdrawing(void) {
    answer = lomkhvide_write_slip_withdrawing(owners, 8, store, sizeof store, locator, sizeof locator, written, sizeof written);
}

static void share_alone(void) {
    static uint8_t first[56], record[108] = {[8] = 1, [49] = 1, [51] = 1, [105] = 1, [107] = 'g'};
    memset(store, 0, sizeof store);
    memset(table, 0, sizeof table);
    memset(locator, 0, sizeof locator);
    store[4] = 16;
    locator[8] = 1;
    lomkhvide_feed(owners, 8, store, sizeof store, table, sizeof table, events, sizeof events, first, sizeof first);
    lomkhvide_feed(owners, 8, store, sizeof store, table, sizeof table, events, sizeof events, record, sizeof record);
}

/* A sole owner's blocks, each of them including the one before, as many as a store may hold: the deepest ancestry */
static uint8_t chain[1 << 17], positions[LOMKHVIDE_POSITIONS_LEN], one[8] = {1}, shared[56];

static void finality(void) {
    answer = lomkhvide_finality(one, sizeof one, chain, sizeof chain, positions, sizeof positions, shared, sizeof shared);
}

static void finality_withdrawing(void) {
    answer = lomkhvide_finality_withdrawing(one, sizeof one, chain, sizeof chain, positions, sizeof positions, shared, sizeof shared);
}

static uint64_t places[2];

static void is_loadable(void) {
    answer = lomkhvide_is_loadable(one, sizeof one, chain, sizeof chain, shared, sizeof shared);
}

static void is_loadable_withdrawing(void) {
    answer = lomkhvide_is_loadable_withdrawing(one, sizeof one, chain, sizeof chain, shared, sizeof shared);
}

/* The same blocks, and above them one with a share that needs the lowest share: yes or no goes along the list. */
static uint8_t needing[1 << 17], top[56];

static void is_loadable_chain(void) {
    answer = lomkhvide_is_loadable(one, sizeof one, needing, sizeof needing, top, sizeof top);
}

static void is_loadable_withdrawing_chain(void) {
    answer = lomkhvide_is_loadable_withdrawing(one, sizeof one, needing, sizeof needing, top, sizeof top);
}

static void loadable(void) {
    answer = lomkhvide_loadable(one, sizeof one, chain, sizeof chain, places, 2);
}

static void loadable_withdrawing(void) {
    answer = lomkhvide_loadable_withdrawing(one, sizeof one, chain, sizeof chain, places, 2);
}

static uint8_t next[56], stretches[128 * LOMKHVIDE_STRETCH_LEN];

static void next_final(void) {
    answer = lomkhvide_next_final(one, sizeof one, chain, sizeof chain, next, 0, next, sizeof next);
}

static void next_wide(void) {
    answer = lomkhvide_next_wide(one, sizeof one, chain, sizeof chain, next, 0, next, sizeof next);
}

static void final_stretches(void) {
    answer = lomkhvide_final_stretches(one, sizeof one, chain, sizeof chain, next, 0, stretches, sizeof stretches);
}

static void wide_stretches(void) {
    answer = lomkhvide_wide_stretches(one, sizeof one, chain, sizeof chain, next, 0, stretches, sizeof stretches);
}

/* The last of these blocks is fed here, with the index of all before it: a whole feed. It votes for the share, so that an item leaves. */
static uint64_t voters[12 * 1024];
static uint8_t last[161];

static void feed(void) {
    static uint8_t other[sizeof chain], pending[sizeof table];
    memcpy(other, chain, sizeof other);
    memcpy(pending, table, sizeof pending);
    answer = lomkhvide_feed(one, sizeof one, other, sizeof other, pending, sizeof pending, events, sizeof events, last, sizeof last);
}

static void feed_indexed(void) {
    answer = lomkhvide_feed_indexed(one, sizeof one, chain, sizeof chain, table, sizeof table, voters, sizeof voters / 8, events, sizeof events, last, sizeof last);
}

/* All of them in one call, and the last one with its vote. */
static uint8_t framed[1024 * 112 + 165];
static uint64_t told[1025], all_events[3];
static size_t framed_len;

static void frame(const uint8_t *record, size_t n) {
    framed[framed_len] = (uint8_t)n;
    memcpy(framed + framed_len + 4, record, n);
    framed_len += 4 + n;
}

static void feed_records(void) {
    static uint8_t other[sizeof chain], pending[sizeof table];
    other[4] = 16;
    answer = lomkhvide_feed_records(one, sizeof one, other, sizeof other, pending, sizeof pending, all_events, 3, told, 1025, framed, framed_len);
}

static void feed_records_indexed(void) {
    static uint8_t other[sizeof chain], pending[sizeof table];
    static uint64_t index[12 * 1024];
    other[4] = 16;
    index[0] = 1;
    answer = lomkhvide_feed_records_indexed(one, sizeof one, other, sizeof other, pending, sizeof pending, index, sizeof index / 8, all_events, 3,
                                            told, 1025, framed, framed_len);
}

static void final_stretches_indexed(void) {
    answer = lomkhvide_final_stretches_indexed(one, sizeof one, chain, sizeof chain, voters, sizeof voters / 8, next, 0, stretches, sizeof stretches);
}

static void wide_stretches_indexed(void) {
    answer = lomkhvide_wide_stretches_indexed(one, sizeof one, chain, sizeof chain, voters, sizeof voters / 8, next, 0, stretches, sizeof stretches);
}

static void next_final_withdrawing(void) {
    answer = lomkhvide_next_final_withdrawing(one, sizeof one, chain, sizeof chain, next, 0, next, sizeof next);
}

static void next_wide_withdrawing(void) {
    answer = lomkhvide_next_wide_withdrawing(one, sizeof one, chain, sizeof chain, next, 0, next, sizeof next);
}

static void final_stretches_withdrawing(void) {
    answer = lomkhvide_final_stretches_withdrawing(one, sizeof one, chain, sizeof chain, next, 0, stretches, sizeof stretches);
}

static void wide_stretches_withdrawing(void) {
    answer = lomkhvide_wide_stretches_withdrawing(one, sizeof one, chain, sizeof chain, next, 0, stretches, sizeof stretches);
}

static void grow(void) {
    uint8_t record[108] = {0};
    chain[4] = 16;
    voters[0] = 1;
    memset(table, 0, sizeof table);
    for (size_t round = 0; round < 1024; round++) {
        record[8] = (uint8_t)round;
        record[9] = (uint8_t)(round >> 8);
        record[49] = round > 0;
        record[51] = round == 1;
        memcpy(record + 104, "\0\1\0g", 4);
        size_t n = round == 0 ? 56 : round == 1 ? 108 : 104;
        if (round < 1023) {
            frame(record, n);
            lomkhvide_feed_indexed(one, sizeof one, chain, sizeof chain, table, sizeof table, voters, sizeof voters / 8, events, sizeof events, record, n);
            memcpy(record + 56, record, 48);
        }
    }
    memcpy(last, record, 104);
    last[51] = 1;
    last[104] = 1;
    shared[8] = 1;
    memcpy(last + 105, shared, sizeof shared);
    frame(last, sizeof last);
}

/* Before the table and the store of `grow` change: the block of the last round with a share that needs the one of round 1. */
static void need(void) {
    static uint8_t kept[LOMKHVIDE_TABLE_LEN];
    uint8_t record[104 + 3 + 57] = {0};
    memcpy(needing, chain, sizeof needing);
    memcpy(kept, table, sizeof kept);
    memcpy(record, last, 104);
    record[51] = 1;
    record[105] = 57;
    record[107] = 1;
    memcpy(record + 108, shared, 56);
    memcpy(top, record, 48);
    lomkhvide_feed(one, sizeof one, needing, sizeof needing, kept, sizeof kept, events, sizeof events, record, sizeof record);
}

/* The list is the share of the first owner, over the blocks that `share` fed: an empty part for each of round 0, and one run. */
static uint64_t kept_index[140] = {140, [129] = 1, [131] = 1, [137] = 1, [138] = 1}, replies[3];

static void answer_sorted(void) {
    answer = lomkhvide_answer_sorted(owners, sizeof owners, store, sizeof store, kept_index, 140, locator, sizeof locator, replies, 3);
}

/* The table of lomkhvide.h, and whether each of its calls was tried. */
#define ROW(name, kb) {#name, (size_t)1024 * kb, 0},
static struct {
    const char *name;
    size_t most;
    int tried;
} rows[] = {LOMKHVIDE_STACKS(ROW)};

static int passed, failed;

static void tell(int good, const char *what, const char *why) {
    passed += good;
    failed += !good;
    if (!good) {
        printf("%s: %s\n", what, why);
    }
}

static void at_most(const char *name, void (*call)(void), uint64_t want) {
    for (size_t i = 0; i < sizeof rows / sizeof *rows; i++) {
        if (strcmp(rows[i].name, name) == 0) {
            size_t used = stack_of(call);
            printf("%s: %zu bytes of stack, at most %zu\n", name, used, rows[i].most);
            rows[i].tried = 1;
            tell(answer == want && used <= rows[i].most && rows[i].most <= LOMKHVIDE_STACK, name, "too much, or another answer");
            return;
        }
    }
    tell(0, name, "not in the table");
}

#define AT_MOST(name, want) at_most(#name, name, want)

static uint64_t refused(uint64_t number) {
    return (UINT64_C(1) << 63) + number;
}

/* What needs no store. */
static void without_a_store(void) {
    /* 64 windows that touch, from the week's first second on */
    for (size_t i = 0; i < 128; i++) {
        size_t edge = 9000 * ((i + 1) / 2);
        calendar[8 * i] = (uint8_t)edge;
        calendar[8 * i + 1] = (uint8_t)(edge >> 8);
        calendar[8 * i + 2] = (uint8_t)(edge >> 16);
        members[8 * i] = 1;
        zero_last[8 * i] = i < 127;
    }
    AT_MOST(is_open, 0);
    AT_MOST(next_open, 1);
    AT_MOST(load_stakes, 1);
    AT_MOST(new_committee, 128);
    at_most("new_committee", new_committee_refused, refused(2));
    AT_MOST(is_quorum, 1);
    AT_MOST(is_valid, 1);
    AT_MOST(add, LOMKHVIDE_NEW_BELOW);
    AT_MOST(write_record, 56);
    AT_MOST(write_timed_record, 72);
    certify();
    AT_MOST(read_slip, 1);
    slip[0] = 1;
    AT_MOST(read_slip, refused(53));
}

int main(void) {
    without_a_store();
    share();
    AT_MOST(whom_to_ring, 85);
    AT_MOST(fewest_owners, 85);
    AT_MOST(pending_stake, 1);
    AT_MOST(pending_voters, 1);
    AT_MOST(payload_length, 1);
    AT_MOST(payload_start, 16 + 128 * 64 + 8 + 56 + 128 * 48 + 3);
    AT_MOST(answer_sorted, 1);
    AT_MOST(creation_time, 0);
    share_alone();
    AT_MOST(write_slip, 118);
    AT_MOST(write_slip_withdrawing, 118);
    grow();
    need();
    AT_MOST(feed, 1);
    AT_MOST(feed_records, 1024);
    AT_MOST(feed_records_indexed, 1024);
    AT_MOST(feed_indexed, 1);
    AT_MOST(finality, 2 * 1023 + 1);
    AT_MOST(finality_withdrawing, 2 * 1023 + 1);
    AT_MOST(is_loadable, 1);
    at_most("is_loadable", is_loadable_chain, 1);
    AT_MOST(loadable, 1);
    AT_MOST(is_loadable_withdrawing, 1);
    at_most("is_loadable_withdrawing", is_loadable_withdrawing_chain, 1);
    AT_MOST(loadable_withdrawing, 1);
    AT_MOST(next_final, 1);
    AT_MOST(next_wide, 1);
    AT_MOST(final_stretches, 2);
    AT_MOST(wide_stretches, 2);
    AT_MOST(final_stretches_indexed, 2);
    AT_MOST(wide_stretches_indexed, 2);
    AT_MOST(next_final_withdrawing, 1);
    AT_MOST(next_wide_withdrawing, 1);
    AT_MOST(final_stretches_withdrawing, 2);
    AT_MOST(wide_stretches_withdrawing, 2);
    for (size_t i = 0; i < sizeof rows / sizeof *rows; i++) {
        tell(rows[i].tried, rows[i].name, "not tried");
    }
    printf("%d passed, %d failed\n", passed, failed);
    return failed != 0;
}
