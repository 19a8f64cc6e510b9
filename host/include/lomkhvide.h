/* The engine's calls for a host in C or C++. host/examples/host.c is a small one:
 *
 *     host/archive
 *     cc -std=c11 -Ihost/include host/examples/host.c target/staticlib/libhost.a -o target/example
 *     c++ -std=c++11 -Ihost/include -x c++ host/examples/host.c -x none target/staticlib/libhost.a -o target/example
 *
 * A slice is lent as a pointer and a length in bytes; one of words (uint64_t, aligned) as a pointer and the number of words. A pointer may
 * be anything but null, also where the length is 0. No two slices of one call may overlap where one of them is not const.
 *
 * Nothing is kept between calls: a call works on what it is lent and on its stack, and the archive has no memory of its own. So calls may be
 * made from several threads at once; a slice that a call writes must not be lent to another one meanwhile, and slices that are only read may be.
 *
 * Words and stakes are 8 bytes each, lowest byte first.
 *
 * Every call answers one word: below 2^63 it is the answer, and 2^63 + n is refusal n. A refused call changes nothing.
 */
#ifndef LOMKHVIDE_H
#define LOMKHVIDE_H

#include <stddef.h>
#include <stdint.h>

#ifdef __cplusplus
extern "C" {
#endif

/* The version of these calls. It is raised where bytes or numbers of a call change that was there before, not where a call is added; a host
 * that was written for one version says #if LOMKHVIDE_CALLS != 2, #error.
 * 2: a stretch begins with its first locator as it is everywhere, and a list is lent room for any number of stretches. */
#define LOMKHVIDE_CALLS 2

/* The most stack that each call needs, in KB of 1,024 bytes: LOMKHVIDE_STACKS(X) is X(name without lomkhvide_, KB) for each, and
 * LOMKHVIDE_STACK is enough for every call, in bytes. A thread that calls needs as much beside what it uses itself. */
#define LOMKHVIDE_STACK ((size_t)524288)
#define LOMKHVIDE_STACKS(X) \
    X(new_committee, 2) \
    X(load_stakes, 32) \
    X(is_quorum, 1) \
    X(is_valid, 1) \
    X(add, 2) \
    X(feed, 256) \
    X(feed_records, 128) \
    X(feed_indexed, 320) \
    X(feed_records_indexed, 256) \
    X(pending_stake, 96) \
    X(pending_voters, 96) \
    X(whom_to_ring, 96) \
    X(fewest_owners, 4) \
    X(finality, 96) \
    X(finality_withdrawing, 96) \
    X(next_final, 496) \
    X(next_wide, 496) \
    X(next_final_withdrawing, 496) \
    X(next_wide_withdrawing, 496) \
    X(final_stretches, 496) \
    X(wide_stretches, 496) \
    X(final_stretches_withdrawing, 496) \
    X(wide_stretches_withdrawing, 496) \
    X(final_stretches_indexed, 496) \
    X(wide_stretches_indexed, 496) \
    X(answer_sorted, 160) \
    X(payload_length, 32) \
    X(payload_start, 32) \
    X(is_loadable, 496) \
    X(loadable, 496) \
    X(is_loadable_withdrawing, 496) \
    X(loadable_withdrawing, 496) \
    X(write_slip, 480) \
    X(write_slip_withdrawing, 480) \
    X(read_slip, 32) \
    X(write_record, 2) \
    X(write_timed_record, 2) \
    X(creation_time, 24) \
    X(is_open, 2) \
    X(next_open, 2)

/* Whether a call's word is a refusal, and its number. */
#define LOMKHVIDE_IS_REFUSED(word) ((uint64_t)(word) >> 63 != 0)
#define LOMKHVIDE_REFUSAL(word) ((uint64_t)(word) & UINT64_C(0x7fffffffffffffff))

/* Every refusal, with a sentence for people: LOMKHVIDE_REFUSALS(X) is X(number, sentence) for each. */
#define LOMKHVIDE_REFUSALS(X) \
    X(1, "the committee has no stakes") \
    X(2, "a stake of the committee is zero") \
    X(3, "the committee has more than 128 members") \
    X(4, "the total stake is over 2^63 - 1") \
    X(5, "the stakes are no committee") \
    X(6, "the aggregator has unknown voters, or a stake that is not their sum") \
    X(10, "the store is not in order") \
    X(11, "the pending table is not in order") \
    X(12, "the work slice is shorter than the pending table") \
    X(13, "the store is full") \
    X(14, "the pending table is full") \
    X(15, "the slice for events is too short") \
    X(20, "the record, locator or reference is malformed") \
    X(21, "the author is not in the committee") \
    X(22, "a block of round 0 has includes or statements") \
    X(23, "a block of that reference is stored already") \
    X(24, "the author of an include is not in the committee") \
    X(25, "the round of an include is not lower than the block's") \
    X(26, "the end of a range is below its start") \
    X(27, "the end of a range is 1,048,576 or more") \
    X(28, "the offset of an accept is 2^64 - 1") \
    X(29, "the authors of the includes of the round before do not hold quorum") \
    X(30, "an include is not stored") \
    X(40, "a slice for the answer has another length than the call asks for") \
    X(41, "no such share is stored") \
    X(42, "the locator is not pending") \
    X(50, "the slice to be written is too short") \
    X(51, "no record has that form") \
    X(52, "the slip does not hold or is of another form, or none can be written since the locator is not final") \
    X(53, "a record that the slip names is missing") \
    X(54, "the index disagrees with the store") \
    X(55, "the index is too short for the block's part") \
    X(56, "the file of stakes is broken") \
    X(57, "a name in the file of stakes is bad or comes twice") \
    X(58, "the slice for the list has fewer places than there are stored shares") \
    X(59, "the blast calendar has too many windows, or one that is empty, overlaps, or is out of order or range") \
    X(60, "all who can be reached miss quorum together with the voters") \
    X(61, "the first byte of the slip names no reading") \
    X(62, "the locators are not sorted, or not whole") \
    X(63, "the slice for replies is too short") \
    X(64, "the slice for outcomes has fewer words than there are records")

/* The sentence of a call's word; NULL where the word is an answer, or a number that is not listed. */
static inline const char *lomkhvide_sentence(uint64_t word) {
#define LOMKHVIDE_CASE(number, sentence) \
    case number: \
        return sentence;
    switch (LOMKHVIDE_IS_REFUSED(word) ? LOMKHVIDE_REFUSAL(word) : 0) {
        LOMKHVIDE_REFUSALS(LOMKHVIDE_CASE)
    default:
        return NULL;
    }
#undef LOMKHVIDE_CASE
}

/* Sets a committee, given by its stakes in order of authority number: the total stake.
 * Refused: 1 no stakes, 2 a stake of zero, 3 more than 128, 4 a total over 2^63 - 1, 5 bytes that are not whole words. */
uint64_t lomkhvide_new_committee(const uint8_t *stakes, size_t stakes_len);

/* Whether an amount of stake is quorum of a total (3 * amount > 2 * total), and whether it is valid (3 * amount > total): 1 or 0, of any
 * two words. */
uint64_t lomkhvide_is_quorum(uint64_t total, uint64_t amount);
uint64_t lomkhvide_is_valid(uint64_t total, uint64_t amount);

/* Puts a voter into an aggregator of three words: the voters' bits, 0 to 63 and 64 to 127, and their stake. What the vote did: the
 * voter had voted, and quorum does not hold or holds; a new vote, and quorum does not hold, held before, or was crossed by this vote.
 * Refused: 5 stakes that are no committee or not whole words, 6 an aggregator not of three words, with voters that are not all known,
 * or with a stake that is not their sum, 21 a voter who is not known. */
#define LOMKHVIDE_AGGREGATOR_LEN ((size_t)24)
#define LOMKHVIDE_REPEATED_BELOW ((uint64_t)0)
#define LOMKHVIDE_REPEATED_WITH ((uint64_t)1)
#define LOMKHVIDE_NEW_BELOW ((uint64_t)2)
#define LOMKHVIDE_NEW_WITH ((uint64_t)3)
#define LOMKHVIDE_NEW_CROSSED ((uint64_t)4)
uint64_t lomkhvide_add(const uint8_t *stakes, size_t stakes_len, uint8_t *aggregator, size_t aggregator_len, uint64_t voter);

/* A store is lent whole: 16 to 2^32 - 1 bytes. A fresh one has 16 at byte 4 (four bytes, lowest first) and zeros elsewhere in its
 * first 16 bytes.
 *
 * A locator is the 56 bytes that it has in a record: author 8, round 8, digest 32, offset 8.
 *
 * Each question below is refused, in this order: 5 stakes that are no committee or not whole words; 10 a store not in order;
 * 20 a locator not of 56 bytes; then its own number. */
#define LOMKHVIDE_LOCATOR_LEN ((size_t)56)

/* Whether a locator is final: 2 * number of certifying blocks, and 1 more where it is. The positions of these blocks in the store,
 * one word each, are written to the front in ascending order of reference; the bytes after them keep their content.
 * Refused last: 40 positions not of 1,024 words. */
#define LOMKHVIDE_POSITIONS_LEN ((size_t)8192)
uint64_t lomkhvide_finality(const uint8_t *stakes, size_t stakes_len, const uint8_t *store, size_t store_len, uint8_t *positions,
                            size_t positions_len, const uint8_t *locator, size_t locator_len);

/* The same in the reading in which an owner may withdraw: in the ancestry of a block, a reject by an owner for a locator (its first)
 * cancels that owner's share, accepts and ranges for it, for that block. With no rejects in the store both readings answer the same. */
uint64_t lomkhvide_finality_withdrawing(const uint8_t *stakes, size_t stakes_len, const uint8_t *store, size_t store_len,
                                        uint8_t *positions, size_t positions_len, const uint8_t *locator, size_t locator_len);

/* The ordinary list has the final locators that name a stored share, the wide list every final locator, also one that a mistyped vote
 * names and for which there is no payload.
 *
 * The least locator of the ordinary list after a given one, or from the start where `after` has no bytes: 1, and the locator is written to
 * `found`; or 0 where none is left. Asked on after the locator that it found, until 0, it gives the list in ascending order.
 * Refused last: 40 `found` not of 56 bytes. */
uint64_t lomkhvide_next_final(const uint8_t *stakes, size_t stakes_len, const uint8_t *store, size_t store_len, const uint8_t *after,
                              size_t after_len, uint8_t *found, size_t found_len);

/* The same of the wide list. */
uint64_t lomkhvide_next_wide(const uint8_t *stakes, size_t stakes_len, const uint8_t *store, size_t store_len, const uint8_t *after,
                             size_t after_len, uint8_t *found, size_t found_len);

/* Both in the reading in which an owner may withdraw. */
uint64_t lomkhvide_next_final_withdrawing(const uint8_t *stakes, size_t stakes_len, const uint8_t *store, size_t store_len,
                                          const uint8_t *after, size_t after_len, uint8_t *found, size_t found_len);
uint64_t lomkhvide_next_wide_withdrawing(const uint8_t *stakes, size_t stakes_len, const uint8_t *store, size_t store_len,
                                         const uint8_t *after, size_t after_len, uint8_t *found, size_t found_len);

/* The ordinary list after a given locator, or from the start where `after` has no bytes, in stretches of neighbouring locators of one
 * block that have the same certifying blocks, each as long as can be: 2 * number of stretches, as many as the slice holds, and 1 more where
 * locators of the list follow them. Each is 80 bytes: its first locator, the 56 bytes that it has in a record, and three words, end offset
 * (excluded), number of certifying blocks, their authors' stake. The bytes after them keep their content. Asked on after the last locator
 * of the last stretch, until none follow, it gives the list in ascending order.
 * Refused last: 40 `stretches` that are no whole number of stretches, at least one. */
#define LOMKHVIDE_STRETCH_LEN ((size_t)80)
uint64_t lomkhvide_final_stretches(const uint8_t *stakes, size_t stakes_len, const uint8_t *store, size_t store_len, const uint8_t *after,
                                   size_t after_len, uint8_t *stretches, size_t stretches_len);

/* The same of the wide list. */
uint64_t lomkhvide_wide_stretches(const uint8_t *stakes, size_t stakes_len, const uint8_t *store, size_t store_len, const uint8_t *after,
                                  size_t after_len, uint8_t *stretches, size_t stretches_len);

/* Both in the reading in which an owner may withdraw: a stretch ends before a withdrawn locator too. */
uint64_t lomkhvide_final_stretches_withdrawing(const uint8_t *stakes, size_t stakes_len, const uint8_t *store, size_t store_len,
                                               const uint8_t *after, size_t after_len, uint8_t *stretches, size_t stretches_len);
uint64_t lomkhvide_wide_stretches_withdrawing(const uint8_t *stakes, size_t stakes_len, const uint8_t *store, size_t store_len,
                                              const uint8_t *after, size_t after_len, uint8_t *stretches, size_t stretches_len);

/* Both lists with the index, which goes from feed to feed with the store: in words, 8-byte aligned, as many as there are. Certifying blocks and
 * voters come from it; what is answered and written is as without it.
 * Refused between 10 and 20: 54 an index that disagrees with the store. */
uint64_t lomkhvide_final_stretches_indexed(const uint8_t *stakes, size_t stakes_len, const uint8_t *store, size_t store_len,
                                           const uint64_t *index, size_t index_len, const uint8_t *after, size_t after_len,
                                           uint8_t *stretches, size_t stretches_len);
uint64_t lomkhvide_wide_stretches_indexed(const uint8_t *stakes, size_t stakes_len, const uint8_t *store, size_t store_len,
                                          const uint64_t *index, size_t index_len, const uint8_t *after, size_t after_len,
                                          uint8_t *stretches, size_t stretches_len);

/* The stake and the number of the voters of a pending locator. The pending table is 6,145 words; a fresh one is zeros.
 * Refused between 10 and 20: 11 a table not of 6,145 words or not in order. Refused last: 42 not pending. */
#define LOMKHVIDE_TABLE_LEN ((size_t)49160)
uint64_t lomkhvide_pending_stake(const uint8_t *stakes, size_t stakes_len, const uint8_t *store, size_t store_len, const uint8_t *table,
                                 size_t table_len, const uint8_t *locator, size_t locator_len);
uint64_t lomkhvide_pending_voters(const uint8_t *stakes, size_t stakes_len, const uint8_t *store, size_t store_len, const uint8_t *table,
                                  size_t table_len, const uint8_t *locator, size_t locator_len);

/* Whom to ring so that a pending locator gets its quorum: the number of owners, and `found` is three words, their set low and high and
 * their stake. The owners who can be reached are a set in two words, owner i the bit i of the low one, or i - 64 of the high one; numbers
 * that the committee does not know are ignored. Of the sets of them, without those who have voted, whose votes with those counted hold
 * quorum it is one of the fewest, of these one of the largest stake, of these the one whose members in ascending order come first: 0 and
 * three words of zero where the votes counted hold quorum already.
 * Refused between 20 and 42: 40 `found` not of 24 bytes. Refused last: 60 all of them with the voters miss quorum. */
#define LOMKHVIDE_RING_LEN ((size_t)24)
uint64_t lomkhvide_whom_to_ring(const uint8_t *stakes, size_t stakes_len, const uint8_t *store, size_t store_len, const uint8_t *table,
                                size_t table_len, uint64_t reachable_low, uint64_t reachable_high, const uint8_t *locator,
                                size_t locator_len, uint8_t *found, size_t found_len);

/* The same for any set of voters, in two words as the reachable owners are, and without a store: the fewest owners who can be reached and who are
 * none of the voters whose stake with the voters' is quorum. Numbers that the committee does not know are ignored in both sets.
 * Refused, in this order: 5; 40 `found` not of 24 bytes; 60. */
uint64_t lomkhvide_fewest_owners(const uint8_t *stakes, size_t stakes_len, uint64_t voters_low, uint64_t voters_high,
                                 uint64_t reachable_low, uint64_t reachable_high, uint8_t *found, size_t found_len);

/* Feeds a block record: the number of its events. The record is stored and counted, and the events are written to the front of `events`,
 * three words each: 1 processed, 2 late or 3 unknown; the statement's index; the offset. The bytes after them keep their content.
 * Refused, in this order: 5; 10; 11; 20 a malformed record; 21 to 30 a record that breaks a rule; 15 events not of 8,192 words, or with
 * under 3 words for each accept and each offset of each range; 13 the store is full; 14 the table is full. */
#define LOMKHVIDE_EVENTS_LEN ((size_t)65536)
uint64_t lomkhvide_feed(const uint8_t *stakes, size_t stakes_len, uint8_t *store, size_t store_len, uint8_t *table, size_t table_len,
                        uint8_t *events, size_t events_len, const uint8_t *record, size_t record_len);

/* Feeds records one after the other, each after its length in 4 bytes (lowest first): the number of records. The memory is checked once. A
 * length past the end, or 1 to 3 bytes left over, is one last record that is malformed; a length of 0 is a malformed record too, and the
 * reading goes on. Each record has a word at the front of `outcomes`: the number of its events, or 2^63 + n where it was refused with n (20 to
 * 30, 15, 13, 14), after which the others are fed all the same. The events of the accepted records stand one after the other at the front of
 * `events`, three words each as above; a record is lent the words that are left there (15 where they are too few). Store, table, outcomes and
 * events are what feeding the records one by one leaves. Words after the last outcome and after the last event keep their content. Events and
 * outcomes are lent in words, 8-byte aligned, any number of them, and their lengths are numbers of words.
 * Refused, in this order, and then nothing is written: 5; 10; 11 a table not of 6,145 words or not in order; 64 fewer words for outcomes than
 * there are records. */
uint64_t lomkhvide_feed_records(const uint8_t *stakes, size_t stakes_len, uint8_t *store, size_t store_len, uint8_t *table, size_t table_len,
                                uint64_t *events, size_t events_len, uint64_t *outcomes, size_t outcomes_len, const uint8_t *records,
                                size_t records_len);

/* Feeds one record as `lomkhvide_feed` does, with an index, the voters beside the store: any number of words, their number given in words, 8-byte aligned. A fresh store's is one
 * word 1; the words past the used part are free and keep their content. It holds the number of used words, then for each stored block in order
 * of arrival a run count and its runs, ascending, ten words each: author, round, the digest in four words (each eight of its bytes, the first
 * one lowest), first offset, end offset (excluded), the voters' bits, 0 to 63 and 64 to 127. Each run is the longest stretch of locators with
 * the same voters in the block's ancestry. The new block's part is appended, and nothing else of the index changes but its first word.
 * Refused between 11 and 20: 54 no words, or used words that are not those of the store. Refused last: 55 too few words for the new part. */
uint64_t lomkhvide_feed_indexed(const uint8_t *stakes, size_t stakes_len, uint8_t *store, size_t store_len, uint8_t *table,
                                size_t table_len, uint64_t *index, size_t index_len, uint8_t *events, size_t events_len,
                                const uint8_t *record, size_t record_len);

/* Feeds records one after the other as `lomkhvide_feed_records` does, with the index, which is checked once; the parts of the accepted records are
 * appended. A record for whose part the index is too short is refused with 55, after which the others are fed all the same. After the call the used
 * index is the one worked out from the store.
 * Refused, in this order, and then nothing is written: 5; 10; 11; 54; 64. */
uint64_t lomkhvide_feed_records_indexed(const uint8_t *stakes, size_t stakes_len, uint8_t *store, size_t store_len, uint8_t *table,
                                        size_t table_len, uint64_t *index, size_t index_len, uint64_t *events, size_t events_len,
                                        uint64_t *outcomes, size_t outcomes_len, const uint8_t *records, size_t records_len);

/* The length of a stored share's payload. Refused last: 41 no such share. */
uint64_t lomkhvide_payload_length(const uint8_t *stakes, size_t stakes_len, const uint8_t *store, size_t store_len,
                                  const uint8_t *locator, size_t locator_len);

/* Where in the store the payload begins; it is a part of the store. Refused last: 41 no such share. */
uint64_t lomkhvide_payload_start(const uint8_t *stakes, size_t stakes_len, const uint8_t *store, size_t store_len,
                                 const uint8_t *locator, size_t locator_len);

/* Loads a network's own stakes from the bytes of its file `stakes`; no bytes are the course committee, and so is a file that is absent.
 * The number of members, at most 128; their stakes are written to the front of `stakes`, one word each, as every other call is lent them,
 * and the bytes after them keep their content. The file is an index of 2 bytes and records of 26: the index of the next one 2, a name 16
 * (zero padded, not empty), a stake 8. Indexes start at 1, the leading one names the first record, and 0 ends the chain.
 * Refused, in this order: 56 over 65,536 bytes, bytes that end inside the index or a record, an index that is not in the file or comes a
 * second time; 57 a bad or repeated name on the chain; 1 to 4 as of a committee; 40 `stakes` not of 128 words. */
#define LOMKHVIDE_STAKES_LEN ((size_t)1024)
uint64_t lomkhvide_load_stakes(const uint8_t *file, size_t file_len, uint8_t *stakes, size_t stakes_len);

/* ---- The blast calendar
 *
 * A calendar is at most 64 windows in which nothing may be loaded, two words each: start and end (excluded) in seconds of the week, at
 * most 604,800. Second 0 of the week is Monday, 0:00. Windows ascend and do not overlap; they may touch. No bytes are no windows.
 * A time is the number of seconds since 1 January 1970, 0:00; its weekday is the one that this count has, without leap seconds.
 *
 * Both calls are refused with 59: bytes that are not whole words, an odd number of words, more than 64 windows, a window whose start is
 * not below its end, that ends past 604,800 or that starts before the end of the one before it. */

/* Whether loading is open at a time: 1 or 0. */
uint64_t lomkhvide_is_open(const uint8_t *calendar, size_t calendar_len, uint64_t time);

/* The first open second at or after a time: 1, and it is written to `found` as a word; or 0 where there is none, since the windows fill
 * the week or no second up to 2^64 - 1 is open.
 * Refused last: 40 `found` not of 8 bytes. */
uint64_t lomkhvide_next_open(const uint8_t *calendar, size_t calendar_len, uint64_t time, uint8_t *found, size_t found_len);

/* ---- Records of our own */

/* Writes a record of our own to the front of `out`: its length; the bytes after it keep their content. The includes are references of 48
 * bytes, as in a record. The statements stand one after the other, each as in a record, but a share's length has 4 bytes. Accepts that
 * follow each other for one block, each offset one above the last, become a range as far as its end stays below 1,048,576.
 * Refused: 51 a digest not of 32 bytes, a mark other than 0 or 1, includes or statements of another form, over 256 includes, a payload over
 * 65,535 bytes, over 1,024 statements after joining; then 50 a slice shorter than the record. */
uint64_t lomkhvide_write_record(uint64_t author, uint64_t round, const uint8_t *digest, size_t digest_len, uint64_t mark,
                                const uint8_t *includes, size_t includes_len, const uint8_t *statements, size_t statements_len,
                                uint8_t *out, size_t out_len);

/* The same of the record's second edition, with the time of the block's creation in nanoseconds. A record's edition is its byte 53: 0, or 2
 * and then 16 bytes of time, lowest first, between the 56 of the header and the includes; feeding refuses any other, and a time above
 * 2^64 - 1, as malformed (20). */
uint64_t lomkhvide_write_timed_record(uint64_t author, uint64_t round, const uint8_t *digest, size_t digest_len, uint64_t mark,
                                      uint64_t time, const uint8_t *includes, size_t includes_len, const uint8_t *statements,
                                      size_t statements_len, uint8_t *out, size_t out_len);

/* The time of a stored block, by its reference, the 48 bytes that it has in a record: 1, and it is written to `found` as a word; or 0 where
 * its record has none, or no such block is stored.
 * Refused, in this order: 5; 10; 20 a reference not of 48 bytes; 40 `found` not of 8 bytes. */
#define LOMKHVIDE_REFERENCE_LEN ((size_t)48)
uint64_t lomkhvide_creation_time(const uint8_t *stakes, size_t stakes_len, const uint8_t *store, size_t store_len,
                                 const uint8_t *reference, size_t reference_len, uint8_t *found, size_t found_len);

/* ---- Finality slips
 *
 * A slip says of one locator which blocks certify it, and where their voters' votes stand: a byte that names its reading, 0 the old one and
 * 1 the new one, in which an owner may withdraw, the locator 56, the number of certifying blocks 2, each its reference 48 and the number of its voters 1, each its author 8, path length 2 and the path, one byte for
 * the place of an include in its block, from the certifying block to the vote. References and authors strictly ascend, and nothing stands
 * after them. */

/* Reads a slip with the records that come with it, each after its length of 4 bytes: the number of its certifying blocks. More records
 * than it names are welcome. It is accepted exactly if every path ends at a block of its author that votes for the locator, each listed
 * block is unmarked and lists voters that hold quorum, and the listed blocks' authors hold quorum; a slip of the new reading moreover comes
 * with every block of each listed block's ancestry, and none of the block's listed voters rejects the locator there. In every store under
 * the committee that holds the records it names, these blocks then certify, and the locator is final, in the slip's reading. Digests are
 * taken as given.
 * Refused, in this order: 5 stakes that are no committee or not whole words; 61 another first byte, or none; 52 a slip or records of another form, over 1,024 records, two
 * of one reference, or one that 20 to 22 or 24 to 29 refuse; 53 a record that it names, also by path, is missing, or for a
 * slip of the new reading one of the ancestry; 52 it does not hold. */
uint64_t lomkhvide_read_slip(const uint8_t *stakes, size_t stakes_len, const uint8_t *slip, size_t slip_len, const uint8_t *records,
                             size_t records_len);

/* Writes the finality slip of a final locator to the front of `out`: its length; the bytes after it keep their content. It names all
 * certifying blocks in ascending order of reference, and of each all voters in ascending order, each by the shortest path and among these
 * the first.
 * Refused, in this order: 5; 10; 20 a locator not of 56 bytes; 52 a locator that is not final; 50 a slice shorter than the slip. */
uint64_t lomkhvide_write_slip(const uint8_t *stakes, size_t stakes_len, const uint8_t *store, size_t store_len, const uint8_t *locator,
                              size_t locator_len, uint8_t *out, size_t out_len);

/* The same in the reading in which an owner may withdraw, with the same slices and refusals: 52 for a locator that is not final there. Its
 * reader takes it with the records of every block in the listed blocks' ancestry. */
uint64_t lomkhvide_write_slip_withdrawing(const uint8_t *stakes, size_t stakes_len, const uint8_t *store, size_t store_len,
                                          const uint8_t *locator, size_t locator_len, uint8_t *out, size_t out_len);

/* ---- Loadable shares
 *
 * A payload may begin with the byte 1 and a locator: the change that this one needs. A payload of fewer than 57 bytes, or with another first
 * byte, needs nothing. A stored share is loadable when it is final and the change that it needs, if any, is a stored share of a lower round
 * that is itself loadable. */

/* Whether a locator names a loadable stored share: 1 or 0.
 * Refused, in this order: 5; 10; 20 a locator not of 56 bytes. */
uint64_t lomkhvide_is_loadable(const uint8_t *stakes, size_t stakes_len, const uint8_t *store, size_t store_len, const uint8_t *locator,
                               size_t locator_len);

/* All loadable stored shares in ascending order of locator: their number. They are written to the front of `places`, two words each: where
 * in the store the entry of the block begins, and the offset; a change stands after the one that it needs. The words after them keep their
 * content. The places cross as words of 64 bits, aligned as such, and `places_len` is the number of words; an odd last one is no place.
 * Refused, in this order: 5; 10; 58 fewer places than stored shares. */
uint64_t lomkhvide_loadable(const uint8_t *stakes, size_t stakes_len, const uint8_t *store, size_t store_len, uint64_t *places,
                            size_t places_len);

/* Both in the reading in which an owner may withdraw: a share and the change that it needs are judged in that reading. With the same slices, refusals
 * and stack. */
uint64_t lomkhvide_is_loadable_withdrawing(const uint8_t *stakes, size_t stakes_len, const uint8_t *store, size_t store_len,
                                           const uint8_t *locator, size_t locator_len);
uint64_t lomkhvide_loadable_withdrawing(const uint8_t *stakes, size_t stakes_len, const uint8_t *store, size_t store_len, uint64_t *places,
                                        size_t places_len);

/* Answers a list of locators, each the 56 bytes that it has in a record, in ascending order, equal ones included: the number of locators.
 * At the front of `replies` each has three words: 1 if it is final, else 0, and the set of the authors of its certifying blocks, low and high,
 * author i the bit i of the low word, or i - 64 of the high one. The words after them keep their content. `index` is the index that was kept
 * beside the store, whole. Index and replies are lent in words, 8-byte aligned, and their lengths are numbers of words.
 * Refused, in this order: 5; 10; 54 an index that disagrees with the store; 62 a list out of order, or whose bytes are not whole locators;
 * 63 fewer words for replies than three each. */
uint64_t lomkhvide_answer_sorted(const uint8_t *stakes, size_t stakes_len, const uint8_t *store, size_t store_len, const uint64_t *index,
                                 size_t index_len, const uint8_t *locators, size_t locators_len, uint64_t *replies, size_t replies_len);

#ifdef __cplusplus
}
#endif

#endif
