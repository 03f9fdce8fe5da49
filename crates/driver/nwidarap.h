/* The card and the rack of a Path Oblivious Heap, for drivers in C.
 *
 * Each function's contract, which this page puts in words, is proved for every input. The words are the paper's: card, rack,
 * bucket, leaf, label, stamp, least record. Link the archive that `tools/archive` writes, target/staticlib/libdriver.a
 * (x86-64 Linux). Beyond memcpy and memset it calls nothing; it keeps nothing between calls and allocates nothing.
 *
 * THE RETURN VALUE is 0, or the number of the refusal (NWIDARAP_BAD_SIZE and so on). After a refusal the card and every slice
 * are as they were, word for word, and the answer is six zeros. Refusals come in the order given with each function: the first
 * that applies.
 *
 * THE ANSWER is six words, all written by every call, whatever stood there; those that do not apply are 0:
 *     begin      whole, least, 0, 0, 0, 0       how many of the listed buckets are whole, how many least-record only
 *     FindMin    key, value, label, stamp, 0, 0
 *     finish     of Insert      0, 0, label, stamp, 0, words moved
 *                of ExtractMin  key, value, label, stamp, 0, words moved
 *                of Delete      0, 0, 0, 0, found, words moved        found: 1, or 0 where no live event has label and stamp
 *     others     0, 0, 0, 0, 0, 0, and so for every refusal
 * Words moved are those fetched plus those stored: 16h(Z+1) + 8h - 8 for Insert, 4h(2Z+3) for the others.
 *
 * POINTERS. A slice is a pointer and a count of 64-bit words. No pointer may be null, not even with a count of 0. All must be
 * aligned for uint64_t. What is written must not overlap anything else that is handed to the same call; the proofs take
 * that as given, and nothing checks it.
 *
 * THE STACK. A call keeps its scratches in locals. No proof bounds a stack, and too small a one ends the program.
 *
 * ONE REQUEST, from the card to the rack and back:
 *     begin on the card       -> the bucket list, with the two counts in the answer
 *     nwidarap_fetch          -> the listed buckets' words
 *     nwidarap_finish         works on the card and on these words
 *     nwidarap_store          with the same list, counts and words, before the next begin
 * Until its finish the request waits on the card; nwidarap_withdraw drops it. sample.c beside this file is a short driver.
 */
#ifndef NWIDARAP_H
#define NWIDARAP_H

#include <stddef.h>
#include <stdint.h>

#ifdef __cplusplus
extern "C" {
#endif

/* The card: 272 words, which the driver keeps and lends. Start makes one; otherwise only carry it from call to call.
 *     0..3     h, Z, R, T
 *     4, 5     t, how many requests are finished; c, how many events live
 *     6        kind of the waiting request: 0 none, 1 Insert, 2 ExtractMin, 3 Delete; above 3 the card is bad (13)
 *     7..11    its fields. Insert: key, value, label, first leaf, second leaf. Delete: label, stamp, 0, 0, 0. Else 0.
 *              What a kind does not use is ignored coming in and 0 after a call that writes the card: each that is not
 *              refused, but for FindMin.
 *     12..15   the root's least record
 *     16..271  the root's 64 places, four words each
 * A record is key, value, label, stamp. The dummy, which marks an empty place, is 2^64 - 1, 0, 0, 0. */
#define NWIDARAP_CARD_WORDS 272
#define NWIDARAP_ANSWER_WORDS 6
#define NWIDARAP_RECORD_WORDS 4

/* Refusals. */
#define NWIDARAP_BAD_SIZE 1   /* a size is outside its range */
#define NWIDARAP_BUSY 2       /* begin or FindMin while a request waits */
#define NWIDARAP_IDLE 3       /* finish or withdraw and none waits */
#define NWIDARAP_SPENT 4      /* t = T: the card takes no more requests */
#define NWIDARAP_BAD_KEY 5    /* Insert with key 2^64 - 1 */
#define NWIDARAP_BAD_LEAF 6   /* label N or more, or an eviction leaf outside its half */
#define NWIDARAP_BAD_STAMP 7  /* Delete with stamp t or more */
#define NWIDARAP_EMPTY 8      /* FindMin or ExtractMin with no live event */
#define NWIDARAP_FULL 9       /* Insert with N live events */
#define NWIDARAP_OVERFLOW 10  /* Insert, every root slot real */
#define NWIDARAP_SHORT_ROOM 11 /* a slice too short, or a tree of another length */
#define NWIDARAP_DAMAGED 12   /* the fetched words cannot be what was stored */
#define NWIDARAP_BAD_CARD 13  /* the card's words cannot be a card's */
#define NWIDARAP_BAD_BUCKET 14 /* a listed number is outside 2 to 2N - 1 */

/* ---- The card. N = 2^h leaves. */

/* A fresh card: h 1 to 16, Z 1 to 5 slots a bucket, R 1 to 64 slots in the root, T, the most requests ever finished, N to
 * 2^32 - 1. Writes all 272 words, whatever they were. Refused with 1 only. */
uint64_t nwidarap_start(uint64_t card[NWIDARAP_CARD_WORDS], uint64_t answer[NWIDARAP_ANSWER_WORDS], uint64_t h,
                        uint64_t z, uint64_t r, uint64_t t);

/* Begins: each writes the bucket list into `list` from its first place on, and the two counts into the answer; places past
 * the last number stay. On the card only the waiting request changes.
 *
 * Insert: key below 2^64 - 1, label below N, first leaf below N/2, second leaf N/2 to N - 1. 4h - 2 numbers: 2h whole, 2h - 2
 * least-record only. 13, 2, 4, 5, 6, 9, 10, 11. */
uint64_t nwidarap_insert(uint64_t card[NWIDARAP_CARD_WORDS], uint64_t answer[NWIDARAP_ANSWER_WORDS], uint64_t key,
                         uint64_t value, uint64_t label, uint64_t first, uint64_t second, uint64_t *list,
                         size_t list_words);

/* ExtractMin: 2h numbers, h whole, h least-record only. 13, 2, 4, 8, 11. */
uint64_t nwidarap_extract(uint64_t card[NWIDARAP_CARD_WORDS], uint64_t answer[NWIDARAP_ANSWER_WORDS], uint64_t *list,
                          size_t list_words);

/* Delete of the event that has this label and stamp: 2h numbers, h whole, h least-record only. 13, 2, 4, 6, 7, 11. */
uint64_t nwidarap_delete(uint64_t card[NWIDARAP_CARD_WORDS], uint64_t answer[NWIDARAP_ANSWER_WORDS], uint64_t label,
                         uint64_t stamp, uint64_t *list, size_t list_words);

/* FindMin: the least record at once, with nothing to fetch; no finished request. The card is read and not written. 13, 2, 8. */
uint64_t nwidarap_find_min(const uint64_t card[NWIDARAP_CARD_WORDS], uint64_t answer[NWIDARAP_ANSWER_WORDS]);

/* Withdraw: drops the waiting request, and changes nothing else. 13, 3. */
uint64_t nwidarap_withdraw(uint64_t card[NWIDARAP_CARD_WORDS], uint64_t answer[NWIDARAP_ANSWER_WORDS]);

/* Finish of the request that waits, with the words fetched for its list: 8h(Z+1) + 8h - 8 words for Insert, 4h(Z+2) for the
 * others; more may be lent, and words past these stay. Each whole bucket is written where it stands; the least-record words
 * stay. One request more is finished, and none waits. A Delete that finds nothing is finished, and stored, like any other.
 * 13, 3, 11, 12. After 12 the request still waits: finish may be tried again with other words. */
uint64_t nwidarap_finish(uint64_t card[NWIDARAP_CARD_WORDS], uint64_t answer[NWIDARAP_ANSWER_WORDS], uint64_t *words,
                         size_t words_words);

/* ---- The rack. It is given h and Z alone. Its tree has exactly 4(Z+1)(2N-2) words: bucket n, 2 to 2N - 1, from word
 * 4(Z+1)(n-2) on, first its least record, then its Z slots. Refusals: 1, 11, 14. */

/* A fresh tree: all dummies. */
uint64_t nwidarap_fill(uint64_t answer[NWIDARAP_ANSWER_WORDS], uint64_t h, uint64_t z, uint64_t *tree,
                       size_t tree_words);

/* Of the first `whole` numbers of the list the whole bucket, 4(Z+1) words, then of the next `least` numbers the least record, 4
 * words, one after the other from words[0] on. Words past these stay. Counts that together exceed the list are 11. */
uint64_t nwidarap_fetch(uint64_t answer[NWIDARAP_ANSWER_WORDS], uint64_t h, uint64_t z, size_t whole, size_t least,
                        const uint64_t *list, size_t list_words, const uint64_t *tree, size_t tree_words,
                        uint64_t *words, size_t words_words);

/* The whole buckets back into the tree, in list order: of a number named twice the later words stand. The least-record numbers
 * are checked and need their words, as for fetch, and are not stored. */
uint64_t nwidarap_store(uint64_t answer[NWIDARAP_ANSWER_WORDS], uint64_t h, uint64_t z, size_t whole, size_t least,
                        const uint64_t *list, size_t list_words, const uint64_t *words, size_t words_words,
                        uint64_t *tree, size_t tree_words);

#ifdef __cplusplus
}
#endif

#endif
