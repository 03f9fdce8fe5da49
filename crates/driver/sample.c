/* A short driver in C: plays the paper's sample on a card and on a rack that stands in plain memory.
 *
 *     tools/archive
 *     cc -O2 crates/driver/sample.c target/staticlib/libdriver.a -o sample
 *     ./sample
 *
 * (x86-64 Linux; tests/driver builds and runs it.) It prints what the desk prints for
 * samples/paper.txt. To write a driver of your own, keep `request` and replace fetch and store by the messages to your rack.
 */
#include <inttypes.h>
#include <stdio.h>

#include "nwidarap.h"

/* The sample's sizes: h = 2, so N = 4 leaves; Z = 1 slot a bucket; R = 1 slot in the root; T = 16 requests at most. */
enum { H = 2, Z = 1, R = 1, T = 16, N = 1 << H };

/* What must be lent at these sizes; nwidarap.h has the formulas. An Insert needs the longest list and the most words. */
enum {
    TREE_WORDS = 4 * (Z + 1) * (2 * N - 2),
    LIST_WORDS = 4 * H - 2,
    FETCHED_WORDS = 8 * H * (Z + 1) + 8 * H - 8
};

/* The card is the driver's to keep, from call to call, in memory that the rack's owner cannot see. */
static uint64_t card[NWIDARAP_CARD_WORDS];

/* The tree is the rack's. */
static uint64_t tree[TREE_WORDS];

/* Lent to one request and then to the next. */
static uint64_t answer[NWIDARAP_ANSWER_WORDS];
static uint64_t list[LIST_WORDS];
static uint64_t words[FETCHED_WORDS];

enum { KEY, VALUE, LABEL, STAMP, FOUND, MOVED }; /* places in the answer of a finish and of FindMin */

/* Once a begin has been answered: fetches what its list names, finishes, and stores the whole buckets back. The counts must be
 * kept, because the next call fills the answer anew. The card sends the rack the list and nothing else. */
static uint64_t request(uint64_t begun)
{
    if (begun != 0)
        return begun; /* refused: nothing has changed and nothing waits */
    size_t whole = answer[0], least = answer[1];

    uint64_t said = nwidarap_fetch(answer, H, Z, whole, least, list, LIST_WORDS, tree, TREE_WORDS, words, FETCHED_WORDS);
    if (said == 0)
        said = nwidarap_finish(card, answer, words, FETCHED_WORDS);
    if (said != 0) {
        /* The rack gave no words, or damaged ones (12). The request still waits: fetch and finish may be tried again. This
         * driver gives up. */
        uint64_t dropped[NWIDARAP_ANSWER_WORDS];
        nwidarap_withdraw(card, dropped);
        return said;
    }

    /* The store is part of the request: it must be done before the next begin. It fills an answer of its own, so that the
     * finish's is kept. It is done for every finish, a Delete that found nothing too. */
    uint64_t stored[NWIDARAP_ANSWER_WORDS];
    return nwidarap_store(stored, H, Z, whole, least, list, LIST_WORDS, words, FETCHED_WORDS, tree, TREE_WORDS);
}

/* What the desk prints: the refusal's number alone, or 0 and some words of the answer. */
static void print(uint64_t said, int count, const int *places)
{
    printf("%" PRIu64, said);
    for (int i = 0; said == 0 && i < count; i++)
        printf(" %" PRIu64, answer[places[i]]);
    printf("\n");
}

static void insert(uint64_t key, uint64_t value, uint64_t label, uint64_t first, uint64_t second)
{
    static const int shown[] = {LABEL, STAMP, MOVED};
    print(request(nwidarap_insert(card, answer, key, value, label, first, second, list, LIST_WORDS)), 3, shown);
}

static void extract(void)
{
    static const int shown[] = {KEY, VALUE, LABEL, STAMP, MOVED};
    print(request(nwidarap_extract(card, answer, list, LIST_WORDS)), 5, shown);
}

static void delete(uint64_t label, uint64_t stamp)
{
    static const int shown[] = {FOUND, MOVED};
    print(request(nwidarap_delete(card, answer, label, stamp, list, LIST_WORDS)), 2, shown);
}

/* FindMin is answered by the card at once: there is no list, and nothing to fetch or store. */
static void find_min(void)
{
    static const int shown[] = {KEY, VALUE, LABEL, STAMP, MOVED};
    print(nwidarap_find_min(card, answer), 5, shown);
}

/* A fresh card on this side, a fresh tree on the other. */
static void size(void)
{
    uint64_t said = nwidarap_start(card, answer, H, Z, R, T);
    if (said == 0)
        said = nwidarap_fill(answer, H, Z, tree, TREE_WORDS);
    print(said, 0, NULL);
}

/* The paper's sample, P1 to P9. A label is the leaf that an event belongs to; label and eviction leaves are to be drawn at
 * random, the first leaf from the lower half of the leaves and the second from the upper. Here they are the paper's. */
int main(void)
{
    size();
    insert(7, 70, 0, 1, 2);
    insert(5, 50, 0, 1, 2);
    insert(6, 60, 3, 1, 2); /* refused with 10: the root has one slot, and it is taken */
    find_min();
    extract();
    delete(0, 0);
    delete(0, 0); /* the event is gone: found is 0, and the request is finished like any other */
    extract();    /* refused with 8: no event is left */
    return 0;
}
