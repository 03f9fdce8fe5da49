/* What a call leaves in the answer, and FindMin on the card: tests/driver builds and runs this. Before each call stale words stand in
 * the answer; a refused call must leave six zeros there. It prints what is otherwise, and ends with 1 if anything is.
 */
#include <inttypes.h>
#include <stdio.h>
#include <string.h>

#include "nwidarap.h"

/* Two leaves, one slot a bucket and in the root. */
enum { H = 1, Z = 1, R = 1, T = 4, TREE_WORDS = 16, LIST_WORDS = 2, FETCHED_WORDS = 16, KIND = 6, FIELDS = 7 };

static uint64_t card[NWIDARAP_CARD_WORDS], answer[NWIDARAP_ANSWER_WORDS];
static uint64_t list[LIST_WORDS], words[FETCHED_WORDS], tree[TREE_WORDS];
static int passed, failed;

static void make_stale(void)
{
    for (uint64_t i = 0; i < NWIDARAP_ANSWER_WORDS; i++)
        answer[i] = UINT64_MAX - i;
}

static void check(const char *call, uint64_t said, uint64_t number, const uint64_t *values)
{
    if (said == number && memcmp(answer, values, sizeof answer) == 0) {
        passed++;
        return;
    }
    failed++;
    printf("%s gave %" PRIu64 " and should give %" PRIu64 ", or answered otherwise\n", call, said, number);
}

/* A call, the number that it gives, and the six values that then stand in the answer. */
#define GIVES(number, call, ...)                                                                                        \
    do {                                                                                                               \
        const uint64_t values[NWIDARAP_ANSWER_WORDS] = {__VA_ARGS__};                                                  \
        make_stale();                                                                                                  \
        check(#call, call, number, values);                                                                            \
    } while (0)

int main(void)
{
    GIVES(NWIDARAP_BAD_SIZE, nwidarap_start(card, answer, 0, Z, R, T), 0);
    GIVES(0, nwidarap_start(card, answer, H, Z, R, T), 0);
    GIVES(NWIDARAP_BAD_KEY, nwidarap_insert(card, answer, UINT64_MAX, 70, 0, 0, 1, list, LIST_WORDS), 0);
    GIVES(NWIDARAP_EMPTY, nwidarap_extract(card, answer, list, LIST_WORDS), 0);
    GIVES(NWIDARAP_BAD_STAMP, nwidarap_delete(card, answer, 0, 0, list, LIST_WORDS), 0);
    GIVES(NWIDARAP_EMPTY, nwidarap_find_min(card, answer), 0);
    GIVES(NWIDARAP_IDLE, nwidarap_withdraw(card, answer), 0);
    GIVES(NWIDARAP_IDLE, nwidarap_finish(card, answer, words, FETCHED_WORDS), 0);
    card[KIND] = 4;
    GIVES(NWIDARAP_BAD_CARD, nwidarap_find_min(card, answer), 0);
    GIVES(NWIDARAP_BAD_CARD, nwidarap_finish(card, answer, words, FETCHED_WORDS), 0);
    card[KIND] = 0;

    GIVES(NWIDARAP_SHORT_ROOM, nwidarap_fill(answer, H, Z, tree, TREE_WORDS - 1), 0);
    GIVES(0, nwidarap_fill(answer, H, Z, tree, TREE_WORDS), 0);
    list[0] = 1;
    GIVES(NWIDARAP_BAD_BUCKET, nwidarap_fetch(answer, H, Z, 1, 0, list, LIST_WORDS, tree, TREE_WORDS, words, FETCHED_WORDS), 0);
    GIVES(NWIDARAP_BAD_BUCKET, nwidarap_store(answer, H, Z, 1, 0, list, LIST_WORDS, words, FETCHED_WORDS, tree, TREE_WORDS), 0);

    /* One Insert from begin to store. */
    GIVES(0, nwidarap_insert(card, answer, 7, 70, 1, 0, 1, list, LIST_WORDS), 2);
    GIVES(0, nwidarap_fetch(answer, H, Z, 2, 0, list, LIST_WORDS, tree, TREE_WORDS, words, FETCHED_WORDS), 0);
    GIVES(0, nwidarap_finish(card, answer, words, FETCHED_WORDS), 0, 0, 1, 0, 0, 32);
    GIVES(0, nwidarap_store(answer, H, Z, 2, 0, list, LIST_WORDS, words, FETCHED_WORDS, tree, TREE_WORDS), 0);

    /* No request waits, so that the fields' words say nothing; FindMin leaves them, too. */
    uint64_t lent[NWIDARAP_CARD_WORDS];
    card[FIELDS] = 9;
    memcpy(lent, card, sizeof card);
    GIVES(0, nwidarap_find_min(card, answer), 7, 70, 1);
    if (memcmp(lent, card, sizeof card) != 0) {
        failed++;
        printf("FindMin wrote the card\n");
    }
    printf("%d passed, %d failed\n", passed, failed);
    return failed != 0;
}
