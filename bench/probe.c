/* The probe over plain C: docs/PROBE.md. With it tests/same shows that plain C does the same job as the proved code, refusals and
 * all, before the bench sets their speeds side by side. */
#include <stdio.h>

#include "plain.h"

enum { CARD = 272, MOST_LIST = 128, MOST_WORDS = 1024, MOST_TREE = 8192 };

static uint64_t head[9 + CARD + 3], answer[6], list[MOST_LIST], words[MOST_WORDS], tree[MOST_TREE];

static int take(uint64_t *to, uint64_t count)
{
    return fread(to, sizeof *to, count, stdin) == count;
}

static void give(const uint64_t *from, uint64_t count)
{
    fwrite(from, sizeof *from, count, stdout);
}

static uint64_t call(uint64_t op, const uint64_t *a, uint64_t *card, uint64_t l, uint64_t w, uint64_t t)
{
    switch (op) {
    case 1:
        return plain_start(card, answer, a[0], a[1], a[2], a[3]);
    case 2:
        return plain_insert(card, answer, a[0], a[1], a[2], a[3], a[4], list, l);
    case 3:
        return plain_extract(card, answer, list, l);
    case 4:
        return plain_delete(card, answer, a[0], a[1], list, l);
    case 5:
        return plain_find_min(card, answer);
    case 6:
        return plain_withdraw(card, answer);
    case 7:
        return plain_finish(card, answer, words, w);
    case 8:
        return plain_fill(answer, a[0], a[1], tree, t);
    case 9:
        return plain_fetch(answer, a[0], a[1], a[2], a[3], list, l, tree, t, words, w);
    default:
        return plain_store(answer, a[0], a[1], a[2], a[3], list, l, words, w, tree, t);
    }
}

int main(void)
{
    uint64_t *card = head + 9, *lengths = card + CARD;
    while (take(head, 9 + CARD + 3)) {
        uint64_t op = head[0], l = lengths[0], w = lengths[1], t = lengths[2];
        if (op < 1 || op > 10 || l > MOST_LIST || w > MOST_WORDS || t > MOST_TREE)
            return 0;
        if (!take(list, l) || !take(words, w) || !take(tree, t))
            return 0;
        for (int i = 0; i < 6; i++)
            answer[i] = UINT64_MAX;
        uint64_t number = call(op, head + 1, card, l, w, t);
        give(&number, 1);
        give(answer, 6);
        give(card, CARD);
        give(list, l);
        give(words, w);
        give(tree, t);
    }
    return 0;
}
