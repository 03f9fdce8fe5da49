/* The rack in plain C, with every check of document 01. */
#include <string.h>

#include "plain.h"

#define DUMMY_KEY UINT64_MAX

static int tree_bad(uint64_t h, uint64_t z)
{
    return h < 1 || h > 16 || z < 1 || z > 5;
}

static size_t words_of(uint64_t h, uint64_t z)
{
    return 4 * (z + 1) * (((size_t)2 << h) - 2);
}

/* Of fetch and of store. The counts are compared so that no sum or product wraps. */
static uint64_t why_copy(uint64_t h, uint64_t z, size_t whole, size_t least, const uint64_t *list, size_t list_words,
                         size_t tree_words, size_t words_words)
{
    if (tree_bad(h, z))
        return 1;
    if (tree_words != words_of(h, z) || whole > list_words || least > list_words - whole)
        return 11;
    size_t bucket = 4 * (z + 1);
    if (words_words / bucket < whole || (words_words - whole * bucket) / 4 < least)
        return 11;
    for (size_t i = 0; i < whole + least; i++)
        if (list[i] < 2 || list[i] >= (uint64_t)2 << h)
            return 14;
    return 0;
}

uint64_t plain_fill(uint64_t *answer, uint64_t h, uint64_t z, uint64_t *tree, size_t tree_words)
{
    memset(answer, 0, 6 * sizeof *answer);
    if (tree_bad(h, z))
        return 1;
    if (tree_words != words_of(h, z))
        return 11;
    for (size_t i = 0; i < tree_words; i++)
        tree[i] = i % 4 == 0 ? DUMMY_KEY : 0;
    return 0;
}

uint64_t plain_fetch(uint64_t *answer, uint64_t h, uint64_t z, size_t whole, size_t least, const uint64_t *list,
                     size_t list_words, const uint64_t *tree, size_t tree_words, uint64_t *words, size_t words_words)
{
    memset(answer, 0, 6 * sizeof *answer);
    uint64_t why = why_copy(h, z, whole, least, list, list_words, tree_words, words_words);
    if (why != 0)
        return why;
    size_t bucket = 4 * (z + 1);
    for (size_t i = 0; i < whole; i++, words += bucket)
        memcpy(words, tree + bucket * (list[i] - 2), bucket * sizeof *words);
    for (size_t i = whole; i < whole + least; i++, words += 4)
        memcpy(words, tree + bucket * (list[i] - 2), 4 * sizeof *words);
    return 0;
}

uint64_t plain_store(uint64_t *answer, uint64_t h, uint64_t z, size_t whole, size_t least, const uint64_t *list,
                     size_t list_words, const uint64_t *words, size_t words_words, uint64_t *tree, size_t tree_words)
{
    memset(answer, 0, 6 * sizeof *answer);
    uint64_t why = why_copy(h, z, whole, least, list, list_words, tree_words, words_words);
    if (why != 0)
        return why;
    size_t bucket = 4 * (z + 1);
    for (size_t i = 0; i < whole; i++, words += bucket)
        memcpy(tree + bucket * (list[i] - 2), words, bucket * sizeof *words);
    return 0;
}
