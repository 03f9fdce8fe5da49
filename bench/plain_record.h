/* Records and sizes, for the card and for finish. */
#ifndef PLAIN_RECORD_H
#define PLAIN_RECORD_H

#include <string.h>

#include "plain.h"

typedef struct {
    uint64_t key, value, label, stamp;
} Record;

/* Where things stand in the card's words. */
enum { H, Z, R, T, DONE, LIVE, KIND, FIELDS, LEAST = 12, ROOT = 16, PLACES = 64, MOST_H = 16, MOST_Z = 5 };

enum { NOTHING, INSERT, EXTRACT, DELETE };

#define DUMMY_KEY UINT64_MAX

static const Record DUMMY = {DUMMY_KEY, 0, 0, 0};

/* What the checks need again and again: the sizes, N and t. */
typedef struct {
    uint64_t h, z, r, n, next;
} Sizes;

static Record *root_of(uint64_t *card)
{
    return (Record *)(card + ROOT);
}

static int is_dummy(const Record *a)
{
    return a->key == DUMMY_KEY && a->value == 0 && a->label == 0 && a->stamp == 0;
}

static int is_proper(const Record *a, const Sizes *s)
{
    return a->key < DUMMY_KEY && a->label < s->n && a->stamp < s->next;
}

static int no_later(const Record *a, const Record *b)
{
    return a->key < b->key || (a->key == b->key && a->stamp <= b->stamp);
}

static uint64_t bucket_at(const Sizes *s, uint64_t leaf, uint64_t level)
{
    return (s->n + leaf) >> (s->h - level);
}

static void set_answer(uint64_t *answer, uint64_t a, uint64_t b, uint64_t c, uint64_t d, uint64_t e, uint64_t f)
{
    answer[0] = a, answer[1] = b, answer[2] = c, answer[3] = d, answer[4] = e, answer[5] = f;
}

/* A refusal's answer, which stands until there is another. */
static void no_answer(uint64_t *answer)
{
    set_answer(answer, 0, 0, 0, 0, 0, 0);
}

#endif
