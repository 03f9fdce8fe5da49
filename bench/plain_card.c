/* The card in plain C: what an engineer would write who works on the lent words where they stand. Every check of document 01 is
 * made, in its order; a refusal writes six zeros into the answer and nothing else. Finish is in plain_finish.c; plain.c has both. */
#include "plain_record.h"

/* ---- BadCard and the refusals of a begin. */

static int stamp_twice(const Record *slots, size_t count)
{
    for (size_t i = 0; i < count; i++) {
        if (is_dummy(&slots[i]))
            continue;
        for (size_t j = i + 1; j < count; j++)
            if (slots[j].stamp == slots[i].stamp && !is_dummy(&slots[j]))
                return 1;
    }
    return 0;
}

static int root_bad(const Record *root, const Sizes *s, uint64_t live, const Record *least)
{
    uint64_t real = 0;
    for (size_t i = 0; i < s->r; i++) {
        if (is_dummy(&root[i]))
            continue;
        if (!is_proper(&root[i], s) || !no_later(least, &root[i]))
            return 1;
        real++;
    }
    for (size_t i = s->r; i < PLACES; i++)
        if (!is_dummy(&root[i]))
            return 1;
    return real > live || stamp_twice(root, s->r);
}

static int least_odd(const Sizes *s, uint64_t live, const Record *least)
{
    if (is_dummy(least))
        return live > 0;
    return live == 0 || !is_proper(least, s);
}

/* All of BadCard but the waiting request, for the card that comes in and for the one that would come out. */
static int parts_bad(const Record *root, const Sizes *s, uint64_t most, uint64_t live, const Record *least)
{
    if (s->next > most || live > s->n || live > s->next)
        return 1;
    return root_bad(root, s, live, least) || least_odd(s, live, least);
}

static int sizes_bad(uint64_t h, uint64_t z, uint64_t r, uint64_t t)
{
    if (h < 1 || h > MOST_H || z < 1 || z > MOST_Z || r < 1 || r > PLACES)
        return 1;
    return t < (uint64_t)1 << h || t > UINT32_MAX;
}

static int root_full(const Record *root, size_t r)
{
    for (size_t i = 0; i < r; i++)
        if (is_dummy(&root[i]))
            return 0;
    return 1;
}

/* Numbers 4 to 10, for a request that would be begun. */
static uint64_t why_request(uint64_t *card, const Sizes *s, uint64_t kind, const uint64_t *f)
{
    if (kind == NOTHING)
        return 0;
    if (s->next == card[T])
        return 4;
    switch (kind) {
    case INSERT:
        if (f[0] == DUMMY_KEY)
            return 5;
        if (f[2] >= s->n || f[3] >= s->n / 2 || f[4] < s->n / 2 || f[4] >= s->n)
            return 6;
        if (card[LIVE] == s->n)
            return 9;
        return root_full(root_of(card), s->r) ? 10 : 0;
    case EXTRACT:
        return card[LIVE] == 0 ? 8 : 0;
    default:
        if (f[0] >= s->n)
            return 6;
        return f[1] >= s->next ? 7 : 0;
    }
}

/* BadCard; where it is none, the sizes. */
static int bad_card(uint64_t *card, Sizes *s)
{
    if (card[KIND] > DELETE || sizes_bad(card[H], card[Z], card[R], card[T]))
        return 1;
    *s = (Sizes){card[H], card[Z], card[R], (uint64_t)1 << card[H], card[DONE]};
    if (parts_bad(root_of(card), s, card[T], card[LIVE], (Record *)(card + LEAST)))
        return 1;
    return why_request(card, s, card[KIND], card + FIELDS) != 0;
}

/* ---- The calls but finish. */

static void set_request(uint64_t *card, uint64_t kind, const uint64_t *f)
{
    card[KIND] = kind;
    memcpy(card + FIELDS, f, 5 * sizeof *f);
}

uint64_t plain_start(uint64_t *card, uint64_t *answer, uint64_t h, uint64_t z, uint64_t r, uint64_t t)
{
    no_answer(answer);
    if (sizes_bad(h, z, r, t))
        return 1;
    memset(card, 0, ROOT * sizeof *card);
    card[H] = h, card[Z] = z, card[R] = r, card[T] = t;
    card[LEAST] = DUMMY_KEY;
    for (size_t i = 0; i < PLACES; i++)
        root_of(card)[i] = DUMMY;
    return 0;
}

static uint64_t begin(uint64_t *card, uint64_t *answer, uint64_t kind, const uint64_t *f, uint64_t *list,
                      size_t list_words)
{
    Sizes s;
    no_answer(answer);
    if (bad_card(card, &s))
        return 13;
    if (card[KIND] != NOTHING)
        return 2;
    uint64_t why = why_request(card, &s, kind, f);
    if (why != 0)
        return why;
    uint64_t whole = kind == INSERT ? 2 * s.h : s.h;
    uint64_t least = kind == INSERT ? 2 * s.h - 2 : s.h;
    if (list_words < whole + least)
        return 11;
    if (kind == INSERT) {
        for (uint64_t level = 1; level <= s.h; level++) {
            list[level - 1] = bucket_at(&s, f[3], level);
            list[s.h + level - 1] = bucket_at(&s, f[4], level);
        }
        for (uint64_t level = 2; level <= s.h; level++) {
            list[2 * s.h + level - 2] = bucket_at(&s, f[3], level) ^ 1;
            list[3 * s.h + level - 3] = bucket_at(&s, f[4], level) ^ 1;
        }
    } else {
        uint64_t leaf = kind == EXTRACT ? card[LEAST + 2] : f[0];
        for (uint64_t level = 1; level <= s.h; level++) {
            list[level - 1] = bucket_at(&s, leaf, level);
            list[s.h + level - 1] = bucket_at(&s, leaf, level) ^ 1;
        }
    }
    set_request(card, kind, f);
    set_answer(answer, whole, least, 0, 0, 0, 0);
    return 0;
}

uint64_t plain_insert(uint64_t *card, uint64_t *answer, uint64_t key, uint64_t value, uint64_t label, uint64_t first,
                      uint64_t second, uint64_t *list, size_t list_words)
{
    uint64_t f[5] = {key, value, label, first, second};
    return begin(card, answer, INSERT, f, list, list_words);
}

uint64_t plain_extract(uint64_t *card, uint64_t *answer, uint64_t *list, size_t list_words)
{
    uint64_t f[5] = {0};
    return begin(card, answer, EXTRACT, f, list, list_words);
}

uint64_t plain_delete(uint64_t *card, uint64_t *answer, uint64_t label, uint64_t stamp, uint64_t *list,
                      size_t list_words)
{
    uint64_t f[5] = {label, stamp};
    return begin(card, answer, DELETE, f, list, list_words);
}

uint64_t plain_find_min(uint64_t *card, uint64_t *answer)
{
    Sizes s;
    no_answer(answer);
    if (bad_card(card, &s))
        return 13;
    if (card[KIND] != NOTHING)
        return 2;
    if (card[LIVE] == 0)
        return 8;
    set_answer(answer, card[LEAST], card[LEAST + 1], card[LEAST + 2], card[LEAST + 3], 0, 0);
    return 0;
}

uint64_t plain_withdraw(uint64_t *card, uint64_t *answer)
{
    Sizes s;
    no_answer(answer);
    if (bad_card(card, &s))
        return 13;
    if (card[KIND] == NOTHING)
        return 3;
    uint64_t f[5] = {0};
    set_request(card, NOTHING, f);
    return 0;
}
