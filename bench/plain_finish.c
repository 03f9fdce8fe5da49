/* Finish in plain C: Damaged, the work, and the card that comes out. Stands behind plain_card.c in plain.c. */
#include "plain_record.h"

/* ---- Damaged. A path's whole buckets stand in the fetched words, least record first; `beside` are its siblings' least
 * records, from level `from` on. */

static int same(const Record *a, const Record *b)
{
    return a->key == b->key && a->value == b->value && a->label == b->label && a->stamp == b->stamp;
}

static int is_sound(const Record *a, const Sizes *s, uint64_t level, uint64_t bucket)
{
    return is_dummy(a) || (is_proper(a, s) && bucket_at(s, a->label, level) == bucket);
}

static int path_sound(const Record *path, const Record *beside, const Sizes *s, uint64_t leaf, uint64_t from)
{
    for (uint64_t level = 1; level <= s->h; level++) {
        uint64_t bucket = bucket_at(s, leaf, level);
        for (uint64_t i = 0; i <= s->z; i++)
            if (!is_sound(&path[(level - 1) * (s->z + 1) + i], s, level, bucket))
                return 0;
        if (level >= from && !is_sound(&beside[level - from], s, level, bucket ^ 1))
            return 0;
    }
    return 1;
}

/* The smallest of some slots and of one that stands after them; of two that tie the first. */
static const Record *least_over(const Record *slots, size_t count, const Record *last)
{
    for (size_t i = count; i > 0; i--)
        if (no_later(&slots[i - 1], last))
            last = &slots[i - 1];
    return last;
}

/* The smaller of two children's least records; of two that tie that of the lower bucket. */
static const Record *least_kid(uint64_t bucket, const Record *own, const Record *other)
{
    if (bucket % 2 == 0)
        return no_later(own, other) ? own : other;
    return no_later(other, own) ? other : own;
}

static int leasts_true(const Record *path, const Record *beside, const Sizes *s, uint64_t leaf, uint64_t from)
{
    const Record *kid = &DUMMY;
    for (uint64_t level = s->h; level >= 1; level--) {
        const Record *part = &path[(level - 1) * (s->z + 1)];
        if (!same(part, least_over(part + 1, s->z, kid)))
            return 0;
        if (level >= from)
            kid = least_kid(bucket_at(s, leaf, level), part, &beside[level - from]);
    }
    return 1;
}

/* ---- The work, on copies, so that a card that would come out bad has changed nothing. */

/* The root's slots, and the slots of one path behind them. */
static void load_path(Record *way, const Record *path, const Sizes *s)
{
    for (uint64_t level = 0; level < s->h; level++)
        memcpy(way + s->r + level * s->z, path + level * (s->z + 1) + 1, s->z * sizeof *way);
}

static void evict(Record *way, const Sizes *s, uint64_t leaf)
{
    size_t low = s->r + s->h * s->z;
    for (uint64_t level = s->h; level >= 1; level--) {
        uint64_t shift = s->h - level, want = leaf >> shift;
        low -= s->z;
        for (size_t k = low; k < low + s->z; k++) {
            if (!is_dummy(&way[k]))
                continue;
            for (size_t i = 0; i < low; i++) {
                if (way[i].label >> shift == want && !is_dummy(&way[i])) {
                    way[k] = way[i];
                    way[i] = DUMMY;
                    break;
                }
            }
        }
    }
}

/* The evicted path's buckets, with their least records, into `out`; answers the smallest least record of the root's children.
 * `top` is the sibling at level 1. */
static const Record *mend(Record *out, const Record *way, const Record *beside, uint64_t from, const Record *top,
                          const Sizes *s, uint64_t leaf)
{
    const Record *kid = &DUMMY;
    for (uint64_t level = s->h; level >= 1; level--) {
        Record *part = &out[(level - 1) * (s->z + 1)];
        memcpy(part + 1, way + s->r + (level - 1) * s->z, s->z * sizeof *part);
        part[0] = *least_over(part + 1, s->z, kid);
        kid = least_kid(bucket_at(s, leaf, level), part, level >= from ? &beside[level - from] : top);
    }
    return kid;
}

/* The card that comes out, unless it would be bad. */
static int settle(uint64_t *card, const Record *way, const Sizes *s, uint64_t live, const Record *least)
{
    Record root[PLACES];
    Sizes out = *s;
    out.next++;
    memcpy(root, way, s->r * sizeof *root);
    for (size_t i = s->r; i < PLACES; i++)
        root[i] = DUMMY;
    Record kept = *least;
    if (parts_bad(root, &out, card[T], live, &kept))
        return 0;
    memcpy(root_of(card), root, sizeof root);
    memcpy(card + LEAST, &kept, sizeof kept);
    card[DONE]++;
    card[LIVE] = live;
    memset(card + KIND, 0, 6 * sizeof *card);
    return 1;
}

static uint64_t finish_insert(uint64_t *card, uint64_t *answer, Record *words, const Sizes *s)
{
    const uint64_t *f = card + FIELDS;
    uint64_t first = f[3], second = f[4], label = f[2], stamp = s->next;
    size_t path = s->h * (s->z + 1);
    const Record *beside1 = words + 2 * path, *beside2 = beside1 + s->h - 1;
    Record all[PLACES + 2 * MOST_H * MOST_Z], out[2 * MOST_H * (MOST_Z + 1)];
    Record *root = root_of(card);

    if (!path_sound(words, beside1, s, first, 2) || !path_sound(words + path, beside2, s, second, 2))
        return 12;
    memcpy(all, root, s->r * sizeof *all);
    load_path(all, words, s);
    load_path(all + s->h * s->z, words + path, s);
    if (stamp_twice(all, s->r + 2 * s->h * s->z))
        return 12;
    if (!leasts_true(words, beside1, s, first, 2) || !leasts_true(words + path, beside2, s, second, 2))
        return 12;
    const Record *kid = least_kid(2, &words[0], &words[path]);
    if (!same((Record *)(card + LEAST), least_over(root, s->r, kid)))
        return 12;

    size_t place = 0;
    while (!is_dummy(&all[place]))
        place++;
    all[place] = (Record){f[0], f[1], label, stamp};
    evict(all, s, first);
    mend(out, all, beside1, 2, &DUMMY, s, first);
    load_path(all, words + path, s);
    evict(all, s, second);
    kid = mend(out + path, all, beside2, 2, &out[0], s, second);
    if (!settle(card, all, s, card[LIVE] + 1, least_over(all, s->r, kid)))
        return 12;
    memcpy(words, out, 2 * path * sizeof *words);
    set_answer(answer, 0, 0, label, stamp, 0, 16 * s->h * (s->z + 1) + 8 * s->h - 8);
    return 0;
}

static uint64_t finish_removal(uint64_t *card, uint64_t *answer, Record *words, const Sizes *s)
{
    int extract = card[KIND] == EXTRACT;
    Record gone = *(Record *)(card + LEAST);
    uint64_t label = extract ? gone.label : card[FIELDS], stamp = extract ? gone.stamp : card[FIELDS + 1];
    size_t path = s->h * (s->z + 1), slots = s->r + s->h * s->z;
    const Record *beside = words + path;
    Record way[PLACES + MOST_H * MOST_Z], out[MOST_H * (MOST_Z + 1)];

    if (!path_sound(words, beside, s, label, 1))
        return 12;
    memcpy(way, root_of(card), s->r * sizeof *way);
    load_path(way, words, s);
    if (stamp_twice(way, slots) || !leasts_true(words, beside, s, label, 1))
        return 12;
    const Record *kid = least_kid(bucket_at(s, label, 1), &words[0], &beside[0]);
    if (!same(&gone, least_over(way, s->r, kid)))
        return 12;

    uint64_t found = 0;
    for (size_t i = 0; i < slots && !found; i++) {
        if (way[i].stamp == stamp && way[i].label == label && !is_dummy(&way[i])) {
            way[i] = DUMMY;
            found = 1;
        }
    }
    evict(way, s, label);
    kid = mend(out, way, beside, 1, &DUMMY, s, label);
    if (!settle(card, way, s, card[LIVE] - found, least_over(way, s->r, kid)))
        return 12;
    memcpy(words, out, path * sizeof *words);
    uint64_t moved = 4 * s->h * (2 * s->z + 3);
    if (extract)
        set_answer(answer, gone.key, gone.value, gone.label, gone.stamp, 0, moved);
    else
        set_answer(answer, 0, 0, 0, 0, found, moved);
    return 0;
}

uint64_t plain_finish(uint64_t *card, uint64_t *answer, uint64_t *words, size_t words_words)
{
    Sizes s;
    no_answer(answer);
    if (bad_card(card, &s))
        return 13;
    if (card[KIND] == NOTHING)
        return 3;
    if (card[KIND] == INSERT) {
        if (words_words < 8 * s.h * (s.z + 1) + 8 * s.h - 8)
            return 11;
        return finish_insert(card, answer, (Record *)words, &s);
    }
    if (words_words < 4 * s.h * (s.z + 2))
        return 11;
    return finish_removal(card, answer, (Record *)words, &s);
}
