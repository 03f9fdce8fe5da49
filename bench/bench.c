/* The bench: a request's begin, fetch, finish and store, in the proved code and in plain C, side by side in one run, with an
 * ordinary binary heap and a bare copy of the words moved. bench/run builds and runs it; docs/BENCH.md has a table.
 *
 * One turn is an Insert and an ExtractMin, so that the list keeps its length. Keys are those of a due list: the key that left last,
 * and something more. The contestants play the same short round of turns one after the other, and many such rounds. A ratio is the
 * median of the rounds' ratios: what else the machine does falls on neighbours alike, or on few rounds. A time is that of the
 * quickest round. The proved code and plain C must leave the same words.
 */
#include <stdio.h>
#include <stdlib.h>
#include <string.h>
#include <time.h>

#include "../crates/driver/nwidarap.h"
#include "plain.h"

enum { TURNS = 200, ROUNDS = 61, LIST = 62, WORDS = 888 };

typedef struct {
    uint64_t h, z, r, n;
    size_t tree_words;
} Sizes;

/* What a turn draws; the same for every contestant. */
typedef struct {
    uint64_t more, value, label, first, second;
} Draw;

static Draw draws[TURNS];
static uint64_t seed, overflows;

static uint64_t drawn(void) /* xorshift64* */
{
    seed ^= seed >> 12, seed ^= seed << 25, seed ^= seed >> 27;
    return seed * 2685821657736338717u;
}

static Draw draw(const Sizes *s)
{
    uint64_t bits = drawn(), leaves = drawn();
    return (Draw){bits >> 32, bits, leaves % s->n, (leaves >> 20) % (s->n / 2), s->n / 2 + (leaves >> 40) % (s->n / 2)};
}

static double now(void)
{
    struct timespec t;
    clock_gettime(CLOCK_PROCESS_CPUTIME_ID, &t);
    return t.tv_sec * 1e9 + t.tv_nsec;
}

static void fail(const char *why)
{
    printf("bench: %s\n", why);
    exit(1);
}

/* ---- A heap of this project: the calls of one contestant, and its state. */

typedef struct {
    uint64_t (*insert)(uint64_t *, uint64_t *, uint64_t, uint64_t, uint64_t, uint64_t, uint64_t, uint64_t *, size_t);
    uint64_t (*extract)(uint64_t *, uint64_t *, uint64_t *, size_t);
    uint64_t (*finish)(uint64_t *, uint64_t *, uint64_t *, size_t);
    uint64_t (*fetch)(uint64_t *, uint64_t, uint64_t, size_t, size_t, const uint64_t *, size_t, const uint64_t *, size_t,
                      uint64_t *, size_t);
    uint64_t (*store)(uint64_t *, uint64_t, uint64_t, size_t, size_t, const uint64_t *, size_t, const uint64_t *, size_t,
                      uint64_t *, size_t);
} Calls;

static const Calls proved = {nwidarap_insert, nwidarap_extract, nwidarap_finish, nwidarap_fetch, nwidarap_store};
static const Calls plain = {plain_insert, plain_extract, plain_finish, plain_fetch, plain_store};

typedef struct {
    uint64_t card[NWIDARAP_CARD_WORDS], answer[NWIDARAP_ANSWER_WORDS], list[LIST], words[WORDS];
    uint64_t *tree;
    uint64_t last, overflows, sum; /* the key that left last; Inserts refused with 10; a sum over all answers */
} State;

static uint64_t request(const Calls *c, State *w, const Sizes *s, uint64_t begun)
{
    if (begun != 0)
        return begun;
    size_t whole = w->answer[0], least = w->answer[1];
    uint64_t stored[NWIDARAP_ANSWER_WORDS];
    if (c->fetch(stored, s->h, s->z, whole, least, w->list, LIST, w->tree, s->tree_words, w->words, WORDS) != 0)
        fail("a fetch is refused");
    if (c->finish(w->card, w->answer, w->words, WORDS) != 0)
        fail("a finish is refused");
    if (c->store(stored, s->h, s->z, whole, least, w->list, LIST, w->words, WORDS, w->tree, s->tree_words) != 0)
        fail("a store is refused");
    return 0;
}

static uint64_t insert(const Calls *c, State *w, const Sizes *s, uint64_t key, const Draw *d)
{
    return request(c, w, s, c->insert(w->card, w->answer, key, d->value, d->label, d->first, d->second, w->list, LIST));
}

static uint64_t extract(const Calls *c, State *w, const Sizes *s)
{
    return request(c, w, s, c->extract(w->card, w->answer, w->list, LIST));
}

/* An Insert that overflows the root leaves the list as it was; the turn then has no ExtractMin. */
static double play(const Calls *c, State *w, const Sizes *s)
{
    double began = now();
    for (int i = 0; i < TURNS; i++) {
        uint64_t said = insert(c, w, s, w->last + draws[i].more, &draws[i]);
        if (said == NWIDARAP_OVERFLOW) {
            w->overflows++;
            continue;
        }
        if (said != 0 || extract(c, w, s) != 0)
            fail("a begin is refused");
        w->last = w->answer[0];
        w->sum = w->sum * 31 + w->answer[0] + w->answer[3] + w->answer[5];
    }
    return now() - began;
}

/* A list of so many events, made by plain C. */
static void grow(State *w, const Sizes *s, uint64_t live)
{
    if (plain_start(w->card, w->answer, s->h, s->z, s->r, UINT32_MAX) != 0 ||
        plain_fill(w->answer, s->h, s->z, w->tree, s->tree_words) != 0)
        fail("a start is refused");
    while (w->card[5] < live) {
        Draw d = draw(s);
        if (insert(&plain, w, s, d.more, &d) == NWIDARAP_OVERFLOW && extract(&plain, w, s) != 0)
            fail("an extract is refused");
    }
}

/* ---- An ordinary binary heap of the same events, by key and then by stamp. */

typedef struct {
    uint64_t key, value, stamp;
} Event;

typedef struct {
    Event *at;
    size_t count;
    uint64_t stamp, last, sum;
} Binary;

static int before(const Event *a, const Event *b)
{
    return a->key < b->key || (a->key == b->key && a->stamp < b->stamp);
}

static void binary_insert(Binary *b, uint64_t key, uint64_t value)
{
    Event new = {key, value, b->stamp++};
    size_t i = b->count++;
    for (; i > 0 && before(&new, &b->at[(i - 1) / 2]); i = (i - 1) / 2)
        b->at[i] = b->at[(i - 1) / 2];
    b->at[i] = new;
}

static Event binary_extract(Binary *b)
{
    Event least = b->at[0], last = b->at[--b->count];
    size_t i = 0;
    for (size_t kid = 1; kid < b->count; kid = 2 * i + 1) {
        if (kid + 1 < b->count && before(&b->at[kid + 1], &b->at[kid]))
            kid++;
        if (!before(&b->at[kid], &last))
            break;
        b->at[i] = b->at[kid];
        i = kid;
    }
    b->at[i] = last;
    return least;
}

static double play_binary(Binary *b)
{
    double began = now();
    for (int i = 0; i < TURNS; i++) {
        binary_insert(b, b->last + draws[i].more, draws[i].value);
        Event least = binary_extract(b);
        b->last = least.key;
        b->sum = b->sum * 31 + least.key + least.stamp;
    }
    return now() - began;
}

/* ---- The words moved, and no more: what a turn fetches and stores, copied out of the tree and back. */

static void copy_whole(uint64_t *tree, uint64_t *words, const Sizes *s, uint64_t leaf)
{
    size_t bucket = 4 * (s->z + 1);
    for (uint64_t level = 1; level <= s->h; level++)
        memcpy(words + bucket * (level - 1), tree + bucket * (((s->n + leaf) >> (s->h - level)) - 2), 8 * bucket);
    for (uint64_t level = 1; level <= s->h; level++)
        memcpy(tree + bucket * (((s->n + leaf) >> (s->h - level)) - 2), words + bucket * (level - 1), 8 * bucket);
}

static void copy_least(const uint64_t *tree, uint64_t *words, const Sizes *s, uint64_t leaf, uint64_t from)
{
    size_t bucket = 4 * (s->z + 1);
    for (uint64_t level = from; level <= s->h; level++)
        memcpy(words + 4 * level, tree + bucket * ((((s->n + leaf) >> (s->h - level)) ^ 1) - 2), 8 * 4);
}

static uint64_t copied; /* so that no copy can be left out */

static double play_copy(uint64_t *tree, const Sizes *s)
{
    static uint64_t words[WORDS];
    double began = now();
    for (int i = 0; i < TURNS; i++) {
        copy_whole(tree, words, s, draws[i].first);
        copy_whole(tree, words, s, draws[i].second);
        copy_least(tree, words, s, draws[i].first, 2);
        copy_least(tree, words, s, draws[i].second, 2);
        copy_whole(tree, words, s, draws[i].label);
        copy_least(tree, words, s, draws[i].label, 1);
        copied += words[0];
    }
    return now() - began;
}

/* ---- One line of the table. */

static void *room(size_t size)
{
    void *p = malloc(size);
    if (p == NULL)
        fail("no memory");
    return p;
}

static int by_size(const void *a, const void *b)
{
    double x = *(const double *)a, y = *(const double *)b;
    return (x > y) - (x < y);
}

static double median(double *some)
{
    qsort(some, ROUNDS, sizeof *some, by_size);
    return some[ROUNDS / 2];
}

static double quickest(const double *some)
{
    double best = some[0];
    for (int i = 1; i < ROUNDS; i++)
        best = some[i] < best ? some[i] : best;
    return best / TURNS;
}

static void check_same(const State *one, const State *two, const Sizes *s)
{
    if (one->overflows != two->overflows || one->sum != two->sum ||
        memcmp(one->card, two->card, sizeof one->card) != 0 || memcmp(one->tree, two->tree, 8 * s->tree_words) != 0)
        fail("the proved code and plain C differ");
}

static void measure(const Sizes *s, const char *fill, uint64_t live)
{
    static State one, two;
    size_t bytes = 8 * s->tree_words;
    uint64_t *trees[3] = {room(bytes), room(bytes), room(bytes)};
    Binary binary = {room((live + 1) * sizeof(Event)), 0, 0, 0, 0};
    memset(&one, 0, sizeof one);
    one.tree = trees[0];
    seed = 88172645463325252u;
    grow(&one, s, live);
    two = one;
    two.tree = trees[1];
    memcpy(two.tree, one.tree, bytes);
    memcpy(trees[2], one.tree, bytes);
    for (uint64_t i = 0; i < live; i++)
        binary_insert(&binary, drawn() >> 32, i);

    static double ours[ROUNDS], c[ROUNDS], heap[ROUNDS], copy[ROUNDS];
    for (int round = 0; round < ROUNDS; round++) {
        for (int i = 0; i < TURNS; i++)
            draws[i] = draw(s);
        ours[round] = play(&proved, &one, s);
        c[round] = play(&plain, &two, s);
        heap[round] = ours[round] / play_binary(&binary);
        copy[round] = ours[round] / play_copy(trees[2], s);
    }
    check_same(&one, &two, s);

    overflows += one.overflows;
    printf("| %2d | %d | %2d | %s | %6.0f | %6.0f ", (int)s->h, (int)s->z, (int)s->r, fill, quickest(ours), quickest(c));
    for (int round = 0; round < ROUNDS; round++)
        c[round] = ours[round] / c[round];
    printf("| %5.2f | %5.0f | %5.1f |\n", median(c), median(heap), median(copy));
    fflush(stdout);
    free(trees[0]), free(trees[1]), free(trees[2]), free(binary.at);
}

int main(void)
{
    static const int heights[] = {4, 8, 12, 16}, slots[] = {2, 5}, roots[] = {20, 64};
    printf("| h | Z | R | list | proved, ns | plain C, ns | proved / plain C | proved / binary heap | proved / copy |\n");
    printf("|---|---|---|---|---|---|---|---|---|\n");
    for (int i = 0; i < 4; i++)
        for (int j = 0; j < 2; j++)
            for (int k = 0; k < 2; k++) {
                uint64_t n = (uint64_t)1 << heights[i];
                Sizes s = {heights[i], slots[j], roots[k], n, 4 * (slots[j] + 1) * (2 * n - 2)};
                measure(&s, "a quarter  ", n / 4);
                measure(&s, "nearly full", n - n / 16);
            }
    printf("%d Inserts were refused with 10.\n", (int)overflows);
    return 0;
}
