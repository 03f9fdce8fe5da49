/* The same job as nwidarap.h in plain C, for the bench: the same calls on the same words, refusals and all. */
#ifndef PLAIN_H
#define PLAIN_H

#include <stddef.h>
#include <stdint.h>

uint64_t plain_start(uint64_t *card, uint64_t *answer, uint64_t h, uint64_t z, uint64_t r, uint64_t t);
uint64_t plain_insert(uint64_t *card, uint64_t *answer, uint64_t key, uint64_t value, uint64_t label, uint64_t first,
                      uint64_t second, uint64_t *list, size_t list_words);
uint64_t plain_extract(uint64_t *card, uint64_t *answer, uint64_t *list, size_t list_words);
uint64_t plain_delete(uint64_t *card, uint64_t *answer, uint64_t label, uint64_t stamp, uint64_t *list,
                      size_t list_words);
uint64_t plain_find_min(uint64_t *card, uint64_t *answer);
uint64_t plain_withdraw(uint64_t *card, uint64_t *answer);
uint64_t plain_finish(uint64_t *card, uint64_t *answer, uint64_t *words, size_t words_words);
uint64_t plain_fill(uint64_t *answer, uint64_t h, uint64_t z, uint64_t *tree, size_t tree_words);
uint64_t plain_fetch(uint64_t *answer, uint64_t h, uint64_t z, size_t whole, size_t least, const uint64_t *list,
                     size_t list_words, const uint64_t *tree, size_t tree_words, uint64_t *words, size_t words_words);
uint64_t plain_store(uint64_t *answer, uint64_t h, uint64_t z, size_t whole, size_t least, const uint64_t *list,
                     size_t list_words, const uint64_t *words, size_t words_words, uint64_t *tree, size_t tree_words);

#endif
