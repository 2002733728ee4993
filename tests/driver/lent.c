/* Lent memory with guard words and a pattern. */
#include "lent.h"
#include <stdint.h>
#include <stdio.h>
#include <stdlib.h>
#include <string.h>

enum { NEAR = 1024 }; /* words looked at on each side after every call; all are looked at when a list ends */

#define FILL UINT64_C(0x5A5A5A5A) /* word i of the lent ones starts as FILL + i, cut to its size */

static unsigned char *memory_of(const struct lent *lent)
{
    unsigned char *memory = malloc((lent->room + 2 * GUARD) * lent->size);
    if (memory == NULL) {
        fprintf(stderr, "no memory\n");
        exit(2);
    }
    return memory;
}

/* Words are little-endian on the machines that the library is for. */
static void make_memory(struct lent *lent)
{
    lent->memory = memory_of(lent);
    lent->pattern = memory_of(lent);
    for (size_t place = 0; place < lent->room + 2 * GUARD; place++) {
        uint64_t word = FILL + place - GUARD;
        memcpy(lent->pattern + place * lent->size, &word, lent->size);
    }
    memcpy(lent->memory, lent->pattern, (lent->room + 2 * GUARD) * lent->size);
}

/* The words from one place to another are the pattern's; places count from the first guard word. */
static bool has_pattern(const struct lent *lent, size_t from, size_t to)
{
    return memcmp(lent->memory + from * lent->size, lent->pattern + from * lent->size, (to - from) * lent->size) == 0;
}

void lend(struct lent *lent, size_t length)
{
    lent->length = length;
    if (lent->memory != NULL && length <= lent->room)
        return;
    free(lent->memory);
    free(lent->pattern);
    lent->room = length;
    make_memory(lent);
}

void *words_of(const struct lent *lent)
{
    return lent->memory + GUARD * lent->size;
}

unsigned long long word_at(const struct lent *lent, size_t place)
{
    const unsigned char *word = lent->memory + (GUARD + place) * lent->size;
    uint64_t value = 0;
    memcpy(&value, word, lent->size);
    return value;
}

void spoil_word(struct lent *lent, size_t place)
{
    lent->memory[(GUARD + place) * lent->size] ^= 1;
}

bool is_kept(const struct lent *lent, size_t used)
{
    size_t start = GUARD + used;
    size_t end = GUARD + lent->length;
    size_t near_start = end - start < NEAR ? end : start + NEAR;
    size_t near_end = end - start < NEAR ? start : end - NEAR;
    return has_pattern(lent, 0, GUARD) && has_pattern(lent, start, near_start) && has_pattern(lent, near_end, end + GUARD);
}

void take_back(struct lent *lent, size_t used)
{
    memcpy(words_of(lent), lent->pattern + GUARD * lent->size, used * lent->size);
}

bool is_restored(const struct lent *lent)
{
    return lent->memory == NULL || has_pattern(lent, 0, lent->room + 2 * GUARD);
}
