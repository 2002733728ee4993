/* Lent tables for the program: each exactly as long as asked, filled with a known pattern so that untouched words are known. */
#include <stdlib.h>
#include <string.h>
#include "program.h"

/* Room for any song: a section takes at least five bytes of the text, an item at least four. */
static const size_t large_enough[TABLES] = {
    READER_KEYS, READER_TEXT_LIMIT, READER_MEASURE_LIMIT, (size_t)READER_MEASURE_LIMIT * READER_TIME_LIMIT, READER_TEXT_LIMIT,
};

enum { LENGTH_LIMIT = 1 << 24 };        /* longest table that can be asked for, in words */

/* A decimal number of words, or `-`. */
bool read_length(const char *word, size_t *length)
{
    if (strcmp(word, "-") == 0) {
        *length = LARGE_ENOUGH;
        return true;
    }
    size_t digits = strspn(word, "0123456789");
    unsigned long long value = strtoull(word, NULL, 10);
    *length = (size_t)value;
    return digits > 0 && word[digits] == '\0' && value <= LENGTH_LIMIT;
}

static size_t real_length(struct lengths lengths, enum table table)
{
    return lengths.words[table] == LARGE_ENOUGH ? large_enough[table] : lengths.words[table];
}

static void *lend(size_t length, size_t size)
{
    void *memory = malloc(length > 0 ? length * size : 1);
    if (memory == NULL) {
        fprintf(stderr, "reference: no memory\n");
        exit(EXIT_FAILURE);
    }
    return memory;
}

/* A table of a given length is filled; a large one isn't, as none of its words past the counts is shown. */
static uint32_t *lend_small_words(struct lengths lengths, enum table table, size_t *length)
{
    *length = real_length(lengths, table);
    uint32_t *words = lend(*length, sizeof *words);
    for (size_t place = 0; place < *length && lengths.words[table] != LARGE_ENOUGH; place++)
        words[place] = FILL + (uint32_t)place;
    return words;
}

static uint64_t *lend_wide_words(struct lengths lengths, enum table table, size_t *length)
{
    *length = real_length(lengths, table);
    uint64_t *words = lend(*length, sizeof *words);
    for (size_t place = 0; place < *length && lengths.words[table] != LARGE_ENOUGH; place++)
        words[place] = FILL + (uint64_t)place;
    return words;
}

struct reader_tables lend_tables(struct lengths lengths)
{
    struct reader_tables tables;
    tables.keys = lend_small_words(lengths, KEYS_TABLE, &tables.keys_length);
    tables.sections = lend_wide_words(lengths, SECTIONS_TABLE, &tables.sections_length);
    tables.measures = lend_small_words(lengths, MEASURES_TABLE, &tables.measures_length);
    tables.beats = lend_small_words(lengths, BEATS_TABLE, &tables.beats_length);
    tables.items = lend_wide_words(lengths, ITEMS_TABLE, &tables.items_length);
    return tables;
}

void take_back_tables(struct reader_tables *tables)
{
    free(tables->keys);
    free(tables->sections);
    free(tables->measures);
    free(tables->beats);
    free(tables->items);
}
