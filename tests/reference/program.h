/* What the parts of the program `reference` share: lent tables of chosen lengths, and the two ways to show an answer. */
#ifndef PROGRAM_H
#define PROGRAM_H

#include <stdbool.h>
#include <stdio.h>
#include "reader.h"

enum table { KEYS_TABLE, SECTIONS_TABLE, MEASURES_TABLE, BEATS_TABLE, ITEMS_TABLE, TABLES };

/* A table's length in words, or LARGE_ENOUGH for room for any song. */
#define LARGE_ENOUGH SIZE_MAX

#define FILL UINT32_C(0x5A5A5A5A) /* word i of lent memory starts as FILL + i, cut to its size */

struct lengths {
    size_t words[TABLES];
};

/* lent.c */
bool read_length(const char *word, size_t *length);
struct reader_tables lend_tables(struct lengths lengths);
void take_back_tables(struct reader_tables *tables);

/* calls.c */
bool answer_call(const char *name, char *header, bool show_whole);
void show_calls(void);

/* show.c */
void show_listing(const unsigned char *text, struct reader_answer answer, const struct reader_tables *tables);
void show_cause(const char *name, struct reader_cause cause);
void show_words(const char *name, struct reader_answer answer, const struct reader_tables *tables,
                struct lengths lengths, bool whole);

#endif
