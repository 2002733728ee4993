/* Why a chart is refused, and where: what the parts of the search share. Written from document 01 and the words of include/turnipcart.h. */
#ifndef CAUSES_H
#define CAUSES_H

#include "song.h"

/* 100 times the refusal's number, and the clause. */
enum {
    CAUSE_TEXT_LONG = 101,
    CAUSE_ZERO_BYTE = 201, CAUSE_NO_CHARACTER,
    CAUSE_METADATA_LATE = 301, CAUSE_DEFINITION_LATE,
    CAUSE_KEY_UNKNOWN = 401, CAUSE_KEY_NOT_HERE, CAUSE_KEY_TWICE, CAUSE_KEY_LATE,
    CAUSE_SETTING_MISSING = 501, CAUSE_SETTING_WRONG,
    CAUSE_HEAD_MALFORMED = 601, CAUSE_HEAD_TWICE, CAUSE_HEAD_TOO_MANY,
    CAUSE_NO_CHORD = 701, CAUSE_EXTENSION_LONG, CAUSE_REFERENCE_MALFORMED, CAUSE_SEPARATOR_FIRST, CAUSE_SEPARATOR_DOUBLED,
    CAUSE_SEPARATOR_LAST, CAUSE_SEPARATOR_LINE_END, CAUSE_SEPARATOR_LINE_START, CAUSE_REMOVER_FIRST, CAUSE_REMOVER_INSIDE,
    CAUSE_LOOP_EMPTY, CAUSE_LOOP_COUNT_MISSING, CAUSE_LOOP_COUNT_WRONG, CAUSE_LOOP_IN_LOOP, CAUSE_LOOP_OPEN, CAUSE_LOOP_NOT_OPEN,
    CAUSE_LOOP_LINE_END, CAUSE_NOT_PARTED, CAUSE_REFERENCE_NOT_HERE, CAUSE_COLON_NOT_HERE, CAUSE_SIDE_EMPTY,
    CAUSE_EXTENSION_SIGN,
    CAUSE_LINE_IN_METADATA = 801, CAUSE_PATTERN_LATE, CAUSE_MODIFIER_UNKNOWN, CAUSE_MODIFIER_TWICE, CAUSE_MODIFIER_EARLY,
    CAUSE_NAME_EMPTY, CAUSE_NAME_LONG, CAUSE_NO_PATTERN, CAUSE_DASHES_BARE,
    CAUSE_NO_SECTION = 901,
    CAUSE_REFERENCE_UNDEFINED = 1001,
    CAUSE_REFERENCE_DEEP = 1101, CAUSE_REFERENCE_LOOPS, CAUSE_REFERENCE_EMPTY,
    CAUSE_POSITIONS = 1201,
    CAUSE_NO_CHORD_BEFORE = 1301,
    CAUSE_SONG_LONG = 1401,
    CAUSE_CUTS_TAKE_ALL = 1501, CAUSE_MODIFIER_ON_EMPTY,
    CAUSE_COUNT_MISSING = 1601, CAUSE_COUNT_WRONG, CAUSE_COUNT_TIGHT, CAUSE_COUNT_ALONE,
    CAUSE_COUNT_SUM = 1701
};

/* Keys have the numbers of their table, modifiers those behind; then comes an unknown name. */
enum { FIRST_MODIFIER = READER_KEYS, UNKNOWN_NAME = FIRST_MODIFIER + MODIFIERS };

/* What is looked at: the song as far as its stages came, the line of its refusal (as a place in the list of lines), the block that this is
   in; and the cause as it is found. */
struct search {
    struct song *song;
    size_t line;
    struct span span;
    struct block block;
    struct reader_cause *cause;
};

/* causes.c: fills in the cause's kind and place; a line's number; a section's name in its header; the section whose block is searched. */
void place_at(struct search *search, size_t kind, struct span place);
size_t line_number(const struct song *song, size_t offset);
struct span name_in_header(const struct search *search);
struct section *section_of(const struct search *search);

/* Each finds the causes of some refusals. */
void search_keys(struct search *search);       /* 4, 5 */
void search_pattern(struct search *search);    /* 7 */
void search_section(struct search *search);    /* 8 */
void search_references(struct search *search); /* 10, 11 */
void search_measures(struct search *search);   /* 12, 13 */
void search_count(struct search *search);      /* 16 */
void search_sum(struct search *search);        /* 17 */

/* cause_prefix.c: the byte where a pattern text first stops being the beginning of a right text. */
size_t find_stop(const unsigned char *text, struct span span, enum text_kind kind);

#endif
