/* The second reader of SongCode charts: its calls, for any C program to link.
   Written from documents 01 and 02 alone, apart from the proved reader, to be compared with it. */
#ifndef READER_H
#define READER_H

#include <stddef.h>
#include <stdint.h>

enum {
    READER_TEXT_LIMIT = 65536,    /* bytes of a chart */
    READER_MEASURE_LIMIT = 65535, /* measures of a song, before cuts */
    READER_TIME_LIMIT = 32,       /* beats of a measure */
    READER_KEYS = 8               /* words of the keys table */
};

/* The refusals, numbered as in documents 01 and 02. */
enum reader_refusal {
    READER_ACCEPTED = 0,
    REFUSED_TEXT_TOO_LONG = 1,
    REFUSED_BAD_TEXT = 2,
    REFUSED_BLOCK_ORDER = 3,
    REFUSED_KEY = 4,
    REFUSED_SETTING = 5,
    REFUSED_DEFINITION_HEAD = 6,
    REFUSED_PATTERN_TEXT = 7,
    REFUSED_LINE = 8,
    REFUSED_NO_SECTION = 9,
    REFUSED_REFERENCE_UNDEFINED = 10,
    REFUSED_REFERENCE_KIND = 11,
    REFUSED_DIVISION = 12,
    REFUSED_NO_CHORD_BEFORE = 13,
    REFUSED_SONG_TOO_LONG = 14,
    REFUSED_NOTHING_LEFT = 15,
    REFUSED_COUNT_MISSING = 16,
    REFUSED_COUNT_SUM = 17,
    REFUSED_TABLE_TOO_SHORT = 18,
    REFUSED_BEAT_NOT_FOUND = 19,
    REFUSED_COPY_TOO_LONG = 20,
    REFUSED_MOVE = 21,
    REFUSED_BEAT_WORD = 22,
    REFUSED_TABLES_APART = 25,
    REFUSED_TEMPO = 26
};

/* The memory lent to a call: five tables, each with its length in words. */
struct reader_tables {
    uint32_t *keys;
    size_t keys_length;
    uint64_t *sections;
    size_t sections_length;
    uint32_t *measures;
    size_t measures_length;
    uint32_t *beats;
    size_t beats_length;
    uint64_t *items;
    size_t items_length;
};

/* The answer: refusal 0, line 0 and the four counts, or a refusal with its line and counts of 0. */
struct reader_answer {
    unsigned refusal;
    size_t line;
    size_t sections;
    size_t measures;
    size_t beats;
    size_t items;
};

struct reader_place {
    unsigned refusal;
    size_t place;
    size_t probes;
};

/* Reads a chart into the tables. A refusal changes no table word; words past the counts keep what they held.
   Uses memory of its own in proportion to the text and the song; ends the program if there is none. */
struct reader_answer reader_read(const unsigned char *text, size_t length, const struct reader_tables *tables);

/* Searches any measures table for the beat by halving: the place of a record that holds it, or refusal 19 and place 0, and how many
   records were read. */
struct reader_place reader_find(const uint32_t *measures, size_t length, uint32_t beat);

/* The answer that the reader gives where every table is long enough. */
struct reader_answer reader_count(const unsigned char *text, size_t length);

/* Why a chart is refused, and where: the ten numbers of include/turnipcart.h. */
struct reader_cause {
    size_t refusal;
    size_t line;
    size_t cause;
    size_t place_line;
    size_t offset;
    size_t length;
    size_t other_line;
    size_t first;
    size_t second;
    size_t third;
};

struct reader_cause reader_explain(const unsigned char *text, size_t length);

/* The answer of a copy: refusal 0, line 0 and the bytes written, or a refusal with its line and length 0. */
struct reader_copied {
    unsigned refusal;
    size_t line;
    size_t length;
};

/* A copy of the song with nothing folded, into the buffer. */
struct reader_copied reader_flat(const unsigned char *text, size_t length, unsigned char *buffer, size_t buffer_length);

/* Moves a beat table by semitones into a second one; the refusal. */
unsigned reader_concert(const uint32_t *beats, size_t length, int32_t move, uint32_t *second, size_t second_length);

/* The tables that say when a song's measures are played. */
struct reader_song {
    const uint64_t *sections;
    size_t sections_length;
    const uint32_t *measures;
    size_t measures_length;
};

/* The start of each measure in microseconds, and the song's end, which is 0 after a refusal; the refusal. */
unsigned reader_cues(const struct reader_song *song, uint64_t *cues, size_t cues_length, uint64_t *end);

#endif
