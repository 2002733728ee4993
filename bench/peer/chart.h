/* What the parts of the peer share: the chart while it is read, and the score that its pattern texts are laid into.

   A row of the score is what one pattern text says. A measure is a head (its kept positions above, all its positions below) and a word for
   each kept position: the word of its first beat. A loop is a head (its count above, 0 below), the measures of one pass, the words of one pass,
   and these words. A reference is a head (REFERENCE above, 0 below), the definition's place, and the chord before it or 0. */
#ifndef CHART_H
#define CHART_H

#include <stdbool.h>
#include <stddef.h>
#include <stdint.h>

enum {
    TEXT_LIMIT = 65536,
    SONG_MEASURES = 65535,
    MOST_DEFINITIONS = 26,
    MOST_SECTIONS = 13107, /* a section takes five bytes, the last one three */
    MOST_ITEMS = 13107,    /* and so does a counted line */
    SCORE_WORDS = TEXT_LIMIT + 16,
    MOST_TIME = 32,
    MOST_NUMBER = 9999,
    NO_NUMBER = 10000,
    NO_BPM = 511,
    KEYS = 8
};

enum { STAGE_TEXT = 2, STAGE_REFERENCES, STAGE_TIME, STAGE_LENGTH, STAGES };

/* Parts of the score's words. */
enum { ABOVE = 16, BELOW = 0xFFFF, REFERENCE = 1, LOOP_WORDS = 3, REFERENCE_WORDS = 3 };
enum { BASE_AT = 26, OFFSET_AT = 10, LENGTH_AT = 5, HEAD = 16, OPEN_PERCENT = 1 }; /* a `%` with no chord before it in its own text */
enum { FIRST_BEAT_AT = 11, BEATS_AT = 5 };

/* A part of the score, and the measures it plays once. */
struct row {
    uint32_t at;
    uint32_t words;
    uint64_t measures;
};

/* What is known of a row beside. */
struct text {
    struct row row;
    uint64_t positions; /* bit p: a measure has p positions; bit 0: one has over 32 */
    uint32_t last;      /* the word of its last chord, 0 if it has none */
    bool open;          /* it has a `%` with no chord before */
    bool loops;
    bool references;
};

struct definition {
    unsigned number;
    struct text text;
};

struct section {
    struct row pattern;
    struct row before;
    struct row after;
    uint32_t line;
    uint32_t first, last;  /* measures of the repeated pattern that cuts leave, the last not among them */
    uint32_t front, back;  /* beats that cuts take from the first and the last of these */
    uint32_t measures;     /* with lead-in and tail */
    uint32_t time;
    uint32_t bpm;
    uint64_t counted;      /* sum of its lyric lines' counts */
    bool lyrics;
};

struct chart {
    const unsigned char *text, *end;
    const unsigned char *next;      /* where the next line starts */
    const unsigned char *at, *stop; /* the line read last, without the blanks at its ends */
    uint32_t line;
    uint64_t faults[STAGES];        /* of each stage the earliest line, and the lowest number on it */
    uint32_t keys[KEYS];
    uint32_t time, bpm;
    uint32_t definition_count, section_count, item_count;
    uint32_t words;                 /* of the score */
    uint32_t bare_line;             /* the first taken lyric line without a count, or 0 */
    bool counted;                   /* a taken lyric line has a count */
    bool whole;                     /* every section has lyrics and a pattern that isn't empty */
    uint64_t measures;              /* of the song before cuts */
    uint64_t played, beats;         /* after cuts */
    struct definition definitions[MOST_DEFINITIONS];
    struct section sections[MOST_SECTIONS];
    uint64_t items[MOST_ITEMS];     /* words of the items table without their first measures */
    uint32_t score[SCORE_WORDS];
    unsigned char lengths[SONG_MEASURES]; /* beats of the measures of the pattern that is cut */
};

/* lines.c */
size_t peer_bad_text_line(const unsigned char *text, const unsigned char *end);
bool peer_next_line(struct chart *chart);
bool peer_next_line_of_block(struct chart *chart);
void peer_fault(struct chart *chart, unsigned stage, uint32_t line, unsigned number);
const unsigned char *peer_read_number(const unsigned char *at, const unsigned char *stop, unsigned *number);
unsigned peer_whole_number(const unsigned char *at, const unsigned char *stop);
size_t peer_characters(const unsigned char *at, const unsigned char *stop);
const unsigned char *peer_word_end(const unsigned char *at, const unsigned char *stop);
const unsigned char *peer_past_blanks(const unsigned char *at, const unsigned char *stop);

/* keys.c */
void peer_read_song_key(struct chart *chart);
void peer_read_section_key(struct chart *chart, bool in_place, uint32_t *time, uint32_t *bpm);

/* pattern.c */
enum place { START, ITEM, SEMICOLON_BEFORE, COLON_BEFORE, LINE_END_BEFORE, BRACKET_BEFORE };

struct pattern {
    struct chart *chart;
    struct text text;
    uint32_t *out;
    uint32_t *loop;          /* the loop that is open, or NULL */
    uint64_t loop_measures;  /* measures before it */
    uint32_t block_line;     /* of a definition's first line; 0 where references are not allowed */
    enum place place;
    bool bad;
};

void peer_begin_pattern(struct pattern *pattern, struct chart *chart, uint32_t block_line);
void peer_read_pattern_line(struct pattern *pattern, const unsigned char *at, const unsigned char *stop);
bool peer_end_pattern(struct pattern *pattern);
const unsigned char *peer_read_base(const unsigned char *at, const unsigned char *stop, unsigned *base);
struct definition *peer_find_definition(struct chart *chart, unsigned number);

/* blocks.c, sections.c */
void peer_read_blocks(struct chart *chart);
void peer_read_section(struct chart *chart);

/* judge.c */
struct cut {
    unsigned measures, beats;
};

struct played {
    struct section *section;
    const struct text *pattern, *before, *after;
    uint32_t before_line, after_line;
    unsigned repeat;
    struct cut start, end;
    bool modified;
};

void peer_judge_section(struct chart *chart, struct played *played);

/* play.c */
void peer_play_song(const struct chart *chart, uint32_t *measures, uint32_t *beats);

#endif
