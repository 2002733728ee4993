/* What the parts of the second reader share: the song as it is being read, and the calls between the files. */
#ifndef SONG_H
#define SONG_H

#include <stdbool.h>
#include "reader.h"

enum {
    COUNT_LIMIT = 9999,      /* largest count, and n in $n */
    SMALLEST_REPEAT = 2,     /* loops and repeats start here */
    DEFINITION_LIMIT = 26,
    NAME_LIMIT = 50,         /* characters of a section's name */
    DEFAULT_TIME = 4,
    BASE_CHORDS = 34,
    NO_BPM = 511,            /* written where neither section nor song has one */
    SILENCE = 63             /* the base written for silence */
};

/* Bytes start to end - 1 of the file. */
struct span {
    size_t start;
    size_t end;
};

enum block_kind { METADATA_BLOCK, DEFINITION_BLOCK, SECTION_BLOCK };

/* Lines first to last of the file, as places in the list of lines (line number less one). */
struct block {
    enum block_kind kind;
    size_t first;
    size_t last;
};

/* A part of a beat word: the base chord, or silence, and where its extension stands. */
struct chord {
    unsigned base;
    size_t extension;
    size_t extension_length;
};

enum token_kind {
    TOKEN_END,
    TOKEN_BAD,
    TOKEN_SEPARATOR,
    TOKEN_OPEN,
    TOKEN_CLOSE,
    TOKEN_REFERENCE,
    TOKEN_CHORD,
    TOKEN_REPEAT,
    TOKEN_SILENCE,
    TOKEN_REMOVER
};

struct token {
    enum token_kind kind;
    unsigned number;     /* of TOKEN_CLOSE the loop count, of TOKEN_REFERENCE the n of $n */
    struct chord chord;  /* of TOKEN_CHORD */
};

enum text_kind { DEFINITION_TEXT, SECTION_TEXT, JOINED_TEXT };

/* What is known of a pattern text with its references put in, before it is written out. */
struct facts {
    uint64_t sizes;      /* bit p is 1 if some measure has p positions; the top bit stands for all p over the limit */
    uint64_t measures;   /* with loops written out */
    bool has_chord;
    bool needs_chord;    /* some % has no chord before it in this text */
};

struct definition {
    unsigned number;
    size_t head_line;
    bool is_empty;
    struct span text;
    bool has_loop;
    bool has_reference;
    struct facts facts;
};

/* A cut: a number of measures and a number of beats, never one for the other. */
struct cut {
    unsigned measures;
    unsigned beats;
};

/* A lead-in or a tail. */
struct joined {
    bool present;
    size_t line;
    struct span text;
    struct facts facts;
};

struct section {
    size_t header_line;
    unsigned time;               /* 0 until known */
    unsigned bpm;
    struct span text;
    unsigned reference;          /* n if the pattern is $n, else 0 */
    bool has_modifier;
    unsigned repeat;
    struct cut cut_start;
    struct cut cut_end;
    struct joined before;
    struct joined after;
    bool has_lyrics;
    struct block lyrics;         /* its lyric lines, if it has some */
    bool is_empty;               /* the pattern is an empty definition */
    struct facts facts;
    size_t first_measure;
    size_t measures;
};

/* A measure as played: its beats are in the song's row of beats. */
struct played_measure {
    size_t first_beat;
    size_t beats;
};

struct lyric {
    struct span text;
    unsigned count;              /* 0 if it has none */
    unsigned style;
};

struct song {
    const unsigned char *text;
    size_t length;
    unsigned refusal;
    size_t refusal_line;
    struct span *lines;          /* without the blanks at both ends */
    size_t line_count;
    struct block *blocks;
    size_t block_count;
    bool key_present[READER_KEYS];
    struct span key_setting[READER_KEYS];
    unsigned time;
    unsigned bpm;
    struct definition definitions[DEFINITION_LIMIT];
    size_t definition_count;
    struct section *sections;
    size_t section_count;
    struct played_measure *measures;
    size_t measure_count;
    size_t measure_room;
    uint32_t *beats;
    size_t beat_count;
    size_t beat_room;
    size_t beats_to_write;
    size_t items_to_write;
};

/* text.c */
void *take_memory(size_t count, size_t size);
void *more_memory(void *old, size_t needed, size_t *room, size_t size);
void note_refusal(struct song *song, unsigned refusal, size_t line);
bool is_blank(unsigned char byte);
bool is_line_end(unsigned char byte);
size_t character_length(const unsigned char *text, size_t left);
void check_text(struct song *song);
void find_lines(struct song *song);
size_t count_characters(const unsigned char *text, struct span span);
bool read_number(const unsigned char *text, struct span span, unsigned least, unsigned most, unsigned *number);
bool span_is(const unsigned char *text, struct span span, const char *word);
void split_name(const unsigned char *text, struct span line, struct span *name, struct span *setting);

/* chord.c */
const char *base_name(unsigned base);
bool read_chord(const unsigned char *text, struct span word, struct chord *chord);
bool has_slip(const unsigned char *text, struct span word);

/* pattern.c */
bool ends_word(unsigned char byte);
struct span word_from(const unsigned char *text, struct span whole, size_t position);
bool skip_blanks(const unsigned char *text, struct span whole, size_t *position);
struct token word_token(const unsigned char *text, struct span word);
bool is_position(enum token_kind kind);
struct token next_token(const unsigned char *text, struct span text_span, size_t *position);
bool read_reference(const unsigned char *text, struct span word, unsigned *number);
bool has_byte(const unsigned char *text, struct span span, unsigned char byte);
bool pattern_is_good(const unsigned char *text, struct span span, enum text_kind kind);

/* references.c */
struct definition *find_definition(struct song *song, size_t among, unsigned number);
void check_references(struct song *song);
void gather_all_facts(struct song *song);

/* keys.c: the keys in the order of their table. */
enum key { NAME_KEY, ARTIST_KEY, ORIGINAL_KEY, CAPO_KEY, BPM_KEY, TIME_KEY, WARNING_KEY, END_KEY, UNKNOWN_KEY };
enum key find_key(const unsigned char *text, struct span name);
bool read_bpm(const unsigned char *text, struct span setting, unsigned *bpm);
bool read_time(const unsigned char *text, struct span setting, unsigned *time);
void read_metadata_block(struct song *song, struct block block);
void read_section_key(struct song *song, struct section *section, size_t line, bool out_of_place);

/* modifiers.c */
enum modifier { REPEAT_MODIFIER, CUT_START_MODIFIER, CUT_END_MODIFIER, BEFORE_MODIFIER, AFTER_MODIFIER, MODIFIERS };
enum modifier find_modifier(const unsigned char *text, struct span name);
void read_modifier(struct song *song, struct section *section, size_t line, bool seen[MODIFIERS], bool out_of_place);

/* section.c */
bool is_modifier_line(const struct song *song, size_t line);
void read_section_block(struct song *song, struct block block);

/* layout.c */
void read_layout(struct song *song);

/* play.c */
void check_time_and_repeats(struct song *song);
void play_song(struct song *song);

/* lyrics.c */
bool is_taken(const struct section *section);
struct lyric read_lyric(const struct song *song, size_t line);
void check_counts_present(struct song *song);
void check_count_sums(struct song *song);
size_t count_items(const struct song *song);

/* stages.c: stages 1 to 7, and 8 if there are tables; what the song then holds is given back. */
void run_stages(struct song *song, const struct reader_tables *tables);
void free_song(struct song *song);

/* tables.c */
uint32_t pack_beat(struct chord chord, bool head);
void write_tables(const struct song *song, const struct reader_tables *tables);

#endif
