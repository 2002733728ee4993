/* A text that may hold anything, taken apart for people: characters, lines, words. Freestanding, as all of this folder: the page for
   phones compiles it too. */
#ifndef TEXT_H
#define TEXT_H

#include <stdbool.h>
#include <stddef.h>
#include <stdint.h>

/* The code of a byte that begins no whole character. */
#define NO_CHARACTER UINT32_MAX

struct character {
    uint32_t code;
    size_t bytes; /* 1 where the code is NO_CHARACTER */
};

/* The character at a place before the text's end. */
struct character character_at(const unsigned char *text, size_t length, size_t at);

/* What is shown for a character that a terminal must not get, or that cannot be seen: null where it is shown as it is. */
const char *character_sign(struct character character);

/* Columns that it takes on a screen, as it is shown: 0 to 2. */
size_t character_width(struct character character);

/* A space that is not the plain one, as the no-break space; a mark that has no width. */
bool is_other_space(uint32_t code);
bool is_invisible(uint32_t code);

/* Bytes of a text. */
struct stretch {
    size_t start;
    size_t length;
};

struct text {
    const unsigned char *bytes;
    size_t length;
};

size_t end_of(struct stretch stretch);
size_t characters_in(struct text text, struct stretch stretch);

bool is_blank(unsigned char byte);
bool is_digit(unsigned char byte);
bool is_letter(unsigned char byte);
unsigned char small(unsigned char byte);

/* The stretch without the blanks at its ends. */
struct stretch trimmed(struct text text, struct stretch stretch);

/* The stretch is this word, byte for byte; or but for capitals; or begins with it. */
bool is_word(struct text text, struct stretch stretch, const char *word);
bool is_word_loosely(struct text text, struct stretch stretch, const char *word);
bool begins_with(struct text text, struct stretch stretch, const char *word);
size_t word_length(const char *word);

/* The line that begins at a place, without blanks and line end; the place moves to the next line's beginning. */
struct stretch next_line(struct text text, size_t *at);

/* A line by its number, counted from 1; one behind the last is empty. */
struct stretch line_at(struct text text, size_t number);

/* Where the line of a place begins and ends, blanks in. */
size_t line_start(struct text text, size_t at);
size_t line_end(struct text text, size_t at);

/* The first and the last line of the block that a line stands in, and the next line behind or before that is not blank (0: none). */
size_t block_first(struct text text, size_t line);
size_t block_last(struct text text, size_t line);
size_t next_written(struct text text, size_t line);
size_t written_before(struct text text, size_t line);

/* The name in a section's header: up to the first `!`. */
struct stretch name_in_header(struct text text, struct stretch header);

/* The next word of a stretch of pattern text from a place on, words being parted by blanks, line ends and `;:[]`; empty at the end. */
struct stretch next_word(struct text text, struct stretch among, size_t at);

/* The first number in a stretch from a place on: its digits, empty where there is none; and its value, held at 99,999. */
struct stretch next_number(struct text text, struct stretch among, size_t at);
size_t value_of(struct text text, struct stretch digits);

#endif
