/* The chart as bytes: UTF-8, lines, blanks and numbers; and the two small services all parts use,
   memory and the keeping of the refusal that wins. */
#include <stdio.h>
#include <stdlib.h>
#include <string.h>
#include "song.h"

void *take_memory(size_t count, size_t size)
{
    void *memory = calloc(count > 0 ? count : 1, size);
    if (memory == NULL) {
        fprintf(stderr, "reference: no memory\n");
        exit(EXIT_FAILURE);
    }
    return memory;
}

/* The old memory, moved and at least doubled if it has no room for the needed number of things. */
void *more_memory(void *old, size_t needed, size_t *room, size_t size)
{
    if (needed <= *room)
        return old;
    *room = needed > 2 * *room ? needed : 2 * *room;
    void *memory = realloc(old, *room * size);
    if (memory == NULL) {
        fprintf(stderr, "reference: no memory\n");
        exit(EXIT_FAILURE);
    }
    return memory;
}

/* In a stage the earliest line wins, on one line the lowest number. */
void note_refusal(struct song *song, unsigned refusal, size_t line)
{
    bool wins = song->refusal == READER_ACCEPTED || line < song->refusal_line
        || (line == song->refusal_line && refusal < song->refusal);
    if (wins) {
        song->refusal = refusal;
        song->refusal_line = line;
    }
}

bool is_blank(unsigned char byte)
{
    return byte == ' ' || byte == '\t';
}

bool is_line_end(unsigned char byte)
{
    return byte == '\r' || byte == '\n';
}

static bool between(unsigned char byte, unsigned char least, unsigned char most)
{
    return least <= byte && byte <= most;
}

/* The length of the whole character at a place, by the table of RFC 3629, section 4; 0 if there is none, or a zero byte. */
size_t character_length(const unsigned char *text, size_t left)
{
    unsigned char first = text[0];
    unsigned char second_least = 0x80, second_most = 0xBF;
    size_t length;
    if (between(first, 0x01, 0x7F))
        return 1;
    if (between(first, 0xC2, 0xDF))
        length = 2;
    else if (between(first, 0xE0, 0xEF))
        length = 3;
    else if (between(first, 0xF0, 0xF4))
        length = 4;
    else
        return 0;
    if (first == 0xE0)
        second_least = 0xA0;
    if (first == 0xED)
        second_most = 0x9F;
    if (first == 0xF0)
        second_least = 0x90;
    if (first == 0xF4)
        second_most = 0x8F;
    if (left < length || !between(text[1], second_least, second_most))
        return 0;
    for (size_t place = 2; place < length; place++)
        if (!between(text[place], 0x80, 0xBF))
            return 0;
    return length;
}

/* The bytes of the line end at a place: 2 for CR LF, 1 for a lone CR or LF, 0 if none is there. */
static size_t line_end_length(const struct song *song, size_t place)
{
    if (place >= song->length || !is_line_end(song->text[place]))
        return 0;
    bool is_pair = song->text[place] == '\r' && place + 1 < song->length && song->text[place + 1] == '\n';
    return is_pair ? 2 : 1;
}

/* Stage 1. */
void check_text(struct song *song)
{
    if (song->length > READER_TEXT_LIMIT) {
        note_refusal(song, REFUSED_TEXT_TOO_LONG, 0);
        return;
    }
    size_t line = 1;
    for (size_t place = 0; place < song->length;) {
        size_t line_end = line_end_length(song, place);
        size_t character = character_length(song->text + place, song->length - place);
        if (character == 0) {
            note_refusal(song, REFUSED_BAD_TEXT, line);
            return;
        }
        line += line_end > 0;
        place += line_end > 0 ? line_end : character;
    }
}

static struct span without_blanks(const unsigned char *text, struct span span)
{
    while (span.start < span.end && is_blank(text[span.start]))
        span.start++;
    while (span.start < span.end && is_blank(text[span.end - 1]))
        span.end--;
    return span;
}

/* Makes the list of lines. What follows the last line end is a line too; empty, it is blank and does nothing. */
void find_lines(struct song *song)
{
    song->lines = take_memory(song->length + 1, sizeof *song->lines);
    struct span line = {0, 0};
    while (line.end <= song->length) {
        size_t line_end = line_end_length(song, line.end);
        if (line_end == 0 && line.end < song->length) {
            line.end++;
            continue;
        }
        song->lines[song->line_count++] = without_blanks(song->text, line);
        if (line_end == 0)
            break;
        line.start = line.end = line.end + line_end;
    }
}

/* A character is a code point: every byte of good UTF-8 but those that continue one. */
size_t count_characters(const unsigned char *text, struct span span)
{
    size_t characters = 0;
    for (size_t place = span.start; place < span.end; place++)
        if (!between(text[place], 0x80, 0xBF))
            characters++;
    return characters;
}

/* A decimal without leading zero, from least to most; the whole span. */
bool read_number(const unsigned char *text, struct span span, unsigned least, unsigned most, unsigned *number)
{
    unsigned value = 0;
    if (span.start >= span.end || (text[span.start] == '0' && span.end - span.start > 1))
        return false;
    for (size_t place = span.start; place < span.end; place++) {
        if (!between(text[place], '0', '9'))
            return false;
        value = 10 * value + (unsigned)(text[place] - '0');
        if (value > most)
            return false;
    }
    *number = value;
    return value >= least;
}

bool span_is(const unsigned char *text, struct span span, const char *word)
{
    size_t length = strlen(word);
    return span.end - span.start == length && memcmp(text + span.start, word, length) == 0;
}

/* Parts a key or modifier line, after its first byte, into the name up to the first blank and the setting after the blanks. */
void split_name(const unsigned char *text, struct span line, struct span *name, struct span *setting)
{
    name->start = line.start + 1;
    name->end = name->start;
    while (name->end < line.end && !is_blank(text[name->end]))
        name->end++;
    setting->start = name->end;
    setting->end = line.end;
    while (setting->start < setting->end && is_blank(text[setting->start]))
        setting->start++;
}
