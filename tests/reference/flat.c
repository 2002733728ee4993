/* Request 1: a copy of the song with nothing folded. It is written twice: first to know its length, then into the lent buffer. */
#include <string.h>
#include "song.h"
#include "words.h"

/* Where the copy goes; nowhere while `bytes` is NULL. */
struct copy {
    unsigned char *bytes;
    size_t length;
};

static void put(struct copy *copy, const void *bytes, size_t length)
{
    if (copy->bytes != NULL)
        memcpy(copy->bytes + copy->length, bytes, length);
    copy->length += length;
}

static void put_word(struct copy *copy, const char *word)
{
    put(copy, word, strlen(word));
}

/* The trimmed line as it was, and a LF. */
static void put_line(struct copy *copy, const struct song *song, size_t line)
{
    struct span span = song->lines[line];
    put(copy, song->text + span.start, span.end - span.start);
    put_word(copy, "\n");
}

/* "one blank line parts blocks" */
static void part_blocks(struct copy *copy)
{
    if (copy->length > 0)
        put_word(copy, "\n");
}

static void put_beat(struct copy *copy, const struct song *song, uint32_t word)
{
    unsigned base = word >> BEAT_BASE_LOWEST;
    size_t extension = word >> BEAT_EXTENSION_LOWEST & ((1u << BEAT_EXTENSION_BITS) - 1);
    size_t length = word >> BEAT_LENGTH_LOWEST & ((1u << BEAT_LENGTH_BITS) - 1);
    put_word(copy, base == SILENCE ? "_" : base_name(base));
    put(copy, song->text + extension, length);
}

/* "each as N positions, one a beat, missing beats as removers" */
static void put_measure(struct copy *copy, const struct song *song, struct played_measure measure, unsigned time)
{
    for (size_t beat = 0; beat < time; beat++) {
        if (beat > 0)
            put_word(copy, " ");
        if (beat < measure.beats)
            put_beat(copy, song, song->beats[measure.first_beat + beat]);
        else
            put_word(copy, "=");
    }
    put_word(copy, "\n");
}

static void put_section(struct copy *copy, const struct song *song, const struct section *section)
{
    size_t line = section->header_line - 1;
    put_line(copy, song, line++);
    for (; song->text[song->lines[line].start] == '@'; line++)
        put_line(copy, song, line);
    if (section->is_empty)
        put_word(copy, "$1\n");
    for (size_t place = 0; place < section->measures; place++)
        put_measure(copy, song, song->measures[section->first_measure + place], section->time);
    if (!section->has_lyrics)
        return;
    put_word(copy, "--\n");
    for (line = section->lyrics.first; line <= section->lyrics.last; line++)
        put_line(copy, song, line);
}

static bool plays_an_empty_pattern(const struct song *song)
{
    for (size_t place = 0; place < song->section_count; place++)
        if (song->sections[place].is_empty)
            return true;
    return false;
}

/* The blocks of keys stand first, and a section behind them. */
static void put_song(struct copy *copy, const struct song *song)
{
    for (const struct block *block = song->blocks; block->kind == METADATA_BLOCK; block++)
        for (size_t line = block->first; line <= block->last; line++)
            put_line(copy, song, line);
    if (plays_an_empty_pattern(song)) {
        part_blocks(copy);
        put_word(copy, "$1\n");
    }
    for (size_t place = 0; place < song->section_count; place++) {
        part_blocks(copy);
        put_section(copy, song, &song->sections[place]);
    }
}

struct reader_copied reader_flat(const unsigned char *text, size_t length, unsigned char *buffer, size_t buffer_length)
{
    struct song song = {.text = text, .length = length};
    struct copy counted = {0};
    run_stages(&song, NULL);
    if (song.refusal == READER_ACCEPTED)
        put_song(&counted, &song);
    if (counted.length > buffer_length || counted.length > READER_TEXT_LIMIT)
        note_refusal(&song, REFUSED_COPY_TOO_LONG, 0);
    struct copy copy = {.bytes = buffer};
    if (song.refusal == READER_ACCEPTED)
        put_song(&copy, &song);
    free_song(&song);
    return (struct reader_copied){song.refusal, song.refusal_line, copy.length};
}
