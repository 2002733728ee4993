/* Stage 2: one section block, line by line. */
#include <string.h>
#include "song.h"

/* What has been met between the header and the `--`. */
struct body {
    bool pattern_seen;
    bool in_run;         /* the line before was of the pattern's run */
    bool modifier_seen;
    size_t pattern_line; /* the first of the pattern */
    bool seen[MODIFIERS];
};

static bool is_ascii_letter(unsigned char byte)
{
    return ('A' <= byte && byte <= 'Z') || ('a' <= byte && byte <= 'z');
}

bool is_modifier_line(const struct song *song, size_t line)
{
    struct span span = song->lines[line];
    const unsigned char *bytes = song->text + span.start;
    return span.end - span.start > 1 && bytes[0] == '_' && is_ascii_letter(bytes[1]);
}

/* The name runs to the first `!`. */
static void read_header(struct song *song, size_t line)
{
    struct span name = song->lines[line];
    const unsigned char *mark = memchr(song->text + name.start, '!', name.end - name.start);
    if (mark != NULL)
        name.end = (size_t)(mark - song->text);
    size_t characters = count_characters(song->text, name);
    if (characters < 1 || characters > NAME_LIMIT)
        note_refusal(song, REFUSED_LINE, line + 1);
}

/* The pattern is the first run of pattern lines; one past that run is out of place. */
static void read_pattern_line(struct song *song, struct section *section, struct body *body, size_t line)
{
    if (!body->pattern_seen) {
        body->pattern_seen = true;
        body->in_run = true;
        body->pattern_line = line;
        section->text = song->lines[line];
    } else if (body->in_run) {
        section->text.end = song->lines[line].end;
    } else {
        note_refusal(song, REFUSED_LINE, line + 1);
    }
}

static void read_body_line(struct song *song, struct section *section, struct body *body, size_t line)
{
    if (song->text[song->lines[line].start] == '@') {
        read_section_key(song, section, line, body->pattern_seen || body->modifier_seen);
        body->in_run = false;
    } else if (is_modifier_line(song, line)) {
        read_modifier(song, section, line, body->seen, !body->pattern_seen);
        body->modifier_seen = true;
        body->in_run = false;
    } else {
        read_pattern_line(song, section, body, line);
    }
}

static void check_pattern(struct song *song, struct section *section, const struct body *body)
{
    if (!body->pattern_seen) {
        note_refusal(song, REFUSED_LINE, section->header_line);
        return;
    }
    if (!pattern_is_good(song->text, section->text, SECTION_TEXT))
        note_refusal(song, REFUSED_PATTERN_TEXT, body->pattern_line + 1);
    read_reference(song->text, section->text, &section->reference);
}

void read_section_block(struct song *song, struct block block)
{
    struct section *section = &song->sections[song->section_count++];
    struct body body = {0};
    size_t line = block.first + 1;
    section->header_line = block.first + 1;
    section->bpm = NO_BPM;
    section->repeat = 1;
    read_header(song, block.first);
    while (line <= block.last && !span_is(song->text, song->lines[line], "--")) {
        read_body_line(song, section, &body, line);
        line++;
    }
    check_pattern(song, section, &body);
    if (line > block.last)
        return;
    section->has_lyrics = line < block.last;
    section->lyrics.first = line + 1;
    section->lyrics.last = block.last;
    if (!section->has_lyrics)
        note_refusal(song, REFUSED_LINE, line + 1);
}
