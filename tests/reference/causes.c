/* The cause of a refusal, by its number; 1 to 3, 6, 9, 14 and 15 stand here. */
#include <string.h>
#include "causes.h"

/* The last line that begins at or before the byte; blanks at both ends of a line are never a place. */
size_t line_number(const struct song *song, size_t offset)
{
    size_t line = 0;
    while (line < song->line_count && song->lines[line].start <= offset)
        line++;
    return line;
}

void place_at(struct search *search, size_t kind, struct span place)
{
    search->cause->cause = kind;
    search->cause->place_line = line_number(search->song, place.start);
    search->cause->offset = place.start;
    search->cause->length = place.end - place.start;
}

struct span name_in_header(const struct search *search)
{
    struct span name = search->song->lines[search->block.first];
    const unsigned char *mark = memchr(search->song->text + name.start, '!', name.end - name.start);
    if (mark != NULL)
        name.end = (size_t)(mark - search->song->text);
    return name;
}

struct section *section_of(const struct search *search)
{
    struct section *section = search->song->sections;
    while (section->header_line != search->block.first + 1)
        section++;
    return section;
}

/* 2: the stage has no lines yet, and its line is the place's. */
static void search_text(const struct song *song, struct reader_cause *cause)
{
    size_t at = 0;
    size_t length;
    while ((length = character_length(song->text + at, song->length - at)) > 0)
        at += length;
    cause->cause = song->text[at] == 0 ? CAUSE_ZERO_BYTE : CAUSE_NO_CHARACTER;
    cause->place_line = song->refusal_line;
    cause->offset = at;
    cause->length = 1;
    cause->first = song->text[at];
}

/* 3: and the first block of a later kind. */
static void search_order(struct search *search)
{
    const struct block *later = search->song->blocks;
    while (later->kind <= search->block.kind)
        later++;
    place_at(search, search->block.kind == METADATA_BLOCK ? CAUSE_METADATA_LATE : CAUSE_DEFINITION_LATE, search->span);
    search->cause->other_line = later->first + 1;
}

/* 6. */
static void search_head(struct search *search)
{
    unsigned number;
    place_at(search, CAUSE_HEAD_MALFORMED, search->span);
    if (!read_reference(search->song->text, search->span, &number))
        return;
    const struct definition *earlier = find_definition(search->song, search->song->definition_count, number);
    bool twice = earlier != NULL && earlier->head_line < search->cause->line;
    search->cause->cause = twice ? CAUSE_HEAD_TWICE : CAUSE_HEAD_TOO_MANY;
    if (twice) {
        search->cause->first = number;
        search->cause->other_line = earlier->head_line;
    }
}

/* 15: the cuts, or the first modifier on an empty pattern, which is the line behind the `$n`. */
static void search_cuts(struct search *search)
{
    const struct section *section = section_of(search);
    size_t line = search->block.first + 1;
    place_at(search, CAUSE_CUTS_TAKE_ALL, name_in_header(search));
    if (!section->is_empty)
        return;
    while (search->song->text[search->song->lines[line].start] != '_')
        line++;
    place_at(search, CAUSE_MODIFIER_ON_EMPTY, search->song->lines[line]);
    search->cause->other_line = search->block.first + 1;
}

static void search_by_refusal(struct search *search)
{
    switch (search->cause->refusal) {
    case REFUSED_BLOCK_ORDER: search_order(search); break;
    case REFUSED_KEY:
    case REFUSED_SETTING: search_keys(search); break;
    case REFUSED_DEFINITION_HEAD: search_head(search); break;
    case REFUSED_PATTERN_TEXT: search_pattern(search); break;
    case REFUSED_LINE: search_section(search); break;
    case REFUSED_REFERENCE_UNDEFINED:
    case REFUSED_REFERENCE_KIND: search_references(search); break;
    case REFUSED_DIVISION:
    case REFUSED_NO_CHORD_BEFORE: search_measures(search); break;
    case REFUSED_SONG_TOO_LONG: place_at(search, CAUSE_SONG_LONG, name_in_header(search)); break;
    case REFUSED_NOTHING_LEFT: search_cuts(search); break;
    case REFUSED_COUNT_MISSING: search_count(search); break;
    default: search_sum(search);
    }
}

static void search_song(struct song *song, struct reader_cause *cause)
{
    struct search search = {.song = song, .line = cause->line - 1, .cause = cause};
    const struct block *block = song->blocks;
    while (block->last < search.line)
        block++;
    search.block = *block;
    search.span = song->lines[search.line];
    search_by_refusal(&search);
}

struct reader_cause reader_explain(const unsigned char *text, size_t length)
{
    struct song song = {.text = text, .length = length};
    run_stages(&song, NULL);
    struct reader_cause cause = {.refusal = song.refusal, .line = song.refusal_line};
    if (cause.refusal == READER_ACCEPTED || cause.refusal == REFUSED_TEXT_TOO_LONG) {
        cause.cause = cause.refusal == READER_ACCEPTED ? 0 : CAUSE_TEXT_LONG;
        cause.first = length;
    } else if (cause.refusal == REFUSED_BAD_TEXT) {
        search_text(&song, &cause);
    } else if (cause.refusal == REFUSED_NO_SECTION) {
        cause.cause = CAUSE_NO_SECTION;
    } else {
        search_song(&song, &cause);
    }
    free_song(&song);
    return cause;
}
