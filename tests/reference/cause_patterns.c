/* The causes of 7: how a pattern text breaks its rules. */
#include "causes.h"

/* What stands before a place: nothing, a separator, an open bracket, a loop or reference, a measure. */
enum before { NOTHING, SEPARATOR, OPENED, ITEM, MEASURE };

struct reading {
    struct search *search;
    const unsigned char *text;
    struct span pattern;
    enum text_kind kind;
    enum before before;
    size_t at;
    bool line_ended; /* between the token before and this one */
    bool any;        /* an item stands before */
    bool is_open;
    size_t open;     /* the last `[` */
    size_t remover;  /* the last `=` of this measure, or the pattern's end */
    size_t separator; /* the last `;` or `:` */
};

static bool blame(struct reading *reading, size_t kind, struct span place)
{
    place_at(reading->search, kind, place);
    return true;
}

static bool blame_byte(struct reading *reading, size_t kind, size_t at)
{
    return blame(reading, kind, (struct span){at, at + 1});
}

/* The next byte that is no blank and no line end. */
static size_t skip(const struct reading *reading, size_t at, bool *line_ended)
{
    *line_ended = skip_blanks(reading->text, reading->pattern, &at);
    return at;
}

static bool read_separator(struct reading *reading)
{
    bool is_colon = reading->text[reading->at] == ':';
    bool line_ends;
    size_t next = skip(reading, reading->at + 1, &line_ends);
    if (reading->kind == JOINED_TEXT && is_colon)
        return blame_byte(reading, CAUSE_COLON_NOT_HERE, reading->at);
    if (reading->before == NOTHING || reading->before == OPENED)
        return blame_byte(reading, CAUSE_SEPARATOR_FIRST, reading->at);
    if (reading->before == SEPARATOR)
        return blame_byte(reading, CAUSE_SEPARATOR_DOUBLED, reading->at);
    if (reading->line_ended && !is_colon)
        return blame_byte(reading, CAUSE_SEPARATOR_LINE_START, reading->at);
    if (next == reading->pattern.end)
        return blame_byte(reading, CAUSE_SEPARATOR_LAST, reading->at);
    if (line_ends && !is_colon)
        return blame_byte(reading, CAUSE_SEPARATOR_LINE_END, reading->at);
    reading->before = SEPARATOR;
    reading->separator = reading->at++;
    return false;
}

static bool read_open(struct reading *reading)
{
    bool line_ends;
    if (reading->before == ITEM || reading->before == MEASURE)
        return blame_byte(reading, CAUSE_NOT_PARTED, reading->at);
    if (reading->is_open)
        return blame_byte(reading, CAUSE_LOOP_IN_LOOP, reading->at);
    skip(reading, reading->at + 1, &line_ends);
    if (line_ends)
        return blame_byte(reading, CAUSE_LOOP_LINE_END, reading->at);
    reading->is_open = true;
    reading->open = reading->at++;
    reading->before = OPENED;
    return false;
}

/* A bracket with a right count, and whether it may stand here. */
static bool close_fits(struct reading *reading, struct span closing)
{
    if (!reading->is_open)
        return !blame(reading, CAUSE_LOOP_NOT_OPEN, closing);
    if (reading->before == OPENED)
        return !blame(reading, CAUSE_LOOP_EMPTY, closing);
    if (reading->before == SEPARATOR)
        return !blame_byte(reading, CAUSE_SEPARATOR_LAST, reading->separator);
    if (reading->line_ended)
        return !blame(reading, CAUSE_LOOP_LINE_END, closing);
    return true;
}

static bool read_close(struct reading *reading)
{
    struct span count = word_from(reading->text, reading->pattern, reading->at + 1);
    unsigned number;
    if (count.start == count.end)
        return blame_byte(reading, CAUSE_LOOP_COUNT_MISSING, reading->at);
    if (!read_number(reading->text, count, SMALLEST_REPEAT, COUNT_LIMIT, &number))
        return blame(reading, CAUSE_LOOP_COUNT_WRONG, count);
    if (!close_fits(reading, (struct span){reading->at, count.end}))
        return true;
    reading->is_open = false;
    reading->before = ITEM;
    reading->at = count.end;
    return false;
}

/* A word that begins with `$`. Of `$1 $2` the second is blamed, where the text stops being right. */
static bool read_name(struct reading *reading, struct span word)
{
    unsigned number;
    bool line_ends;
    bool more = reading->any || reading->before != NOTHING || skip(reading, word.end, &line_ends) < reading->pattern.end;
    if (!read_reference(reading->text, word, &number))
        return blame(reading, CAUSE_REFERENCE_MALFORMED, word);
    if (reading->before == MEASURE || reading->before == ITEM)
        return blame(reading, CAUSE_NOT_PARTED, word);
    if (reading->kind == SECTION_TEXT && more) {
        struct span there = word_from(reading->text, reading->pattern, reading->search->cause->first);
        return blame(reading, CAUSE_REFERENCE_NOT_HERE, read_reference(reading->text, there, &number) ? there : word);
    }
    reading->before = ITEM;
    reading->at = word.end;
    return false;
}

/* A word that is no position: no base chord begins it, a sign stands in it, or it is too long. */
static bool blame_word(struct reading *reading, struct span word)
{
    struct chord chord;
    struct span letters = word;
    while (letters.end > letters.start && !read_chord(reading->text, letters, &chord))
        letters.end--;
    if (letters.end == letters.start)
        return blame(reading, CAUSE_NO_CHORD, word);
    return blame(reading, has_slip(reading->text, word) ? CAUSE_EXTENSION_SIGN : CAUSE_EXTENSION_LONG, word);
}

static bool read_position(struct reading *reading, struct span word)
{
    enum token_kind kind = word_token(reading->text, word).kind;
    if (kind == TOKEN_BAD)
        return blame_word(reading, word);
    if (reading->before == ITEM)
        return blame(reading, CAUSE_NOT_PARTED, word);
    if (reading->before != MEASURE)
        reading->remover = reading->pattern.end;
    if (kind == TOKEN_REMOVER && reading->before != MEASURE)
        return blame(reading, CAUSE_REMOVER_FIRST, word);
    if (kind != TOKEN_REMOVER && reading->remover < reading->at)
        return blame_byte(reading, CAUSE_REMOVER_INSIDE, reading->remover);
    if (kind == TOKEN_REMOVER)
        reading->remover = reading->at;
    reading->before = MEASURE;
    reading->at = word.end;
    return false;
}

/* Reads one token; true where the rules are broken there. */
static bool read_one(struct reading *reading)
{
    unsigned char byte = reading->text[reading->at];
    struct span word = word_from(reading->text, reading->pattern, reading->at);
    bool separator = byte == ';' || byte == ':';
    if (reading->line_ended && (reading->before == MEASURE || reading->before == ITEM) && !separator && byte != ']')
        reading->before = SEPARATOR;
    if (separator)
        return read_separator(reading);
    if (byte == '[')
        return read_open(reading);
    if (byte == ']')
        return read_close(reading);
    if (reading->kind == JOINED_TEXT && has_byte(reading->text, word, '$'))
        return blame(reading, CAUSE_REFERENCE_NOT_HERE, word);
    bool broken = byte == '$' ? read_name(reading, word) : read_position(reading, word);
    reading->any = true;
    return broken;
}

static void read_text(struct reading *reading)
{
    bool broken = false;
    while (!broken) {
        reading->at = skip(reading, reading->at, &reading->line_ended);
        if (reading->at == reading->pattern.end)
            break;
        broken = read_one(reading);
    }
    if (!broken)
        blame_byte(reading, CAUSE_LOOP_OPEN, reading->open);
}

/* The pattern whose first line is refused: to the line before the first that is of another kind. */
static struct span pattern_from(const struct search *search)
{
    struct span pattern = search->span;
    const struct song *song = search->song;
    bool in_section = search->block.kind == SECTION_BLOCK;
    for (size_t line = search->line + 1; line <= search->block.last; line++) {
        bool other = is_modifier_line(song, line) || song->text[song->lines[line].start] == '@' || span_is(song->text, song->lines[line], "--");
        if (in_section && other)
            break;
        pattern.end = song->lines[line].end;
    }
    return pattern;
}

void search_pattern(struct search *search)
{
    struct span name, setting;
    bool in_section = search->block.kind == SECTION_BLOCK;
    bool side = in_section && is_modifier_line(search->song, search->line);
    struct reading reading = {.search = search, .text = search->song->text, .pattern = pattern_from(search)};
    split_name(reading.text, search->span, &name, &setting);
    reading.kind = side ? JOINED_TEXT : in_section ? SECTION_TEXT : DEFINITION_TEXT;
    if (side)
        reading.pattern = setting;
    reading.at = reading.pattern.start;
    search->cause->first = search->cause->second = find_stop(reading.text, reading.pattern, reading.kind);
    search->cause->other_line = search->block.first + 1;
    for (size_t at = reading.pattern.start; at < search->cause->first; at++)
        if (reading.text[at] == '[')
            search->cause->second = at;
    if (reading.pattern.start == reading.pattern.end)
        place_at(search, CAUSE_SIDE_EMPTY, (struct span){name.end, name.end});
    else
        read_text(&reading);
}
