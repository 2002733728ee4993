/* Pattern text: each line is read once and laid into the score. */
#include "chart.h"

enum kind { OTHER, LETTER, PERCENT, SILENCE, REMOVER, BLANK, SEMICOLON, COLON, OPENING, CLOSING, DOLLAR };
enum { SILENT_BASE = 63, MOST_EXTENSION = 31, NO_BASE = 255, LETTERS = 7, REMOVED = 2 };
enum { UNDEFINED = 10, WRONG_REFERENCE = 11 };

static const unsigned char kind_of[256] = {
    ['A'] = LETTER, ['B'] = LETTER, ['C'] = LETTER, ['D'] = LETTER, ['E'] = LETTER, ['F'] = LETTER, ['G'] = LETTER,
    ['%'] = PERCENT, ['_'] = SILENCE, ['='] = REMOVER, [' '] = BLANK, ['\t'] = BLANK, [';'] = SEMICOLON, [':'] = COLON,
    ['['] = OPENING, [']'] = CLOSING, ['$'] = DOLLAR,
};

/* The bytes that end a chord. */
static const bool ends_position[256] = {[' '] = true, ['\t'] = true, [';'] = true, [':'] = true, ['['] = true, [']'] = true};

/* The bytes that no extension holds. */
static const bool is_slip[256] = {['%'] = true, ['_'] = true, ['='] = true, ['$'] = true};

/* The numbers of a letter's chords; its minor ones stand behind its others. */
static const struct {
    unsigned char plain, sharp, flat, minor;
} bases[LETTERS] = {{0, 1, 2, 3},         {6, NO_BASE, 7, 2},  {10, 11, NO_BASE, 2}, {14, 16, 15, 3},
                    {20, NO_BASE, 21, 2}, {24, 25, NO_BASE, 2}, {28, 30, 29, 3}};

void peer_begin_pattern(struct pattern *pattern, struct chart *chart, uint32_t block_line)
{
    *pattern = (struct pattern){.chart = chart, .out = chart->score + chart->words, .block_line = block_line, .place = START};
    pattern->text.row.at = chart->words;
}

/* Closes the text; whether it is by the rules. */
bool peer_end_pattern(struct pattern *pattern)
{
    struct row *row = &pattern->text.row;
    row->words = (uint32_t)(pattern->out - pattern->chart->score) - row->at;
    pattern->chart->words = row->at + row->words;
    return !pattern->bad && pattern->place == ITEM && pattern->loop == NULL;
}

/* The longest base chord at a letter; its `m` is none of a `maj`. */
const unsigned char *peer_read_base(const unsigned char *at, const unsigned char *stop, unsigned *base)
{
    unsigned letter = (unsigned)(*at++ - 'A');
    *base = bases[letter].plain;
    if (at < stop && *at == '#' && bases[letter].sharp != NO_BASE) {
        *base = bases[letter].sharp;
        at++;
    } else if (at < stop && *at == 'b' && bases[letter].flat != NO_BASE) {
        *base = bases[letter].flat;
        at++;
    }
    if (at < stop && *at == 'm' && !(stop - at > 2 && at[1] == 'a' && at[2] == 'j')) {
        *base += bases[letter].minor;
        at++;
    }
    return at;
}

static const unsigned char *read_chord(struct pattern *pattern, const unsigned char *at, const unsigned char *stop, uint32_t *word)
{
    unsigned base;
    const unsigned char *extension = peer_read_base(at, stop, &base);
    for (at = extension; at < stop && !ends_position[*at]; at++)
        pattern->bad |= is_slip[*at];
    uint32_t length = (uint32_t)(at - extension);
    pattern->bad |= length > MOST_EXTENSION;
    *word = base << BASE_AT | HEAD;
    if (length > 0)
        *word |= (uint32_t)(extension - pattern->chart->text) << OFFSET_AT | length << LENGTH_AT;
    pattern->text.last = *word;
    return at;
}

static const unsigned char *read_position(struct pattern *pattern, const unsigned char *at, const unsigned char *stop, uint32_t *word)
{
    enum kind kind = kind_of[*at];
    if (kind == LETTER)
        return read_chord(pattern, at, stop, word);
    *word = kind == SILENCE ? (uint32_t)SILENT_BASE << BASE_AT | HEAD : kind == REMOVER ? REMOVED : pattern->text.last;
    if (*word == 0) {
        *word = OPEN_PERCENT;
        pattern->text.open = true;
    }
    at++;
    pattern->bad |= at < stop && !ends_position[*at];
    return at;
}

static bool starts_position(unsigned char byte)
{
    return kind_of[byte] >= LETTER && kind_of[byte] <= REMOVER;
}

static const unsigned char *read_measure(struct pattern *pattern, const unsigned char *at, const unsigned char *stop)
{
    uint32_t *head = pattern->out, *out = head + 1, removers = 0;
    do {
        uint32_t word;
        at = read_position(pattern, at, stop, &word);
        if (word == REMOVED) {
            removers++;
        } else {
            *out++ = word;
            pattern->bad |= removers > 0;
        }
        while (at < stop && kind_of[*at] == BLANK)
            at++;
    } while (at < stop && starts_position(*at) && !pattern->bad);
    uint32_t kept = (uint32_t)(out - head) - 1, positions = kept + removers;
    pattern->bad |= kept == 0;
    *head = kept << ABOVE | positions;
    pattern->text.positions |= (uint64_t)1 << (positions > MOST_TIME ? 0 : positions);
    pattern->text.row.measures++;
    pattern->out = out;
    return at;
}

static const unsigned char *close_loop(struct pattern *pattern, const unsigned char *at, const unsigned char *stop)
{
    unsigned count;
    at = peer_read_number(at + 1, stop, &count);
    if (pattern->loop == NULL || pattern->place != ITEM || count < 2 || count == NO_NUMBER) {
        pattern->bad = true;
        return at;
    }
    uint64_t pass = pattern->text.row.measures - pattern->loop_measures;
    pattern->loop[0] = count << ABOVE;
    pattern->loop[1] = (uint32_t)pass;
    pattern->loop[2] = (uint32_t)(pattern->out - pattern->loop) - LOOP_WORDS;
    pattern->text.row.measures = pattern->loop_measures + count * pass;
    pattern->text.loops = true;
    pattern->loop = NULL;
    return at;
}

static void open_loop(struct pattern *pattern)
{
    pattern->bad |= pattern->loop != NULL;
    pattern->loop = pattern->out;
    pattern->loop_measures = pattern->text.row.measures;
    pattern->out += LOOP_WORDS;
}

struct definition *peer_find_definition(struct chart *chart, unsigned number)
{
    for (uint32_t place = 0; place < chart->definition_count; place++)
        if (chart->definitions[place].number == number)
            return &chart->definitions[place];
    return NULL;
}

/* Lays a reference to the definition, whose items stand in its place. */
static void lay_reference(struct pattern *pattern, const struct definition *definition)
{
    struct text *text = &pattern->text;
    *pattern->out++ = REFERENCE << ABOVE;
    *pattern->out++ = (uint32_t)(definition - pattern->chart->definitions);
    *pattern->out++ = text->last;
    text->open |= definition->text.open && text->last == 0;
    text->row.measures += definition->text.row.measures;
    text->positions |= definition->text.positions;
    if (definition->text.last != 0)
        text->last = definition->text.last;
}

static const unsigned char *read_reference(struct pattern *pattern, const unsigned char *at, const unsigned char *stop)
{
    unsigned number;
    at = peer_read_number(at + 1, stop, &number);
    pattern->bad |= pattern->block_line == 0 || number < 1 || number == NO_NUMBER;
    if (pattern->bad)
        return at;
    const struct definition *definition = peer_find_definition(pattern->chart, number);
    if (definition == NULL)
        peer_fault(pattern->chart, STAGE_REFERENCES, pattern->block_line, UNDEFINED);
    else if (definition->text.references || definition->text.row.measures == 0 || (pattern->loop != NULL && definition->text.loops))
        peer_fault(pattern->chart, STAGE_REFERENCES, pattern->block_line, WRONG_REFERENCE);
    else
        lay_reference(pattern, definition);
    pattern->text.references = true;
    return at;
}

/* Goes from one place to the next, if the text may stand at one of two. */
static void move(struct pattern *pattern, enum place from, enum place or_from, enum place to)
{
    pattern->bad |= pattern->place != from && pattern->place != or_from;
    pattern->place = to;
}

static const unsigned char *read_item(struct pattern *pattern, const unsigned char *at, const unsigned char *stop, enum kind kind)
{
    pattern->bad |= pattern->place == ITEM;
    if (pattern->bad)
        return at;
    pattern->place = kind == OPENING ? BRACKET_BEFORE : ITEM;
    if (kind == DOLLAR)
        return read_reference(pattern, at, stop);
    if (kind != OPENING)
        return read_measure(pattern, at, stop);
    open_loop(pattern);
    return at + 1;
}

/* Reads one more line of the text; a line end stands before it unless it is the first. */
void peer_read_pattern_line(struct pattern *pattern, const unsigned char *at, const unsigned char *stop)
{
    if (pattern->place == ITEM)
        pattern->place = LINE_END_BEFORE;
    else
        pattern->bad |= pattern->place != START && pattern->place != COLON_BEFORE;
    while (at < stop && !pattern->bad) {
        enum kind kind = kind_of[*at];
        switch (kind) {
        case BLANK:
            at++;
            break;
        case SEMICOLON:
            move(pattern, ITEM, ITEM, SEMICOLON_BEFORE);
            at++;
            break;
        case COLON:
            move(pattern, ITEM, LINE_END_BEFORE, COLON_BEFORE);
            at++;
            break;
        case CLOSING:
            at = close_loop(pattern, at, stop);
            break;
        case OTHER:
            pattern->bad = true;
            break;
        default:
            at = read_item(pattern, at, stop, kind);
        }
    }
}
