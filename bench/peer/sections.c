/* Stage 2 of a section: its header, keys, pattern and modifiers, and its lyric lines. */
#include <string.h>
#include "chart.h"

enum part { BEFORE_PATTERN, IN_PATTERN, PAST_PATTERN };
enum modifier { REPEAT, CUT_START, CUT_END, BEFORE, AFTER, MODIFIERS };
enum { BAD_SETTING = 5, BAD_PATTERN = 7, BAD_LINE = 8, UNDEFINED = 10, MOST_NAME = 50, MARKS = 3, LEAST_MARKED = 7 };
enum { ITEM_OFFSET_AT = 48, ITEM_LENGTH_AT = 32, ITEM_MEASURES_AT = 2 };

/* A section that is being read. */
struct reading {
    struct chart *chart;
    struct section *section;
    struct pattern pattern;
    struct pattern before, after; /* of lead-in and tail */
    struct played played;
    uint32_t time, bpm;
    uint32_t pattern_line;
    unsigned named; /* the definition that is named, or 0 */
    enum part part;
    bool seen[MODIFIERS];
};

static bool is_letter(unsigned char byte)
{
    return (byte >= 'a' && byte <= 'z') || (byte >= 'A' && byte <= 'Z');
}

static void read_header(struct chart *chart)
{
    const unsigned char *mark = memchr(chart->at, '!', (size_t)(chart->stop - chart->at));
    size_t count = peer_characters(chart->at, mark ? mark : chart->stop);
    if (count < 1 || count > MOST_NAME)
        peer_fault(chart, STAGE_TEXT, chart->line, BAD_LINE);
}

/* A pattern is either text, or `$n` and nothing else. */
static void read_pattern(struct reading *reading)
{
    struct chart *chart = reading->chart;
    if (reading->part == PAST_PATTERN) {
        peer_fault(chart, STAGE_TEXT, chart->line, BAD_LINE);
    } else if (reading->part == IN_PATTERN) {
        reading->pattern.bad |= reading->named > 0;
        peer_read_pattern_line(&reading->pattern, chart->at, chart->stop);
    } else {
        peer_begin_pattern(&reading->pattern, chart, 0);
        reading->part = IN_PATTERN;
        reading->pattern_line = chart->line;
        reading->named = *chart->at == '$' ? peer_whole_number(chart->at + 1, chart->stop) : 0;
        if (reading->named > 0 && reading->named <= MOST_NUMBER)
            reading->pattern.place = ITEM;
        else
            peer_read_pattern_line(&reading->pattern, chart->at, chart->stop);
    }
}

static void leave_pattern(struct reading *reading)
{
    if (reading->part != IN_PATTERN)
        return;
    reading->part = PAST_PATTERN;
    if (!peer_end_pattern(&reading->pattern))
        peer_fault(reading->chart, STAGE_TEXT, reading->pattern_line, BAD_PATTERN);
}

static bool read_cut(struct cut *cut, const unsigned char *at, const unsigned char *stop)
{
    const unsigned char *dash = memchr(at, '-', (size_t)(stop - at));
    *cut = (struct cut){0, 0};
    if (dash == NULL || dash > at)
        cut->measures = peer_whole_number(at, dash ? dash : stop);
    if (dash != NULL)
        cut->beats = peer_whole_number(dash + 1, stop);
    return cut->measures != NO_NUMBER && cut->beats != NO_NUMBER && (cut->measures > 0 || (dash == at)) && (cut->beats > 0 || dash == NULL);
}

/* The text of a lead-in or tail. */
static bool read_joined(struct pattern *pattern, struct chart *chart, const unsigned char *at)
{
    size_t length = (size_t)(chart->stop - at);
    peer_begin_pattern(pattern, chart, 0);
    peer_read_pattern_line(pattern, at, chart->stop);
    return peer_end_pattern(pattern) && memchr(at, ':', length) == NULL && memchr(at, '$', length) == NULL;
}

static enum modifier modifier_named(const unsigned char *at, const unsigned char *stop)
{
    static const char *const names[] = {"repeat", "cutStart", "cutEnd", "before", "after"};
    unsigned modifier = 0;
    while (modifier < MODIFIERS && (strlen(names[modifier]) != (size_t)(stop - at) || memcmp(names[modifier], at, (size_t)(stop - at)) != 0))
        modifier++;
    return (enum modifier)modifier;
}

static void read_setting(struct reading *reading, enum modifier modifier, const unsigned char *at)
{
    struct chart *chart = reading->chart;
    struct played *played = &reading->played;
    bool fits;
    if (modifier == REPEAT) {
        played->repeat = peer_whole_number(at, chart->stop);
        fits = played->repeat >= 2 && played->repeat != NO_NUMBER;
    } else if (modifier == CUT_START || modifier == CUT_END) {
        fits = read_cut(modifier == CUT_START ? &played->start : &played->end, at, chart->stop);
    } else {
        *(modifier == BEFORE ? &played->before_line : &played->after_line) = chart->line;
        fits = read_joined(modifier == BEFORE ? &reading->before : &reading->after, chart, at);
    }
    if (!fits)
        peer_fault(chart, STAGE_TEXT, chart->line, modifier < BEFORE ? BAD_SETTING : BAD_PATTERN);
}

static void read_modifier(struct reading *reading)
{
    struct chart *chart = reading->chart;
    const unsigned char *name_end = peer_word_end(chart->at + 1, chart->stop);
    enum modifier modifier = modifier_named(chart->at + 1, name_end);
    if (modifier == MODIFIERS || reading->part == BEFORE_PATTERN || reading->seen[modifier])
        peer_fault(chart, STAGE_TEXT, chart->line, BAD_LINE);
    if (modifier == MODIFIERS)
        return;
    read_setting(reading, modifier, peer_past_blanks(name_end, chart->stop));
    reading->seen[modifier] = true;
    reading->played.modified = true;
}

/* The number behind the line's last `_`, and the end of the text before it; 0 if the line has no count. */
static unsigned line_count(const struct chart *chart, const unsigned char **text_end)
{
    const unsigned char *digits = chart->stop;
    while (digits > chart->at && digits[-1] >= '0' && digits[-1] <= '9')
        digits--;
    if (digits - chart->at < 2 || digits[-1] != '_' || (digits[-2] != ' ' && digits[-2] != '\t'))
        return 0;
    unsigned count = peer_whole_number(digits, chart->stop);
    *text_end = digits - 2;
    while ((*text_end)[-1] == ' ' || (*text_end)[-1] == '\t')
        --*text_end;
    return count == NO_NUMBER ? 0 : count;
}

static bool is_marked(const unsigned char *at, const unsigned char *stop, const char *marks)
{
    return stop - at >= LEAST_MARKED && memcmp(at, marks, MARKS) == 0 && memcmp(stop - MARKS, marks, MARKS) == 0;
}

/* A lyric line of a section whose pattern isn't empty. */
static void read_lyric(struct chart *chart, struct section *section)
{
    const unsigned char *at = chart->at, *stop;
    unsigned count = line_count(chart, &stop), style;
    if (count == 0) {
        if (chart->bare_line == 0)
            chart->bare_line = chart->line;
        return;
    }
    style = is_marked(at, stop, "***") ? 1 : is_marked(at, stop, ":::") ? 2 : 0;
    if (style > 0) {
        at += MARKS;
        stop -= MARKS;
    }
    chart->counted = true;
    section->counted += count;
    chart->items[chart->item_count++] = (uint64_t)(at - chart->text) << ITEM_OFFSET_AT | (uint64_t)(stop - at) << ITEM_LENGTH_AT |
                                        count << ITEM_MEASURES_AT | style;
}

/* The pattern's text, or that of the definition it names; NULL if there is no such definition. */
static const struct text *pattern_text(struct reading *reading)
{
    if (reading->named == 0)
        return &reading->pattern.text;
    const struct definition *definition = peer_find_definition(reading->chart, reading->named);
    if (definition != NULL)
        return &definition->text;
    peer_fault(reading->chart, STAGE_REFERENCES, reading->section->line, UNDEFINED);
    return NULL;
}

/* Reads the lines from the `--` on. */
static void read_lyrics(struct reading *reading, bool taken)
{
    struct chart *chart = reading->chart;
    uint32_t dashes = chart->line;
    while (peer_next_line_of_block(chart)) {
        reading->section->lyrics = true;
        if (taken)
            read_lyric(chart, reading->section);
    }
    if (!reading->section->lyrics)
        peer_fault(chart, STAGE_TEXT, dashes, BAD_LINE);
}

static bool read_lines(struct reading *reading)
{
    struct chart *chart = reading->chart;
    while (peer_next_line_of_block(chart)) {
        const unsigned char *at = chart->at;
        ptrdiff_t length = chart->stop - at;
        if (length == 2 && at[0] == '-' && at[1] == '-')
            return true;
        if (*at == '@') {
            leave_pattern(reading);
            peer_read_section_key(chart, reading->part == BEFORE_PATTERN, &reading->time, &reading->bpm);
        } else if (*at == '_' && length > 1 && is_letter(at[1])) {
            leave_pattern(reading);
            read_modifier(reading);
        } else {
            read_pattern(reading);
        }
    }
    return false;
}

/* Reads a section, whose header is the line read last, and judges how it is played. */
void peer_read_section(struct chart *chart)
{
    struct section *section = &chart->sections[chart->section_count];
    struct reading reading = {.chart = chart, .section = section, .bpm = NO_NUMBER};
    *section = (struct section){.line = chart->line};
    read_header(chart);
    bool dashes = read_lines(&reading);
    leave_pattern(&reading);
    if (reading.part == BEFORE_PATTERN)
        peer_fault(chart, STAGE_TEXT, section->line, BAD_LINE);
    const struct text *pattern = pattern_text(&reading);
    bool taken = pattern != NULL && pattern->row.measures > 0;
    if (dashes)
        read_lyrics(&reading, taken);
    chart->whole &= taken && section->lyrics;
    section->time = reading.time > 0 ? reading.time : chart->time;
    section->bpm = reading.bpm != NO_NUMBER ? reading.bpm : chart->bpm;
    if (chart->faults[STAGE_TEXT] != UINT64_MAX)
        return;
    chart->section_count++;
    if (pattern == NULL)
        return;
    reading.played.section = section;
    reading.played.pattern = pattern;
    reading.played.before = &reading.before.text;
    reading.played.after = &reading.after.text;
    peer_judge_section(chart, &reading.played);
}
