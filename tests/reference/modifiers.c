/* Stage 2: modifier lines of a section. */
#include <string.h>
#include "song.h"

static const char *const modifier_names[MODIFIERS] = {"repeat", "cutStart", "cutEnd", "before", "after"};

enum modifier find_modifier(const unsigned char *text, struct span name)
{
    for (int modifier = 0; modifier < MODIFIERS; modifier++)
        if (span_is(text, name, modifier_names[modifier]))
            return (enum modifier)modifier;
    return MODIFIERS;
}

/* `m`, `-b` or `m-b`: what stands before the first `-`, if anything, and what stands after it, if there is one. */
static bool read_cut(const unsigned char *text, struct span setting, struct cut *cut)
{
    struct span measures = setting, beats = setting;
    const unsigned char *dash = NULL;
    if (setting.start < setting.end)
        dash = memchr(text + setting.start, '-', setting.end - setting.start);
    if (dash == NULL)
        return read_number(text, setting, 1, COUNT_LIMIT, &cut->measures);
    measures.end = (size_t)(dash - text);
    beats.start = measures.end + 1;
    bool measures_good = measures.start == measures.end || read_number(text, measures, 1, COUNT_LIMIT, &cut->measures);
    return measures_good && read_number(text, beats, 1, COUNT_LIMIT, &cut->beats);
}

static bool read_joined(const unsigned char *text, struct span setting, size_t line, struct joined *joined)
{
    joined->present = true;
    joined->line = line + 1;
    joined->text = setting;
    return pattern_is_good(text, setting, JOINED_TEXT);
}

/* Refusal 0, or what is wrong with the setting. */
static unsigned read_setting(const unsigned char *text, struct section *section, enum modifier modifier,
                             struct span setting, size_t line)
{
    bool good = false;
    switch (modifier) {
    case REPEAT_MODIFIER:
        good = read_number(text, setting, SMALLEST_REPEAT, COUNT_LIMIT, &section->repeat);
        break;
    case CUT_START_MODIFIER:
        good = read_cut(text, setting, &section->cut_start);
        break;
    case CUT_END_MODIFIER:
        good = read_cut(text, setting, &section->cut_end);
        break;
    case BEFORE_MODIFIER:
        return read_joined(text, setting, line, &section->before) ? READER_ACCEPTED : REFUSED_PATTERN_TEXT;
    case AFTER_MODIFIER:
        return read_joined(text, setting, line, &section->after) ? READER_ACCEPTED : REFUSED_PATTERN_TEXT;
    case MODIFIERS:
        break;
    }
    return good ? READER_ACCEPTED : REFUSED_SETTING;
}

/* A bad setting is refused by its own number, lower than 8, even where the modifier is doubled or out of place. */
void read_modifier(struct song *song, struct section *section, size_t line, bool seen[MODIFIERS], bool out_of_place)
{
    struct span name, setting;
    split_name(song->text, song->lines[line], &name, &setting);
    enum modifier modifier = find_modifier(song->text, name);
    section->has_modifier = true;
    if (modifier == MODIFIERS) {
        note_refusal(song, REFUSED_LINE, line + 1);
        return;
    }
    unsigned refusal = read_setting(song->text, section, modifier, setting, line);
    if (refusal != READER_ACCEPTED)
        note_refusal(song, refusal, line + 1);
    if (seen[modifier] || out_of_place)
        note_refusal(song, REFUSED_LINE, line + 1);
    seen[modifier] = true;
}
