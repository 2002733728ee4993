/* The causes of 4, 5 and 8: keys, settings, and the lines of sections and metadata. */
#include "causes.h"

/* The name that begins a key or modifier line, with its sign, and what is set. */
struct named {
    size_t number;
    struct span name;
    struct span setting;
};

static struct named name_on(const struct song *song, size_t line)
{
    struct named named = {.number = UNKNOWN_NAME};
    struct span bare;
    split_name(song->text, song->lines[line], &bare, &named.setting);
    named.name = (struct span){song->lines[line].start, bare.end};
    enum key key = find_key(song->text, bare);
    if (song->text[named.name.start] == '_')
        named.number = FIRST_MODIFIER + find_modifier(song->text, bare);
    else if (key != UNKNOWN_KEY)
        named.number = key;
    return named;
}

/* The first line with this name before the refused one: in the section, or in any metadata block; 0 where there is none. */
static size_t earlier_line(const struct search *search, size_t number)
{
    size_t line = search->block.kind == SECTION_BLOCK ? search->block.first + 1 : 0;
    for (; line < search->line; line++)
        if (search->song->lines[line].start < search->song->lines[line].end && name_on(search->song, line).number == number)
            return line + 1;
    return 0;
}

static void search_key(struct search *search, const struct named *named)
{
    struct reader_cause *cause = search->cause;
    bool in_section = search->block.kind == SECTION_BLOCK;
    bool is_sections = named->number == BPM_KEY || named->number == TIME_KEY;
    size_t earlier = named->number == UNKNOWN_NAME ? 0 : earlier_line(search, named->number);
    if (named->number == UNKNOWN_NAME) {
        place_at(search, CAUSE_KEY_UNKNOWN, named->name);
    } else if (in_section && !is_sections) {
        place_at(search, CAUSE_KEY_NOT_HERE, named->name);
        cause->other_line = search->block.first + 1;
    } else if (earlier > 0) {
        place_at(search, CAUSE_KEY_TWICE, named->name);
        cause->other_line = earlier;
    } else {
        place_at(search, CAUSE_KEY_LATE, search->span);
        cause->other_line = search->block.first + 1;
    }
}

void search_keys(struct search *search)
{
    struct named named = name_on(search->song, search->line);
    search->cause->first = named.number;
    if (search->cause->refusal == REFUSED_KEY)
        search_key(search, &named);
    else if (named.setting.start == named.setting.end)
        place_at(search, CAUSE_SETTING_MISSING, (struct span){named.name.end, named.name.end});
    else
        place_at(search, CAUSE_SETTING_WRONG, named.setting);
}

/* The name has no character, or too many, or there is no pattern line. */
static void search_header(struct search *search)
{
    struct span name = name_in_header(search);
    size_t characters = count_characters(search->song->text, name);
    if (characters == 0) {
        place_at(search, CAUSE_NAME_EMPTY, search->span);
    } else if (characters <= NAME_LIMIT) {
        place_at(search, CAUSE_NO_PATTERN, search->span);
    } else {
        struct span rest = name;
        for (size_t count = 0; count < NAME_LIMIT; count++)
            rest.start += character_length(search->song->text + rest.start, rest.end - rest.start);
        place_at(search, CAUSE_NAME_LONG, rest);
        search->cause->first = characters;
    }
}

static void search_modifier(struct search *search)
{
    struct named named = name_on(search->song, search->line);
    size_t earlier = named.number == UNKNOWN_NAME ? 0 : earlier_line(search, named.number);
    if (named.number == UNKNOWN_NAME) {
        place_at(search, CAUSE_MODIFIER_UNKNOWN, named.name);
    } else if (earlier > 0) {
        place_at(search, CAUSE_MODIFIER_TWICE, named.name);
        search->cause->first = named.number;
        search->cause->other_line = earlier;
    } else {
        place_at(search, CAUSE_MODIFIER_EARLY, search->span);
        search->cause->other_line = search->block.first + 1;
    }
}

/* A pattern line past the run: a key behind the pattern is refused before it, so a modifier ended the run. */
static void search_late_pattern(struct search *search)
{
    size_t line = search->block.first + 1;
    while (!is_modifier_line(search->song, line))
        line++;
    place_at(search, CAUSE_PATTERN_LATE, search->span);
    search->cause->other_line = line + 1;
}

void search_section(struct search *search)
{
    if (search->block.kind == METADATA_BLOCK) {
        place_at(search, CAUSE_LINE_IN_METADATA, search->span);
        search->cause->other_line = search->block.first + 1;
    } else if (search->line == search->block.first) {
        search_header(search);
    } else if (span_is(search->song->text, search->span, "--")) {
        place_at(search, CAUSE_DASHES_BARE, search->span);
        search->cause->other_line = search->block.first + 1;
    } else if (is_modifier_line(search->song, search->line)) {
        search_modifier(search);
    } else {
        search_late_pattern(search);
    }
}
