/* 8: lines of a section out of place. */
#include "chords.h"
#include "names.h"
#include "page.h"

/* The block before a line ends in lyrics. */
static bool stands_behind_lyrics(struct text text, size_t line)
{
    size_t before = written_before(text, line);
    if (before == 0)
        return false;
    for (size_t at = line_start(text, line_at(text, block_first(text, before)).start), number = block_first(text, before); number < before; number++)
        if (is_word(text, next_line(text, &at), "--"))
            return true;
    return false;
}

static void advise_blank_in_lyrics(struct page *page, size_t line)
{
    say(page, "this line is read as a new section without chords");
    repair(page, "if it is a lyric line, delete the blank line %n before it", line - 1);
}

static void advise_chords_as_name(struct page *page, size_t line)
{
    size_t before = written_before(page->text, line);
    say(page, "these chords stand where the section's name should be");
    repair(page, "write a name above them, as `Verse`");
    if (before > 0 && before < line - 1 && looks_like_chords(page->text, line_at(page->text, before)) && block_first(page->text, before) < before)
        go_on(page, "; if they belong to the section above, delete the blank line %n", line - 1);
}

/* A key of the song without its `@`, as `name Blue Moon`: its number, NAMES where the line is none; and the setting. */
static size_t bare_key(struct text text, struct stretch line, struct stretch *setting)
{
    struct stretch word = next_word(text, line, line.start);
    size_t at = end_of(word);
    while (at < end_of(line) && (is_blank(text.bytes[at]) || text.bytes[at] == ':' || text.bytes[at] == '='))
        at++;
    *setting = (struct stretch){at, end_of(line) - at};
    return setting->length > 0 && word.length > 2 ? name_meant(text, word, 0, KEYS) : NAMES;
}

/* A header alone in its block, with chords in the next one. */
static void advise_blank_below(struct page *page, struct stretch name, size_t line)
{
    say(page, "`%w` has no chords: a blank line parts it from them", name);
    repair(page, "delete the blank line %n", line + 1);
}

static bool has_count(struct text text, struct stretch line)
{
    return count_at_end(text, line).length > 0;
}

/* Several chords in a row, or one that is more than a letter. */
static bool is_row_of_chords(struct text text, struct stretch line)
{
    struct stretch first = next_word(text, line, line.start);
    return looks_like_chords(text, line) && !looks_like_lyrics(text, line)
        && (end_of(first) < end_of(line) || is_usual_chord(text, first, false));
}

/* What stands below a section's header that has no chords. */
static void advise_bare_header(struct page *page, size_t line, struct stretch name)
{
    struct stretch below = line_at(page->text, line + 1);
    struct stretch setting;
    size_t key = bare_key(page->text, name, &setting);
    say(page, "`%w` has no chords", name);
    if (below.length > 0 && is_word(page->text, below, "--"))
        repair(page, "write them between this line and the `--`; a measure of silence is `_`");
    else if (below.length > 0 && page->text.bytes[below.start] == '_')
        repair(page, "write them directly under it, above `%w`", below);
    else if (key < NAMES && written_before(page->text, line) == 0)
        repair(page, "if it is a key of the song, write `%s %w`", name_of(key), setting);
    else if (line == 1)
        repair(page, "if it is the song's title, write `@name %w`; if a section's name, write its chords on the next line", name);
    else if (below.length > 0)
        repair(page, "write them below its keys");
    else
        repair(page, "write them on the next line, as `C;Am;F;G`");
}

static void advise_no_pattern(struct page *page)
{
    struct text text = page->text;
    size_t line = page->advice->line;
    struct stretch header = line_at(text, line);
    struct stretch name = name_in_header(text, header);
    size_t last = block_last(text, line);
    size_t next = next_written(text, last);
    bool chords_next = next > 0 && is_row_of_chords(text, line_at(text, next));
    bool behind_lyrics = stands_behind_lyrics(text, line);
    if (behind_lyrics && (has_count(text, header) || (last > line && !is_word(text, line_at(text, line + 1), "--")
                                                      && text.bytes[line_at(text, line + 1).start] != '@')))
        advise_blank_in_lyrics(page, line);
    else if (is_row_of_chords(text, header))
        advise_chords_as_name(page, line);
    else if (last == line && chords_next)
        advise_blank_below(page, name, line);
    else if (behind_lyrics && last == line && !looks_like_header(text, header))
        advise_blank_in_lyrics(page, line);
    else
        advise_bare_header(page, line, name);
}

void advise_dashes_missing(struct page *page)
{
    say(page, "these look like lyrics, and no `--` stands before them");
    repair(page, "write a line `--` above this one (line %n)", page->advice->line);
}

static void advise_late_pattern(struct page *page)
{
    struct stretch line = page->place;
    struct stretch other = line_at(page->text, page->cause->other_line);
    if (is_dashes(page->text, line)) {
        say(page, "`%w` parts no lyrics from chords", line);
        repair(page, "a line with two hyphens alone does: `--`");
    } else if (looks_like_lyrics(page->text, line)) {
        advise_dashes_missing(page);
    } else {
        say(page, "these chords stand below `%w`", other);
        repair(page, "move them up, above line %n: a section's chords stand together, modifiers below them", page->cause->other_line);
        note(page, page->cause->other_line, "this line ends the chords");
    }
}

static void advise_line_in_keys(struct page *page)
{
    struct stretch line = page->place;
    if (page->text.bytes[line.start] == '$')
        say(page, "this definition stands in the block of keys");
    else
        say(page, "this line stands in the block of keys and begins with no `@`");
    repair(page, page->text.bytes[line.start] == '$' ? "write a blank line above it"
                                                     : "if a section begins here, write a blank line above it; if it is a key, write its `@`");
}

static void advise_modifier(struct page *page)
{
    const char *name = name_of(page->cause->first);
    if (page->cause->cause == TURNIPCART_CAUSE_MODIFIER_UNKNOWN) {
        say(page, "there is no modifier %w", page->place);
        if (!repair_name(page, NAME_REPEAT, NAMES))
            repair(page, "the modifiers are _repeat, _cutStart, _cutEnd, _before and _after");
    } else if (page->cause->cause == TURNIPCART_CAUSE_MODIFIER_TWICE) {
        say(page, "%s stands twice", name);
        repair(page, "delete one of the two");
        note(page, page->cause->other_line, "this is the first one");
    } else {
        say(page, "`%w` stands above the chords", page->place);
        repair(page, "move it down, directly under them");
    }
}

/* `--` with nothing below: lyrics may stand behind a blank line. */
static void advise_bare_dashes(struct page *page)
{
    size_t next = next_written(page->text, page->advice->line);
    say(page, "no lyrics stand below this `--`");
    if (next > 0 && has_count(page->text, line_at(page->text, next)))
        repair(page, "delete the blank line %n below it", page->advice->line + 1);
    else
        repair(page, "write some, or delete the `--`");
}

void advise_section(struct page *page)
{
    switch (page->cause->cause) {
    case TURNIPCART_CAUSE_LINE_IN_METADATA: advise_line_in_keys(page); break;
    case TURNIPCART_CAUSE_PATTERN_LATE: advise_late_pattern(page); break;
    case TURNIPCART_CAUSE_NAME_EMPTY:
        say(page, "the section has no name before its `!`");
        repair(page, "write one, as `Verse%w`", page->place);
        break;
    case TURNIPCART_CAUSE_NAME_LONG:
        say(page, "the section's name has %n characters", page->cause->first);
        repair(page, "at most 50; a remark goes behind `!`");
        break;
    case TURNIPCART_CAUSE_NO_PATTERN: advise_no_pattern(page); break;
    case TURNIPCART_CAUSE_DASHES_BARE: advise_bare_dashes(page); break;
    default: advise_modifier(page);
    }
}
