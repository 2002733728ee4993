/* 4: keys. */
#include "names.h"
#include "page.h"

/* The letters at a name's beginning, behind its `@` or `_`. */
static struct stretch letters_of(struct text text, struct stretch name)
{
    struct stretch letters = {name.start + 1, 0};
    while (end_of(letters) < end_of(name) && (is_letter(text.bytes[end_of(letters)]) || text.bytes[end_of(letters)] == '_'))
        letters.length++;
    return letters;
}

/* What was meant as the setting: the rest of the line without signs between. */
static struct stretch setting_meant(struct text text, struct stretch line, size_t from)
{
    while (from < end_of(line) && (is_blank(text.bytes[from]) || text.bytes[from] == ':' || text.bytes[from] == '='))
        from++;
    return (struct stretch){from, end_of(line) - from};
}

/* A name that is whole but for what stands directly behind it, as `@bpm=120` or `_repeat2`. */
static bool repair_joined(struct page *page, struct stretch letters, struct stretch setting, size_t first, size_t last)
{
    size_t meant = name_meant(page->text, letters, first, last);
    if (meant == NAMES || end_of(letters) == end_of(page->place))
        return false;
    if (setting.length > 0)
        repair(page, "write `%s %w`, with a space behind the name", name_of(meant), setting);
    else
        repair(page, "write `%s`", name_of(meant));
    return true;
}

/* A name behind a space, as `@ bpm 120`. */
static bool repair_parted(struct page *page, struct stretch setting, size_t first, size_t last)
{
    size_t meant = name_meant(page->text, next_word(page->text, setting, setting.start), first, last);
    if (page->place.length > 1 || meant == NAMES)
        return false;
    repair(page, "write `%s` without a space in it", name_of(meant));
    return true;
}

bool repair_name(struct page *page, size_t first, size_t last)
{
    struct stretch name = page->place;
    struct stretch letters = letters_of(page->text, name);
    struct stretch setting = setting_meant(page->text, line_here(page), end_of(letters));
    if (repair_joined(page, letters, setting, first, last) || repair_parted(page, setting, first, last))
        return true;
    size_t meant = name_meant(page->text, (struct stretch){name.start + 1, name.length - 1}, first, last);
    if (meant == NAMES)
        return false;
    repair(page, page->text.bytes[name.start] == '@' ? "write %s" : "write `%s`", name_of(meant));
    if (meant == NAME_CUT_END && is_word_loosely(page->text, letters, "cut"))
        repair(page, "write `_cutStart` for the beginning, `_cutEnd` for the end");
    return true;
}

static void advise_unknown(struct page *page)
{
    bool in_section = page->text.bytes[line_at(page->text, block_first(page->text, page->advice->line)).start] != '@';
    if (page->place.length > 1)
        say(page, "there is no key %w", page->place);
    else
        say(page, "no name stands directly behind `@`");
    if (in_section && repair_name(page, TURNIPCART_KEY_BPM, TURNIPCART_KEY_TIME + 1))
        return;
    if (repair_name(page, 0, KEYS)) {
        if (in_section)
            go_on(page, ", at the top of the chart: a section has @bpm and @time only");
        return;
    }
    if (in_section)
        repair(page, "a section has @bpm and @time only; if the line is no key, it must not begin with `@`");
    else
        repair(page, "the keys are @name, @artist, @original, @capo, @bpm, @time, @warning and @end");
}

static struct stretch header_name(const struct page *page)
{
    return name_in_header(page->text, line_at(page->text, page->cause->other_line));
}

void advise_keys(struct page *page)
{
    const char *key = name_of(page->cause->first);
    size_t other = page->cause->other_line;
    switch (page->cause->cause) {
    case TURNIPCART_CAUSE_KEY_NOT_HERE:
        say(page, "%s is a key of the song, and here section `%w` has begun", key, header_name(page));
        repair(page, "move it to the top of the chart; a section has @bpm and @time only");
        note(page, other, "the section begins here");
        break;
    case TURNIPCART_CAUSE_KEY_TWICE:
        say(page, "%s stands twice", key);
        repair(page, "delete one of the two");
        note(page, other, "this is the first one");
        break;
    case TURNIPCART_CAUSE_KEY_LATE:
        say(page, "%s stands below the chords", key);
        repair(page, "move it up, directly under `%w` (line %n)", header_name(page), other);
        break;
    default: advise_unknown(page);
    }
}
