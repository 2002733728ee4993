/* 7: lines that are no pattern text at all. */
#include "chords.h"
#include "names.h"
#include "rules.h"

/* The word in braces at a line's beginning, as `{title: Blue Moon}`: keys as another notation writes them. */
bool directive(struct page *page, struct stretch word)
{
    struct stretch line = line_here(page);
    struct stretch name = {line.start + 1, 0};
    (void)word;
    if (byte_at(page, line.start) != '{')
        return false;
    while (end_of(name) < end_of(line) && is_letter(byte_at(page, end_of(name))))
        name.length++;
    size_t meant = name_meant(page->text, name, 0, KEYS);
    struct stretch setting = {end_of(name), end_of(line) - end_of(name)};
    while (setting.length > 0 && (byte_at(page, setting.start) == ':' || is_blank(byte_at(page, setting.start)))) {
        setting.start++;
        setting.length--;
    }
    if (setting.length > 0 && byte_at(page, end_of(setting) - 1) == '}')
        setting.length--;
    point_at(page, line);
    say(page, "braces are not written here");
    if (meant < NAMES)
        repair(page, "a key of the song is a line `%s %w` at the top of the chart", name_of(meant), setting);
    else
        repair(page, "take the line away; a remark goes behind `!` in the header");
    return true;
}

/* A key or a modifier without its sign, at the beginning of the line. */
bool bare_name(struct page *page, struct stretch word)
{
    struct stretch line = line_here(page);
    struct stretch rest = {end_of(word), end_of(line) - end_of(word)};
    bool behind_sign = byte_at(page, line.start) == '_' && trimmed(page->text, (struct stretch){line.start + 1, word.start - line.start - 1}).length == 0;
    if (word.start != line.start && !behind_sign)
        return false;
    for (size_t number = TURNIPCART_KEY_BPM; number < NAMES; number++) {
        bool of_section = number == TURNIPCART_KEY_BPM || number == TURNIPCART_KEY_TIME || number >= NAME_REPEAT;
        if (!of_section || !is_word_loosely(page->text, word, name_of(number) + 1) || next_number(page->text, rest, rest.start).length == 0)
            continue;
        say(page, "`%w` is not a chord", word);
        repair(page, "write `%s%w`%s", name_of(number), rest, number < KEYS ? ", directly under the section's name" : ", below the chords");
        return true;
    }
    return false;
}

/* A comment above the section's name, which is then taken for the name. */
bool comment_as_name(struct page *page, struct stretch word)
{
    size_t header = page->cause->other_line;
    struct stretch line = line_at(page->text, header);
    (void)word;
    if (page->advice->line != header + 1 || !(begins_with(page->text, line, "#") || begins_with(page->text, line, "//"))
        || looks_like_chords(page->text, line_here(page)))
        return false;
    point_at_line(page, header);
    say(page, "`%w` is read as the section's name", line);
    repair(page, "delete the line; a remark goes behind `!` in the header, as `Verse!remark`");
    return true;
}

/* A section's name where the blank line before it was forgotten. */
bool header_inside(struct page *page, struct stretch word)
{
    struct stretch line = line_here(page);
    (void)word;
    if (!looks_like_header(page->text, line) || page->advice->line == page->cause->other_line + 1)
        return false;
    say(page, "`%w` is read as chords", line);
    repair(page, "if a section begins here, write a blank line above it (line %n)", page->advice->line);
    return true;
}

bool lyrics(struct page *page, struct stretch word)
{
    (void)word;
    if (!looks_like_lyrics(page->text, line_here(page)))
        return false;
    advise_dashes_missing(page);
    return true;
}
