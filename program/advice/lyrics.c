/* 16 and 17: the counts of lyric lines. */
#include "chords.h"
#include "page.h"

enum { LARGEST_COUNT = 9999 };

/* The last word of a line, words being parted by blanks. */
static struct stretch last_word(struct text text, struct stretch line)
{
    size_t start = end_of(line);
    while (start > line.start && !is_blank(text.bytes[start - 1]))
        start--;
    return (struct stretch){start, end_of(line) - start};
}

/* A number at the line's end that may be meant as a count, as `(2)`, `x2` or `_ 2`. */
static bool advise_meant(struct page *page)
{
    struct stretch word = last_word(page->text, line_here(page));
    struct stretch digits = next_number(page->text, word, word.start);
    struct stretch before = {word.start, digits.start - word.start};
    struct stretch behind = {end_of(digits), end_of(word) - end_of(digits)};
    size_t count = value_of(page->text, digits);
    if (digits.length == 0 || count < 1 || count > LARGEST_COUNT || characters_in(page->text, before) > 1 || behind.length > 1)
        return false;
    if (before.length == 1 && is_letter(page->text.bytes[before.start]) && small(page->text.bytes[before.start]) != 'x')
        return false;
    say(page, "`%w` is no count", word);
    repair(page, "write a space, `_` and the number: ` _%n`", count);
    point_at(page, word);
    return true;
}

static void advise_missing(struct page *page)
{
    if (advise_meant(page))
        return;
    say(page, "this lyric line has no count");
    repair(page, "end it with a space, `_` and its measures, as ` _2`");
}

static void advise_wrong(struct page *page)
{
    struct stretch digits = next_number(page->text, page->place, page->place.start);
    size_t count = value_of(page->text, digits);
    say(page, "`%w` is no count", page->place);
    repair(page, "a count is a whole number from 1 to 9999 of measures");
    if (end_of(digits) == end_of(page->place) && count >= 1 && count <= LARGEST_COUNT)
        go_on(page, ": ` _%n`", count);
}

/* A count without a plain space before it. */
static void advise_tight(struct page *page)
{
    struct stretch line = line_here(page);
    struct stretch before = {line.start, 0};
    struct character last = {0, 0};
    for (size_t at = line.start; at < page->place.start; at += last.bytes) {
        last = character_at(page->text.bytes, page->text.length, at);
        before = (struct stretch){at, last.bytes};
    }
    if (is_other_space(last.code) || is_invisible(last.code)) {
        say(page, last.code == 0xA0 ? "no-break space (%c) stands before the count" : "another space (%c) than the plain one stands before the count",
            last.code);
        repair(page, "type a plain space there");
        point_at(page, before);
        return;
    }
    say(page, "no space stands before `%w`, so it is no count", page->place);
    repair(page, "write one: ` %w`", page->place);
}

static void advise_sum(struct page *page)
{
    struct text text = page->text;
    size_t sum = page->cause->first;
    size_t measures = page->cause->second;
    struct stretch last = line_at(text, page->cause->other_line);
    struct stretch digits = count_at_end(text, last);
    size_t count = value_of(text, digits) + measures;
    say(page, "the counts of `%w` sum to %n, and it plays %n", page->place, sum, measures);
    go_on(page, measures == 1 ? " measure" : " measures");
    if (digits.length > 0 && count > sum && count - sum <= LARGEST_COUNT) {
        repair(page, "change counts by %n in all; with `_%n` on line %n the sum is right", sum > measures ? sum - measures : measures - sum,
               count - sum, page->cause->other_line);
        note(page, page->cause->other_line, "`_%n` here", count - sum);
    } else {
        repair(page, "change counts by %n in all", sum > measures ? sum - measures : measures - sum);
    }
}

void advise_lyrics(struct page *page)
{
    switch (page->cause->cause) {
    case TURNIPCART_CAUSE_COUNT_SUM: advise_sum(page); return;
    case TURNIPCART_CAUSE_COUNT_TIGHT: advise_tight(page); break;
    case TURNIPCART_CAUSE_COUNT_WRONG: advise_wrong(page); break;
    case TURNIPCART_CAUSE_COUNT_ALONE:
        say(page, "`%w` stands alone, so it is no count", page->place);
        repair(page, "write words before it, as `***Solo*** %w`", page->place);
        break;
    default: advise_missing(page);
    }
    note(page, page->cause->other_line, "this line has one");
}
