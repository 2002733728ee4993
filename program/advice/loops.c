/* 7: brackets, their counts, and what stands beside a loop. */
#include "chords.h"
#include "page.h"

/* From one byte of the line up to a closing bracket, that in; empty where there is none. */
static struct stretch bracket_from(struct text text, struct stretch line, size_t open)
{
    for (size_t at = open; at < end_of(line); at++)
        if (text.bytes[at] == ']')
            return (struct stretch){open, at + 1 - open};
    return (struct stretch){open, 0};
}

static struct stretch inside(struct stretch bracket)
{
    return (struct stretch){bracket.start + 1, bracket.length - 2};
}

static size_t next_open(struct text text, struct stretch line, size_t at)
{
    while (at < end_of(line) && text.bytes[at] != '[')
        at++;
    return at;
}

/* Chords over words: brackets around single chords. */
static bool is_chord_bracket(struct text text, struct stretch line, size_t open)
{
    struct stretch bracket = bracket_from(text, line, open);
    return bracket.length > 2 && is_usual_chord(text, inside(bracket), true);
}

static void advise_brackets(struct page *page, size_t open)
{
    struct stretch line = line_here(page);
    const char *between = "";
    point_at(page, bracket_from(page->text, line, open));
    say(page, "`[ ]` is a loop here, not a chord over words");
    repair(page, "write chords alone, as `");
    for (size_t at = next_open(page->text, line, line.start); at < end_of(line); at = next_open(page->text, line, at + 1)) {
        if (!is_chord_bracket(page->text, line, at))
            continue;
        go_on(page, "%s%w", between, inside(bracket_from(page->text, line, at)));
        between = ";";
    }
    go_on(page, "`, and the lyrics below a line `--`");
}

/* A loop's count that is no number from 2 to 9999. */
static void advise_wrong_count(struct page *page)
{
    struct stretch digits = next_number(page->text, page->place, page->place.start);
    size_t count = value_of(page->text, digits);
    say(page, "the loop's count is written `%w`", page->place);
    if (digits.length > 0 && count >= 2 && count <= 9999)
        repair(page, "write the number alone: `]%n`", count);
    else if (digits.length == page->place.length)
        repair(page, "it is 2 to 9999; what is played once stands without brackets");
    else
        repair(page, "write how often it is played, directly behind the `]`, then a `;` before what follows");
}

static void advise_missing_count(struct page *page)
{
    struct stretch line = line_here(page);
    size_t at = end_of(page->place);
    while (at < end_of(line) && is_blank(page->text.bytes[at]))
        at++;
    struct stretch behind = {at, end_of(line) - at};
    struct stretch digits = next_number(page->text, behind, at);
    if (at > end_of(page->place) && digits.start <= at + 1 && digits.length > 0) {
        say(page, "no space stands between `]` and its count");
        repair(page, "write them together: `]%n`", value_of(page->text, digits));
        return;
    }
    say(page, "the loop has no count of 2 or more");
    repair(page, "write how often it is played, directly behind: `]2`");
}

/* The outer loop with the inner one written out, where both stand on the line and are short. */
static void advise_loop_in_loop(struct page *page)
{
    struct stretch line = line_here(page);
    struct stretch inner = bracket_from(page->text, line, page->place.start);
    struct stretch digits = next_number(page->text, line, end_of(inner));
    size_t count = value_of(page->text, digits);
    size_t outer = page->place.start;
    say(page, "a loop in a loop");
    while (outer > line.start && page->text.bytes[outer - 1] != '[')
        outer--;
    if (inner.length < 3 || digits.start != end_of(inner) || count < 2 || count > 8 || outer == line.start) {
        repair(page, "write the inner loop out");
        return;
    }
    repair(page, "write the inner loop out: `%w", (struct stretch){outer - 1, page->place.start - (outer - 1)});
    for (size_t pass = 0; pass < count; pass++)
        go_on(page, pass == 0 ? "%w" : ";%w", inside(inner));
    go_on(page, "%w`", (struct stretch){end_of(digits), end_of(line) - end_of(digits)});
}

/* A loop's bracket and its count stand directly before a place, blanks aside. */
static bool stands_behind_loop(struct text text, size_t at)
{
    while (at > 0 && is_blank(text.bytes[at - 1]))
        at--;
    while (at > 0 && is_digit(text.bytes[at - 1]))
        at--;
    return at > 0 && text.bytes[at - 1] == ']';
}

static void advise_not_parted(struct page *page)
{
    if (page->text.bytes[page->place.start] == '[') {
        if (stands_behind_loop(page->text, page->place.start)) {
            say(page, "no `;` stands between these two loops");
            repair(page, "write one before this `[`");
            return;
        }
        say(page, "a loop stands beside a chord");
        repair(page, "write `;` before it; `[C]` is a loop here, not a chord over words; write chords alone and lyrics below `--`");
    } else {
        say(page, "no `;` stands before `%w`", page->place);
        repair(page, "write one: `;%w`", page->place);
    }
}

void advise_loop(struct page *page)
{
    struct stretch line = line_here(page);
    size_t open = page->cause->second;
    bool on_line = open >= line.start && open < end_of(line) && page->text.bytes[open] == '[';
    switch (page->cause->cause) {
    case TURNIPCART_CAUSE_LOOP_EMPTY:
        say(page, "this loop has no measures");
        repair(page, "write them between `[` and `]`, or take the loop away");
        break;
    case TURNIPCART_CAUSE_LOOP_COUNT_MISSING:
    case TURNIPCART_CAUSE_LOOP_COUNT_WRONG:
        if (on_line && is_chord_bracket(page->text, line, open)
            && (!is_digit(page->text.bytes[page->place.start]) && next_open(page->text, line, open + 1) < end_of(line)))
            advise_brackets(page, open);
        else if (page->cause->cause == TURNIPCART_CAUSE_LOOP_COUNT_MISSING)
            advise_missing_count(page);
        else
            advise_wrong_count(page);
        break;
    case TURNIPCART_CAUSE_LOOP_IN_LOOP: advise_loop_in_loop(page); break;
    case TURNIPCART_CAUSE_LOOP_OPEN:
        say(page, "this `[` is never closed");
        repair(page, "write `]` and a count, as `%w]2`", (struct stretch){page->place.start, end_of(line) - page->place.start});
        break;
    case TURNIPCART_CAUSE_LOOP_NOT_OPEN:
        say(page, "this `]` closes no loop");
        repair(page, "write `[` where the loop begins, or take `%w` away", page->place);
        break;
    case TURNIPCART_CAUSE_LOOP_LINE_END:
        say(page, "a line end stands between a bracket and its measures");
        repair(page, page->text.bytes[page->place.start] == '[' ? "write the `[` at the beginning of the next line"
                                                                : "write `%w` at the end of the line before", page->place);
        break;
    default: advise_not_parted(page);
    }
}
