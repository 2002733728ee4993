/* 3, 6, 10 and 11: blocks out of order, heads of definitions, references. */
#include "page.h"

enum { LARGEST_REFERENCE = 9999 };

/* Where the block on the other line is, in words. */
static void say_behind(struct page *page, const char *what)
{
    struct stretch other = line_at(page->text, page->cause->other_line);
    bool is_definition = page->text.bytes[other.start] == '$';
    say(page, "this %s stands behind %s `%w` on line %n", what, is_definition ? "definition" : "section",
        is_definition ? other : name_in_header(page->text, other), page->cause->other_line);
}

/* Goes through the lines that begin a block with `$`: the next one's number, 0 at the end; the line moves on. */
static size_t next_head(struct text text, size_t *at, size_t *line, bool *blank_before)
{
    while (*at < text.length) {
        struct stretch found = next_line(text, at);
        bool is_head = *blank_before && found.length > 1 && text.bytes[found.start] == '$';
        *blank_before = found.length == 0;
        (*line)++;
        if (is_head)
            return value_of(text, next_number(text, found, found.start));
    }
    return 0;
}

/* A number that no definition has: one more than the largest. */
size_t free_reference(struct text text)
{
    size_t largest = 0;
    size_t line = 0;
    bool blank_before = true;
    size_t at = 0;
    for (size_t number = next_head(text, &at, &line, &blank_before); number > 0; number = next_head(text, &at, &line, &blank_before))
        if (number > largest)
            largest = number;
    return largest < LARGEST_REFERENCE ? largest + 1 : LARGEST_REFERENCE;
}

/* The definitions above a line. */
static void list_defined(struct page *page, size_t before)
{
    const char *between = "defined above: ";
    size_t line = 0;
    bool blank_before = true;
    size_t at = 0;
    for (size_t number = next_head(page->text, &at, &line, &blank_before); number > 0 && line < before;
         number = next_head(page->text, &at, &line, &blank_before)) {
        go_on(page, "%s$%n", between, number);
        between = ", ";
    }
}

static void advise_head(struct page *page)
{
    struct stretch line = page->place;
    struct stretch number = next_number(page->text, line, line.start);
    if (page->cause->cause == TURNIPCART_CAUSE_HEAD_TWICE) {
        say(page, "$%n is defined twice", page->cause->first);
        repair(page, "give this one a number of its own, as `$%n`", free_reference(page->text));
        note(page, page->cause->other_line, "it is defined here");
    } else if (page->cause->cause == TURNIPCART_CAUSE_HEAD_TOO_MANY) {
        say(page, "this is one definition too many");
        repair(page, "a chart has at most 26; write this one out where it is played");
    } else if (number.start == line.start + 1 && number.length > 0 && end_of(number) < end_of(line) && page->text.bytes[number.start] != '0') {
        struct stretch rest = trimmed(page->text, (struct stretch){end_of(number), end_of(line) - end_of(number)});
        say(page, "`%w` stands behind `$%n`, and a definition's number is alone on its line", rest, value_of(page->text, number));
        repair(page, "write `$%n`, and the chords on the next line", value_of(page->text, number));
        point_at(page, rest);
    } else {
        say(page, "`%w` is no definition's number", line);
        repair(page, "write `$` and a number from 1 to 9999 without a leading zero, alone on the line, as `$%n`", free_reference(page->text));
    }
}

static void advise_undefined(struct page *page)
{
    size_t other = page->cause->other_line;
    size_t block = block_first(page->text, page->advice->line);
    say(page, "$%n is not defined", page->cause->first);
    if (other == block) {
        say(page, "$%n names itself", page->cause->first);
        repair(page, "a definition names earlier ones only");
    } else if (other > 0) {
        go_on(page, " yet: it stands below, on line %n", other);
        repair(page, "move its block above this one");
        note(page, other, "it is defined here");
    } else {
        repair(page, "%s", "");
        list_defined(page, block);
        if (page->advice->repair.length == 0)
            repair(page, "write a block `$%n` with its chords above the first section, or the chords here", page->cause->first);
    }
}

void advise_definition(struct page *page)
{
    size_t number = page->cause->first;
    switch (page->cause->cause) {
    case TURNIPCART_CAUSE_METADATA_LATE:
        say_behind(page, "key");
        repair(page, "song keys stand at the top; for one section alone write it directly under its header, without a blank line");
        break;
    case TURNIPCART_CAUSE_DEFINITION_LATE:
        say_behind(page, "definition");
        repair(page, "move the block above the first section");
        break;
    case TURNIPCART_CAUSE_REFERENCE_UNDEFINED: advise_undefined(page); break;
    case TURNIPCART_CAUSE_REFERENCE_DEEP:
        say(page, "$%n holds a reference itself, so no definition can name it", number);
        repair(page, "write out here what stands in $%n, or name it in a section", number);
        break;
    case TURNIPCART_CAUSE_REFERENCE_LOOPS:
        say(page, "$%n has a loop, and stands in a loop here", number);
        repair(page, "write the loop in $%n out, or this one", number);
        break;
    case TURNIPCART_CAUSE_REFERENCE_EMPTY:
        say(page, "$%n is empty, so no definition can name it", number);
        repair(page, "take it away here, or write chords below `$%n`", number);
        break;
    default: advise_head(page);
    }
    if (page->cause->refusal == TURNIPCART_REFERENCE_KIND && page->cause->other_line > 0)
        note(page, page->cause->other_line, "it is defined here");
}
