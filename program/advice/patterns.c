/* 7: pattern text, but for words that are no chords and for loops. */
#include "names.h"
#include "rules.h"

static bool is_side(struct text text, struct stretch line)
{
    return begins_with(text, line, name_of(NAME_BEFORE)) || begins_with(text, line, name_of(NAME_AFTER));
}

static void advise_separator(struct page *page)
{
    const char *sign = page->text.bytes[page->place.start] == ':' ? ":" : ";";
    switch (page->cause->cause) {
    case TURNIPCART_CAUSE_SEPARATOR_FIRST:
        say(page, "`%s` at the beginning", sign);
        repair(page, "take it away: none stands first");
        break;
    case TURNIPCART_CAUSE_SEPARATOR_DOUBLED:
        say(page, "`%s` stands behind another separator", sign);
        repair(page, "take it away; an empty measure is written `_`");
        break;
    case TURNIPCART_CAUSE_SEPARATOR_LAST:
        say(page, "`%s` at the end", sign);
        repair(page, "take it away: none stands last");
        break;
    case TURNIPCART_CAUSE_SEPARATOR_LINE_END:
        say(page, "`%s` at the end of a line: the line end already parts the measures", sign);
        repair(page, "take this `%s` away", sign);
        break;
    default:
        say(page, "`%s` at the beginning of a line: the line end before it already parts the measures", sign);
        repair(page, "take this `%s` away", sign);
    }
}

static bool ends_measure(unsigned char byte)
{
    return byte == ';' || byte == ':' || byte == '[' || byte == ']';
}

/* The measure that a place stands in, on its line. */
static struct stretch measure_here(const struct page *page)
{
    struct stretch line = line_here(page);
    size_t start = page->place.start;
    size_t end = page->place.start;
    while (start > line.start && !ends_measure(page->text.bytes[start - 1]))
        start--;
    while (end < end_of(line) && !ends_measure(page->text.bytes[end]))
        end++;
    return trimmed(page->text, (struct stretch){start, end - start});
}

/* The measure with its removers at the end. */
static void advise_remover_inside(struct page *page)
{
    struct stretch measure = measure_here(page);
    struct stretch word;
    const char *between = "";
    say(page, "`=` is not at the end of its measure");
    repair(page, "move it behind the last chord of the measure: `");
    for (int removers = 0; removers < 2; removers++)
        for (word = next_word(page->text, measure, measure.start); word.length > 0; word = next_word(page->text, measure, end_of(word)))
            if (is_word(page->text, word, "=") == (removers == 1)) {
                go_on(page, "%s%w", between, word);
                between = " ";
            }
    go_on(page, "`");
}

static void advise_reference_here(struct page *page)
{
    if (is_side(page->text, line_here(page))) {
        say(page, "`%w` cannot stand in a lead-in or tail", page->place);
        repair(page, "write its chords out here");
        return;
    }
    say(page, "`%w` must be the only thing in a section's pattern", page->place);
    if (page->place.length == line_here(page).length) {
        repair(page, "put all of it into a definition, as `$%n`, and name that here; to repeat it use `_repeat 2`", free_reference(page->text));
        return;
    }
    repair(page, "put the rest into a definition, as `$%n` / `%w`, and name that here; to repeat it use `_repeat 2`", free_reference(page->text),
           line_here(page));
}

static void advise_malformed_reference(struct page *page)
{
    struct stretch digits = next_number(page->text, page->place, page->place.start);
    say(page, "`%w` is no reference", page->place);
    if (digits.start == page->place.start + 1 && digits.length > 0 && page->text.bytes[digits.start] != '0')
        repair(page, "write `$%n` alone; to repeat it write `_repeat 2` below", value_of(page->text, digits));
    else
        repair(page, "write `$` and the number of a definition, as `$1`");
}

/* A chord with a sign in it: `A=`, or `A$1`, `A_7` and the like, which no space puts right by itself. */
static void advise_sign(struct page *page)
{
    if (joined_signs(page, page->place))
        return;
    say(page, "`%w` is not a chord: none of `%s`, `_`, `=` and `$` stands in one", page->place, "%");
    repair(page, "put a space before the sign, `;` before a reference as `$1`, or take the sign away");
}

void advise_pattern(struct page *page)
{
    size_t cause = page->cause->cause;
    if (cause >= TURNIPCART_CAUSE_SEPARATOR_FIRST && cause <= TURNIPCART_CAUSE_SEPARATOR_LINE_START) {
        advise_separator(page);
        return;
    }
    switch (cause) {
    case TURNIPCART_CAUSE_NO_CHORD: advise_word(page); break;
    case TURNIPCART_CAUSE_EXTENSION_LONG:
        say(page, "`%w` is too long for a chord", page->place);
        repair(page, "at most 31 bytes stand behind a base chord; if these are several chords, part them by spaces, and measures by `;`");
        break;
    case TURNIPCART_CAUSE_EXTENSION_SIGN: advise_sign(page); break;
    case TURNIPCART_CAUSE_REFERENCE_MALFORMED: advise_malformed_reference(page); break;
    case TURNIPCART_CAUSE_REMOVER_FIRST:
        say(page, "`=` has no chord before it in its measure");
        repair(page, "`=` shortens a measure and stands at its end, as `C =`; a silence is `_`");
        break;
    case TURNIPCART_CAUSE_REMOVER_INSIDE: advise_remover_inside(page); break;
    case TURNIPCART_CAUSE_REFERENCE_NOT_HERE: advise_reference_here(page); break;
    case TURNIPCART_CAUSE_COLON_NOT_HERE:
        say(page, "`:` cannot stand in a lead-in or tail");
        repair(page, "write `;`");
        break;
    case TURNIPCART_CAUSE_SIDE_EMPTY:
        say(page, "no chords stand behind %w", line_here(page));
        repair(page, "write them behind a space, or delete the line");
        break;
    default: advise_loop(page);
    }
}
