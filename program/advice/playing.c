/* 12 to 15: how a section is played. */
#include "chords.h"
#include "names.h"
#include "page.h"

static void note_header(struct page *page)
{
    note(page, page->cause->other_line, "played by `%w` in %n/4", name_in_header(page->text, line_at(page->text, page->cause->other_line)),
         page->cause->second);
}

/* The numbers of positions that a measure may have: 1, 2 or 4. */
static void write_divisors(struct page *page, size_t time)
{
    repair(page, "in %n/4 a measure has 1", time);
    for (size_t count = 2; count <= time; count++)
        if (time % count == 0)
            go_on(page, count == time ? " or %n" : ", %n", count);
    go_on(page, time == 1 ? " position" : " positions");
}

/* The measure made full behind its first position. */
static void write_filled(struct page *page, size_t missing)
{
    struct stretch measure = page->place;
    struct stretch first = next_word(page->text, measure, measure.start);
    const char *filling = is_word(page->text, first, "_") ? " _" : " %";
    go_on(page, "; write `%w", first);
    while (missing-- > 0)
        go_on(page, "%s", filling);
    go_on(page, "%w`", (struct stretch){end_of(first), end_of(measure) - end_of(first)});
}

static void advise_positions(struct page *page)
{
    size_t positions = page->cause->first;
    size_t time = page->cause->second;
    if (looks_like_lyrics(page->text, line_here(page)) && line_at(page->text, page->advice->line).length > 0) {
        advise_dashes_missing(page);
        go_on(page, "; as chords they are %n positions in %n beats", positions, time);
        return;
    }
    say(page, "measure %n has %n positions in %n beats", page->cause->third, positions, time);
    write_divisors(page, time);
    size_t full = positions;
    while (full <= time && time % full != 0)
        full++;
    if (full <= time)
        write_filled(page, full - positions);
    else
        go_on(page, "; write `;` between measures");
    note_header(page);
}

static void advise_no_chord_before(struct page *page)
{
    struct stretch line = line_here(page);
    bool side = begins_with(page->text, line, name_of(NAME_BEFORE)) || begins_with(page->text, line, name_of(NAME_AFTER));
    say(page, "`%s` has no chord before it%s", "%", side ? " in its lead-in or tail" : "");
    repair(page, "write the chord itself; silence is `_`");
    note_header(page);
}

/* The cuts of the section. */
static void write_cuts(struct page *page)
{
    size_t at = line_start(page->text, page->place.start);
    const char *between = "it has `";
    struct stretch line = next_line(page->text, &at);
    repair(page, "%s", "");
    while (line.length > 0 && !is_word(page->text, line, "--")) {
        line = next_line(page->text, &at);
        if (!begins_with(page->text, line, name_of(NAME_CUT_START)) && !begins_with(page->text, line, name_of(NAME_CUT_END)))
            continue;
        go_on(page, "%s%w`", between, line);
        between = ", `";
    }
}

void advise_playing(struct page *page)
{
    switch (page->cause->cause) {
    case TURNIPCART_CAUSE_POSITIONS: advise_positions(page); break;
    case TURNIPCART_CAUSE_NO_CHORD_BEFORE: advise_no_chord_before(page); break;
    case TURNIPCART_CAUSE_SONG_LONG:
        say(page, "in this section the song passes %N measures", (size_t)TURNIPCART_MEASURES_ENOUGH);
        repair(page, "make its loops or `_repeat` smaller; measures count before cuts");
        break;
    case TURNIPCART_CAUSE_MODIFIER_ON_EMPTY:
        say(page, "`%w` stands in a section without measures", page->place);
        repair(page, "delete the line, or write chords into the definition that the section names");
        note(page, page->cause->other_line, "its definition is empty");
        break;
    default:
        say(page, "the cuts leave no beat of this section");
        write_cuts(page);
    }
}
