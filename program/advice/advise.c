/* From the cause of a refusal to the advice. */
#include "chords.h"
#include "page.h"

/* A mark that some programs write at a file's beginning, and that is read as a character of the first line. */
static bool begins_with_mark(const struct page *page)
{
    return begins_with(page->text, (struct stretch){0, page->text.length}, "\xEF\xBB\xBF") && page->cause->refusal > TURNIPCART_BAD_TEXT
        && page->cause->line > 0 && block_first(page->text, page->cause->line) == 1;
}

/* The block of the refusal begins with the dashes that should part its lyrics from the chords above. */
static bool begins_with_dashes(const struct page *page)
{
    size_t line = page->cause->place_line;
    size_t first = line > 0 ? block_first(page->text, line) : 0;
    return page->cause->refusal >= TURNIPCART_PATTERN && first > 1 && is_dashes(page->text, line_at(page->text, first));
}

static void advise_dashes_as_name(struct page *page)
{
    point_at_line(page, block_first(page->text, page->cause->place_line));
    say(page, "these dashes are read as a section's name, for a blank line parts them from the chords above");
    repair(page, "delete the blank line %n before them", page->advice->line - 1);
}

static void advise_mark(struct page *page)
{
    say(page, "the file begins with an invisible mark (U+FEFF), so its first line is read as a section's name");
    repair(page, "save it as UTF-8 without a mark (\"BOM\")");
    page->advice->line = 1;
    point_at(page, (struct stretch){0, 3});
}

/* A cause is so many times its refusal, and the clause's number; 0 where none was found. */
enum { CLAUSES = 100 };

/* Where no more than the refusal is known. */
static void advise_plainly(struct page *page)
{
    say(page, "%s", turnipcart_refusal_text(page->cause->refusal));
    repair(page, "`turnipcart explain %n` tells more", page->cause->refusal);
}

static void advise_by_refusal(struct page *page)
{
    switch (page->cause->refusal) {
    case TURNIPCART_TEXT_TOO_LONG:
    case TURNIPCART_BAD_TEXT:
    case TURNIPCART_NO_SECTION: advise_text(page); break;
    case TURNIPCART_KEY: advise_keys(page); break;
    case TURNIPCART_SETTING: advise_setting(page); break;
    case TURNIPCART_BLOCK_ORDER:
    case TURNIPCART_DEFINITION:
    case TURNIPCART_REFERENCE_UNDEFINED:
    case TURNIPCART_REFERENCE_KIND: advise_definition(page); break;
    case TURNIPCART_PATTERN: advise_pattern(page); break;
    case TURNIPCART_LINE: advise_section(page); break;
    case TURNIPCART_COUNT_MISSING:
    case TURNIPCART_COUNT_SUM: advise_lyrics(page); break;
    default: advise_playing(page);
    }
}

void advise(struct text text, const struct turnipcart_cause *cause, char *room, struct advice *advice)
{
    struct page page = {.text = text, .cause = cause, .place = {cause->offset, cause->length}, .advice = advice, .room = room};
    *advice = (struct advice){.line = cause->place_line};
    if (cause->place_line > 0)
        point_at(&page, page.place);
    if (begins_with_mark(&page))
        advise_mark(&page);
    else if (begins_with_dashes(&page))
        advise_dashes_as_name(&page);
    else if (cause->cause % CLAUSES == 0)
        advise_plainly(&page);
    else
        advise_by_refusal(&page);
}
