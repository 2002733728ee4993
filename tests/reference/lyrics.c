/* Lyric lines: their counts and styles, stages 6 and 7, and whether items are written. */
#include <string.h>
#include "song.h"

enum { MARK_LENGTH = 3, STYLED_LEAST = 7 }; /* bytes of `***`, and of a styled text with its marks */
enum { PLAIN_STYLE = 0, INFO_STYLE = 1, CREW_STYLE = 2 };

static bool is_digit(unsigned char byte)
{
    return '0' <= byte && byte <= '9';
}

/* Takes a blank, `_` and a count from the end, with the blanks before; leaves the text alone if they aren't there.
   A line doesn't start with a blank, so something stands before one. */
static void take_count(const unsigned char *text, struct lyric *lyric)
{
    struct span count = {lyric->text.end, lyric->text.end};
    while (count.start > lyric->text.start && is_digit(text[count.start - 1]))
        count.start--;
    if (count.start < lyric->text.start + 2 || text[count.start - 1] != '_' || !is_blank(text[count.start - 2]))
        return;
    unsigned number;
    if (!read_number(text, count, 1, COUNT_LIMIT, &number))
        return;
    lyric->count = number;
    lyric->text.end = count.start - 1;
    while (lyric->text.end > lyric->text.start && is_blank(text[lyric->text.end - 1]))
        lyric->text.end--;
}

static bool has_marks(const unsigned char *text, struct span span, const char *mark)
{
    return span.end - span.start >= STYLED_LEAST
        && memcmp(text + span.start, mark, MARK_LENGTH) == 0
        && memcmp(text + span.end - MARK_LENGTH, mark, MARK_LENGTH) == 0;
}

struct lyric read_lyric(const struct song *song, size_t line)
{
    struct lyric lyric = {.text = song->lines[line], .style = PLAIN_STYLE};
    take_count(song->text, &lyric);
    if (has_marks(song->text, lyric.text, "***"))
        lyric.style = INFO_STYLE;
    else if (has_marks(song->text, lyric.text, ":::"))
        lyric.style = CREW_STYLE;
    if (lyric.style != PLAIN_STYLE) {
        lyric.text.start += MARK_LENGTH;
        lyric.text.end -= MARK_LENGTH;
    }
    return lyric;
}

/* The sections whose lyric lines are taken. */
bool is_taken(const struct section *section)
{
    return section->has_lyrics && !section->is_empty;
}

/* True if some taken line has a count. */
static bool some_count(const struct song *song)
{
    for (size_t place = 0; place < song->section_count; place++) {
        const struct section *section = &song->sections[place];
        if (!is_taken(section))
            continue;
        for (size_t line = section->lyrics.first; line <= section->lyrics.last; line++)
            if (read_lyric(song, line).count > 0)
                return true;
    }
    return false;
}

/* Stage 6: if one taken line has a count, all have. */
void check_counts_present(struct song *song)
{
    if (!some_count(song))
        return;
    for (size_t place = 0; place < song->section_count; place++) {
        const struct section *section = &song->sections[place];
        if (!is_taken(section))
            continue;
        for (size_t line = section->lyrics.first; line <= section->lyrics.last; line++)
            if (read_lyric(song, line).count == 0)
                note_refusal(song, REFUSED_COUNT_MISSING, line + 1);
    }
}

/* Stage 7: each taken section's counts sum to its measures. */
void check_count_sums(struct song *song)
{
    if (!some_count(song))
        return;
    for (size_t place = 0; place < song->section_count; place++) {
        const struct section *section = &song->sections[place];
        size_t sum = 0;
        if (!is_taken(section))
            continue;
        for (size_t line = section->lyrics.first; line <= section->lyrics.last; line++)
            sum += read_lyric(song, line).count;
        if (sum != section->measures)
            note_refusal(song, REFUSED_COUNT_SUM, section->header_line);
    }
}

/* After stage 7: the items to write, none unless every section is taken and the lines have counts. */
size_t count_items(const struct song *song)
{
    size_t items = 0;
    if (!some_count(song))
        return 0;
    for (size_t place = 0; place < song->section_count; place++) {
        const struct section *section = &song->sections[place];
        if (!is_taken(section))
            return 0;
        items += section->lyrics.last - section->lyrics.first + 1;
    }
    return items;
}
