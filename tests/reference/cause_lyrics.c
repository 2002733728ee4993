/* The causes of 16 and 17: the counts of lyric lines. */
#include "causes.h"

/* The first of the taken lyric lines that has a count. */
static size_t counted_line(const struct song *song)
{
    for (size_t place = 0; place < song->section_count; place++) {
        const struct section *section = &song->sections[place];
        for (size_t line = section->lyrics.first; is_taken(section) && line <= section->lyrics.last; line++)
            if (read_lyric(song, line).count > 0)
                return line + 1;
    }
    return 0;
}

/* The `_` and count at a line's end, whatever stands before; empty where there are none. */
static struct span count_at_end(const unsigned char *text, struct span line)
{
    struct span digits = {line.end, line.end};
    unsigned number;
    while (digits.start > line.start && '0' <= text[digits.start - 1] && text[digits.start - 1] <= '9')
        digits.start--;
    bool found = digits.start > line.start && text[digits.start - 1] == '_' && read_number(text, digits, 1, COUNT_LIMIT, &number);
    return found ? (struct span){digits.start - 1, line.end} : (struct span){line.end, line.end};
}

/* 16. Of `_2_5` two clauses hold, and the header has no order for them: what a blank before its `_5` would mend is tight. */
void search_count(struct search *search)
{
    const unsigned char *text = search->song->text;
    struct span line = search->span;
    struct span word = {line.end, line.end};
    struct span count = count_at_end(text, line);
    while (word.start > line.start && !is_blank(text[word.start - 1]))
        word.start--;
    search->cause->other_line = counted_line(search->song);
    if (count.start == line.start)
        place_at(search, CAUSE_COUNT_ALONE, line);
    else if (count.start < count.end)
        place_at(search, CAUSE_COUNT_TIGHT, count);
    else if (text[word.start] == '_')
        place_at(search, CAUSE_COUNT_WRONG, word);
    else
        place_at(search, CAUSE_COUNT_MISSING, count);
}

void search_sum(struct search *search)
{
    const struct section *section = section_of(search);
    for (size_t line = section->lyrics.first; line <= section->lyrics.last; line++)
        search->cause->first += read_lyric(search->song, line).count;
    place_at(search, CAUSE_COUNT_SUM, name_in_header(search));
    search->cause->second = section->measures;
    search->cause->other_line = section->lyrics.last + 1;
}
