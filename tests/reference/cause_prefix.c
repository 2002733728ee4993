/* Where a pattern text first stops being the beginning of a right text, found by trying how its beginnings could go on. */
#include <stdlib.h>
#include <string.h>
#include "causes.h"

/* What makes a right text of any beginning of one: an item, the rest of a number, the end of a loop. */
static const char *const rests[] = {"", "A", "2", "]2", "A]2", "2]2"};

static bool is_right(unsigned char *room, const unsigned char *text, struct span span, enum text_kind kind)
{
    size_t length = span.end - span.start;
    memcpy(room, text + span.start, length);
    for (size_t rest = 0; rest < sizeof rests / sizeof *rests; rest++) {
        strcpy((char *)room + length, rests[rest]);
        if (pattern_is_good(room, (struct span){0, length + strlen(rests[rest])}, kind))
            return true;
    }
    while (length > 0 && is_blank(room[length - 1]))
        length--;
    return pattern_is_good(room, (struct span){0, length}, kind);
}

/* A beginning of a beginning is one too, so halving finds the longest. Where a line ends there, its blanks are dropped. */
size_t find_stop(const unsigned char *text, struct span span, enum text_kind kind)
{
    unsigned char *room = take_memory(span.end - span.start + 8, 1);
    size_t good = span.start;
    size_t bad = span.end + 1;
    while (good + 1 < bad) {
        size_t middle = good + (bad - good) / 2;
        if (is_right(room, text, (struct span){span.start, middle}, kind))
            good = middle;
        else
            bad = middle;
    }
    free(room);
    if (good < span.end && is_line_end(text[good]))
        while (is_blank(text[good - 1]))
            good--;
    return good;
}
