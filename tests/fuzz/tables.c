/* Measure, section and beat tables from a seed. */
#include "tables.h"
#include <stdint.h>
#include "../reference/words.h"

enum { MOST_BPM = 400, BASES = 34, SILENT = 63, NO_BPM = 511, MOST_MEASURES = 65535 };

static void set_small(struct lent *lent, size_t place, uint64_t word)
{
    ((uint32_t *)words_of(lent))[place] = (uint32_t)word;
}

static void set_wide(struct lent *lent, size_t place, uint64_t word)
{
    ((uint64_t *)words_of(lent))[place] = word;
}

/* Few mostly, now and then very many: at and past the limit of a song's measures. */
static size_t how_many(struct numbers *numbers)
{
    if (below(numbers, 400) == 0)
        return MOST_MEASURES - 2 + below(numbers, 5);
    return below(numbers, below(numbers, 5) == 0 ? 300 : 12);
}

void make_measures(struct numbers *numbers, struct lent *measures)
{
    int kind = (int)below(numbers, 4);
    uint64_t first = below(numbers, 3) == 0 ? next_number(numbers) >> 45 : 0;
    lend(measures, how_many(numbers));
    for (size_t place = 0; place < measures->length; place++) {
        uint64_t beats = below(numbers, 3) == 0 ? 1 + below(numbers, 32) : 4;
        uint64_t spare = kind == 0 ? below(numbers, 32) : 0;
        if (kind == 1 && below(numbers, 10) == 0)
            beats = below(numbers, 64);
        set_small(measures, place, first << MEASURE_FIRST_LOWEST | beats << MEASURE_BEATS_LOWEST | spare);
        if (kind == 2 && below(numbers, 50) == 0)
            set_small(measures, place, next_number(numbers));
        first += beats;
    }
}

static uint64_t make_bpm(struct numbers *numbers)
{
    static const uint64_t edges[] = {0, 1, 7, MOST_BPM, MOST_BPM + 1, NO_BPM};
    return below(numbers, 4) == 0 ? edges[below(numbers, sizeof edges / sizeof *edges)] : 1 + below(numbers, MOST_BPM);
}

/* Sections that cover the measures, in as many as the numbers want. */
void make_sections(struct numbers *numbers, struct lent *sections, size_t measures)
{
    size_t first = 0;
    lend(sections, (measures > MOST_MEASURES) + below(numbers, 6) + (measures > 0));
    for (size_t place = 0; place < sections->length; place++) {
        size_t left = measures - first;
        size_t count = place + 1 == sections->length ? left : below(numbers, left + 1);
        if (count > MOST_MEASURES)
            count = MOST_MEASURES;
        set_wide(sections, place, (uint64_t)below(numbers, 1 << 17) << SECTION_LINE_LOWEST | (uint64_t)first << SECTION_FIRST_LOWEST
                 | (uint64_t)count << SECTION_MEASURES_LOWEST | (uint64_t)below(numbers, 64) << SECTION_TIME_LOWEST | make_bpm(numbers));
        first += count;
    }
}

void make_beats(struct numbers *numbers, struct lent *beats)
{
    lend(beats, how_many(numbers));
    for (size_t place = 0; place < beats->length; place++) {
        uint64_t base = below(numbers, 9) == 0 ? SILENT : below(numbers, BASES);
        set_small(beats, place, base << BEAT_BASE_LOWEST | (next_number(numbers) >> 42) << BEAT_HEAD_LOWEST);
    }
}

void alter_words(struct numbers *numbers, struct lent *words)
{
    for (size_t times = below(numbers, 4); times > 2 && words->length > 0; times--)
        ((unsigned char *)words_of(words))[below(numbers, words->length * words->size)] ^= (unsigned char)(1 << below(numbers, 8));
}
