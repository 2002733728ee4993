/* The header's decoders on every kind of word: each field at 0, at 1 and at its greatest beside all others at each of these, and the bits
   not named clear and set. The widths are those of document 01's table of tables, typed here. The calls of the archive then read such words
   by the proved crate `packing`: turnipcart_find those of measures, turnipcart_cues those of sections. `charts.c` has charts whose
   words come to the ends of their fields. Prints nothing and ends with 0 where all is as promised. */
#include "expect.h"
#include "turnipcart.h"

enum { MOST_FIELDS = 5, VALUES = 3 };

#define READS(bits, name)                            \
    static size_t name(uint64_t word)                \
    {                                                \
        return turnipcart_##name((uint##bits##_t)word); \
    }
READS(32, key_present)
READS(32, key_offset)
READS(32, key_length)
READS(64, section_line)
READS(64, section_first_measure)
READS(64, section_measures)
READS(64, section_time)
READS(64, section_bpm)
READS(32, measure_first_beat)
READS(32, measure_beats)
READS(32, beat_base)
READS(32, beat_extension_offset)
READS(32, beat_extension_length)
READS(32, beat_head)
READS(64, item_offset)
READS(64, item_length)
READS(64, item_first_measure)
READS(64, item_measures)
READS(64, item_style)

struct field {
    const char *name;
    unsigned bits;
    size_t (*read)(uint64_t word);
};

/* "Bit-packed fields, most significant first, bits not named are 0." */
struct kind {
    unsigned bits;
    unsigned count;
    struct field fields[MOST_FIELDS];
};

static const struct kind keys = {32, 3, {{"present", 1, key_present}, {"offset", 16, key_offset}, {"length", 9, key_length}}};
static const struct kind sections = {64,
                                     5,
                                     {{"header line", 17, section_line},
                                      {"first measure", 16, section_first_measure},
                                      {"measures", 16, section_measures},
                                      {"N", 6, section_time},
                                      {"bpm", 9, section_bpm}}};
static const struct kind measures = {32, 2, {{"first beat", 21, measure_first_beat}, {"beats", 6, measure_beats}}};
static const struct kind beats = {32,
                                  4,
                                  {{"base", 6, beat_base},
                                   {"extension offset", 16, beat_extension_offset},
                                   {"extension length", 5, beat_extension_length},
                                   {"head", 1, beat_head}}};
static const struct kind items = {64,
                                  5,
                                  {{"text offset", 16, item_offset},
                                   {"text length", 16, item_length},
                                   {"item's first measure", 16, item_first_measure},
                                   {"item's measures", 14, item_measures},
                                   {"style", 2, item_style}}};

/* Of 0, 1 and 2 the third is the field's greatest. */
static size_t value_of(const struct field *field, unsigned which)
{
    return which < 2 ? which : ((size_t)1 << field->bits) - 1;
}

/* The word whose fields have these values, and its spare bits all the same. */
static uint64_t packed(const struct kind *kind, const size_t *values, unsigned spare)
{
    uint64_t word = 0;
    unsigned left = kind->bits;
    for (unsigned k = 0; k < kind->count; k++) {
        left -= kind->fields[k].bits;
        word |= (uint64_t)values[k] << left;
    }
    return spare ? word | (((uint64_t)1 << left) - 1) : word;
}

/* The number's digits in threes choose the values. */
static void choose(const struct kind *kind, unsigned number, size_t *values)
{
    for (unsigned k = 0; k < kind->count; k++, number /= VALUES)
        values[k] = value_of(&kind->fields[k], number % VALUES);
}

static unsigned choices(const struct kind *kind)
{
    unsigned all = 1;
    for (unsigned k = 0; k < kind->count; k++)
        all *= VALUES;
    return all;
}

static void try_kind(const struct kind *kind)
{
    size_t values[MOST_FIELDS];
    for (unsigned number = 0; number < choices(kind); number++)
        for (unsigned spare = 0; spare < 2; spare++) {
            choose(kind, number, values);
            for (unsigned k = 0; k < kind->count; k++)
                expect(kind->fields[k].name, kind->fields[k].read(packed(kind, values, spare)), values[k]);
        }
}

/* Whether a table of this one record holds the beat. */
static int holds(uint32_t word, uint64_t beat)
{
    struct turnipcart_found found;
    return beat <= UINT32_MAX && turnipcart_find(&word, 1, (uint32_t)beat, &found) == TURNIPCART_ACCEPTED;
}

/* The archive finds a measure's beats where the header says that they are. */
static void try_find(void)
{
    size_t values[MOST_FIELDS];
    for (unsigned number = 0; number < choices(&measures); number++)
        for (unsigned spare = 0; spare < 2; spare++) {
            choose(&measures, number, values);
            uint32_t word = (uint32_t)packed(&measures, values, spare);
            size_t first = turnipcart_measure_first_beat(word), end = first + turnipcart_measure_beats(word);
            expect("the first beat found", (size_t)holds(word, first), end > first);
            expect("the last beat found", (size_t)(end > first && holds(word, end - 1)), end > first);
            expect("the beat behind", (size_t)holds(word, end), 0);
            expect("the beat before", (size_t)(first > 0 && holds(word, first - 1)), 0);
        }
}

enum { MOST_MEASURES = 2 * 65535, MICROSECONDS = 60000000 };
static uint32_t measure_words[MOST_MEASURES];
static uint64_t cue_words[MOST_MEASURES];

/* Two sections, the second of this word, the first with the measures before it at a bpm of 120: the cues that the header's fields give. */
static void try_section(uint64_t word)
{
    size_t before = turnipcart_section_first_measure(word), count = turnipcart_section_measures(word);
    unsigned bpm = turnipcart_section_bpm(word);
    uint64_t both[2] = {(uint64_t)before << 15 | 120, word}, end = 1;
    size_t refusal = turnipcart_cues(both, 2, measure_words, before + count, cue_words, before + count, &end);
    int timed = count == 0 || (bpm >= 1 && bpm <= 400);
    expect("the cues' refusal", refusal, timed ? TURNIPCART_ACCEPTED : TURNIPCART_NOT_TIMED);
    if (timed)
        expect("the song's end", end, before * (MICROSECONDS / 120) + (count == 0 ? 0 : count * (MICROSECONDS / bpm)));
}

/* The archive takes out of a section's word what the header does, whatever stands in its other fields. */
static void try_cues(void)
{
    static const size_t bpms[] = {0, 1, 400, 401, 511};
    for (size_t k = 0; k < MOST_MEASURES; k++)
        measure_words[k] = (uint32_t)(k << 11 | 1 << 5);
    for (unsigned number = 0; number < VALUES * VALUES; number++)
        for (size_t k = 0; k < sizeof bpms / sizeof bpms[0]; k++)
            for (unsigned others = 0; others < VALUES; others += 2) {
                const struct field *fields = sections.fields;
                size_t values[] = {value_of(&fields[0], others), value_of(&fields[1], number % VALUES),
                                   value_of(&fields[2], number / VALUES), value_of(&fields[3], others), bpms[k]};
                try_section(packed(&sections, values, 0));
            }
}

int main(void)
{
    try_kind(&keys);
    try_kind(&sections);
    try_kind(&measures);
    try_kind(&beats);
    try_kind(&items);
    if (faults > 0)
        return 1;
    try_find();
    try_cues();
    return faults > 0;
}
