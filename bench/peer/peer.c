/* All stages in their order, and the tables. */
#include <string.h>
#include "chart.h"
#include "peer.h"

enum { TEXT_TOO_LONG = 1, BAD_TEXT = 2, COUNT_MISSING = 16, COUNT_SUM = 17, TABLE_TOO_SHORT = 18 };
enum { LINE_AT = 47, FIRST_MEASURE_AT = 31, MEASURES_AT = 15, TIME_AT = 9, ITEM_FIRST_AT = 16, ITEM_MEASURES_AT = 2, ITEM_MEASURES = 0x3FFF };
enum { DEFAULT_TIME = 4 };

static struct chart chart;

static void begin_chart(const unsigned char *text, size_t length)
{
    memset(&chart, 0, offsetof(struct chart, definitions));
    memset(chart.faults, 0xFF, sizeof chart.faults);
    chart.text = chart.next = text;
    chart.end = text + length;
    chart.time = DEFAULT_TIME;
    chart.bpm = NO_BPM;
    chart.whole = true;
}

static size_t refuse(struct peer_answer *answer, size_t number, size_t line)
{
    *answer = (struct peer_answer){.refusal = number, .line = line};
    return number;
}

/* The line and number of the first refusal in stages 2 to 7, or UINT64_MAX. */
static uint64_t first_fault(void)
{
    for (unsigned stage = STAGE_TEXT; stage < STAGES; stage++)
        if (chart.faults[stage] != UINT64_MAX)
            return chart.faults[stage];
    if (!chart.counted)
        return UINT64_MAX;
    if (chart.bare_line > 0)
        return (uint64_t)chart.bare_line << ABOVE | COUNT_MISSING;
    for (uint32_t place = 0; place < chart.section_count; place++) {
        const struct section *section = &chart.sections[place];
        if (section->lyrics && section->pattern.measures > 0 && section->counted != section->measures)
            return (uint64_t)section->line << ABOVE | COUNT_SUM;
    }
    return UINT64_MAX;
}

static void write_sections(uint64_t *sections)
{
    uint64_t first = 0;
    for (uint32_t place = 0; place < chart.section_count; place++) {
        const struct section *section = &chart.sections[place];
        sections[place] = (uint64_t)section->line << LINE_AT | first << FIRST_MEASURE_AT | (uint64_t)section->measures << MEASURES_AT |
                          (uint64_t)section->time << TIME_AT | section->bpm;
        first += section->measures;
    }
}

static void write_items(uint64_t *items, size_t count)
{
    uint64_t first = 0;
    for (size_t place = 0; place < count; place++) {
        items[place] = chart.items[place] | first << ITEM_FIRST_AT;
        first += chart.items[place] >> ITEM_MEASURES_AT & ITEM_MEASURES;
    }
}

size_t peer_read(const unsigned char *text, size_t text_length, uint32_t *keys, size_t keys_length, uint64_t *sections,
                 size_t sections_length, uint32_t *measures, size_t measures_length, uint32_t *beats, size_t beats_length,
                 uint64_t *items, size_t items_length, struct peer_answer *answer)
{
    if (text_length > TEXT_LIMIT)
        return refuse(answer, TEXT_TOO_LONG, 0);
    size_t bad_line = peer_bad_text_line(text, text + text_length);
    if (bad_line > 0)
        return refuse(answer, BAD_TEXT, bad_line);
    begin_chart(text, text_length);
    peer_read_blocks(&chart);
    uint64_t found = first_fault();
    if (found != UINT64_MAX)
        return refuse(answer, found & BELOW, (size_t)(found >> ABOVE));
    size_t item_count = chart.whole && chart.counted ? chart.item_count : 0;
    if (keys_length < KEYS || sections_length < chart.section_count || measures_length < chart.played || beats_length < chart.beats ||
        items_length < item_count)
        return refuse(answer, TABLE_TOO_SHORT, 0);
    memcpy(keys, chart.keys, sizeof chart.keys);
    write_sections(sections);
    peer_play_song(&chart, measures, beats);
    write_items(items, item_count);
    *answer = (struct peer_answer){0, 0, chart.section_count, (size_t)chart.played, (size_t)chart.beats, item_count};
    return 0;
}
