/* Stage 2 over the whole text: the blocks in their order, metadata and definitions; sections are in sections.c. */
#include "chart.h"

enum kind { METADATA, DEFINITION, SECTION };
enum { BLOCK_ORDER = 3, BAD_HEAD = 6, BAD_PATTERN = 7, BAD_LINE = 8, NO_SECTION = 9 };

static void read_metadata(struct chart *chart)
{
    do {
        if (*chart->at == '@')
            peer_read_song_key(chart);
        else
            peer_fault(chart, STAGE_TEXT, chart->line, BAD_LINE);
    } while (peer_next_line_of_block(chart));
}

static void read_definition(struct chart *chart)
{
    unsigned number = peer_whole_number(chart->at + 1, chart->stop);
    uint32_t line = chart->line;
    struct pattern pattern;
    if (number < 1 || number == NO_NUMBER || chart->definition_count == MOST_DEFINITIONS || peer_find_definition(chart, number) != NULL)
        peer_fault(chart, STAGE_TEXT, line, BAD_HEAD);
    peer_begin_pattern(&pattern, chart, line);
    while (peer_next_line_of_block(chart))
        peer_read_pattern_line(&pattern, chart->at, chart->stop);
    bool empty = pattern.place == START && !pattern.bad;
    if (!peer_end_pattern(&pattern) && !empty)
        peer_fault(chart, STAGE_TEXT, line + 1, BAD_PATTERN);
    if (chart->faults[STAGE_TEXT] == UINT64_MAX)
        chart->definitions[chart->definition_count++] = (struct definition){number, pattern.text};
}

/* Reads the blocks, up to the end of the first one with a fault of stage 2. */
void peer_read_blocks(struct chart *chart)
{
    enum kind latest = METADATA;
    while (chart->faults[STAGE_TEXT] == UINT64_MAX && peer_next_line(chart)) {
        if (chart->at == chart->stop)
            continue;
        enum kind kind = *chart->at == '@' ? METADATA : *chart->at == '$' ? DEFINITION : SECTION;
        if (kind < latest)
            peer_fault(chart, STAGE_TEXT, chart->line, BLOCK_ORDER);
        else if (kind == SECTION)
            peer_read_section(chart);
        else if (kind == DEFINITION)
            read_definition(chart);
        else
            read_metadata(chart);
        latest = kind;
    }
    if (chart->section_count == 0 && chart->faults[STAGE_TEXT] == UINT64_MAX)
        peer_fault(chart, STAGE_TEXT, 0, NO_SECTION);
}
