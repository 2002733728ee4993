/* The other calls, a row each: each makes its input, and then the call and the second reader's. HAS_ says which the header declares. */
#include "calls.h"
#include <stdbool.h>
#include <stdio.h>
#include <string.h>
#include "../reference/words.h"
#include "exchange.h"
#include "tables.h"
#include "turnipcart.h"

static void try_find(struct numbers *numbers, const struct source *source, struct exchange *exchange)
{
    struct lent *measures = &exchange->given[0];
    if (below(numbers, 3) == 0)
        give(measures, source->tables.measures, source->tables.measures_length);
    else
        make_measures(numbers, measures);
    alter_words(numbers, measures);
    size_t first = measures->length > 0 ? word_at(measures, below(numbers, measures->length)) >> MEASURE_FIRST_LOWEST : 0;
    uint32_t beat = (uint32_t)(below(numbers, 8) == 0 ? next_number(numbers) : first + below(numbers, 5) - 1);
    keep(exchange);
    lend_answer(exchange, 3);
    exchange->refusal = turnipcart_find(LENT(*measures), beat, words_of(&exchange->answer));
    struct reader_place found = reader_find(LENT(exchange->kept[0]), beat);
    expect(exchange, found.refusal, (size_t[]){found.refusal, found.place, found.probes});
}

#ifdef HAS_COUNT
static void try_count(struct numbers *numbers, const struct source *source, struct exchange *exchange)
{
    (void)numbers;
    give(&exchange->given[0], source->chart->bytes, source->chart->length);
    keep(exchange);
    lend_answer(exchange, 6);
    exchange->refusal = turnipcart_count(LENT(exchange->given[0]), words_of(&exchange->answer));
    struct reader_answer counted = reader_count(LENT(exchange->kept[0]));
    expect(exchange, counted.refusal,
           (size_t[]){counted.refusal, counted.line, counted.sections, counted.measures, counted.beats, counted.items});
}
#endif

#ifdef HAS_EXPLAIN
static const char *const cause_names[] = {"verdict", "line", "cause", "place_line", "offset", "length", "other_line", "first", "second", "third"};

static void explain(const struct chart *chart, struct exchange *exchange)
{
    give(&exchange->given[0], chart->bytes, chart->length);
    keep(exchange);
    lend_answer(exchange, sizeof(struct turnipcart_cause) / WIDE);
    exchange->refusal = turnipcart_explain(LENT(exchange->given[0]), words_of(&exchange->answer));
    struct reader_cause cause = reader_explain(LENT(exchange->kept[0]));
    exchange->names = cause_names;
    expect(exchange, cause.refusal, (const size_t *)(const void *)&cause);
}

static void try_explain(struct numbers *numbers, const struct source *source, struct exchange *exchange)
{
    (void)numbers;
    explain(source->chart, exchange);
}

static void try_slip(struct numbers *numbers, const struct source *source, struct exchange *exchange)
{
    write_slip(numbers, source->slip);
    explain(source->slip, exchange);
}
#endif

#ifdef HAS_FLAT
static void try_flat(struct numbers *numbers, const struct source *source, struct exchange *exchange)
{
    static unsigned char room[READER_TEXT_LIMIT];
    const struct chart *chart = source->chart;
    give(&exchange->given[0], chart->bytes, chart->length);
    keep(exchange);
    lend_room(numbers, exchange, reader_flat(chart->bytes, chart->length, room, sizeof room).length);
    lend_answer(exchange, 3);
    exchange->refusal = turnipcart_flat(LENT(exchange->given[0]), LENT(exchange->ours), words_of(&exchange->answer));
    struct reader_copied copied = reader_flat(LENT(exchange->kept[0]), LENT(exchange->theirs));
    exchange->used = copied.length;
    expect(exchange, copied.refusal, (size_t[]){copied.refusal, copied.line, copied.length});
}
#endif

#ifdef HAS_CONCERT
static int32_t make_move(struct numbers *numbers)
{
    static const int32_t edges[] = {-12, -11, 0, 20, 21, INT32_MIN, INT32_MAX};
    if (below(numbers, 4) == 0)
        return edges[below(numbers, sizeof edges / sizeof *edges)];
    return (int32_t)below(numbers, 32) - 11;
}

static void try_concert(struct numbers *numbers, const struct source *source, struct exchange *exchange)
{
    struct lent *beats = &exchange->given[0];
    if (below(numbers, 3) == 0)
        give(beats, source->tables.beats, source->tables.beats_length);
    else
        make_beats(numbers, beats);
    alter_words(numbers, beats);
    keep(exchange);
    lend_room(numbers, exchange, beats->length);
    lend_answer(exchange, 0);
    int32_t move = make_move(numbers);
    exchange->refusal = turnipcart_concert(LENT(*beats), move, LENT(exchange->ours));
    unsigned refusal = reader_concert(LENT(exchange->kept[0]), move, LENT(exchange->theirs));
    exchange->used = refusal == READER_ACCEPTED ? beats->length : 0;
    expect(exchange, refusal, (size_t[]){0});
}
#endif

#ifdef HAS_CUES
static void try_cues(struct numbers *numbers, const struct source *source, struct exchange *exchange)
{
    struct lent *sections = &exchange->given[0];
    struct lent *measures = &exchange->given[1];
    if (below(numbers, 3) == 0) {
        give(sections, source->tables.sections, source->tables.sections_length);
        give(measures, source->tables.measures, source->tables.measures_length);
    } else {
        make_measures(numbers, measures);
        make_sections(numbers, sections, measures->length);
    }
    alter_words(numbers, sections);
    alter_words(numbers, measures);
    keep(exchange);
    lend_room(numbers, exchange, measures->length);
    lend_answer(exchange, 1);
    exchange->refusal = turnipcart_cues(LENT(*sections), LENT(*measures), LENT(exchange->ours), words_of(&exchange->answer));
    struct reader_song song = {LENT(exchange->kept[0]), LENT(exchange->kept[1])};
    uint64_t end;
    unsigned refusal = reader_cues(&song, LENT(exchange->theirs), &end);
    exchange->used = refusal == READER_ACCEPTED ? measures->length : 0;
    expect(exchange, refusal, (size_t[]){end});
}
#endif

static struct {
    void (*make)(struct numbers *numbers, const struct source *source, struct exchange *exchange);
    struct exchange exchange;
} rows[] = {
    {try_find, EXCHANGE("find", SMALL, SMALL, BYTE)},
#ifdef HAS_COUNT
    {try_count, EXCHANGE("count", BYTE, BYTE, BYTE)},
#endif
#ifdef HAS_EXPLAIN
    {try_explain, EXCHANGE("explain", BYTE, BYTE, BYTE)},
    {try_slip, EXCHANGE("slip", BYTE, BYTE, BYTE)},
#endif
#ifdef HAS_FLAT
    {try_flat, EXCHANGE("flat", BYTE, BYTE, BYTE)},
#endif
#ifdef HAS_CONCERT
    {try_concert, EXCHANGE("concert", SMALL, SMALL, SMALL)},
#endif
#ifdef HAS_CUES
    {try_cues, EXCHANGE("cues", WIDE, SMALL, WIDE)},
#endif
};

enum { ROWS = sizeof rows / sizeof *rows };

const char *try_calls(struct numbers *numbers, const struct source *source, const char *spoiled)
{
    const char *difference = NULL;
    for (size_t row = 0; row < ROWS && difference == NULL; row++) {
        rows[row].make(numbers, source, &rows[row].exchange);
        difference = judge(&rows[row].exchange, spoiled);
    }
    return difference;
}

void print_calls(void)
{
    for (size_t row = 0; row < ROWS; row++)
        printf("; %s %zu, refused %zu", rows[row].exchange.name, rows[row].exchange.made, rows[row].exchange.refused);
}
