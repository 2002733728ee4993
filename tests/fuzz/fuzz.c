/* Random and mutated charts through the C boundary: every answer and every word of every lent table compared with the second reader's,
   the words past the answer and the guards around each table looked at after each call.
   Then the other calls (calls.c).
   usage: fuzz SEED COUNT SPOIL FILE CHART... ; SPOIL is `none`, or CALL-PART for what is spoiled after a call to see that it is noticed. */
#include <inttypes.h>
#include <stdio.h>
#include <stdlib.h>
#include <string.h>
#include "../reference/reader.h"
#include "calls.h"
#include "charts.h"
#include "turnipcart.h"

enum { KEYS, SECTIONS, MEASURES, BEATS, ITEMS, TABLES };
enum { GUARD = 16, MOST = 65536 * 32 + 64, REFUSALS = 20 };

static const size_t sizes[TABLES] = {4, 8, 4, 4, 8};

/* A table lent inside a larger piece of memory. */
struct table {
    unsigned char *memory;
    size_t length; /* in words */
};

struct trial {
    struct chart chart, kept, slip;
    size_t wanted[TABLES];
    struct table ours[TABLES], theirs[TABLES];
    struct {
        size_t before[4];
        struct turnipcart_answer answer;
        size_t after[4];
    } given;
    struct reader_answer expected;
    uint64_t fill;
};

static size_t counts[REFUSALS];

static void *reserve(size_t bytes)
{
    void *memory = malloc(bytes);
    if (memory == NULL) {
        fprintf(stderr, "fuzz: no memory\n");
        exit(2);
    }
    return memory;
}

/* The byte that stands at a place of a table before a call. */
static unsigned char filling(const struct trial *trial, size_t place)
{
    return (unsigned char)((trial->fill >> place % 8 * 8) + place / 8 * 37);
}

static unsigned char *table_words(const struct table *lent, int table)
{
    return lent->memory + GUARD * sizes[table];
}

static void lend(struct trial *trial, int table)
{
    size_t bytes = (trial->ours[table].length + 2 * GUARD) * sizes[table];
    for (size_t place = 0; place < bytes; place++)
        trial->ours[table].memory[place] = filling(trial, place);
    memcpy(trial->theirs[table].memory, trial->ours[table].memory, bytes);
}

static struct reader_tables tables_of(struct table *lent)
{
    struct reader_tables tables = {
        (uint32_t *)(void *)table_words(&lent[KEYS], KEYS), lent[KEYS].length,
        (uint64_t *)(void *)table_words(&lent[SECTIONS], SECTIONS), lent[SECTIONS].length,
        (uint32_t *)(void *)table_words(&lent[MEASURES], MEASURES), lent[MEASURES].length,
        (uint32_t *)(void *)table_words(&lent[BEATS], BEATS), lent[BEATS].length,
        (uint64_t *)(void *)table_words(&lent[ITEMS], ITEMS), lent[ITEMS].length,
    };
    return tables;
}

/* The lengths of the tables: exactly long, long, now and then one of them one short or none. */
static void choose_lengths(struct numbers *numbers, struct trial *trial)
{
    int exact = below(numbers, 3) == 0;
    for (int table = 0; table < TABLES; table++) {
        size_t more = exact || below(numbers, 3) == 0 ? 0 : 1 + below(numbers, 24);
        trial->ours[table].length = trial->wanted[table] + more;
    }
    size_t table = below(numbers, TABLES);
    if (below(numbers, 5) == 0 && trial->wanted[table] > 0)
        trial->ours[table].length = below(numbers, 8) == 0 ? 0 : trial->wanted[table] - 1;
    for (int each = 0; each < TABLES; each++)
        trial->theirs[each].length = trial->ours[each].length;
}

/* Bytes of a table, from one place to another, that are not as they were: the first such place, or `end`. */
static size_t first_changed(const struct trial *trial, const struct table *lent, size_t start, size_t end)
{
    while (start < end && lent->memory[start] == filling(trial, start))
        start++;
    return start;
}

static const char *judge_tables(struct trial *trial)
{
    struct reader_answer answer = trial->expected;
    int accepted = answer.refusal == READER_ACCEPTED;
    size_t written[TABLES] = {accepted ? READER_KEYS : 0, answer.sections, answer.measures, answer.beats, answer.items};
    for (int table = 0; table < TABLES; table++) {
        struct table *ours = &trial->ours[table];
        size_t size = sizes[table];
        size_t guard = GUARD * size;
        size_t past = guard + written[table] * size;
        size_t behind = guard + ours->length * size;
        if (memcmp(ours->memory + guard, trial->theirs[table].memory + guard, ours->length * size) != 0)
            return "read-word";
        if (first_changed(trial, ours, past, behind) != behind)
            return "read-past";
        if (first_changed(trial, ours, 0, guard) != guard || first_changed(trial, ours, behind, behind + guard) != behind + guard)
            return "read-guard";
    }
    return NULL;
}

static const char *judge_answer(const struct trial *trial, size_t refusal)
{
    struct turnipcart_answer ours = trial->given.answer;
    struct reader_answer theirs = trial->expected;
    if (refusal != ours.refusal || ours.refusal != theirs.refusal || ours.line != theirs.line)
        return "read-refusal";
    if (ours.sections != theirs.sections || ours.measures != theirs.measures || ours.beats != theirs.beats
        || ours.items != theirs.items)
        return "read-count";
    for (int place = 0; place < 4; place++)
        if (trial->given.before[place] != 77 || trial->given.after[place] != 77)
            return "read-beside";
    if (memcmp(trial->chart.bytes, trial->kept.bytes, CHART_ROOM) != 0)
        return "read-text";
    return NULL;
}

/* One byte changed after the call, to see that it is noticed. */
static void spoil(struct trial *trial, const char *part)
{
    struct table *beats = &trial->ours[BEATS];
    size_t accepted = trial->expected.refusal == READER_ACCEPTED;
    if (strcmp(part, "read-guard") == 0)
        beats->memory[(GUARD + beats->length) * 4] ^= 1;
    if (strcmp(part, "read-past") == 0 && beats->length > trial->expected.beats)
        table_words(beats, BEATS)[4 * beats->length - 1] ^= 1, table_words(&trial->theirs[BEATS], BEATS)[4 * beats->length - 1] ^= 1;
    if (strcmp(part, "read-word") == 0 && accepted && trial->expected.beats > 0)
        table_words(beats, BEATS)[0] ^= 1;
    if (strcmp(part, "read-count") == 0 && accepted)
        trial->given.answer.measures++;
    if (strcmp(part, "read-text") == 0)
        trial->chart.bytes[trial->chart.length] ^= 1;
}

/* The other calls, on the chart and its tables cut to the answer's counts. */
static const char *judge_calls(struct numbers *numbers, struct trial *trial, const char *part)
{
    struct source source = {&trial->kept, &trial->slip, tables_of(trial->theirs)};
    source.tables.sections_length = trial->expected.sections;
    source.tables.measures_length = trial->expected.measures;
    source.tables.beats_length = trial->expected.beats;
    source.tables.items_length = trial->expected.items;
    return try_calls(numbers, &source, part);
}

/* Both readers on one chart and tables of the same lengths; what differs, or NULL. */
static const char *try_lengths(struct numbers *numbers, struct trial *trial, const char *part)
{
    trial->fill = next_number(numbers);
    for (int table = 0; table < TABLES; table++)
        lend(trial, table);
    for (int place = 0; place < 4; place++)
        trial->given.before[place] = trial->given.after[place] = 77;
    memset(&trial->given.answer, 0x5A, sizeof trial->given.answer);
    struct reader_tables theirs = tables_of(trial->theirs);
    struct reader_tables ours = tables_of(trial->ours);
    trial->expected = reader_read(trial->kept.bytes, trial->kept.length, &theirs);
    size_t refusal = turnipcart_read(trial->chart.bytes, trial->chart.length, ours.keys, ours.keys_length, ours.sections,
                                     ours.sections_length, ours.measures, ours.measures_length, ours.beats, ours.beats_length,
                                     ours.items, ours.items_length, &trial->given.answer);
    counts[refusal < REFUSALS ? refusal : REFUSALS - 1]++;
    spoil(trial, part);
    const char *difference = judge_answer(trial, refusal);
    if (difference == NULL)
        difference = judge_tables(trial);
    return difference == NULL ? judge_calls(numbers, trial, part) : difference;
}

/* How long the tables of this chart have to be, by the second reader. */
static void ask_lengths(struct trial *trial)
{
    static const size_t most[TABLES] = {READER_KEYS, READER_TEXT_LIMIT, READER_MEASURE_LIMIT, MOST - 64, READER_TEXT_LIMIT};
    for (int table = 0; table < TABLES; table++)
        trial->theirs[table].length = most[table];
    struct reader_tables tables = tables_of(trial->theirs);
    struct reader_answer answer = reader_read(trial->kept.bytes, trial->kept.length, &tables);
    trial->wanted[KEYS] = READER_KEYS;
    trial->wanted[SECTIONS] = answer.sections;
    trial->wanted[MEASURES] = answer.measures;
    trial->wanted[BEATS] = answer.beats;
    trial->wanted[ITEMS] = answer.items;
}

static void read_corpus(struct corpus *corpus, size_t count, char **names)
{
    corpus->count = count;
    corpus->charts = reserve(count * sizeof *corpus->charts);
    for (size_t place = 0; place < count; place++) {
        FILE *file = fopen(names[place], "rb");
        if (file == NULL) {
            perror(names[place]);
            exit(2);
        }
        corpus->charts[place].length = fread(corpus->charts[place].bytes, 1, CHART_ROOM - 40, file);
        fclose(file);
    }
}

static struct trial *prepare(void)
{
    struct trial *trial = reserve(sizeof *trial);
    memset(trial, 0, sizeof *trial);
    for (int table = 0; table < TABLES; table++) {
        trial->ours[table].memory = reserve((MOST + 2 * GUARD) * sizes[table]);
        trial->theirs[table].memory = reserve((MOST + 2 * GUARD) * sizes[table]);
    }
    return trial;
}

static int report(const struct trial *trial, uint64_t seed, size_t number, const char *difference, const char *name)
{
    const struct chart *chart = strncmp(difference, "slip-", strlen("slip-")) == 0 ? &trial->slip : &trial->kept;
    FILE *file = fopen(name, "wb");
    if (file != NULL) {
        fwrite(chart->bytes, 1, chart->length, file);
        fclose(file);
    }
    printf("fuzz: seed %" PRIu64 ", chart %zu: %s differs; the chart is in %s\n", seed, number, difference, name);
    printf("table lengths %zu %zu %zu %zu %zu; the second reader answers %u %zu %zu %zu %zu %zu\n", trial->ours[KEYS].length,
           trial->ours[SECTIONS].length, trial->ours[MEASURES].length, trial->ours[BEATS].length, trial->ours[ITEMS].length,
           trial->expected.refusal, trial->expected.line, trial->expected.sections, trial->expected.measures,
           trial->expected.beats, trial->expected.items);
    return 1;
}

int main(int argc, char **argv)
{
    struct corpus corpus;
    if (argc < 6)
        return 2;
    uint64_t seed = strtoull(argv[1], NULL, 10);
    size_t count = strtoull(argv[2], NULL, 10);
    const char *part = argv[3];
    read_corpus(&corpus, (size_t)argc - 5, argv + 5);
    struct trial *trial = prepare();
    for (size_t number = 0; number < corpus.count + count; number++) {
        struct numbers numbers = numbers_of(seed, number);
        if (number < corpus.count)
            trial->chart = corpus.charts[number];
        else
            make_chart(&numbers, &corpus, &trial->chart);
        memcpy(&trial->kept, &trial->chart, sizeof trial->kept);
        ask_lengths(trial);
        choose_lengths(&numbers, trial);
        const char *difference = try_lengths(&numbers, trial, part);
        if (difference != NULL)
            return report(trial, seed, number, difference, argv[4]);
    }
    printf("fuzz: seed %" PRIu64 ", %zu charts and %zu of files, no difference; refusals", seed, count, corpus.count);
    for (int refusal = 0; refusal < REFUSALS - 1; refusal++)
        printf(" %d:%zu", refusal, counts[refusal]);
    print_calls();
    putchar('\n');
    return 0;
}
