/* Showing an answer: document 01's listing, and the line of table words. Both read the lent tables alone. */
#include "program.h"
#include "song.h"
#include "words.h"

/* A field of a word, by the name it has in words.h. */
#define FIELD(word, name) ((size_t)((uint64_t)(word) >> name##_LOWEST & ((UINT64_C(1) << name##_BITS) - 1)))

static void show_beat(const unsigned char *text, uint32_t word)
{
    unsigned base = (unsigned)FIELD(word, BEAT_BASE);
    size_t extension = FIELD(word, BEAT_EXTENSION);
    size_t length = FIELD(word, BEAT_LENGTH);
    bool head = FIELD(word, BEAT_HEAD) == 1;
    putchar(' ');
    if (!head)
        putchar('.');
    else if (base == SILENCE)
        putchar('_');
    else
        fputs(base_name(base), stdout);
    if (head && base != SILENCE && length > 0)
        fwrite(text + extension, 1, length, stdout);
}

static void show_measure(const unsigned char *text, uint32_t word, const uint32_t *beats)
{
    size_t first = FIELD(word, MEASURE_FIRST);
    size_t count = FIELD(word, MEASURE_BEATS);
    fputs("measure", stdout);
    for (size_t beat = first; beat < first + count; beat++)
        show_beat(text, beats[beat]);
    putchar('\n');
}

static void show_section(const unsigned char *text, uint64_t word, const struct reader_tables *tables)
{
    size_t first = FIELD(word, SECTION_FIRST);
    size_t count = FIELD(word, SECTION_MEASURES);
    printf("section %zu %zu %zu\n", FIELD(word, SECTION_LINE), count, FIELD(word, SECTION_TIME));
    for (size_t measure = first; measure < first + count; measure++)
        show_measure(text, tables->measures[measure], tables->beats);
}

static void show_item(const unsigned char *text, uint64_t word)
{
    static const char *const styles[] = {"plain", "info", "crew", "?"};
    printf("item %s %zu %zu ", styles[FIELD(word, ITEM_STYLE)], FIELD(word, ITEM_FIRST), FIELD(word, ITEM_MEASURES));
    fwrite(text + FIELD(word, ITEM_OFFSET), 1, FIELD(word, ITEM_LENGTH), stdout);
    putchar('\n');
}

void show_listing(const unsigned char *text, struct reader_answer answer, const struct reader_tables *tables)
{
    if (answer.refusal != READER_ACCEPTED) {
        printf("refused %u line %zu\n", answer.refusal, answer.line);
        return;
    }
    printf("song %zu %zu %zu %zu\n", answer.sections, answer.measures, answer.beats, answer.items);
    for (size_t section = 0; section < answer.sections; section++)
        show_section(text, tables->sections[section], tables);
    for (size_t item = 0; item < answer.items; item++)
        show_item(text, tables->items[item]);
}

static void show_small_words(const uint32_t *words, size_t count)
{
    fputs(" |", stdout);
    for (size_t place = 0; place < count; place++)
        printf(" %lu", (unsigned long)words[place]);
}

static void show_wide_words(const uint64_t *words, size_t count)
{
    fputs(" |", stdout);
    for (size_t place = 0; place < count; place++)
        printf(" %llu", (unsigned long long)words[place]);
}

/* The words the answer counts, or, if asked, the whole of every table whose length was given. */
void show_words(const char *name, struct reader_answer answer, const struct reader_tables *tables,
                struct lengths lengths, bool whole)
{
    size_t shown[TABLES] = {0, answer.sections, answer.measures, answer.beats, answer.items};
    if (answer.refusal == READER_ACCEPTED)
        shown[KEYS_TABLE] = READER_KEYS;
    for (int table = 0; table < TABLES && whole; table++)
        if (lengths.words[table] != LARGE_ENOUGH)
            shown[table] = lengths.words[table];
    printf("%s %u %zu %zu %zu %zu %zu", name, answer.refusal, answer.line, answer.sections, answer.measures,
           answer.beats, answer.items);
    show_small_words(tables->keys, shown[KEYS_TABLE]);
    show_wide_words(tables->sections, shown[SECTIONS_TABLE]);
    show_small_words(tables->measures, shown[MEASURES_TABLE]);
    show_small_words(tables->beats, shown[BEATS_TABLE]);
    show_wide_words(tables->items, shown[ITEMS_TABLE]);
    putchar('\n');
}

/* The ten numbers of a cause. */
void show_cause(const char *name, struct reader_cause cause)
{
    printf("%s %zu %zu %zu %zu %zu %zu %zu %zu %zu %zu\n", name, cause.refusal, cause.line, cause.cause, cause.place_line, cause.offset,
           cause.length, cause.other_line, cause.first, cause.second, cause.third);
}
