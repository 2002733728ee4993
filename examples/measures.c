/* Reads the chart on standard input and prints its measures, and in which of them the last beat stands. Ends with 0, with 1 where the chart
   is refused, and with 3 where it cannot be read or the output not written.
   Build it with: gcc -Ibuild examples/measures.c build/libturnipcart.a -o measures */
#include <stdbool.h>
#include <stdio.h>
#include <stdlib.h>
#include "turnipcart.h"

enum { REFUSED = 1, FAILED = 3 };

/* One byte more than is read of a chart, so that a longer file is seen to be. */
static unsigned char text[TURNIPCART_TEXT_LIMIT + 1];

static void show_beat(uint32_t beat)
{
    putchar(' ');
    if (turnipcart_beat_head(beat) == 0) {
        putchar('.');
        return;
    }
    if (turnipcart_beat_base(beat) == TURNIPCART_SILENCE) {
        putchar('_');
        return;
    }
    fputs(turnipcart_base_name(turnipcart_beat_base(beat)), stdout);
    fwrite(text + turnipcart_beat_extension_offset(beat), 1, turnipcart_beat_extension_length(beat), stdout);
}

static void show_section(const struct turnipcart_tables *tables, uint64_t section)
{
    size_t first = turnipcart_section_first_measure(section);
    size_t count = turnipcart_section_measures(section);
    printf("section on line %zu, in %u\n", turnipcart_section_line(section), turnipcart_section_time(section));
    for (size_t place = first; place < first + count; place++) {
        printf("measure %zu:", place);
        size_t beat = turnipcart_measure_first_beat(tables->measures[place]);
        size_t end = beat + turnipcart_measure_beats(tables->measures[place]);
        for (; beat < end; beat++)
            show_beat(tables->beats[beat]);
        putchar('\n');
    }
}

static void show_song(const struct turnipcart_tables *tables, const struct turnipcart_answer *answer)
{
    struct turnipcart_found found;
    for (size_t place = 0; place < answer->sections; place++)
        show_section(tables, tables->sections[place]);
    if (answer->beats > 0 && turnipcart_find(tables->measures, answer->measures, (uint32_t)(answer->beats - 1), &found) == TURNIPCART_ACCEPTED)
        printf("beat %zu is in measure %zu\n", answer->beats - 1, found.place);
}

/* Tables as long as the song needs; those of no words may be null. */
static bool take_tables(struct turnipcart_tables *tables, const struct turnipcart_answer *counts)
{
    tables->keys = calloc(tables->keys_length = TURNIPCART_KEYS, sizeof *tables->keys);
    tables->sections = calloc(tables->sections_length = counts->sections, sizeof *tables->sections);
    tables->measures = calloc(tables->measures_length = counts->measures, sizeof *tables->measures);
    tables->beats = calloc(tables->beats_length = counts->beats, sizeof *tables->beats);
    tables->items = calloc(tables->items_length = counts->items, sizeof *tables->items);
    return tables->keys != NULL && (tables->sections != NULL || counts->sections == 0) && (tables->measures != NULL || counts->measures == 0)
        && (tables->beats != NULL || counts->beats == 0) && (tables->items != NULL || counts->items == 0);
}

/* Reads the song whose counts are known, and shows it. */
static int read_and_show(size_t length, struct turnipcart_answer *answer)
{
    struct turnipcart_tables tables;
    int status = EXIT_SUCCESS;
    if (!take_tables(&tables, answer))
        status = FAILED;
    else if (turnipcart_read_tables(text, length, &tables, answer) == TURNIPCART_ACCEPTED)
        show_song(&tables, answer);
    free(tables.keys);
    free(tables.sections);
    free(tables.measures);
    free(tables.beats);
    free(tables.items);
    return status;
}

int main(void)
{
    struct turnipcart_answer answer;
    size_t length = fread(text, 1, sizeof text, stdin);
    int status = REFUSED;
    if (ferror(stdin)) {
        perror("measures: standard input");
        return FAILED;
    }
    if (turnipcart_count(text, length, &answer) == TURNIPCART_ACCEPTED)
        status = read_and_show(length, &answer);
    else
        printf("refused %zu line %zu\n", answer.refusal, answer.line);
    if (fflush(stdout) != 0 || ferror(stdout)) {
        perror("measures: standard output");
        return FAILED;
    }
    return status;
}
