/* Times the second call on a table of 65,535 records beside a walk along the table and beside C's bsearch, on the same beats. */
#include <stdio.h>
#include <stdlib.h>
#include <time.h>

#include "turnipcart.h"

enum { RECORDS = TURNIPCART_MEASURES_ENOUGH, BEATS_EACH = 4, ASKED = 512, ROUNDS = 7 };

static uint32_t measures[RECORDS];
static uint32_t asked[ASKED];
static size_t places[ASKED];

static double now(void)
{
    struct timespec t;
    clock_gettime(CLOCK_MONOTONIC, &t);
    return (double)t.tv_sec + (double)t.tv_nsec * 1e-9;
}

static size_t proved(uint32_t beat)
{
    struct turnipcart_found found;
    return turnipcart_find(measures, RECORDS, beat, &found) == TURNIPCART_ACCEPTED ? found.place : RECORDS;
}

static int side(const void *beat, const void *record)
{
    size_t wanted = *(const uint32_t *)beat;
    size_t first = turnipcart_measure_first_beat(*(const uint32_t *)record);
    return wanted < first ? -1 : wanted >= first + turnipcart_measure_beats(*(const uint32_t *)record);
}

static size_t by_bsearch(uint32_t beat)
{
    const uint32_t *record = bsearch(&beat, measures, RECORDS, sizeof *measures, side);
    return record ? (size_t)(record - measures) : RECORDS;
}

static size_t by_walk(uint32_t beat)
{
    for (size_t place = 0; place < RECORDS; place++)
        if (side(&beat, &measures[place]) == 0)
            return place;
    return RECORDS;
}

/* The best of several rounds over all beats asked for, in nanoseconds for one call; it ends the program where a place is wrong. */
static void time_call(const char *name, size_t (*call)(uint32_t))
{
    double best = 1e9;
    for (int round = 0; round < ROUNDS; round++) {
        double start = now();
        for (size_t i = 0; i < ASKED; i++)
            places[i] = call(asked[i]);
        double each = (now() - start) / ASKED;
        if (each < best)
            best = each;
        for (size_t i = 0; i < ASKED; i++)
            if (places[i] != asked[i] / BEATS_EACH) {
                printf("%s: beat %u is not in measure %zu\n", name, (unsigned)asked[i], places[i]);
                exit(1);
            }
    }
    printf("%-8s %12.1f ns a call\n", name, best * 1e9);
}

int main(void)
{
    uint64_t number = 1;
    for (uint32_t i = 0; i < RECORDS; i++)
        measures[i] = i * BEATS_EACH << 11 | BEATS_EACH << 5;
    for (size_t i = 0; i < ASKED; i++) {
        number = number * 6364136223846793005u + 1442695040888963407u;
        asked[i] = (uint32_t)((number >> 33) % (RECORDS * BEATS_EACH));
    }
    printf("one beat of %d measures\n", RECORDS);
    time_call("proved", proved);
    time_call("bsearch", by_bsearch);
    time_call("walk", by_walk);
    return 0;
}
