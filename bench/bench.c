/* Times readers on the same charts, side by side in one run, and compares their answers: the proved reader, the peer and the second reader. */
#include <stdio.h>
#include <stdlib.h>
#include <string.h>
#include <time.h>

#include "../tests/reference/reader.h"
#include "peer/peer.h"
#include "turnipcart.h"

enum {
    KEYS = TURNIPCART_KEYS,
    SECTIONS = TURNIPCART_SECTIONS_ENOUGH,
    MEASURES = TURNIPCART_MEASURES_ENOUGH,
    BEATS = TURNIPCART_BEATS_ENOUGH,
    ITEMS = TURNIPCART_ITEMS_ENOUGH
};

enum { ROUNDS = 7 };

static const double ROUND_SECONDS = 0.03;
static const double MOST_SECONDS = 5; /* no further round of a chart begins after these */

static unsigned char text[READER_TEXT_LIMIT + 1];
static size_t length;
static uint32_t keys[KEYS];
static uint64_t sections[SECTIONS];
static uint32_t measures[MEASURES];
static uint32_t beats[BEATS];
static uint64_t items[ITEMS];
static struct peer_answer answer;

static double now(void)
{
    struct timespec t;
    clock_gettime(CLOCK_MONOTONIC, &t);
    return (double)t.tv_sec + (double)t.tv_nsec * 1e-9;
}

static void proved(void)
{
    struct turnipcart_answer a;
    turnipcart_read(text, length, keys, KEYS, sections, SECTIONS, measures, MEASURES, beats, BEATS, items, ITEMS, &a);
    answer = (struct peer_answer){a.refusal, a.line, a.sections, a.measures, a.beats, a.items};
}

static void peer(void)
{
    peer_read(text, length, keys, KEYS, sections, SECTIONS, measures, MEASURES, beats, BEATS, items, ITEMS, &answer);
}

static void second(void)
{
    struct reader_tables tables = {keys, KEYS, sections, SECTIONS, measures, MEASURES, beats, BEATS, items, ITEMS};
    struct reader_answer a = reader_read(text, length, &tables);
    answer = (struct peer_answer){a.refusal, a.line, a.sections, a.measures, a.beats, a.items};
}

static struct {
    const char *name;
    void (*call)(void);
    unsigned calls;             /* in one round */
    double best;                /* seconds of one call in the best round */
    struct peer_answer answer;
} readers[] = {
    {.name = "proved", .call = proved},
    {.name = "peer", .call = peer},
    {.name = "second", .call = second},
};

enum { READERS = sizeof readers / sizeof *readers };

/* A round of several calls. */
static void run_round(int reader)
{
    double start = now();
    for (unsigned i = 0; i < readers[reader].calls; i++)
        readers[reader].call();
    double each = (now() - start) / readers[reader].calls;
    if (each < readers[reader].best)
        readers[reader].best = each;
    readers[reader].answer = answer;
}

/* One call of each, which says how many make a round; then rounds by turns. */
static void time_all(void)
{
    double start = now();
    for (int i = 0; i < READERS; i++) {
        readers[i].best = 1e9;
        readers[i].calls = 1;
        run_round(i);
        readers[i].calls = (unsigned)(ROUND_SECONDS / (readers[i].best + 1e-9)) + 1;
    }
    for (int round = 0; round < ROUNDS && now() - start < MOST_SECONDS; round++)
        for (int i = 0; i < READERS; i++)
            run_round(i);
}

static void load(const char *name)
{
    FILE *f = fopen(name, "rb");
    if (!f) {
        perror(name);
        exit(1);
    }
    length = fread(text, 1, sizeof text, f);
    fclose(f);
}

static void print_head(void)
{
    printf("%-16s %7s %9s %8s", "chart", "bytes", "words", "refusal");
    for (int i = 0; i < READERS; i++)
        printf(" | %7s us %9s", readers[i].name, "ns/byte");
    printf(" | %s/%s\n", readers[0].name, readers[1].name);
}

static void print_times(const char *name)
{
    const char *slash = strrchr(name, '/'), *base = slash ? slash + 1 : name;
    printf("%-16.*s %7zu %9zu %8zu", (int)(strlen(base) - 3), base, length, answer.sections + answer.measures + answer.beats + answer.items,
           answer.refusal);
    for (int i = 0; i < READERS; i++)
        printf(" | %10.1f %9.2f", readers[i].best * 1e6, readers[i].best * 1e9 / (double)length);
    printf(" | %8.2f\n", readers[0].best / readers[1].best);
}

int main(int argc, char **argv)
{
    print_head();
    for (int i = 1; i < argc; i++) {
        load(argv[i]);
        time_all();
        for (int reader = 1; reader < READERS; reader++)
            if (memcmp(&readers[reader].answer, &readers[0].answer, sizeof answer) != 0) {
                printf("%s: the answers of %s and %s differ\n", argv[i], readers[0].name, readers[reader].name);
                return 1;
            }
        print_times(argv[i]);
    }
    return 0;
}
