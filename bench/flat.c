/* Times the flat copy beside the second reader's on the same charts, for each byte written, and compares the copies. */
#include <stdio.h>
#include <stdlib.h>
#include <string.h>
#include <time.h>

#include "../tests/reference/reader.h"
#include "turnipcart.h"

enum { ROUNDS = 7, MOST = READER_TEXT_LIMIT };

static const double ROUND_SECONDS = 0.03;

static unsigned char text[MOST + 1];
static size_t length;

/* What a call left: its refusal, and the copy. */
struct outcome {
    size_t refusal;
    size_t length;
    unsigned char copy[MOST];
};

static double now(void)
{
    struct timespec t;
    clock_gettime(CLOCK_MONOTONIC, &t);
    return (double)t.tv_sec + (double)t.tv_nsec * 1e-9;
}

static void proved(struct outcome *outcome)
{
    struct turnipcart_copied copied;
    outcome->refusal = turnipcart_flat(text, length, outcome->copy, MOST, &copied);
    outcome->length = copied.length;
}

static void second(struct outcome *outcome)
{
    struct reader_copied copied = reader_flat(text, length, outcome->copy, MOST);
    outcome->refusal = copied.refusal;
    outcome->length = copied.length;
}

static struct {
    const char *name;
    void (*call)(struct outcome *outcome);
    struct outcome outcome;
} readers[] = {
    {.name = "proved", .call = proved},
    {.name = "second", .call = second},
};

enum { READERS = sizeof readers / sizeof *readers };

/* Seconds of one call in a round of several. */
static double time_round(int reader, unsigned calls)
{
    double start = now();
    for (unsigned i = 0; i < calls; i++)
        readers[reader].call(&readers[reader].outcome);
    return (now() - start) / calls;
}

/* The best of several rounds; one call says how many make a round. */
static double time_reader(int reader)
{
    double best = time_round(reader, 1);
    unsigned calls = (unsigned)(ROUND_SECONDS / (best + 1e-9)) + 1;
    for (int round = 0; round < ROUNDS; round++) {
        double each = time_round(reader, calls);
        if (each < best)
            best = each;
    }
    return best;
}

static void load(const char *name)
{
    FILE *f = fopen(name, "rb");
    if (!f) {
        perror(name);
        exit(1);
    }
    length = fread(text, 1, sizeof text, f);
    fclose(f);
}

static void time_chart(const char *name)
{
    const char *slash = strrchr(name, '/'), *base = slash ? slash + 1 : name;
    const struct outcome *first = &readers[0].outcome;
    double best[READERS];
    load(name);
    for (int reader = 0; reader < READERS; reader++) {
        const struct outcome *other = &readers[reader].outcome;
        best[reader] = time_reader(reader);
        if (other->refusal != first->refusal || other->length != first->length || memcmp(other->copy, first->copy, first->length) != 0) {
            printf("%s: the copies of %s and %s differ\n", name, readers[0].name, readers[reader].name);
            exit(1);
        }
    }
    printf("%-16.*s %7zu %9zu %8zu", (int)(strlen(base) - 3), base, length, first->length, first->refusal);
    for (int reader = 0; reader < READERS; reader++)
        if (first->length > 0)
            printf(" | %10.1f %9.2f", best[reader] * 1e6, best[reader] * 1e9 / (double)first->length);
        else
            printf(" | %10.1f %9s", best[reader] * 1e6, "-");
    printf("\n");
}

int main(int argc, char **argv)
{
    printf("%-16s %7s %9s %8s", "flat copy of", "bytes", "written", "refusal");
    for (int reader = 0; reader < READERS; reader++)
        printf(" | %7s us %9s", readers[reader].name, "ns/byte");
    printf("\n");
    for (int i = 1; i < argc; i++)
        time_chart(argv[i]);
    return 0;
}
