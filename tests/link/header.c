/* What the header adds for callers: null beside length 0, the table that is too short and how long it must be, texts, and a thread with no more
   stack than the header asks for. Prints nothing and ends with 0 where all is as promised. */
#include <limits.h>
#include <pthread.h>
#include <string.h>
#include "expect.h"
#include "turnipcart.h"

static const unsigned char chart[] = "@time 3/4\n\nV\nC;G\n--\nla _2\n";

static void try_null(void)
{
    struct turnipcart_tables none = {0};
    struct turnipcart_answer answer;
    expect("no text", turnipcart_read_tables(NULL, 0, &none, &answer), TURNIPCART_NO_SECTION);
    expect("no tables", turnipcart_read_tables(chart, sizeof chart - 1, &none, &answer), TURNIPCART_TABLE_TOO_SHORT);
}

static void try_short(void)
{
    uint32_t keys[TURNIPCART_KEYS], measures[2], beats[6];
    uint64_t sections[1], items[1];
    struct turnipcart_tables tables = {keys, TURNIPCART_KEYS, sections, 1, measures, 2, beats, 5, items, 1};
    struct turnipcart_answer answer, counts;
    expect("counts", turnipcart_count(chart, sizeof chart - 1, &counts), TURNIPCART_ACCEPTED);
    expect("a short table", turnipcart_read_tables(chart, sizeof chart - 1, &tables, &answer), TURNIPCART_TABLE_TOO_SHORT);
    expect("which", turnipcart_short_table(&tables, &counts), TURNIPCART_TABLE_BEATS);
    expect("how long", turnipcart_words_needed(&counts, TURNIPCART_TABLE_BEATS), 6);
    tables.beats_length = 6;
    expect("none", turnipcart_short_table(&tables, &counts), TURNIPCART_TABLES);
    expect("long enough", turnipcart_read_tables(chart, sizeof chart - 1, &tables, &answer), TURNIPCART_ACCEPTED);
    expect("the second measure", turnipcart_measure_first_beat(measures[1]), 3);
}

/* A chart that is refused late: what looks for the cause takes more stack than what reads. */
static void try_cause(void)
{
    static const unsigned char uneven[] = "Verse\nA;G\n--\nx _3\n";
    struct turnipcart_cause cause;
    expect("a late refusal", turnipcart_explain(uneven, sizeof uneven - 1, &cause), TURNIPCART_COUNT_SUM);
    expect("its cause", cause.cause, TURNIPCART_CAUSE_COUNT_SUM);
}

/* A copy that just fits; one byte less is too few, and then nothing is written. */
static void try_copy(void)
{
    static const unsigned char wanted[] = "@time 3/4\n\nV\nC C C\nG G G\n--\nla _2\n";
    unsigned char copy[sizeof wanted] = {0};
    struct turnipcart_copied copied;
    expect("too little room", turnipcart_flat(chart, sizeof chart - 1, copy, sizeof wanted - 2, &copied), TURNIPCART_COPY_TOO_LONG);
    expect("nothing is written", copy[0] + copied.line + copied.length, 0);
    expect("room enough", turnipcart_flat(chart, sizeof chart - 1, copy, sizeof wanted - 1, &copied), TURNIPCART_ACCEPTED);
    expect("its length", copied.length, sizeof wanted - 1);
    expect("the copy", (size_t)memcmp(copy, wanted, sizeof wanted), 0);
}

/* A chart of the longest kind: the buffer for its words is the large one. */
static void try_long_copy(void)
{
    static unsigned char dense[TURNIPCART_TEXT_LIMIT - 16], copy[TURNIPCART_COPY_ENOUGH];
    struct turnipcart_copied copied;
    for (size_t at = 0; at < sizeof dense; at++)
        dense[at] = (unsigned char)"C D E F;"[at % 8];
    memcpy(dense, "Verse\nC\n", 8);
    expect("a long copy", turnipcart_flat(dense, sizeof dense - 1, copy, sizeof copy, &copied), TURNIPCART_ACCEPTED);
    expect("its length, the first measure written out", copied.length, sizeof dense + 6);
}

static void *read_in_thread(void *nothing)
{
    try_short();
    try_copy();
    try_long_copy();
    try_cause();
    return nothing;
}

/* Beside what the calls take, a thread needs some stack for itself. */
static void try_thread(void)
{
    enum { OWN = 4 * PTHREAD_STACK_MIN };
    pthread_attr_t attributes;
    pthread_t thread;
    expect("attributes", (size_t)pthread_attr_init(&attributes), 0);
    expect("its stack", (size_t)pthread_attr_setstacksize(&attributes, TURNIPCART_STACK + OWN), 0);
    expect("a thread", (size_t)pthread_create(&thread, &attributes, read_in_thread, NULL), 0);
    expect("its end", (size_t)pthread_join(thread, NULL), 0);
    pthread_attr_destroy(&attributes);
}

int main(void)
{
    try_null();
    try_short();
    try_thread();
    expect("the version", (size_t)strcmp(TURNIPCART_VERSION, "1.1.5"), 0);
    expect("a text", (size_t)strcmp(turnipcart_refusal_text(TURNIPCART_COUNT_SUM), "counts that do not sum"), 0);
    expect("no text for no refusal", strlen(turnipcart_refusal_text(1000)), 0);
    return faults > 0;
}
