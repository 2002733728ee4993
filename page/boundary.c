/* The page's side of the proved reader, compiled for WebAssembly: memory that is lent to every call, and entry points with parameters that a
   script can give (inside the module numbers have 64 bits). A page reads one chart at a time, so one set of tables does. */
#include "advice.h"

enum {
    TEXT_ROOM = TURNIPCART_TEXT_LIMIT + 1, /* one byte more than the limit, so that a longer text is seen to be longer */
    ANSWER_NUMBERS = 6,
    COPIED_NUMBERS = 3,
    CAUSE_NUMBERS = 10
};

/* The calls as the module has them. */
uint64_t proved_read(const unsigned char *text, uint64_t text_length, uint32_t *keys, uint64_t keys_length, uint64_t *sections,
                     uint64_t sections_length, uint32_t *measures, uint64_t measures_length, uint32_t *beats, uint64_t beats_length,
                     uint64_t *items, uint64_t items_length, uint64_t answer[ANSWER_NUMBERS]) __asm__("turnipcart_read");
uint64_t proved_concert(const uint32_t *beats, uint64_t beats_length, int32_t move, uint32_t *second, uint64_t second_length)
    __asm__("turnipcart_concert");
uint64_t proved_flat(const unsigned char *text, uint64_t text_length, unsigned char *copy, uint64_t copy_length,
                     uint64_t copied[COPIED_NUMBERS]) __asm__("turnipcart_flat");
uint64_t proved_explain(const unsigned char *text, uint64_t text_length, uint64_t cause[CAUSE_NUMBERS]) __asm__("turnipcart_explain");

static unsigned char chart[TEXT_ROOM];
static uint32_t keys[TURNIPCART_KEYS];
static uint64_t sections[TURNIPCART_SECTIONS_ENOUGH];
static uint32_t measures[TURNIPCART_MEASURES_ENOUGH];
static uint32_t beats[TURNIPCART_BEATS_ENOUGH];
static uint32_t moved[TURNIPCART_BEATS_ENOUGH];
static uint64_t items[TURNIPCART_ITEMS_ENOUGH];
static uint64_t answer[ANSWER_NUMBERS];
static unsigned char copy[TURNIPCART_COPY_ENOUGH];
static uint64_t copied[COPIED_NUMBERS];
static struct advice advice;
static char words[ADVICE_ROOM];
static struct warning_search search;

/* Where a script finds each piece of memory, by number, in this order. */
void *page_memory(unsigned which)
{
    void *places[] = {chart, keys, sections, measures, beats, items, answer, &advice, moved, copy, copied};
    return which < sizeof places / sizeof *places ? places[which] : 0;
}

/* Reads the chart of so many bytes that was put into its memory; the answer and the tables stand in theirs. */
void page_read(unsigned length)
{
    proved_read(chart, length, keys, TURNIPCART_KEYS, sections, TURNIPCART_SECTIONS_ENOUGH, measures, TURNIPCART_MEASURES_ENOUGH, beats,
                TURNIPCART_BEATS_ENOUGH, items, TURNIPCART_ITEMS_ENOUGH, answer);
}

/* The first beats of the song that was read last, at concert pitch, in a memory of their own; the refusal is returned. */
unsigned page_concert(unsigned count, int move)
{
    return (unsigned)proved_concert(beats, count, move, moved, TURNIPCART_BEATS_ENOUGH);
}

/* Copies the chart of so many bytes for paper, with nothing folded: the copy and its three numbers stand in their memories. */
void page_flat(unsigned length)
{
    proved_flat(chart, length, copy, TURNIPCART_COPY_ENOUGH, copied);
}

/* What is to be said of a song whose copy is too long. */
void page_advise_copy(unsigned length)
{
    advise_copy((struct text){chart, length}, words, &advice);
}

/* What is to be said of a chart that was refused, of which so many bytes are lent and which has so many in all: the advice stands in its
   memory. */
void page_advise(unsigned length, unsigned size)
{
    uint64_t numbers[CAUSE_NUMBERS];
    proved_explain(chart, length, numbers);
    struct turnipcart_cause cause = {
        .refusal = (size_t)numbers[0], .line = (size_t)numbers[1],       .cause = (size_t)numbers[2], .place_line = (size_t)numbers[3],
        .offset = (size_t)numbers[4],  .length = (size_t)numbers[5],     .other_line = (size_t)numbers[6],
        .first = (size_t)numbers[7],   .second = (size_t)numbers[8],     .third = (size_t)numbers[9],
    };
    if (cause.refusal == TURNIPCART_TEXT_TOO_LONG)
        cause.first = size;
    advise((struct text){chart, length}, &cause, words, &advice);
}

/* The warnings for a chart that was accepted: begun, then one after another until there is none. */
void page_begin_warnings(unsigned length, unsigned item_count)
{
    begin_warnings((struct text){chart, length}, item_count, &search);
}

bool page_next_warning(void)
{
    return next_warning(&search, words, &advice);
}
