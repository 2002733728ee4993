/* The exported calls, a row each. A call that the header does not declare has no row: `build` sees which it does, and says so by HAS_. */
#include "calls.h"
#include "turnipcart.h"

enum { BYTE = 1, SMALL = 4, WIDE = 8 };

#define A_NUMBER(part_name) {.kind = NUMBER, .name = part_name}
#define GIVEN_WORDS(part_name, bytes) {.kind = GIVEN, .name = part_name, .memory = {.size = bytes}}
#define WRITTEN_WORDS(part_name, bytes, most) {.kind = WRITTEN, .name = part_name, .enough = most, .memory = {.size = bytes}}
#define AN_ANSWER(numbers) {.size = sizeof(size_t), .length = numbers}
#define LENT(part) words_of(&(part).memory), (part).memory.length

static size_t make_read(struct part *parts, void *memory)
{
    struct turnipcart_answer *answer = memory;
    size_t refusal = turnipcart_read(LENT(parts[0]), LENT(parts[1]), LENT(parts[2]), LENT(parts[3]), LENT(parts[4]),
                                     LENT(parts[5]), answer);
    size_t used[] = {answer->sections, answer->measures, answer->beats, answer->items};
    parts[1].used = refusal == TURNIPCART_ACCEPTED ? TURNIPCART_KEYS : 0;
    for (int table = 0; table < 4; table++)
        parts[2 + table].used = refusal == TURNIPCART_ACCEPTED ? used[table] : 0;
    return refusal;
}

static size_t make_find(struct part *parts, void *answer)
{
    return turnipcart_find(LENT(parts[1]), (uint32_t)parts[0].number, answer);
}

#ifdef HAS_COUNT
static size_t make_count(struct part *parts, void *answer)
{
    return turnipcart_count(LENT(parts[0]), answer);
}
#endif

#ifdef HAS_FLAT
static size_t make_flat(struct part *parts, void *memory)
{
    struct turnipcart_copied *copied = memory;
    size_t refusal = turnipcart_flat(LENT(parts[0]), LENT(parts[1]), copied);
    parts[1].used = refusal == TURNIPCART_ACCEPTED ? copied->length : 0;
    return refusal;
}
#endif

#ifdef HAS_CONCERT
static size_t make_concert(struct part *parts, void *answer)
{
    (void)answer;
    size_t refusal = turnipcart_concert(LENT(parts[1]), (int32_t)parts[0].number, LENT(parts[2]));
    parts[2].used = refusal == TURNIPCART_ACCEPTED ? parts[1].memory.length : 0;
    return refusal;
}
#endif

#ifdef HAS_CUES
static size_t make_cues(struct part *parts, void *end)
{
    size_t refusal = turnipcart_cues(LENT(parts[0]), LENT(parts[1]), LENT(parts[2]), end);
    parts[2].used = refusal == TURNIPCART_ACCEPTED ? parts[1].memory.length : 0;
    return refusal;
}
#endif

struct call calls[] = {
    {"read", make_read, true, AN_ANSWER(6),
     {GIVEN_WORDS("text", BYTE), WRITTEN_WORDS("keys", SMALL, TURNIPCART_KEYS),
      WRITTEN_WORDS("sections", WIDE, TURNIPCART_SECTIONS_ENOUGH), WRITTEN_WORDS("measures", SMALL, TURNIPCART_MEASURES_ENOUGH),
      WRITTEN_WORDS("beats", SMALL, TURNIPCART_BEATS_ENOUGH), WRITTEN_WORDS("items", WIDE, TURNIPCART_ITEMS_ENOUGH)}},
    {"find", make_find, true, AN_ANSWER(3), {A_NUMBER("beat"), GIVEN_WORDS("measures", SMALL)}},
#ifdef HAS_COUNT
    {"count", make_count, true, AN_ANSWER(6), {GIVEN_WORDS("text", BYTE)}},
#endif
#ifdef HAS_FLAT
    {"flat", make_flat, true, AN_ANSWER(3), {GIVEN_WORDS("text", BYTE), WRITTEN_WORDS("copy", BYTE, TURNIPCART_COPY_ENOUGH)}},
#endif
#ifdef HAS_CONCERT
    {"concert", make_concert, false, AN_ANSWER(0),
     {A_NUMBER("move"), GIVEN_WORDS("beats", SMALL), WRITTEN_WORDS("second", SMALL, TURNIPCART_BEATS_ENOUGH)}},
#endif
#ifdef HAS_CUES
    {"cues", make_cues, false, AN_ANSWER(1),
     {GIVEN_WORDS("sections", WIDE), GIVEN_WORDS("measures", SMALL), WRITTEN_WORDS("cues", WIDE, TURNIPCART_MEASURES_ENOUGH)}},
#endif
};

const size_t call_count = sizeof calls / sizeof *calls;
