/* The other calls of a packed list, each behind a header line `CALL NUMBER...`, with the words that it is given in binary. */
#include <inttypes.h>
#include <stdlib.h>
#include <string.h>
#include "program.h"

enum { MOST_NUMBERS = 4, WORDS_LIMIT = 1 << 24 };

static bool whole; /* all lent words are shown, and not only those written */

/* The next words of the list, exactly as many as the call is given; NULL if the list ends before. */
static void *read_words(int64_t count, size_t size)
{
    if (count < 0 || count > WORDS_LIMIT)
        return NULL;
    size_t bytes = (size_t)count * size;
    void *words = malloc(bytes > 0 ? bytes : 1);
    if (words != NULL && fread(words, 1, bytes, stdin) == bytes)
        return words;
    free(words);
    return NULL;
}

/* Memory to be written, filled as the lent tables are; NULL for a bad length. */
static void *lend_words(int64_t count, size_t size)
{
    if (count < 0 || count > WORDS_LIMIT)
        return NULL;
    unsigned char *words = malloc(count > 0 ? (size_t)count * size : 1);
    for (int64_t place = 0; words != NULL && place < count; place++) {
        uint64_t word = FILL + (uint64_t)place;
        memcpy(words + (size_t)place * size, &word, size);
    }
    return words;
}

/* Behind a `|` the words written or, if asked, all that were lent. */
static void show_memory(const void *words, size_t size, int64_t lent, size_t written)
{
    size_t shown = whole ? (size_t)lent : written;
    fputs(" |", stdout);
    for (size_t place = 0; place < shown; place++) {
        uint64_t word = 0;
        memcpy(&word, (const unsigned char *)words + place * size, size);
        printf(" %" PRIu64, word);
    }
    putchar('\n');
}

/* `find BEAT LENGTH`, the words of a measures table. */
static bool answer_find(const char *name, const int64_t *numbers)
{
    uint32_t *measures = read_words(numbers[1], sizeof *measures);
    if (measures == NULL)
        return false;
    struct reader_place found = reader_find(measures, (size_t)numbers[1], (uint32_t)numbers[0]);
    printf("%s %u %zu %zu\n", name, found.refusal, found.place, found.probes);
    free(measures);
    return true;
}

/* `count LENGTH`, a chart. */
static bool answer_count(const char *name, const int64_t *numbers)
{
    unsigned char *text = read_words(numbers[0], 1);
    if (text == NULL)
        return false;
    struct reader_answer answer = reader_count(text, (size_t)numbers[0]);
    printf("%s %u %zu %zu %zu %zu %zu\n", name, answer.refusal, answer.line, answer.sections, answer.measures, answer.beats,
           answer.items);
    free(text);
    return true;
}

/* `flat LENGTH BUFFER`, a chart. */
static bool answer_flat(const char *name, const int64_t *numbers)
{
    unsigned char *text = read_words(numbers[0], 1);
    unsigned char *buffer = lend_words(numbers[1], 1);
    bool good = text != NULL && buffer != NULL;
    if (good) {
        struct reader_copied copied = reader_flat(text, (size_t)numbers[0], buffer, (size_t)numbers[1]);
        printf("%s %u %zu %zu", name, copied.refusal, copied.line, copied.length);
        show_memory(buffer, 1, numbers[1], copied.length);
    }
    free(text);
    free(buffer);
    return good;
}

/* `concert MOVE BEATS SECOND`, the words of a beat table. */
static bool answer_concert(const char *name, const int64_t *numbers)
{
    uint32_t *beats = read_words(numbers[1], sizeof *beats);
    uint32_t *second = lend_words(numbers[2], sizeof *second);
    bool good = beats != NULL && second != NULL;
    if (good) {
        unsigned refusal = reader_concert(beats, (size_t)numbers[1], (int32_t)numbers[0], second, (size_t)numbers[2]);
        printf("%s %u", name, refusal);
        show_memory(second, sizeof *second, numbers[2], refusal == READER_ACCEPTED ? (size_t)numbers[1] : 0);
    }
    free(beats);
    free(second);
    return good;
}

/* `cues SECTIONS MEASURES CUES`, the words of a section table and of a measures table. */
static bool answer_cues(const char *name, const int64_t *numbers)
{
    uint64_t *sections = read_words(numbers[0], sizeof *sections);
    uint32_t *measures = sections != NULL ? read_words(numbers[1], sizeof *measures) : NULL;
    uint64_t *cues = lend_words(numbers[2], sizeof *cues);
    bool good = measures != NULL && cues != NULL;
    if (good) {
        struct reader_song song = {sections, (size_t)numbers[0], measures, (size_t)numbers[1]};
        uint64_t end;
        unsigned refusal = reader_cues(&song, cues, (size_t)numbers[2], &end);
        printf("%s %u %" PRIu64, name, refusal, end);
        show_memory(cues, sizeof *cues, numbers[2], refusal == READER_ACCEPTED ? (size_t)numbers[1] : 0);
    }
    free(sections);
    free(measures);
    free(cues);
    return good;
}

/* Each with the numbers of its header, and those of its line behind the name. */
static const struct {
    const char *call;
    int numbers, shown;
    bool (*answer)(const char *name, const int64_t *numbers);
} rows[] = {
    {"find", 2, 3, answer_find},
    {"count", 1, 6, answer_count},
    {"flat", 2, 3, answer_flat},
    {"concert", 3, 1, answer_concert},
    {"cues", 3, 2, answer_cues},
};

void show_calls(void)
{
    puts("read 6");
    for (size_t row = 0; row < sizeof rows / sizeof *rows; row++)
        printf("%s %d\n", rows[row].call, rows[row].shown);
}

/* Prints the answer under this name; false where the header is bad, or the list ends within the call. */
bool answer_call(const char *name, char *header, bool show_whole)
{
    int64_t numbers[MOST_NUMBERS];
    int count = 0;
    char *call = strtok(header, " \n");
    whole = show_whole;
    for (char *word = strtok(NULL, " \n"); word != NULL; word = strtok(NULL, " \n")) {
        char *end;
        if (count == MOST_NUMBERS)
            return false;
        numbers[count++] = strtoimax(word, &end, 10);
        if (*end != '\0')
            return false;
    }
    for (size_t row = 0; row < sizeof rows / sizeof *rows; row++)
        if (call != NULL && strcmp(call, rows[row].call) == 0)
            return count == rows[row].numbers && rows[row].answer(name, numbers);
    return false;
}
