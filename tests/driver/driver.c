/* Makes the exported calls that a packed list on standard input asks for, with guarded memory, and prints every answer whole, one line
   for each; README.md has the forms.
   usage: driver [--used] [--spoil guard|past|given|beside] < LIST, or driver --calls */
#include <inttypes.h>
#include <stdio.h>
#include <stdlib.h>
#include <string.h>
#include "calls.h"

enum { HEADER_LIMIT = 200, LENGTH_LIMIT = 1 << 24, DIGITS = 20 };

static const char *spoiled = "";
static bool only_used;

static int complain(unsigned long number, const char *what, const char *which)
{
    fflush(stdout);
    fprintf(stderr, "driver: call %lu: %s%s\n", number, what, which);
    return EXIT_FAILURE;
}

static void put_number(unsigned long long number)
{
    char digits[DIGITS + 1];
    size_t start = sizeof digits;
    do {
        digits[--start] = (char)('0' + number % 10);
        number /= 10;
    } while (number > 0);
    digits[--start] = ' ';
    fwrite(digits + start, 1, sizeof digits - start, stdout);
}

/* A header's word for a part: a number, the length of memory, or `-`. Memory is lent. */
static bool read_part(struct part *part, const char *word)
{
    char *end;
    part->number = strtoll(word, &end, 10);
    part->whole = strcmp(word, "-") != 0;
    if (part->kind == NUMBER)
        return end != word && *end == '\0';
    if (part->kind == WRITTEN && !part->whole)
        part->number = (int64_t)part->enough;
    else if (end == word || *end != '\0' || part->number < 0 || part->number > LENGTH_LIMIT)
        return false;
    lend(&part->memory, (size_t)part->number);
    return true;
}

static struct call *call_named(const char *name)
{
    for (size_t place = 0; name != NULL && place < call_count; place++)
        if (strcmp(calls[place].name, name) == 0)
            return &calls[place];
    return NULL;
}

/* `CALL WORD...`, or of a chart to be read its length alone or with those of the five tables. */
static struct call *read_header(char *header)
{
    char *word = strtok(header, " \n");
    bool is_chart = word != NULL && *word >= '0' && *word <= '9';
    struct call *call = is_chart ? &calls[0] : call_named(word);
    if (call == NULL)
        return NULL;
    word = is_chart ? word : strtok(NULL, " \n");
    bool alone = false;
    for (int place = 0; place < MOST_PARTS && call->parts[place].kind != NONE; place++) {
        if (word == NULL && place == 1 && is_chart)
            alone = true;
        if (!read_part(&call->parts[place], alone ? "-" : word != NULL ? word : ""))
            return NULL;
        word = alone ? NULL : strtok(NULL, " \n");
    }
    return word == NULL ? call : NULL;
}

/* The words of given memory, from the list. A copy is kept, to see that the call changes none. */
static bool read_given(struct part *part, unsigned char **kept)
{
    size_t bytes = part->memory.length * part->memory.size;
    part->used = part->memory.length;
    *kept = malloc(bytes > 0 ? bytes : 1);
    if (*kept == NULL || fread(*kept, 1, bytes, stdin) < bytes)
        return false;
    memcpy(words_of(&part->memory), *kept, bytes);
    return true;
}

static void spoil(struct part *part)
{
    if (strcmp(spoiled, "guard") == 0)
        spoil_word(&part->memory, part->memory.length);
    if (strcmp(spoiled, "past") == 0 && part->kind == WRITTEN && part->used < part->memory.length)
        spoil_word(&part->memory, part->memory.length - 1);
    if (strcmp(spoiled, "given") == 0 && part->kind == GIVEN && part->used > 0)
        spoil_word(&part->memory, 0);
}

/* What is wrong with a part after the call, or NULL. */
static const char *judge_part(const struct part *part, const unsigned char *kept)
{
    if (part->used > part->memory.length)
        return "says it wrote more than was lent: ";
    if (part->kind == GIVEN && memcmp(words_of(&part->memory), kept, part->used * part->memory.size) != 0)
        return "given memory changed: ";
    return is_kept(&part->memory, part->used) ? NULL : "a word past the answer or a guard word changed: ";
}

static void print_part(const struct part *part)
{
    size_t shown = part->whole && !only_used ? part->memory.length : part->used;
    fputs(" |", stdout);
    for (size_t place = 0; place < shown; place++)
        put_number(word_at(&part->memory, place));
}

static void print_line(const struct call *call, unsigned long number, size_t refusal)
{
    printf("%lu %zu", number, refusal);
    for (size_t place = call->repeats_refusal; place < call->answer.length; place++)
        put_number(word_at(&call->answer, place));
    for (const struct part *part = call->parts; part < call->parts + MOST_PARTS && part->kind != NONE; part++)
        if (part->kind == WRITTEN)
            print_part(part);
    putchar('\n');
}

/* Makes the call and looks at all that was lent to it; what is wrong is said, and false returned. */
static bool make(struct call *call, unsigned long number, unsigned char *kept[MOST_PARTS])
{
    lend(&call->answer, call->answer.length);
    size_t refusal = call->make(call->parts, words_of(&call->answer));
    for (int place = 0; place < MOST_PARTS; place++) {
        struct part *part = &call->parts[place];
        if (part->kind != GIVEN && part->kind != WRITTEN)
            continue;
        spoil(part);
        const char *fault = judge_part(part, kept[place]);
        if (fault != NULL)
            return complain(number, fault, part->name), false;
    }
    if (strcmp(spoiled, "beside") == 0)
        spoil_word(&call->answer, call->answer.length);
    if (!is_kept(&call->answer, call->answer.length))
        return complain(number, "a word beside the answer changed", ""), false;
    if (call->repeats_refusal && word_at(&call->answer, 0) != refusal)
        return complain(number, "returns another refusal than the answer's", ""), false;
    print_line(call, number, refusal);
    return true;
}

static int answer(struct call *call, unsigned long number)
{
    unsigned char *kept[MOST_PARTS] = {NULL};
    bool good = true;
    for (int place = 0; place < MOST_PARTS && good; place++)
        if (call->parts[place].kind == GIVEN && !read_given(&call->parts[place], &kept[place]))
            good = complain(number, "the list ends within it", "") == EXIT_SUCCESS;
    good = good && make(call, number, kept);
    for (int place = 0; place < MOST_PARTS; place++) {
        free(kept[place]);
        if (good && call->parts[place].kind > NUMBER)
            take_back(&call->parts[place].memory, call->parts[place].used);
    }
    if (good)
        take_back(&call->answer, call->answer.length);
    return good ? EXIT_SUCCESS : EXIT_FAILURE;
}

/* When the list is done no word of any memory has been left changed, however far from what was lent. */
static int look_at_all(unsigned long number)
{
    for (size_t row = 0; row < call_count; row++)
        for (int place = 0; place < MOST_PARTS; place++)
            if (calls[row].parts[place].kind > NUMBER && !is_restored(&calls[row].parts[place].memory))
                return complain(number, "or one before it changed a word far from the lent ones: ", calls[row].parts[place].name);
    return EXIT_SUCCESS;
}

/* The calls that there are, and how many numbers the line of each has behind its own. */
static int print_calls(void)
{
    for (size_t row = 0; row < call_count; row++)
        printf("%s %zu\n", calls[row].name, calls[row].answer.length + !calls[row].repeats_refusal);
    return EXIT_SUCCESS;
}

static int answer_list(void)
{
    char header[HEADER_LIMIT];
    unsigned long number = 0;
    for (; fgets(header, sizeof header, stdin) != NULL; number++) {
        bool ended = strchr(header, '\n') != NULL;
        struct call *call = ended ? read_header(header) : NULL;
        if (call == NULL)
            return complain(number, "a bad or cut header", "");
        if (answer(call, number) != EXIT_SUCCESS)
            return EXIT_FAILURE;
    }
    return look_at_all(number);
}

int main(int count, char **words)
{
    int place = 1;
    if (count == 2 && strcmp(words[1], "--calls") == 0)
        return print_calls();
    if (place < count && strcmp(words[place], "--used") == 0)
        only_used = true, place++;
    if (place + 1 < count && strcmp(words[place], "--spoil") == 0)
        spoiled = words[place + 1], place += 2;
    if (place == count)
        return answer_list();
    fputs("usage: driver [--used] [--spoil guard|past|given|beside] < LIST, or driver --calls\n", stderr);
    return EXIT_FAILURE;
}
