/* The program `reference`: runs the second reader on charts and shows its answers. README.md has the commands and formats. */
#include <stdlib.h>
#include <string.h>
#include "program.h"

enum { HEADER_LIMIT = 200, NUMBER_ROOM = 32, CHART_LIMIT = 1 << 24 };

static const struct lengths listing_lengths = {{READER_KEYS, 512, 2048, 8192, 1024}};

struct options {
    bool whole;
    bool explains;
    bool lengths_given;
    struct lengths lengths;
};

static int complain(const char *what, const char *which)
{
    fflush(stdout);
    fprintf(stderr, "reference: %s%s\n", what, which);
    return EXIT_FAILURE;
}

/* Memory of exactly that many bytes, so that reading past them is seen by a build that looks for it. */
static unsigned char *chart_memory(size_t length)
{
    unsigned char *memory = malloc(length > 0 ? length : 1);
    if (memory == NULL)
        exit(complain("no memory", ""));
    return memory;
}

/* Reads a chart to its end, or to one byte more than a chart may have. */
static unsigned char *read_chart(FILE *file, size_t *length)
{
    unsigned char *room = chart_memory(READER_TEXT_LIMIT + 1);
    *length = fread(room, 1, READER_TEXT_LIMIT + 1, file);
    unsigned char *chart = chart_memory(*length);
    memcpy(chart, room, *length);
    free(room);
    return chart;
}

static void answer_in_words(const char *name, const unsigned char *chart, size_t length, struct lengths lengths, bool whole)
{
    struct reader_tables tables = lend_tables(lengths);
    struct reader_answer answer = reader_read(chart, length, &tables);
    show_words(name, answer, &tables, lengths, whole);
    take_back_tables(&tables);
}

static int run_listing(const struct options *options)
{
    struct reader_tables tables = lend_tables(options->lengths_given ? options->lengths : listing_lengths);
    size_t length;
    unsigned char *chart = read_chart(stdin, &length);
    struct reader_answer answer = reader_read(chart, length, &tables);
    show_listing(chart, answer, &tables);
    free(chart);
    take_back_tables(&tables);
    return EXIT_SUCCESS;
}

/* The last part of the path, without `.sc`. */
static char *chart_name(const char *path)
{
    const char *slash = strrchr(path, '/');
    const char *base = slash == NULL ? path : slash + 1;
    size_t length = strlen(base);
    if (length > 3 && strcmp(base + length - 3, ".sc") == 0)
        length -= 3;
    char *name = (char *)chart_memory(length + 1);
    memcpy(name, base, length);
    name[length] = '\0';
    return name;
}

static int run_tables(const struct options *options, char **paths, int count)
{
    for (int place = 0; place < count; place++) {
        FILE *file = fopen(paths[place], "rb");
        if (file == NULL)
            return complain("can't open ", paths[place]);
        size_t length;
        unsigned char *chart = read_chart(file, &length);
        char *name = chart_name(paths[place]);
        answer_in_words(name, chart, length, options->lengths, options->whole);
        free(name);
        free(chart);
        fclose(file);
    }
    return EXIT_SUCCESS;
}

/* `LENGTH` or `LENGTH KEYS SECTIONS MEASURES BEATS ITEMS`; tables not named have the lengths given before. */
static bool read_header(char *header, size_t *chart_length, struct lengths *lengths)
{
    size_t fields[1 + TABLES];
    int count = 0;
    for (char *word = strtok(header, " \n"); word != NULL; word = strtok(NULL, " \n")) {
        if (count > TABLES || !read_length(word, &fields[count]))
            return false;
        count++;
    }
    if ((count != 1 && count != 1 + TABLES) || fields[0] > CHART_LIMIT)
        return false;
    *chart_length = fields[0];
    if (count > 1)
        memcpy(lengths->words, fields + 1, sizeof lengths->words);
    return true;
}

/* One chart, or another call, for each header; a list that ends inside a header, a chart or a call is answered up to there. */
static int run_packed(const struct options *options)
{
    char header[HEADER_LIMIT];
    for (unsigned long number = 0; fgets(header, sizeof header, stdin) != NULL; number++) {
        struct lengths lengths = options->lengths;
        size_t length;
        char name[NUMBER_ROOM];
        snprintf(name, sizeof name, "%lu", number);
        if (*header >= 'a' && *header <= 'z' && strchr(header, '\n') != NULL) {
            if (!answer_call(name, header, options->whole))
                return complain("bad or cut call ", name);
            continue;
        }
        if (strchr(header, '\n') == NULL || !read_header(header, &length, &lengths))
            return complain("bad or cut header of chart ", name);
        unsigned char *chart = chart_memory(length);
        if (fread(chart, 1, length, stdin) < length) {
            free(chart);
            return complain("the list ends within chart ", name);
        }
        if (options->explains)
            show_cause(name, reader_explain(chart, length));
        else
            answer_in_words(name, chart, length, lengths, options->whole);
        free(chart);
    }
    return EXIT_SUCCESS;
}

/* `find BEAT WORD...`: the second call on a measures table of these words. */
static int run_find(char **words, int count)
{
    uint32_t *measures = (uint32_t *)chart_memory((size_t)count * sizeof *measures);
    for (int place = 1; place < count; place++)
        measures[place - 1] = (uint32_t)strtoul(words[place], NULL, 10);
    struct reader_place found = reader_find(measures, (size_t)count - 1, (uint32_t)strtoul(words[0], NULL, 10));
    printf("%u %zu %zu\n", found.refusal, found.place, found.probes);
    free(measures);
    return EXIT_SUCCESS;
}

/* Reads the options at the front; the place of the command, or 0 if they are wrong. */
static int read_options(int count, char **words, struct options *options)
{
    int place = 1;
    for (int table = 0; table < TABLES; table++)
        options->lengths.words[table] = LARGE_ENOUGH;
    while (place < count && strncmp(words[place], "--", 2) == 0) {
        if (strcmp(words[place], "--whole") == 0) {
            options->whole = true;
            place++;
            continue;
        }
        if (strcmp(words[place], "--lengths") != 0 || place + TABLES >= count)
            return 0;
        for (int table = 0; table < TABLES; table++)
            if (!read_length(words[place + 1 + table], &options->lengths.words[table]))
                return 0;
        options->lengths_given = true;
        place += 1 + TABLES;
    }
    return place;
}

int main(int count, char **words)
{
    struct options options = {0};
    int place = read_options(count, words, &options);
    const char *command = place > 0 && place < count ? words[place] : "";
    char **rest = words + place + 1;
    int rest_count = count - place - 1;
    if (strcmp(command, "listing") == 0 && rest_count == 0)
        return run_listing(&options);
    if (strcmp(command, "tables") == 0)
        return run_tables(&options, rest, rest_count);
    options.explains = strcmp(command, "explain") == 0;
    if ((options.explains || strcmp(command, "packed") == 0) && rest_count == 0)
        return run_packed(&options);
    if (strcmp(command, "calls") == 0 && rest_count == 0)
        return show_calls(), EXIT_SUCCESS;
    if (strcmp(command, "find") == 0 && rest_count > 0)
        return run_find(rest, rest_count);
    return complain("usage: reference [--whole] [--lengths KEYS SECTIONS MEASURES BEATS ITEMS] ",
                    "listing | tables FILE... | packed | explain | calls | find BEAT WORD...");
}
