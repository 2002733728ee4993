/* turnipcart explain NUMBER */
#include <stdbool.h>
#include <string.h>
#include "output.h"
#include "subcommands.h"

/* The lines of docs/REFUSALS.md, cut in when the program is built. */
static const char *const lines[] = {
#include "refusals.inc"
};

enum { COUNT = sizeof lines / sizeof lines[0], LARGEST = 999 };

/* Where an entry begins: `## 7: ...`, or `**21: ...` for calls that read no chart. Bytes before its number, 0 where the line begins none. */
static size_t begins_entry(const char *line)
{
    if (strncmp(line, "## ", 3) == 0)
        return 3;
    return strncmp(line, "**", 2) == 0 && line[2] >= '0' && line[2] <= '9' ? 2 : 0;
}

/* Where an entry ends: another one, or a new part of the document. */
static bool ends_entry(const char *line)
{
    return begins_entry(line) > 0 || strncmp(line, "# ", 2) == 0;
}

static bool is_entry(const char *line, const char *number)
{
    size_t before = begins_entry(line);
    size_t length = strlen(number);
    return before > 0 && strncmp(line + before, number, length) == 0 && line[before + length] == ':';
}

/* Without the stars that show it in bold letters. */
static void put_heading(const char *line)
{
    const char *stars = strstr(line, "**");
    if (stars != NULL) {
        put_bytes(line, (size_t)(stars - line));
        line = stars + 2;
    }
    put(line);
}

/* Prints the lines of an entry from its first on, but not the blank ones at its end. */
static void put_entry(size_t place)
{
    size_t end = place + 1;
    while (end < COUNT && !ends_entry(lines[end]))
        end++;
    while (lines[end - 1][0] == '\0')
        end--;
    put("Refusal ");
    put_heading(lines[place] + begins_entry(lines[place]));
    put("\n");
    for (place++; place < end; place++) {
        put(lines[place]);
        put("\n");
    }
}

static enum status run(const struct words *words)
{
    const char *number = words->operands[0];
    size_t value;
    size_t place = 0;
    if (!read_decimal(number, LARGEST, &value))
        return misuse("this is no refusal's number", number);
    while (place < COUNT && !is_entry(lines[place], number))
        place++;
    if (place == COUNT) {
        complain("there is no refusal with the number", number);
        return STATUS_REFUSED;
    }
    put_entry(place);
    return STATUS_FINE;
}

const struct subcommand explain_subcommand = {
    .name = "explain",
    .usage = "explain NUMBER",
    .summary = "tell what a refusal means, with a chart that gets it and the chart mended",
    .help = "NUMBER is the refusal's, as `turnipcart check` prints it.\n",
    .least = 1,
    .most = 1,
    .run = run,
};
