/* Charts: songs of the grammar, charts of the corpus and plain bytes, with mutations of bytes, numbers and lines. */
#include <string.h>
#include "charts.h"

#define PICK(numbers, list) ((list)[below((numbers), sizeof(list) / sizeof *(list))])

static uint64_t mixed(uint64_t value)
{
    value = (value ^ value >> 30) * UINT64_C(0xBF58476D1CE4E5B9);
    value = (value ^ value >> 27) * UINT64_C(0x94D049BB133111EB);
    return value ^ value >> 31;
}

struct numbers numbers_of(uint64_t seed, uint64_t number)
{
    struct numbers numbers = {mixed(seed * UINT64_C(0x9E3779B97F4A7C15) + mixed(number + 1))};
    if (numbers.state == 0)
        numbers.state = 1;
    return numbers;
}

uint64_t next_number(struct numbers *numbers)
{
    numbers->state ^= numbers->state >> 12;
    numbers->state ^= numbers->state << 25;
    numbers->state ^= numbers->state >> 27;
    return numbers->state * UINT64_C(0x2545F4914F6CDD1D);
}

size_t below(struct numbers *numbers, size_t limit)
{
    return (size_t)((next_number(numbers) >> 32) % limit);
}

static void put(struct chart *chart, const void *bytes, size_t length)
{
    if (length > CHART_ROOM - chart->length)
        length = CHART_ROOM - chart->length;
    memcpy(chart->bytes + chart->length, bytes, length);
    chart->length += length;
}

void append(struct chart *chart, const char *piece)
{
    put(chart, piece, strlen(piece));
}

void append_number(struct chart *chart, size_t number)
{
    char digits[24];
    size_t at = sizeof digits;
    do
        digits[--at] = (char)('0' + number % 10);
    while ((number /= 10) > 0);
    put(chart, digits + at, sizeof digits - at);
}

/* The bytes from a place on, so many of them, give way to a piece. */
static void replace(struct chart *chart, size_t at, size_t taken, const unsigned char *piece, size_t length)
{
    if (chart->length - taken + length > CHART_ROOM)
        return;
    memmove(chart->bytes + at + length, chart->bytes + at + taken, chart->length - at - taken);
    if (length > 0)
        memcpy(chart->bytes + at, piece, length);
    chart->length = chart->length - taken + length;
}

static void replace_by_text(struct chart *chart, size_t at, size_t taken, const char *piece)
{
    replace(chart, at, taken, (const unsigned char *)piece, strlen(piece));
}

/* The line around a place: where it starts, and how long it is with its end. */
static size_t line_around(const struct chart *chart, size_t place, size_t *start)
{
    size_t end = place;
    while (place > 0 && chart->bytes[place - 1] != '\n')
        place--;
    while (end < chart->length && chart->bytes[end] != '\n')
        end++;
    *start = place;
    return (end < chart->length ? end + 1 : end) - place;
}

static void change_bytes(struct numbers *numbers, struct chart *chart)
{
    static const char *const pieces[] = {" ", "\t", ";", ":", "[", "]", "%", "_", "=", "$", "@", "!", "-", "--", "*", "0", "1", "2", "9",
                                         "A", "H", "b", "m", "#", "maj", "aj", "j", "\r", "\n", "\r\n", "\n\n", "é", "\xC2\xA0", "[A]2", "$1", "/4",
                                         "\x80", "\xFF", "\xC0\x80", "\xED\xA0\x80", "\xF4\x90\x80\x80", "\xE2\x82", "𝄞", "\xEF\xBB\xBF"};
    size_t at = below(numbers, chart->length + 1);
    size_t taken = at < chart->length ? below(numbers, 2) : 0;
    switch (below(numbers, 6)) {
    case 0:
        if (at < chart->length)
            chart->bytes[at] ^= (unsigned char)(1u << below(numbers, 8));
        break;
    case 1:
        replace(chart, at, at < chart->length, NULL, 0);
        break;
    case 2:
        if (at < chart->length && below(numbers, 4) == 0)
            chart->bytes[at] = (unsigned char)below(numbers, 256);
        break;
    default:
        replace_by_text(chart, at, taken, PICK(numbers, pieces));
    }
}

static void change_number(struct numbers *numbers, struct chart *chart)
{
    static const char *const edges[] = {"0", "1", "2", "3", "4", "6", "20", "21", "26", "27", "32", "33", "100", "400", "401", "9999",
                                        "10000", "01", "65535", "65536", "99999999999999999999", "-1", ""};
    for (int tries = 0; tries < 20 && chart->length > 0; tries++) {
        size_t at = below(numbers, chart->length);
        size_t end = at;
        while (end < chart->length && chart->bytes[end] >= '0' && chart->bytes[end] <= '9')
            end++;
        if (end == at)
            continue;
        replace_by_text(chart, at, end - at, PICK(numbers, edges));
        return;
    }
}

static const char *const odd_lines[] = {
    "@bpm 120\n", "@bpm 401\n", "@time 3/4\n", "@time 4/8\n", "@name\n", "@name x\n", "@capo 0\n", "@\n", "@original C7\n", "$1\n", "$2\n",
    "$0\n", "$1 x\n", "--\n", "--x\n", "A;G\n", "A D E\n", "%\n", "_\n", "A =\n", "A = G\n", ";\n", ":\n", "H\n", "[A]2\n", "[A]1\n",
    "[[A]2]2\n", "$1;A\n", "_repeat 2\n", "_repeat 9999\n", "_repeat\n", "_Repeat 2\n", "_cutStart 1\n", "_cutStart 1-0\n", "_cutEnd -1\n",
    "_cutEnd -2\n", "_cutEnd 1-1\n", "_before A\n", "_before %\n", "_before A:B\n", "_before $1\n", "_after A B\n", "_after [A]2\n", "_1\n",
    "Go _2\n", "Go _1\n", "Go\n", "***x*** _3\n", "V\n", "!x\n", "\n", " \t\n", "$3\nA\n\n", "\nV\nA\n\n", "\n$1\n\n",
};

static void change_lines(struct numbers *numbers, struct chart *chart)
{
    unsigned char line[512];
    size_t start, other;
    size_t length = line_around(chart, below(numbers, chart->length + 1), &start);
    size_t kept = length < sizeof line ? length : sizeof line;
    memcpy(line, chart->bytes + start, kept);
    switch (below(numbers, 6)) {
    case 0:
        replace(chart, start, length, NULL, 0);
        break;
    case 1:
        replace(chart, start, 0, line, kept);
        break;
    case 2:
        replace_by_text(chart, start, length, PICK(numbers, odd_lines));
        break;
    case 3:
        replace(chart, start, length, NULL, 0);
        line_around(chart, below(numbers, chart->length + 1), &other);
        replace(chart, other, 0, line, kept);
        break;
    default:
        replace_by_text(chart, start, 0, PICK(numbers, odd_lines));
    }
}

/* A piece of another chart at a random place, or the end cut off. */
static void splice(struct numbers *numbers, const struct corpus *corpus, struct chart *chart)
{
    size_t at = below(numbers, chart->length + 1);
    if (below(numbers, 3) == 0) {
        chart->length = at;
        return;
    }
    const struct chart *other = &corpus->charts[below(numbers, corpus->count)];
    size_t from = below(numbers, other->length + 1);
    size_t length = below(numbers, other->length - from + 1);
    line_around(chart, at, &at);
    replace(chart, at, 0, other->bytes + from, length < 400 ? length : 400);
}

/* Line ends written in another way. */
static void change_ends(struct numbers *numbers, struct chart *chart)
{
    int wide = below(numbers, 2) == 0 && chart->length < 2000;
    for (size_t at = 0; at < chart->length; at++) {
        if (chart->bytes[at] != '\n' || (at > 0 && chart->bytes[at - 1] == '\r'))
            continue;
        if (wide)
            replace_by_text(chart, at++, 0, "\r");
        else
            chart->bytes[at] = '\r';
    }
}

static void mutate(struct numbers *numbers, const struct corpus *corpus, struct chart *chart)
{
    switch (below(numbers, 9)) {
    case 0:
    case 1:
    case 2:
        change_bytes(numbers, chart);
        break;
    case 3:
    case 4:
        change_number(numbers, chart);
        break;
    case 5:
        splice(numbers, corpus, chart);
        break;
    default:
        change_lines(numbers, chart);
    }
}

static void write_bytes(struct numbers *numbers, struct chart *chart)
{
    static const char signs[] = "A B;:[]2%_=$1@-\n\n\t#bm!*";
    size_t length = below(numbers, 120);
    int any = below(numbers, 4) == 0;
    for (size_t at = 0; at < length; at++)
        chart->bytes[at] = (unsigned char)(any ? below(numbers, 256) : (size_t)signs[below(numbers, sizeof signs - 1)]);
    chart->length = length;
}

/* Blanks, line ends or a lyric line's letters up to the edge of the text's length. */
static void stretch(struct numbers *numbers, struct chart *chart)
{
    size_t wanted = 65534 + below(numbers, 5);
    int byte = " \nx"[below(numbers, 3)];
    if (chart->length < wanted)
        memset(chart->bytes + chart->length, byte, wanted - chart->length);
    chart->length = wanted;
}

void make_chart(struct numbers *numbers, const struct corpus *corpus, struct chart *chart)
{
    size_t kind = below(numbers, 20);
    chart->length = 0;
    if (kind == 0) {
        write_bytes(numbers, chart);
    } else if (kind < 11) {
        write_song(numbers, chart);
    } else {
        const struct chart *from = &corpus->charts[below(numbers, corpus->count)];
        if (from->length > 4000 && below(numbers, 10) != 0)
            from = &corpus->charts[below(numbers, corpus->count)];
        put(chart, from->bytes, from->length);
    }
    size_t mutations = below(numbers, 5);
    for (size_t done = kind > 10 ? 0 : 2; done < mutations; done++)
        mutate(numbers, corpus, chart);
    if (below(numbers, 12) == 0)
        change_ends(numbers, chart);
    if (below(numbers, 1000) == 0)
        stretch(numbers, chart);
}
