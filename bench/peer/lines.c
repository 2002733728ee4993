/* Stage 1, and the lines, words and numbers of a text. */
#include <string.h>
#include "chart.h"

enum { CHUNK = 8 };

static const uint64_t ONES = 0x0101010101010101u;
static const uint64_t TOPS = 0x8080808080808080u;
static const uint64_t NOT_CONTROL = 0xF0F0F0F0F0F0F0F0u;

static uint64_t chunk_at(const unsigned char *at)
{
    uint64_t chunk;
    memcpy(&chunk, at, sizeof chunk);
    return chunk;
}

static bool follows(unsigned char byte, unsigned low, unsigned high)
{
    return byte >= low && byte <= high;
}

/* Bytes of the whole character at this place by RFC 3629; 0 if there is none, or a zero byte. */
static size_t character(const unsigned char *at, size_t left)
{
    unsigned first = at[0];
    if (first < 0x80)
        return first > 0;
    if (first >= 0xC2 && first <= 0xDF)
        return left > 1 && follows(at[1], 0x80, 0xBF) ? 2 : 0;
    if (first >= 0xE0 && first <= 0xEF)
        return left > 2 && follows(at[1], first == 0xE0 ? 0xA0 : 0x80, first == 0xED ? 0x9F : 0xBF) && follows(at[2], 0x80, 0xBF) ? 3 : 0;
    if (first >= 0xF0 && first <= 0xF4)
        return left > 3 && follows(at[1], first == 0xF0 ? 0x90 : 0x80, first == 0xF4 ? 0x8F : 0xBF) && follows(at[2], 0x80, 0xBF) &&
                       follows(at[3], 0x80, 0xBF) ? 4 : 0;
    return 0;
}

/* The line of the first place without a whole character, or 0. */
size_t peer_bad_text_line(const unsigned char *text, const unsigned char *end)
{
    const unsigned char *at = text;
    while (at < end) {
        if (end - at >= CHUNK && ((chunk_at(at) | (chunk_at(at) - ONES)) & TOPS) == 0) {
            at += CHUNK;
            continue;
        }
        size_t bytes = character(at, (size_t)(end - at));
        if (bytes == 0) {
            size_t line = 1;
            for (const unsigned char *before = text; before < at; before++)
                line += *before == '\r' || (*before == '\n' && (before == text || before[-1] != '\r'));
            return line;
        }
        at += bytes;
    }
    return 0;
}

static bool is_blank(unsigned char byte)
{
    return byte == ' ' || byte == '\t';
}

static const unsigned char *line_end(const unsigned char *at, const unsigned char *end)
{
    for (;;) {
        while (end - at >= CHUNK) {
            uint64_t chunk = chunk_at(at) & NOT_CONTROL;
            if ((chunk - ONES) & ~chunk & TOPS)
                break;
            at += CHUNK;
        }
        for (int i = 0; i < CHUNK; i++, at++)
            if (at == end || *at == '\n' || *at == '\r')
                return at;
    }
}

/* Reads the next line; false where there is none. The line is blank then, too. */
bool peer_next_line(struct chart *chart)
{
    const unsigned char *at = chart->next, *stop = line_end(at, chart->end);
    bool is_line = at < chart->end;
    chart->next = stop;
    if (stop < chart->end) {
        chart->next++;
        if (*stop == '\r' && chart->next < chart->end && *chart->next == '\n')
            chart->next++;
    }
    while (at < stop && is_blank(*at))
        at++;
    while (at < stop && is_blank(stop[-1]))
        stop--;
    chart->at = at;
    chart->stop = stop;
    chart->line++;
    return is_line;
}

bool peer_next_line_of_block(struct chart *chart)
{
    return peer_next_line(chart) && chart->at < chart->stop;
}

void peer_fault(struct chart *chart, unsigned stage, uint32_t line, unsigned number)
{
    uint64_t found = (uint64_t)line << ABOVE | number;
    if (found < chart->faults[stage])
        chart->faults[stage] = found;
}

/* Reads the digits at this place: a number up to 9,999 without leading zero, or NO_NUMBER. */
const unsigned char *peer_read_number(const unsigned char *at, const unsigned char *stop, unsigned *number)
{
    const unsigned char *first = at;
    unsigned value = 0;
    for (; at < stop && *at >= '0' && *at <= '9'; at++)
        value = value > MOST_NUMBER ? value : value * 10 + (unsigned)(*at - '0');
    bool leading = at - first > 1 && *first == '0';
    *number = at == first || leading || value > MOST_NUMBER ? NO_NUMBER : value;
    return at;
}

unsigned peer_whole_number(const unsigned char *at, const unsigned char *stop)
{
    unsigned number;
    return peer_read_number(at, stop, &number) == stop ? number : NO_NUMBER;
}

size_t peer_characters(const unsigned char *at, const unsigned char *stop)
{
    size_t count = 0;
    for (; at < stop; at++)
        count += (*at & 0xC0) != 0x80;
    return count;
}

const unsigned char *peer_word_end(const unsigned char *at, const unsigned char *stop)
{
    while (at < stop && !is_blank(*at))
        at++;
    return at;
}

const unsigned char *peer_past_blanks(const unsigned char *at, const unsigned char *stop)
{
    while (at < stop && is_blank(*at))
        at++;
    return at;
}
