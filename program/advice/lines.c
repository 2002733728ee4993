/* Stretches, lines, blocks and words of a text. */
#include "text.h"

enum { LARGEST_VALUE = 99999 };

size_t end_of(struct stretch stretch)
{
    return stretch.start + stretch.length;
}

size_t characters_in(struct text text, struct stretch stretch)
{
    size_t count = 0;
    for (size_t at = stretch.start; at < end_of(stretch); count++)
        at += character_at(text.bytes, text.length, at).bytes;
    return count;
}

bool is_blank(unsigned char byte)
{
    return byte == ' ' || byte == '\t';
}

bool is_digit(unsigned char byte)
{
    return byte >= '0' && byte <= '9';
}

unsigned char small(unsigned char byte)
{
    return byte >= 'A' && byte <= 'Z' ? (unsigned char)(byte - 'A' + 'a') : byte;
}

bool is_letter(unsigned char byte)
{
    return small(byte) >= 'a' && small(byte) <= 'z';
}

struct stretch trimmed(struct text text, struct stretch stretch)
{
    while (stretch.length > 0 && is_blank(text.bytes[stretch.start])) {
        stretch.start++;
        stretch.length--;
    }
    while (stretch.length > 0 && is_blank(text.bytes[end_of(stretch) - 1]))
        stretch.length--;
    return stretch;
}

size_t word_length(const char *word)
{
    size_t length = 0;
    while (word[length] != '\0')
        length++;
    return length;
}

bool begins_with(struct text text, struct stretch stretch, const char *word)
{
    size_t length = word_length(word);
    for (size_t place = 0; place < length; place++)
        if (place >= stretch.length || text.bytes[stretch.start + place] != (unsigned char)word[place])
            return false;
    return true;
}

bool is_word(struct text text, struct stretch stretch, const char *word)
{
    return stretch.length == word_length(word) && begins_with(text, stretch, word);
}

bool is_word_loosely(struct text text, struct stretch stretch, const char *word)
{
    if (stretch.length != word_length(word))
        return false;
    for (size_t place = 0; place < stretch.length; place++)
        if (small(text.bytes[stretch.start + place]) != small((unsigned char)word[place]))
            return false;
    return true;
}

static bool is_line_end(unsigned char byte)
{
    return byte == '\r' || byte == '\n';
}

size_t line_start(struct text text, size_t at)
{
    while (at > 0 && !is_line_end(text.bytes[at - 1]))
        at--;
    return at;
}

size_t line_end(struct text text, size_t at)
{
    while (at < text.length && !is_line_end(text.bytes[at]))
        at++;
    return at;
}

struct stretch next_line(struct text text, size_t *at)
{
    struct stretch line = {*at, 0};
    while (*at < text.length && !is_line_end(text.bytes[*at]))
        (*at)++;
    line.length = *at - line.start;
    if (*at < text.length)
        *at += text.bytes[*at] == '\r' && *at + 1 < text.length && text.bytes[*at + 1] == '\n' ? 2 : 1;
    return trimmed(text, line);
}

/* Where a line begins; the text's end for a line behind the last. */
static size_t start_of(struct text text, size_t number)
{
    size_t at = 0;
    for (size_t line = 1; line < number && at < text.length; line++)
        next_line(text, &at);
    return at;
}

struct stretch line_at(struct text text, size_t number)
{
    size_t at = start_of(text, number);
    return next_line(text, &at);
}

size_t block_first(struct text text, size_t line)
{
    size_t first = 1;
    size_t at = 0;
    for (size_t number = 1; number < line && at < text.length; number++)
        if (next_line(text, &at).length == 0)
            first = number + 1;
    return first;
}

size_t block_last(struct text text, size_t line)
{
    size_t at = start_of(text, line + 1);
    while (at < text.length && next_line(text, &at).length > 0)
        line++;
    return line;
}

size_t next_written(struct text text, size_t line)
{
    size_t at = start_of(text, line + 1);
    while (at < text.length) {
        line++;
        if (next_line(text, &at).length > 0)
            return line;
    }
    return 0;
}

size_t written_before(struct text text, size_t line)
{
    size_t found = 0;
    size_t at = 0;
    for (size_t number = 1; number < line && at < text.length; number++)
        if (next_line(text, &at).length > 0)
            found = number;
    return found;
}

struct stretch name_in_header(struct text text, struct stretch header)
{
    size_t length = 0;
    while (length < header.length && text.bytes[header.start + length] != '!')
        length++;
    return trimmed(text, (struct stretch){header.start, length});
}

static bool parts_words(unsigned char byte)
{
    return is_blank(byte) || is_line_end(byte) || byte == ';' || byte == ':' || byte == '[' || byte == ']';
}

struct stretch next_word(struct text text, struct stretch among, size_t at)
{
    size_t end = end_of(among);
    while (at < end && parts_words(text.bytes[at]))
        at++;
    struct stretch word = {at, 0};
    while (at < end && !parts_words(text.bytes[at]))
        at++;
    word.length = at - word.start;
    return word;
}

struct stretch next_number(struct text text, struct stretch among, size_t at)
{
    size_t end = end_of(among);
    while (at < end && !is_digit(text.bytes[at]))
        at++;
    struct stretch digits = {at, 0};
    while (at < end && is_digit(text.bytes[at]))
        at++;
    digits.length = at - digits.start;
    return digits;
}

size_t value_of(struct text text, struct stretch digits)
{
    size_t value = 0;
    for (size_t at = digits.start; at < end_of(digits) && value < LARGEST_VALUE; at++)
        value = value * 10 + (size_t)(text.bytes[at] - '0');
    return value < LARGEST_VALUE ? value : LARGEST_VALUE;
}
