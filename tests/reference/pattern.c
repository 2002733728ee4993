/* Pattern text: its tokens, and the check of its grammar. */
#include <string.h>
#include "song.h"

/* The signs that make up measures. */
bool is_position(enum token_kind kind)
{
    return kind == TOKEN_CHORD || kind == TOKEN_REPEAT || kind == TOKEN_SILENCE || kind == TOKEN_REMOVER;
}

bool ends_word(unsigned char byte)
{
    return is_blank(byte) || is_line_end(byte) || byte == ';' || byte == ':' || byte == '[' || byte == ']';
}

struct span word_from(const unsigned char *text, struct span whole, size_t position)
{
    struct span word = {position, position};
    while (word.end < whole.end && !ends_word(text[word.end]))
        word.end++;
    return word;
}

/* Steps over blanks and line ends; true if there was a line end. Within a block two line ends never follow each other
   with blanks alone between, so what is stepped over holds at most one. */
bool skip_blanks(const unsigned char *text, struct span whole, size_t *position)
{
    bool line_end = false;
    while (*position < whole.end && (is_blank(text[*position]) || is_line_end(text[*position]))) {
        line_end = line_end || is_line_end(text[*position]);
        ++*position;
    }
    return line_end;
}

/* `$n` and nothing more. */
bool read_reference(const unsigned char *text, struct span word, unsigned *number)
{
    struct span digits = {word.start + 1, word.end};
    return word.start < word.end && text[word.start] == '$' && read_number(text, digits, 1, COUNT_LIMIT, number);
}

/* The token that is one word: a reference, a chord or one of the three signs. */
struct token word_token(const unsigned char *text, struct span word)
{
    struct token token = {.kind = TOKEN_BAD};
    if (read_reference(text, word, &token.number))
        token.kind = TOKEN_REFERENCE;
    else if (span_is(text, word, "%"))
        token.kind = TOKEN_REPEAT;
    else if (span_is(text, word, "_"))
        token.kind = TOKEN_SILENCE;
    else if (span_is(text, word, "="))
        token.kind = TOKEN_REMOVER;
    else if (read_chord(text, word, &token.chord))
        token.kind = TOKEN_CHORD;
    return token;
}

/* The token at or after the position, which moves past it. Line ends beside a `:` belong to it. */
struct token next_token(const unsigned char *text, struct span whole, size_t *position)
{
    struct token token = {.kind = TOKEN_SEPARATOR};
    bool line_end = skip_blanks(text, whole, position);
    unsigned char byte = *position < whole.end ? text[*position] : 0;
    if (byte == ':') {
        ++*position;
        skip_blanks(text, whole, position);
    } else if (line_end) {
        return token;
    } else if (*position >= whole.end) {
        token.kind = TOKEN_END;
    } else if (byte == ';') {
        ++*position;
    } else if (byte == '[') {
        token.kind = TOKEN_OPEN;
        ++*position;
    } else if (byte == ']') {
        struct span count = word_from(text, whole, *position + 1);
        bool good = read_number(text, count, SMALLEST_REPEAT, COUNT_LIMIT, &token.number);
        token.kind = good ? TOKEN_CLOSE : TOKEN_BAD;
        *position = count.end;
    } else {
        struct span word = word_from(text, whole, *position);
        token = word_token(text, word);
        *position = word.end;
    }
    return token;
}

/* Where the check stands in the text. */
struct grammar {
    bool item_wanted;  /* at the start, after a separator, after `[` */
    bool in_measure;
    bool in_loop;
    bool remover_seen; /* in this measure */
    bool references_allowed;
};

/* Positions: a remover only after some other position of its measure, no other position after a remover. */
static bool position_fits(struct grammar *grammar, enum token_kind kind)
{
    if (kind == TOKEN_REMOVER) {
        grammar->remover_seen = true;
        return grammar->in_measure;
    }
    if (grammar->in_measure)
        return !grammar->remover_seen;
    if (!grammar->item_wanted)
        return false;
    grammar->item_wanted = false;
    grammar->in_measure = true;
    grammar->remover_seen = false;
    return true;
}

static bool token_fits(struct grammar *grammar, enum token_kind kind)
{
    bool fits = false;
    switch (kind) {
    case TOKEN_SEPARATOR:
        fits = !grammar->item_wanted;
        grammar->item_wanted = true;
        grammar->in_measure = false;
        return fits;
    case TOKEN_OPEN:
        fits = grammar->item_wanted && !grammar->in_loop;
        grammar->in_loop = true;
        return fits;
    case TOKEN_CLOSE:
        fits = !grammar->item_wanted && grammar->in_loop;
        grammar->in_loop = false;
        grammar->in_measure = false;
        return fits;
    case TOKEN_REFERENCE:
        fits = grammar->item_wanted && grammar->references_allowed;
        grammar->item_wanted = false;
        return fits;
    case TOKEN_BAD:
    case TOKEN_END:
        return false;
    default:
        return position_fits(grammar, kind);
    }
}

bool has_byte(const unsigned char *text, struct span span, unsigned char byte)
{
    return memchr(text + span.start, byte, span.end - span.start) != NULL;
}

/* True if the text keeps the rules. A lead-in or tail holds no `:` and no `$` at all, not even in an extension;
   a section's pattern holds a reference only as its whole text. */
bool pattern_is_good(const unsigned char *text, struct span span, enum text_kind kind)
{
    struct grammar grammar = {.item_wanted = true, .references_allowed = kind == DEFINITION_TEXT};
    unsigned number;
    if (span.start >= span.end)
        return false;
    if (kind == JOINED_TEXT && (has_byte(text, span, ':') || has_byte(text, span, '$')))
        return false;
    if (kind == SECTION_TEXT && read_reference(text, span, &number))
        return true;
    size_t position = span.start;
    for (;;) {
        struct token token = next_token(text, span, &position);
        if (token.kind == TOKEN_END)
            return !grammar.item_wanted && !grammar.in_loop;
        if (!token_fits(&grammar, token.kind))
            return false;
    }
}
