/* Chords and lyrics as musicians write them. */
#include "chords.h"

/* What may stand in an extension, longer ones before their beginnings. Accidentals are U+266F and U+266D too, but not behind the letter. */
static const char *const parts[] = {
    "maj", "Maj", "MAJ", "ma", "Ma", "min", "Min", "mi", "m", "M", "dim", "aug", "sus", "add", "omit", "no", "alt.", "alt", "dom", "o",
    "\xC2\xB0", "\xC2\xBA", "\xC3\xB8", "\xC3\x98", "\xCE\x94", "\xE2\x96\xB3", "\xE2\x88\x86", "\xE2\x99\xAF", "\xE2\x99\xAD",
    "^", "+", "-", "#", "b", "*", "'", "!", "?", "0", "1", "2", "3", "4", "5", "6", "7", "8", "9",
};

static struct stretch rest_from(struct stretch word, size_t at)
{
    return (struct stretch){at, end_of(word) - at};
}

static size_t part_at(struct text text, struct stretch rest)
{
    for (size_t place = 0; place < sizeof parts / sizeof parts[0]; place++)
        if (begins_with(text, rest, parts[place]))
            return word_length(parts[place]);
    return 0;
}

static bool is_note_letter(unsigned char byte)
{
    return byte >= 'A' && byte <= 'G';
}

/* What follows a `/`: digits, as in `6/9`, or a bass note as the last thing; bytes of it, 0 where it is neither. */
static size_t bass_at(struct text text, struct stretch rest)
{
    size_t length = 1;
    if (rest.length == 0)
        return 0;
    if (is_digit(text.bytes[rest.start]))
        return 1;
    if (!is_note_letter(text.bytes[rest.start]))
        return begins_with(text, rest, "maj") ? 3 : 0;
    if (rest.length > 1 && (text.bytes[rest.start + 1] == '#' || text.bytes[rest.start + 1] == 'b'))
        length = 2;
    else if (begins_with(text, rest_from(rest, rest.start + 1), "\xE2\x99\xAF") || begins_with(text, rest_from(rest, rest.start + 1), "\xE2\x99\xAD"))
        length = 4;
    return rest.length == length || text.bytes[rest.start + length] == ')' ? length : 0;
}

/* Bytes up to the bracket's end; words of letters may stand in it, as in `(no3)`. */
static size_t bracket_at(struct text text, struct stretch rest)
{
    for (size_t length = 1; length < rest.length; length++)
        if (text.bytes[rest.start + length] == ')')
            return length + 1;
    return 0;
}

bool is_extension(struct text text, struct stretch word)
{
    size_t at = word.start;
    while (at < end_of(word)) {
        struct stretch rest = rest_from(word, at);
        size_t length = part_at(text, rest);
        if (text.bytes[at] == '/') {
            length = bass_at(text, rest_from(word, at + 1));
            length += length > 0;
        } else if (text.bytes[at] == '(') {
            length = bracket_at(text, rest);
        }
        if (length == 0)
            return false;
        at += length;
    }
    return true;
}

bool is_usual_chord(struct text text, struct stretch word, bool small_letter)
{
    if (word.length == 0)
        return false;
    unsigned char letter = text.bytes[word.start];
    if (!is_note_letter(letter) && !(small_letter && letter >= 'a' && letter <= 'g'))
        return false;
    struct stretch rest = rest_from(word, word.start + 1);
    return !begins_with(text, rest, "\xE2\x99\xAF") && !begins_with(text, rest, "\xE2\x99\xAD") && is_extension(text, rest);
}

bool is_usual_word(struct text text, struct stretch word)
{
    if (word.length == 0)
        return false;
    if (is_word(text, word, "%") || is_word(text, word, "_") || is_word(text, word, "="))
        return true;
    return text.bytes[word.start] == '$' || is_usual_chord(text, word, false);
}

static bool is_letter_of_words(uint32_t code)
{
    return (code < 0x80 && is_letter((unsigned char)code)) || (code >= 0xC0 && code < 0x2000) || (code >= 0x3040 && code < 0xE000);
}

static bool is_mark_of_words(uint32_t code)
{
    return code == '\'' || code == ',' || code == '.' || code == '!' || code == '?' || code == '"' || code == '-' || (code >= 0x2010 && code <= 0x2027);
}

/* A word of a language: two letters or more, capitals at its beginning alone, and no signs but those of sentences. */
static bool is_plain_word(struct text text, struct stretch word)
{
    size_t letters = 0;
    for (size_t at = word.start; at < end_of(word);) {
        struct character character = character_at(text.bytes, text.length, at);
        bool capital = character.code >= 'A' && character.code <= 'Z';
        if ((capital && letters > 0) || (!is_letter_of_words(character.code) && !is_mark_of_words(character.code)))
            return false;
        letters += is_letter_of_words(character.code);
        at += character.bytes;
    }
    return letters > 1;
}

/* So many words tell what a line is. */
enum { MOST_WEIGHED = 100 };

/* Of a line's first words, how many are chords or signs, and how many are words of a language. */
static void weigh(struct text text, struct stretch line, size_t *chords, size_t *others)
{
    *chords = 0;
    *others = 0;
    struct stretch word = next_word(text, line, line.start);
    for (size_t count = 0; word.length > 0 && count < MOST_WEIGHED; count++, word = next_word(text, line, end_of(word))) {
        if (is_usual_word(text, word) || is_usual_chord(text, word, true))
            (*chords)++;
        else if (is_plain_word(text, word))
            (*others)++;
    }
}

bool looks_like_chords(struct text text, struct stretch line)
{
    size_t chords;
    size_t others;
    weigh(text, line, &chords, &others);
    return chords > others;
}

bool looks_like_lyrics(struct text text, struct stretch line)
{
    size_t chords;
    size_t others;
    weigh(text, line, &chords, &others);
    if (count_at_end(text, line).length > 0)
        return others + 1 > chords;
    for (size_t at = line.start; at < end_of(line); at++)
        if (text.bytes[at] == ';')
            return false;
    return others > chords && line.length > 2;
}

bool looks_like_header(struct text text, struct stretch line)
{
    static const char *const names[] = {
        "verse", "chorus", "intro", "outro", "bridge", "solo", "refrain", "interlude", "coda", "ending", "pre-chorus", "prechorus", "tag",
        "instrumental", "hook", "vamp", "strophe", "middle",
    };
    struct stretch word = next_word(text, line, line.start);
    while (word.length > 0 && !is_letter(text.bytes[end_of(word) - 1]))
        word.length--;
    for (size_t place = 0; place < sizeof names / sizeof names[0]; place++)
        if (is_word_loosely(text, word, names[place]))
            return true;
    return false;
}

struct stretch count_at_end(struct text text, struct stretch line)
{
    size_t start = end_of(line);
    while (start > line.start && is_digit(text.bytes[start - 1]))
        start--;
    struct stretch digits = {start, end_of(line) - start};
    bool counted = start >= line.start + 3 && text.bytes[start - 1] == '_' && is_blank(text.bytes[start - 2]);
    return counted && digits.length > 0 && digits.length < 5 && text.bytes[start] != '0' ? digits : (struct stretch){end_of(line), 0};
}

char letter_looked_like(uint32_t code)
{
    static const struct {
        uint32_t code;
        char letter;
    } alike[] = {
        {0x410, 'A'}, {0x412, 'B'}, {0x421, 'C'}, {0x415, 'E'}, {0x430, 'A'}, {0x441, 'C'}, {0x435, 'E'}, {0x391, 'A'}, {0x392, 'B'},
        {0x395, 'E'}, {0x3F9, 'C'}, {0x50C, 'G'}, {0x13AA, 'A'}, {0x13F4, 'B'}, {0x216D, 'C'}, {0x216E, 'D'},
    };
    if (code >= 0xFF21 && code <= 0xFF27)
        return (char)('A' + (code - 0xFF21));
    for (size_t place = 0; place < sizeof alike / sizeof alike[0]; place++)
        if (alike[place].code == code)
            return alike[place].letter;
    return 0;
}

bool is_dash(uint32_t code)
{
    return code == '-' || (code >= 0x2010 && code <= 0x2015) || code == 0x2212 || code == 0xFE58 || code == 0xFE63 || code == 0xFF0D;
}

bool is_dashes(struct text text, struct stretch word)
{
    for (size_t at = word.start; at < end_of(word);) {
        struct character character = character_at(text.bytes, text.length, at);
        if (!is_dash(character.code))
            return false;
        at += character.bytes;
    }
    return word.length > 0;
}
