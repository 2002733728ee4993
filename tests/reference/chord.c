/* The base chords, and the reading of one chord. */
#include <string.h>
#include "song.h"

enum { EXTENSION_LIMIT = 31 }; /* bytes */

/* Seven rows by letter, numbered from 0 as they stand. */
static const char *const base_chords[BASE_CHORDS] = {
    "A", "A#", "Ab", "Am", "A#m", "Abm",
    "B", "Bb", "Bm", "Bbm",
    "C", "C#", "Cm", "C#m",
    "D", "Db", "D#", "Dm", "Dbm", "D#m",
    "E", "Eb", "Em", "Ebm",
    "F", "F#", "Fm", "F#m",
    "G", "Gb", "G#", "Gm", "Gbm", "G#m",
};

const char *base_name(unsigned base)
{
    return base < BASE_CHORDS ? base_chords[base] : "?";
}

/* Request 2: "A base ending in `m` isn't taken where `aj` follows the `m`". */
static bool is_before_aj(const char *base, const unsigned char *behind, size_t left)
{
    return base[strlen(base) - 1] == 'm' && left >= 2 && behind[0] == 'a' && behind[1] == 'j';
}

/* Request 4: a byte that no extension holds. */
static bool is_slip(unsigned char byte)
{
    return byte == '%' || byte == '_' || byte == '=' || byte == '$';
}

bool has_slip(const unsigned char *text, struct span word)
{
    for (size_t at = word.start; at < word.end; at++)
        if (is_slip(text[at]))
            return true;
    return false;
}

/* The length of a base where it stands at the front of so many bytes, else 0. */
static size_t length_in_front(const char *base, const unsigned char *bytes, size_t left)
{
    size_t length = 0;
    while (base[length] != '\0') {
        if (length == left || bytes[length] != (unsigned char)base[length])
            return 0;
        length++;
    }
    return length;
}

/* The longest base that fits at the word's front and may be taken there, and the rest as its extension. */
bool read_chord(const unsigned char *text, struct span word, struct chord *chord)
{
    size_t word_length = word.end - word.start;
    size_t longest = 0;
    for (unsigned base = 0; base < BASE_CHORDS; base++) {
        size_t length = length_in_front(base_chords[base], text + word.start, word_length);
        if (length > longest && !is_before_aj(base_chords[base], text + word.start + length, word_length - length)) {
            longest = length;
            chord->base = base;
        }
    }
    if (longest == 0)
        return false;
    chord->extension_length = word_length - longest;
    chord->extension = chord->extension_length > 0 ? word.start + longest : 0;
    return chord->extension_length <= EXTENSION_LIMIT && !has_slip(text, (struct span){word.start + longest, word.end});
}
