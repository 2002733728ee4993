/* Request 3: a beat table moved by semitones, for horns. */
#include <string.h>
#include "song.h"
#include "words.h"

enum { LEAST_MOVE = -11, MOST_MOVE = 20, SEMITONES = 12, SPARE_BITS = (1 << BEAT_HEAD_LOWEST) - 1, NAME_ROOM = 4 };

/* The sharp names, by semitones from C. */
static const char *const sharp_names[SEMITONES] = {"C", "C#", "D", "D#", "E", "F", "F#", "G", "G#", "A", "A#", "B"};

static unsigned base_of(uint32_t word)
{
    return word >> BEAT_BASE_LOWEST;
}

/* Semitones from C of a name's letter and its sharp or flat. */
static int pitch_of(const char *name)
{
    int pitch = 0;
    while (sharp_names[pitch][0] != name[0] || sharp_names[pitch][1] != '\0')
        pitch++;
    return pitch + (name[1] == '#') - (name[1] == 'b');
}

static unsigned base_named(const char *name)
{
    unsigned base = 0;
    while (strcmp(base_name(base), name) != 0)
        base++;
    return base;
}

/* The base by its sharp name, major or minor as before. */
static unsigned moved_base(unsigned base, int move)
{
    const char *name = base_name(base);
    bool minor = name[strlen(name) - 1] == 'm';
    char moved[NAME_ROOM];
    strcpy(moved, sharp_names[(pitch_of(name) + move + 2 * SEMITONES) % SEMITONES]);
    if (minor)
        strcat(moved, "m");
    return base_named(moved);
}

static bool is_beat(uint32_t word)
{
    return (base_of(word) == SILENCE || base_of(word) < BASE_CHORDS) && (word & SPARE_BITS) == 0;
}

unsigned reader_concert(const uint32_t *beats, size_t length, int32_t move, uint32_t *second, size_t second_length)
{
    if (move < LEAST_MOVE || move > MOST_MOVE)
        return REFUSED_MOVE;
    for (size_t place = 0; place < length; place++)
        if (!is_beat(beats[place]))
            return REFUSED_BEAT_WORD;
    if (second_length < length)
        return REFUSED_TABLE_TOO_SHORT;
    for (size_t place = 0; place < length; place++) {
        uint32_t word = beats[place];
        unsigned base = base_of(word);
        uint32_t rest = word - ((uint32_t)base << BEAT_BASE_LOWEST);
        second[place] = base == SILENCE ? word : (uint32_t)moved_base(base, move) << BEAT_BASE_LOWEST | rest;
    }
    return READER_ACCEPTED;
}
