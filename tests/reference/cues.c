/* Request 8: when each measure starts, in microseconds, from the tables alone. */
#include "song.h"
#include "words.h"

enum { MOST_BPM = 400 };
#define MINUTE UINT64_C(60000000) /* microseconds */

#define FIELD(word, name) ((size_t)((word) >> name##_LOWEST & ((UINT64_C(1) << name##_BITS) - 1)))

/* "sections don't cover the measures in order without gap" */
static bool sections_cover(const struct reader_song *song)
{
    size_t covered = 0;
    for (size_t place = 0; place < song->sections_length; place++) {
        if (FIELD(song->sections[place], SECTION_FIRST) != covered)
            return false;
        covered += FIELD(song->sections[place], SECTION_MEASURES);
    }
    return covered == song->measures_length;
}

/* "a measure of 0 or more than 32 beats, or one not starting where the last ended, the first at 0" */
static bool measures_join(const struct reader_song *song)
{
    size_t end = 0;
    for (size_t place = 0; place < song->measures_length; place++) {
        size_t beats = FIELD(song->measures[place], MEASURE_BEATS);
        if (beats == 0 || beats > READER_TIME_LIMIT || FIELD(song->measures[place], MEASURE_FIRST) != end)
            return false;
        end += beats;
    }
    return true;
}

/* "a section with measures whose bpm is 0 or above 400" */
static bool has_tempo(uint64_t section)
{
    size_t bpm = FIELD(section, SECTION_BPM);
    return FIELD(section, SECTION_MEASURES) == 0 || (bpm >= 1 && bpm <= MOST_BPM);
}

unsigned reader_cues(const struct reader_song *song, uint64_t *cues, size_t cues_length, uint64_t *end)
{
    *end = 0;
    if (!sections_cover(song) || !measures_join(song))
        return REFUSED_TABLES_APART;
    for (size_t place = 0; place < song->sections_length; place++)
        if (!has_tempo(song->sections[place]))
            return REFUSED_TEMPO;
    if (cues_length < song->measures_length)
        return REFUSED_TABLE_TOO_SHORT;
    size_t measure = 0;
    for (size_t place = 0; place < song->sections_length; place++) {
        uint64_t section = song->sections[place];
        for (size_t last = measure + FIELD(section, SECTION_MEASURES); measure < last; measure++) {
            cues[measure] = *end;
            *end += MINUTE / FIELD(section, SECTION_BPM) * FIELD(song->measures[measure], MEASURE_BEATS);
        }
    }
    return READER_ACCEPTED;
}
