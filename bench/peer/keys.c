/* Lines that start with `@`: the song's keys and a section's. */
#include <string.h>
#include "chart.h"

enum key { NAME, ARTIST, ORIGINAL, CAPO, BPM, TIME, WARNING, END, UNKNOWN };
enum { MOST_CHARACTERS = 100, MOST_CAPO = 20, MOST_BPM = 400, PRESENT_AT = 31, SETTING_AT = 15, SETTING_LENGTH_AT = 6 };
enum { BAD_KEY = 4, BAD_SETTING = 5 };

static const struct {
    const char *name;
    size_t length;
} key_names[] = {{"name", 4}, {"artist", 6}, {"original", 8}, {"capo", 4}, {"bpm", 3}, {"time", 4}, {"warning", 7}, {"end", 3}};

static enum key key_named(const unsigned char *at, const unsigned char *stop)
{
    for (unsigned key = 0; key < KEYS; key++)
        if ((size_t)(stop - at) == key_names[key].length && memcmp(at, key_names[key].name, key_names[key].length) == 0)
            return (enum key)key;
    return UNKNOWN;
}

static bool is_time(const unsigned char *at, const unsigned char *stop, unsigned *time)
{
    at = peer_read_number(at, stop, time);
    return *time >= 1 && *time <= MOST_TIME && stop - at == 2 && at[0] == '/' && at[1] == '4';
}

/* Whether the setting is right for its key, and the number that it names if it does. */
static bool setting_fits(enum key key, const unsigned char *at, const unsigned char *stop, unsigned *number)
{
    size_t count;
    switch (key) {
    case ORIGINAL:
        return at < stop && *at >= 'A' && *at <= 'G' && peer_read_base(at, stop, number) == stop;
    case CAPO:
        *number = peer_whole_number(at, stop);
        return *number >= 1 && *number <= MOST_CAPO;
    case BPM:
        *number = peer_whole_number(at, stop);
        return *number <= MOST_BPM;
    case TIME:
        return is_time(at, stop, number);
    default:
        count = peer_characters(at, stop);
        return count >= 1 && count <= MOST_CHARACTERS;
    }
}

/* The line is one of a metadata block. */
void peer_read_song_key(struct chart *chart)
{
    const unsigned char *name_end = peer_word_end(chart->at + 1, chart->stop), *setting = peer_past_blanks(name_end, chart->stop);
    enum key key = key_named(chart->at + 1, name_end);
    unsigned number = 0;
    if (key == UNKNOWN || chart->keys[key] != 0) {
        peer_fault(chart, STAGE_TEXT, chart->line, BAD_KEY);
        return;
    }
    if (!setting_fits(key, setting, chart->stop, &number))
        peer_fault(chart, STAGE_TEXT, chart->line, BAD_SETTING);
    if (key == TIME)
        chart->time = number;
    if (key == BPM)
        chart->bpm = number;
    chart->keys[key] = 1u << PRESENT_AT | (uint32_t)(setting - chart->text) << SETTING_AT |
                       (uint32_t)(chart->stop - setting) << SETTING_LENGTH_AT;
}

/* The line is one of a section; a time and a bpm not given yet are 0 and NO_NUMBER. */
void peer_read_section_key(struct chart *chart, bool in_place, uint32_t *time, uint32_t *bpm)
{
    const unsigned char *name_end = peer_word_end(chart->at + 1, chart->stop), *setting = peer_past_blanks(name_end, chart->stop);
    enum key key = key_named(chart->at + 1, name_end);
    unsigned number = 0;
    if (!in_place || !((key == BPM && *bpm == NO_NUMBER) || (key == TIME && *time == 0)))
        peer_fault(chart, STAGE_TEXT, chart->line, BAD_KEY);
    else if (!setting_fits(key, setting, chart->stop, &number))
        peer_fault(chart, STAGE_TEXT, chart->line, BAD_SETTING);
    else if (key == TIME)
        *time = number;
    else
        *bpm = number;
}
