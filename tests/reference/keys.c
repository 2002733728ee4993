/* Stage 2: key lines, of the song and of sections, and their settings. */
#include "song.h"

enum { SETTING_LIMIT = 100, CAPO_LIMIT = 20, BPM_LIMIT = 400 };

static const char *const key_names[READER_KEYS] = {
    "name", "artist", "original", "capo", "bpm", "time", "warning", "end",
};

enum key find_key(const unsigned char *text, struct span name)
{
    for (int key = 0; key < READER_KEYS; key++)
        if (span_is(text, name, key_names[key]))
            return (enum key)key;
    return UNKNOWN_KEY;
}

bool read_bpm(const unsigned char *text, struct span setting, unsigned *bpm)
{
    return read_number(text, setting, 0, BPM_LIMIT, bpm);
}

/* `n/4`, n from 1 to 32. */
bool read_time(const unsigned char *text, struct span setting, unsigned *time)
{
    struct span number = setting, rest = setting;
    if (setting.end - setting.start < sizeof "/4")
        return false;
    number.end = rest.start = setting.end - (sizeof "/4" - 1);
    return span_is(text, rest, "/4") && read_number(text, number, 1, READER_TIME_LIMIT, time);
}

static bool is_base_chord(const unsigned char *text, struct span setting)
{
    struct chord chord;
    return read_chord(text, setting, &chord) && chord.extension_length == 0;
}

static bool read_song_setting(struct song *song, enum key key, struct span setting)
{
    unsigned capo;
    size_t characters;
    switch (key) {
    case ORIGINAL_KEY:
        return is_base_chord(song->text, setting);
    case CAPO_KEY:
        return read_number(song->text, setting, 1, CAPO_LIMIT, &capo);
    case BPM_KEY:
        return read_bpm(song->text, setting, &song->bpm);
    case TIME_KEY:
        return read_time(song->text, setting, &song->time);
    default:
        characters = count_characters(song->text, setting);
        return 1 <= characters && characters <= SETTING_LIMIT;
    }
}

static void read_song_key(struct song *song, size_t line)
{
    struct span name, setting;
    split_name(song->text, song->lines[line], &name, &setting);
    enum key key = find_key(song->text, name);
    if (key == UNKNOWN_KEY || song->key_present[key]) {
        note_refusal(song, REFUSED_KEY, line + 1);
        return;
    }
    if (!read_song_setting(song, key, setting))
        note_refusal(song, REFUSED_SETTING, line + 1);
    song->key_present[key] = true;
    song->key_setting[key] = setting;
}

/* Every line of a metadata block is a key. */
void read_metadata_block(struct song *song, struct block block)
{
    for (size_t line = block.first; line <= block.last; line++) {
        if (song->text[song->lines[line].start] == '@')
            read_song_key(song, line);
        else
            note_refusal(song, REFUSED_LINE, line + 1);
    }
}

/* A key of a section: bpm or time, each once, before the pattern and the modifiers. */
void read_section_key(struct song *song, struct section *section, size_t line, bool out_of_place)
{
    struct span name, setting;
    split_name(song->text, song->lines[line], &name, &setting);
    enum key key = find_key(song->text, name);
    bool good;
    if (!out_of_place && key == BPM_KEY && section->bpm == NO_BPM) {
        good = read_bpm(song->text, setting, &section->bpm);
    } else if (!out_of_place && key == TIME_KEY && section->time == 0) {
        good = read_time(song->text, setting, &section->time);
    } else {
        note_refusal(song, REFUSED_KEY, line + 1);
        return;
    }
    if (!good)
        note_refusal(song, REFUSED_SETTING, line + 1);
}
