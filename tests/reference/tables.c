/* The tables: packing of words, writing of a song that passed all stages, and the finding of a beat. */
#include "song.h"
#include "words.h"

/* Request 9: "a table over 65,535 records" is not searched. */
enum { RECORDS_LIMIT = 65535 };

uint32_t pack_beat(struct chord chord, bool head)
{
    return (uint32_t)chord.base << BEAT_BASE_LOWEST | (uint32_t)chord.extension << BEAT_EXTENSION_LOWEST
        | (uint32_t)chord.extension_length << BEAT_LENGTH_LOWEST | (uint32_t)head << BEAT_HEAD_LOWEST;
}

static uint32_t pack_key(struct span setting)
{
    return (uint32_t)1 << KEY_PRESENT_LOWEST | (uint32_t)setting.start << KEY_OFFSET_LOWEST
        | (uint32_t)(setting.end - setting.start) << KEY_LENGTH_LOWEST;
}

static uint64_t pack_section(const struct section *section)
{
    return (uint64_t)section->header_line << SECTION_LINE_LOWEST | (uint64_t)section->first_measure << SECTION_FIRST_LOWEST
        | (uint64_t)section->measures << SECTION_MEASURES_LOWEST | (uint64_t)section->time << SECTION_TIME_LOWEST
        | (uint64_t)section->bpm << SECTION_BPM_LOWEST;
}

static uint32_t pack_measure(size_t first_beat, size_t beats)
{
    return (uint32_t)first_beat << MEASURE_FIRST_LOWEST | (uint32_t)beats << MEASURE_BEATS_LOWEST;
}

static uint64_t pack_item(struct lyric lyric, size_t first_measure)
{
    return (uint64_t)lyric.text.start << ITEM_OFFSET_LOWEST | (uint64_t)(lyric.text.end - lyric.text.start) << ITEM_LENGTH_LOWEST
        | (uint64_t)first_measure << ITEM_FIRST_LOWEST | (uint64_t)lyric.count << ITEM_MEASURES_LOWEST
        | (uint64_t)lyric.style << ITEM_STYLE_LOWEST;
}

static void write_measures(const struct song *song, const struct reader_tables *tables)
{
    size_t written = 0;
    for (size_t place = 0; place < song->measure_count; place++) {
        struct played_measure measure = song->measures[place];
        tables->measures[place] = pack_measure(written, measure.beats);
        for (size_t beat = 0; beat < measure.beats; beat++)
            tables->beats[written++] = song->beats[measure.first_beat + beat];
    }
}

static void write_items(const struct song *song, const struct reader_tables *tables)
{
    size_t written = 0;
    size_t measure = 0;
    for (size_t place = 0; place < song->section_count; place++) {
        const struct section *section = &song->sections[place];
        for (size_t line = section->lyrics.first; line <= section->lyrics.last; line++) {
            struct lyric lyric = read_lyric(song, line);
            tables->items[written++] = pack_item(lyric, measure);
            measure += lyric.count;
        }
    }
}

void write_tables(const struct song *song, const struct reader_tables *tables)
{
    for (size_t key = 0; key < READER_KEYS; key++)
        tables->keys[key] = song->key_present[key] ? pack_key(song->key_setting[key]) : 0;
    for (size_t place = 0; place < song->section_count; place++)
        tables->sections[place] = pack_section(&song->sections[place]);
    write_measures(song, tables);
    if (song->items_to_write > 0)
        write_items(song, tables);
}

struct reader_place reader_find(const uint32_t *measures, size_t length, uint32_t beat)
{
    size_t lowest = 0, highest = length > RECORDS_LIMIT ? 0 : length, probes = 0;
    while (lowest < highest) {
        size_t place = (lowest + highest) / 2;
        uint32_t first = measures[place] >> MEASURE_FIRST_LOWEST;
        uint32_t beats = measures[place] >> MEASURE_BEATS_LOWEST & ((1u << MEASURE_BEATS_BITS) - 1);
        probes++;
        if (beat < first)
            highest = place;
        else if (beat - first < beats)
            return (struct reader_place){READER_ACCEPTED, place, probes};
        else
            lowest = place + 1;
    }
    return (struct reader_place){REFUSED_BEAT_NOT_FOUND, 0, probes};
}
