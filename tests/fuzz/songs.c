/* Songs from a small grammar. The number of measures is kept along the way, so that counts of lyric lines can be right. */
#include "charts.h"

#define PICK(numbers, list) ((list)[below((numbers), sizeof(list) / sizeof *(list))])

struct song {
    size_t time;
    size_t definitions;
    size_t measures[27]; /* of each definition */
    int deep[27];        /* whether it holds a reference or a loop */
};

static const char *const bases[] = {"A", "A#", "Abm", "B", "Bb", "Bbm", "C", "C#m", "D", "Dbm", "Eb", "E", "F#m", "G", "Gb", "Cb", "H"};
static const char *const extensions[] = {"", "", "", "7", "maj7", "sus4", "m7b5", "/E", "é", "♯9", "b", "#", "maj", "aj7", "ma7", "mmaj9", "!x"};
static const char *const slips[] = {"%", "_", "=", "$", "$1", "=7", "7%"};
static const size_t times[] = {4, 4, 4, 3, 6, 12, 2, 1, 8, 32};

static size_t divisor(struct numbers *numbers, size_t time)
{
    size_t size = 1 + below(numbers, time < 6 ? time : 6);
    while (time % size != 0)
        size--;
    return below(numbers, 60) == 0 ? size + 1 : size;
}

static void write_measure(struct numbers *numbers, struct chart *chart, size_t time, int first)
{
    size_t size = divisor(numbers, time);
    size_t removers = size > 1 && below(numbers, 4) == 0 ? 1 + below(numbers, size - 1) : 0;
    for (size_t place = 0; place < size; place++) {
        if (place > 0)
            append(chart, below(numbers, 12) == 0 ? " \t " : " ");
        if (place >= size - removers)
            append(chart, "=");
        else if (below(numbers, 10) == 0 && (!first || place > 0 || below(numbers, 20) == 0))
            append(chart, "%");
        else if (below(numbers, 10) == 0 && !first)
            append(chart, "_");
        else {
            size_t base = below(numbers, sizeof bases / sizeof *bases);
            append(chart, bases[below(numbers, 20) != 0 && base > 15 ? 0 : base]);
            append(chart, PICK(numbers, extensions));
            append(chart, below(numbers, 400) == 0 ? PICK(numbers, slips) : "");
        }
    }
}

static void write_separator(struct numbers *numbers, struct chart *chart, int one_line)
{
    static const char *const separators[] = {";", ";", " ; ", "\n", "\n", ":", " : ", "\n:\n", ":\n"};
    append(chart, one_line ? ";" : PICK(numbers, separators));
}

static size_t write_loop(struct numbers *numbers, struct chart *chart, size_t time, int first)
{
    size_t items = 1 + below(numbers, 3);
    append(chart, "[");
    for (size_t item = 0; item < items; item++) {
        if (item > 0)
            write_separator(numbers, chart, 1);
        write_measure(numbers, chart, time, first && item == 0);
    }
    append(chart, "]");
    size_t times_played = below(numbers, 300) == 0 ? 9999 : 2 + below(numbers, 5);
    append_number(chart, times_played);
    return items * times_played;
}

/* Items in a row; gives the number of measures. */
static size_t write_items(struct numbers *numbers, struct chart *chart, struct song *song, size_t definition, int one_line)
{
    size_t items = 1 + below(numbers, 5);
    size_t measures = 0;
    for (size_t item = 0; item < items; item++) {
        if (item > 0)
            write_separator(numbers, chart, one_line);
        size_t named = song->definitions > 0 ? below(numbers, song->definitions) : 0;
        if (definition > 0 && named + 1 < definition && below(numbers, 4) == 0
            && (!song->deep[named] || below(numbers, 20) == 0)) {
            append(chart, "$");
            append_number(chart, named + 1);
            measures += song->measures[named];
            song->deep[definition - 1] = 1;
        } else if (below(numbers, 5) == 0) {
            measures += write_loop(numbers, chart, song->time, item == 0);
        } else {
            write_measure(numbers, chart, song->time, item == 0);
            measures++;
        }
    }
    return measures;
}

static void write_keys(struct numbers *numbers, struct chart *chart, struct song *song)
{
    static const char *const lines[] = {"@name A song", "@artist Þór", "@original F#m", "@capo 20", "@bpm 400", "@bpm 0",
                                        "@warning loud", "@end bow", "@capo 21", "@time 3/4"};
    song->time = PICK(numbers, times);
    int any = song->time != 4 || below(numbers, 2) == 0;
    if (any) {
        append(chart, "@time ");
        append_number(chart, song->time);
        append(chart, "/4\n");
    }
    size_t first = below(numbers, 8);
    for (size_t key = first; key < first + below(numbers, 4) && key < 10; key++) {
        if (key != 5 || first == 5)
            append(chart, lines[key]), append(chart, "\n");
        any = 1;
    }
    if (any)
        append(chart, "\n");
}

static void write_definitions(struct numbers *numbers, struct chart *chart, struct song *song)
{
    size_t count = below(numbers, 3) == 0 ? 1 + below(numbers, 4) : 0;
    for (size_t number = 1; number <= count; number++) {
        append(chart, "$");
        append_number(chart, number);
        append(chart, "\n");
        song->deep[number - 1] = 0;
        song->definitions = number;
        song->measures[number - 1] = 0;
        if (below(numbers, 10) != 0) {
            song->measures[number - 1] = write_items(numbers, chart, song, number, 0);
            append(chart, "\n");
        }
        append(chart, "\n");
    }
}

/* A cut; gives how many whole measures it takes, at most the given number, or SIZE_MAX where that is not known. */
static size_t write_cut(struct numbers *numbers, struct chart *chart, const char *name, size_t measures)
{
    append(chart, name);
    if (below(numbers, 3) == 0) {
        if (below(numbers, 2) == 0)
            append_number(chart, 1);
        append(chart, "-");
        append_number(chart, 1 + below(numbers, 5));
        append(chart, "\n");
        return SIZE_MAX;
    }
    size_t taken = measures > 1 ? 1 + below(numbers, measures - 1) : 1;
    append_number(chart, taken);
    append(chart, "\n");
    return taken < measures ? taken : SIZE_MAX;
}

/* Modifiers; gives the measures played, or SIZE_MAX where that is not known. */
static size_t write_modifiers(struct numbers *numbers, struct chart *chart, struct song *song, size_t measures)
{
    if (below(numbers, 4) == 0) {
        size_t played = below(numbers, 200) == 0 ? 9999 : 2 + below(numbers, 4);
        append(chart, "_repeat ");
        append_number(chart, played);
        append(chart, "\n");
        measures *= played;
    }
    for (int end = 0; end < 2; end++) {
        if (below(numbers, 5) != 0)
            continue;
        size_t taken = write_cut(numbers, chart, end ? "_cutEnd " : "_cutStart ", measures == SIZE_MAX ? 1 : measures);
        measures = taken == SIZE_MAX || measures == SIZE_MAX ? SIZE_MAX : measures - taken;
    }
    for (int end = 0; end < 2; end++) {
        if (below(numbers, 5) != 0)
            continue;
        append(chart, end ? "_after " : "_before ");
        size_t more = write_items(numbers, chart, song, 0, 1);
        append(chart, "\n");
        measures = measures == SIZE_MAX ? SIZE_MAX : measures + more;
    }
    return measures;
}

static void write_lyrics(struct numbers *numbers, struct chart *chart, size_t measures, int counted)
{
    static const char *const lines[] = {"Go", "Living easy", "***In***", ":::Out:::", "******", "Ünder", "Go_2", "_", "@bpm 3", "a\tb"};
    size_t count = 1 + below(numbers, 3);
    append(chart, "--\n");
    for (size_t line = 0; line < count && (measures > 0 || line == 0); line++) {
        append(chart, PICK(numbers, lines));
        size_t size = line + 1 == count || measures < 2 ? measures : 1 + below(numbers, measures - 1);
        if (below(numbers, 60) == 0)
            size++;
        if (counted && below(numbers, 60) != 0) {
            append(chart, below(numbers, 8) == 0 ? "\t _" : " _");
            append_number(chart, size);
        }
        measures -= size < measures ? size : measures;
        append(chart, "\n");
    }
}

static void write_section(struct numbers *numbers, struct chart *chart, struct song *song, int lyrics)
{
    static const char *const names[] = {"Verse", "V", "Chorus!loud", "Intro", "Näme", "--", "_repeat 2", "#1!", "Two words"};
    size_t own = song->time;
    append(chart, PICK(numbers, names));
    append(chart, "\n");
    if (below(numbers, 5) == 0) {
        song->time = PICK(numbers, times);
        append(chart, "@time ");
        append_number(chart, song->time);
        append(chart, "/4\n");
    }
    if (below(numbers, 6) == 0)
        append(chart, "@bpm 93\n");
    size_t measures;
    if (song->definitions > 0 && below(numbers, 3) == 0) {
        size_t named = below(numbers, song->definitions);
        append(chart, "$");
        append_number(chart, named + 1);
        measures = song->measures[named];
    } else {
        measures = write_items(numbers, chart, song, 0, 0);
    }
    append(chart, "\n");
    if (measures > 0)
        measures = write_modifiers(numbers, chart, song, measures);
    if (lyrics > 0)
        write_lyrics(numbers, chart, measures == SIZE_MAX ? 2 : measures, lyrics > 1);
    song->time = own;
}

void write_song(struct numbers *numbers, struct chart *chart)
{
    struct song song = {4, 0, {0}, {0}};
    int lyrics = (int)below(numbers, 4) - 1;
    write_keys(numbers, chart, &song);
    write_definitions(numbers, chart, &song);
    size_t sections = 1 + below(numbers, 4);
    for (size_t section = 0; section < sections; section++) {
        write_section(numbers, chart, &song, below(numbers, 12) == 0 ? 0 : lyrics);
        append(chart, "\n");
    }
}
