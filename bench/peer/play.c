/* Writes the measures and beats of a song without faults; what is repeated is played once and copied. */
#include <string.h>
#include "chart.h"

enum { COPIED_WORDS = 4096 }; /* of one copy, so that what is copied stays near */

struct writer {
    const struct chart *chart;
    uint32_t *measures; /* where the next measure goes */
    uint32_t *beats;
    uint32_t *song;     /* the song's first beat */
    uint32_t time;
};

static void write_measure(struct writer *writer, const uint32_t *at, uint32_t before)
{
    uint32_t kept = *at >> ABOVE, each = writer->time / (*at & BELOW), *out = writer->beats;
    *writer->measures++ = (uint32_t)(out - writer->song) << FIRST_BEAT_AT | kept * each << BEATS_AT;
    for (const uint32_t *end = ++at + kept; at < end; at++) {
        uint32_t word = *at & OPEN_PERCENT ? before : *at;
        *out++ = word;
        for (uint32_t i = 1; i < each; i++)
            *out++ = word & ~(uint32_t)HEAD;
    }
    writer->beats = out;
}

/* Copies on what a pass left: so many measures more, a pass being the last `measures` and `beats` words written. */
static void copy_on(struct writer *writer, uint32_t measures, uint32_t beats, uint32_t more)
{
    const uint32_t *pass = writer->measures - measures;
    uint32_t rest = more % measures;
    size_t left = (size_t)(more / measures) * beats + (rest > 0 ? (pass[rest] >> FIRST_BEAT_AT) - (pass[0] >> FIRST_BEAT_AT) : 0);
    for (uint32_t far = measures, step = beats << FIRST_BEAT_AT, left_measures = more; left_measures > 0;) {
        uint32_t count = far < left_measures ? far : left_measures;
        for (uint32_t i = 0; i < count; i++)
            writer->measures[i] = (writer->measures - far)[i] + step;
        writer->measures += count;
        left_measures -= count;
        if (far < COPIED_WORDS) {
            far *= 2;
            step *= 2;
        }
    }
    for (size_t far = beats; left > 0;) {
        size_t count = far < left ? far : left;
        memcpy(writer->beats, writer->beats - far, count * sizeof *writer->beats);
        writer->beats += count;
        left -= count;
        if (far < COPIED_WORDS)
            far *= 2;
    }
}

static uint32_t least(uint32_t a, uint32_t b)
{
    return a < b ? a : b;
}

static void play_times(struct writer *writer, const struct row *pass, uint32_t from, uint32_t to, uint32_t before);

/* Plays the measures of the row from one number up to another; `before` is the chord before it. */
static void play(struct writer *writer, const struct row *row, uint32_t from, uint32_t to, uint32_t before)
{
    const struct chart *chart = writer->chart;
    const uint32_t *at = chart->score + row->at, *end = at + row->words;
    while (at < end && to > 0) {
        uint32_t above = *at >> ABOVE, measures = 1;
        if ((*at & BELOW) > 0) {
            if (from == 0)
                write_measure(writer, at, before);
            at += 1 + above;
        } else if (above == REFERENCE) {
            const struct row *named = &chart->definitions[at[1]].text.row;
            measures = (uint32_t)named->measures;
            if (from < measures)
                play(writer, named, from, least(to, measures), at[2]);
            at += REFERENCE_WORDS;
        } else {
            struct row pass = {(uint32_t)(at - chart->score) + LOOP_WORDS, at[2], at[1]};
            measures = above * at[1];
            if (from < measures)
                play_times(writer, &pass, from, least(to, measures), before);
            at += LOOP_WORDS + at[2];
        }
        from -= least(from, measures);
        to -= least(to, measures);
    }
}

/* The same of a row that is played again and again. */
static void play_times(struct writer *writer, const struct row *pass, uint32_t from, uint32_t to, uint32_t before)
{
    const uint32_t *first_beat = writer->beats;
    uint32_t measures = (uint32_t)pass->measures, skipped = from % measures, left = to - from;
    uint32_t part = least(left, measures - skipped);
    play(writer, pass, skipped, skipped + part, before);
    left -= part;
    part = least(left, skipped);
    if (part > 0)
        play(writer, pass, 0, part, before);
    left -= part;
    if (left > 0)
        copy_on(writer, measures, (uint32_t)(writer->beats - first_beat), left);
}

/* Plays one measure of the pattern that a cut has shortened. */
static void play_part(struct writer *writer, const struct row *pass, uint32_t number, uint32_t front, uint32_t back)
{
    uint32_t whole[MOST_TIME], measure;
    struct writer one = {writer->chart, &measure, whole, whole, writer->time};
    number %= (uint32_t)pass->measures;
    play(&one, pass, number, number + 1, 0);
    uint32_t beats = (uint32_t)(one.beats - whole) - front - back;
    memcpy(writer->beats, whole + front, beats * sizeof *whole);
    *writer->measures++ = (uint32_t)(writer->beats - writer->song) << FIRST_BEAT_AT | beats << BEATS_AT;
    writer->beats += beats;
}

static void play_pattern(struct writer *writer, const struct section *section)
{
    uint32_t first = section->first, last = section->last;
    bool one = last - first == 1;
    if (section->front > 0 || (one && section->back > 0))
        play_part(writer, &section->pattern, first++, section->front, one ? section->back : 0);
    if (first == last)
        return;
    last -= section->back > 0;
    if (first < last)
        play_times(writer, &section->pattern, first, last, 0);
    if (section->back > 0)
        play_part(writer, &section->pattern, last, 0, section->back);
}

void peer_play_song(const struct chart *chart, uint32_t *measures, uint32_t *beats)
{
    struct writer writer = {chart, measures, beats, beats, 0};
    for (uint32_t place = 0; place < chart->section_count; place++) {
        const struct section *section = &chart->sections[place];
        writer.time = section->time;
        play(&writer, &section->before, 0, (uint32_t)section->before.measures, 0);
        play_pattern(&writer, section);
        play(&writer, &section->after, 0, (uint32_t)section->after.measures, 0);
    }
}
