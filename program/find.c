/* turnipcart find FILE BEAT */
#include "output.h"
#include "song.h"
#include "subcommands.h"
#include "verdict.h"

/* The section that a measure of the song belongs to. */
static uint64_t section_with(const struct song *song, size_t measure)
{
    size_t place = 0;
    while (place + 1 < song->answer.sections
           && measure >= turnipcart_section_first_measure(song->tables.sections[place]) + turnipcart_section_measures(song->tables.sections[place]))
        place++;
    return song->tables.sections[place];
}

static void put_found(const struct song *song, size_t beat, size_t measure)
{
    uint64_t section = section_with(song, measure);
    struct stretch name = section_name(song->chart, section);
    uint32_t word = song->tables.measures[measure];
    put("beat ");
    put_number(beat);
    put(" stands in measure ");
    put_number(measure);
    put(": section `");
    put_safely(song->chart->text + name.start, name.length);
    put("`, its measure ");
    put_number(measure - turnipcart_section_first_measure(section));
    put(", beat ");
    put_number(beat - turnipcart_measure_first_beat(word));
    put(" of ");
    put_number(turnipcart_measure_beats(word));
    put("\n");
}

static enum status show(const struct song *song, const void *more)
{
    const size_t *beat = more;
    struct turnipcart_found found;
    if (turnipcart_find(song->tables.measures, song->answer.measures, (uint32_t)*beat, &found) == TURNIPCART_ACCEPTED) {
        put_found(song, *beat, found.place);
        return STATUS_FINE;
    }
    put("refused 19: no measure holds beat ");
    put_number(*beat);
    put("; the song has ");
    put_count(song->answer.beats, "beat");
    put(", counted from 0\n");
    return STATUS_REFUSED;
}

static enum status run(const struct words *words)
{
    size_t beat;
    struct view view = {.show = show, .refuse = put_refusal, .more = &beat};
    if (!read_decimal(words->operands[1], UINT32_MAX, &beat))
        return misuse("this is no number of a beat", words->operands[1]);
    return view_song(words->operands[0], &view);
}

const struct subcommand find_subcommand = {
    .name = "find",
    .usage = "find FILE BEAT",
    .summary = "say in which measure a beat of the song stands",
    .help = "BEAT is the beat's number in the whole song. Beats and measures count from 0, as in the tables.\n",
    .least = 2,
    .most = 2,
    .run = run,
};
