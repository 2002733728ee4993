/* turnipcart cues FILE */
#include <stdlib.h>
#include "output.h"
#include "song.h"
#include "subcommands.h"
#include "verdict.h"

enum { MICROSECONDS = 1000, MILLISECONDS = 1000, SECONDS = 60 };

/* A number of digits, zeros in front. */
static void put_padded(size_t number, size_t digits)
{
    size_t least = 1;
    for (size_t place = 1; place < digits; place++)
        least *= 10;
    for (; least > 1 && number < least; least /= 10)
        put("0");
    put_number(number);
}

/* A time as microseconds and, rounded down, as m:ss.mmm. */
static void put_time(uint64_t time)
{
    uint64_t milliseconds = time / MICROSECONDS;
    uint64_t seconds = milliseconds / MILLISECONDS;
    put(" ");
    put_number((size_t)time);
    put(" ");
    put_number((size_t)(seconds / SECONDS));
    put(":");
    put_padded((size_t)(seconds % SECONDS), 2);
    put(".");
    put_padded((size_t)(milliseconds % MILLISECONDS), 3);
    put("\n");
}

/* A line for each measure of each section, both counted from 0, then the end. */
static void put_cues(const struct song *song, const uint64_t *cues, uint64_t end)
{
    for (size_t place = 0; place < song->answer.sections; place++) {
        uint64_t section = song->tables.sections[place];
        for (size_t measure = 0; measure < turnipcart_section_measures(section); measure++) {
            put("cue ");
            put_number(place);
            put(" ");
            put_number(measure);
            put_time(cues[turnipcart_section_first_measure(section) + measure]);
        }
    }
    put("end");
    put_time(end);
}

static enum status show(const struct song *song, const void *more)
{
    (void)more;
    uint64_t end = 0;
    size_t length = song->answer.measures;
    uint64_t *cues = malloc(length > 0 ? length * sizeof *cues : 1);
    if (cues == NULL) {
        complain(song->chart->name, "there is no memory for its tables");
        return STATUS_NOT_READ;
    }
    size_t refusal = turnipcart_cues(song->tables.sections, song->answer.sections, song->tables.measures, length, cues, length, &end);
    if (refusal == TURNIPCART_ACCEPTED)
        put_cues(song, cues, end);
    else
        put("refused 26: a section has no bpm from 1 to 400; write @bpm in the song's keys, or under the section's header\n");
    free(cues);
    return refusal == TURNIPCART_ACCEPTED ? STATUS_FINE : STATUS_REFUSED;
}

static enum status run(const struct words *words)
{
    static const struct view view = {.show = show, .refuse = put_refusal};
    return view_song(words->operands[0], &view);
}

const struct subcommand cues_subcommand = {
    .name = "cues",
    .usage = "cues FILE",
    .summary = "say when each measure begins, for the lighting desk",
    .help = "Prints `cue SECTION MEASURE MICROSECONDS M:SS.MMM` for each measure, sections and a section's measures counted from 0, and at last\n"
            "`end` with the song's end. A song with measures whose section has no bpm, or a bpm of 0, prints `refused 26` and ends with status 1.\n",
    .least = 1,
    .most = 1,
    .run = run,
};
