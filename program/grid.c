/* turnipcart grid FILE */
#include "options.h"
#include "output.h"
#include "song.h"
#include "subcommands.h"
#include "verdict.h"

enum { ROW = 4, NUMBER_WIDTH = 6, BETWEEN = 3 };

static struct text text_of(const struct song *song)
{
    return (struct text){song->chart->text, song->chart->length};
}

/* Columns of a beat in its cell. */
static size_t beat_width(const struct song *song, uint32_t beat)
{
    size_t at = turnipcart_beat_extension_offset(beat);
    size_t end = at + turnipcart_beat_extension_length(beat);
    size_t width = 0;
    if (turnipcart_beat_head(beat) == 0 || turnipcart_beat_base(beat) == TURNIPCART_SILENCE)
        return 1;
    for (const char *name = turnipcart_base_name(turnipcart_beat_base(beat)); *name != '\0'; name++)
        width++;
    while (at < end) {
        struct character character = character_at(song->chart->text, end, at);
        width += character_width(character);
        at += character.bytes;
    }
    return width;
}

static size_t cell_width(const struct song *song, uint32_t measure)
{
    size_t beats = turnipcart_measure_beats(measure);
    size_t width = beats - 1;
    for (size_t place = 0; place < beats; place++)
        width += beat_width(song, song->tables.beats[turnipcart_measure_first_beat(measure) + place]);
    return width;
}

static void put_cell(const struct song *song, uint32_t measure, size_t width)
{
    size_t beats = turnipcart_measure_beats(measure);
    size_t own = cell_width(song, measure);
    for (size_t place = 0; place < beats; place++) {
        put(" ");
        put_beat(song, song->tables.beats[turnipcart_measure_first_beat(measure) + place], true);
    }
    put_repeated(' ', width > own ? width - own : 0);
    put(" |");
}

static void put_row_number(size_t number)
{
    size_t digits = 1;
    for (size_t rest = number; rest >= 10; rest /= 10)
        digits++;
    put_repeated(' ', digits < NUMBER_WIDTH ? NUMBER_WIDTH - digits : 0);
    put_number(number);
    put(" |");
}

static size_t widest_cell(const struct song *song, size_t first, size_t count)
{
    size_t widest = 0;
    for (size_t place = first; place < first + count; place++) {
        size_t width = cell_width(song, song->tables.measures[place]);
        widest = width > widest ? width : widest;
    }
    return widest;
}

static void put_section(const struct song *song, uint64_t section)
{
    size_t first = turnipcart_section_first_measure(section);
    size_t count = turnipcart_section_measures(section);
    size_t width = widest_cell(song, first, count);
    size_t fitting = (output_width() - NUMBER_WIDTH - BETWEEN) / (width + BETWEEN);
    size_t row = fitting < 1 ? 1 : fitting < ROW ? fitting : ROW;
    struct stretch name = section_name(song->chart, section);
    put("\n");
    put_safely(text_of(song).bytes + name.start, name.length);
    put(", in ");
    put_number(turnipcart_section_time(section));
    if (turnipcart_section_bpm(section) != TURNIPCART_NO_BPM) {
        put(", bpm ");
        put_number(turnipcart_section_bpm(section));
    }
    put(", ");
    put_count(count, "measure");
    put("\n");
    for (size_t place = 0; place < count; place++) {
        if (place % row == 0)
            put_row_number(place + 1);
        put_cell(song, song->tables.measures[first + place], width);
        if (place % row == row - 1 || place + 1 == count)
            put("\n");
    }
}

static enum status show(const struct song *song, const void *more)
{
    (void)more;
    put_verdict(song->chart, OPTION_BRIEF);
    for (size_t place = 0; place < song->answer.sections; place++)
        put_section(song, song->tables.sections[place]);
    return STATUS_FINE;
}

static enum status run(const struct words *words)
{
    static const struct view view = {.show = show, .refuse = put_refusal};
    return view_song(words->operands[0], &view);
}

const struct subcommand grid_subcommand = {
    .name = "grid",
    .usage = "grid FILE",
    .summary = "show the measures as a player sees them",
    .help = "Below the chart's verdict each section with its name, N and bpm, and its measures as played, a cell each: a beat on which a chord\n"
            "begins shows it, `.` goes on with it, and `_` is silence. The number before a row is that of its first measure in the section.\n",
    .least = 1,
    .most = 1,
    .run = run,
};
