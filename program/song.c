#include "song.h"
#include <stdlib.h>
#include "output.h"

static void *words_for(size_t count, size_t size)
{
    return malloc(count > 0 ? count * size : 1);
}

static bool take_tables(struct song *song)
{
    struct turnipcart_tables *tables = &song->tables;
    tables->keys_length = TURNIPCART_KEYS;
    tables->sections_length = song->answer.sections;
    tables->measures_length = song->answer.measures;
    tables->beats_length = song->answer.beats;
    tables->items_length = song->answer.items;
    tables->keys = words_for(tables->keys_length, sizeof *tables->keys);
    tables->sections = words_for(tables->sections_length, sizeof *tables->sections);
    tables->measures = words_for(tables->measures_length, sizeof *tables->measures);
    tables->beats = words_for(tables->beats_length, sizeof *tables->beats);
    tables->items = words_for(tables->items_length, sizeof *tables->items);
    return tables->keys != NULL && tables->sections != NULL && tables->measures != NULL && tables->beats != NULL && tables->items != NULL;
}

/* The song in tables of its own, or its refusal in the answer. */
static enum status read_song(const struct chart *chart, struct song *song)
{
    *song = (struct song){.chart = chart};
    if (turnipcart_count(chart->text, chart->length, &song->answer) != TURNIPCART_ACCEPTED)
        return STATUS_REFUSED;
    if (!take_tables(song)) {
        complain(chart->name, "there is no memory for its tables");
        return STATUS_NOT_READ;
    }
    turnipcart_read_tables(chart->text, chart->length, &song->tables, &song->answer);
    return STATUS_FINE;
}

static void free_song(struct song *song)
{
    free(song->tables.keys);
    free(song->tables.sections);
    free(song->tables.measures);
    free(song->tables.beats);
    free(song->tables.items);
}

enum status view_song(const char *name, const struct view *view)
{
    static struct chart chart;
    struct song song;
    const char *why = NULL;
    if (!read_chart(name, &chart, &why)) {
        complain(name, why);
        return STATUS_NOT_READ;
    }
    enum status status = read_song(&chart, &song);
    if (status == STATUS_FINE)
        status = view->show(&song, view->more);
    else if (status == STATUS_REFUSED)
        view->refuse(&chart, &song.answer);
    free_song(&song);
    return status;
}

struct stretch section_name(const struct chart *chart, uint64_t section)
{
    struct text text = {chart->text, chart->length};
    return name_in_header(text, line_at(text, turnipcart_section_line(section)));
}

void put_beat(const struct song *song, uint32_t beat, bool safely)
{
    const unsigned char *extension = song->chart->text + turnipcart_beat_extension_offset(beat);
    if (turnipcart_beat_head(beat) == 0) {
        put(".");
    } else if (turnipcart_beat_base(beat) == TURNIPCART_SILENCE) {
        put("_");
    } else {
        put(turnipcart_base_name(turnipcart_beat_base(beat)));
        (safely ? put_safely : put_bytes)(extension, turnipcart_beat_extension_length(beat));
    }
}
