#include "listing.h"
#include "output.h"

static void put_numbers(const char *word, const size_t *numbers, size_t count)
{
    put(word);
    for (size_t place = 0; place < count; place++) {
        put(" ");
        put_number(numbers[place]);
    }
}

static void put_measure(const struct song *song, uint32_t measure)
{
    size_t beat = turnipcart_measure_first_beat(measure);
    size_t end = beat + turnipcart_measure_beats(measure);
    put("measure");
    for (; beat < end; beat++) {
        put(" ");
        put_beat(song, song->tables.beats[beat], false);
    }
    put("\n");
}

static void put_section(const struct song *song, uint64_t section)
{
    size_t first = turnipcart_section_first_measure(section);
    size_t count = turnipcart_section_measures(section);
    put_numbers("section", (size_t[]){turnipcart_section_line(section), count, turnipcart_section_time(section)}, 3);
    put("\n");
    for (size_t place = first; place < first + count; place++)
        put_measure(song, song->tables.measures[place]);
}

static void put_item(const struct song *song, uint64_t item)
{
    static const char *const styles[] = {"item plain", "item info", "item crew"};
    put_numbers(styles[turnipcart_item_style(item)], (size_t[]){turnipcart_item_first_measure(item), turnipcart_item_measures(item)}, 2);
    put(" ");
    put_bytes(song->chart->text + turnipcart_item_offset(item), turnipcart_item_length(item));
    put("\n");
}

void put_listing(const struct song *song)
{
    const struct turnipcart_answer *answer = &song->answer;
    put_numbers("song", (size_t[]){answer->sections, answer->measures, answer->beats, answer->items}, 4);
    put("\n");
    for (size_t place = 0; place < answer->sections; place++)
        put_section(song, song->tables.sections[place]);
    for (size_t place = 0; place < answer->items; place++)
        put_item(song, song->tables.items[place]);
}

void put_listed_refusal(const struct chart *chart, const struct turnipcart_answer *answer)
{
    (void)chart;
    put_numbers("refused", &answer->refusal, 1);
    put_numbers(" line", &answer->line, 1);
    put("\n");
}
