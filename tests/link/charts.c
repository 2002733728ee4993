/* Charts at the ends of what the header says: the longest text, songs as long as its tables that are enough for any song, and one past each;
   and words whose fields come to their ends, unpacked and compared with what stands in the chart. Prints nothing and ends with 0 where all is
   as promised. */
#include <string.h>
#include "expect.h"
#include "turnipcart.h"

static unsigned char text[TURNIPCART_TEXT_LIMIT + 64];
static size_t length;
static uint32_t keys[TURNIPCART_KEYS], measures[TURNIPCART_MEASURES_ENOUGH], beats[TURNIPCART_BEATS_ENOUGH];
static uint64_t sections[TURNIPCART_SECTIONS_ENOUGH], items[TURNIPCART_ITEMS_ENOUGH];
static struct turnipcart_answer answer;

static void add(const char *more)
{
    memcpy(text + length, more, strlen(more));
    length += strlen(more);
}

static void begin(const char *first)
{
    length = 0;
    add(first);
}

static void repeat(const char *more, size_t times)
{
    while (times-- > 0)
        add(more);
}

/* Reads the chart into tables that are enough for any song. */
static size_t read_chart(void)
{
    return turnipcart_read(text, length, keys, TURNIPCART_KEYS, sections, TURNIPCART_SECTIONS_ENOUGH, measures, TURNIPCART_MEASURES_ENOUGH, beats,
                           TURNIPCART_BEATS_ENOUGH, items, TURNIPCART_ITEMS_ENOUGH, &answer);
}

/* Reads it once more, one table a word shorter. */
static size_t read_shorter(enum turnipcart_table table)
{
    struct turnipcart_tables tables = {keys, TURNIPCART_KEYS, sections, TURNIPCART_SECTIONS_ENOUGH, measures, TURNIPCART_MEASURES_ENOUGH, beats,
                                       TURNIPCART_BEATS_ENOUGH, items, TURNIPCART_ITEMS_ENOUGH};
    size_t *lengths[] = {&tables.keys_length, &tables.sections_length, &tables.measures_length, &tables.beats_length, &tables.items_length};
    *lengths[table] = turnipcart_words_needed(&answer, table) - 1;
    return turnipcart_read_tables(text, length, &tables, &answer);
}

static void try_text_limit(void)
{
    begin("V\nA");
    repeat("\n", TURNIPCART_TEXT_LIMIT - length);
    expect("the longest text", read_chart(), TURNIPCART_ACCEPTED);
    add("\n");
    expect("a byte more", read_chart(), TURNIPCART_TEXT_TOO_LONG);
}

/* A section takes five bytes, the last one three. */
static void try_sections(void)
{
    begin("");
    repeat("V\nA\n\n", TURNIPCART_SECTIONS_ENOUGH - 1);
    add("V\nA");
    expect("the most sections", read_chart(), TURNIPCART_ACCEPTED);
    expect("their count", answer.sections, TURNIPCART_SECTIONS_ENOUGH);
    expect("a table for one less", read_shorter(TURNIPCART_TABLE_SECTIONS), TURNIPCART_TABLE_TOO_SHORT);
    add("\n\nV\nA");
    expect("a section more", read_chart(), TURNIPCART_TEXT_TOO_LONG);
}

/* 15 * 4,369 measures are 65,535, each of 32 beats; 8 * 8,192 are 65,536. */
static void try_measures(void)
{
    begin("@time 32/4\n\nV\n[A]4369\n_repeat 15\n");
    expect("the most measures", read_chart(), TURNIPCART_ACCEPTED);
    expect("their count", answer.measures, TURNIPCART_MEASURES_ENOUGH);
    expect("the most beats", answer.beats, TURNIPCART_BEATS_ENOUGH);
    expect("the last measure's first beat", turnipcart_measure_first_beat(measures[TURNIPCART_MEASURES_ENOUGH - 1]), 65534 * 32);
    expect("the last measure's beats", turnipcart_measure_beats(measures[TURNIPCART_MEASURES_ENOUGH - 1]), 32);
    expect("measures for one less", read_shorter(TURNIPCART_TABLE_MEASURES), TURNIPCART_TABLE_TOO_SHORT);
    expect("again", read_chart(), TURNIPCART_ACCEPTED);
    expect("beats for one less", read_shorter(TURNIPCART_TABLE_BEATS), TURNIPCART_TABLE_TOO_SHORT);
    begin("@time 32/4\n\nV\n[A]8192\n_repeat 8\n");
    expect("a measure more", read_chart(), TURNIPCART_SONG_TOO_LONG);
}

/* An item takes five bytes, and what stands before the first at least fifteen for as many measures as these. */
static void try_items(void)
{
    enum { MOST_ITEMS = 13104 };
    begin("V\n[A;A]6552\n--\n");
    repeat("a _1\n", MOST_ITEMS - 1);
    add("a _1");
    expect("the most items", read_chart(), TURNIPCART_ACCEPTED);
    expect("their count", answer.items, MOST_ITEMS);
    expect("room for them", answer.items <= TURNIPCART_ITEMS_ENOUGH, 1);
    expect("items for one less", read_shorter(TURNIPCART_TABLE_ITEMS), TURNIPCART_TABLE_TOO_SHORT);
    add("\na _1");
    expect("an item more", read_chart(), TURNIPCART_TEXT_TOO_LONG);
}

static void try_key_room(void)
{
    begin("V\nA");
    expect("eight keys", read_chart(), TURNIPCART_ACCEPTED);
    expect("seven keys", read_shorter(TURNIPCART_TABLE_KEYS), TURNIPCART_TABLE_TOO_SHORT);
}

/* A name of 100 characters of four bytes, and an end that stands as far back as it can. */
static void try_key_words(void)
{
    begin("@name ");
    repeat("\xF0\x9D\x84\x9E", 100);
    repeat("\n", TURNIPCART_TEXT_LIMIT - length - strlen("@end x\n\nV\nA"));
    add("@end x\n\nV\nA");
    expect("the keys", read_chart(), TURNIPCART_ACCEPTED);
    expect("a name", turnipcart_key_present(keys[TURNIPCART_KEY_NAME]), 1);
    expect("its place", turnipcart_key_offset(keys[TURNIPCART_KEY_NAME]), 6);
    expect("its length", turnipcart_key_length(keys[TURNIPCART_KEY_NAME]), 400);
    expect("no artist", keys[TURNIPCART_KEY_ARTIST], 0);
    expect("the end's place", turnipcart_key_offset(keys[TURNIPCART_KEY_END]), 65536 - 6);
    expect("the end's length", turnipcart_key_length(keys[TURNIPCART_KEY_END]), 1);
}

/* The last section of a song of 65,535 measures is empty and begins behind them all. */
static void try_section_words(void)
{
    begin("@time 32/4\n\n$1\n\nV\n@bpm 400\n[A]4369\n_repeat 15\n");
    repeat("\n", TURNIPCART_TEXT_LIMIT - length - strlen("E\n$1"));
    add("E\n$1");
    expect("the sections", read_chart(), TURNIPCART_ACCEPTED);
    expect("a header", turnipcart_section_line(sections[0]), 5);
    expect("its measures", turnipcart_section_measures(sections[0]), 65535);
    expect("its time", turnipcart_section_time(sections[0]), 32);
    expect("its bpm", turnipcart_section_bpm(sections[0]), 400);
    expect("the last header", turnipcart_section_line(sections[1]), 9 + (65536 - 46 - 4));
    expect("behind the others", turnipcart_section_first_measure(sections[1]), 65535);
    expect("without measures", turnipcart_section_measures(sections[1]), 0);
    expect("without a bpm", turnipcart_section_bpm(sections[1]), TURNIPCART_NO_BPM);
}

/* A chord with an extension of 31 bytes at the end of the text, silence, and a chord without one. */
static void try_beat_words(void)
{
    static const char last[] = "G#m+234567890123456789012345678901";
    begin("V\nA _ % ");
    repeat(" ", TURNIPCART_TEXT_LIMIT - length - strlen(last));
    add(last);
    expect("the beats", read_chart(), TURNIPCART_ACCEPTED);
    expect("a base", turnipcart_beat_base(beats[0]), 0);
    expect("no extension", turnipcart_beat_extension_offset(beats[0]) + turnipcart_beat_extension_length(beats[0]), 0);
    expect("a head", turnipcart_beat_head(beats[0]), 1);
    expect("silence", turnipcart_beat_base(beats[1]), TURNIPCART_SILENCE);
    expect("the last base", turnipcart_beat_base(beats[3]), TURNIPCART_BASES - 1);
    expect("its name", (size_t)strcmp(turnipcart_base_name(turnipcart_beat_base(beats[3])), "G#m"), 0);
    expect("its extension", turnipcart_beat_extension_offset(beats[3]), 65536 - 31);
    expect("its length", turnipcart_beat_extension_length(beats[3]), 31);
    begin("V\nA");
    expect("a chord held", read_chart(), TURNIPCART_ACCEPTED);
    expect("no head", turnipcart_beat_head(beats[1]), 0);
}

/* The longest line of lyrics; and a short one at the end of the text, for measures 55,536 to 65,534. */
static void try_item_words(void)
{
    static const char last[] = "\n:::b::: _9999";
    begin("V\n[A]4369\n_repeat 15\n--\na _9999\na _9999\na _9999\na _9999\na _9999\n***");
    size_t at = length;
    repeat("x", TURNIPCART_TEXT_LIMIT - length - strlen("*** _5541") - strlen(last));
    size_t letters = length - at;
    add("*** _5541");
    add(last);
    expect("the items", read_chart(), TURNIPCART_ACCEPTED);
    expect("the longest line's place", turnipcart_item_offset(items[5]), at);
    expect("its length", turnipcart_item_length(items[5]), letters);
    expect("its first measure", turnipcart_item_first_measure(items[5]), 5 * 9999);
    expect("its measures", turnipcart_item_measures(items[5]), 5541);
    expect("its style", turnipcart_item_style(items[5]), TURNIPCART_INFO);
    expect("the last line's place", turnipcart_item_offset(items[6]), 65536 - strlen("b::: _9999"));
    expect("its length", turnipcart_item_length(items[6]), 1);
    expect("its first measure", turnipcart_item_first_measure(items[6]), 65535 - 9999);
    expect("its measures", turnipcart_item_measures(items[6]), 9999);
    expect("its style", turnipcart_item_style(items[6]), TURNIPCART_CREW);
    expect("a plain line's style", turnipcart_item_style(items[0]), TURNIPCART_PLAIN);
}

int main(void)
{
    try_text_limit();
    try_sections();
    try_measures();
    try_items();
    try_key_room();
    try_key_words();
    try_section_words();
    try_beat_words();
    try_item_words();
    return faults > 0;
}
