#include "show.h"
#include "output.h"

enum { GUTTER = 8, NUMBER_WIDTH = 5, LEAST_SHOWN = 20, MOST_CARETS = 60 };

/* What of a line is shown: from a byte on, up to a number of columns. */
struct window {
    struct stretch line;
    size_t from;
    size_t to;
};

static struct text text_of(const struct chart *chart)
{
    return (struct text){chart->text, chart->length};
}

/* Columns that a stretch takes. */
static size_t columns_in(struct text text, struct stretch stretch)
{
    size_t columns = 0;
    for (size_t at = stretch.start; at < end_of(stretch);) {
        struct character character = character_at(text.bytes, text.length, at);
        columns += character_width(character);
        at += character.bytes;
    }
    return columns;
}

static size_t room_for_line(void)
{
    size_t width = output_width();
    return width > GUTTER + LEAST_SHOWN ? width - GUTTER - 1 : LEAST_SHOWN;
}

/* The byte that so many columns reach, from a byte of the line on. */
static size_t reach(struct text text, size_t from, size_t end, size_t columns)
{
    while (from < end) {
        struct character character = character_at(text.bytes, text.length, from);
        size_t width = character_width(character);
        if (width > columns)
            break;
        columns -= width;
        from += character.bytes;
    }
    return from;
}

/* The window with the place in it: from the line's beginning where that shows it, else with some of the line before it. */
static struct window window_of(struct text text, size_t at, size_t place)
{
    struct window window = {{line_start(text, at), 0}, 0, 0};
    size_t end = line_end(text, at);
    size_t room = room_for_line();
    while (end > window.line.start && is_blank(text.bytes[end - 1]) && end > place)
        end--;
    window.line.length = end - window.line.start;
    window.from = window.line.start;
    window.to = reach(text, window.from, end, room);
    if (place < window.to || window.to == end)
        return window;
    size_t before = columns_in(text, (struct stretch){window.line.start, place - window.line.start});
    window.from = reach(text, window.line.start, end, before - room / 3);
    window.to = reach(text, window.from, end, room - 2);
    return window;
}

static void put_gutter(size_t line)
{
    size_t digits = 1;
    for (size_t rest = line; rest >= 10; rest /= 10)
        digits++;
    put_repeated(' ', digits < NUMBER_WIDTH ? NUMBER_WIDTH - digits : 0);
    put_number(line);
    put(" | ");
}

static bool is_cut_before(struct window window)
{
    return window.from > window.line.start;
}

static void put_window(struct text text, struct window window, size_t line)
{
    put_gutter(line);
    if (is_cut_before(window))
        put("\xE2\x80\xA6");
    put_safely(text.bytes + window.from, window.to - window.from);
    if (window.to < end_of(window.line))
        put("\xE2\x80\xA6");
}

static void put_carets(struct text text, struct window window, struct stretch place)
{
    size_t end = end_of(place) < window.to ? end_of(place) : window.to;
    size_t width = end > place.start ? columns_in(text, (struct stretch){place.start, end - place.start}) : 1;
    put_repeated(' ', NUMBER_WIDTH);
    put(" | ");
    put_repeated(' ', columns_in(text, (struct stretch){window.from, place.start - window.from}) + is_cut_before(window));
    put_repeated('^', width == 0 ? 1 : width > MOST_CARETS ? MOST_CARETS : width);
}

static void put_note(struct text text, const struct advice *advice)
{
    struct stretch line = line_at(text, advice->note_line);
    put_window(text, window_of(text, line.start, line.start), advice->note_line);
    put("   <- ");
    put_wording(advice->note);
    put("\n");
}

void put_wording(struct wording wording)
{
    put_safely(wording.words, wording.length);
}

void put_place(const struct chart *chart, const struct advice *advice, const char *kind)
{
    put_name(chart->name);
    if (advice->line > 0) {
        put(":");
        put_number(advice->line);
        put(":");
        put_number(advice->column);
    }
    put(": ");
    put(kind);
}

void put_advice(const struct chart *chart, const struct advice *advice)
{
    struct text text = text_of(chart);
    bool has_note = advice->note_line > 0 && advice->note_line != advice->line && advice->note.length > 0;
    if (has_note && advice->note_line < advice->line)
        put_note(text, advice);
    if (advice->line > 0) {
        struct window window = window_of(text, advice->place.start, advice->place.start);
        put_window(text, window, advice->line);
        put("\n");
        put_carets(text, window, advice->place);
    } else {
        put("    =");
    }
    put(" ");
    put_wording(advice->repair);
    put("\n");
    if (has_note && advice->note_line > advice->line)
        put_note(text, advice);
}
