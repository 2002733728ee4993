/* Writing a piece of advice into lent memory. */
#include "page.h"
#include <stdarg.h>

enum { LONGEST_QUOTE = 60, DIGITS = 20 };

static void add_byte(struct page *page, char byte)
{
    if (page->used < ADVICE_ROOM)
        page->room[page->used++] = byte;
}

static void add_string(struct page *page, const char *words)
{
    for (; *words != '\0'; words++)
        add_byte(page, *words);
}

static void add_number(struct page *page, size_t number, bool commas)
{
    char digits[DIGITS];
    size_t count = 0;
    do {
        digits[count++] = (char)('0' + number % 10);
        number /= 10;
    } while (number > 0);
    while (count > 0) {
        add_byte(page, digits[--count]);
        if (commas && count > 0 && count % 3 == 0)
            add_byte(page, ',');
    }
}

/* Bytes of the chart, at most so many characters of them. */
static void add_stretch(struct page *page, struct stretch stretch)
{
    size_t at = stretch.start;
    for (size_t count = 0; at < end_of(stretch) && count < LONGEST_QUOTE; count++) {
        size_t end = at + character_at(page->text.bytes, page->text.length, at).bytes;
        while (at < end)
            add_byte(page, (char)page->text.bytes[at++]);
    }
    if (at < end_of(stretch))
        add_string(page, "\xE2\x80\xA6");
}

static void add_code(struct page *page, uint32_t code)
{
    static const char digits[] = "0123456789ABCDEF";
    add_string(page, "U+");
    for (int shift = code > 0xFFFF ? 20 : 12; shift >= 0; shift -= 4)
        add_byte(page, digits[code >> shift & 15]);
}

static void add(struct page *page, const char *words, va_list *values)
{
    for (; *words != '\0'; words++) {
        if (*words != '%' || words[1] == '\0') {
            add_byte(page, *words);
            continue;
        }
        switch (*++words) {
        case 's': add_string(page, va_arg(*values, const char *)); break;
        case 'n': add_number(page, va_arg(*values, size_t), false); break;
        case 'N': add_number(page, va_arg(*values, size_t), true); break;
        case 'w': add_stretch(page, va_arg(*values, struct stretch)); break;
        case 'c': add_code(page, va_arg(*values, uint32_t)); break;
        default: add_byte(page, *words);
        }
    }
}

static void write_part(struct page *page, struct wording *part, const char *words, va_list *values)
{
    size_t before = page->used;
    add(page, words, values);
    *part = (struct wording){page->room + before, page->used - before};
    page->last = part;
}

void say(struct page *page, const char *words, ...)
{
    va_list values;
    va_start(values, words);
    write_part(page, &page->advice->sentence, words, &values);
    va_end(values);
}

void repair(struct page *page, const char *words, ...)
{
    va_list values;
    va_start(values, words);
    write_part(page, &page->advice->repair, words, &values);
    va_end(values);
}

void note(struct page *page, size_t line, const char *words, ...)
{
    va_list values;
    va_start(values, words);
    page->advice->note_line = line;
    write_part(page, &page->advice->note, words, &values);
    va_end(values);
}

void go_on(struct page *page, const char *words, ...)
{
    va_list values;
    size_t before = page->used;
    va_start(values, words);
    add(page, words, &values);
    va_end(values);
    page->last->length += page->used - before;
}

struct stretch line_here(const struct page *page)
{
    return line_at(page->text, page->advice->line);
}

void point_at(struct page *page, struct stretch place)
{
    struct stretch before = {line_start(page->text, place.start), 0};
    before.length = place.start - before.start;
    page->advice->place = place;
    page->advice->column = 1 + characters_in(page->text, before);
}

void point_at_line(struct page *page, size_t line)
{
    page->advice->line = line;
    point_at(page, line_at(page->text, line));
}
