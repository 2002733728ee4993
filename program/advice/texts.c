/* 1, 2 and 9: the file as a whole. */
#include "page.h"

static bool is_utf16(struct text text)
{
    const unsigned char *bytes = text.bytes;
    if (text.length < 2)
        return false;
    return (bytes[0] == 0xFF && bytes[1] == 0xFE) || (bytes[0] == 0xFE && bytes[1] == 0xFF) || (bytes[0] == 0) != (bytes[1] == 0);
}

/* What the byte is in the older encodings of Western Europe, as UTF-8; empty where it is nothing there. */
static void write_older(unsigned char byte, char sign[4])
{
    static const char *const signs[] = {
        "\xE2\x82\xAC", "\xE2\x80\xA6", "\xE2\x80\x98", "\xE2\x80\x99", "\xE2\x80\x9C", "\xE2\x80\x9D", "\xE2\x80\x93", "\xE2\x80\x94",
    };
    static const unsigned char bytes[] = {0x80, 0x85, 0x91, 0x92, 0x93, 0x94, 0x96, 0x97};
    sign[0] = '\0';
    if (byte >= 0xA0) {
        sign[0] = (char)(0xC0 | byte >> 6);
        sign[1] = (char)(0x80 | (byte & 0x3F));
        sign[2] = '\0';
    }
    for (size_t place = 0; place < sizeof bytes; place++)
        for (size_t at = 0; byte == bytes[place] && at < 4; at++)
            sign[at] = signs[place][at];
}

static void advise_bad_byte(struct page *page, unsigned char byte)
{
    static const char digits[] = "0123456789ABCDEF";
    char hexadecimal[3] = {digits[byte >> 4], digits[byte & 15], '\0'};
    char older[4];
    write_older(byte, older);
    say(page, "byte %s is no UTF-8", hexadecimal);
    if (older[0] != '\0')
        go_on(page, "; perhaps `%s` saved in an older encoding", older);
    repair(page, "save the file as UTF-8");
}

void advise_text(struct page *page)
{
    const struct turnipcart_cause *cause = page->cause;
    if (cause->cause == TURNIPCART_CAUSE_TEXT_LONG) {
        say(page, "the file has %N bytes, %N too many", cause->first, cause->first - TURNIPCART_TEXT_LIMIT);
        repair(page, "shorten it; a chart has at most %N bytes", (size_t)TURNIPCART_TEXT_LIMIT);
    } else if (cause->cause == TURNIPCART_CAUSE_NO_SECTION) {
        say(page, page->text.length == 0 ? "the file is empty" : "the chart has no section");
        repair(page, "write a section: a line with its name, as `Verse`, and its chords on the next line, as `C;Am;F;G`");
    } else if (is_utf16(page->text)) {
        say(page, "the file is saved as UTF-16 (\"Unicode\")");
        repair(page, "save it as UTF-8");
        page->advice->line = 1;
        point_at(page, (struct stretch){0, 1});
    } else if (cause->cause == TURNIPCART_CAUSE_ZERO_BYTE) {
        say(page, "a zero byte stands in the text");
        repair(page, "delete it, and save the file as plain text in UTF-8");
    } else {
        advise_bad_byte(page, page->text.bytes[page->place.start]);
    }
}
