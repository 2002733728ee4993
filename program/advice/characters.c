/* Characters: what they are, and what is shown for them. */
#include "text.h"

struct range {
    uint32_t first;
    uint32_t last;
};

static bool is_in(uint32_t code, const struct range *ranges, size_t count)
{
    for (size_t place = 0; place < count; place++)
        if (code >= ranges[place].first && code <= ranges[place].last)
            return true;
    return false;
}

#define IS_IN(code, ranges) is_in(code, ranges, sizeof(ranges) / sizeof((ranges)[0]))

/* Bytes of the character that a lead byte begins, 0 for a byte that begins none; the payload's bits are put in. */
static size_t lead(unsigned char byte, uint32_t *code)
{
    if (byte < 0x80) {
        *code = byte;
        return 1;
    }
    if (byte >= 0xC2 && byte < 0xE0) {
        *code = byte & 0x1Fu;
        return 2;
    }
    if (byte >= 0xE0 && byte < 0xF0) {
        *code = byte & 0x0Fu;
        return 3;
    }
    if (byte >= 0xF0 && byte < 0xF5) {
        *code = byte & 0x07u;
        return 4;
    }
    return 0;
}

struct character character_at(const unsigned char *text, size_t length, size_t at)
{
    static const uint32_t least[] = {0, 0, 0x80, 0x800, 0x10000};
    struct character none = {NO_CHARACTER, 1};
    struct character found = {0, 0};
    found.bytes = lead(text[at], &found.code);
    if (found.bytes == 0 || found.bytes > length - at)
        return none;
    for (size_t place = 1; place < found.bytes; place++) {
        if ((text[at + place] & 0xC0) != 0x80)
            return none;
        found.code = found.code << 6 | (text[at + place] & 0x3Fu);
    }
    if (found.code < least[found.bytes] || found.code > 0x10FFFF || (found.code >= 0xD800 && found.code < 0xE000))
        return none;
    return found;
}

bool is_other_space(uint32_t code)
{
    static const struct range spaces[] = {
        {0xA0, 0xA0}, {0x1680, 0x1680}, {0x2000, 0x200A}, {0x202F, 0x202F}, {0x205F, 0x205F}, {0x3000, 0x3000},
    };
    return IS_IN(code, spaces);
}

bool is_invisible(uint32_t code)
{
    /* Marks without width, and those that turn the direction of writing. */
    static const struct range marks[] = {
        {0xAD, 0xAD}, {0x61C, 0x61C}, {0x200B, 0x200C}, {0x200E, 0x200F}, {0x2028, 0x202E}, {0x2060, 0x206F}, {0xFEFF, 0xFEFF},
        {0xFFF9, 0xFFFB}, {0xE0000, 0xE007F},
    };
    return IS_IN(code, marks);
}

const char *character_sign(struct character character)
{
    static const struct range control[] = {{0, 0x1F}, {0x7F, 0x9F}, {NO_CHARACTER, NO_CHARACTER}};
    if (character.code == '\t')
        return " ";
    if (is_other_space(character.code))
        return "\xE2\x90\xA3"; /* an open box */
    if (is_invisible(character.code) || IS_IN(character.code, control))
        return "\xEF\xBF\xBD"; /* the replacement character */
    return NULL;
}

size_t character_width(struct character character)
{
    static const struct range joined[] = {{0x300, 0x36F}, {0x200D, 0x200D}, {0x20D0, 0x20FF}, {0xFE00, 0xFE0F}, {0x1F3FB, 0x1F3FF}};
    static const struct range wide[] = {
        {0x1100, 0x115F}, {0x2E80, 0x303E}, {0x3041, 0xA4CF}, {0xAC00, 0xD7A3}, {0xF900, 0xFAFF}, {0xFE30, 0xFE4F}, {0xFF00, 0xFF60},
        {0xFFE0, 0xFFE6}, {0x1F300, 0x1F64F}, {0x1F680, 0x1F6FF}, {0x1F900, 0x1FAFF}, {0x20000, 0x3FFFD},
    };
    if (character_sign(character) != NULL)
        return 1;
    if (IS_IN(character.code, joined))
        return 0;
    return IS_IN(character.code, wide) ? 2 : 1;
}
