/* 5: settings of keys, of _repeat and of the cuts. */
#include "chords.h"
#include "names.h"
#include "page.h"

enum { LARGEST_BPM = 400, LARGEST_CAPO = 20, LARGEST_TIME = 32, LARGEST_COUNT = 9999, LONGEST_TEXT = 100, DOTTED = 3 };

static bool has_word(struct text text, struct stretch among, const char *word)
{
    for (size_t at = among.start; at < end_of(among); at++)
        if (is_word_loosely(text, (struct stretch){at, word_length(word) < end_of(among) - at ? word_length(word) : end_of(among) - at}, word))
            return true;
    return false;
}

/* A number in the setting that the key may have: its value, or 0. */
static size_t number_meant(struct page *page, size_t smallest, size_t largest)
{
    struct stretch digits = next_number(page->text, page->place, page->place.start);
    size_t value = value_of(page->text, digits);
    return digits.length > 0 && value >= smallest && value <= largest ? value : 0;
}

static void repair_number(struct page *page, size_t smallest, size_t largest, const char *otherwise)
{
    size_t meant = number_meant(page, smallest, largest);
    repair(page, "a whole number from %n to %n", smallest, largest);
    if (meant > 0)
        go_on(page, ": `%s %n`", name_of(page->cause->first), meant);
    else
        go_on(page, "%s", otherwise);
}

static void repair_time(struct page *page)
{
    struct stretch upper = next_number(page->text, page->place, page->place.start);
    struct stretch lower = next_number(page->text, page->place, end_of(upper));
    size_t n = value_of(page->text, upper);
    size_t unit = value_of(page->text, lower);
    bool right = upper.length > 0 && n >= 1 && n <= LARGEST_TIME;
    if (right && unit == 8 && n > DOTTED && n % DOTTED == 0)
        repair(page, "only `n/4` is read; for %n/8 write `%n/4`, or `%n/4` counted in dotted beats", n, n, n / DOTTED);
    else if (right && unit == 2 && n * 2 <= LARGEST_TIME)
        repair(page, "only `n/4` is read; for %n/2 write `%n/4`", n, n * 2);
    else if (right && (lower.length == 0 || unit == 4))
        repair(page, "`n/4` with n from 1 to 32: `@time %n/4`", n);
    else if (right)
        repair(page, "only `n/4` is read; for %n/%n write `%n/4`", n, unit, n);
    else if (is_word_loosely(page->text, page->place, "c"))
        repair(page, "`n/4` with n from 1 to 32: `@time 4/4`");
    else
        repair(page, "`n/4` with n from 1 to 32");
}

/* The base chord that is meant by `a`, `A minor` or `Am7`: letter, accidental and `m`. */
static void repair_original(struct page *page)
{
    struct stretch place = page->place;
    unsigned char first = page->text.bytes[place.start];
    char base[4] = {first >= 'a' && first <= 'g' ? (char)(first - 'a' + 'A') : (char)first, '\0', '\0', '\0'};
    size_t length = 1;
    if (!(base[0] >= 'A' && base[0] <= 'G')) {
        repair(page, "a base chord alone, as `@original Am`");
        return;
    }
    if (place.length > 1 && (page->text.bytes[place.start + 1] == '#' || page->text.bytes[place.start + 1] == 'b'))
        base[length++] = (char)page->text.bytes[place.start + 1];
    else if (has_word(page->text, place, "sharp") || has_word(page->text, place, "\xE2\x99\xAF"))
        base[length++] = '#';
    else if (has_word(page->text, place, "flat") || has_word(page->text, place, "\xE2\x99\xAD"))
        base[length++] = 'b';
    if (has_word(page->text, place, "min") || (length < place.length && page->text.bytes[place.start + length] == 'm'
                                                && !has_word(page->text, place, "maj")))
        base[length] = 'm';
    repair(page, "a base chord alone: `@original %s`", base);
}

static void repair_repeat(struct page *page)
{
    size_t meant = number_meant(page, 2, LARGEST_COUNT);
    if (meant > 0)
        repair(page, "write the number alone: `_repeat %n`", meant);
    else
        repair(page, "2 to 9999; without a repeat delete the line");
}

static void repair_cut(struct page *page)
{
    const char *name = name_of(page->cause->first);
    struct text text = page->text;
    struct stretch upper = next_number(text, page->place, page->place.start);
    struct stretch lower = next_number(text, page->place, end_of(upper));
    size_t measures = value_of(text, upper);
    size_t beats = value_of(text, lower);
    bool in_measures = has_word(text, page->place, "mea") || has_word(text, page->place, "bar") || has_word(text, page->place, "m");
    bool in_beats = has_word(text, page->place, "b") && !in_measures;
    struct character sign = character_at(text.bytes, text.length, page->place.start);
    bool led_by_dash = is_dash(sign.code);
    if (lower.length > 0 && measures > 0 && beats > 0 && !(measures > LARGEST_COUNT || beats > LARGEST_COUNT))
        repair(page, led_by_dash ? "`m`, `-b` or `m-b`: `%s %n-%n`" : "write a hyphen: `%s %n-%n`", name, measures, beats);
    else if (lower.length > 0 && measures > 0)
        repair(page, "write `%s %n`: no count is 0", name, measures);
    else if (lower.length > 0 && beats > 0)
        repair(page, "write `%s -%n`: no count is 0", name, beats);
    else if (measures > 0 && measures <= LARGEST_COUNT && !in_measures && (in_beats || led_by_dash))
        repair(page, "write `%s -%n`", name, measures);
    else if (measures > 0 && measures <= LARGEST_COUNT && in_measures)
        repair(page, "write `%s %n`", name, measures);
    else
        repair(page, "`m` measures, `-b` beats or `m-b` both, each from 1 to 9999, as `%s 1-2`; without a cut delete the line", name);
}

static void repair_setting(struct page *page)
{
    switch (page->cause->first) {
    case TURNIPCART_KEY_ORIGINAL: repair_original(page); break;
    case TURNIPCART_KEY_CAPO: repair_number(page, 1, LARGEST_CAPO, "; without a capo delete the line"); break;
    case TURNIPCART_KEY_BPM: repair_number(page, 0, LARGEST_BPM, ""); break;
    case TURNIPCART_KEY_TIME: repair_time(page); break;
    case NAME_REPEAT: repair_repeat(page); break;
    case NAME_CUT_START:
    case NAME_CUT_END: repair_cut(page); break;
    default: repair(page, "1 to %n characters; this has %n", (size_t)LONGEST_TEXT, characters_in(page->text, page->place));
    }
}

void advise_setting(struct page *page)
{
    const char *name = name_of(page->cause->first);
    if (page->cause->cause == TURNIPCART_CAUSE_SETTING_MISSING) {
        say(page, "%s has no setting", name);
        repair(page, "write it behind a space, or delete the line");
        return;
    }
    say(page, "`%w` is no setting of %s", page->place, name);
    repair_setting(page);
}
