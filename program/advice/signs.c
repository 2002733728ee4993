/* 7: signs where chords should stand. Each rule knows one habit. */
#include "chords.h"
#include "rules.h"

/* Bytes that stand between measures on other people's charts. */
static bool is_bar(const struct page *page, size_t at)
{
    return byte_at(page, at) == '|';
}

/* Writes the line's chords with one `;` where its signs stood. */
static void write_parted(struct page *page, struct stretch line)
{
    const char *between = "";
    size_t at = line.start;
    while (at < end_of(line)) {
        struct stretch part = {at, 0};
        while (end_of(part) < end_of(line) && !is_bar(page, end_of(part)) && byte_at(page, end_of(part)) != ':' && byte_at(page, end_of(part)) != ';')
            part.length++;
        at = end_of(part) + 1;
        part = trimmed(page->text, part);
        if (part.length > 0) {
            go_on(page, "%s%w", between, part);
            between = ";";
        }
    }
}

bool bar_lines(struct page *page, struct stretch word)
{
    if (!is_bar(page, word.start))
        return false;
    point_at(page, (struct stretch){word.start, 1});
    say(page, "bar lines are not written here");
    repair(page, "write one `;` between measures and none at the ends: `");
    write_parted(page, line_here(page));
    go_on(page, "`");
    return true;
}

/* The line's usual words with `;` between, where dashes stood between them. */
static void write_undashed(struct page *page, struct stretch line)
{
    const char *between = "";
    for (struct stretch word = next_word(page->text, line, line.start); word.length > 0; word = next_word(page->text, line, end_of(word)))
        if (!is_dashes(page->text, word)) {
            go_on(page, "%s%w", between, word);
            between = ";";
        }
}

bool dashes(struct page *page, struct stretch word)
{
    struct stretch line = line_here(page);
    if (!is_dashes(page->text, word))
        return false;
    say(page, "`%w` is not a chord", word);
    repair(page, "%s", "");
    if (word.start > line.start && looks_like_chords(page->text, line)) {
        go_on(page, "between measures write `;`, as `");
        write_undashed(page, line);
        go_on(page, "`; ");
    }
    go_on(page, "lyrics are parted from chords by a line with two hyphens alone: `--`");
    return true;
}

bool hidden_character(struct page *page, struct stretch word)
{
    struct character first = character_at(page->text.bytes, page->text.length, word.start);
    bool space = is_other_space(first.code);
    if (!space && !is_invisible(first.code) && first.code >= ' ')
        return false;
    point_at(page, (struct stretch){word.start, first.bytes});
    say(page, first.code == 0xA0 ? "a no-break space (%c) stands here" : space ? "another space (%c) than the plain one stands here"
                                                                         : "an invisible character (%c) stands here", first.code);
    repair(page, space ? "type a plain space there" : "delete it");
    return true;
}

/* A name without the comment that stands in it too. */
static struct stretch before_hash(const struct page *page, struct stretch name)
{
    size_t length = 0;
    while (length < name.length && byte_at(page, name.start + length) != '#')
        length++;
    return trimmed(page->text, (struct stretch){name.start, length});
}

bool comment(struct page *page, struct stretch word)
{
    struct stretch name = name_in_header(page->text, line_at(page->text, page->cause->other_line));
    bool slashes = begins_with(page->text, word, "//") || begins_with(page->text, word, "/*");
    if (byte_at(page, word.start) != '#' && !slashes)
        return false;
    point_at(page, (struct stretch){word.start, slashes ? 2u : 1u});
    say(page, slashes ? "`//` starts no comment in a chart" : "`#` starts no comment in a chart");
    repair(page, "take it away; a remark goes behind `!` in the header: `%w!remark`", before_hash(page, name));
    return true;
}

/* `x2`, `(x2)`, `2x`, `*2`: digits with a sign for times. */
bool times(struct page *page, struct stretch word)
{
    struct stretch digits = next_number(page->text, word, word.start);
    bool sign = false;
    for (size_t at = word.start; at < end_of(word);) {
        struct character character = character_at(page->text.bytes, page->text.length, at);
        bool is_sign = character.code == 'x' || character.code == 'X' || character.code == '*' || character.code == 0xD7;
        if (!is_sign && character.code != '(' && character.code != ')' && !(character.code >= '0' && character.code <= '9'))
            return false;
        sign = sign || is_sign;
        at += character.bytes;
    }
    if (digits.length == 0 || !sign)
        return false;
    say(page, "`%w` is not a chord", word);
    repair(page, "to repeat all of it write `_repeat %n` below; for a part write `[`, the measures and `]%n`", value_of(page->text, digits),
           value_of(page->text, digits));
    return true;
}

static bool is_sign(unsigned char byte)
{
    return byte == '%' || byte == '_' || byte == '=';
}

/* `A=`, `G%`, `%%`: signs that do not stand apart, behind a chord or alone. */
bool joined_signs(struct page *page, struct stretch word)
{
    size_t at = word.start;
    while (at < end_of(word) && !is_sign(byte_at(page, at)))
        at++;
    struct stretch chord = {word.start, at - word.start};
    struct stretch rest = {at, end_of(word) - at};
    if (rest.length == 0 || (chord.length > 0 && !is_usual_chord(page->text, chord, false)))
        return false;
    for (at = rest.start; at < end_of(rest); at++)
        if (!is_sign(byte_at(page, at)))
            return false;
    say(page, "`%w` is not a chord: `%s`, `_` and `=` stand apart", word, "%");
    repair(page, chord.length > 0 ? "put a space before the sign: `%w" : "write `%w", chord);
    for (at = rest.start; at < end_of(rest); at++)
        go_on(page, at == word.start ? "%w" : " %w", (struct stretch){at, 1});
    go_on(page, "`");
    return true;
}

bool beat_sign(struct page *page, struct stretch word)
{
    if (!is_word(page->text, word, "/") && !is_word(page->text, word, ".") && !is_word(page->text, word, "\"") && !is_word(page->text, word, "~"))
        return false;
    say(page, "`%w` is not a chord", word);
    repair(page, "where the chord goes on write `%s`, or the chord once for the whole measure", "%");
    return true;
}

/* `(C;Am)x2`: a loop in round brackets. */
bool round_loop(struct page *page, struct stretch word)
{
    struct stretch line = line_here(page);
    size_t close = word.start;
    while (close < end_of(line) && byte_at(page, close) != ')')
        close++;
    if (byte_at(page, word.start) != '(' || close < end_of(word) || close == end_of(line))
        return false;
    struct stretch behind = {close + 1, end_of(line) - close - 1};
    struct stretch digits = next_number(page->text, behind, behind.start);
    size_t count = digits.length > 0 && digits.start < close + 4 ? value_of(page->text, digits) : 2;
    point_at(page, (struct stretch){word.start, 1});
    say(page, "a loop has square brackets");
    repair(page, "write `[%w]%n`", (struct stretch){word.start + 1, close - word.start - 1}, count < 2 ? 2 : count);
    return true;
}

static bool closes(unsigned char byte)
{
    return byte == ')' || byte == '}' || byte == '>' || byte == '"' || byte == '*';
}

/* A chord in brackets or quotes, or behind a comma. */
bool wrapped(struct page *page, struct stretch word)
{
    struct stretch chord = {word.start + 1, 0};
    unsigned char first = byte_at(page, word.start);
    if (first != '(' && first != '{' && first != '<' && first != '"' && first != '*' && first != ',')
        return false;
    while (end_of(chord) < end_of(word) && !closes(byte_at(page, end_of(chord))))
        chord.length++;
    if (!is_usual_chord(page->text, chord, false))
        return false;
    say(page, "`%w` is not a chord", word);
    repair(page, "write it alone: `%w`", chord);
    return true;
}

/* Signs of any other kind, as `&` or `->`. */
bool signs_alone(struct page *page, struct stretch word)
{
    for (size_t at = word.start; at < end_of(word); at++)
        if (is_letter(byte_at(page, at)) || is_digit(byte_at(page, at)) || byte_at(page, at) >= 0xE3)
            return false;
    say(page, "`%w` is not a chord", word);
    repair(page, "take it away: measures are parted by `;`, chords in a measure by spaces");
    return true;
}

bool silence(struct page *page, struct stretch word)
{
    static const char *const signs[] = {"N.C.", "N.C", "NC", "N/C", "tacet", "rest", "pause", "stop", "r"};
    for (size_t place = 0; place < sizeof signs / sizeof signs[0]; place++)
        if (is_word_loosely(page->text, word, signs[place])) {
            say(page, "`%w` is not a chord", word);
            repair(page, "silence is written `_`");
            return true;
        }
    return false;
}
