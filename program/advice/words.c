/* 7: a word that is no chord. */
#include "chords.h"
#include "rules.h"

bool other_alphabet(struct page *page, struct stretch word)
{
    struct character first = character_at(page->text.bytes, page->text.length, word.start);
    char letter[] = {letter_looked_like(first.code), '\0'};
    if (letter[0] == '\0')
        return false;
    say(page, "`%w` begins with a letter of another alphabet (%c) that looks like `%s`", word, first.code, letter);
    repair(page, "type `%s%w` anew", letter, (struct stretch){word.start + first.bytes, word.length - first.bytes});
    return true;
}

bool accidental_first(struct page *page, struct stretch word)
{
    struct character first = character_at(page->text.bytes, page->text.length, word.start);
    struct stretch rest = {word.start + first.bytes, word.length - first.bytes};
    const char *sign = first.code == 0x266F ? "#" : "b";
    if ((first.code != 0x266F && first.code != 0x266D) || !is_usual_chord(page->text, rest, true))
        return false;
    say(page, "`%w` is not a chord: the letter stands first", word);
    repair(page, "write `%w%s%w`; sharps and flats are `#` and `b`", (struct stretch){rest.start, 1}, sign,
           (struct stretch){rest.start + 1, rest.length - 1});
    return true;
}

/* The word before on the line, with blanks alone between; empty where there is none. */
static struct stretch word_before(const struct page *page, struct stretch word)
{
    struct stretch line = line_here(page);
    size_t end = word.start;
    while (end > line.start && is_blank(byte_at(page, end - 1)))
        end--;
    size_t start = end;
    while (start > line.start && !is_blank(byte_at(page, start - 1)) && byte_at(page, start - 1) != ';' && byte_at(page, start - 1) != ':'
           && byte_at(page, start - 1) != '[' && byte_at(page, start - 1) != ']')
        start--;
    return (struct stretch){start, end < word.start ? end - start : 0};
}

bool parted_extension(struct page *page, struct stretch word)
{
    struct stretch before = word_before(page, word);
    bool capital = is_letter(byte_at(page, word.start)) && small(byte_at(page, word.start)) != byte_at(page, word.start);
    bool flat = byte_at(page, word.start) == 'b' && (word.length == 1 || !is_digit(byte_at(page, word.start + 1)));
    if (!is_usual_chord(page->text, before, false) || capital || flat || !is_extension(page->text, word) || is_dashes(page->text, word))
        return false;
    say(page, "`%w` alone is not a chord", word);
    repair(page, "join it to the chord before it, without a space, as `%w%w`", before, word);
    return true;
}

bool small_letter(struct page *page, struct stretch word)
{
    char letter[] = {(char)(byte_at(page, word.start) - 'a' + 'A'), '\0'};
    if (!is_usual_chord(page->text, word, true) || looks_like_lyrics(page->text, line_here(page)))
        return false;
    say(page, "`%w` is not a chord: chords begin with a capital", word);
    repair(page, "write `%s%w`", letter, (struct stretch){word.start + 1, word.length - 1});
    return true;
}

/* Names of notes in other countries: H, and those that are sung. */
bool other_letters(struct page *page, struct stretch word)
{
    static const struct {
        const char *name;
        const char *letter;
    } notes[] = {{"Sol", "G"}, {"Do", "C"}, {"Re", "D"}, {"R\xC3\xA9", "D"}, {"Mi", "E"}, {"Fa", "F"}, {"La", "A"}, {"Si", "B"}, {"H", "B"}, {"h", "B"}};
    for (size_t place = 0; place < sizeof notes / sizeof notes[0]; place++) {
        size_t length = word_length(notes[place].name);
        struct stretch rest = {word.start + length, word.length - length};
        if (!begins_with(page->text, word, notes[place].name) || !is_extension(page->text, rest) || looks_like_lyrics(page->text, line_here(page)))
            continue;
        say(page, "`%w` is not a chord: letters go from A to G", word);
        repair(page, "write `%s%w`%s", notes[place].letter, rest, length == 1 ? ", and `Bb` for the note a half step below it" : "");
        return true;
    }
    return false;
}

void advise_word(struct page *page)
{
    static rule *const rules[] = {
        bar_lines, dashes, hidden_character, directive, other_alphabet, comment, times, joined_signs, parted_extension, bare_name,
        comment_as_name, header_inside, small_letter, accidental_first, other_letters, silence, beat_sign, round_loop, wrapped, lyrics, signs_alone,
    };
    for (size_t place = 0; place < sizeof rules / sizeof rules[0]; place++)
        if (rules[place](page, page->place))
            return;
    say(page, "`%w` is not a chord", page->place);
    repair(page, "a chord begins with a letter from A to G, as `Am7`; `%s` is the chord before again, `_` silence", "%");
}
