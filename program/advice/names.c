/* The names of keys and modifiers. */
#include "names.h"

static const char *const names[NAMES] = {
    "@name", "@artist", "@original", "@capo", "@bpm", "@time", "@warning", "@end", "_repeat", "_cutStart", "_cutEnd", "_before", "_after",
};

/* What others call them. */
static const struct {
    const char *word;
    size_t number;
} others[] = {
    {"title", 0}, {"song", 0}, {"songname", 0}, {"titel", 0}, {"t", 0}, {"by", 1}, {"band", 1}, {"composer", 1}, {"author", 1},
    {"singer", 1}, {"subtitle", 1}, {"interpret", 1}, {"key", 2}, {"root", 2}, {"tonality", 2}, {"originalkey", 2}, {"fret", 3}, {"tempo", 4},
    {"speed", 4}, {"beats", 4}, {"meter", 5}, {"metre", 5}, {"signature", 5}, {"timesignature", 5}, {"timesig", 5}, {"beat", 5}, {"takt", 5},
    {"note", 6}, {"notes", 6}, {"warn", 6}, {"comment", 6}, {"attention", 6}, {"ending", 7}, {"finish", 7}, {"fine", 7},
    {"loop", 8}, {"times", 8}, {"rep", 8}, {"x", 8}, {"play", 8}, {"cut_start", 9}, {"skip", 9}, {"start", 9}, {"cutfront", 9},
    {"cut_end", 10}, {"end", 10}, {"cut", 10}, {"cutback", 10}, {"intro", 11}, {"leadin", 11}, {"lead-in", 11}, {"pickup", 11}, {"pre", 11},
    {"outro", 12}, {"tail", 12}, {"post", 12}, {"coda", 12},
};

enum { LONGEST_NAME = 16, SLIPS = 2 };

const char *name_of(size_t number)
{
    return number < NAMES ? names[number] : "";
}

static size_t least(size_t first, size_t second)
{
    return first < second ? first : second;
}

/* Letters to put in, take out or change until the word is the name, capitals aside; many where the word is long. */
static size_t distance(struct text text, struct stretch word, const char *name)
{
    size_t row[LONGEST_NAME + 1];
    size_t length = word_length(name);
    if (word.length > LONGEST_NAME || length > LONGEST_NAME)
        return LONGEST_NAME;
    for (size_t place = 0; place <= length; place++)
        row[place] = place;
    for (size_t at = 0; at < word.length; at++) {
        size_t corner = row[0];
        row[0] = at + 1;
        for (size_t place = 0; place < length; place++) {
            size_t change = corner + (small(text.bytes[word.start + at]) != small((unsigned char)name[place]));
            corner = row[place + 1];
            row[place + 1] = least(change, 1 + least(row[place], corner));
        }
    }
    return row[length];
}

size_t name_meant(struct text text, struct stretch word, size_t first, size_t last)
{
    size_t best = NAMES;
    size_t nearest = SLIPS + 1;
    for (size_t place = 0; place < sizeof others / sizeof others[0]; place++)
        if (others[place].number >= first && others[place].number < last && is_word_loosely(text, word, others[place].word))
            best = others[place].number;
    for (size_t number = first; number < last; number++) {
        size_t away = distance(text, word, names[number] + 1);
        if (away < nearest && away < word_length(names[number]) - 1 && (best == NAMES || away <= 1)) {
            nearest = away;
            best = number;
        }
    }
    return best;
}
