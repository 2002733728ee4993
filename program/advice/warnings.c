/* Warnings for a chart that is accepted: chords that swallowed their neighbours, and a song whose words will not be shown. */
#include "chords.h"
#include "names.h"
#include "page.h"

enum part { BETWEEN_BLOCKS, KEYS_BLOCK, CHORDS, LYRICS, ENDED };

void begin_warnings(struct text text, size_t items, struct warning_search *search)
{
    *search = (struct warning_search){.text = text, .items = items, .part = BETWEEN_BLOCKS};
}

/* What of a line of an accepted chart is pattern text: all of it, or what stands behind _before and _after, or nothing. */
static struct stretch pattern_in(struct text text, struct stretch line)
{
    struct stretch none = {line.start, 0};
    if (text.bytes[line.start] == '@')
        return none;
    if (text.bytes[line.start] != '_' || line.length == 1 || !is_letter(text.bytes[line.start + 1]))
        return line;
    size_t name = begins_with(text, line, name_of(NAME_BEFORE)) ? NAME_BEFORE : NAME_AFTER;
    if (!begins_with(text, line, name_of(name)))
        return none;
    return (struct stretch){line.start + word_length(name_of(name)), line.length - word_length(name_of(name))};
}

/* Goes on to the next line, and keeps what of it is to be looked at. */
static void begin_line(struct warning_search *search)
{
    struct text text = search->text;
    struct stretch line = next_line(text, &search->at);
    search->line++;
    search->left = (struct stretch){line.start, 0};
    if (line.length == 0) {
        search->part = BETWEEN_BLOCKS;
    } else if (search->part == BETWEEN_BLOCKS) {
        search->part = text.bytes[line.start] == '@' ? KEYS_BLOCK : CHORDS;
    } else if (search->part == CHORDS) {
        if (is_word(text, line, "--"))
            search->part = LYRICS;
        else
            search->left = pattern_in(text, line);
    }
}

/* The next word of the line that is a chord to the reader and none to a musician. */
static struct stretch next_odd_chord(struct warning_search *search)
{
    struct stretch word = next_word(search->text, search->left, search->left.start);
    while (word.length > 0) {
        bool odd = search->text.bytes[word.start] >= 'A' && search->text.bytes[word.start] <= 'G' && !is_usual_chord(search->text, word, false);
        search->left = (struct stretch){end_of(word), end_of(search->left) - end_of(word)};
        if (odd)
            return word;
        word = next_word(search->text, search->left, search->left.start);
    }
    return word;
}

/* Whether the first bytes of a word, so many, end in the `m` of a `maj`. */
static bool ends_in_maj(struct text text, struct stretch word, size_t length)
{
    return begins_with(text, (struct stretch){word.start + length - 1, word.length - length + 1}, "maj");
}

/* Bytes of the base chord at a word's beginning, as the reader takes it: the longest whose `m` is none of a `maj`. */
static size_t base_length(struct text text, struct stretch word)
{
    size_t longest = 0;
    for (unsigned base = 0; base < TURNIPCART_BASES; base++) {
        size_t length = word_length(turnipcart_base_name(base));
        if (length > longest && begins_with(text, word, turnipcart_base_name(base)) && !ends_in_maj(text, word, length))
            longest = length;
    }
    return longest;
}

static void warn_of_chord(struct page *page, struct stretch word)
{
    size_t base = base_length(page->text, word);
    point_at(page, word);
    say(page, "`%w` is read as one chord, %w with `%w`", word, (struct stretch){word.start, base},
        (struct stretch){word.start + base, word.length - base});
    repair(page, "if this is not one chord, part measures by `;` and chords by plain spaces; sharps and flats are `#` and `b`");
}

/* A line of words: said once for the whole line. */
static void warn_of_words(struct page *page, struct stretch line)
{
    point_at(page, line);
    say(page, "`%w` is read as chords", line);
    if (looks_like_header(page->text, line))
        repair(page, "if a section begins here, write a blank line above it");
    else
        repair(page, "if these are lyrics, write a line `--` above them");
}

static void warn_of_odd_chord(struct page *page, struct warning_search *search, struct stretch word)
{
    struct stretch line = line_at(page->text, search->line);
    if (!looks_like_lyrics(page->text, line) && !looks_like_header(page->text, line)) {
        warn_of_chord(page, word);
        return;
    }
    warn_of_words(page, line);
    search->left.length = 0;
}

/* What keeps the prompter's items from being written. */
struct survey {
    size_t lyric_line;     /* the first one; each is 0 where there is none */
    size_t bare_header;    /* of the first section without lyrics */
    size_t uncounted_line; /* the first lyric line without a count */
};

static void survey_line(struct survey *survey, struct text text, struct stretch line, size_t number, bool *lyrics)
{
    if (*lyrics) {
        if (survey->lyric_line == 0)
            survey->lyric_line = number;
        if (survey->uncounted_line == 0 && count_at_end(text, line).length == 0)
            survey->uncounted_line = number;
    }
    if (is_word(text, line, "--"))
        *lyrics = true;
}

/* Surveys one block from its first line on, which stands at a place; both move behind it. */
static void survey_block(struct survey *survey, struct text text, size_t *at, size_t *number)
{
    size_t header = *number;
    struct stretch line = next_line(text, at);
    bool is_section = text.bytes[line.start] != '@' && text.bytes[line.start] != '$';
    bool lyrics = false;
    for (line = next_line(text, at), (*number)++; line.length > 0; line = next_line(text, at), (*number)++)
        if (is_section)
            survey_line(survey, text, line, *number, &lyrics);
    if (is_section && !lyrics && survey->bare_header == 0)
        survey->bare_header = header;
}

static struct survey survey_of(struct text text)
{
    struct survey survey = {0, 0, 0};
    size_t at = 0;
    size_t number = 1;
    while (at < text.length) {
        size_t line = at;
        if (next_line(text, &line).length == 0)
            at = line;
        else
            survey_block(&survey, text, &at, &number);
        number++;
    }
    return survey;
}

static bool warn_of_no_words(struct page *page)
{
    struct survey survey = survey_of(page->text);
    if (survey.lyric_line == 0)
        return false;
    if (survey.bare_header > 0) {
        struct stretch name = name_in_header(page->text, line_at(page->text, survey.bare_header));
        point_at_line(page, survey.bare_header);
        point_at(page, name);
        say(page, "no words will be shown: `%w` has no lyrics", name);
        repair(page, "give it some, below a line `--`, as `***%w*** _4` with its measures", name);
        note(page, survey.lyric_line, "these words are lost");
    } else if (survey.uncounted_line > 0) {
        point_at_line(page, survey.uncounted_line);
        point_at(page, (struct stretch){end_of(line_here(page)), 0});
        say(page, "no words will be shown: the lyric lines have no counts");
        repair(page, "end each with a space, `_` and its measures, as ` _2`");
    } else {
        point_at_line(page, survey.lyric_line);
        say(page, "no words will be shown: a section has no measures");
        repair(page, "give every section chords");
    }
    return true;
}

bool next_warning(struct warning_search *search, char *room, struct advice *advice)
{
    struct page page = {.text = search->text, .advice = advice, .room = room};
    *advice = (struct advice){0};
    while (search->part != ENDED) {
        struct stretch word = next_odd_chord(search);
        if (word.length > 0) {
            advice->line = search->line;
            warn_of_odd_chord(&page, search, word);
            return true;
        }
        if (search->at < search->text.length) {
            begin_line(search);
            continue;
        }
        search->part = ENDED;
        return search->items == 0 && warn_of_no_words(&page);
    }
    return false;
}
