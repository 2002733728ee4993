/* The causes of 10 to 13: references, and measures in the written order of a text, references put in. */
#include "causes.h"

/* What is wrong with a reference from a definition or a section, or 0. */
static size_t kind_of_reference(const struct search *search, unsigned number, bool in_loop)
{
    const struct definition *target = find_definition(search->song, search->song->definition_count, number);
    bool undefined = target == NULL || target->head_line >= search->cause->line;
    if (search->cause->refusal == REFUSED_REFERENCE_UNDEFINED || undefined)
        return undefined ? CAUSE_REFERENCE_UNDEFINED : 0;
    if (target->has_reference)
        return CAUSE_REFERENCE_DEEP;
    if (in_loop && target->has_loop)
        return CAUSE_REFERENCE_LOOPS;
    return target->is_empty ? CAUSE_REFERENCE_EMPTY : 0;
}

/* The text of a definition or section before references are put in. */
static struct span text_of(const struct search *search)
{
    const struct song *song = search->song;
    if (search->block.kind == SECTION_BLOCK)
        return section_of(search)->text;
    size_t place = 0;
    while (song->definitions[place].head_line != search->cause->line)
        place++;
    return song->definitions[place].text;
}

/* The word that ends at a place. */
static struct span word_before(const unsigned char *text, struct span whole, size_t end)
{
    struct span word = {end, end};
    while (word.start > whole.start && !ends_word(text[word.start - 1]))
        word.start--;
    return word;
}

void search_references(struct search *search)
{
    const struct song *song = search->song;
    struct span whole = text_of(search);
    size_t position = whole.start;
    bool in_loop = false;
    for (;;) {
        struct token token = next_token(song->text, whole, &position);
        if (token.kind == TOKEN_END)
            return;
        if (token.kind == TOKEN_OPEN || token.kind == TOKEN_CLOSE)
            in_loop = token.kind == TOKEN_OPEN;
        size_t kind = token.kind == TOKEN_REFERENCE ? kind_of_reference(search, token.number, in_loop) : 0;
        if (kind == 0)
            continue;
        const struct definition *target = find_definition(search->song, song->definition_count, token.number);
        place_at(search, kind, word_before(song->text, whole, position));
        search->cause->first = token.number;
        search->cause->other_line = target == NULL ? 0 : target->head_line;
        return;
    }
}

/* A walk through measures. */
struct walk {
    struct search *search;
    unsigned time;
    bool has_chord;  /* one stands before */
    size_t measures; /* that are begun */
    size_t size;     /* positions of the last one */
    struct span measure;
};

static bool is_wrong_percent(const struct walk *walk, enum token_kind kind)
{
    return walk->search->cause->refusal == REFUSED_NO_CHORD_BEFORE && kind == TOKEN_REPEAT && !walk->has_chord;
}

static void add_position(struct walk *walk, enum token_kind kind, struct span word)
{
    walk->measures += walk->size == 0;
    if (walk->size == 0)
        walk->measure.start = word.start;
    walk->measure.end = word.end;
    walk->size++;
    walk->has_chord = walk->has_chord || kind == TOKEN_CHORD;
}

/* True where the measure that ended is the refused one. */
static bool end_measure(struct walk *walk)
{
    size_t size = walk->size;
    walk->size = 0;
    if (walk->search->cause->refusal != REFUSED_DIVISION || size == 0 || walk->time % size == 0)
        return false;
    place_at(walk->search, CAUSE_POSITIONS, walk->measure);
    walk->search->cause->first = size;
    return true;
}

/* True where the refused measure or sign is met. A definition that is put in has no reference to a third. */
static bool walk_text(struct walk *walk, struct span whole)
{
    struct song *song = walk->search->song;
    size_t position = whole.start;
    for (;;) {
        struct token token = next_token(song->text, whole, &position);
        struct span word = word_before(song->text, whole, position);
        if (is_position(token.kind)) {
            bool wrong = is_wrong_percent(walk, token.kind);
            add_position(walk, token.kind, word);
            if (wrong)
                place_at(walk->search, CAUSE_NO_CHORD_BEFORE, word);
            if (wrong)
                return true;
            continue;
        }
        if (end_measure(walk))
            return true;
        if (token.kind == TOKEN_END)
            return false;
        if (token.kind == TOKEN_REFERENCE && walk_text(walk, find_definition(song, song->definition_count, token.number)->text))
            return true;
    }
}

void search_measures(struct search *search)
{
    const struct section *section = section_of(search);
    struct walk walk = {.search = search, .time = section->time};
    struct span whole = section->text;
    if (section->before.present && section->before.line == search->cause->line)
        whole = section->before.text;
    if (section->after.present && section->after.line == search->cause->line)
        whole = section->after.text;
    walk_text(&walk, whole);
    search->cause->second = walk.time;
    search->cause->third = walk.measures;
    search->cause->other_line = section->header_line;
}
