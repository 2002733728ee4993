/* References between definitions (stage 3), and the facts of every pattern text with its references put in. */
#include "song.h"

enum { SIZE_OVER_LIMIT = 63 }; /* the bit that stands for every measure of more than 32 positions */

/* The definition of that number among the first so many, or none. At most 26 are looked at. */
struct definition *find_definition(struct song *song, size_t among, unsigned number)
{
    for (size_t place = 0; place < among; place++)
        if (song->definitions[place].number == number)
            return &song->definitions[place];
    return NULL;
}

static void check_one_reference(struct song *song, size_t place, unsigned number, bool in_loop)
{
    size_t line = song->definitions[place].head_line;
    const struct definition *target = find_definition(song, place, number);
    if (target == NULL)
        note_refusal(song, REFUSED_REFERENCE_UNDEFINED, line);
    else if (target->has_reference || target->is_empty || (in_loop && target->has_loop))
        note_refusal(song, REFUSED_REFERENCE_KIND, line);
}

static void check_definition(struct song *song, size_t place)
{
    struct definition *definition = &song->definitions[place];
    size_t position = definition->text.start;
    bool in_loop = false;
    for (;;) {
        struct token token = next_token(song->text, definition->text, &position);
        if (token.kind == TOKEN_END)
            return;
        if (token.kind == TOKEN_OPEN)
            definition->has_loop = true;
        if (token.kind == TOKEN_OPEN || token.kind == TOKEN_CLOSE)
            in_loop = token.kind == TOKEN_OPEN;
        if (token.kind == TOKEN_REFERENCE) {
            definition->has_reference = true;
            check_one_reference(song, place, token.number, in_loop);
        }
    }
}

/* Stage 3. */
void check_references(struct song *song)
{
    for (size_t place = 0; place < song->definition_count; place++)
        check_definition(song, place);
    for (size_t place = 0; place < song->section_count; place++) {
        const struct section *section = &song->sections[place];
        if (section->reference > 0 && find_definition(song, song->definition_count, section->reference) == NULL)
            note_refusal(song, REFUSED_REFERENCE_UNDEFINED, section->header_line);
    }
}

static void add_position(struct facts *facts, enum token_kind kind)
{
    if (kind == TOKEN_CHORD)
        facts->has_chord = true;
    if (kind == TOKEN_REPEAT && !facts->has_chord)
        facts->needs_chord = true;
}

static void add_size(struct facts *facts, size_t size)
{
    facts->sizes |= UINT64_C(1) << (size <= READER_TIME_LIMIT ? size : SIZE_OVER_LIMIT);
}

static void add_reference(struct facts *facts, const struct facts *other)
{
    facts->sizes |= other->sizes;
    facts->measures += other->measures;
    if (other->needs_chord && !facts->has_chord)
        facts->needs_chord = true;
    facts->has_chord = facts->has_chord || other->has_chord;
}

/* Walks a good text once, in written order. The count of measures can't pass 64 bits: 65,536 bytes hold fewer than 22,000
   references, to at most 33,000 measures each, with one loop of 9,999 around, and _repeat 9,999: under 2^57. */
static struct facts gather_facts(struct song *song, struct span text)
{
    struct facts facts = {0};
    size_t position = text.start;
    size_t size = 0;
    uint64_t before_loop = 0;
    for (;;) {
        struct token token = next_token(song->text, text, &position);
        if (is_position(token.kind)) {
            add_position(&facts, token.kind);
            facts.measures += size == 0;
            size++;
            continue;
        }
        if (size > 0)
            add_size(&facts, size);
        size = 0;
        if (token.kind == TOKEN_END)
            return facts;
        if (token.kind == TOKEN_OPEN)
            before_loop = facts.measures;
        if (token.kind == TOKEN_CLOSE)
            facts.measures = before_loop + (facts.measures - before_loop) * token.number;
        if (token.kind == TOKEN_REFERENCE)
            add_reference(&facts, &find_definition(song, song->definition_count, token.number)->facts);
    }
}

/* After stage 3: every reference leads to an earlier definition, whose facts are known. */
void gather_all_facts(struct song *song)
{
    for (size_t place = 0; place < song->definition_count; place++)
        song->definitions[place].facts = gather_facts(song, song->definitions[place].text);
    for (size_t place = 0; place < song->section_count; place++) {
        struct section *section = &song->sections[place];
        if (section->reference > 0) {
            struct definition *named = find_definition(song, song->definition_count, section->reference);
            section->text = named->text;
            section->is_empty = named->is_empty;
            section->facts = named->facts;
        } else {
            section->facts = gather_facts(song, section->text);
        }
        section->before.facts = gather_facts(song, section->before.text);
        section->after.facts = gather_facts(song, section->after.text);
    }
}
