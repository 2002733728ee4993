/* Stage 2: the blocks, their order, and the definitions. */
#include "song.h"

static bool line_is_blank(const struct song *song, size_t line)
{
    return song->lines[line].start == song->lines[line].end;
}

static enum block_kind kind_of(const struct song *song, size_t line)
{
    unsigned char first = song->text[song->lines[line].start];
    if (first == '@')
        return METADATA_BLOCK;
    return first == '$' ? DEFINITION_BLOCK : SECTION_BLOCK;
}

/* A block is a longest run of lines that aren't blank. */
static void find_blocks(struct song *song)
{
    song->blocks = take_memory(song->line_count / 2 + 1, sizeof *song->blocks);
    size_t line = 0;
    while (line < song->line_count) {
        if (line_is_blank(song, line)) {
            line++;
            continue;
        }
        struct block block = {.kind = kind_of(song, line), .first = line};
        while (line < song->line_count && !line_is_blank(song, line))
            line++;
        block.last = line - 1;
        song->blocks[song->block_count++] = block;
    }
}

/* The head line `$n`. A definition past the 26th is refused and not kept. */
static void read_definition_block(struct song *song, struct block block)
{
    struct definition definition = {.head_line = block.first + 1, .is_empty = block.first == block.last};
    bool good = read_reference(song->text, song->lines[block.first], &definition.number);
    if (good && find_definition(song, song->definition_count, definition.number) != NULL)
        good = false;
    if (!good || song->definition_count == DEFINITION_LIMIT)
        note_refusal(song, REFUSED_DEFINITION_HEAD, block.first + 1);
    if (!definition.is_empty) {
        definition.text.start = song->lines[block.first + 1].start;
        definition.text.end = song->lines[block.last].end;
        if (!pattern_is_good(song->text, definition.text, DEFINITION_TEXT))
            note_refusal(song, REFUSED_PATTERN_TEXT, block.first + 2);
    }
    if (song->definition_count < DEFINITION_LIMIT)
        song->definitions[song->definition_count++] = definition;
}

static void read_block(struct song *song, struct block block)
{
    switch (block.kind) {
    case METADATA_BLOCK:
        read_metadata_block(song, block);
        break;
    case DEFINITION_BLOCK:
        read_definition_block(song, block);
        break;
    case SECTION_BLOCK:
        read_section_block(song, block);
        break;
    }
}

/* A section's time and tempo are its own, else the song's. */
static void settle_sections(struct song *song)
{
    for (size_t place = 0; place < song->section_count; place++) {
        struct section *section = &song->sections[place];
        if (section->time == 0)
            section->time = song->time;
        if (section->bpm == NO_BPM)
            section->bpm = song->bpm;
    }
}

/* Stage 2. */
void read_layout(struct song *song)
{
    enum block_kind latest = METADATA_BLOCK;
    find_lines(song);
    find_blocks(song);
    song->sections = take_memory(song->block_count, sizeof *song->sections);
    song->time = DEFAULT_TIME;
    song->bpm = NO_BPM;
    for (size_t place = 0; place < song->block_count; place++) {
        struct block block = song->blocks[place];
        if (block.kind < latest)
            note_refusal(song, REFUSED_BLOCK_ORDER, block.first + 1);
        else
            latest = block.kind;
        read_block(song, block);
    }
    if (song->refusal == READER_ACCEPTED && song->section_count == 0)
        note_refusal(song, REFUSED_NO_SECTION, 0);
    settle_sections(song);
}
