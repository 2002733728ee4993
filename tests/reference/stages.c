/* The eight stages, one after another, each over the whole file; then the writing. */
#include <stdlib.h>
#include "song.h"

/* Stage 8. */
static void check_tables(struct song *song, const struct reader_tables *tables)
{
    bool enough = tables->keys_length >= READER_KEYS && tables->sections_length >= song->section_count
        && tables->measures_length >= song->measure_count && tables->beats_length >= song->beats_to_write
        && tables->items_length >= song->items_to_write;
    if (!enough)
        note_refusal(song, REFUSED_TABLE_TOO_SHORT, 0);
}

/* Runs the stages; the first with a refusal is the last to run. */
void run_stages(struct song *song, const struct reader_tables *tables)
{
    check_text(song);
    if (song->refusal == READER_ACCEPTED)
        read_layout(song);
    if (song->refusal == READER_ACCEPTED)
        check_references(song);
    if (song->refusal == READER_ACCEPTED) {
        gather_all_facts(song);
        check_time_and_repeats(song);
    }
    if (song->refusal == READER_ACCEPTED)
        play_song(song);
    if (song->refusal == READER_ACCEPTED)
        check_counts_present(song);
    if (song->refusal == READER_ACCEPTED)
        check_count_sums(song);
    if (song->refusal == READER_ACCEPTED) {
        song->items_to_write = count_items(song);
        if (tables != NULL)
            check_tables(song, tables);
    }
}

void free_song(struct song *song)
{
    free(song->lines);
    free(song->blocks);
    free(song->sections);
    free(song->measures);
    free(song->beats);
}

/* The counts of a song that passed the stages, or its refusal. */
static struct reader_answer answer_of(const struct song *song)
{
    if (song->refusal != READER_ACCEPTED)
        return (struct reader_answer){.refusal = song->refusal, .line = song->refusal_line};
    return (struct reader_answer){READER_ACCEPTED, 0, song->section_count, song->measure_count, song->beats_to_write,
                                  song->items_to_write};
}

struct reader_answer reader_read(const unsigned char *text, size_t length, const struct reader_tables *tables)
{
    struct song song = {.text = text, .length = length};
    run_stages(&song, tables);
    if (song.refusal == READER_ACCEPTED)
        write_tables(&song, tables);
    struct reader_answer answer = answer_of(&song);
    free_song(&song);
    return answer;
}

struct reader_answer reader_count(const unsigned char *text, size_t length)
{
    struct song song = {.text = text, .length = length};
    run_stages(&song, NULL);
    struct reader_answer answer = answer_of(&song);
    free_song(&song);
    return answer;
}
