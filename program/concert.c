/* turnipcart concert MOVE FILE */
#include <stdlib.h>
#include "listing.h"
#include "output.h"
#include "subcommands.h"

struct move {
    int semitones;
    bool capo;
};

enum { LARGEST_WRITTEN = 999 };

/* The song's capo, which an accepted song writes as 1 to 20; 0 where it has none. */
static int capo_of(const struct song *song)
{
    uint32_t key = song->tables.keys[TURNIPCART_KEY_CAPO];
    const unsigned char *digits = song->chart->text + turnipcart_key_offset(key);
    int capo = 0;
    for (size_t place = 0; place < turnipcart_key_length(key); place++)
        capo = capo * 10 + (digits[place] - '0');
    return capo;
}

static enum status show(const struct song *song, const void *more)
{
    const struct move *move = more;
    int semitones = move->semitones + (move->capo ? capo_of(song) : 0);
    struct song moved = *song;
    size_t length = song->answer.beats;
    moved.tables.beats = malloc(length > 0 ? length * sizeof *moved.tables.beats : 1);
    if (moved.tables.beats == NULL) {
        complain(song->chart->name, "there is no memory for its tables");
        return STATUS_NOT_READ;
    }
    size_t refusal = turnipcart_concert(song->tables.beats, length, semitones, moved.tables.beats, length);
    if (refusal == TURNIPCART_ACCEPTED)
        put_listing(&moved);
    else
        put_listed_refusal(song->chart, &(struct turnipcart_answer){.refusal = refusal});
    free(moved.tables.beats);
    return refusal == TURNIPCART_ACCEPTED ? STATUS_FINE : STATUS_REFUSED;
}

/* A number with or without a sign. */
static bool read_move(const char *word, int *semitones)
{
    size_t number;
    bool below = word[0] == '-';
    if (!read_decimal(word + (word[0] == '-' || word[0] == '+'), LARGEST_WRITTEN, &number))
        return false;
    *semitones = below ? -(int)number : (int)number;
    return true;
}

static enum status run(const struct words *words)
{
    struct move move = {.capo = (words->options & OPTION_CAPO) != 0};
    struct view view = {.show = show, .refuse = put_listed_refusal, .more = &move};
    if (!read_move(words->operands[0], &move.semitones))
        return misuse("this is no number of semitones", words->operands[0]);
    return view_song(words->operands[1], &view);
}

const struct subcommand concert_subcommand = {
    .name = "concert",
    .usage = "concert [--capo] MOVE FILE",
    .summary = "list the song at concert pitch, for horns",
    .help = "Prints the listing of the song with every chord moved by MOVE semitones, -11 to 20, and written with sharps. A move out of range\n"
            "prints `refused 21 line 0` and ends with status 1.\n\n"
            "  --capo    add the song's capo to the move\n",
    .options = OPTION_CAPO,
    .least = 2,
    .most = 2,
    .run = run,
};
