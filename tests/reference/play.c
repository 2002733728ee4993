/* How sections are played: stage 4 (time and %) and stage 5 (writing out, repeats, cuts, lead-ins and tails).
   Stage 5 writes a section's measures out before it cuts them, so a song cut short takes time in proportion to its measures
   before the cuts (at most 65,535) and not only to the words it writes. */
#include <string.h>
#include "song.h"

static bool sizes_divide(const struct facts *facts, unsigned time)
{
    uint64_t divisors = 0;
    for (unsigned size = 1; size <= time; size++)
        if (time % size == 0)
            divisors |= UINT64_C(1) << size;
    return (facts->sizes & ~divisors) == 0;
}

static void check_facts(struct song *song, const struct facts *facts, unsigned time, size_t line)
{
    if (!sizes_divide(facts, time))
        note_refusal(song, REFUSED_DIVISION, line);
    if (facts->needs_chord)
        note_refusal(song, REFUSED_NO_CHORD_BEFORE, line);
}

/* Stage 4. */
void check_time_and_repeats(struct song *song)
{
    for (size_t place = 0; place < song->section_count; place++) {
        const struct section *section = &song->sections[place];
        check_facts(song, &section->facts, section->time, section->header_line);
        check_facts(song, &section->before.facts, section->time, section->before.line);
        check_facts(song, &section->after.facts, section->time, section->after.line);
    }
}

/* The measure being read, and the last chord before it in written order. */
struct player {
    struct song *song;
    unsigned time;
    struct chord last_chord;
    struct chord positions[READER_TIME_LIMIT];
    size_t sounding; /* positions that are kept */
    size_t removers;
};

static void add_measure(struct song *song, struct played_measure measure)
{
    song->measures = more_memory(song->measures, song->measure_count + 1, &song->measure_room, sizeof *song->measures);
    song->measures[song->measure_count++] = measure;
}

static void add_beat(struct song *song, uint32_t word)
{
    song->beats = more_memory(song->beats, song->beat_count + 1, &song->beat_room, sizeof *song->beats);
    song->beats[song->beat_count++] = word;
}

/* After stage 4 a measure has at most 32 positions, so they fit. */
static void add_position(struct player *player, const struct token *token)
{
    if (token->kind == TOKEN_REMOVER) {
        player->removers++;
        return;
    }
    if (token->kind == TOKEN_CHORD)
        player->last_chord = token->chord;
    struct chord silence = {.base = SILENCE};
    player->positions[player->sounding++] = token->kind == TOKEN_SILENCE ? silence : player->last_chord;
}

static void finish_measure(struct player *player)
{
    struct song *song = player->song;
    if (player->sounding == 0)
        return;
    size_t length = player->time / (player->sounding + player->removers);
    struct played_measure measure = {song->beat_count, length * player->sounding};
    for (size_t place = 0; place < player->sounding; place++)
        for (size_t beat = 0; beat < length; beat++)
            add_beat(song, pack_beat(player->positions[place], beat == 0));
    add_measure(song, measure);
    player->sounding = 0;
    player->removers = 0;
}

/* Adds the measures from the place to the end so often that they stand there `times` times. */
static void repeat_measures(struct song *song, size_t from, unsigned times)
{
    size_t to = song->measure_count;
    for (unsigned time = 1; time < times; time++)
        for (size_t place = from; place < to; place++)
            add_measure(song, song->measures[place]);
}

/* Writes a text out at the end of the song's measures. It calls itself for a reference, whose text holds none: depth two. */
static void play_text(struct player *player, struct span text)
{
    struct song *song = player->song;
    size_t position = text.start;
    size_t loop_start = 0;
    for (;;) {
        struct token token = next_token(song->text, text, &position);
        if (is_position(token.kind)) {
            add_position(player, &token);
            continue;
        }
        finish_measure(player);
        if (token.kind == TOKEN_END)
            return;
        if (token.kind == TOKEN_OPEN)
            loop_start = song->measure_count;
        if (token.kind == TOKEN_CLOSE)
            repeat_measures(song, loop_start, token.number);
        if (token.kind == TOKEN_REFERENCE)
            play_text(player, find_definition(song, song->definition_count, token.number)->text);
    }
}

/* Lead-in, pattern and tail are each resolved alone: each has its own player. */
static void play_alone(struct song *song, struct span text, unsigned time)
{
    struct player player = {.song = song, .time = time};
    play_text(&player, text);
}

/* Takes whole measures from the front, then beats; what is left moves up to the place `from`. */
static void cut_front(struct song *song, size_t from, struct cut cut)
{
    size_t first = from;
    size_t left = song->measure_count - from;
    first += cut.measures < left ? cut.measures : left;
    while (first < song->measure_count && cut.beats >= song->measures[first].beats) {
        cut.beats -= (unsigned)song->measures[first].beats;
        first++;
    }
    if (first < song->measure_count) {
        song->measures[first].first_beat += cut.beats;
        song->measures[first].beats -= cut.beats;
    }
    size_t kept = song->measure_count - first;
    if (kept > 0)
        memmove(song->measures + from, song->measures + first, kept * sizeof *song->measures);
    song->measure_count = from + kept;
}

static void cut_back(struct song *song, size_t from, struct cut cut)
{
    size_t left = song->measure_count - from;
    song->measure_count -= cut.measures < left ? cut.measures : left;
    while (song->measure_count > from && cut.beats >= song->measures[song->measure_count - 1].beats) {
        cut.beats -= (unsigned)song->measures[song->measure_count - 1].beats;
        song->measure_count--;
    }
    if (song->measure_count > from)
        song->measures[song->measure_count - 1].beats -= cut.beats;
}

/* Plays one section at the end of the song; false if its cuts leave no beat of the pattern. */
static bool play_section(struct song *song, struct section *section)
{
    section->first_measure = song->measure_count;
    play_alone(song, section->before.text, section->time);
    size_t pattern_start = song->measure_count;
    play_alone(song, section->text, section->time);
    repeat_measures(song, pattern_start, section->repeat);
    cut_front(song, pattern_start, section->cut_start);
    cut_back(song, pattern_start, section->cut_end);
    bool something_left = song->measure_count > pattern_start;
    play_alone(song, section->after.text, section->time);
    section->measures = song->measure_count - section->first_measure;
    return something_left;
}

static void count_beats(struct song *song)
{
    for (size_t place = 0; place < song->measure_count; place++)
        song->beats_to_write += song->measures[place].beats;
}

/* Stage 5. A section is written out only once the song is known not to pass the limit with it; the first refusal met is
   the one of the earliest header, and on one header 14 is looked at before 15. */
void play_song(struct song *song)
{
    uint64_t total = 0;
    for (size_t place = 0; place < song->section_count; place++) {
        struct section *section = &song->sections[place];
        total += section->facts.measures * section->repeat;
        total += section->before.facts.measures + section->after.facts.measures;
        if (total > READER_MEASURE_LIMIT) {
            note_refusal(song, REFUSED_SONG_TOO_LONG, section->header_line);
            return;
        }
        bool something_left = play_section(song, section);
        if (section->is_empty ? section->has_modifier : !something_left) {
            note_refusal(song, REFUSED_NOTHING_LEFT, section->header_line);
            return;
        }
    }
    count_beats(song);
}
