/* Stages 4 and 5 of a section: times, percents, the song's length and cuts. */
#include <string.h>
#include "chart.h"

enum { DOES_NOT_DIVIDE = 12, NO_CHORD = 13, TOO_LONG = 14, NOTHING_LEFT = 15 };

static bool all_divide(uint64_t positions, unsigned time)
{
    for (; positions != 0; positions &= positions - 1) {
        unsigned count = (unsigned)__builtin_ctzll(positions);
        if (count == 0 || time % count != 0)
            return false;
    }
    return true;
}

static void judge_text(struct chart *chart, const struct text *text, unsigned time, uint32_t line)
{
    if (!all_divide(text->positions, time))
        peer_fault(chart, STAGE_TIME, line, DOES_NOT_DIVIDE);
    if (text->open)
        peer_fault(chart, STAGE_TIME, line, NO_CHORD);
}

/* Beats of a row that is played once. */
static uint32_t beats_of(const struct chart *chart, const struct row *row, unsigned time)
{
    const uint32_t *at = chart->score + row->at, *end = at + row->words;
    uint32_t beats = 0;
    while (at < end) {
        uint32_t above = *at >> ABOVE, positions = *at & BELOW;
        if (positions > 0) {
            beats += above * (time / positions);
            at += 1 + above;
        } else if (above == REFERENCE) {
            beats += beats_of(chart, &chart->definitions[at[1]].text.row, time);
            at += REFERENCE_WORDS;
        } else {
            struct row pass = {(uint32_t)(at - chart->score) + LOOP_WORDS, at[2], at[1]};
            beats += above * beats_of(chart, &pass, time);
            at += LOOP_WORDS + at[2];
        }
    }
    return beats;
}

/* Writes the beats of each measure of a row that is played once. */
static unsigned char *write_lengths(const struct chart *chart, const struct row *row, unsigned time, unsigned char *out)
{
    const uint32_t *at = chart->score + row->at, *end = at + row->words;
    while (at < end) {
        uint32_t above = *at >> ABOVE, positions = *at & BELOW;
        if (positions > 0) {
            *out++ = (unsigned char)(above * (time / positions));
            at += 1 + above;
        } else if (above == REFERENCE) {
            out = write_lengths(chart, &chart->definitions[at[1]].text.row, time, out);
            at += REFERENCE_WORDS;
        } else {
            struct row pass = {(uint32_t)(at - chart->score) + LOOP_WORDS, at[2], at[1]};
            unsigned char *first = out;
            out = write_lengths(chart, &pass, time, out);
            for (uint32_t i = 1; i < above; i++, out += at[1])
                memcpy(out, first, at[1]);
            at += LOOP_WORDS + at[2];
        }
    }
    return out;
}

/* Cuts the front; false if nothing is left. */
static bool cut_front(const unsigned char *lengths, uint32_t pass, struct section *section, struct cut cut)
{
    uint32_t left = cut.beats;
    if (section->last <= cut.measures)
        return false;
    for (section->first = cut.measures; left >= lengths[section->first % pass];) {
        left -= lengths[section->first % pass];
        if (++section->first == section->last)
            return false;
    }
    section->front = left;
    return true;
}

/* Cuts the back of the rest; false if nothing is left. */
static bool cut_back(const unsigned char *lengths, uint32_t pass, struct section *section, struct cut cut)
{
    uint32_t left = cut.beats;
    if (section->last - section->first <= cut.measures)
        return false;
    for (section->last -= cut.measures;; section->last--) {
        if (section->last == section->first)
            return false;
        uint32_t taken = section->last - 1 == section->first ? section->front : 0;
        uint32_t length = lengths[(section->last - 1) % pass] - taken;
        if (length > left)
            break;
        left -= length;
    }
    section->back = left;
    return true;
}

/* Beats of the cut pattern, 0 if nothing is left. */
static uint32_t cut_pattern(struct chart *chart, struct played *played)
{
    struct section *section = played->section;
    uint32_t pass = (uint32_t)section->pattern.measures, beats = 0;
    write_lengths(chart, &section->pattern, section->time, chart->lengths);
    if (!cut_front(chart->lengths, pass, section, played->start) || !cut_back(chart->lengths, pass, section, played->end))
        return 0;
    for (uint32_t at = section->first, place = at % pass; at < section->last; at++) {
        beats += chart->lengths[place];
        place = place + 1 == pass ? 0 : place + 1;
    }
    return beats - section->front - section->back;
}

static bool is_cut(struct cut cut)
{
    return cut.measures > 0 || cut.beats > 0;
}

/* Stage 5, after nothing was found in an earlier one. */
static void judge_length(struct chart *chart, struct played *played)
{
    struct section *section = played->section;
    uint64_t joined = section->before.measures + section->after.measures;
    uint64_t repeated = section->pattern.measures * played->repeat;
    chart->measures += repeated + joined;
    if (chart->measures > SONG_MEASURES) {
        peer_fault(chart, STAGE_LENGTH, section->line, TOO_LONG);
        return;
    }
    uint32_t beats = 0;
    section->last = (uint32_t)repeated;
    if (repeated > 0 && (is_cut(played->start) || is_cut(played->end)))
        beats = cut_pattern(chart, played);
    else
        beats = (uint32_t)played->repeat * beats_of(chart, &section->pattern, section->time);
    if (beats == 0 && played->modified)
        peer_fault(chart, STAGE_LENGTH, section->line, NOTHING_LEFT);
    beats += beats_of(chart, &section->before, section->time) + beats_of(chart, &section->after, section->time);
    section->measures = section->last - section->first + (uint32_t)joined;
    chart->played += section->measures;
    chart->beats += beats;
}

void peer_judge_section(struct chart *chart, struct played *played)
{
    struct section *section = played->section;
    if (played->repeat == 0)
        played->repeat = 1;
    section->pattern = played->pattern->row;
    section->before = played->before->row;
    section->after = played->after->row;
    judge_text(chart, played->pattern, section->time, section->line);
    judge_text(chart, played->before, section->time, played->before_line);
    judge_text(chart, played->after, section->time, played->after_line);
    if ((chart->faults[STAGE_REFERENCES] & chart->faults[STAGE_TIME] & chart->faults[STAGE_LENGTH]) == UINT64_MAX)
        judge_length(chart, played);
}
