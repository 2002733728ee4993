/* Random and mutated charts from a seed. */
#ifndef CHARTS_H
#define CHARTS_H

#include <stddef.h>
#include <stdint.h>

/* Numbers that follow from a seed alone. */
struct numbers {
    uint64_t state;
};

struct numbers numbers_of(uint64_t seed, uint64_t number);
uint64_t next_number(struct numbers *numbers);
size_t below(struct numbers *numbers, size_t limit);

/* A chart being written; bytes that find no room are dropped. */
enum { CHART_ROOM = 65600 };

struct chart {
    size_t length;
    unsigned char bytes[CHART_ROOM];
};

/* The charts that mutations start from. */
struct corpus {
    size_t count;
    struct chart *charts;
};

void append(struct chart *chart, const char *piece);
void append_number(struct chart *chart, size_t number);

/* songs.c: a song from a small grammar, most of them good. */
void write_song(struct numbers *numbers, struct chart *chart);

/* slips.c: a short chart, most of them with a slip. */
void write_slip(struct numbers *numbers, struct chart *chart);

/* charts.c: a song of the grammar, a chart of the corpus, or bytes, mutated or as it is. */
void make_chart(struct numbers *numbers, const struct corpus *corpus, struct chart *chart);

#endif
