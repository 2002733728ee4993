/* Tables from a seed: good ones, ones with something altered, and plain numbers. */
#ifndef TABLES_H
#define TABLES_H

#include "../driver/lent.h"
#include "charts.h"

/* Fills lent memory, of as many words as they choose. */
void make_measures(struct numbers *numbers, struct lent *measures);
void make_sections(struct numbers *numbers, struct lent *sections, size_t measures);
void make_beats(struct numbers *numbers, struct lent *beats);

/* Now and then turns over a bit or two of the words. */
void alter_words(struct numbers *numbers, struct lent *words);

#endif
