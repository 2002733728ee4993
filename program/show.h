/* A piece of advice on the screen: the line of the chart with a caret, what to write, and other lines worth a look. */
#ifndef SHOW_H
#define SHOW_H

#include "advice/advice.h"
#include "files.h"

/* `FILE:LINE:COLUMN: KIND`, without line and column where there is no place. */
void put_place(const struct chart *chart, const struct advice *advice, const char *kind);

void put_wording(struct wording wording);

/* The lines below the sentence. */
void put_advice(const struct chart *chart, const struct advice *advice);

#endif
