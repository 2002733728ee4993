/* The other calls on generated input, compared with the second reader's. */
#ifndef CALLS_H
#define CALLS_H

#include "../reference/reader.h"
#include "charts.h"

/* What input is made from: a chart, and the tables that it has been read into, cut to the answer's counts. */
struct source {
    const struct chart *chart;
    struct chart *slip; /* room for a short chart with a slip */
    struct reader_tables tables;
};

/* Makes each call that the library has, on the chart, on its tables or on tables of its own. Returns what differs, as CALL-PART, or NULL.
   `spoiled` names what is altered after a call, to see that it is noticed: of a CALL the `refusal`, a number of the `answer`, a `word`
   written, one `past` the answer, a `guard` word, one that was `given` or one `beside` the answer. */
const char *try_calls(struct numbers *numbers, const struct source *source, const char *spoiled);

/* How often each call was made and refused, a few words for each. */
void print_calls(void);

#endif
