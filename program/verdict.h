/* What is said of a chart: accepted with its counts and warnings, or refused with the advice. */
#ifndef VERDICT_H
#define VERDICT_H

#include "files.h"
#include "messages.h"

/* For people: lines of the chart with carets. `options` as for check. */
enum status put_verdict(const struct chart *chart, unsigned options);

/* The refusal alone, for the other subcommands. */
void put_refusal(const struct chart *chart, const struct turnipcart_answer *answer);

/* One object of JSON, a line. */
enum status put_json_verdict(const struct chart *chart, unsigned options);

#endif
