/* Document 01's listing, which two subcommands print. */
#ifndef LISTING_H
#define LISTING_H

#include "song.h"

void put_listing(const struct song *song);

/* `refused 12 line 3`, all that a listing says of a chart that is no song. */
void put_listed_refusal(const struct chart *chart, const struct turnipcart_answer *answer);

#endif
