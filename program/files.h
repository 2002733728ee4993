/* Charts from outside: read to their end, or reported. */
#ifndef FILES_H
#define FILES_H

#include <stdbool.h>
#include <stddef.h>
#include "turnipcart.h"

/* A chart's bytes. One more than the limit is read, so that a text that is too long is seen to be. */
struct chart {
    const char *name;
    unsigned char text[TURNIPCART_TEXT_LIMIT + 1];
    size_t length;
    size_t size; /* bytes of the whole file where that is known, else 0 */
};

/* Reads the file, `-` for standard input. False where it cannot be read to its end; `*why` then says why. */
bool read_chart(const char *name, struct chart *chart, const char **why);

#endif
