/* The names of keys and modifiers, by the numbers that causes give them, and the name that was meant by another one. */
#ifndef NAMES_H
#define NAMES_H

#include "text.h"

enum { NAME_REPEAT = 8, NAME_CUT_START = 9, NAME_CUT_END = 10, NAME_BEFORE = 11, NAME_AFTER = 12, NAMES = 13, KEYS = 8 };

/* With its `@` or `_`; an empty one for every other number. */
const char *name_of(size_t number);

/* The number of the name in names first to last - 1 that is meant by a word without its sign: but for capitals, as other programs call it, or
   with a letter or two that differ. NAMES where none is. */
size_t name_meant(struct text text, struct stretch word, size_t first, size_t last);

#endif
