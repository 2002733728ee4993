/* Memory lent to a call: words of one size with guard words around. All of it holds a known pattern but for the words in use, so a
   word that a call should have left alone shows. */
#ifndef LENT_H
#define LENT_H

#include <stdbool.h>
#include <stddef.h>

enum { GUARD = 16 }; /* words before and behind what is lent, at least */

struct lent {
    size_t size;            /* bytes of a word */
    size_t length;          /* words lent */
    size_t room;            /* words that could be lent */
    unsigned char *memory;  /* guard words, the room, guard words */
    unsigned char *pattern; /* as long: what the memory holds where nothing is in use */
};

/* Lends this many words; memory that is too small for them is made anew. */
void lend(struct lent *lent, size_t length);

/* The first word lent. */
void *words_of(const struct lent *lent);

/* The value of a word; places behind the length are guard words. */
unsigned long long word_at(const struct lent *lent, size_t place);

/* Turns the lowest bit of a word over: what a test does to see that it is noticed. */
void spoil_word(struct lent *lent, size_t place);

/* The words near the lent ones are untouched: those before, those from the place `used` on, those at the end and those behind. */
bool is_kept(const struct lent *lent, size_t used);

/* Puts the pattern back into the first words; then every word of the memory should hold it, which `is_restored` looks at. */
void take_back(struct lent *lent, size_t used);
bool is_restored(const struct lent *lent);

#endif
