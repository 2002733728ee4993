/* What is said to the arranger: from a text and the cause of its refusal to a sentence, the place to change and what to write; and the
   warnings for a chart that is accepted. Freestanding: no files, no terminal, no heap; all words go into lent memory. */
#ifndef ADVICE_H
#define ADVICE_H

#include "text.h"
#include "turnipcart.h"

/* Bytes of lent memory that hold every piece of advice. */
enum { ADVICE_ROOM = 4096 };

/* Words in the lent memory; bytes of the chart in them are as they stand there. */
struct wording {
    const char *words;
    size_t length;
};

struct advice {
    size_t line;             /* of the place to change, from 1; 0 where there is no place */
    size_t column;           /* in characters, from 1 */
    struct stretch place;    /* its bytes; none where something is missing there */
    struct wording sentence; /* what is wrong */
    struct wording repair;   /* what to write */
    size_t note_line;        /* another line to show, 0 where there is none */
    struct wording note;     /* what is said of it */
};

/* Advice for a refused chart. */
void advise(struct text text, const struct turnipcart_cause *cause, char *room, struct advice *advice);

/* Advice for a song whose flat copy is too long (20). */
void advise_copy(struct text text, char *room, struct advice *advice);

/* Warnings for an accepted chart, one after another: true, and the next one, until none is left. `items` is the song's count of items. */
struct warning_search {
    struct text text;
    size_t items;
    size_t line;              /* the last line begun */
    size_t at;                /* where the next one begins */
    struct stretch left;      /* what is left of a line with chords */
    int part;                 /* of the chart, and whether its end is reached */
};
void begin_warnings(struct text text, size_t items, struct warning_search *search);
bool next_warning(struct warning_search *search, char *room, struct advice *advice);

#endif
