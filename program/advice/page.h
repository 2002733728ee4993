/* A piece of advice while it is being written. */
#ifndef PAGE_H
#define PAGE_H

#include "advice.h"

struct page {
    struct text text;
    const struct turnipcart_cause *cause;
    struct stretch place; /* of the cause; the advice may choose a better one */
    struct advice *advice;
    char *room;
    size_t used;
    struct wording *last; /* the part written last */
};

/* Each writes a part anew. In the words `%s` is a string, `%n` a number, `%N` one with commas, `%w` a stretch of the chart, cut where it is
   long, `%c` a code point. */
void say(struct page *page, const char *words, ...);
void repair(struct page *page, const char *words, ...);
void note(struct page *page, size_t line, const char *words, ...);

/* More words behind those written last. */
void go_on(struct page *page, const char *words, ...);

/* Moves the place: on its line, or to another one. */
void point_at(struct page *page, struct stretch place);
void point_at_line(struct page *page, size_t line);

/* The line that the place stands on, without blanks. */
struct stretch line_here(const struct page *page);

/* The advice for each group of refusals. */
void advise_text(struct page *page);       /* 1, 2, 9 */
void advise_keys(struct page *page);       /* 4 */
void advise_setting(struct page *page);    /* 5 */
void advise_definition(struct page *page); /* 3, 6, 10, 11 */
void advise_pattern(struct page *page);    /* 7 */
void advise_word(struct page *page);       /* 7: a word that is no chord */
void advise_loop(struct page *page);       /* 7: brackets and counts */
void advise_section(struct page *page);    /* 8 */
void advise_playing(struct page *page);    /* 12 to 15 */
void advise_lyrics(struct page *page);     /* 16, 17 */

/* Says which name, of names first to last - 1, to write in place of an unknown one; false where none is near. */
bool repair_name(struct page *page, size_t first, size_t last);

/* A number that no definition of the chart has. */
size_t free_reference(struct text text);

/* Lyrics where chords should stand: the sentence, and what to write. */
void advise_dashes_missing(struct page *page);

#endif
