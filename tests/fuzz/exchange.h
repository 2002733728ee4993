/* All that is lent to a call, beside what is lent to the second reader's. */
#ifndef EXCHANGE_H
#define EXCHANGE_H

#include "../driver/lent.h"
#include "charts.h"

enum { BYTE = 1, SMALL = 4, WIDE = 8, MOST_GIVEN = 2 };

struct exchange {
    const char *name;
    struct lent given[MOST_GIVEN], kept[MOST_GIVEN]; /* the memory that is read */
    struct lent ours, theirs;                        /* the memory that is written */
    struct lent answer, expected;                    /* the numbers of the answer that are written */
    const char *const *names;                        /* of the answer's numbers, where each is named by itself */
    size_t refusal, expected_refusal;
    size_t used;                                     /* words of the memory that should be written */
    size_t made, refused;
};

/* An exchange of a call that is given words of these two sizes and writes words of the third. */
#define EXCHANGE(call, one, two, written)                                                                                      \
    {.name = call, .given = {{.size = one}, {.size = two}}, .kept = {{.size = one}, {.size = two}}, .ours = {.size = written}, \
     .theirs = {.size = written}, .answer = {.size = WIDE}, .expected = {.size = WIDE}}

/* Memory and its length, as calls take them. */
#define LENT(lent) words_of(&(lent)), (lent).length

/* Gives these words to be read; `keep` gives what has been given to the second reader too. */
void give(struct lent *lent, const void *words, size_t length);
void keep(struct exchange *exchange);

/* Lends room to write, as much as is wanted, or more or, now and then, less; and room for the numbers of the answer. */
void lend_room(struct numbers *numbers, struct exchange *exchange, size_t wanted);
void lend_answer(struct exchange *exchange, size_t numbers);

/* The refusal and the numbers that the answer should have. */
void expect(struct exchange *exchange, size_t refusal, const size_t *numbers);

/* What differs, as CALL-PART, or NULL; then all is taken back. `spoiled` names what is altered before that, to see that it is noticed. */
const char *judge(struct exchange *exchange, const char *spoiled);

#endif
