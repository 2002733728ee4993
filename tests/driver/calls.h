/* The exported calls as rows of one table, each with the words of its header in a packed list. */
#ifndef CALLS_H
#define CALLS_H

#include <stdint.h>
#include "lent.h"

enum { MOST_PARTS = 6 };

/* What a word of a header stands for: a number, the length of memory that is lent filled with what follows in the list, or the length
   of memory that is lent to be written. NONE ends the parts of a row. */
enum kind { NONE, NUMBER, GIVEN, WRITTEN };

struct part {
    enum kind kind;
    const char *name;
    size_t enough;      /* of written memory: the length that `-` stands for */
    struct lent memory; /* of given and written memory */
    int64_t number;     /* of a number */
    bool whole;         /* the header gave the length: every word is shown, and not only those written */
    size_t used;        /* words of the memory that are given, or that the call should have written */
};

struct call {
    const char *name;
    size_t (*make)(struct part *parts, void *answer); /* makes the call, says what it should have written, and returns the refusal */
    bool repeats_refusal;                             /* the answer begins with the refusal too */
    struct lent answer;                               /* the numbers of the answer, all of them written */
    struct part parts[MOST_PARTS];
};

extern struct call calls[];
extern const size_t call_count;

#endif
