/* What was found against what is wanted; the programs of this folder end with 1 where one differed. */
#ifndef EXPECT_H
#define EXPECT_H

#include <stdio.h>

static int faults;

static void expect(const char *what, size_t found, size_t wanted)
{
    if (found != wanted) {
        fprintf(stderr, "%s: found %zu, wanted %zu\n", what, found, wanted);
        faults++;
    }
}

#endif
