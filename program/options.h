/* The words behind a subcommand: options that it knows, in any order, and operands. */
#ifndef OPTIONS_H
#define OPTIONS_H

#include <stdbool.h>
#include <stddef.h>
#include <stdint.h>
#include "messages.h"

enum option {
    OPTION_HELP = 1,
    OPTION_JSON = 2,
    OPTION_BRIEF = 4,
    OPTION_STRICT = 8,
    OPTION_CAPO = 16,
    OPTION_OUTPUT = 32 /* with a word behind it */
};

struct words {
    unsigned options; /* a sum of enum option */
    const char *output; /* the word behind OPTION_OUTPUT, null where it is not given */
    char **operands;
    size_t count;
};

/* What a request adds to the program: one of these in a file of its own, and a row in subcommands.c. */
struct subcommand {
    const char *name;
    const char *usage;    /* its words, as the usage line shows them */
    const char *summary;
    const char *help;     /* the lines below the usage */
    unsigned options;     /* those that it knows, beside --help */
    size_t least;         /* operands that it takes */
    size_t most;
    enum status (*run)(const struct words *words);
};

/* `most` of a subcommand that takes any number of operands. */
#define ANY_NUMBER SIZE_MAX

/* Sorts the words, null at their end, into options and operands (their row is used again). False, with a message, where they do not fit. */
bool sort_words(const struct subcommand *subcommand, char **given, struct words *words);

/* A decimal number up to the largest, without sign and without leading zero. */
bool read_decimal(const char *word, size_t largest, size_t *number);

/* The usage status, after a message: what is not understood, and at which word. */
enum status misuse(const char *what, const char *word);

#endif
