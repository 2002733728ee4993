/* The subcommands, each in the file of its name. */
#ifndef SUBCOMMANDS_H
#define SUBCOMMANDS_H

#include "options.h"

extern const struct subcommand check_subcommand;
extern const struct subcommand list_subcommand;
extern const struct subcommand grid_subcommand;
extern const struct subcommand find_subcommand;
extern const struct subcommand concert_subcommand;
extern const struct subcommand cues_subcommand;
extern const struct subcommand flat_subcommand;
extern const struct subcommand explain_subcommand;

/* All of them, null at the end. */
extern const struct subcommand *const subcommands[];

#endif
