#include "subcommands.h"

const struct subcommand *const subcommands[] = {
    &check_subcommand,
    &grid_subcommand,
    &list_subcommand,
    &find_subcommand,
    &concert_subcommand,
    &cues_subcommand,
    &flat_subcommand,
    &explain_subcommand,
    NULL,
};
