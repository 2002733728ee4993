/* turnipcart SUBCOMMAND [OPTION...] OPERAND...: the program for people over the proved reader. */
#include <string.h>
#include "output.h"
#include "subcommands.h"
#include "turnipcart.h"

enum { NAMES_WIDTH = 12 };

static void put_help(void)
{
    put("turnipcart reads SongCode chord charts.\n\nusage: turnipcart SUBCOMMAND [OPTION...] FILE...\n\n");
    for (const struct subcommand *const *row = subcommands; *row != NULL; row++) {
        put("  ");
        put((*row)->name);
        put_repeated(' ', NAMES_WIDTH - strlen((*row)->name));
        put((*row)->summary);
        put("\n");
    }
    put("\nA FILE `-` is standard input. `turnipcart SUBCOMMAND --help` tells more of one; `turnipcart --version` says which this is.\n"
        "Status: 0 all is fine, 1 a chart is refused, 2 the command is not understood, 3 a file is not read or the output not written.\n");
}

static void put_subcommand_help(const struct subcommand *subcommand)
{
    put("usage: turnipcart ");
    put(subcommand->usage);
    put("\n\n");
    put(subcommand->help);
}

static const struct subcommand *subcommand_named(const char *name)
{
    for (const struct subcommand *const *row = subcommands; *row != NULL; row++)
        if (strcmp(name, (*row)->name) == 0)
            return *row;
    return NULL;
}

static enum status run_subcommand(char **given)
{
    const struct subcommand *subcommand = subcommand_named(given[0]);
    struct words words;
    if (subcommand == NULL)
        return misuse("there is no such subcommand (turnipcart --help lists them)", given[0]);
    if (!sort_words(subcommand, given + 1, &words))
        return STATUS_USAGE;
    if ((words.options & OPTION_HELP) == 0)
        return subcommand->run(&words);
    put_subcommand_help(subcommand);
    return STATUS_FINE;
}

static enum status run(char **given)
{
    if (given[0] == NULL)
        return misuse("a subcommand is missing (turnipcart --help lists them)", NULL);
    if (strcmp(given[0], "--help") == 0 || strcmp(given[0], "help") == 0)
        put_help();
    else if (strcmp(given[0], "--version") == 0)
        put("turnipcart " TURNIPCART_VERSION "\n");
    else
        return run_subcommand(given);
    return STATUS_FINE;
}

int main(int count, char **given)
{
    enum status status = run(given + (count > 0));
    return finish_output() ? (int)status : STATUS_NOT_READ;
}
