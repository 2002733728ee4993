/* turnipcart list FILE */
#include "listing.h"
#include "subcommands.h"

static enum status show(const struct song *song, const void *more)
{
    (void)more;
    put_listing(song);
    return STATUS_FINE;
}

static enum status run(const struct words *words)
{
    static const struct view view = {.show = show, .refuse = put_listed_refusal};
    return view_song(words->operands[0], &view);
}

const struct subcommand list_subcommand = {
    .name = "list",
    .usage = "list FILE",
    .summary = "list every beat of the song, for programs",
    .help = "Prints the listing of document 01, byte for byte: `song` with the counts of sections, measures, beats and items; then each\n"
            "section with its header's line, its measures and N, each measure's beats, and the prompter's items. A chart that is refused\n"
            "prints `refused R line L` and ends with status 1.\n",
    .least = 1,
    .most = 1,
    .run = run,
};
