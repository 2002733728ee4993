/* turnipcart flat [-o OUTPUT] FILE... */
#include "output.h"
#include "show.h"
#include "subcommands.h"
#include "verdict.h"

/* Between two copies: a printer begins a new page there. */
static const char new_page[] = "\f\n";

/* What is said of a copy that is too long. */
static void put_too_long(const struct chart *chart)
{
    static char room[ADVICE_ROOM];
    struct advice advice;
    advise_copy((struct text){chart->text, chart->length}, room, &advice);
    put_place(chart, &advice, "refused 20: ");
    put_wording(advice.sentence);
    put("\n");
    put_advice(chart, &advice);
}

/* What is said goes to standard error, since the output is the copies. */
static enum status refuse(const struct chart *chart, const struct turnipcart_copied *copied)
{
    begin_aside();
    if (copied->refusal == TURNIPCART_COPY_TOO_LONG)
        put_too_long(chart);
    else
        put_refusal(chart, &(struct turnipcart_answer){.refusal = copied->refusal, .line = copied->line});
    end_aside();
    return STATUS_REFUSED;
}

/* Puts the copy of a chart behind those that were put before. */
static enum status put_copy(const char *name, const char *before)
{
    static struct chart chart;
    static unsigned char copy[TURNIPCART_COPY_ENOUGH];
    struct turnipcart_copied copied;
    const char *why = NULL;
    if (!read_chart(name, &chart, &why)) {
        complain(name, why);
        return STATUS_NOT_READ;
    }
    if (turnipcart_flat(chart.text, chart.length, copy, sizeof copy, &copied) != TURNIPCART_ACCEPTED)
        return refuse(&chart, &copied);
    put(before);
    put_bytes(copy, copied.length);
    return STATUS_FINE;
}

static enum status run(const struct words *words)
{
    enum status status = STATUS_FINE;
    const char *before = "";
    output_to(words->output);
    for (size_t place = 0; place < words->count; place++) {
        enum status found = put_copy(words->operands[place], before);
        if (found == STATUS_FINE)
            before = new_page;
        status = worse(status, found);
    }
    return status;
}

const struct subcommand flat_subcommand = {
    .name = "flat",
    .usage = "flat [-o OUTPUT] FILE...",
    .summary = "copy the song with nothing folded, for paper",
    .help = "Prints a chart that reads as the song does, with every measure as it is played on a line of its own: no repeats, loops, cuts,\n"
            "lead-ins, tails or definitions are left, but for an empty one, which sections that play nothing name; keys, headers and lyrics\n"
            "are as they were. Several copies are parted by a form feed, so that a printer begins a page with each. A chart that is refused\n"
            "has no copy: what `turnipcart check` says of it goes to standard error. A copy of more than 65,536 bytes is refused (20).\n\n"
            "  -o OUTPUT, --output OUTPUT    write into this file; it is not touched where no chart has a copy\n\n"
            "The status is the worst of all files: 0 copied, 1 refused, 3 not read or not written.\n",
    .options = OPTION_OUTPUT,
    .least = 1,
    .most = ANY_NUMBER,
    .run = run,
};
