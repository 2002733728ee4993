/* turnipcart check FILE... */
#include <string.h>
#include "output.h"
#include "subcommands.h"
#include "verdict.h"

static enum status check_as_json(const char *name, struct chart *chart, unsigned options)
{
    const char *why = NULL;
    enum status status = STATUS_NOT_READ;
    put("{\"file\":");
    put_json(name, strlen(name));
    if (read_chart(name, chart, &why)) {
        status = put_json_verdict(chart, options);
    } else {
        put(",\"error\":");
        put_json(why, strlen(why));
        complain(name, why);
    }
    put("}\n");
    return status;
}

static enum status check(const char *name, struct chart *chart, unsigned options)
{
    const char *why = NULL;
    if ((options & OPTION_JSON) != 0)
        return check_as_json(name, chart, options);
    if (read_chart(name, chart, &why))
        return put_verdict(chart, options);
    complain(name, why);
    return STATUS_NOT_READ;
}

static enum status run(const struct words *words)
{
    static struct chart chart;
    enum status status = STATUS_FINE;
    for (size_t place = 0; place < words->count; place++)
        status = worse(status, check(words->operands[place], &chart, words->options));
    return status;
}

const struct subcommand check_subcommand = {
    .name = "check",
    .usage = "check [--brief | --json] [--strict] FILE...",
    .summary = "say of each chart whether it is a song, and if not, where and what to write",
    .help = "Each chart is `ok` with its counts, or refused: the place as FILE:LINE:COLUMN, the refusal's number (turnipcart explain NUMBER),\n"
            "what is wrong, the line with a caret, and what to write. Warnings tell of what is read otherwise than a musician would mean it.\n\n"
            "  --brief   one line for each refusal and warning\n"
            "  --json    one object for each file, a line, for programs\n"
            "  --strict  a chart with warnings ends with status 1 too\n\n"
            "The status is the worst of all files: 0 fine, 1 refused, 3 not read.\n",
    .options = OPTION_BRIEF | OPTION_JSON | OPTION_STRICT,
    .least = 1,
    .most = ANY_NUMBER,
    .run = run,
};
