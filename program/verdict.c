#include "verdict.h"
#include "options.h"
#include "output.h"
#include "show.h"

/* A chart with more warnings than this is not like a chart at all. */
enum { MOST_WARNINGS = 20 };

static struct text text_of(const struct chart *chart)
{
    return (struct text){chart->text, chart->length};
}

/* The cause of the refusal; the size of a file that is too long is its whole size, where that is known. */
static void find_cause(const struct chart *chart, struct turnipcart_cause *cause)
{
    turnipcart_explain(chart->text, chart->length, cause);
    if (cause->refusal == TURNIPCART_TEXT_TOO_LONG && chart->size > cause->first)
        cause->first = chart->size;
}

static size_t count_warnings(const struct chart *chart, size_t items)
{
    static char room[ADVICE_ROOM];
    struct warning_search search;
    struct advice advice;
    size_t count = 0;
    begin_warnings(text_of(chart), items, &search);
    while (count < MOST_WARNINGS && next_warning(&search, room, &advice))
        count++;
    return count;
}

static void put_warnings(const struct chart *chart, size_t items, bool brief)
{
    static char room[ADVICE_ROOM];
    struct warning_search search;
    struct advice advice;
    begin_warnings(text_of(chart), items, &search);
    for (size_t count = 0; count < MOST_WARNINGS && next_warning(&search, room, &advice); count++) {
        put_place(chart, &advice, "warning: ");
        put_wording(advice.sentence);
        put("\n");
        if (!brief)
            put_advice(chart, &advice);
    }
}

static enum status put_accepted(const struct chart *chart, const struct turnipcart_answer *answer, unsigned options)
{
    size_t warnings = count_warnings(chart, answer->items);
    put_name(chart->name);
    put(": ok");
    if (warnings > 0) {
        put(", ");
        put_count(warnings, "warning");
    }
    put(": ");
    put_count(answer->sections, "section");
    put(", ");
    put_count(answer->measures, "measure");
    put(", ");
    put_count(answer->beats, "beat");
    put(", ");
    put_count(answer->items, "prompter line");
    put("\n");
    put_warnings(chart, answer->items, (options & OPTION_BRIEF) != 0);
    return warnings > 0 && (options & OPTION_STRICT) != 0 ? STATUS_REFUSED : STATUS_FINE;
}

static void put_refused(const struct chart *chart, bool brief)
{
    static char room[ADVICE_ROOM];
    struct turnipcart_cause cause;
    struct advice advice;
    find_cause(chart, &cause);
    advise(text_of(chart), &cause, room, &advice);
    put_place(chart, &advice, "refused ");
    put_number(cause.refusal);
    put(": ");
    put_wording(advice.sentence);
    if (brief) {
        put("; ");
        put_wording(advice.repair);
    }
    put("\n");
    if (!brief)
        put_advice(chart, &advice);
}

void put_refusal(const struct chart *chart, const struct turnipcart_answer *answer)
{
    (void)answer;
    put_refused(chart, false);
}

enum status put_verdict(const struct chart *chart, unsigned options)
{
    struct turnipcart_answer answer;
    if (turnipcart_count(chart->text, chart->length, &answer) == TURNIPCART_ACCEPTED)
        return put_accepted(chart, &answer, options);
    put_refused(chart, (options & OPTION_BRIEF) != 0);
    return STATUS_REFUSED;
}

static void put_member(const char *name, size_t number)
{
    put(",\"");
    put(name);
    put("\":");
    put_number(number);
}

static void put_words_member(const char *name, struct wording wording)
{
    put(",\"");
    put(name);
    put("\":");
    put_json(wording.words, wording.length);
}

/* The members of a piece of advice, behind one that stands already. */
static void put_json_advice(const struct advice *advice)
{
    put_member("place_line", advice->line);
    put_member("column", advice->column);
    put_member("offset", advice->place.start);
    put_member("length", advice->place.length);
    put_words_member("sentence", advice->sentence);
    put_words_member("repair", advice->repair);
    put_member("note_line", advice->note_line);
    put_words_member("note", advice->note);
}

static size_t put_json_warnings(const struct chart *chart, size_t items)
{
    static char room[ADVICE_ROOM];
    struct warning_search search;
    struct advice advice;
    size_t count = 0;
    put(",\"warnings\":[");
    begin_warnings(text_of(chart), items, &search);
    for (; count < MOST_WARNINGS && next_warning(&search, room, &advice); count++) {
        put(count == 0 ? "{\"number\":" : ",{\"number\":");
        put_number(count);
        put_json_advice(&advice);
        put("}");
    }
    put("]");
    return count;
}

static void put_json_cause(const struct chart *chart)
{
    static char room[ADVICE_ROOM];
    struct turnipcart_cause cause;
    struct advice advice;
    find_cause(chart, &cause);
    advise(text_of(chart), &cause, room, &advice);
    put_member("cause", cause.cause);
    put_json_advice(&advice);
}

enum status put_json_verdict(const struct chart *chart, unsigned options)
{
    struct turnipcart_answer answer;
    size_t warnings = 0;
    turnipcart_count(chart->text, chart->length, &answer);
    put_member("refusal", answer.refusal);
    put_member("line", answer.line);
    put_member("sections", answer.sections);
    put_member("measures", answer.measures);
    put_member("beats", answer.beats);
    put_member("items", answer.items);
    if (answer.refusal == TURNIPCART_ACCEPTED)
        warnings = put_json_warnings(chart, answer.items);
    else
        put_json_cause(chart);
    if (answer.refusal != TURNIPCART_ACCEPTED)
        return STATUS_REFUSED;
    return warnings > 0 && (options & OPTION_STRICT) != 0 ? STATUS_REFUSED : STATUS_FINE;
}
