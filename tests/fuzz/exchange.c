/* Lending to a call and to the second reader's, and comparing what both left behind. */
#include "exchange.h"
#include <stdio.h>
#include <string.h>

/* The same words once more, for the second reader. */
void keep(struct exchange *exchange)
{
    for (int place = 0; place < MOST_GIVEN; place++) {
        struct lent *given = &exchange->given[place];
        lend(given, given->length);
        lend(&exchange->kept[place], given->length);
        memcpy(words_of(&exchange->kept[place]), words_of(given), given->length * given->size);
    }
}

void give(struct lent *lent, const void *words, size_t length)
{
    lend(lent, length);
    memcpy(words_of(lent), words, length * lent->size);
}

/* As long as is wanted, or longer, or, now and then, short. */
void lend_room(struct numbers *numbers, struct exchange *exchange, size_t wanted)
{
    size_t length = wanted + (below(numbers, 3) == 0 ? below(numbers, 40) : 0);
    if (below(numbers, 5) == 0)
        length = below(numbers, 3) == 0 ? below(numbers, wanted + 1) : wanted - (wanted > 0);
    lend(&exchange->ours, length);
    lend(&exchange->theirs, length);
}

/* The numbers of the answer; and of a call that writes nothing else, no word. */
void lend_answer(struct exchange *exchange, size_t numbers)
{
    lend(&exchange->ours, exchange->ours.length);
    lend(&exchange->theirs, exchange->theirs.length);
    lend(&exchange->answer, numbers);
    lend(&exchange->expected, numbers);
}

/* The refusal and the numbers that the answer should have. */
void expect(struct exchange *exchange, size_t refusal, const size_t *numbers)
{
    exchange->expected_refusal = refusal;
    memcpy(words_of(&exchange->expected), numbers, exchange->expected.length * WIDE);
}

static bool are_equal(const struct lent *one, const struct lent *other)
{
    return memcmp(one->memory, other->memory, (one->length + 2 * GUARD) * one->size) == 0;
}

/* The place of the first number of the answer that has this name, or that differs where none is asked for; or the answer's length. */
static size_t find_number(const struct exchange *exchange, const char *name)
{
    const uint64_t *answer = words_of(&exchange->answer);
    const uint64_t *expected = words_of(&exchange->expected);
    size_t place = 0;
    while (place < exchange->answer.length
           && (name != NULL ? strcmp(exchange->names[place], name) != 0 : answer[place] == expected[place]))
        place++;
    return place;
}

/* Alters what the name of the call and of a part says, after the call. */
static void spoil(struct exchange *exchange, const char *spoiled)
{
    size_t length = strlen(exchange->name);
    const char *part = strncmp(spoiled, exchange->name, length) == 0 && spoiled[length] == '-' ? spoiled + length + 1 : "";
    if (strcmp(part, "refusal") == 0)
        exchange->refusal++;
    if (strcmp(part, "answer") == 0 && exchange->answer.length > 0)
        spoil_word(&exchange->answer, exchange->answer.length - 1);
    if (exchange->names != NULL && find_number(exchange, part) < exchange->answer.length)
        spoil_word(&exchange->answer, find_number(exchange, part));
    if (strcmp(part, "word") == 0 && exchange->used > 0)
        spoil_word(&exchange->ours, exchange->used - 1);
    if (strcmp(part, "guard") == 0)
        spoil_word(&exchange->ours, exchange->ours.length);
    if (strcmp(part, "past") == 0 && exchange->used < exchange->ours.length)
        spoil_word(&exchange->ours, exchange->ours.length - 1), spoil_word(&exchange->theirs, exchange->ours.length - 1);
    if (strcmp(part, "given") == 0)
        spoil_word(&exchange->given[0], 0);
    if (strcmp(part, "beside") == 0)
        spoil_word(&exchange->answer, exchange->answer.length);
}

/* What differs after the call, or NULL. */
static const char *find_difference(const struct exchange *exchange)
{
    if (exchange->refusal != exchange->expected_refusal)
        return "refusal";
    size_t differs = find_number(exchange, NULL);
    if (differs < exchange->answer.length)
        return exchange->names != NULL ? exchange->names[differs] : "answer";
    if (memcmp(words_of(&exchange->ours), words_of(&exchange->theirs), exchange->used * exchange->ours.size) != 0)
        return "word";
    if (!is_kept(&exchange->ours, exchange->ours.length))
        return "guard";
    if (!is_kept(&exchange->ours, exchange->used))
        return "past";
    if (!are_equal(&exchange->given[0], &exchange->kept[0]) || !are_equal(&exchange->given[1], &exchange->kept[1]))
        return "given";
    return is_kept(&exchange->answer, exchange->answer.length) ? NULL : "beside";
}

const char *judge(struct exchange *exchange, const char *spoiled)
{
    exchange->made++;
    exchange->refused += exchange->expected_refusal != 0;
    spoil(exchange, spoiled);
    static char difference[80];
    const char *part = find_difference(exchange);
    if (part != NULL) {
        snprintf(difference, sizeof difference, "%s-%s", exchange->name, part);
        return difference;
    }
    struct lent *all[] = {&exchange->ours, &exchange->theirs, &exchange->answer, &exchange->expected, &exchange->given[0],
                          &exchange->given[1], &exchange->kept[0], &exchange->kept[1]};
    for (size_t place = 0; place < sizeof all / sizeof *all; place++)
        take_back(all[place], all[place]->length);
    return NULL;
}
