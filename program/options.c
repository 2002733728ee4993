#include "options.h"
#include <string.h>

static const struct {
    const char *name;
    enum option option;
} known[] = {
    {"--help", OPTION_HELP}, {"--json", OPTION_JSON}, {"--brief", OPTION_BRIEF}, {"--strict", OPTION_STRICT}, {"--capo", OPTION_CAPO},
    {"-o", OPTION_OUTPUT},   {"--output", OPTION_OUTPUT},
};

static unsigned option_named(const char *word)
{
    for (size_t place = 0; place < sizeof known / sizeof known[0]; place++)
        if (strcmp(word, known[place].name) == 0)
            return known[place].option;
    return 0;
}

/* `-` is standard input, and `-3` a number. */
static bool is_option(const char *word)
{
    return word[0] == '-' && word[1] != '\0' && !(word[1] >= '0' && word[1] <= '9');
}

enum status misuse(const char *what, const char *word)
{
    complain(what, word);
    return STATUS_USAGE;
}

static bool fits(const struct subcommand *subcommand, const struct words *words)
{
    if ((words->options & OPTION_HELP) != 0)
        return true;
    if (words->count < subcommand->least)
        misuse("something is missing; usage: turnipcart", subcommand->usage);
    else if (words->count > subcommand->most)
        misuse("these are too many words; usage: turnipcart", subcommand->usage);
    return words->count >= subcommand->least && words->count <= subcommand->most;
}

/* Takes an option, and the word behind it where it needs one; the last word taken, or null, with a message. */
static char **take_option(const struct subcommand *subcommand, char **word, struct words *words)
{
    unsigned option = option_named(*word);
    if ((option & (subcommand->options | OPTION_HELP)) == 0) {
        misuse("there is no such option of this subcommand", *word);
        return NULL;
    }
    words->options |= option;
    if (option != OPTION_OUTPUT)
        return word;
    if (word[1] == NULL) {
        misuse("a file's name is missing behind", *word);
        return NULL;
    }
    words->output = word[1];
    return word + 1;
}

bool sort_words(const struct subcommand *subcommand, char **given, struct words *words)
{
    bool options_end = false;
    *words = (struct words){.operands = given};
    for (char **word = given; *word != NULL; word++) {
        if (!options_end && strcmp(*word, "--") == 0) {
            options_end = true;
            continue;
        }
        if (options_end || !is_option(*word)) {
            words->operands[words->count++] = *word;
            continue;
        }
        word = take_option(subcommand, word, words);
        if (word == NULL)
            return false;
    }
    return fits(subcommand, words);
}

bool read_decimal(const char *word, size_t largest, size_t *number)
{
    *number = 0;
    if (word[0] == '\0' || (word[0] == '0' && word[1] != '\0'))
        return false;
    for (; *word != '\0'; word++) {
        size_t digit = (size_t)(*word - '0');
        if (*word < '0' || *word > '9' || *number > (largest - digit) / 10)
            return false;
        *number = *number * 10 + digit;
    }
    return true;
}
