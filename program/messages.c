#include "messages.h"
#include <string.h>
#include <unistd.h>
#include "advice/text.h"

enum { LONGEST_MESSAGE = 1024 };

static size_t append(char *message, size_t length, const char *words, size_t words_length)
{
    if (words_length > LONGEST_MESSAGE - length)
        return length;
    memcpy(message + length, words, words_length);
    return length + words_length;
}

static size_t append_safely(char *message, size_t length, const char *words)
{
    const unsigned char *from = (const unsigned char *)words;
    size_t all = strlen(words);
    for (size_t at = 0; at < all;) {
        struct character character = character_at(from, all, at);
        const char *sign = character_sign(character);
        if (sign != NULL)
            length = append(message, length, sign, strlen(sign));
        else
            length = append(message, length, words + at, character.bytes);
        at += character.bytes;
    }
    return length;
}

void complain(const char *what, const char *why)
{
    char message[LONGEST_MESSAGE];
    size_t length = append_safely(message, 0, "turnipcart: ");
    length = append_safely(message, length, what);
    if (why != NULL) {
        length = append_safely(message, length, ": ");
        length = append_safely(message, length, why);
    }
    if (length == LONGEST_MESSAGE)
        length--;
    message[length++] = '\n';
    /* Where standard error cannot be written either, the status alone speaks. */
    if (write(STDERR_FILENO, message, length) < 0)
        return;
}

enum status worse(enum status first, enum status second)
{
    return first > second ? first : second;
}
