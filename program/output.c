#include "output.h"
#include <errno.h>
#include <fcntl.h>
#include <stdlib.h>
#include <string.h>
#include <sys/ioctl.h>
#include <unistd.h>
#include "advice/text.h"
#include "messages.h"

enum { USUAL_WIDTH = 120, LEAST_WIDTH = 40, DIGITS = 20 };

static char gathered[1 << 16];
static size_t gathered_length;
static int failure; /* errno of the first write that failed */
static const char *output_name; /* of a file that is still to be opened */
static int output = STDOUT_FILENO;
static bool is_aside;

/* Opens the named file before the first byte goes there. */
static void open_output(void)
{
    enum { FOR_ALL = 0666 };
    output = open(output_name, O_WRONLY | O_CREAT | O_TRUNC | O_CLOEXEC, FOR_ALL);
    failure = output < 0 ? errno : 0;
    output_name = NULL;
}

/* Writes what is gathered into an open file. 0, or errno. */
static int write_into(int file)
{
    for (size_t done = 0; done < gathered_length;) {
        ssize_t written = write(file, gathered + done, gathered_length - done);
        if (written >= 0)
            done += (size_t)written;
        else if (errno != EINTR)
            return errno;
    }
    return 0;
}

/* Where standard error cannot be written, the status alone speaks. */
static void write_gathered(void)
{
    if (is_aside)
        write_into(STDERR_FILENO);
    else if (output_name != NULL && gathered_length > 0 && failure == 0)
        open_output();
    if (!is_aside && failure == 0)
        failure = write_into(output);
    gathered_length = 0;
}

void output_to(const char *name)
{
    output_name = name != NULL && strcmp(name, "-") != 0 ? name : NULL;
}

void begin_aside(void)
{
    write_gathered();
    is_aside = true;
}

void end_aside(void)
{
    write_gathered();
    is_aside = false;
}

void put_bytes(const void *bytes, size_t length)
{
    const char *from = bytes;
    while (length > 0) {
        size_t room = sizeof gathered - gathered_length;
        size_t part = length < room ? length : room;
        memcpy(gathered + gathered_length, from, part);
        gathered_length += part;
        from += part;
        length -= part;
        if (gathered_length == sizeof gathered)
            write_gathered();
    }
}

void put(const char *words)
{
    put_bytes(words, strlen(words));
}

void put_number(size_t number)
{
    char digits[DIGITS];
    size_t first = DIGITS;
    do {
        digits[--first] = (char)('0' + number % 10);
        number /= 10;
    } while (number > 0);
    put_bytes(digits + first, DIGITS - first);
}

void put_repeated(char sign, size_t times)
{
    while (times-- > 0)
        put_bytes(&sign, 1);
}

void put_count(size_t number, const char *noun)
{
    put_number(number);
    put(" ");
    put(noun);
    if (number != 1)
        put("s");
}

void put_safely(const void *bytes, size_t length)
{
    const unsigned char *from = bytes;
    for (size_t at = 0; at < length;) {
        struct character character = character_at(from, length, at);
        const char *sign = character_sign(character);
        if (sign != NULL)
            put(sign);
        else
            put_bytes(from + at, character.bytes);
        at += character.bytes;
    }
}

void put_name(const char *name)
{
    if (strcmp(name, "-") == 0)
        put("standard input");
    else
        put_safely(name, strlen(name));
}

/* A code point as JSON writes it where it must not stand as it is: one number of four digits, or two. */
static void put_escape(uint32_t code)
{
    static const char digits[] = "0123456789abcdef";
    char escape[] = "\\u0000";
    if (code > 0xFFFF) {
        put_escape(0xD7C0 + (code >> 10));
        code = 0xDC00 + (code & 0x3FF);
    }
    for (int place = 5; place >= 2; place--, code /= 16)
        escape[place] = digits[code % 16];
    put(escape);
}

void put_json(const void *bytes, size_t length)
{
    const unsigned char *from = bytes;
    put("\"");
    for (size_t at = 0; at < length;) {
        struct character character = character_at(from, length, at);
        if (character.code == NO_CHARACTER)
            put_escape(0xFFFD);
        else if (character.code == '"' || character.code == '\\' || character_sign(character) != NULL)
            put_escape(character.code);
        else
            put_bytes(from + at, character.bytes);
        at += character.bytes;
    }
    put("\"");
}

bool finish_output(void)
{
    write_gathered();
    if (output != STDOUT_FILENO && output >= 0 && close(output) != 0 && failure == 0)
        failure = errno;
    if (failure == 0)
        return true;
    complain("the output is not written", strerror(failure));
    return false;
}

size_t output_width(void)
{
    struct winsize size;
    if (ioctl(STDOUT_FILENO, TIOCGWINSZ, &size) != 0 || size.ws_col == 0)
        return USUAL_WIDTH;
    return size.ws_col < LEAST_WIDTH ? LEAST_WIDTH : size.ws_col;
}
