#include "files.h"
#include <errno.h>
#include <fcntl.h>
#include <string.h>
#include <sys/stat.h>
#include <unistd.h>

/* Fills the text from the open file, up to its end or to one byte past the limit. 0, or errno. */
static int fill(int file, struct chart *chart)
{
    while (chart->length < sizeof chart->text) {
        ssize_t count = read(file, chart->text + chart->length, sizeof chart->text - chart->length);
        if (count == 0)
            return 0;
        if (count > 0)
            chart->length += (size_t)count;
        else if (errno != EINTR)
            return errno;
    }
    return 0;
}

static size_t size_of(int file)
{
    struct stat found;
    return fstat(file, &found) == 0 && S_ISREG(found.st_mode) && found.st_size > 0 ? (size_t)found.st_size : 0;
}

bool read_chart(const char *name, struct chart *chart, const char **why)
{
    bool is_input = strcmp(name, "-") == 0;
    int file = is_input ? STDIN_FILENO : open(name, O_RDONLY | O_CLOEXEC);
    int failure = file < 0 ? errno : 0;
    chart->name = name;
    chart->length = 0;
    chart->size = 0;
    if (failure == 0) {
        failure = fill(file, chart);
        chart->size = size_of(file);
    }
    if (file >= 0 && !is_input)
        close(file);
    if (failure != 0)
        *why = strerror(failure);
    return failure == 0;
}
