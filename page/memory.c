/* The three functions of C's library that compiled code calls on its own, for a target that has no library. */
#include <stddef.h>

void *memset(void *to, int value, size_t count)
{
    unsigned char *place = to;
    while (count--)
        *place++ = (unsigned char)value;
    return to;
}

void *memcpy(void *restrict to, const void *restrict from, size_t count)
{
    unsigned char *place = to;
    const unsigned char *next = from;
    while (count--)
        *place++ = *next++;
    return to;
}

void *memmove(void *to, const void *from, size_t count)
{
    unsigned char *place = to;
    const unsigned char *next = from;
    if (place < next)
        return memcpy(to, from, count);
    while (count--)
        place[count] = next[count];
    return to;
}
