/* 20: the flat copy of a song. */
#include "page.h"

void advise_copy(struct text text, char *room, struct advice *advice)
{
    struct page page = {.text = text, .advice = advice, .room = room};
    *advice = (struct advice){0};
    say(&page, "written out, the song has more than %N bytes, and no chart may", (size_t)TURNIPCART_COPY_ENOUGH);
    repair(&page, "split the song: its first sections in one chart and the others in a second, both with its keys, and copy each");
}
