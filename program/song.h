/* A song's tables, each as long as the song needs, and its parts as the subcommands show them. */
#ifndef SONG_H
#define SONG_H

#include "advice/text.h"
#include "files.h"
#include "messages.h"

struct song {
    const struct chart *chart;
    struct turnipcart_answer answer;
    struct turnipcart_tables tables;
};

/* What a subcommand with one chart does with its song, or with its refusal. */
struct view {
    enum status (*show)(const struct song *song, const void *more);
    void (*refuse)(const struct chart *chart, const struct turnipcart_answer *answer);
    const void *more;
};

/* Reads the file and its song into tables of their own, shows it, gives the memory back. */
enum status view_song(const char *name, const struct view *view);

/* The name in a section's header, up to its `!`. */
struct stretch section_name(const struct chart *chart, uint64_t section);

/* A beat as the listing shows it: `.` goes on with the sound before, `_` is silence. Safely for people, else byte for byte. */
void put_beat(const struct song *song, uint32_t beat, bool safely);

#endif
