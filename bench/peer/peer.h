/* The peer: a plain, fast reader of document 01, written by hand, to time the proved reader against. One call, with the words and the
   answer of turnipcart_read. It keeps its score in memory of its own that is not on the heap, so one call at a time. */
#ifndef PEER_H
#define PEER_H

#include <stddef.h>
#include <stdint.h>

struct peer_answer {
    size_t refusal;
    size_t line;
    size_t sections;
    size_t measures;
    size_t beats;
    size_t items;
};

size_t peer_read(const unsigned char *text, size_t text_length, uint32_t *keys, size_t keys_length, uint64_t *sections,
                 size_t sections_length, uint32_t *measures, size_t measures_length, uint32_t *beats, size_t beats_length,
                 uint64_t *items, size_t items_length, struct peer_answer *answer);

#endif
