/* Reads one chart from standard input once: by the proved reader, or with `peer` as its word by the peer. bench/count counts its instructions. */
#include <stdio.h>

#include "peer/peer.h"
#include "turnipcart.h"

static unsigned char text[TURNIPCART_TEXT_LIMIT + 1];
static uint32_t keys[TURNIPCART_KEYS];
static uint64_t sections[TURNIPCART_SECTIONS_ENOUGH];
static uint32_t measures[TURNIPCART_MEASURES_ENOUGH];
static uint32_t beats[TURNIPCART_BEATS_ENOUGH];
static uint64_t items[TURNIPCART_ITEMS_ENOUGH];

int main(int argc, char **argv)
{
    struct turnipcart_answer answer;
    struct peer_answer other;
    size_t length = fread(text, 1, sizeof text, stdin);
    (void)argv;
    if (argc > 1)
        peer_read(text, length, keys, TURNIPCART_KEYS, sections, TURNIPCART_SECTIONS_ENOUGH, measures, TURNIPCART_MEASURES_ENOUGH, beats,
                  TURNIPCART_BEATS_ENOUGH, items, TURNIPCART_ITEMS_ENOUGH, &other);
    else
        turnipcart_read(text, length, keys, TURNIPCART_KEYS, sections, TURNIPCART_SECTIONS_ENOUGH, measures, TURNIPCART_MEASURES_ENOUGH,
                        beats, TURNIPCART_BEATS_ENOUGH, items, TURNIPCART_ITEMS_ENOUGH, &answer);
    return 0;
}
