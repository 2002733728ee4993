/* The peer behind the second reader's call, so that the second reader's program can show the peer's answers. */
#include "../../tests/reference/reader.h"
#include "peer.h"

struct reader_answer reader_by_peer(const unsigned char *text, size_t length, const struct reader_tables *tables);

struct reader_answer reader_by_peer(const unsigned char *text, size_t length, const struct reader_tables *tables)
{
    struct peer_answer answer;
    peer_read(text, length, tables->keys, tables->keys_length, tables->sections, tables->sections_length, tables->measures,
              tables->measures_length, tables->beats, tables->beats_length, tables->items, tables->items_length, &answer);
    return (struct reader_answer){(unsigned)answer.refusal, answer.line, answer.sections, answer.measures, answer.beats, answer.items};
}
