/* Short charts of a few pieces, most of them with a slip: pattern text, lyric lines, lines out of place, references and measures. */
#include "charts.h"

#define PIECES(list) (list), sizeof(list) / sizeof *(list)

#define FIFTEEN "123456789012345"
#define LONGEST "A" FIFTEEN FIFTEEN "1" /* a chord with an extension of 31 bytes */
#define LONGEST_MAJ "Amaj" FIFTEEN "1234567890123" /* another one */
#define FIFTY "ééééé" FIFTEEN FIFTEEN FIFTEEN

static const char *const signs[] = {
    "A", "Bm7", "A", "A;", "A;", "A\n", "A:", "A ", "[A", "[A;", "A]2", "A]2;", "%", "_", "=", " = ", " ", " ", "\t", ";", ":", "\n",
    "\r\n", " \n\t", "[", "[ ", "]2", "]2;", "$1;", "$1\n", "]", "]1", "]0x", "]9999", "]10000", "$1", "$4", "$", "$0",
    "$10000", "$1x", "A$1", "x", "%x", "=x", "é", LONGEST, LONGEST "2",
    "A=", "B%", "Bm_", "Cmaj", "maj7", LONGEST_MAJ, LONGEST_MAJ "2",
};

static const char *const words[] = {
    "Go", "Go", " ", " ", "\t", "_", "_2", "_1", "_0", "_01", "_9999", "_10000", "_1.5", "\u00A0", "_a", "5", "\n", "***",
};

static const char *const lines[] = {
    "@bpm 120", "@bpm", "@bpm 401", "@time 3/4", "@time 4", "@name x", "@foo x", "@", "@capo 0", "@capo 3", "A;B", "A B", "%", "$1", "$2",
    "$2 x", "$", "$0", "_repeat 2", "_repeat", "_repeat 1", "_cutStart 1", "_cutStart 9", "_cutEnd -1", "_before A", "_before %",
    "_after A B C", "_after", "_foo", "_x 2", "_", "--", "Go _1", "Go _2", "Go", "Verse", "!", "!x", FIFTY, FIFTY "!y", FIFTY "6", "", "", "",
};

static const char *const items[] = {"A", "A B", "A B C", "A B C D =", "%", "_ %", "B %", "[A]2", "[$1]2", "$1", "$2", "$3", "$5", "[A;B C D]2"};

/* From 1 to `most` of the pieces, one behind the other, with `between` between them. */
static void write_pieces(struct numbers *numbers, struct chart *chart, const char *const *pieces, size_t count, size_t most,
                         const char *between)
{
    for (size_t left = 1 + below(numbers, most); left > 0; left--) {
        append(chart, pieces[below(numbers, count)]);
        append(chart, left > 1 ? between : "");
    }
}

/* Signs as the text of a definition, a section, a lead-in or a tail. */
static void write_pattern(struct numbers *numbers, struct chart *chart)
{
    static const char *const places[] = {"$2\n", "$2\r\n \t", "Verse\n", "Verse!x\n@bpm 90\n", "Verse\nA\n_before ", "Verse\nA\n_repeat 2\n_after\t"};
    append(chart, "$1\nA\n\n");
    append(chart, places[below(numbers, sizeof places / sizeof *places)]);
    write_pieces(numbers, chart, PIECES(signs), 8, "");
    append(chart, below(numbers, 2) == 0 ? "\n_cutEnd 1\n--\nGo\n" : "\n\nVerse\nA\n");
}

static void write_lyrics(struct numbers *numbers, struct chart *chart)
{
    append(chart, "$1\n\nIntro\n$1\n--\nGo _3\n\nVerse !x\nA;B\n--\n");
    write_pieces(numbers, chart, PIECES(words), 8, "");
    append(chart, "\n\nChorus\n[A]2\n--\nGo _1\n");
    write_pieces(numbers, chart, PIECES(words), 4, "");
}

static void write_references(struct numbers *numbers, struct chart *chart)
{
    static const char *const heads[] = {"$1", "$2", "$3", "$4"};
    append(chart, below(numbers, 3) == 0 ? "@time 3/4\n\n" : "");
    for (size_t place = 0; place < 3; place++) {
        append(chart, heads[place + (below(numbers, 12) == 0)]);
        append(chart, "\n");
        if (below(numbers, 4) > 0)
            write_pieces(numbers, chart, PIECES(items), 3, ";");
        append(chart, "\n\n");
    }
    append(chart, below(numbers, 3) == 0 ? "Verse\n@time 2/4\n" : "Verse\n");
    write_pieces(numbers, chart, PIECES(items), 2, "\n");
    append(chart, below(numbers, 3) == 0 ? "\n_before %;A B C" : "");
    append(chart, below(numbers, 3) == 0 ? "\n_after A;A B C D E;%" : "");
}

void write_slip(struct numbers *numbers, struct chart *chart)
{
    chart->length = 0;
    switch (below(numbers, 4)) {
    case 0: write_pattern(numbers, chart); break;
    case 1: write_lyrics(numbers, chart); break;
    case 2: write_references(numbers, chart); break;
    default: write_pieces(numbers, chart, PIECES(lines), 9, "\n");
    }
}
