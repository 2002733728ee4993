/* Turnipcart: a proved reader of SongCode chord charts, for C programs to link with libturnipcart.a (Linux on x86-64).

   The calls come to an end on every input, take every text and tables of every length, use no heap, keep nothing between calls, call
   nothing but memcpy and memset, and may be called from several threads at once with memory of their own. They write nothing but
   the memory lent to them, and only what is said below. turnipcart_read and turnipcart_count take about 280 KB of stack,
   turnipcart_flat about 320 KB, turnipcart_explain about 340 KB.

   Read one byte more than TURNIPCART_TEXT_LIMIT of a file (if it has them), and give all of them to the call: a file that is too long is
   then refused as such, and never taken for a shorter chart. Read to the file's end, and take a failed read for no chart at all.

   What the caller owes, which no call can look at:
   - every pointer points to as many words as the length beside it says, aligned as C aligns them, and is not null, not even beside
     the length 0 (turnipcart_read_tables, at the end, allows that);
   - no two pieces of memory lent to one call overlap, and nothing else writes them, or for the written ones reads them, while the
     call runs. */
#ifndef TURNIPCART_H
#define TURNIPCART_H

#include <stddef.h>
#include <stdint.h>

#if !(defined(__x86_64__) && !defined(_WIN32)) && !defined(__wasm__)
#error "libturnipcart.a is for x86-64 with the calling convention of Linux"
#endif

/* This version, which the program and the installed files carry too. */
#define TURNIPCART_VERSION_MAJOR 1
#define TURNIPCART_VERSION_MINOR 1
#define TURNIPCART_VERSION_PATCH 5
#define TURNIPCART_VERSION "1.1.5"

/* Bytes of stack that every call is content with: what a thread that calls must have, beside its own. */
#define TURNIPCART_STACK 393216

#ifdef __cplusplus
extern "C" {
#endif

/* The refusals. In a chart the stages run one after another, each over the whole file; in a stage the earliest line wins, and on
   one line the lowest number. */
enum turnipcart_refusal {
    TURNIPCART_ACCEPTED = 0,
    TURNIPCART_TEXT_TOO_LONG = 1,        /* stage 1: over 65,536 bytes; line 0 */
    TURNIPCART_BAD_TEXT = 2,             /* stage 1: bad UTF-8 or a zero byte; the line of the first such place */
    TURNIPCART_BLOCK_ORDER = 3,          /* stage 2: a block's kind after a later kind; the block's first line */
    TURNIPCART_KEY = 4,                  /* stage 2: a key unknown, twice, out of place, or not allowed here; its line */
    TURNIPCART_SETTING = 5,              /* stage 2: the setting of a key, repeat or cut malformed or out of range; its line */
    TURNIPCART_DEFINITION = 6,           /* stage 2: a definition's head malformed, twice, or the 27th; its line */
    TURNIPCART_PATTERN = 7,              /* stage 2: pattern text against the rules; its first line, of a lead-in or tail its own */
    TURNIPCART_LINE = 8,                 /* stage 2: another line out of place, an unknown or doubled modifier, a name empty or
                                            long, no pattern line, or `--` without lyrics; its line, for the last two the header's
                                            and the line of the `--` */
    TURNIPCART_NO_SECTION = 9,           /* stage 2: no section, and nothing else; line 0 */
    TURNIPCART_REFERENCE_UNDEFINED = 10, /* stage 3: a reference not defined earlier; the block's first line */
    TURNIPCART_REFERENCE_KIND = 11,      /* stage 3: a reference too deep, making a loop in a loop, or from a definition to an empty
                                            one; the block's first line */
    TURNIPCART_DIVISION = 12,            /* stage 4: a measure's positions don't divide N; the header's line, of a lead-in or tail
                                            its own */
    TURNIPCART_NO_CHORD_BEFORE = 13,     /* stage 4: `%` with no chord before; lines as for 12 */
    TURNIPCART_SONG_TOO_LONG = 14,       /* stage 5: over 65,535 measures before cuts; the header's line where the song passes them */
    TURNIPCART_NOTHING_LEFT = 15,        /* stage 5: cuts leave no beat, or a modifier on an empty pattern; the header's line */
    TURNIPCART_COUNT_MISSING = 16,       /* stage 6: some lyric lines have a count and this one has not; the first such line */
    TURNIPCART_COUNT_SUM = 17,           /* stage 7: a section's counts don't sum to its measures; the header's line */
    TURNIPCART_TABLE_TOO_SHORT = 18,     /* stage 8: the keys table under 8 words, or another table too short; line 0 */
    TURNIPCART_BEAT_NOT_FOUND = 19,      /* second call: no record that holds the beat was found, or over 65,535 records were lent */
    TURNIPCART_COPY_TOO_LONG = 20,       /* turnipcart_flat: the copy is longer than the lent buffer or than 65,536 bytes; line 0 */
    TURNIPCART_MOVE = 21,                /* turnipcart_concert: a move below -11 or above 20 */
    TURNIPCART_BEAT_WORD = 22,           /* turnipcart_concert: a word with base 34 to 62 or a set spare bit */
    TURNIPCART_NOT_JOINED = 25,          /* turnipcart_cues: tables that don't join up */
    TURNIPCART_NOT_TIMED = 26            /* turnipcart_cues: a section with measures whose bpm is 0 or above 400 */
};

/* Lengths, in words, of tables that no song is too long for. A section takes at least five bytes of the text (the last one three),
   and so does an item; a song has at most 65,535 measures of at most 32 beats. And of a buffer, in bytes, for every flat copy. */
enum {
    TURNIPCART_TEXT_LIMIT = 65536, /* bytes of the longest text that is read */
    TURNIPCART_KEYS = 8,
    TURNIPCART_SECTIONS_ENOUGH = 13107,
    TURNIPCART_MEASURES_ENOUGH = 65535,
    TURNIPCART_BEATS_ENOUGH = 65535 * 32,
    TURNIPCART_ITEMS_ENOUGH = 13107,
    TURNIPCART_COPY_ENOUGH = 65536
};

/* The answer of turnipcart_read and turnipcart_count, six numbers in this order: refusal 0, line 0 and the song's counts, or a refusal with its line
   (lines count from 1; 0 where the refusal has none) and counts of 0. */
struct turnipcart_answer {
    size_t refusal;
    size_t line;
    size_t sections;
    size_t measures;
    size_t beats;
    size_t items;
};

/* Reads the chart of text_length bytes at text, and returns the answer's refusal.
   Lent for reading: text. Lent for writing: the five tables, each with its length in words, and the answer.
   - Refused (1 to 18, as listed above): the answer has the refusal and its line, counts of 0, and no word of any table changes.
   - Accepted (0): the answer has the counts. Written are the first 8 words of keys, the first answer->sections words of sections,
     the first answer->measures of measures, the first answer->beats of beats and the first answer->items of items, packed as the
     functions below unpack them. Every word behind keeps what it held.
   The answer is written in both cases, whatever it held. Offsets in the words are into this text, so keep it while they are used. */
size_t turnipcart_read(const unsigned char *text, size_t text_length, uint32_t *keys, size_t keys_length, uint64_t *sections,
                       size_t sections_length, uint32_t *measures, size_t measures_length, uint32_t *beats, size_t beats_length,
                       uint64_t *items, size_t items_length, struct turnipcart_answer *answer);

/* Reads the chart of text_length bytes at text without any tables, and returns the answer's refusal: one of 1 to 17 with its line and
   counts of 0, or 0 and the counts, whatever their size. They are the lengths that turnipcart_read's tables need, keys 8 besides; with
   such tables it gives the same answer.
   Lent for reading: text. Lent for writing: the answer, which is written whatever it held. */
size_t turnipcart_count(const unsigned char *text, size_t text_length, struct turnipcart_answer *answer);

/* What turnipcart_find gives, three numbers in this order. */
struct turnipcart_found {
    size_t refusal;
    size_t place;
    size_t probes;
};

/* Finds the record of the measures table that holds the beat with this number (beats count from 0 through the whole song), by halving,
   and returns the refusal. It reads at most 16 records.
   Lent for reading: measures, any table of any length, its spare bits ignored. Lend a song's table cut to its count of measures: the
   search looks at the middle of what it is lent, so words behind the song's own lead it astray.
   Lent for writing: found, which is written in every case.
   - Found: refusal 0, the record's place in the table, from 0, and how many records were read.
   - Not found: refusal 19, place 0, and how many records were read.
   - More than 65,535 records: refusal 19, place 0, and none was read.
   In a table whose records have a beat or more and each start where the last ended, as those of a song do, the one record that holds
   the beat is found if there is one. In other tables the halving decides which of several is found, and may miss them all. */
size_t turnipcart_find(const uint32_t *measures, size_t measures_length, uint32_t beat, struct turnipcart_found *found);

/* The start of each measure in microseconds, for lights: the sum of all beats before it, each 60,000,000 / bpm of its section, rounded
   down. Returns the refusal.
   Lent for reading: sections and measures, any tables of any lengths; lend a song's tables cut to its counts. Lent for writing: cues
   and end.
   - Accepted (0): the first measures_length words of cues are the starts, every word behind keeps what it held, and *end is the
     song's end.
   - 25: the tables don't join up: sections that don't cover the measures in order without gap, a measure of 0 or more than 32 beats,
     or one that doesn't start where the last ended, the first at 0.
   - 26: a section with measures has a bpm of 0 or above 400 (TURNIPCART_NO_BPM too).
   - 18: cues is shorter than measures.
   Where refused, no word of cues changes and *end is 0. */
size_t turnipcart_cues(const uint64_t *sections, size_t sections_length, const uint32_t *measures, size_t measures_length,
                       uint64_t *cues, size_t cues_length, uint64_t *end);

/* Writes a beats table at concert pitch into a second one: every base is moved by so many semitones, -11 to 20 with the song's capo
   added by the caller, and always becomes the sharp name (C# and not Db), by a move of 0 too; major stays major and minor minor.
   Extensions and heads stay, and so does silence. Moving twice is moving by the sum, and 12 more or less is the same.
   Lent for reading: beats, any table of any length. Lent for writing: second, a table of its own.
   - Moved: returns 0. Written are the first beats_length words of second; every word behind keeps what it held.
   - Refused: returns, in this order, 21 (a move out of range), 22 (a word with base 34 to 62 or a set spare bit) or 18 (second is the
     shorter), and no word of second changes.
   A moved table keeps the offsets of its extensions into the text, but it is never read again as text: C with the extension #m, whose
   letters are C#m, stays a C. */
size_t turnipcart_concert(const uint32_t *beats, size_t beats_length, int32_t move, uint32_t *second, size_t second_length);

/* What turnipcart_flat gives, three numbers in this order: refusal 0, line 0 and the bytes of the copy, or a refusal with its line (0 where
   the refusal has none) and length 0. */
struct turnipcart_copied {
    size_t refusal;
    size_t line;
    size_t length;
};

/* Copies the song of text_length bytes at text, for paper, as a chart with nothing folded, and returns the refusal. The copy is SongCode:
   the song's key lines as one block; then each section's header, keys and lyrics as they were, and between them its measures as they
   are played, lead-in, repeats, loops, cuts and tail in: a line for each measure, with N positions, one a beat, chords by the letters
   that they have in the text, `_` for silence, and `=` for the beats that a shortened measure lacks. A section that plays nothing has the
   line `$1`, and then an empty definition `$1` stands before the sections. Lines have no blanks at their ends and end in LF, and one blank
   line parts blocks. Read again, the copy gives the song's tables but for heads (all 1), header lines and offsets; the copy of a copy is
   that copy.
   Lent for reading: text. Lent for writing: copy, a buffer of copy_length bytes, and copied, which is written in every case.
   - Copied: returns 0. Written are the first copied->length bytes of copy; every byte behind keeps what it held.
   - Refused: returns one of 1 to 17 with its line, as turnipcart_count gives it, or else 20 (the copy is longer than copy_length or than
     65,536 bytes), and no byte of copy changes.
   TURNIPCART_COPY_ENOUGH bytes are enough for every copy; with that many 20 says that the song has none, since a chart of more
   than 65,536 bytes would not be read again. */
size_t turnipcart_flat(const unsigned char *text, size_t text_length, unsigned char *copy, size_t copy_length,
                       struct turnipcart_copied *copied);

/* Why a chart is refused, and where.

   The cause is 100 times the refusal's number, and the number of the clause that holds: cause / 100 is the refusal. 0 where the chart is accepted.
   A cause with clause 0 says that no clause was found.
   The place is what is to change: `length` bytes of the text from `offset` on, all on line `place_line` (lines count from 1), without its line end.
   A length of 0 is a place where something is missing. Where the refusal names no line (accepted, 1, 9), the three numbers are 0.
   other_line: one more line worth showing, 0 where there is none. first, second, third: the numbers that a sentence needs, else 0. */
struct turnipcart_cause {
    size_t refusal;    /* the verdict, as turnipcart_count gives it */
    size_t line;
    size_t cause;      /* enum turnipcart_cause_kind */
    size_t place_line;
    size_t offset;
    size_t length;
    size_t other_line;
    size_t first;
    size_t second;
    size_t third;
};

enum turnipcart_cause_kind {
    TURNIPCART_CAUSE_NONE = 0,

    /* 1, and accepted charts. No place. first: bytes of the text. */
    TURNIPCART_CAUSE_TEXT_LONG = 101,

    /* 2. Place: the byte. first: its value. */
    TURNIPCART_CAUSE_ZERO_BYTE = 201,
    TURNIPCART_CAUSE_NO_CHARACTER = 202, /* no whole UTF-8 character begins here */

    /* 3. Place: the block's first line. other_line: the first line of the first block of a later kind. */
    TURNIPCART_CAUSE_METADATA_LATE = 301,
    TURNIPCART_CAUSE_DEFINITION_LATE = 302,

    /* 4. Place: the name with its `@` (KEY_LATE: the whole line). first: the key's number (enum turnipcart_key; unknown: 13).
       other_line: TWICE the earlier line; NOT_HERE and LATE the section's header. Where several hold the first of this list is given. */
    TURNIPCART_CAUSE_KEY_UNKNOWN = 401,
    TURNIPCART_CAUSE_KEY_NOT_HERE = 402, /* a key of the song in a section */
    TURNIPCART_CAUSE_KEY_TWICE = 403,
    TURNIPCART_CAUSE_KEY_LATE = 404,     /* a section's key behind a pattern or modifier line */

    /* 5. first: the key's number 0 to 7, or 8 _repeat, 9 _cutStart, 10 _cutEnd. */
    TURNIPCART_CAUSE_SETTING_MISSING = 501, /* place: behind the name, length 0 */
    TURNIPCART_CAUSE_SETTING_WRONG = 502,   /* malformed or out of range. Place: the setting */

    /* 6. Place: the head's line. */
    TURNIPCART_CAUSE_HEAD_MALFORMED = 601,
    TURNIPCART_CAUSE_HEAD_TWICE = 602,    /* first: n. other_line: the earlier head */
    TURNIPCART_CAUSE_HEAD_TOO_MANY = 603, /* the 27th definition or a later one */

    /* 7. first: the byte where the text first stops being the beginning of a right text (its end, where it stops too early); this is in
       the place, or right behind it, or (REMOVER_INSIDE, REFERENCE_NOT_HERE, LOOP_OPEN) later.
       second: the byte of the last `[` before it in the text, or the same as first where there is none.
       other_line: the section's header or the definition's head. */
    TURNIPCART_CAUSE_NO_CHORD = 701,           /* place: a word that is no chord, sign or reference */
    TURNIPCART_CAUSE_EXTENSION_LONG = 702,     /* place: a chord with more than 31 bytes behind its base */
    TURNIPCART_CAUSE_REFERENCE_MALFORMED = 703, /* place: a word that begins with `$` and is no reference */
    TURNIPCART_CAUSE_SEPARATOR_FIRST = 704,    /* place: a `;` or `:` at the beginning of the text or behind `[` */
    TURNIPCART_CAUSE_SEPARATOR_DOUBLED = 705,  /* place: a `;` or `:` behind another one */
    TURNIPCART_CAUSE_SEPARATOR_LAST = 706,     /* place: a `;` or `:` at the end of the text or before `]` */
    TURNIPCART_CAUSE_SEPARATOR_LINE_END = 707, /* place: a `;` at the end of a line that another pattern line follows */
    TURNIPCART_CAUSE_SEPARATOR_LINE_START = 708, /* place: a `;` at the start of a line behind another pattern line */
    TURNIPCART_CAUSE_REMOVER_FIRST = 709,      /* place: a `=` with no chord, `%` or `_` before it in its measure */
    TURNIPCART_CAUSE_REMOVER_INSIDE = 710,     /* place: the `=` behind which a chord, `%` or `_` stands (at first) in its measure */
    TURNIPCART_CAUSE_LOOP_EMPTY = 711,         /* place: the `]` with its count, directly behind `[` */
    TURNIPCART_CAUSE_LOOP_COUNT_MISSING = 712, /* place: the `]` */
    TURNIPCART_CAUSE_LOOP_COUNT_WRONG = 713,   /* place: what stands directly behind the `]`, no number from 2 to 9999. second: its `[`, if any */
    TURNIPCART_CAUSE_LOOP_IN_LOOP = 714,       /* place: the inner `[` */
    TURNIPCART_CAUSE_LOOP_OPEN = 715,          /* place: the `[` that is never closed */
    TURNIPCART_CAUSE_LOOP_NOT_OPEN = 716,      /* place: a `]` with its count, and no `[` before it is open */
    TURNIPCART_CAUSE_LOOP_LINE_END = 717,      /* place: a `[` at the end of a line, or a `]` with its count at the start of one */
    TURNIPCART_CAUSE_NOT_PARTED = 718,         /* place: a word or `[` behind a loop, a reference or a measure, with no separator between */
    TURNIPCART_CAUSE_REFERENCE_NOT_HERE = 719, /* place: a `$n` in a section's pattern that has more, or in a lead-in or tail */
    TURNIPCART_CAUSE_COLON_NOT_HERE = 720,     /* place: the `:` in a lead-in or tail */
    TURNIPCART_CAUSE_SIDE_EMPTY = 721,         /* a lead-in or tail without text. Place: behind the name, length 0 */
    TURNIPCART_CAUSE_EXTENSION_SIGN = 722,     /* place: a chord with `%`, `_`, `=` or `$` behind its base, however long */

    /* 8. */
    TURNIPCART_CAUSE_LINE_IN_METADATA = 801, /* place: a line that is no key, in a metadata block. other_line: the block's first */
    TURNIPCART_CAUSE_PATTERN_LATE = 802,     /* place: the line. other_line: the key or modifier line that ended the pattern */
    TURNIPCART_CAUSE_MODIFIER_UNKNOWN = 803, /* place: the name with its `_` */
    TURNIPCART_CAUSE_MODIFIER_TWICE = 804,   /* place: the name with its `_`. other_line: the earlier. first: 8 _repeat ... 12 _after */
    TURNIPCART_CAUSE_MODIFIER_EARLY = 805,   /* place: the line. other_line: the header */
    TURNIPCART_CAUSE_NAME_EMPTY = 806,       /* place: the header's first byte, a `!`, with what follows */
    TURNIPCART_CAUSE_NAME_LONG = 807,        /* place: the name from its 51st character on. first: characters of the name */
    TURNIPCART_CAUSE_NO_PATTERN = 808,       /* place: the header's line */
    TURNIPCART_CAUSE_DASHES_BARE = 809,      /* place: the `--`. other_line: the header */

    /* 9. No place. */
    TURNIPCART_CAUSE_NO_SECTION = 901,

    /* 10, 11. Place: the `$n`. first: n. other_line: the head of the definition n, 0 where there is none. */
    TURNIPCART_CAUSE_REFERENCE_UNDEFINED = 1001, /* other_line, if any, is a later block or this one */
    TURNIPCART_CAUSE_REFERENCE_DEEP = 1101,
    TURNIPCART_CAUSE_REFERENCE_LOOPS = 1102,     /* makes a loop in a loop */
    TURNIPCART_CAUSE_REFERENCE_EMPTY = 1103,

    /* 12. Place: the measure, also where it stands in a definition. first: positions. second: N. third: the measure's number, from 1, in the
       written order of its text (references put in). other_line: the header of the section that plays it. */
    TURNIPCART_CAUSE_POSITIONS = 1201,

    /* 13. Place: the `%`. second: N. third: the number of its measure, as for 12. other_line: the header of the section that plays it. */
    TURNIPCART_CAUSE_NO_CHORD_BEFORE = 1301,

    /* 14, 15, 17. Place: the name in the section's header, up to its `!`. */
    TURNIPCART_CAUSE_SONG_LONG = 1401,
    TURNIPCART_CAUSE_CUTS_TAKE_ALL = 1501,
    TURNIPCART_CAUSE_MODIFIER_ON_EMPTY = 1502, /* place: the first modifier line. other_line: the header */
    TURNIPCART_CAUSE_COUNT_SUM = 1701,         /* first: sum of the counts. second: measures played. other_line: the last lyric line */

    /* 16. other_line: the first of the taken lyric lines that has a count. */
    TURNIPCART_CAUSE_COUNT_MISSING = 1601, /* place: the line's end, length 0 */
    TURNIPCART_CAUSE_COUNT_WRONG = 1602,   /* place: the last word, which begins with `_` and is no count (`_0`, `_1.5`) */
    TURNIPCART_CAUSE_COUNT_TIGHT = 1603,   /* place: a `_` and a count at the line's end, with no space or tab before (it may be U+00A0) */
    TURNIPCART_CAUSE_COUNT_ALONE = 1604    /* place: the line, a count with nothing before it */
};

/* Why the chart of text_length bytes at text is refused, and where. Returns the refusal. Lent for reading: text; for writing: cause, all ten
   numbers of it, whatever they held. */
size_t turnipcart_explain(const unsigned char *text, size_t text_length, struct turnipcart_cause *cause);

#ifdef __cplusplus
}
#endif

/* The fields of the words, most significant first; the bits not named are spare, lowest, and written as 0. */

/* keys (32 bits): present 1, offset 16, length 9; spare 6. The word of a key that is absent is 0. */
enum turnipcart_key {
    TURNIPCART_KEY_NAME,
    TURNIPCART_KEY_ARTIST,
    TURNIPCART_KEY_ORIGINAL,
    TURNIPCART_KEY_CAPO,
    TURNIPCART_KEY_BPM,
    TURNIPCART_KEY_TIME,
    TURNIPCART_KEY_WARNING,
    TURNIPCART_KEY_END
};

/* 1 where the song gives the key, else 0. */
static inline unsigned turnipcart_key_present(uint32_t word)
{
    return word >> 31;
}

/* Where the setting begins in the text. */
static inline size_t turnipcart_key_offset(uint32_t word)
{
    return word >> 15 & 0xFFFF;
}

/* How many bytes the setting has. */
static inline size_t turnipcart_key_length(uint32_t word)
{
    return word >> 6 & 0x1FF;
}

/* sections (64 bits): header line 17, first measure 16, measures 16, N 6, bpm 9. */

/* The bpm of a section where neither it nor the song gives one. */
enum { TURNIPCART_NO_BPM = 511 };

/* The line of the section's header, from 1. */
static inline size_t turnipcart_section_line(uint64_t word)
{
    return word >> 47;
}

/* The place of its first record in the measures table. */
static inline size_t turnipcart_section_first_measure(uint64_t word)
{
    return word >> 31 & 0xFFFF;
}

/* How many measures it plays; 0 where its pattern is empty. */
static inline size_t turnipcart_section_measures(uint64_t word)
{
    return word >> 15 & 0xFFFF;
}

/* N, the beats of a whole measure, 1 to 32. */
static inline unsigned turnipcart_section_time(uint64_t word)
{
    return (unsigned)(word >> 9 & 0x3F);
}

/* The section's bpm, else the song's, else TURNIPCART_NO_BPM. */
static inline unsigned turnipcart_section_bpm(uint64_t word)
{
    return (unsigned)(word & 0x1FF);
}

/* measures (32 bits): first beat 21, beats 6; spare 5. */

/* The place of its first word in the beats table. */
static inline size_t turnipcart_measure_first_beat(uint32_t word)
{
    return word >> 11;
}

/* How many beats it has, 1 to 32. */
static inline size_t turnipcart_measure_beats(uint32_t word)
{
    return word >> 5 & 0x3F;
}

/* beats (32 bits): base 6, extension offset 16, extension length 5, head 1; spare 4. */

/* The base of a beat on which nothing sounds. */
enum { TURNIPCART_BASES = 34, TURNIPCART_SILENCE = 63 };

/* The number of its base chord, 0 to 33, or TURNIPCART_SILENCE. */
static inline unsigned turnipcart_beat_base(uint32_t word)
{
    return word >> 26;
}

/* Where the chord's extension begins in the text; 0 if it is empty. */
static inline size_t turnipcart_beat_extension_offset(uint32_t word)
{
    return word >> 10 & 0xFFFF;
}

/* How many bytes the extension has, 0 to 31. */
static inline size_t turnipcart_beat_extension_length(uint32_t word)
{
    return word >> 5 & 0x1F;
}

/* 1 on the first beat of a position as written, else 0. */
static inline unsigned turnipcart_beat_head(uint32_t word)
{
    return word >> 4 & 1;
}

/* The spelling of a base chord by its number; an empty one for every other number. */
static inline const char *turnipcart_base_name(unsigned base)
{
    static const char names[TURNIPCART_BASES][4] = {
        "A", "A#", "Ab", "Am", "A#m", "Abm", "B", "Bb", "Bm", "Bbm", "C", "C#", "Cm", "C#m", "D", "Db", "D#",
        "Dm", "Dbm", "D#m", "E", "Eb", "Em", "Ebm", "F", "F#", "Fm", "F#m", "G", "Gb", "G#", "Gm", "Gbm", "G#m",
    };
    return base < TURNIPCART_BASES ? names[base] : "";
}

/* items (64 bits), the prompter's lines: text offset 16, length 16, first measure 16, measures 14, style 2. */
enum turnipcart_style { TURNIPCART_PLAIN, TURNIPCART_INFO, TURNIPCART_CREW };

/* Where the item's words begin in the text. */
static inline size_t turnipcart_item_offset(uint64_t word)
{
    return word >> 48;
}

/* How many bytes they have. */
static inline size_t turnipcart_item_length(uint64_t word)
{
    return word >> 32 & 0xFFFF;
}

/* The place, in the measures table, of the first measure that the item stands for. */
static inline size_t turnipcart_item_first_measure(uint64_t word)
{
    return word >> 16 & 0xFFFF;
}

/* How many measures it stands for. */
static inline size_t turnipcart_item_measures(uint64_t word)
{
    return word >> 2 & 0x3FFF;
}

/* TURNIPCART_PLAIN, TURNIPCART_INFO (written between `***`) or TURNIPCART_CREW (between `:::`). */
static inline unsigned turnipcart_item_style(uint64_t word)
{
    return (unsigned)(word & 3);
}

/* For callers: the five tables in one struct, and what to do where one is too short. */

struct turnipcart_tables {
    uint32_t *keys;
    size_t keys_length;
    uint64_t *sections;
    size_t sections_length;
    uint32_t *measures;
    size_t measures_length;
    uint32_t *beats;
    size_t beats_length;
    uint64_t *items;
    size_t items_length;
};

/* turnipcart_read over the struct. The text, and any table, may be null beside the length 0. */
static inline size_t turnipcart_read_tables(const unsigned char *text, size_t text_length, const struct turnipcart_tables *tables,
                                            struct turnipcart_answer *answer)
{
    uint64_t nothing[5] = {0, 0, 0, 0, 0}; /* addresses for what is null; their lengths are 0, so nothing is read or written there */
    return turnipcart_read(text == NULL ? (const unsigned char *)&nothing[4] : text, text_length,
                           tables->keys == NULL ? (uint32_t *)&nothing[0] : tables->keys, tables->keys_length,
                           tables->sections == NULL ? &nothing[1] : tables->sections, tables->sections_length,
                           tables->measures == NULL ? (uint32_t *)&nothing[2] : tables->measures, tables->measures_length,
                           tables->beats == NULL ? (uint32_t *)&nothing[3] : tables->beats, tables->beats_length,
                           tables->items == NULL ? &nothing[4] : tables->items, tables->items_length, answer);
}

enum turnipcart_table {
    TURNIPCART_TABLE_KEYS,
    TURNIPCART_TABLE_SECTIONS,
    TURNIPCART_TABLE_MEASURES,
    TURNIPCART_TABLE_BEATS,
    TURNIPCART_TABLE_ITEMS,
    TURNIPCART_TABLES
};

/* How many words a table must have for the song with these counts. */
static inline size_t turnipcart_words_needed(const struct turnipcart_answer *counts, enum turnipcart_table table)
{
    switch (table) {
    case TURNIPCART_TABLE_KEYS: return TURNIPCART_KEYS;
    case TURNIPCART_TABLE_SECTIONS: return counts->sections;
    case TURNIPCART_TABLE_MEASURES: return counts->measures;
    case TURNIPCART_TABLE_BEATS: return counts->beats;
    case TURNIPCART_TABLE_ITEMS: return counts->items;
    default: return 0;
    }
}

/* The first table that is too short for the song with these counts; TURNIPCART_TABLES where none is. After refusal 18, with the counts
   that turnipcart_count gives for the text. */
static inline enum turnipcart_table turnipcart_short_table(const struct turnipcart_tables *tables, const struct turnipcart_answer *counts)
{
    if (tables->keys_length < TURNIPCART_KEYS)
        return TURNIPCART_TABLE_KEYS;
    if (tables->sections_length < counts->sections)
        return TURNIPCART_TABLE_SECTIONS;
    if (tables->measures_length < counts->measures)
        return TURNIPCART_TABLE_MEASURES;
    if (tables->beats_length < counts->beats)
        return TURNIPCART_TABLE_BEATS;
    return tables->items_length < counts->items ? TURNIPCART_TABLE_ITEMS : TURNIPCART_TABLES;
}

/* A refusal in a few words, as the headings of docs/REFUSALS.md have them; "" for a number that is none. */
static inline const char *turnipcart_refusal_text(size_t refusal)
{
    static const char *const texts[] = {
        "accepted",
        "the file is too long",
        "a broken character",
        "a block out of order",
        "a key that is unknown, doubled or not allowed here",
        "a setting that is malformed or out of range",
        "a definition's head",
        "chords against the rules",
        "another line out of place",
        "no section",
        "a reference without a definition above it",
        "a reference that goes too deep",
        "positions that do not divide the measure",
        "`%` with no chord before it",
        "too many measures",
        "nothing is left, or a modifier on an empty pattern",
        "a lyric line without its count",
        "counts that do not sum",
        "a table is too short",
        "no measure holds the beat",
        "the copy is too long",
        "a move out of range",
        "a word that is no beat",
        "",
        "",
        "tables that do not join up",
        "a section without a bpm from 1 to 400",
    };
    return refusal < sizeof texts / sizeof texts[0] ? texts[refusal] : "";
}

#endif
