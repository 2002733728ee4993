/* Chords and lyrics as musicians write them: the reader takes any extension, and people mean only some. */
#ifndef CHORDS_H
#define CHORDS_H

#include "text.h"

/* A chord with an extension that musicians use; with `small_letter` its letter may be a small one. */
bool is_usual_chord(struct text text, struct stretch word, bool small_letter);

/* A usual chord, `%`, `_`, `=` or a reference. */
bool is_usual_word(struct text text, struct stretch word);

/* The words that stand behind a chord, as `7`, `maj7` or `b5`. */
bool is_extension(struct text text, struct stretch word);

/* What most words of a line are: chords, or letters that are none. */
bool looks_like_chords(struct text text, struct stretch line);
bool looks_like_lyrics(struct text text, struct stretch line);

/* A line that begins with what sections are called. */
bool looks_like_header(struct text text, struct stretch line);

/* A lyric line's count at its end, ` _2`: its digits, empty where there is none. */
struct stretch count_at_end(struct text text, struct stretch line);

/* Bytes of the letter A to G that the character at the word's beginning looks like, from another alphabet; 0 where it does not. */
char letter_looked_like(uint32_t code);

/* A word of dashes alone, of any kind; a dash. */
bool is_dash(uint32_t code);
bool is_dashes(struct text text, struct stretch word);

#endif
