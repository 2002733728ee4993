/* What people write where the reader wants a chord: each rule knows one habit, and is true where it has spoken. */
#ifndef RULES_H
#define RULES_H

#include "page.h"

typedef bool rule(struct page *page, struct stretch word);

/* signs.c */
rule bar_lines;
rule dashes;
rule hidden_character;
rule comment;
rule times;
rule joined_signs;
rule beat_sign;
rule silence;
rule round_loop;
rule wrapped;
rule signs_alone;

/* words.c */
rule other_alphabet;
rule accidental_first;
rule parted_extension;
rule small_letter;
rule other_letters;

/* misplaced.c */
rule directive;
rule bare_name;
rule comment_as_name;
rule header_inside;
rule lyrics;

static inline unsigned char byte_at(const struct page *page, size_t at)
{
    return page->text.bytes[at];
}

#endif
