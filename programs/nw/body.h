/* body.h: a body told to a person, in one of several ways. */
/* SPDX-License-Identifier: MIT */
#ifndef BODY_H
#define BODY_H

#include "walk.h"

/* In plain words; byte by byte, with each field's name in the standard; and of an accepted content table the languages alone, in plain words. */
void body_in_words(const struct body *b, struct clock clock);
void body_in_bytes(const struct body *b, struct clock clock);
void texts_in_words(const struct body *content, struct clock clock);

/* Whether a field is told in words where it is taken: counts of things that follow, lengths and reserved bits go without saying; a text is told
 * in lines of its own. */
bool is_told(const struct field *f);

/* Byte i of a field's, as far as its bits are the field's own: in hexadecimal digits where they are whole ones, else bit by bit; dots for the
 * others. Answers the text. */
enum { BITS_ROOM = 9 };
char *field_bits(const struct walk *w, const struct field *f, size_t i, char text[BITS_ROOM]);

/* Spaces before what stands so deep. */
void indent(unsigned depth);

/* A label so deep, filled up so that values stand below each other. */
void put_label(unsigned depth, const char *label);

#endif
