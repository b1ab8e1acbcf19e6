/* steps.h: the steps that a walk through a body is made of; each answers whether to go on, which a refusal ends. */
/* SPDX-License-Identifier: MIT */
#ifndef STEPS_H
#define STEPS_H

#include "walk.h"

/* A walk's body, as the library's functions take it. */
#define BODY(w) (w)->body.s, (w)->body.n

/* Lays a field at the place of the walk, and goes past it. */
bool step(struct walk *w, unsigned refusal, struct field f);

/* The same after reserved bits in the same byte, with which the library judges the field. */
bool step_after(struct walk *w, unsigned reserved, unsigned refusal, struct field f);

/* Three reserved bits and a PID. */
bool step_pid(struct walk *w, const char *name, const char *label, nw_answer a);

/* A number: one that is told as it is, one told in hexadecimal, one that counts things, and one with words for its value. */
bool step_number(struct walk *w, const char *name, const char *label, unsigned bits, nw_answer a);
bool step_code(struct walk *w, const char *name, const char *label, unsigned bits, nw_answer a);
bool step_count(struct walk *w, const char *name, const char *label, nw_answer a);
bool step_named(struct walk *w, const char *name, const char *label, unsigned bits, nw_answer a, const char *words);

/* The length of a part. */
bool step_length(struct walk *w, const char *name, unsigned bits, nw_part part);

/* The bytes of a part: told by their digest, in hexadecimal, or as ASCII. */
bool step_opaque(struct walk *w, const char *name, const char *label, nw_part part);
bool step_bytes(struct walk *w, const char *name, const char *label, nw_part part);
bool step_ascii(struct walk *w, const char *name, const char *label, unsigned refusal, size_t n);

/* Four reserved bits and decimal digits, which fill n bytes. */
bool step_digits(struct walk *w, const char *name, const char *label, size_t n, nw_part part);

/* A time field. */
bool step_time(struct walk *w, const char *name, const char *label, nw_answer a);

/* The signature's length and bytes. */
bool step_signature(struct walk *w, nw_part part);

/* Bytes before the end of the part, which no field has. */
bool step_left(struct walk *w, unsigned refusal);

/* Goes into a thing of several fields, and out of it; leaving hands on whether the walk goes on. */
void enter(struct walk *w, struct group g);
bool leave(struct walk *w, bool on);

/* The ways through the four kinds, and the content table's own verdict. */
bool walk_index(struct walk *w);
bool walk_content(struct walk *w);
bool walk_certificate(struct walk *w);
bool walk_configuration(struct walk *w);
nw_answer content_read(const struct body *b);

#endif
