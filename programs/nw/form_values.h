/* form_values.h: what stands after a line's word, read whole; what is wrong with it is told. Each answers whether it is good. */
/* SPDX-License-Identifier: MIT */
#ifndef FORM_VALUES_H
#define FORM_VALUES_H

#include "form_grammar.h"
#include "form_lines.h"
#include "walk.h"

/* Bytes that grow. */
struct bytes {
    uint8_t *s;
    size_t n, room;
};

/* Appends. False where there is no memory. */
bool bytes_add(struct bytes *b, const uint8_t *s, size_t n);

bool value_none(struct lines *l);
bool value_number(struct lines *l, const struct item *i, uint64_t *out);
bool value_tag(struct lines *l, const struct item *i, uint64_t *out);
bool value_digits(struct lines *l, size_t bytes, uint8_t *out);
bool value_time(struct lines *l, bool may_be_live, uint64_t *out);
bool value_clock(struct lines *l, uint64_t out[6]);
bool value_type(struct lines *l, uint8_t out[5]);
bool value_letters(struct lines *l);
bool value_set(struct lines *l, uint64_t *out);
bool value_address(struct lines *l, uint64_t kind, struct bytes *out);

/* A string of a character set, appended. */
bool value_string(struct lines *l, unsigned set, struct bytes *out);

/* Bytes in hexadecimal, appended; of the first line also none, or a file's. */
bool value_bytes(struct lines *l, size_t most, struct bytes *out);
bool value_hex(struct lines *l, struct bytes *out);

/* A time as a form has it, at an offset, or in UTC where its local day is out of the range. */
void print_time(uint64_t field, int offset);

#endif
