/* text.h: texts of a capture, decoded from their character set and shown so that nothing in them steers a terminal. */
/* SPDX-License-Identifier: MIT */
#ifndef TEXT_H
#define TEXT_H

#include <stdbool.h>
#include <stddef.h>
#include <stdint.h>

#define BARE_BYTE UINT32_C(0x80000000) /* marks a byte that is no character of the set */

/* A text's characters, and how many of them are bare bytes. */
struct text {
    uint32_t *c;
    size_t n, bare;
    bool known; /* the C library converts from the set; else ASCII is told as such, and other bytes as bare ones */
};

/* Decodes n bytes of one of the standard's character sets. False where there is no memory; else c is to be freed. */
bool text_decode(struct text *t, unsigned set, const uint8_t *s, size_t n);

/* A character as it is, or how it is written: \xNN for a bare byte; \u{..} for one that steers a terminal, or that the
 * terminal's set hasn't. Answers whether it was \u{..}; showing it prints what putting writes. */
enum { CHARACTER_ROOM = 32 };
bool text_put(uint32_t c, char out[CHARACTER_ROOM]);
bool text_show(uint32_t c);

#endif
