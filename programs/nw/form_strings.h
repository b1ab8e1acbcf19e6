/* form_strings.h: bytes of a character set as characters of a written form, and back. Each way undoes the other, byte for byte: what has no
 * character, or one that can't be seen or would steer a terminal, is written as \xNN. */
/* SPDX-License-Identifier: MIT */
#ifndef FORM_STRINGS_H
#define FORM_STRINGS_H

#include <stdbool.h>
#include <stddef.h>
#include <stdint.h>

enum { PLAIN_ASCII = 5, CHARACTER_BYTES = 8 }; /* a set of ASCII alone, beside those of the standard; bytes that a character may have */

/* The next character of n typed bytes, 1 or more, or the next \xNN or \\: its bytes in a set. Answers how many bytes were typed; 0 where they
 * are wrong, and why not. */
size_t string_take(unsigned set, const char *s, size_t n, uint8_t out[CHARACTER_BYTES], size_t *bytes, const char **why);

/* Prints n bytes of a set. */
void string_print(unsigned set, const uint8_t *s, size_t n);

#endif
