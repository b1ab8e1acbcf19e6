/* sha256.h: the SHA-256 digest (FIPS 180-4) of bytes that are told by it and not shown. */
/* SPDX-License-Identifier: MIT */
#ifndef SHA256_H
#define SHA256_H

#include <stddef.h>
#include <stdint.h>

enum { SHA256_BYTES = 32, SHA256_DIGITS = 64 };

void sha256(const uint8_t *s, size_t n, uint8_t digest[SHA256_BYTES]);

/* The digest as hexadecimal digits and a NUL. Answers the text. */
char *sha256_text(const uint8_t *s, size_t n, char text[SHA256_DIGITS + 1]);

#endif
