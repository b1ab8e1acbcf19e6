/* content.h: what is asked of a content table beside its fields in a row. */
/* SPDX-License-Identifier: MIT */
#ifndef CONTENT_H
#define CONTENT_H

#include "walk.h"

/* The 18 bytes of its identifier, or NULL where the identifier is refused. */
const uint8_t *content_identifier(const struct body *b);

/* The extension that goes with its identifier. False where the identifier is refused. */
bool content_extension(const struct body *b, unsigned *extension);

#endif
