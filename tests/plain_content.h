// plain_content.h: the header's content functions in plain C, each with the library's contract (see neapwillow.h).
// SPDX-License-Identifier: MIT
#ifndef PLAIN_CONTENT_H
#define PLAIN_CONTENT_H

#include "neapwillow.h"
#include "plain_answers.h"

plain_answer plain_content_read(uint32_t kind, uint32_t variant, uint32_t extension, const uint8_t *body, size_t n);
plain_answer plain_content_lay(uint32_t kind, uint32_t variant, const uint8_t *body, size_t n, uint64_t *tape,
                               size_t entries);
plain_answer plain_content_write(uint32_t variant, const uint8_t *pool, size_t pool_bytes, const uint64_t *tape,
                                 size_t entries, uint8_t *out, size_t room);

plain_answer plain_content_identifier(const uint8_t *body, size_t n);
plain_answer plain_content_identifier_digit(const uint8_t *body, size_t n, uint64_t i);
plain_answer plain_content_extension(const uint8_t *body, size_t n);
plain_answer plain_content_language_count(const uint8_t *body, size_t n);
plain_answer plain_content_language(const uint8_t *body, size_t n, uint64_t i);
plain_answer plain_content_signature(const uint8_t *body, size_t n);

plain_answer plain_language_letters(const uint8_t *body, size_t n, size_t at, size_t length);
plain_answer plain_language_character_set(const uint8_t *body, size_t n, size_t at, size_t length);
plain_answer plain_language_text(const uint8_t *body, size_t n, size_t at, size_t length);
plain_answer plain_language_agency(const uint8_t *body, size_t n, size_t at, size_t length);
plain_answer plain_language_auxiliary_count(const uint8_t *body, size_t n, size_t at, size_t length);
plain_answer plain_language_auxiliary_type(uint32_t variant, const uint8_t *body, size_t n, size_t at, size_t length,
                                           uint64_t i);
plain_answer plain_language_auxiliary(uint32_t variant, const uint8_t *body, size_t n, size_t at, size_t length,
                                      uint64_t i);

#endif
