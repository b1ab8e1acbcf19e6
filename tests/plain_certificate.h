// plain_certificate.h: the header's certificate functions in plain C, each with the library's contract.
// SPDX-License-Identifier: MIT
#ifndef PLAIN_CERTIFICATE_H
#define PLAIN_CERTIFICATE_H

#include "neapwillow.h"
#include "plain_answers.h"

plain_answer plain_certificate_read(uint32_t kind, const uint8_t *body, size_t n);
plain_answer plain_certificate_authorization_count(const uint8_t *body, size_t n);
plain_answer plain_certificate_authorization(const uint8_t *body, size_t n, uint64_t i);
plain_answer plain_certificate_certificate_count(const uint8_t *body, size_t n);
plain_answer plain_certificate_certificate(const uint8_t *body, size_t n, uint64_t i);
plain_answer plain_certificate_signature(const uint8_t *body, size_t n);
plain_answer plain_certificate_write(const uint8_t *pool, size_t pool_bytes, const uint64_t *tape, size_t entries,
                                     uint8_t *out, size_t room);
plain_answer plain_certificate_lay(uint32_t kind, const uint8_t *body, size_t n, uint64_t *tape, size_t entries);

#endif
