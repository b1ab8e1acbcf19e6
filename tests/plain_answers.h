// plain_answers.h: an answer in plain C: the 64 bits of the header's structs, taken apart without the header.
// SPDX-License-Identifier: MIT
#ifndef PLAIN_ANSWERS_H
#define PLAIN_ANSWERS_H

#include <stddef.h>
#include <stdint.h>

typedef uint64_t plain_answer;

static inline unsigned refusal_of(plain_answer a) { return (unsigned)(a & 0xFF); }
static inline uint64_t value_of(plain_answer a) { return a >> 8; }
static inline size_t part_start(plain_answer a) { return value_of(a) >> 24; }
static inline size_t part_length(plain_answer a) { return value_of(a) & 0xFFFFFF; }

static inline uint32_t date_year(plain_answer a) { return (uint32_t)(value_of(a) >> 16); }
static inline uint32_t date_month(plain_answer a) { return (uint32_t)(value_of(a) >> 8 & 0xFF); }
static inline uint32_t date_day(plain_answer a) { return (uint32_t)(value_of(a) & 0xFF); }

static inline uint32_t heading_kind(plain_answer a) { return (uint32_t)(value_of(a) >> 48); }
static inline uint32_t heading_extension(plain_answer a) { return (uint32_t)(value_of(a) >> 32 & 0xFFFF); }
static inline uint32_t heading_version(plain_answer a) { return (uint32_t)(value_of(a) >> 24 & 0xFF); }
static inline uint32_t heading_current(plain_answer a) { return (uint32_t)(value_of(a) >> 16 & 0xFF); }
static inline uint32_t heading_number(plain_answer a) { return (uint32_t)(value_of(a) >> 8 & 0xFF); }
static inline uint32_t heading_last(plain_answer a) { return (uint32_t)(value_of(a) & 0xFF); }

static inline size_t written_length(plain_answer a) { return value_of(a) & 0xFFFFFF; }

#endif
