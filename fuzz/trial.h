// What the fuzz targets share: numbers taken from an input, buffers lent with guards around them, forms made up.
//
// A target is a function LLVMFuzzerTestOneInput: libFuzzer calls it on inputs that reach new code (tests/check-fuzz),
// driver.c on inputs made by chance (tests/check-sanitizers). What must hold and does not ends the program.
// SPDX-License-Identifier: MIT
#ifndef TRIAL_H
#define TRIAL_H

#include <sanitizer/asan_interface.h>
#include <stdbool.h>
#include <stdint.h>
#include <stdio.h>
#include <stdlib.h>
#include <string.h>

#include "../tests/real_day.h"
#include "neapwillow.h"

int LLVMFuzzerTestOneInput(const uint8_t *data, size_t size);

#define must(holds) ((holds) ? (void)0 : must_not_be(#holds, __FILE__, __LINE__))

static inline void must_not_be(const char *what, const char *file, int line) {
    fprintf(stderr, "%s:%d: not so: %s\n", file, line, what);
    abort();
}

static inline void *block_of(size_t bytes) {
    void *block = malloc(bytes > 0 ? bytes : 1);
    must(block != NULL);
    return block;
}

// ---- what an input says

struct input {
    const uint8_t *s;
    size_t n;
};

// The next number of so many bytes; after the input's end its bytes are zeros.
static inline uint64_t take(struct input *in, unsigned bytes) {
    uint64_t x = 0;
    for (; bytes > 0; bytes--) {
        x = x << 8 | (in->n > 0 ? *in->s : 0);
        if (in->n > 0) in->s++, in->n--;
    }
    return x;
}

// A number up to `most`, itself included.
static inline size_t upto(struct input *in, size_t most) { return (size_t)(take(in, most > 255 ? 3 : 1) % (most + 1)); }

// True about once in `often` times.
static inline bool now_and_then(struct input *in, unsigned often) { return take(in, 1) % often == often - 1; }

// A copy of bytes in a block of exactly their number, so that a byte read past them is seen; of none, NULL.
static inline uint8_t *copy_of(const uint8_t *s, size_t n) {
    if (n == 0) return NULL;
    return memcpy(block_of(n), s, n);
}

// ---- checksums

// A checksum of so many bits by its definition, over the bits of s from `first` on, up to `end`.
static inline uint32_t by_bits(const uint8_t *s, size_t first, size_t end, unsigned bits, uint32_t polynomial) {
    uint32_t top = UINT32_C(1) << (bits - 1), all = top | (top - 1), x = all;
    for (size_t i = first; i < end; i++) {
        bool one = (x & top) != 0, next = s[i / 8] >> (7 - i % 8) & 1;
        x = (x << 1 & all) ^ (one != next ? polynomial : 0);
    }
    return x;
}

// Of the 18 bytes of an identifier: all its bits but the four reserved ones, which come first.
static inline uint32_t extension_of(const uint8_t *identifier) { return by_bits(identifier, 4, 144, 16, 0x1021); }

// ---- what is lent

enum { GUARD = 64 };

struct lent {
    uint8_t *block, *bytes, *before;
    size_t size;
};

static inline uint8_t guard_byte(size_t i) { return (uint8_t)(i ^ 0xa5); }

// A lent buffer that holds `fill`, with guards that may be neither read nor written until it is given back.
static inline struct lent lend(size_t size, uint8_t fill) {
    struct lent l = {block_of(size + 2 * GUARD), NULL, block_of(size), size};
    l.bytes = l.block + GUARD;
    memset(l.bytes, fill, size);
    memset(l.before, fill, size);
    for (size_t i = 0; i < GUARD; i++) l.block[i] = l.bytes[size + i] = guard_byte(i);
    ASAN_POISON_MEMORY_REGION(l.block, GUARD);
    ASAN_POISON_MEMORY_REGION(l.bytes + size, GUARD);
    return l;
}

// Whether the bytes from a place on are as they were lent, or as they were when `remember` was called.
static inline bool kept(const struct lent *l, size_t from) {
    return from <= l->size && memcmp(l->bytes + from, l->before + from, l->size - from) == 0;
}

static inline void remember(struct lent *l) { memcpy(l->before, l->bytes, l->size); }

static inline void give_back(struct lent *l) {
    ASAN_UNPOISON_MEMORY_REGION(l->block, l->size + 2 * GUARD);
    for (size_t i = 0; i < GUARD; i++) must(l->block[i] == guard_byte(i) && l->bytes[l->size + i] == guard_byte(i));
    free(l->block);
    free(l->before);
}

// ---- what every answer holds to

// Of an answer of any shape: whether it refuses nothing, and whether it refuses with this number at place 0.
#define taken(answer) (NW_REFUSAL(answer) == NW_TAKEN)
#define refused(answer, number) ((answer).packed == (number))

// The header has the list, which may have gaps.
static inline bool listed(unsigned number) { return strcmp(nw_refusal_text(number), "no such refusal") != 0; }

// A refusal has a number of the list; only 13 to 20 have a place, and it lies in a body of n bytes or at its end.
static inline void hold_refusal(nw_answer a, size_t n) {
    unsigned number = NW_REFUSAL(a);
    must(listed(number));
    if (number == NW_TAKEN || number == NW_MISSING) return;
    must(number >= NW_PAST_BODY && number <= NW_IMPOSSIBLE_DAY ? NW_PLACE(a) <= n : NW_PLACE(a) == 0);
}

// A part that was answered lies in the body.
static inline void hold_part(nw_part a, size_t n) {
    if (taken(a)) must(nw_part_start(a) <= n && nw_part_length(a) <= n - nw_part_start(a));
    else must(listed(NW_REFUSAL(a)));
}

static inline void hold_number(nw_answer a, uint64_t most) {
    if (taken(a)) must(nw_value(a) <= most);
    else must(listed(NW_REFUSAL(a)));
}

// A digit that was answered is the one of the text that the header makes of the bytes which were answered for all digits.
static inline void hold_digit(nw_answer digit, const uint8_t *body, nw_part digits, uint64_t i) {
    char text[NW_IDENTIFIER_DIGITS + 1];
    hold_number(digit, 9);
    if (!taken(digit)) return;
    must(taken(digits) && i < 2 * nw_part_length(digits) - 1);
    nw_digits_text(body + nw_part_start(digits), nw_part_length(digits), text);
    must((uint64_t)(text[i] - '0') == nw_value(digit));
}

// ---- forms made up from an input: mostly good ones

static inline void put_bytes(struct input *in, nw_form *f, size_t n) {
    uint8_t bytes[256];
    for (size_t i = 0; i < n; i++) bytes[i] = (uint8_t)take(in, 1);
    nw_form_bytes(f, bytes, n);
}

static inline void put_some(struct input *in, nw_form *f) { put_bytes(in, f, upto(in, 255) % 20); }

// Decimal digits, two to a byte; now and then others. Whether they are digits.
static inline bool take_digits(struct input *in, uint8_t *bytes, size_t n) {
    bool good = !now_and_then(in, 32);
    for (size_t i = 0; i < n; i++) {
        unsigned x = (unsigned)take(in, 1);
        bytes[i] = (uint8_t)(good ? x % 100 / 10 << 4 | x % 10 : x);
    }
    return good;
}

static inline void put_resource(struct input *in, nw_form *f) {
    uint8_t bytes[12];
    take_digits(in, bytes, sizeof bytes);
    nw_form_bytes(f, bytes, sizeof bytes);
}

// The identifier by itself is taken exactly if its digits are decimal and the calendar has their day.
static inline void hold_day(const uint8_t *identifier, bool digits) {
    uint8_t bytes[18];
    memcpy(bytes, identifier, sizeof bytes);
    bytes[0] |= 0xF0;
    struct real_day d = day_in(bytes);
    unsigned refusal = NW_REFUSAL(nw_content_identifier(bytes, sizeof bytes));
    if (digits) must(refusal == (taken(nw_day_of(d.year, d.month, d.day)) ? NW_TAKEN : NW_IMPOSSIBLE_DAY));
    else must(refusal == NW_TAKEN || refusal == NW_DIGIT_ABOVE_NINE || refusal == NW_IMPOSSIBLE_DAY);
}

// An identifier; one of digits has a real day, now and then the day that its digits are: mostly none.
static inline void put_identifier(struct input *in, nw_form *f) {
    uint8_t bytes[18];
    bool digits = take_digits(in, bytes, sizeof bytes), real = !now_and_then(in, 32);
    if (digits && real) {
        put_real_day(bytes);
        struct real_day d = day_in(bytes);
        must(taken(nw_day_of(d.year, d.month, d.day)));
    }
    hold_day(bytes, digits);
    nw_form_bytes(f, bytes, sizeof bytes);
}

// A number up to `most`; now and then any of 64 bits.
static inline void put_number(struct input *in, nw_form *f, size_t least, size_t most) {
    nw_form_number(f, now_and_then(in, 64) ? take(in, 8) : least + upto(in, most - least));
}

// Begins a list and answers how many things it has: up to `most`, now and then one that is counted wrongly.
static inline size_t put_count(struct input *in, nw_form *f, size_t most) {
    size_t count = upto(in, most);
    nw_form_number(f, now_and_then(in, 128) ? take(in, 2) : count);
    return count;
}

#endif
