// plain_fields.h: what the tables in plain C share: fields read, laid, judged on a form, written and asked for.
// SPDX-License-Identifier: MIT
#ifndef PLAIN_FIELDS_H
#define PLAIN_FIELDS_H

#include <string.h>

#include "neapwillow.h"
#include "plain_answers.h"

enum {
    PAST_BODY = NW_PAST_BODY,
    PAST_PART = NW_PAST_PART,
    RESERVED = NW_RESERVED_BIT_ZERO,
    DIGIT = NW_DIGIT_ABOVE_NINE,
    OUTSIDE = NW_OUTSIDE_SET,
    IMPOSSIBLE = NW_IMPOSSIBLE_DAY,
};

// Digits and the reserved bits before them.
enum { IDENTIFIER_BYTES = 18, RESOURCE_BYTES = 12 };

// 1 March 1900 and 22 April 2038.
enum { FIRST_DAY = 15079, LAST_DAY = 65535 };

// Made part of each caller, where its widths and functions are constants: the C that is measured is as if written out.
#define INLINED static inline __attribute__((always_inline))

static inline plain_answer refused(unsigned number, size_t place) { return (plain_answer)place << 8 | number; }
static inline plain_answer value(uint64_t x) { return x << 8; }
static inline plain_answer part(size_t start, size_t length) { return value((uint64_t)start << 24 | length); }

// ---- fields of a body

static inline uint64_t big_endian(const uint8_t *s, size_t width) {
    uint64_t x = 0;
    for (size_t i = 0; i < width; i++) x = x << 8 | s[i];
    return x;
}

// Not 0 where one of the 4-bit digits of x is above 9: its 8 stands with its 4 or its 2.
static inline uint64_t above_nine(uint64_t x) { return x >> 3 & (x >> 2 | x >> 1) & UINT64_C(0x1111111111111111); }

static inline uint64_t eight_bytes(const uint8_t *s) {
    uint64_t x;
    memcpy(&x, s, sizeof x);
    return x;
}

// Sixteen digits at once; the last eight bytes once more where they are not eight. The first four bits are reserved and no digit.
INLINED int bad_digits(const uint8_t *s, size_t width) {
    static const uint8_t first[8] = {0x0F, 0xFF, 0xFF, 0xFF, 0xFF, 0xFF, 0xFF, 0xFF};
    uint64_t bad = above_nine(eight_bytes(s) & eight_bytes(first));
    for (size_t i = 8; i + 8 < width; i += 8) bad |= above_nine(eight_bytes(s + i));
    return (bad | above_nine(eight_bytes(s + width - 8))) != 0;
}

static inline unsigned digit_of(const uint8_t *s, size_t i) { return i % 2 ? s[(i + 1) / 2] >> 4 : s[i / 2] & 15u; }

static inline int is_time(uint64_t hour, uint64_t minute, uint64_t second) {
    return hour < 24 && minute < 60 && second < 60;
}

// 0, 18 or 20 of a time field of 40 bits that is not live.
static inline unsigned time_fault(uint64_t field) {
    if (above_nine(field & 0xFFFFFF)) return DIGIT;
    if (field >> 24 < FIRST_DAY || (field >> 16 & 0xFF) > 0x23 || (field >> 8 & 0xFF) > 0x59 || (field & 0xFF) > 0x59)
        return IMPOSSIBLE;
    return 0;
}

// 0 or 20 of the day in an identifier of digits, YYYYMMDD in bytes 12 to 15, where numbers of decimal digits stand in their order. In the range
// every fourth year is a leap year: the February of 1900 is before it.
INLINED unsigned day_fault(const uint8_t *s) {
    static const uint8_t last[] = {
        [1] = 0x31, [2] = 0x28, [3] = 0x31, [4] = 0x30,    [5] = 0x31,    [6] = 0x30,
        [7] = 0x31, [8] = 0x31, [9] = 0x30, [0x10] = 0x31, [0x11] = 0x30, [0x12] = 0x31};
    uint64_t date = big_endian(s + 12, 4);
    unsigned month = s[14], day = s[15], leap = month == 2 && ((s[13] >> 4) * 2 + (s[13] & 15)) % 4 == 0;
    if (date < 0x19000301 || date > 0x20380422 || month > 0x12 || day == 0 || day > last[month] + leap) return IMPOSSIBLE;
    return 0;
}

// A place in a body, and the end of the counted part that is being read. Each `take` passes a field and answers 0, or
// answers the refusal's number and stays: the place of a refusal is where the reader then stands.
struct reader {
    const uint8_t *s;
    size_t n, end, at;
};

static inline unsigned need(const struct reader *r, size_t width) {
    if (r->at + width <= r->end) return 0;
    return r->at + width > r->n ? PAST_BODY : PAST_PART;
}

static inline unsigned take(struct reader *r, size_t width) {
    unsigned no = need(r, width);
    if (no == 0) r->at += width;
    return no;
}

// The reserved bits at the top of the next byte, which is not passed.
static inline unsigned reserved(const struct reader *r, unsigned mask) {
    unsigned no = need(r, 1);
    return no ? no : (r->s[r->at] & mask) == mask ? 0 : RESERVED;
}

// A number below the reserved bits of a byte, from `least` to `most`.
static inline unsigned take_small(struct reader *r, unsigned mask, unsigned least, unsigned most) {
    unsigned no = reserved(r, mask);
    if (no) return no;
    unsigned x = r->s[r->at] & ~mask;
    if (x < least || x > most) return OUTSIDE;
    r->at++;
    return 0;
}

// What is wrong is looked for only where something is.
INLINED unsigned take_digits(struct reader *r, size_t width) {
    const uint8_t *s = r->s + r->at;
    if (r->at + width <= r->end && s[0] >= 0xF0 && !bad_digits(s, width)) {
        r->at += width;
        return 0;
    }
    unsigned no = reserved(r, 0xF0);
    return no || (no = need(r, width)) ? no : DIGIT;
}

INLINED unsigned take_identifier(struct reader *r) {
    unsigned no = take_digits(r, IDENTIFIER_BYTES);
    if (no == 0 && (no = day_fault(r->s + r->at - IDENTIFIER_BYTES))) r->at -= IDENTIFIER_BYTES;
    return no;
}

// A length in so many bytes whose part, right after it, lies in the body and in the part that is being read.
static inline unsigned take_length(struct reader *r, size_t width, size_t *length) {
    unsigned no = need(r, width);
    if (no) return no;
    *length = big_endian(r->s + r->at, width);
    if ((no = need(r, width + *length))) return no;
    r->at += width;
    return 0;
}

// A length and what it counts.
static inline unsigned skip_part(struct reader *r, size_t width) {
    size_t length;
    unsigned no = take_length(r, width, &length);
    if (no == 0) r->at += length;
    return no;
}

static inline unsigned take_signature(struct reader *r) { return skip_part(r, 2); }
static inline unsigned take_resource(struct reader *r) { return take_digits(r, RESOURCE_BYTES); }

typedef unsigned taker(struct reader *r);

// A count as of `take_small`, and so many things.
INLINED unsigned take_several(struct reader *r, unsigned mask, unsigned least, unsigned most, taker *one) {
    unsigned no = take_small(r, mask, least, most);
    if (no) return no;
    for (unsigned left = r->s[r->at - 1] & ~mask; left > 0; left--)
        if ((no = one(r))) return no;
    return 0;
}

// Fields that fill a part of so many bytes.
INLINED unsigned take_filled(struct reader *r, size_t length, taker *fields) {
    size_t outer = r->end;
    r->end = r->at + length;
    unsigned no = fields(r);
    if (no) return no;
    if (r->at < r->end) return PAST_PART;
    r->end = outer;
    return 0;
}

// ---- an accepted body laid onto a tape

// What is still to be laid, and how many entries are: those below the room stand on the tape.
struct layer {
    const uint8_t *s;
    size_t at;
    uint64_t *tape;
    size_t room, laid;
};

static inline uint64_t lay_entry(struct layer *l, uint64_t x) {
    if (l->laid < l->room) l->tape[l->laid] = x;
    l->laid++;
    return x;
}

static inline uint64_t lay_number(struct layer *l, size_t width, uint64_t mask) {
    l->at += width;
    return lay_entry(l, big_endian(l->s + l->at - width, width) & mask);
}

static inline void lay_span(struct layer *l, size_t length) {
    lay_entry(l, l->at);
    lay_entry(l, length);
    l->at += length;
}

// A length, which is passed, and what it counts.
static inline void lay_part(struct layer *l, size_t width) {
    size_t length = big_endian(l->s + l->at, width);
    l->at += width;
    lay_span(l, length);
}

static inline void lay_resource(struct layer *l) { lay_span(l, RESOURCE_BYTES); }

// A count in the low bits of a byte, and so many things.
INLINED void lay_several(struct layer *l, uint64_t mask, void (*one)(struct layer *l)) {
    for (uint64_t left = lay_number(l, 1, mask); left > 0; left--) one(l);
}

// ---- a form judged and measured

// The entries that are left, the pool, the bytes that what was passed fills, and whether a count or length is too large
// for its field. A `form_` function answers 0 or the refusal's number.
struct form {
    const uint64_t *t;
    size_t left;
    const uint8_t *pool;
    size_t pool_bytes;
    uint64_t bytes;
    int large;
};

static inline unsigned form_number(struct form *f, uint64_t least, uint64_t most) {
    if (f->left == 0 || *f->t < least || *f->t > most) return OUTSIDE;
    f->t++;
    f->left--;
    return 0;
}

// A span of the pool, and its bytes.
static inline unsigned form_span(struct form *f, const uint8_t **s, uint64_t *length) {
    if (f->left < 2 || f->t[0] > f->pool_bytes || f->t[1] > f->pool_bytes - f->t[0]) return OUTSIDE;
    *s = f->pool + f->t[0];
    *length = f->t[1];
    f->t += 2;
    f->left -= 2;
    return 0;
}

INLINED unsigned form_digits(struct form *f, size_t width) {
    const uint8_t *s;
    uint64_t length;
    unsigned no = form_span(f, &s, &length);
    if (no || length != width) return OUTSIDE;
    f->bytes += width;
    return bad_digits(s, width) ? DIGIT : 0;
}

INLINED unsigned form_identifier(struct form *f) {
    const uint64_t *first = f->t;
    unsigned no = form_digits(f, IDENTIFIER_BYTES);
    return no ? no : day_fault(f->pool + *first);
}

// Bytes after a length field, whose most is given. What is too large is not measured: its size can't matter any more.
static inline unsigned form_opaque(struct form *f, size_t width, uint64_t most) {
    const uint8_t *s;
    uint64_t length;
    unsigned no = form_span(f, &s, &length);
    if (no) return no;
    if (length > most) f->large = 1;
    else f->bytes += width + length;
    return 0;
}

static inline unsigned form_signature(struct form *f) { return form_opaque(f, 2, 0xFFFF); }
static inline unsigned form_resource(struct form *f) { return form_digits(f, RESOURCE_BYTES); }

// A count that is written in a byte, and so many things.
INLINED unsigned form_several(struct form *f, uint64_t least, uint64_t most, unsigned (*one)(struct form *f)) {
    unsigned no = form_number(f, least, most);
    if (no) return no;
    uint64_t left = f->t[-1];
    f->bytes++;
    for (f->large |= left > 0xFF; left > 0; left--)
        if ((no = one(f))) return no;
    return 0;
}

// ---- a form written

// The next entry, the pool, and where the next byte goes.
struct writer {
    const uint64_t *t;
    const uint8_t *pool;
    uint8_t *to;
};

static inline void put(uint8_t *to, uint64_t x, size_t width) {
    for (size_t i = 0; i < width; i++) to[i] = (uint8_t)(x >> 8 * (width - 1 - i));
}

static inline void put_number(struct writer *w, size_t width, uint64_t fixed) {
    put(w->to, fixed | *w->t++, width);
    w->to += width;
}

static inline void put_span(struct writer *w) {
    memcpy(w->to, w->pool + w->t[0], w->t[1]);
    w->to += w->t[1];
    w->t += 2;
}

// Bytes of a form that was judged to have so many: the copy is a few moves.
INLINED void put_fixed(struct writer *w, size_t width) {
    memcpy(w->to, w->pool + w->t[0], width);
    w->to += width;
    w->t += 2;
}

INLINED void put_digits(struct writer *w, size_t width) {
    put_fixed(w, width);
    w->to[-(ptrdiff_t)width] |= 0xF0;
}

static inline void put_resource(struct writer *w) { put_digits(w, RESOURCE_BYTES); }
static inline void put_identifier(struct writer *w) { put_digits(w, IDENTIFIER_BYTES); }

static inline void put_opaque(struct writer *w, size_t width) {
    put(w->to, w->t[1], width);
    w->to += width;
    put_span(w);
}

// The length of what was put after its own bytes, which begin at a place.
static inline void put_length(struct writer *w, uint8_t *at, size_t width, uint64_t fixed) {
    put(at, fixed | ((uint64_t)(w->to - at) - width), width);
}

// A count below the fixed bits of a byte, and so many things.
INLINED void put_several(struct writer *w, uint64_t fixed, void (*one)(struct writer *w)) {
    uint64_t left = *w->t;
    for (put_number(w, 1, fixed); left > 0; left--) one(w);
}

// ---- fields asked for

// A reader at a place of the part of a body from `begin` to `end`; 0 where there is no such part.
static inline int stands(struct reader *r, const uint8_t *body, size_t n, size_t begin, size_t length, size_t place) {
    if (begin > n || length > n - begin) return 0;
    *r = (struct reader){body, n, begin + length, begin + place};
    return 1;
}

// The number in the next `width` bytes.
static inline plain_answer asked_number(struct reader *r, size_t width) {
    unsigned no = take(r, width);
    return no ? refused(no, r->at) : value(big_endian(r->s + r->at - width, width));
}

// The number of `take_small`.
static inline plain_answer asked_small(struct reader *r, unsigned mask, unsigned least, unsigned most) {
    unsigned no = take_small(r, mask, least, most);
    return no ? refused(no, r->at) : value(r->s[r->at - 1] & ~mask);
}

static inline plain_answer asked_digits(struct reader *r, size_t width) {
    unsigned no = take_digits(r, width);
    return no ? refused(no, r->at) : part(r->at - width, width);
}

static inline plain_answer asked_identifier(struct reader *r) {
    unsigned no = take_identifier(r);
    return no ? refused(no, r->at) : part(r->at - IDENTIFIER_BYTES, IDENTIFIER_BYTES);
}

static inline plain_answer asked_digit(const uint8_t *body, plain_answer digits, uint64_t i) {
    if (refusal_of(digits)) return digits;
    return i < 2 * part_length(digits) - 1 ? value(digit_of(body + part_start(digits), i)) : OUTSIDE;
}

static inline plain_answer asked_part(struct reader *r, size_t width) {
    size_t length;
    unsigned no = take_length(r, width, &length);
    return no ? refused(no, r->at) : part(r->at, length);
}

// ---- parts passed by their lengths, to what stands after them

static inline plain_answer skip_parts(struct reader *r, uint64_t count, size_t width) {
    for (unsigned no; count > 0; count--)
        if ((no = skip_part(r, width))) return refused(no, r->at);
    return 0;
}

// A count in a byte, and so many parts.
static inline plain_answer skip_list(struct reader *r, size_t width) {
    plain_answer count = asked_number(r, 1);
    return refusal_of(count) ? count : skip_parts(r, value_of(count), width);
}

// The i-th part of the list at which the reader stands.
static inline plain_answer asked_part_of_list(struct reader *r, uint64_t i, size_t width) {
    plain_answer count = asked_number(r, 1), no;
    if (refusal_of(count)) return count;
    if (i >= value_of(count)) return OUTSIDE;
    return (no = skip_parts(r, i, width)) ? no : asked_part(r, width);
}

#endif
