// What the targets of gatherings share: a body, and sections of it, good and not.
// SPDX-License-Identifier: MIT
#ifndef CUTS_H
#define CUTS_H

#include "trial.h"

enum { BODY = 3 * NW_MOST_PAYLOAD + 100 };

// The table that the sections are cut from.
struct cuts {
    uint8_t body[BODY];
    size_t n;
};

// A section of the table, of another version of it, or one damaged or not current; answers its length.
static inline size_t make_section(struct input *in, const struct cuts *c, uint8_t *out) {
    uint32_t version = now_and_then(in, 8) ? (uint32_t)upto(in, 31) : 7;
    uint32_t number = (uint32_t)upto(in, nw_value(nw_section_count(c->n)) - 1);
    nw_answer a = nw_section_cut(c->body, c->n, NW_CONTENT, 0x1234, version, number, out, NW_MOST_SECTION);
    must(taken(a));
    size_t n = (size_t)nw_value(a);
    if (now_and_then(in, 8)) out[upto(in, n - 1)] ^= (uint8_t)(1 + upto(in, 254));
    if (now_and_then(in, 16)) { // another payload or current bit, and a right check
        out[now_and_then(in, 2) && n > 12 ? 8 : 5] ^= 1;
        uint32_t check = nw_crc32(out, n - 4);
        for (size_t i = 0; i < 4; i++) out[n - 4 + i] = (uint8_t)(check >> (24 - 8 * i));
    }
    return now_and_then(in, 16) ? upto(in, n) : n;
}

static inline struct cuts take_cuts(struct input *in) {
    struct cuts c = {{0}, 1 + upto(in, BODY - 1)};
    for (size_t i = 0; i < c.n; i++) c.body[i] = (uint8_t)(i + i / 251);
    return c;
}

#endif
