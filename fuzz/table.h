// What every table's target tries: a body that is read, laid and written again, and a form that is written and read again.
// SPDX-License-Identifier: MIT
#ifndef TABLE_H
#define TABLE_H

#include "trial.h"

// A table's functions; the writer's value is the body's length, and so many entries are enough to lay n bytes.
struct table {
    uint32_t kind;
    nw_answer (*read)(uint32_t kind, const uint8_t *body, size_t n);
    nw_answer (*lay)(uint32_t kind, const uint8_t *body, size_t n, uint64_t *tape, size_t entries);
    nw_answer (*measure)(const uint8_t *pool, size_t pool_bytes, const uint64_t *tape, size_t entries);
    nw_answer (*write)(const uint8_t *pool, size_t pool_bytes, const uint64_t *tape, size_t entries, uint8_t *out, size_t room);
    size_t (*enough)(size_t n);
    void (*make)(struct input *in, nw_form *f);
    void (*ask)(struct input *in, const uint8_t *body, size_t n, bool accepted);
};

// A form measured: the room that writing it needs, or its refusal with the entry, at most one after the last.
static inline void hold_measure(const struct table *t, const nw_form *f, nw_answer written, size_t room) {
    nw_answer a = t->measure(f->pool, f->pool_bytes, f->tape, f->entries);
    unsigned number = NW_REFUSAL(written);
    if (taken(written)) must(taken(a) && nw_value(a) == nw_value(written));
    else if (number == NW_OUTPUT_TOO_SMALL) must(taken(a) && nw_value(a) > room && nw_value(a) <= NW_MOST_BODY);
    else must(NW_REFUSAL(a) == number && NW_PLACE(a) <= (number == NW_TOO_LARGE ? 0 : f->entries));
}

// Writes a form into so much room. A refusal has no place and changes nothing; bytes after a body stay. No room at all can
// be NULL.
static inline nw_answer write_form(const struct table *t, const nw_form *f, struct lent *out) {
    nw_answer a = t->write(f->pool, f->pool_bytes, f->tape, f->entries, out->bytes, out->size);
    must(taken(a) || (listed(NW_REFUSAL(a)) && NW_PLACE(a) == 0));
    must(kept(out, taken(a) ? (size_t)nw_value(a) : 0));
    nw_answer none = t->write(f->pool, f->pool_bytes, f->tape, f->entries, NULL, 0);
    must(refused(none, taken(a) ? NW_OUTPUT_TOO_SMALL : a.packed));
    hold_measure(t, f, a, out->size);
    return a;
}

// An accepted body, laid onto k entries, is written again as it was, and not into less room.
static inline void write_again(const struct table *t, const uint8_t *body, size_t n, uint64_t *tape, size_t k) {
    uint8_t *pool = copy_of(body, n);
    nw_form f = {pool, n, n, tape, k, k, 0};
    struct lent out = lend(n, 0x5a), less = lend(n - 1, 0x5a);
    nw_answer a = write_form(t, &f, &out);
    must(taken(a) && nw_value(a) == n && memcmp(out.bytes, body, n) == 0);
    must(refused(write_form(t, &f, &less), NW_OUTPUT_TOO_SMALL));
    give_back(&out);
    give_back(&less);
    free(pool);
}

// Lays a body onto so many entries, which is as good as reading it; and onto none, at NULL.
static inline void try_laying(const struct table *t, const uint8_t *body, size_t n, nw_answer read, size_t entries) {
    struct lent tape = lend(entries * sizeof(uint64_t), 0x77);
    uint64_t *at = (uint64_t *)(void *)tape.bytes;
    nw_answer a = t->lay(t->kind, body, n, at, entries);
    if (taken(read)) must(taken(a) ? nw_value(a) <= entries : refused(a, NW_OUTPUT_TOO_SMALL) && entries < t->enough(n));
    else must(a.packed == read.packed);
    must(refused(t->lay(t->kind, body, n, NULL, 0), taken(read) ? NW_OUTPUT_TOO_SMALL : read.packed));
    must(kept(&tape, taken(a) ? (size_t)nw_value(a) * sizeof(uint64_t) : 0));
    if (taken(a)) {
        uint64_t *laid = block_of((size_t)nw_value(a) * sizeof(uint64_t));
        memcpy(laid, at, (size_t)nw_value(a) * sizeof(uint64_t));
        write_again(t, body, n, laid, (size_t)nw_value(a));
        free(laid);
    }
    give_back(&tape);
}

static inline void try_body(const struct table *t, struct input *in, const uint8_t *s, size_t n) {
    uint8_t *body = copy_of(s, n);
    nw_answer read = t->read(t->kind, body, n);
    hold_refusal(read, n);
    must(!taken(read) || nw_value(read) == 0);
    must(refused(t->read(t->kind ^ 1, body, n), NW_OTHER_KIND) && refused(t->read(t->kind + 256, body, n), NW_OTHER_KIND));
    try_laying(t, body, n, read, upto(in, 64));
    try_laying(t, body, n, read, t->enough(n));
    t->ask(in, body, n, taken(read));
    must(n == 0 || memcmp(body, s, n) == 0);
    free(body);
}

// A few bytes of a body changed, and its end moved.
static inline void damage(struct input *in, uint8_t *body, size_t *n, size_t room) {
    for (size_t edits = upto(in, 3); edits > 0 && *n > 0; edits--) body[upto(in, *n - 1)] = (uint8_t)take(in, 1);
    if (now_and_then(in, 4)) *n = upto(in, *n);
    if (now_and_then(in, 4)) *n += *n < room;
}

// An input is first a form; what is written of it, damaged a little, is then a body; what is left of the input is another.
static inline void try_table(const struct table *t, struct input in) {
    enum { POOL = 2048, ENTRIES = 512, ROOM = 8192 };
    uint8_t pool[POOL];
    uint64_t tape[ENTRIES];
    nw_form f = nw_form_start(pool, POOL, tape, ENTRIES);
    t->make(&in, &f);
    if (now_and_then(&in, 16)) nw_form_number(&f, take(&in, 1));
    struct lent out = lend(now_and_then(&in, 16) ? upto(&in, 255) : ROOM, 0x5a);
    nw_answer a = write_form(t, &f, &out);
    if (taken(a)) {
        size_t n = (size_t)nw_value(a);
        must(taken(t->read(t->kind, out.bytes, n)));
        try_body(t, &in, out.bytes, n);
        damage(&in, out.bytes, &n, out.size);
        try_body(t, &in, out.bytes, n);
    }
    give_back(&out);
    try_body(t, &in, in.s, in.n);
}

#endif
