// plain_tables.h: what every table in plain C does with a whole body and a whole form.
// SPDX-License-Identifier: MIT
#ifndef PLAIN_TABLES_H
#define PLAIN_TABLES_H

#include "plain_fields.h"

// A table: what passes all its fields, lays them, judges them on a form and writes them.
struct table {
    uint32_t kind;
    unsigned (*take)(struct reader *r);
    void (*lay)(struct layer *l);
    unsigned (*form)(struct form *f);
    void (*put)(struct writer *w);
};

INLINED plain_answer judge(const struct table *t, uint32_t kind, struct reader *r) {
    if (kind != t->kind) return NW_OTHER_KIND;
    if (r->n > NW_MOST_BODY) return NW_TOO_LARGE;
    unsigned no = t->take(r);
    if (no == 0 && r->at < r->n) no = NW_LEFT_OVER;
    return no ? refused(no, r->at) : 0;
}

INLINED plain_answer read_table(const struct table *t, uint32_t kind, const uint8_t *body, size_t n) {
    struct reader r = {body, n, n, 0};
    return judge(t, kind, &r);
}

INLINED plain_answer lay_table(const struct table *t, uint32_t kind, const uint8_t *body, size_t n, uint64_t *tape,
                               size_t entries) {
    plain_answer got = read_table(t, kind, body, n);
    if (refusal_of(got)) return got;
    struct layer counting = {body, 0, NULL, 0, 0}, laying = {body, 0, tape, entries, 0};
    t->lay(&counting);
    if (counting.laid > entries) return NW_OUTPUT_TOO_SMALL;
    t->lay(&laying);
    return value(laying.laid);
}

// What is wrong with a form, or its body's length.
INLINED plain_answer measure(const struct table *t, struct form *f) {
    unsigned no = t->form(f);
    if (no) return no;
    if (f->left > 0) return OUTSIDE;
    return f->large || f->bytes > NW_MOST_BODY ? NW_TOO_LARGE : value(f->bytes);
}

INLINED plain_answer write_table(const struct table *t, const uint8_t *pool, size_t pool_bytes, const uint64_t *tape,
                                 size_t entries, uint8_t *out, size_t room) {
    struct form f = {tape, entries, pool, pool_bytes, 0, 0};
    plain_answer got = measure(t, &f);
    if (refusal_of(got)) return got;
    if (value_of(got) > room) return NW_OUTPUT_TOO_SMALL;
    t->put(&(struct writer){tape, pool, out});
    return got;
}

#endif
