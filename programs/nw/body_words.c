// body_words.c: a body told in plain words, field by field.
// SPDX-License-Identifier: MIT
#include "body.h"
#include "text.h"
#include <inttypes.h>
#include <langinfo.h>
#include <stdio.h>
#include <stdlib.h>

enum { LABELS = 20, HEX_SHOWN = 24 };

// Where the telling of a body is: in a row, whether something stands in it.
struct plain {
    bool in_row, begun;
};

void indent(unsigned depth) { printf("%*s", 2 + 2 * (int)depth, ""); }

void put_label(unsigned depth, const char *label) {
    indent(depth);
    int width = LABELS - 2 * (int)depth;
    printf("%-*s ", width > 0 ? width : 0, label);
}

static void enter_plain(void *own, const struct walk *w, const struct group *g) {
    struct plain *p = own;
    char label[64];
    if (g->single) return;
    p->in_row = g->row;
    p->begun = false;
    if (g->count != 0 && !g->row) snprintf(label, sizeof label, "%s %" PRIu64 " of %" PRIu64, g->label, g->number + 1, g->count);
    else snprintf(label, sizeof label, "%s %" PRIu64, g->label, g->number + 1);
    if (g->row) put_label(w->depth, label);
    else {
        indent(w->depth);
        puts(label);
    }
}

static void leave_plain(void *own, const struct walk *w) {
    struct plain *p = own;
    (void)w;
    if (p->in_row) putchar('\n');
    p->in_row = false;
}

// The lines of a text, each after a bar.
static bool put_lines(unsigned depth, const struct text *t) {
    bool hidden = false;
    for (size_t i = 0; i < t->n; i++) {
        indent(depth);
        fputs("  | ", stdout);
        for (; i < t->n && t->c[i] != '\n'; i++)
            if (!(t->c[i] == '\r' && i + 1 < t->n && t->c[i + 1] == '\n') && text_show(t->c[i])) hidden = true;
        putchar('\n');
    }
    return hidden;
}

static void put_remark(unsigned depth, const char *remark) {
    indent(depth);
    printf("  (%s)\n", remark);
}

static void put_text(unsigned depth, const struct walk *w, const struct field *f) {
    struct text t;
    char remark[160];
    if (!text_decode(&t, f->set, w->body.s + f->at, f->bytes)) {
        put_remark(depth, "not shown: there is no memory for it");
        return;
    }
    bool hidden = put_lines(depth, &t);
    snprintf(remark, sizeof remark, "bytes that are no character of the set: %zu, written as \\xNN", t.bare);
    if (!t.known && t.n != 0)
        put_remark(depth, "the C library has no conversion from this set: ASCII is shown, other bytes as \\xNN");
    else if (t.bare != 0) put_remark(depth, remark);
    snprintf(remark, sizeof remark, "characters that steer a terminal, or that its set, %s, has not, are written as \\u{..}",
             nl_langinfo(CODESET));
    if (hidden) put_remark(depth, remark);
    free(t.c);
}

static void put_hex(const uint8_t *s, size_t n) {
    for (size_t i = 0; i < n && i < HEX_SHOWN; i++) printf("%s%02X", i == 0 ? "" : " ", (unsigned)s[i]);
    if (n > HEX_SHOWN) printf(" and %zu bytes more", n - HEX_SHOWN);
    if (n == 0) fputs("no byte", stdout);
}

// A field that is refused: its bytes, why, and where.
static void put_refused(struct plain *p, const struct walk *w, const struct field *f) {
    if (p->in_row) putchar('\n');
    p->in_row = false;
    put_label(w->depth, f->label[0] != '\0' ? f->label : f->name);
    put_hex(w->body.s + f->at, f->bytes);
    putchar('\n');
    indent(w->depth);
    printf("  ^ refused: %s (refusal %u, %s at byte %zu of the body)\n", nw_refusal_text(f->refusal), f->refusal, f->name, f->at);
}

bool is_told(const struct field *f) {
    return f->role == VALUE || f->role == TIME || f->role == HEX || f->role == OPAQUE || (f->role == COUNT && f->number == 0);
}

static void field_plain(void *own, const struct walk *w, const struct field *f) {
    struct plain *p = own;
    if (f->refusal != NW_TAKEN) put_refused(p, w, f);
    else if (f->role == UNREAD) {
        put_label(0, f->label);
        printf("%zu bytes after it, from byte %zu of the body on\n", f->bytes, f->at);
    } else if (f->role == TEXT) {
        put_label(w->depth, f->label);
        printf(f->bytes == 0 ? "none\n" : "%zu bytes\n", f->bytes);
        put_text(w->depth, w, f);
    } else if (is_told(f) && p->in_row) {
        printf("%s%s%s%s", p->begun ? ", " : "", f->label, f->label[0] == '\0' ? "" : " ", f->words);
        p->begun = true;
    } else if (is_told(f)) {
        put_label(w->depth, f->label);
        puts(f->role == COUNT ? "none" : f->words);
    }
}

void body_in_words(const struct body *b, struct clock clock) {
    struct plain p = {false, false};
    body_walk(b, clock, (struct visitor){enter_plain, leave_plain, field_plain, &p});
}

static void field_of_language(void *own, const struct walk *w, const struct field *f) {
    if (w->depth != 0) field_plain(own, w, f);
}

void texts_in_words(const struct body *content, struct clock clock) {
    struct plain p = {false, false};
    body_walk(content, clock, (struct visitor){enter_plain, leave_plain, field_of_language, &p});
}
