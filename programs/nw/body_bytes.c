// body_bytes.c: a body told byte by byte: where each field stands, its bytes, its name in the standard and its value.
// SPDX-License-Identifier: MIT
#include "body.h"
#include <inttypes.h>
#include <stdio.h>

enum { ACROSS = 12 }; // bytes to a line

// The bits of a byte from one on, up to another.
static char *bits_text(unsigned byte, unsigned from, unsigned to, char text[BITS_ROOM]) {
    size_t n = 0;
    if (from % 4 != 0 || to % 4 != 0)
        for (unsigned i = 0; i < 8; i++) text[n++] = i < from || i >= to ? '.' : "01"[byte >> (7 - i) & 1];
    else {
        text[n++] = from >= 4 ? '.' : "0123456789ABCDEF"[byte >> 4];
        text[n++] = to <= 4 ? '.' : "0123456789ABCDEF"[byte & 15];
    }
    text[n] = '\0';
    return text;
}

char *field_bits(const struct walk *w, const struct field *f, size_t i, char text[BITS_ROOM]) {
    size_t stop = f->bit + f->bits;
    return bits_text(w->body.s[f->at + i], i == 0 ? f->bit : 0, stop >= 8 * (i + 1) ? 8 : (unsigned)(stop - 8 * i), text);
}

// A line of a field's bytes from one on. Answers how wide it is.
static int put_line(const struct walk *w, const struct field *f, size_t from, size_t n) {
    char bits[BITS_ROOM];
    int width = 0;
    printf("  %7zu ", f->at + from);
    for (size_t i = from; i < from + n; i++) width += printf(" %s", field_bits(w, f, i, bits));
    return width;
}

// The value; the bytes themselves stand before it.
static void put_value(const struct field *f) {
    if (f->role == TEXT) printf(": %zu bytes of %s", f->bytes, nw_character_set_text(f->set));
    else if (f->role == HEX) printf(": %zu bytes", f->bytes);
    else if (f->words[0] != '\0') printf(": %s", f->words);
}

static void field_in_bytes(void *own, const struct walk *w, const struct field *f) {
    (void)own;
    if (f->bits == 0 && f->refusal == NW_TAKEN) return; // no bytes: its length has said so
    size_t n = f->bytes < ACROSS ? f->bytes : ACROSS;
    int width = put_line(w, f, 0, n);
    printf("%*s", width < 3 * ACROSS ? 3 * ACROSS - width : 0, "");
    indent(w->depth);
    fputs(f->name, stdout);
    put_value(f);
    putchar('\n');
    for (size_t to = n; to < f->bytes; to += n) {
        n = f->bytes - to < ACROSS ? f->bytes - to : ACROSS;
        put_line(w, f, to, n);
        putchar('\n');
    }
    if (f->refusal == NW_TAKEN) return;
    printf("  %7zu  ^ refused here: %s (refusal %u, %s)\n", f->at, nw_refusal_text(f->refusal), f->refusal, f->name);
}

static void enter_in_bytes(void *own, const struct walk *w, const struct group *g) {
    (void)own;
    printf("  %7s %*s", "", 3 * ACROSS, "");
    indent(w->depth);
    if (g->single) printf("%s\n", g->label);
    else printf("%s %" PRIu64 "\n", g->label, g->number + 1);
}

static void leave_in_bytes(void *own, const struct walk *w) {
    (void)own;
    (void)w;
}

void body_in_bytes(const struct body *b, struct clock clock) {
    body_walk(b, clock, (struct visitor){enter_in_bytes, leave_in_bytes, field_in_bytes, NULL});
}
