// html_body.c: a body on an HTML page, in plain words and byte by byte.
// SPDX-License-Identifier: MIT
#include "body.h"
#include "html.h"
#include "page.h"
#include "text.h"
#include <inttypes.h>
#include <stdlib.h>
#include <string.h>

// Where the telling of a body is: in a row, whether something stands in it.
struct telling {
    size_t place; // the table's in the list of tables
    bool in_row, begun;
};

static void put_group(const struct group *g) {
    page_put(g->label);
    if (!g->single) fprintf(page, " %" PRIu64, g->number + 1);
    if (!g->single && !g->row && g->count != 0) fprintf(page, " of %" PRIu64, g->count);
}

static void put_hex(const struct walk *w, const struct field *f) {
    char bits[BITS_ROOM];
    for (size_t i = 0; i < f->bytes; i++) fprintf(page, "%s%s", i == 0 ? "" : " ", field_bits(w, f, i, bits));
    if (f->bytes == 0) fputs("no byte", page);
}

// ---- in words

static void enter_words(void *own, const struct walk *w, const struct group *g) {
    struct telling *t = own;
    (void)w;
    fputs(g->row ? "<dt>" : "<dt class=\"group\">", page);
    put_group(g);
    fputs(g->row ? "</dt><dd>" : "</dt><dd class=\"group\"><dl>\n", page);
    t->in_row = g->row;
    t->begun = false;
}

static void leave_words(void *own, const struct walk *w) {
    struct telling *t = own;
    (void)w;
    fputs(t->in_row ? "</dd>\n" : "</dl></dd>\n", page);
    t->in_row = false;
}

static void put_remark(const char *remark) {
    fputs("<p class=\"remark\">", page);
    page_put(remark);
    fputs("</p>", page);
}

static bool is_line_end(const struct text *t, size_t i) { return t->c[i] == '\r' && i + 1 < t->n && t->c[i + 1] == '\n'; }

// The characters of a text, in lines.
static void put_text(const struct walk *w, const struct field *f) {
    struct text t;
    if (!text_decode(&t, f->set, w->body.s + f->at, f->bytes)) {
        put_remark("not shown: there is no memory for it");
        return;
    }
    if (t.n != 0) fputs("<blockquote class=\"text\" dir=\"auto\">", page);
    for (size_t i = 0; i < t.n; i++)
        if (t.c[i] == '\n') putc('\n', page);
        else if (!is_line_end(&t, i)) page_put_character(t.c[i], true);
    if (t.n != 0) fputs("</blockquote>", page);
    if (!t.known && t.n != 0) put_remark("The C library has no conversion from this set: ASCII is shown, other bytes as \\xNN.");
    else if (t.bare != 0) fprintf(page, "<p class=\"remark\">Bytes that are no character of the set: %zu, written as \\xNN.</p>", t.bare);
    free(t.c);
}

// A field that is refused: its bytes, why, and where.
static void words_refused(const struct telling *t, const struct walk *w, const struct field *f) {
    fputs("<code>", page);
    put_hex(w, f);
    fprintf(page, "</code> <strong class=\"refused\">refused: %s</strong> (refusal %u, <code>", nw_refusal_text(f->refusal), f->refusal);
    page_put(f->name);
    fprintf(page, "</code> at <a href=\"#refused-%zu\">byte %zu of the body</a>)", t->place, f->at);
}

static void put_value(const struct telling *t, const struct walk *w, const struct field *f) {
    if (f->refusal != NW_TAKEN) words_refused(t, w, f);
    else if (f->role == UNREAD) fprintf(page, "%zu bytes after it, from byte %zu of the body on", f->bytes, f->at);
    else if (f->role == TEXT) {
        fprintf(page, f->bytes == 0 ? "none" : "%zu bytes", f->bytes);
        put_text(w, f);
    } else page_put(f->role == COUNT ? "none" : f->words);
}

static void field_words(void *own, const struct walk *w, const struct field *f) {
    struct telling *t = own;
    bool refused = f->refusal != NW_TAKEN;
    if (!refused && f->role != UNREAD && f->role != TEXT && !is_told(f)) return;
    if (t->in_row) {
        fprintf(page, "%s%s%s", t->begun ? ", " : "", f->label, f->label[0] == '\0' ? "" : " ");
        put_value(t, w, f);
        t->begun = true;
        return;
    }
    fprintf(page, "<dt>%s</dt><dd>", f->label[0] == '\0' ? f->name : f->label);
    put_value(t, w, f);
    fputs("</dd>\n", page);
}

void html_body_in_words(const struct body *b, struct clock clock, size_t place) {
    struct telling t = {place, false, false};
    body_walk(b, clock, (struct visitor){enter_words, leave_words, field_words, &t});
}

// ---- in bytes

static void enter_bytes(void *own, const struct walk *w, const struct group *g) {
    (void)own, (void)w;
    fprintf(page, "<tr class=\"group\"><th colspan=\"4\" scope=\"colgroup\">%.*s", (int)w->depth * 2, "- - - - - ");
    put_group(g);
    fputs("</th></tr>\n", page);
}

static void leave_bytes(void *own, const struct walk *w) { (void)own, (void)w; }

// The value; the bytes themselves stand before it.
static void bytes_value(const struct field *f) {
    if (f->role == TEXT) fprintf(page, "%zu bytes of %s", f->bytes, nw_character_set_text(f->set));
    else if (f->role == HEX) fprintf(page, "%zu bytes", f->bytes);
    else page_put(f->words);
}

// A name of the standard, which may be broken after each part of it.
static void put_name(const char *name) {
    for (; *name != '\0'; name++) {
        putc(*name, page);
        if (*name == '_') fputs("<wbr>", page);
    }
}

static void field_bytes(void *own, const struct walk *w, const struct field *f) {
    const struct telling *t = own;
    bool refused = f->refusal != NW_TAKEN;
    if (f->bits == 0 && !refused) return; // no bytes: its length has said so
    if (refused) fprintf(page, "<tr class=\"refused\" id=\"refused-%zu\">", t->place);
    else fputs("<tr>", page);
    fprintf(page, "<th scope=\"row\">%zu</th><td><code>", f->at);
    put_hex(w, f);
    fputs("</code></td><td>", page);
    put_name(f->name);
    fputs("</td><td>", page);
    if (refused) fprintf(page, "<strong class=\"refused\">refused here: %s</strong> (refusal %u)", nw_refusal_text(f->refusal), f->refusal);
    else bytes_value(f);
    fputs("</td></tr>\n", page);
}

void html_body_in_bytes(const struct body *b, struct clock clock, size_t place) {
    struct telling t = {place, false, false};
    fputs("<table class=\"bytes\"><thead><tr><th scope=\"col\">byte</th><th scope=\"col\">its bytes</th><th scope=\"col\">name in the standard</th>"
          "<th scope=\"col\">value</th></tr></thead><tbody>\n",
          page);
    body_walk(b, clock, (struct visitor){enter_bytes, leave_bytes, field_bytes, &t});
    fputs("</tbody></table>\n", page);
}
