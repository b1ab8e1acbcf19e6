// walk.c: the steps of a walk through a body, and the walk itself.
// SPDX-License-Identifier: MIT
#include "sha256.h"
#include "steps.h"
#include "words.h"
#include <stdarg.h>
#include <stdio.h>
#include <string.h>

// ---- a step

// How many of the bytes that so many bits from the walk's place on touch lie before an end.
static size_t bytes_at_hand(const struct walk *w, size_t bits, size_t end) {
    size_t at = w->bit / 8, last = (w->bit + bits + 7) / 8;
    size_t stop = last < end ? last : end;
    return at < stop ? stop - at : 0;
}

bool step(struct walk *w, unsigned refusal, struct field f) {
    f.at = w->bit / 8;
    f.bit = w->bit % 8;
    f.bytes = bytes_at_hand(w, f.bits, w->end);
    f.refusal = refusal;
    if (refusal != NW_TAKEN) {
        f.words = "";
        f.numeric = false;
    }
    w->visitor.field(w->visitor.own, w, &f);
    size_t next = w->bit + f.bits, most = 8 * (f.at + f.bytes); // a refused field may pass what there is
    w->bit = refusal == NW_TAKEN || next < most ? next : most;
    return refusal == NW_TAKEN;
}

// Whether the next bits, at most eight and in one byte, are all ones.
static bool are_ones(const struct walk *w, unsigned bits) {
    unsigned here = (unsigned)w->body.s[w->bit / 8] << w->bit % 8 & 0xFFu, wanted = 0xFF00u >> bits & 0xFFu;
    return (here & wanted) == wanted;
}

bool step_after(struct walk *w, unsigned reserved, unsigned refusal, struct field f) {
    if (bytes_at_hand(w, reserved, w->end) == 0) return step(w, refusal, f);
    bool wrong = refusal == NW_RESERVED_BIT_ZERO && !are_ones(w, reserved);
    struct field before = {.name = "reserved", .label = "reserved bits", .role = RESERVED, .bits = reserved, .words = "ones"};
    return step(w, wrong ? refusal : NW_TAKEN, before) && step(w, refusal, f);
}

// ---- values

static const char *tell(struct walk *w, const char *form, ...) {
    va_list words;
    va_start(words, form);
    vsnprintf(w->words, sizeof w->words, form, words);
    va_end(words);
    return w->words;
}

static struct field number_field(struct walk *w, const char *name, const char *label, unsigned bits, uint64_t x) {
    const char *words = tell(w, "%llu", (unsigned long long)x);
    return (struct field){.name = name, .label = label, .role = VALUE, .bits = bits, .numeric = true, .number = x, .words = words};
}

static struct field code_field(struct walk *w, const char *name, const char *label, unsigned bits, uint64_t x) {
    struct field f = number_field(w, name, label, bits, x);
    f.words = tell(w, "0x%0*llX", bits > 8 ? 4 : 2, (unsigned long long)x);
    return f;
}

bool step_number(struct walk *w, const char *name, const char *label, unsigned bits, nw_answer a) {
    return step(w, NW_REFUSAL(a), number_field(w, name, label, bits, nw_value(a)));
}

bool step_code(struct walk *w, const char *name, const char *label, unsigned bits, nw_answer a) {
    return step(w, NW_REFUSAL(a), code_field(w, name, label, bits, nw_value(a)));
}

bool step_pid(struct walk *w, const char *name, const char *label, nw_answer a) {
    return step_after(w, 3, NW_REFUSAL(a), code_field(w, name, label, 13, nw_value(a)));
}

bool step_count(struct walk *w, const char *name, const char *label, nw_answer a) {
    struct field f = number_field(w, name, label, 8, nw_value(a));
    f.role = COUNT;
    return step(w, NW_REFUSAL(a), f);
}

bool step_named(struct walk *w, const char *name, const char *label, unsigned bits, nw_answer a, const char *words) {
    struct field f = number_field(w, name, label, bits, nw_value(a));
    f.words = tell(w, "%llu, %s", (unsigned long long)nw_value(a), words);
    return step(w, NW_REFUSAL(a), f);
}

bool step_length(struct walk *w, const char *name, unsigned bits, nw_part part) {
    struct field f = number_field(w, name, "length", bits, nw_part_length(part));
    f.role = LENGTH;
    return bits == 12 ? step_after(w, 4, NW_REFUSAL(part), f) : step(w, NW_REFUSAL(part), f);
}

bool step_opaque(struct walk *w, const char *name, const char *label, nw_part part) {
    char digest[SHA256_DIGITS + 1];
    size_t n = nw_part_length(part);
    struct field f = {.name = name, .label = label, .role = OPAQUE, .bits = 8 * n, .words = "none"};
    if (NW_REFUSAL(part) == NW_TAKEN && n != 0)
        f.words = tell(w, "%zu byte%s, SHA-256 %s", n, n == 1 ? "" : "s", sha256_text(w->body.s + nw_part_start(part), n, digest));
    return step(w, NW_REFUSAL(part), f);
}

bool step_bytes(struct walk *w, const char *name, const char *label, nw_part part) {
    size_t n = nw_part_length(part);
    struct field f = {.name = name, .label = label, .role = HEX, .bits = 8 * n, .words = "no bytes"};
    if (NW_REFUSAL(part) == NW_TAKEN && n != 0) {
        size_t to = (size_t)snprintf(w->words, sizeof w->words, "%zu byte%s", n, n == 1 ? "" : "s");
        for (size_t i = 0; i < n && to + 4 < sizeof w->words; i++)
            to += (size_t)sprintf(w->words + to, " %02X", (unsigned)w->body.s[nw_part_start(part) + i]);
        f.words = w->words;
    }
    return step(w, NW_REFUSAL(part), f);
}

bool step_ascii(struct walk *w, const char *name, const char *label, unsigned refusal, size_t n) {
    size_t to = 0;
    for (size_t i = 0; refusal == NW_TAKEN && i < n && to + 5 < sizeof w->words; i++) {
        unsigned c = w->body.s[w->bit / 8 + i];
        to += (size_t)sprintf(w->words + to, c >= 0x20 && c < 0x7F ? "%c" : "\\x%02X", c);
    }
    w->words[to] = '\0';
    return step(w, refusal, (struct field){.name = name, .label = label, .role = VALUE, .bits = 8 * n, .words = w->words});
}

bool step_digits(struct walk *w, const char *name, const char *label, size_t n, nw_part part) {
    struct field f = {.name = name, .label = label, .role = VALUE, .bits = 8 * n - 4, .words = w->words};
    if (NW_REFUSAL(part) == NW_TAKEN) nw_digits_text(w->body.s + nw_part_start(part), n, w->words);
    return step_after(w, 4, NW_REFUSAL(part), f);
}

bool step_time(struct walk *w, const char *name, const char *label, nw_answer a) {
    struct field f = {.name = name, .label = label, .role = TIME, .bits = 40, .numeric = true, .number = nw_value(a)};
    f.words = NW_REFUSAL(a) == NW_TAKEN ? time_words(nw_value(a), w->clock, w->words, sizeof w->words) : "";
    return step(w, NW_REFUSAL(a), f);
}

bool step_signature(struct walk *w, nw_part part) {
    return step_length(w, "signature_length", 16, part) && step_opaque(w, "signature_data()", "signature", part);
}

bool step_left(struct walk *w, unsigned refusal) {
    size_t at = w->bit / 8;
    if (at >= w->end) return true;
    return step(w, refusal, (struct field){.name = "(left over)", .label = "left over", .role = LEFT, .bits = 8 * (w->end - at)});
}

// ---- things of several fields

void enter(struct walk *w, struct group g) {
    w->visitor.enter(w->visitor.own, w, &g);
    w->groups[w->depth++] = g;
}

bool leave(struct walk *w, bool on) {
    w->depth--;
    w->visitor.leave(w->visitor.own, w);
    return on;
}

// ---- a body

nw_answer body_read(const struct body *b) {
    switch (b->kind) {
    case NW_CONFIGURATION: return nw_configuration_read(b->kind, b->s, b->n);
    case NW_CERTIFICATE: return nw_certificate_read(b->kind, b->s, b->n);
    case NW_INDEX: return nw_index_read(b->kind, b->s, b->n);
    default: return content_read(b);
    }
}

static bool walk_kind(struct walk *w) {
    switch (w->body.kind) {
    case NW_CONFIGURATION: return walk_configuration(w);
    case NW_CERTIFICATE: return walk_certificate(w);
    case NW_INDEX: return walk_index(w);
    default: return walk_content(w);
    }
}

// What a refusal leaves unread.
static void tell_unread(struct walk *w) {
    size_t at = w->bit / 8;
    w->end = w->body.n;
    if (at >= w->body.n) return;
    struct field f = {.name = "(not read)", .label = "not read", .role = UNREAD, .bits = 8 * w->body.n - w->bit, .words = ""};
    step(w, NW_TAKEN, f);
}

bool body_walk(const struct body *b, struct clock clock, struct visitor visitor) {
    struct walk w = {.body = *b, .clock = clock, .visitor = visitor, .end = b->n};
    if (walk_kind(&w) && step_left(&w, NW_LEFT_OVER)) return true;
    tell_unread(&w);
    return false;
}

const char *kind_name(unsigned kind) {
    static const char *const names[] = {"configuration", "certificate", "index", "content"};
    return names[kind - NW_CONFIGURATION];
}
