// json.c: a capture told for scripts, as one JSON text of ASCII characters; nw(1) says what stands in it.
// SPDX-License-Identifier: MIT
#include "report.h"
#include "text.h"
#include "words.h"
#include <inttypes.h>
#include <stdio.h>
#include <stdlib.h>
#include <string.h>

enum { FORMAT = 1 }; // goes up with every change but an addition

static bool first; // of the list that is being told

// What stands between two members of a list, each in a line.
static void next(void) {
    fputs(first ? "\n" : ",\n", stdout);
    first = false;
}

static const char *truth(bool is) { return is ? "true" : "false"; }

// ---- strings

static void put_character(uint32_t c) {
    if (c == '"' || c == '\\') printf("\\%c", (char)c);
    else if (c >= 0x20 && c < 0x7F) putchar((int)c);
    else if (c < 0x10000) printf("\\u%04X", (unsigned)c);
    else printf("\\u%04X\\u%04X", (unsigned)(0xD800 + ((c - 0x10000) >> 10)), (unsigned)(0xDC00 + ((c - 0x10000) & 0x3FF)));
}

static void put_ascii(const char *s) {
    putchar('"');
    for (; *s != '\0'; s++) put_character((unsigned char)*s);
    putchar('"');
}

// Characters of a set; for a byte that is none, U+FFFD.
static void put_text(const struct text *t) {
    putchar('"');
    for (size_t i = 0; i < t->n; i++) put_character((t->c[i] & BARE_BYTE) != 0 ? 0xFFFD : t->c[i]);
    putchar('"');
}

static void put_bytes(const uint8_t *s, size_t n) {
    putchar('"');
    for (size_t i = 0; i < n; i++) printf("%02X", (unsigned)s[i]);
    putchar('"');
}

// ---- the capture, as it is read

static void begin(const char *name) {
    struct text t;
    printf("{\"nw\": \"%s\", \"format\": %d, \"capture\": ", NW_VERSION, FORMAT);
    if (text_decode(&t, NW_SET_GB_13000, (const uint8_t *)name, strlen(name))) put_text(&t);
    else fputs("null", stdout);
    free(t.c);
    fputs(",\n\"events\": [", stdout);
    first = true;
}

static void skipped(const struct stretch *bad) {
    next();
    printf("{\"event\": \"skipped\", \"at\": %" PRIu64 ", \"bytes\": %" PRIu64 ", \"refusal\": %u, \"words\": ", bad->at, bad->bytes,
           bad->refusal);
    put_ascii(nw_refusal_text(bad->refusal));
    printf(", \"in_packets\": %s}", truth(bad->in_packets));
}

static void lost(const struct stream_loss *loss) {
    const uint8_t *s = loss->heading;
    next();
    printf("{\"event\": \"lost\", \"at\": %" PRIu64 ", \"packets\": %u, \"words\": ", loss->at, loss->packets);
    put_ascii(stream_words(loss->kind));
    if (loss->known)
        printf(", \"table_id\": %u, \"extension\": %u, \"version\": %u, \"number\": %u, \"last\": %u", s[0], s[3] << 8 | s[4],
               s[5] >> 1 & 0x1Fu, s[6], s[7]);
    putchar('}');
}

static void arrival(const struct arrival *a) {
    static const char *const events[] = {"", "", "takeover", "refused", "left out"};
    nw_heading h = a->heading;
    if (a->outcome == TOOK || a->outcome == HELD) return;
    next();
    printf("{\"event\": \"%s\", \"at\": %" PRIu64 ", \"table_id\": %u, \"extension\": %u, \"version\": %u, \"number\": %u, \"last\": %u",
           events[a->outcome], a->at, nw_heading_kind(h), nw_heading_extension(h), nw_heading_version(h), nw_heading_number(h),
           nw_heading_last(h));
    if (a->outcome == NOT_TAKEN) {
        printf(", \"refusal\": %u, \"words\": ", a->refusal);
        put_ascii(nw_refusal_text(a->refusal));
    }
    putchar('}');
}

// ---- a body

// Where a field stands among the things of its body, as EBM[0].EBM_resource[1].EBM_resource_code.
static void put_path(const struct walk *w, const struct field *f) {
    putchar('"');
    for (const struct group *g = w->groups; g < w->groups + w->depth; g++)
        if (g->single) printf("%s.", g->name);
        else printf("%s[%" PRIu64 "].", g->name, g->number);
    printf("%s\"", f->name);
}

static void put_time(const char *name, uint64_t field, int offset) {
    nw_time t = nw_time_unpack(field, offset);
    printf(", \"%s\": ", name);
    if (NW_REFUSAL(t) != NW_TAKEN) {
        fputs("null", stdout);
        return;
    }
    printf("\"%04u-%02u-%02uT%02u:%02u:%02u", nw_time_year(t), nw_time_month(t), nw_time_day(t), nw_time_hour(t), nw_time_minute(t),
           nw_time_second(t));
    if (offset == 0) fputs("Z\"", stdout);
    else printf("%c%02d:%02d\"", offset < 0 ? '-' : '+', abs(offset) / 60, abs(offset) % 60);
}

static void put_decoded(const struct walk *w, const struct field *f) {
    struct text t;
    fputs(", \"text\": ", stdout);
    if (text_decode(&t, f->set, w->body.s + f->at, f->bytes)) {
        put_text(&t);
        printf(", \"converted\": %s, \"bare\": %zu", truth(t.known), t.bare);
    } else fputs("null", stdout);
    free(t.c);
}

static void field(void *own, const struct walk *w, const struct field *f) {
    static const char *const roles[] = {"count", "length", "reserved", "value", "time", "hex", "text", "opaque", "left", "unread"};
    (void)own;
    next();
    fputs("{\"path\": ", stdout);
    put_path(w, f);
    printf(", \"name\": \"%s\", \"role\": \"%s\", \"at\": %zu, \"bit\": %u, \"bits\": %zu, \"bytes\": ", f->name, roles[f->role], f->at,
           f->bit, f->bits);
    put_bytes(w->body.s + f->at, f->bytes);
    if (f->numeric) printf(", \"value\": %" PRIu64, f->number);
    if (f->refusal == NW_TAKEN && f->role == TIME) {
        put_time("utc", f->number, 0);
        if (w->clock.local) put_time("local", f->number, w->clock.offset);
    }
    if (f->refusal == NW_TAKEN && f->role == TEXT) put_decoded(w, f);
    fputs(", \"words\": ", stdout);
    put_ascii(f->refusal == NW_TAKEN ? f->words : nw_refusal_text(f->refusal));
    printf(", \"refusal\": %u}", f->refusal);
}

static void enter(void *own, const struct walk *w, const struct group *g) { (void)own, (void)w, (void)g; }
static void leave(void *own, const struct walk *w) { (void)own, (void)w; }

// ---- a table

static void tables(void) {
    fputs("],\n\"tables\": [", stdout);
    first = true;
}

static void put_missing(const nw_gathering *g) {
    bool one = false;
    fputs("\"missing\": [", stdout);
    for (unsigned i = 0; i <= g->last; i++)
        if (g->held[i] == 0) {
            printf("%s%u", one ? ", " : "", i);
            one = true;
        }
    putchar(']');
}

static void put_versions(const struct table *t) {
    size_t listed = t->given_up < MOST_VERSIONS ? t->given_up : MOST_VERSIONS;
    printf(", \"given_up\": %zu, \"versions\": [", t->given_up);
    for (const struct version *v = t->versions; v < t->versions + listed; v++)
        printf("%s{\"version\": %u, \"sections\": %u, \"last\": %u, \"spoiled\": %s}", v == t->versions ? "" : ", ", v->version, v->came,
               v->count - 1, truth(v->spoiled));
    putchar(']');
}

// A content table is told by its place in the list of tables.
static void put_relations(const struct tables *all, const struct table *t) {
    uint64_t message;
    if (t->state.kind == NW_CONTENT) {
        const struct table *index = index_of(all, t, &message);
        if (index == NULL) fputs(",\n \"message\": null", stdout);
        else printf(",\n \"message\": {\"table\": %td, \"message\": %" PRIu64 "}", index - all->list, message);
    }
    if (t->state.kind != NW_INDEX) return;
    fputs(",\n \"contents\": [", stdout);
    for (uint64_t i = 0; i < message_count(t); i++) {
        const struct table *content = content_of(all, t, i);
        fputs(i == 0 ? "" : ", ", stdout);
        if (content == NULL) fputs("null", stdout);
        else printf("%td", content - all->list);
    }
    putchar(']');
}

static void put_body(const struct table *t, struct clock clock) {
    unsigned number = NW_REFUSAL(t->verdict);
    printf(",\n \"accepted\": %s, \"refusal\": %u, \"place\": %" PRIu64 ", \"words\": ", truth(is_good(t)), number,
           number == NW_TAKEN ? 0 : NW_PLACE(t->verdict));
    put_ascii(nw_refusal_text(number));
    fputs(",\n \"fields\": [", stdout);
    first = true;
    if (t->whole || t->body.n != 0) body_walk(&t->body, clock, (struct visitor){enter, leave, field, NULL});
    putchar(']');
    first = false;
}

static void table(const struct tables *all, const struct table *t, struct clock clock) {
    const nw_gathering *g = &t->state;
    next();
    printf("{\"kind\": \"%s\", \"table_id\": %u, \"extension\": %u, \"version\": %u, \"last\": %u, \"sections\": %u, \"bytes\": %" PRIu32
           ",\n ",
           kind_name(g->kind), g->kind, g->extension, g->version, g->last, g->last + 1u - g->missing, g->bytes);
    put_missing(g);
    printf(", \"repeats\": %" PRIu64 ", \"refused\": %" PRIu64 ", \"spoiled\": %s", t->repeats, t->refused, truth(g->spoiled != 0));
    put_versions(t);
    printf(", \"whole\": %s", truth(t->whole));
    put_relations(all, t);
    put_body(t, clock);
    putchar('}');
}

// ---- all in all

static void put_packets(const struct captured *c) {
    if (!c->is_stream) fputs("null", stdout);
    else
        printf("{\"ours\": %" PRIu64 ", \"repeats\": %" PRIu64 ", \"others\": %" PRIu64 ", \"errors\": %" PRIu64 ", \"refused\": %" PRIu64 "}",
               c->ours, c->repeats, c->others, c->errors, c->refused);
}

static void end(const struct tables *all, const struct sum *s, bool faultless) {
    printf("],\n\"sum\": {\"bytes\": %" PRIu64 ", \"taken\": %" PRIu64 ", \"held\": %" PRIu64 ", \"refused\": %" PRIu64
           ", \"skipped\": %" PRIu64 ", \"tables\": %zu, \"whole\": %" PRIu64 ", \"accepted\": %" PRIu64
           ", \"messages_without_content\": %" PRIu64 ", \"contents_without_message\": %" PRIu64 ", \"losses\": %" PRIu64 ", \"status\": %d, \"packets\": ",
           s->capture.bytes, s->taken, s->held, s->refused, s->skipped, all->count, s->whole, s->accepted, s->messages_without_content,
           s->contents_without_message, s->losses, faultless ? 0 : 1);
    put_packets(&s->capture);
    fputs("}}\n", stdout);
}

const struct report json_report = {begin, skipped, lost, arrival, tables, table, end};
