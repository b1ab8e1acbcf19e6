// facts.c: what is told of a table beside its body, and of a capture all in all.
// SPDX-License-Identifier: MIT
#include "facts.h"
#include "content.h"
#include <inttypes.h>
#include <stdarg.h>
#include <stdio.h>

static void tell(struct teller teller, const char *label, const char *form, ...) {
    char text[FACT_ROOM];
    va_list words;
    va_start(words, form);
    vsnprintf(text, sizeof text, form, words);
    va_end(words);
    teller.fact(teller.own, label, text);
}

// ---- before the body

char *table_name(const struct table *t, char *text, size_t room) {
    snprintf(text, room, "%s table %04X, version %u", kind_name(t->state.kind), t->state.extension, t->state.version);
    return text;
}

// Which of its sections a table lacks, in words: numbers and ranges of them.
static char *missing_words(const nw_gathering *g, char *text, size_t room) {
    size_t to = 0;
    text[0] = '\0';
    for (unsigned i = 0; i <= g->last && to < room; i++) {
        unsigned first = i;
        if (g->held[i] != 0) continue;
        while (i < g->last && g->held[i + 1] == 0) i++;
        to += (size_t)snprintf(text + to, room - to, "%s%u", to == 0 ? "" : ", ", first);
        if (i > first && to < room) to += (size_t)snprintf(text + to, room - to, i == first + 1 ? ", %u" : " to %u", i);
    }
    return text;
}

static void tell_versions(const struct table *t, struct teller teller) {
    char text[FACT_ROOM];
    size_t listed = t->given_up < MOST_VERSIONS ? t->given_up : MOST_VERSIONS, to = 0;
    if (t->given_up > listed) to = (size_t)snprintf(text, sizeof text, "%zu before these, ", t->given_up - listed);
    for (const struct version *v = t->versions; v < t->versions + listed; v++)
        to += (size_t)snprintf(text + to, sizeof text - to, "%u (%s), ", v->version,
                               v->spoiled ? "spoiled" : v->came == v->count ? "whole" : "not whole");
    snprintf(text + to, sizeof text - to, "%s%u", t->given_up == 0 ? "" : "then ", t->state.version);
    teller.fact(teller.own, "versions seen", text);
}

void facts_before(const struct table *t, struct teller teller) {
    char missing[FACT_ROOM];
    unsigned count = t->state.last + 1u;
    tell(teller, "sections", "%u of %u, %" PRIu32 " bytes; %" PRIu64 " repeats, %" PRIu64 " refused", count - t->state.missing, count,
         t->state.bytes, t->repeats, t->refused);
    tell_versions(t, teller);
    if (t->state.missing != 0) teller.fact(teller.own, "missing", missing_words(&t->state, missing, sizeof missing));
}

void facts_front(const struct table *t, struct teller teller) {
    if (!t->whole && t->body.n != 0)
        tell(teller, "front of the body", "%zu bytes, those before section %" PRIu64 ", as far as they can be read:", t->body.n,
             NW_PLACE(t->packed));
}

// ---- after it

// Tells where a content table that is refused would be accepted with auxiliary lengths of the other width.
static void tell_other_variant(const struct body *b, struct teller teller) {
    struct body other = *b;
    other.variant = b->variant == NW_AUXILIARY_24 ? NW_AUXILIARY_32 : NW_AUXILIARY_24;
    if (b->kind != NW_CONTENT || NW_REFUSAL(body_read(&other)) != NW_TAKEN) return;
    tell(teller, "", "with auxiliary lengths of %u bits it is accepted: nw show --auxiliary %u", other.variant, other.variant);
}

static void tell_verdict(const struct table *t, struct teller teller) {
    unsigned number = NW_REFUSAL(t->verdict), own;
    if (number == NW_TAKEN) tell(teller, "verdict", "accepted");
    else if (number == NW_OTHER_CHECKSUM && content_extension(&t->body, &own))
        tell(teller, "verdict", "refused: %s (refusal 23); its identifier's is %04X", nw_refusal_text(number), own);
    else
        tell(teller, "verdict", "refused: %s (refusal %u at byte %" PRIu64 " of the body)", nw_refusal_text(number), number,
             NW_PLACE(t->verdict));
    if (number != NW_TAKEN) tell_other_variant(&t->body, teller);
}

// Why a table has no body.
static void tell_not_whole(const struct table *t, struct teller teller) {
    unsigned number = NW_REFUSAL(t->packed);
    const char *why = nw_refusal_text(number);
    if (number == NW_MISSING) tell(teller, "verdict", "not whole: %s (refusal %u, number %" PRIu64 ")", why, number, NW_PLACE(t->packed));
    else tell(teller, "verdict", "not whole: %s (refusal %u)", why, number);
}

static void tell_contents(const struct tables *all, const struct table *index, struct teller teller) {
    for (uint64_t i = 0; i < message_count(index); i++) {
        unsigned extension;
        if (!message_extension(index, i, &extension)) continue;
        const struct table *content = content_of(all, index, i);
        if (content == NULL)
            tell(teller, "content", "of message %" PRIu64 ": none has come whole; it would be content table %04X", i + 1, extension);
        else tell(teller, "content", "of message %" PRIu64 ": content table %04X, version %u", i + 1, extension, content->state.version);
    }
}

static void tell_message_of(const struct tables *all, const struct table *content, struct teller teller) {
    uint64_t message;
    const struct table *index = index_of(all, content, &message);
    if (index == NULL) tell(teller, "belongs to", "no message that has come");
    else
        tell(teller, "belongs to", "message %" PRIu64 " of index table %04X, version %u", message + 1, index->state.extension,
             index->state.version);
}

void facts_verdict(const struct table *t, struct teller teller) {
    if (t->whole) tell_verdict(t, teller);
    else tell_not_whole(t, teller);
}

void facts_after(const struct tables *all, const struct table *t, struct teller teller) {
    if (t->whole && t->state.kind == NW_INDEX) tell_contents(all, t, teller);
    if (t->whole && t->state.kind == NW_CONTENT) tell_message_of(all, t, teller);
    facts_verdict(t, teller);
}

// ---- all in all

static const char *plural(uint64_t n) { return n == 1 ? "" : "s"; }

static void tell_packets(const struct captured *c, uint64_t losses, struct teller teller) {
    tell(teller, "",
         "packets: %" PRIu64 " on PID 0x0021, of which %" PRIu64 " repeated, %" PRIu64 " of other PIDs, %" PRIu64
         " with the error bit, %" PRIu64 " refused; losses: %" PRIu64,
         c->ours, c->repeats, c->others, c->errors, c->refused, losses);
}

void facts_tables(const struct tables *all, const struct sum *sum, struct teller teller) {
    uint64_t count = all->count;
    tell(teller, "", "tables: %" PRIu64 ", of which %" PRIu64 " whole and %" PRIu64 " accepted", count, sum->whole, sum->accepted);
    if (sum->messages_without_content != 0)
        tell(teller, "", "messages without their content table: %" PRIu64, sum->messages_without_content);
    if (sum->contents_without_message != 0)
        tell(teller, "", "content tables without their message: %" PRIu64, sum->contents_without_message);
}

void facts_in_all(const struct tables *all, const struct sum *sum, struct teller teller) {
    tell(teller, "",
         "all in all: %" PRIu64 " byte%s; sections: %" PRIu64 " taken, %" PRIu64 " held already, %" PRIu64 " refused; %" PRIu64
         " byte%s skipped",
         sum->capture.bytes, plural(sum->capture.bytes), sum->taken, sum->held, sum->refused, sum->skipped, plural(sum->skipped));
    if (sum->capture.is_stream) tell_packets(&sum->capture, sum->losses, teller);
    facts_tables(all, sum, teller);
    if (sum->capture.bytes == 0) tell(teller, "", "the capture is empty");
    else if (all->count == 0) tell(teller, "", "no table has come");
}
