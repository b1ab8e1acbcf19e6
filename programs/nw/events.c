// events.c: what was not simply taken of a capture, in a sentence each.
// SPDX-License-Identifier: MIT
#include "events.h"
#include <inttypes.h>
#include <stdarg.h>
#include <stdio.h>

// A sentence while it is made.
struct sentence {
    char *text;
    size_t n;
};

static void add(struct sentence *s, const char *form, ...) {
    va_list words;
    va_start(words, form);
    int n = vsnprintf(s->text + s->n, EVENT_ROOM - s->n, form, words);
    va_end(words);
    s->n += n < 0 ? 0 : (size_t)n < EVENT_ROOM - s->n ? (size_t)n : EVENT_ROOM - 1 - s->n;
}

// What something was, by a section's heading.
static void add_heading(struct sentence *to, const char *what, const uint8_t s[HEADING]) {
    add(to, "; by its heading %s was ", what);
    if (s[0] < NW_CONFIGURATION || s[0] > NW_CONTENT) add(to, "of another kind of table, table_id 0x%02X", s[0]);
    else
        add(to, "number %u, the last being %u, of %s table %02X%02X, version %u", s[6], s[7], kind_name(s[0]), s[3], s[4],
            s[5] >> 1 & 0x1Fu);
}

char *skipped_words(const struct stretch *bad, char text[EVENT_ROOM]) {
    struct sentence s = {text, 0};
    if (bad->in_packets) add(&s, "section that the packet at byte %" PRIu64 " completes is skipped", bad->at);
    else add(&s, "bytes %" PRIu64 " to %" PRIu64 " are skipped", bad->at, bad->at + bad->bytes - 1);
    add(&s, ": %s (refusal %u)", nw_refusal_text(bad->refusal), bad->refusal);
    if (bad->heading[0] != 0) add_heading(&s, "it", bad->heading);
    return text;
}

char *lost_words(const struct stream_loss *loss, char text[EVENT_ROOM]) {
    struct sentence s = {text, 0};
    add(&s, "packet at byte %" PRIu64 ": %s", loss->at, stream_words(loss->kind));
    if (loss->kind == STREAM_GAP) add(&s, ", %u by the counters", loss->packets);
    if (loss->known) add_heading(&s, "the section", loss->heading);
    else add(&s, "; what was lost there is not known");
    return text;
}

bool is_event(const struct arrival *a) { return a->outcome != TOOK && a->outcome != HELD; }

// Why a section is not taken.
static void add_refusal(struct sentence *s, const struct arrival *a) {
    if (a->refusal == NW_STORE_TOO_SHORT) add(s, " is left out: there is no memory for its table");
    else if (a->refusal == NW_OTHER_HEADING)
        add(s, " is refused: version %u with %u sections is held, and this is not ahead of it (refusal 9)", a->table->state.version,
            a->table->state.last + 1u);
    else add(s, " is refused: %s (refusal %u)", nw_refusal_text(a->refusal), a->refusal);
}

char *arrival_words(const struct arrival *a, char text[EVENT_ROOM]) {
    struct sentence s = {text, 0};
    nw_heading h = a->heading;
    add(&s, "section at byte %" PRIu64 ", number %u of %s table %04X, version %u", a->at, nw_heading_number(h),
        kind_name(nw_heading_kind(h)), nw_heading_extension(h), nw_heading_version(h));
    if (a->outcome == TOOK_OVER) {
        size_t given_up = a->table->given_up < MOST_VERSIONS ? a->table->given_up : MOST_VERSIONS;
        add(&s, ": it takes over from version %u", a->table->versions[given_up - 1].version);
    } else if (a->outcome == ONE_TABLE_TOO_MANY)
        add(&s, " is left out: it belongs to one more table than the %d that are held", MOST_TABLES);
    else if (a->outcome == NOT_TAKEN) add_refusal(&s, a);
    return text;
}
