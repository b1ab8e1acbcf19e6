// plain.c: a capture told in plain words: what was skipped and refused, its tables, and all in all.
// SPDX-License-Identifier: MIT
#include "body.h"
#include "events.h"
#include "facts.h"
#include "report.h"
#include <stdio.h>

// ---- the capture, as it is read

static void begin(const char *name) { printf("capture %s\n", name); }

static void skipped(const struct stretch *bad) {
    char text[EVENT_ROOM];
    puts(skipped_words(bad, text));
}

static void lost(const struct stream_loss *loss) {
    char text[EVENT_ROOM];
    puts(lost_words(loss, text));
}

static void arrival(const struct arrival *a) {
    char text[EVENT_ROOM];
    if (is_event(a)) puts(arrival_words(a, text));
}

// ---- a table

static void tables(void) {}

static void put_fact(void *own, const char *label, const char *value) {
    (void)own;
    put_label(0, label);
    puts(value);
}

static void tell_table(const struct tables *all, const struct table *t, struct clock clock,
                       void (*tell_body)(const struct body *, struct clock)) {
    struct teller teller = {put_fact, NULL};
    char name[64];
    printf("\n%s (table_id 0x%02X, extension 0x%04X)\n", table_name(t, name, sizeof name), t->state.kind, t->state.extension);
    facts_before(t, teller);
    facts_front(t, teller);
    if (t->whole || t->body.n != 0) tell_body(&t->body, clock);
    facts_after(all, t, teller);
}

static void table_in_words(const struct tables *all, const struct table *t, struct clock clock) {
    tell_table(all, t, clock, body_in_words);
}

static void table_in_bytes(const struct tables *all, const struct table *t, struct clock clock) {
    tell_table(all, t, clock, body_in_bytes);
}

// ---- all in all

static void put_line(void *own, const char *label, const char *value) {
    (void)own, (void)label;
    puts(value);
}

static void end(const struct tables *all, const struct sum *sum, bool faultless) {
    putchar('\n');
    facts_in_all(all, sum, (struct teller){put_line, NULL});
    puts(faultless ? ALL_WELL : NOT_ALL_WELL ": it is said above");
}

const struct report plain_report = {begin, skipped, lost, arrival, tables, table_in_words, end};
const struct report bytes_report = {begin, skipped, lost, arrival, tables, table_in_bytes, end};
