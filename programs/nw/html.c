// html.c: a capture told as one HTML page that needs nothing else: the verdict first, pictures, tables in words, and their bytes.
// SPDX-License-Identifier: MIT
#include "html.h"
#include "events.h"
#include "facts.h"
#include "page.h"
#include "words.h"
#include <inttypes.h>
#include <stdlib.h>
#include <string.h>

enum { MOST_EVENTS = 2000 };

static char capture[1100]; // its name
static char *events[MOST_EVENTS];
static uint64_t event_count; // all of them: the first are kept
static struct clock clock_;

// ---- the capture, as it is read

static void begin(const char *name) {
    snprintf(capture, sizeof capture, "%s", name);
    event_count = 0;
    picture_begin();
}

static void note_event(const char *text) {
    char *kept = event_count < MOST_EVENTS ? malloc(strlen(text) + 1) : NULL;
    if (event_count < MOST_EVENTS) events[event_count] = kept == NULL ? NULL : strcpy(kept, text);
    event_count++;
}

static void skipped(const struct stretch *bad) {
    char text[EVENT_ROOM];
    picture_skipped(bad);
    note_event(skipped_words(bad, text));
}

static void lost(const struct stream_loss *loss) {
    char text[EVENT_ROOM];
    picture_lost(loss);
    note_event(lost_words(loss, text));
}

static void arrival(const struct arrival *a) {
    char text[EVENT_ROOM];
    picture_arrival(a);
    if (is_event(a)) note_event(arrival_words(a, text));
}

static void tables(void) {}

static void table(const struct tables *all, const struct table *t, struct clock clock) {
    (void)all, (void)t;
    clock_ = clock;
}

// ---- the top of the page

static void put_item(void *own, const char *label, const char *value) {
    (void)own, (void)label;
    fputs("<li>", page);
    page_put(value);
    fputs("</li>\n", page);
}

static const char *short_verdict(const struct table *t) { return !t->whole ? "not whole" : is_good(t) ? "accepted" : "refused"; }

static void put_head(bool faultless) {
    fputs("<html lang=\"en\">\n<head>\n<meta charset=\"utf-8\">\n"
          "<meta http-equiv=\"Content-Security-Policy\" content=\"default-src 'none'; style-src 'unsafe-inline'\">\n"
          "<meta name=\"viewport\" content=\"width=device-width, initial-scale=1\">\n<title>",
          page);
    page_put_name(capture, false);
    fprintf(page, ": %s</title>\n<style>\n%s</style>\n</head>\n<body>\n<header>\n<h1>capture ", faultless ? ALL_WELL : NOT_ALL_WELL, html_style);
    page_put_name(capture, true);
    fprintf(page, "</h1>\n<p class=\"verdict %s\">%s</p>\n", faultless ? "good" : "bad", faultless ? "&#x2713; " ALL_WELL : "&#x2717; " NOT_ALL_WELL);
}

static void put_contents(const struct tables *all, const struct messages *m) {
    char name[64];
    fputs("<nav aria-label=\"contents\">\n<ul>\n", page);
    if (m->count != 0) fputs("<li><a href=\"#messages\">Messages</a></li>\n", page);
    fputs("<li><a href=\"#capture\">What came and went</a></li>\n<li><a href=\"#events\">Events</a></li>\n", page);
    for (size_t i = 0; i < all->count; i++)
        fprintf(page, "<li><a href=\"#table-%zu\">%s</a>: %s</li>\n", i, table_name(&all->list[i], name, sizeof name), short_verdict(&all->list[i]));
    if (all->count != 0) fputs("<li><a href=\"#bytes\">Bytes</a></li>\n", page);
    fputs("</ul>\n</nav>\n", page);
}

// ---- messages

// A cell; on a phone its column's name stands before it.
static void put_cell(const char *column, const char *value) {
    fprintf(page, "<td data-is=\"%s\">", column);
    page_put(value);
    fputs("</td>", page);
}

// Why a message has no value of a field.
static const char *no_value(const struct message *m, const char *name) {
    return m->refused != NULL && strcmp(m->refused, name) == 0 ? "refused" : "not read";
}

static void put_text_cell(const struct message *m, const char *column, const char *name, const char *value) {
    put_cell(column, value[0] == '\0' ? no_value(m, name) : value);
}

static void put_time_cell(const struct message *m, const char *column, const char *name, bool has, uint64_t field) {
    char text[256];
    put_cell(column, has ? time_words(field, clock_, text, sizeof text) : no_value(m, name));
}

static void put_message(const struct tables *all, const struct message *m) {
    const struct table *content = m->table->whole ? content_of(all, m->table, m->number) : NULL;
    char name[64];
    fprintf(page, "<tr><th scope=\"row\"><a href=\"#table-%zu\">%" PRIu64 "</a></th>", m->place, m->number + 1);
    put_text_cell(m, "identifier", "EBM_id", m->identifier);
    put_time_cell(m, "start", "EBM_start_time", m->has_start, m->start);
    put_time_cell(m, "end", "EBM_end_time", m->has_end, m->end);
    put_text_cell(m, "class", "EBM_class", m->class_);
    put_text_cell(m, "level", "EBM_level", m->level);
    fputs("<td data-is=\"content\">", page);
    if (content == NULL) fputs("none has come whole", page);
    else fprintf(page, "<a href=\"#table-%td\">%s</a>", content - all->list, table_name(content, name, sizeof name));
    fputs("</td></tr>\n", page);
}

static void put_messages(const struct tables *all, const struct messages *m) {
    if (m->count == 0) return;
    fputs("<section id=\"messages\">\n<h2>Messages</h2>\n", page);
    picture_of_messages(m, clock_);
    fputs("<table class=\"messages\"><thead><tr><th scope=\"col\">message</th><th scope=\"col\">identifier</th>"
          "<th scope=\"col\">start</th><th scope=\"col\">end</th><th scope=\"col\">class</th><th scope=\"col\">level</th><th scope=\"col\">content</th>"
          "</tr></thead><tbody>\n",
          page);
    for (size_t i = 0; i < m->count; i++) put_message(all, &m->list[i]);
    fputs("</tbody></table>\n", page);
    if (m->full) fputs("<p class=\"remark\">There is no memory for more messages here; the tables have all of them.</p>\n", page);
    fputs("</section>\n", page);
}

// ---- the capture

static void put_events(void) {
    uint64_t listed = event_count < MOST_EVENTS ? event_count : MOST_EVENTS;
    fputs("<section id=\"events\">\n<h2>Events</h2>\n", page);
    if (event_count == 0) fputs("<p>Nothing was skipped, lost, refused or taken over.</p>\n", page);
    else fputs("<ol class=\"facts\">\n", page);
    for (uint64_t i = 0; i < listed; i++) put_item(NULL, "", events[i] == NULL ? "not told: there was no memory for it" : events[i]);
    if (event_count != 0) fputs("</ol>\n", page);
    if (event_count > listed)
        fprintf(page, "<p>%" PRIu64 " more came after these; nw show without --html tells each.</p>\n", event_count - listed);
    fputs("</section>\n", page);
}

static void put_capture(const struct sum *sum) {
    fputs("<section id=\"capture\">\n<h2>What came and went</h2>\n", page);
    picture_of_capture(sum);
    fputs("</section>\n", page);
    put_events();
}

// ---- tables

static void put_fact(void *own, const char *label, const char *value) {
    (void)own;
    fprintf(page, "<dt>%s</dt><dd>", label);
    page_put(value);
    fputs("</dd>\n", page);
}

static void put_table(const struct tables *all, size_t i) {
    const struct table *t = &all->list[i];
    struct teller teller = {put_fact, NULL};
    char name[64];
    fprintf(page, "<section id=\"table-%zu\">\n<h2>%s</h2>\n<p class=\"verdict %s\">%s%s</p>\n", i, table_name(t, name, sizeof name),
            is_good(t) ? "good" : "bad", is_good(t) ? "&#x2713; " : "&#x2717; ", short_verdict(t));
    picture_of_sections(t);
    fputs("<dl>\n", page);
    facts_before(t, teller);
    facts_front(t, teller);
    if (t->whole || t->body.n != 0) html_body_in_words(&t->body, clock_, i);
    facts_after(all, t, teller);
    fprintf(page, "</dl>\n<p><a href=\"#bytes-%zu\">its bytes</a></p>\n</section>\n", i);
}

static void put_bytes(const struct tables *all) {
    char name[64];
    if (all->count == 0) return;
    fputs("<section id=\"bytes\">\n<h2>Bytes</h2>\n<p>Each body byte by byte. Where a field takes a part of a byte, dots stand for what is not its own.</p>\n",
          page);
    for (size_t i = 0; i < all->count; i++) {
        const struct table *t = &all->list[i];
        fprintf(page, "<section id=\"bytes-%zu\">\n<h3><a href=\"#table-%zu\">%s</a></h3>\n", i, i, table_name(t, name, sizeof name));
        if (t->whole || t->body.n != 0) html_body_in_bytes(&t->body, clock_, i);
        else fputs("<p>There is no body: the table is not whole, and the front of it did not come.</p>\n", page);
        fputs("</section>\n", page);
    }
    fputs("</section>\n", page);
}

// ---- all of it

static void end(const struct tables *all, const struct sum *sum, bool faultless) {
    struct messages messages = {0};
    messages_find(&messages, all);
    put_head(faultless);
    fputs("<ul class=\"facts\">\n", page);
    facts_in_all(all, sum, (struct teller){put_item, NULL});
    fputs("</ul>\n</header>\n", page);
    put_contents(all, &messages);
    fputs("<main>\n", page);
    put_messages(all, &messages);
    put_capture(sum);
    for (size_t i = 0; i < all->count; i++) put_table(all, i);
    put_bytes(all);
    fputs("</main>\n<footer>Written by nw " NW_VERSION ". No signature is checked. nw help refusals says what to look at for each refusal.</footer>\n"
          "</body>\n</html>\n",
          page);
    free(messages.list);
    for (size_t i = 0; i < MOST_EVENTS && i < event_count; i++) free(events[i]);
}

const struct report html_report = {begin, skipped, lost, arrival, tables, table, end};
