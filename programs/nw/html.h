/* html.h: the parts of the page that `nw show --html` writes. */
/* SPDX-License-Identifier: MIT */
#ifndef HTML_H
#define HTML_H

#include "report.h"

/* A message of an index table, as far as it can be read. */
struct message {
    const struct table *table;
    size_t place;             /* the table's in the list of tables */
    uint64_t number;          /* in its table, from 0 */
    char identifier[40];
    bool has_start, has_end;
    uint64_t start, end;      /* time fields */
    char class_[64], level[64];
    const char *refused;      /* the standard's name of the field that is refused, or NULL */
};

struct messages {
    struct message *list;
    size_t count, room;
    bool full; /* there was no memory for all of them */
};

/* Finds the messages of all index tables; free them. */
void messages_find(struct messages *m, const struct tables *all);

/* Pictures: the messages from the first start to the last end; the capture from its first byte to its last. */
void picture_of_messages(const struct messages *m, struct clock clock);
void picture_of_capture(const struct sum *sum);

/* What the picture of the capture is drawn from, in the order of the capture: first that it begins. */
void picture_begin(void);
void picture_skipped(const struct stretch *bad);
void picture_lost(const struct stream_loss *loss);
void picture_arrival(const struct arrival *a);

/* Which sections of a table came, one by one. */
void picture_of_sections(const struct table *t);

/* A body in plain words and byte by byte; place: its table's in the list of tables. */
void html_body_in_words(const struct body *b, struct clock clock, size_t place);
void html_body_in_bytes(const struct body *b, struct clock clock, size_t place);

extern const char html_style[];

#endif
