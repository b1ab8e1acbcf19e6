/* facts.h: what is told of a table beside its body, and of a capture all in all. */
/* SPDX-License-Identifier: MIT */
#ifndef FACTS_H
#define FACTS_H

#include "report.h"

enum { FACT_ROOM = 2304 };

/* Who is told: a label, which is empty where the last one goes on, and a value. */
struct teller {
    void (*fact)(void *own, const char *label, const char *value);
    void *own;
};

/* What a table is called, as `index table 0000, version 5`. Answers the text. */
char *table_name(const struct table *t, char *text, size_t room);

/* Before its body: sections, versions and what is missing, and that a front of it follows; and after it: what belongs to it, and the verdict, which
 * is that of its reader or that it is not whole. */
void facts_before(const struct table *t, struct teller teller);
void facts_front(const struct table *t, struct teller teller);
void facts_after(const struct tables *all, const struct table *t, struct teller teller);
void facts_verdict(const struct table *t, struct teller teller);

/* All in all, a value for each line, without labels; and of it the tables alone. */
void facts_in_all(const struct tables *all, const struct sum *sum, struct teller teller);
void facts_tables(const struct tables *all, const struct sum *sum, struct teller teller);

#endif
