/* sum.h: what came of a capture, all in all, counted. */
/* SPDX-License-Identifier: MIT */
#ifndef SUM_H
#define SUM_H

#include "capture.h"
#include "tables.h"

struct sum {
    struct captured capture;
    uint64_t taken, held, refused;                               /* refused: good sections that are not taken */
    uint64_t skipped, losses;                                    /* bytes that are skipped; what a transport stream lost */
    uint64_t whole, accepted;                                    /* tables */
    uint64_t messages_without_content, contents_without_message; /* of whole tables */
};

/* What a good section adds; and what the tables add, once they are finished. */
void sum_arrival(struct sum *s, const struct arrival *a);
void sum_tables(struct sum *s, const struct tables *all);

/* Whether there are tables, all of them whole and accepted, nothing was skipped, lost or refused, and messages and contents belong together. */
bool is_faultless(const struct sum *s, const struct tables *all);

#endif
