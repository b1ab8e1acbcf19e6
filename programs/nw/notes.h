/* notes.h: the fields of a body by name and value, to hold two bodies against each other. */
/* SPDX-License-Identifier: MIT */
#ifndef NOTES_H
#define NOTES_H

#include "walk.h"

/* A field: where it stands, as `message 365.., resource 2`, and its value in words. */
struct note {
    char *key, *value;
    bool matched; /* another body has a field of this key */
};

struct notes {
    struct note *list;
    size_t count, room;
    bool full;                             /* there was no memory for all of them */
    char message[NW_IDENTIFIER_DIGITS + 1]; /* the message that the walk is in, once its identifier is known */
};

/* Notes what a person wants to know of a body: counts, lengths and reserved bits follow from the rest. Of a message the
 * identifier is its name, so that the same message is found wherever it stands. */
void notes_take(struct notes *n, const struct body *b, struct clock clock);

/* The first field of a key that is not matched yet, looked for from a place on and round, or NULL. */
struct note *notes_find(struct notes *n, const char *key, size_t from);

void notes_free(struct notes *n);

#endif
