/* tables.h: the sections of a capture gathered into tables, each by the library's gathering; what came of them is kept. */
/* SPDX-License-Identifier: MIT */
#ifndef TABLES_H
#define TABLES_H

#include "walk.h"

enum { MOST_TABLES = 512, MOST_VERSIONS = 32 };

/* A version of a table that a newer one took over from. */
struct version {
    unsigned version, came, count; /* count: how many sections it has */
    bool spoiled;
};

/* By what the content table of a message is found; the identifier is NULL where it can't be read. */
struct message_key {
    unsigned extension;
    const uint8_t *identifier;
};

struct table {
    nw_gathering state; /* as it stood when the last section was fed */
    uint8_t *store;
    size_t store_bytes;
    struct version versions[MOST_VERSIONS]; /* the latest of those given up, from the oldest on */
    size_t given_up;                        /* how many versions were, all in all */
    uint64_t repeats, refused;              /* sections that were held already, and that were not taken */
    bool whole;
    struct body body;         /* of a table that is not whole the front, up to the first section that is missing */
    nw_answer packed, verdict; /* why it is not whole; and what its reader says of the body */
    struct message_key *keys;  /* of a whole index table's messages, or NULL where there is no memory for them */
};

struct tables {
    struct table *list;
    size_t count, room;
    uint64_t left_out; /* sections for whose table there was no place or no memory */
};

/* What becomes of a good section. */
enum outcome { TOOK, HELD, TOOK_OVER, NOT_TAKEN, ONE_TABLE_TOO_MANY };

struct arrival {
    uint64_t at; /* where it begins in the capture */
    nw_heading heading;
    enum outcome outcome;
    unsigned refusal;          /* why it is NOT_TAKEN; refusal 10 means that there is no memory */
    const struct table *table; /* NULL where it is ONE_TABLE_TOO_MANY, or there is no memory for its table */
};

/* Feeds a good section to the table it belongs to: of a kind and an extension one is held, in its newest version. */
struct arrival tables_feed(struct tables *all, uint64_t at, const uint8_t *s, size_t n, nw_heading heading);

/* Makes each table that is whole a body, a content table of a variant, judges it, and puts the tables in order: index, content, certificate, configuration. */
void tables_finish(struct tables *all, unsigned variant);

void tables_free(struct tables *all);

/* Whether a table is whole, and its reader accepts it. */
bool is_good(const struct table *t);

/* The content table of a message of an index table, or NULL; and the message that a content table belongs to, or NULL. Both are
 * found by the extension and the identifier. */
const struct table *content_of(const struct tables *all, const struct table *index, uint64_t message);
const struct table *index_of(const struct tables *all, const struct table *content, uint64_t *message);

/* How many messages an index table says to have, 0 where it can't be read. */
uint64_t message_count(const struct table *index);

/* The extension of a message's content table. False where its identifier can't be read. */
bool message_extension(const struct table *index, uint64_t message, unsigned *extension);

#endif
