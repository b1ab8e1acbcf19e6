/* walk.h: one way through a table's body, field by field in wire order: all that is shown of a body goes this way.
 *
 * Each field is asked of the library, which judges it; the walk adds the field's name in the standard's tables, its place and
 * width, and its value in words. In a body that is refused it goes up to the refused field, which it marks, and tells what
 * bytes are left unread after it. */
/* SPDX-License-Identifier: MIT */
#ifndef WALK_H
#define WALK_H

#include <neapwillow.h>
#include <stdbool.h>

/* How times are told: in UTC, and where it is asked for in local time too. */
struct clock {
    bool local;
    int offset; /* minutes east of UTC */
};

/* A table that is whole: what its sections' headings say, and its body. */
struct body {
    unsigned kind, extension;
    unsigned variant; /* of a content table: how many bits the length of an auxiliary file has */
    const uint8_t *s;
    size_t n;
};

enum role {
    COUNT,    /* how many things follow */
    LENGTH,   /* how many bytes follow */
    RESERVED, /* bits that have to be ones */
    VALUE,    /* what a person wants to know, told by its words */
    TIME,     /* a time field */
    HEX,      /* bytes that are told one by one */
    TEXT,     /* bytes of a character set */
    OPAQUE,   /* bytes that are told by their length and their digest */
    LEFT,     /* bytes that no field has */
    UNREAD    /* bytes after a refused field, which nobody has judged */
};

struct field {
    const char *name;  /* as the standard's tables have it; LEFT's and UNREAD's say what they are */
    const char *label; /* in plain words; empty where its group's label is enough */
    enum role role;
    size_t bits;       /* its width */
    bool numeric;      /* it has a number for its value */
    uint64_t number;
    unsigned set;      /* a TEXT's character set */
    const char *words; /* its value in words; empty for a TEXT's and for a refused one */
    size_t at;         /* the byte of the body where it begins, */
    unsigned bit;      /* its first bit in this byte, 0 for the highest, */
    size_t bytes;      /* and how many bytes of it the body has: fewer than its bits need where the body or its part ends */
    unsigned refusal;  /* why it is refused, or NW_TAKEN */
};

/* A thing of several fields. */
struct group {
    const char *name;       /* for scripts */
    const char *label;      /* in plain words */
    uint64_t number, count; /* which of how many, from 0; a count of 0 is not known before */
    bool single, row;       /* single: it is no list's; row: it is told in a line */
};

enum { DEEPEST = 5 };

struct walk;

/* Who is told. */
struct visitor {
    void (*enter)(void *own, const struct walk *w, const struct group *g);
    void (*leave)(void *own, const struct walk *w);
    void (*field)(void *own, const struct walk *w, const struct field *f);
    void *own;
};

struct walk {
    struct body body;
    struct clock clock;
    struct visitor visitor;
    struct group groups[DEEPEST]; /* those that a field stands in, the outermost first */
    unsigned depth;
    size_t bit; /* where the walk is, in bits from the body's begin */
    size_t end; /* the byte where the part ends that it is in */
    char words[1024];
};

/* The reader's verdict. Value: 0. */
nw_answer body_read(const struct body *b);

/* Tells a visitor all of a body. Answers whether no field was refused. */
bool body_walk(const struct body *b, struct clock clock, struct visitor visitor);

/* What a kind is called. */
const char *kind_name(unsigned kind);

#endif
