/* form_lines.h: the lines of a written form, one at hand, and the faults in them told by line and column. */
/* SPDX-License-Identifier: MIT */
#ifndef FORM_LINES_H
#define FORM_LINES_H

#include "../command.h"
#include <stdint.h>
#include <stdio.h>

enum { MOST_FAULTS = 20, MOST_LINE = 1 << 22 };

struct lines {
    const struct command *c; /* who says what is wrong */
    const char *name;        /* the form's, as it is called to a person */
    FILE *in;
    char *s;                 /* the line at hand: what stands before its word, */
    size_t room;
    char *word, *value;      /* the word, and what stands after it up to a NUL, without spaces and tabs at both ends */
    size_t word_bytes, value_bytes;
    uint64_t number;         /* of the line, from 1 */
    bool over;               /* there is no line any more */
    bool unread;             /* there was no memory, or the form can't be read: it is said */
    uint64_t faults, blamed; /* how many there are, and the line of the last */
};

/* Begins with the first line that is neither empty nor a remark. */
void lines_start(struct lines *l, const struct command *c, const char *name, FILE *in);
void lines_next(struct lines *l);
void lines_end(struct lines *l);

/* Whether the line at hand begins with a word. */
bool line_is(const struct lines *l, const char *word);

/* Tells what is wrong with n bytes at a place of the line at hand, or at the form's end; of a line one fault is told. */
void fault(struct lines *l, const char *at, size_t n, const char *form, ...);

/* The same of all of the value, or of the word where there is none. */
#define FAULT_VALUE(l) (l), (l)->value_bytes != 0 ? (l)->value : (l)->word, (l)->value_bytes != 0 ? (l)->value_bytes : (l)->word_bytes

/* Whether so many faults are told that no more are looked for. */
static inline bool too_many(const struct lines *l) { return l->faults >= MOST_FAULTS || l->unread; }

#endif
