/* output.h: a file written whole or not at all: what stands there already is not replaced unless that is asked for, and then once the new
 * file is whole. */
/* SPDX-License-Identifier: MIT */
#ifndef OUTPUT_H
#define OUTPUT_H

#include "../command.h"
#include <stdio.h>

struct output {
    const struct command *c;
    const char *name;
    char *way;    /* the name that is written to; NULL for the name itself */
    bool special; /* a device or a pipe, which is neither replaced nor removed */
    FILE *file;
    int why;      /* the first write that failed, or 0 */
};

/* Begins to write. False where it can't be, which is said. */
bool output_open(struct output *o, const struct command *c, const char *name, bool replace);
void output_put(struct output *o, const void *s, size_t n);

/* Ends it, and keeps what was written if that is wanted. False where it can't be kept, which is said; then nothing of it is left. */
bool output_close(struct output *o, bool keep);

/* Whether two names are one file's. */
bool is_one_file(const char *a, const char *b);

#endif
