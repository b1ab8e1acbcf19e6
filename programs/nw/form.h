/* form.h: tables as a written form: read and made into sections, and printed. */
/* SPDX-License-Identifier: MIT */
#ifndef FORM_H
#define FORM_H

#include "form_values.h"
#include "tables.h"

/* A table that a form has, and what became of it. */
struct made {
    unsigned kind, extension, version;
    uint64_t line;
    size_t bytes, sections;
};

struct form {
    struct made list[MOST_TABLES];
    size_t count;
    struct bytes sections; /* all of them, one right after the other in the form's order */
};

/* Reads a form, called so to a person, and makes its tables, content tables of a variant. Answers TAKEN, or REFUSED where it has faults, or
 * UNUSABLE where it can't be read; both are said. The form is to be freed in any case. */
int form_read(struct form *f, const struct command *c, const char *name, FILE *in, unsigned variant);
void form_free(struct form *f);

/* Feeds the tables with all sections of a form. */
void form_feed(const struct form *f, struct tables *all);

/* Whether a file that is open at its begin is a form: its first line that is neither empty nor a remark begins with the word table. Such a
 * file is again at its begin; of one that can't be turned back, as a pipe, nothing is read. */
bool form_is(FILE *in);

/* Prints a table that is whole and accepted, its times at an offset. False where there is no memory. */
bool form_print(const struct table *t, int offset);

#endif
