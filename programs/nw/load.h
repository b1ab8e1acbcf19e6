/* load.h: the words that commands over captures have in common: a capture or a form by its name, options. */
/* SPDX-License-Identifier: MIT */
#ifndef LOAD_H
#define LOAD_H

#include "../command.h"
#include "sum.h"
#include <inttypes.h>

/* Reads a capture by its name, - for standard input. False where it can't be read, which is said. */
bool load(const struct command *c, const char *name, struct finder finder, struct captured *got);

/* Reads the tables of a capture, or of a form that is a file, content tables of a variant, counts what came but for the tables, and tells which of
 * the two it is. False where it can't be read or the form has faults, which is said. */
bool load_tables(const struct command *c, const char *name, unsigned variant, struct tables *all, struct sum *sum, bool *is_form);

/* What is said of a capture's name and how many of its sections found no table. */
#define LEFT_OUT "%s has more tables than the 512 that are held, or than there is memory for: sections left out: %" PRIu64

/* How a capture is called to a person, until the next call. */
const char *called(const char *name);

/* Hours and minutes with their sign, as +08:00, from -12:00 to +14:00, and nothing else. */
bool read_hours(const char *s, int *out);

/* Hands the words of a command, options and names, to its own function, which answers how many it took, or 0 where they are wrong, which is
 * said; after the word -- nothing is an option. Answers GO_ON, or the status where --help was answered or a word is wrong. */
enum { GO_ON = -1 };
int each_word(const struct command *c, int words, char **word, int (*take)(void *own, char **word, bool option), void *own);

/* Takes the word after --offset, which may be missing. False where it is wrong, which is said. */
bool take_offset(const struct command *c, struct clock *clock, const char *offset);

/* Takes the word after --auxiliary, which may be missing. False where it is wrong, which is said. */
bool take_variant(const struct command *c, unsigned *variant, const char *bits);

#endif
