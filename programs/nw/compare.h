/* compare.h: `nw compare`. */
/* SPDX-License-Identifier: MIT */
#ifndef COMPARE_H
#define COMPARE_H

#include "../command.h"

extern const struct command compare_command;

/* The words after `compare`. Answers the exit status. */
int compare(const struct command *name, int words, char **word);

#endif
