/* make.h: `nw make`. */
/* SPDX-License-Identifier: MIT */
#ifndef MAKE_H
#define MAKE_H

#include "../command.h"

extern const struct command make_command;

/* The words after `make`. Answers the exit status. */
int make(const struct command *name, int words, char **word);

#endif
