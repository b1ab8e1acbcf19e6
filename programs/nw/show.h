/* show.h: `nw show`. */
/* SPDX-License-Identifier: MIT */
#ifndef SHOW_H
#define SHOW_H

#include "../command.h"

extern const struct command show_command;

/* The words after `show`. Answers the exit status. */
int show(const struct command *name, int words, char **word);

#endif
