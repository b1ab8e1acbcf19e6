/* screen.h: `nw screen`. */
/* SPDX-License-Identifier: MIT */
#ifndef SCREEN_H
#define SCREEN_H

#include "../command.h"

extern const struct command screen_command;

/* The words after `screen`. Answers the exit status. */
int screen(const struct command *name, int words, char **word);

#endif
