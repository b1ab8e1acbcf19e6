/* salvage.h: `nw salvage`. */
/* SPDX-License-Identifier: MIT */
#ifndef SALVAGE_H
#define SALVAGE_H

#include "../command.h"

extern const struct command salvage_command;

/* The words after `salvage`. Answers the exit status. */
int salvage(const struct command *name, int words, char **word);

#endif
