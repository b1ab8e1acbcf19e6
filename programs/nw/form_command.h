/* form_command.h: `nw form`. */
/* SPDX-License-Identifier: MIT */
#ifndef FORM_COMMAND_H
#define FORM_COMMAND_H

#include "../command.h"

extern const struct command form_command;

/* The words after `form`. Answers the exit status. */
int form(const struct command *name, int words, char **word);

#endif
