/* dates.h: the date program, as the command nw-dates and as nw dates. */
/* SPDX-License-Identifier: MIT */
#ifndef DATES_H
#define DATES_H

#include "command.h"

extern const struct command nw_dash_dates, nw_dates;

/* Runs it under a name on the words after that. Answers the exit status. */
int dates(const struct command *name, int words, char **word);

#endif
