/* progress.h: how much of a capture above 10 MB is read, told on standard error where that is a terminal, or where it is asked for. */
/* SPDX-License-Identifier: MIT */
#ifndef PROGRESS_H
#define PROGRESS_H

#include "../command.h"

/* Asks for it, whatever standard error is. */
void progress_ask(void);

/* A capture of so many bytes is read from here on, 0 where that is not known; so many are read; and it is over. */
void progress_begin(const struct command *c, uint64_t bytes);
void progress_at(uint64_t read);
void progress_end(void);

/* Takes away what stands in the terminal's line, before something else is written. */
void progress_clear(void);

#endif
