/* topics.h: what `nw help` tells beside how the commands are used. */
/* SPDX-License-Identifier: MIT */
#ifndef TOPICS_H
#define TOPICS_H

#include "../command.h"

/* Each refusal: its number, what it means, and what to look at. */
int tell_refusals(const struct command *c);

/* How the command `form` is used, and what stands in a form. */
int tell_form(const struct command *c, const struct command *form);

#endif
