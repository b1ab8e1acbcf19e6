/* section.h: the section program, as the command nw-section and as nw section. */
/* SPDX-License-Identifier: MIT */
#ifndef SECTION_H
#define SECTION_H

#include "command.h"

extern const struct command nw_dash_section, nw_section;

/* Runs it under a name on the words after that. Answers the exit status. */
int section(const struct command *its_name, int words, char **word);

#endif
