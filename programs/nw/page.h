/* page.h: the file that an HTML page is written to, whole or not at all, and what stands in it put safely. */
/* SPDX-License-Identifier: MIT */
#ifndef PAGE_H
#define PAGE_H

#include "../command.h"
#include <stdio.h>

/* The page while it is written. */
extern FILE *page;

/* Begins a page in a file, or on standard output where its name is -. False where it can't be written, which is said. */
bool page_open(const struct command *c, const char *name, bool replace);

/* Ends it: kept, the file has all of it, and else it is as it was. False where it can't be kept, which is said. */
bool page_close(bool keep);

/* Puts ASCII, and a name in the terminal's character set, so that nothing in it is taken for HTML. */
void page_put(const char *s);
void page_put_name(const char *s, bool marks);

/* Puts a character: what would steer the page or is invisible as \u{..}, and a bare byte as \xNN, with marks both so that they are told from the
 * same written in a text. */
void page_put_character(uint32_t c, bool marks);

#endif
