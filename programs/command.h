/* command.h: what the commands share: the input read whole, the output written whole, what goes wrong said. */
/* SPDX-License-Identifier: MIT */
#ifndef COMMAND_H
#define COMMAND_H

#include "c_commands.h"
#include <stdbool.h>

enum { TAKEN = 0, REFUSED = 1, UNUSABLE = 2 }; /* exit statuses */

/* A command's name, its usage in a line, and what --help says after it. */
struct command {
    const char *name, *usage, *more;
};

/* The input: one byte more than is judged, to tell a longer one. */
struct input {
    uint8_t s[NW_MOST_INPUT + 1];
    size_t n;
};

/* Says a sentence on standard error, after the command's name. */
void say(const struct command *c, const char *form, ...);

/* A word of the caller's as a terminal can show it, until the next call: what is no printable character is written as \xNN. */
const char *shown(const char *word);

/* Wrong usage: says what is wrong with a word and how the command is used. */
int misused(const struct command *c, const char *word, const char *why);

/* The answers to --help and --version. */
int help(const struct command *c);
int version(const struct command *c);

/* Reads a file, or standard input where its name is NULL or "-"; says why not. */
bool read_input(const struct command *c, const char *name, struct input *in);

/* Writes all of the output and closes it. Answers the status, or UNUSABLE and says why it can't be written. */
int write_output(const struct command *c, const void *s, size_t n, int status);

/* The same for output that is written bit by bit: to be called before the first, and after the last. */
void guard_output(void);
int finish_output(const struct command *c, int status);

/* A whole decimal number from -720 to 840, of at most three digits, and nothing else. */
bool read_minutes(const char *s, int *out);

#endif
