// progress.c: how much of a capture above 10 MB is read, told on standard error where that is a terminal, or where it is asked for.
// SPDX-License-Identifier: MIT
#include "progress.h"
#include <inttypes.h>
#include <stdio.h>
#include <unistd.h>

#define MB UINT64_C(1000000)

enum { LEAST = 10, OFTEN = 2, SELDOM = 100 }; // MB

static bool asked, on_terminal;
static const struct command *who; // NULL where nothing is told
static uint64_t all, next, step;  // bytes: of the capture, when it is told next, and from one telling to the other
static int in_line;               // characters that stand in the terminal's line

void progress_ask(void) { asked = true; }

void progress_begin(const struct command *c, uint64_t bytes) {
    on_terminal = isatty(STDERR_FILENO) == 1;
    who = asked || on_terminal ? c : NULL;
    if (bytes != 0 && bytes <= LEAST * MB) who = NULL;
    all = bytes;
    step = on_terminal ? OFTEN * MB : bytes != 0 ? bytes / 10 : SELDOM * MB;
    next = bytes != 0 ? step : LEAST * MB;
}

void progress_clear(void) {
    if (in_line > 0) fprintf(stderr, "\r%*s\r", in_line, "");
    in_line = 0;
}

void progress_at(uint64_t read) {
    if (who == NULL || read < next) return;
    next = read - read % step + step;
    progress_clear();
    int n = fprintf(stderr, "%s: %" PRIu64, who->name, read / MB);
    if (all != 0) n += fprintf(stderr, " of %" PRIu64, all / MB);
    n += fprintf(stderr, " MB read%s", on_terminal ? "" : "\n");
    if (on_terminal) in_line = n;
}

void progress_end(void) {
    progress_clear();
    who = NULL;
}
