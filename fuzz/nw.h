// What the targets of nw share: a command called in process, with its output kept, and what every output holds to.
//
// tools/fuzz links these targets with the program's own files, all but its main.
// SPDX-License-Identifier: MIT
#ifndef FUZZ_NW_H
#define FUZZ_NW_H

#define _GNU_SOURCE // fopencookie, memfd_create
#define input command_input // programs/command.h has one too
#include "../programs/nw/compare.h"
#include "../programs/nw/form_command.h"
#include "../programs/nw/make.h"
#include "../programs/nw/salvage.h"
#include "../programs/nw/screen.h"
#include "../programs/nw/show.h"
#undef input
#include "trial.h"
#include <locale.h>
#include <sys/mman.h>
#include <unistd.h>

// ---- files that are nowhere but in memory, by their names

struct file {
    int at;
    char name[32];
};

static inline struct file file_of(const void *s, size_t n) {
    struct file f = {memfd_create("nw", 0), ""};
    must(f.at >= 0 && write(f.at, s, n) == (ssize_t)n);
    snprintf(f.name, sizeof f.name, "/proc/self/fd/%d", f.at);
    return f;
}

// ---- a command

// What a command wrote, and whether it closed what it wrote to.
struct written {
    char *s;
    size_t n, room;
    bool closed;
};

static inline ssize_t keep(void *own, const char *s, size_t n) {
    struct written *w = own;
    if (w->room - w->n < n) {
        w->room = 2 * w->room + n;
        w->s = realloc(w->s, w->room);
        must(w->s != NULL);
    }
    memcpy(w->s + w->n, s, n);
    w->n += n;
    return (ssize_t)n;
}

static inline int note_closed(void *own) {
    ((struct written *)own)->closed = true;
    return 0;
}

static inline FILE *kept_in(struct written *w) {
    *w = (struct written){block_of(256), 0, 256, false};
    FILE *file = fopencookie(w, "w", (cookie_io_functions_t){.write = keep, .close = note_closed});
    must(file != NULL);
    return file;
}

typedef int command_of_nw(const struct command *about, int words, char **word);

// Calls a command on words up to a NULL, its output and what it says kept. Answers its status.
static inline int call(command_of_nw *command, const struct command *about, const char **word, struct written *out, struct written *said) {
    FILE *output = stdout, *error = stderr;
    int words = 0;
    setlocale(LC_CTYPE, "C.UTF-8");
    while (word[words] != NULL) words++;
    stdout = kept_in(out);
    stderr = kept_in(said);
    int status = command(about, words, (char **)word);
    if (!out->closed) fclose(stdout);
    fclose(stderr);
    stdout = output;
    stderr = error;
    return status;
}

// What looks at an output is no code to be reached.
#define LOOKING _Pragma("clang attribute push(__attribute__((no_sanitize(\"coverage\"))), apply_to = function)")
#define LOOKED _Pragma("clang attribute pop")

// ---- what a terminal gets

LOOKING

// The next character of UTF-8; what is none must not be.
static inline uint32_t next_character(const uint8_t **s, const uint8_t *end) {
    uint32_t c = *(*s)++;
    if (c < 0x80) return c;
    unsigned more = c >= 0xF0 ? 3 : c >= 0xE0 ? 2 : 1;
    must(c >= 0xC2 && c <= 0xF4 && end - *s >= (ptrdiff_t)more);
    for (c &= 0x3Fu >> more; more > 0; more--) {
        must((**s & 0xC0) == 0x80);
        c = c << 6 | (*(*s)++ & 0x3F);
    }
    return c;
}

// UTF-8 in which nothing but the line feed steers a terminal.
static inline void hold_plain(const struct written *w) {
    const uint8_t *s = (const uint8_t *)w->s, *end = s + w->n;
    while (s < end) {
        uint32_t c = next_character(&s, end);
        must(c == '\n' || (c >= 0x20 && c != 0x7F && !(c >= 0x80 && c < 0xA0)));
        must(!(c >= 0x2028 && c <= 0x202E) && !(c >= 0x2066 && c <= 0x2069));
    }
}

LOOKED

// Calls a command whose output and sentences a terminal gets, and holds them to it. Its output is the caller's to free.
static inline int call_plain(command_of_nw *command, const struct command *about, const char **word, struct written *out) {
    struct written said;
    int status = call(command, about, word, out, &said);
    hold_plain(out);
    hold_plain(&said);
    must(status >= 0 && status <= 3 && (status != 2 || said.n != 0));
    free(said.s);
    return status;
}

#define CALL(command, out, ...) call_plain(command, &command##_command, (const char *[]){__VA_ARGS__, NULL}, out)

// The same where only the status is wanted.
static inline int status_of(command_of_nw *command, const struct command *about, const char **word) {
    struct written out;
    int status = call_plain(command, about, word, &out);
    free(out.s);
    return status;
}

#define STATUS(command, ...) status_of(command, &command##_command, (const char *[]){__VA_ARGS__, NULL})

#endif
