// command.c: what the commands share: the input read whole, the output written whole, what goes wrong said.
// SPDX-License-Identifier: MIT
#include "command.h"
#include <errno.h>
#include <limits.h>
#include <neapwillow.h>
#include <signal.h>
#include <stdarg.h>
#include <stdio.h>
#include <string.h>
#include <wchar.h>
#include <wctype.h>

enum { WORD_SHOWN = 1024 };

void say(const struct command *c, const char *form, ...) {
    va_list words;
    va_start(words, form);
    fprintf(stderr, "%s: ", c->name);
    vfprintf(stderr, form, words);
    fputc('\n', stderr);
    va_end(words);
}

// A character that turns the direction of writing round, or parts lines.
static bool steers(wchar_t c) { return (c >= 0x2028 && c <= 0x202E) || (c >= 0x2066 && c <= 0x2069); }

const char *shown(const char *word) {
    static char out[WORD_SHOWN];
    size_t at = 0, left = strlen(word);
    mbstate_t state = {0};
    while (left > 0 && at < WORD_SHOWN - MB_LEN_MAX - 4) { // room for one character more, and for the end
        wchar_t c = 0;
        size_t n = mbrtowc(&c, word, left, &state);
        if (n <= left && iswprint((wint_t)c) && !steers(c)) {
            memcpy(out + at, word, n);
            at += n;
        } else {
            at += (size_t)sprintf(out + at, "\\x%02X", (unsigned)(unsigned char)*word);
            memset(&state, 0, sizeof state);
            n = 1;
        }
        word += n;
        left -= n;
    }
    strcpy(out + at, left > 0 ? ".." : "");
    return at > 0 ? out : "(an empty word)";
}

int misused(const struct command *c, const char *word, const char *why) {
    say(c, "%s%s\nusage: %s; %s --help says more", shown(word), why, c->usage, c->name);
    return UNUSABLE;
}

int help(const struct command *c) {
    static char text[4096];
    int n = snprintf(text, sizeof text, "usage: %s\n%s", c->usage, c->more);
    return write_output(c, text, (size_t)n, TAKEN);
}

int version(const struct command *c) {
    char text[64];
    int n = snprintf(text, sizeof text, "%s %s\n", c->name, NW_VERSION);
    return write_output(c, text, (size_t)n, TAKEN);
}

bool read_input(const struct command *c, const char *name, struct input *in) {
    bool standard = name == NULL || strcmp(name, "-") == 0;
    const char *what = standard ? "standard input" : shown(name);
    FILE *file = standard ? stdin : fopen(name, "rb");
    if (file == NULL) return say(c, "%s can't be opened: %s", what, strerror(errno)), false;
    in->n = fread(in->s, 1, sizeof in->s, file);
    int why = errno;
    bool whole = ferror(file) == 0;
    if (!standard) fclose(file);
    if (!whole) say(c, "%s can't be read: %s", what, strerror(why));
    return whole;
}

// A reader that has gone is a fault that is said, and no signal that ends the command without a word.
void guard_output(void) { signal(SIGPIPE, SIG_IGN); }

int finish_output(const struct command *c, int status) {
    int why = 0;
    if (ferror(stdout)) { // a write has failed: the next one tells why
        clearerr(stdout);
        putchar('\n');
        why = EIO;
    }
    if (fflush(stdout) != 0) why = errno;
    if (fclose(stdout) != 0 && why == 0) why = errno;
    if (why != 0) say(c, "the output can't be written: %s", strerror(why));
    return why == 0 ? status : UNUSABLE;
}

int write_output(const struct command *c, const void *s, size_t n, int status) {
    guard_output();
    fwrite(s, 1, n, stdout);
    return finish_output(c, status);
}

bool read_minutes(const char *s, int *out) {
    bool negative = *s == '-';
    if (*s == '-' || *s == '+') s++;
    size_t digits = strspn(s, "0123456789");
    int x = 0;
    for (size_t i = 0; i < digits && i < 3; i++) x = 10 * x + (s[i] - '0');
    *out = negative ? -x : x;
    return digits >= 1 && digits <= 3 && s[digits] == '\0' && -720 <= *out && *out <= 840; // +0800 is meant as hours
}
