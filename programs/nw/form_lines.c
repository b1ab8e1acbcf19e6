// form_lines.c: the lines of a written form, one at hand, and the faults in them told by line and column.
// SPDX-License-Identifier: MIT
#include "form_lines.h"
#include <errno.h>
#include <stdarg.h>
#include <stdlib.h>
#include <string.h>

enum { TYPED_SHOWN = 80, MARK = 3 };

// ---- faults

// How many characters stand in n bytes of UTF-8.
static size_t characters(const char *s, size_t n) {
    size_t count = 0;
    for (size_t i = 0; i < n; i++) count += ((unsigned char)s[i] & 0xC0) != 0x80;
    return count;
}

// What was typed, of much the beginning, until the next call.
static const char *typed(const char *s, size_t n) {
    static char part[TYPED_SHOWN + 1], out[5 * TYPED_SHOWN];
    size_t shown_bytes = n < TYPED_SHOWN ? n : TYPED_SHOWN;
    while (shown_bytes < n && shown_bytes > 0 && ((unsigned char)s[shown_bytes] & 0xC0) == 0x80) shown_bytes--; // whole characters
    for (size_t i = 0; i < shown_bytes; i++) part[i] = s[i] == '\0' ? '?' : s[i];
    part[shown_bytes] = '\0';
    snprintf(out, sizeof out, "%s%s", shown(part), shown_bytes < n ? ".." : "");
    return out;
}

void fault(struct lines *l, const char *at, size_t n, const char *form, ...) {
    char words[512];
    va_list rest;
    if (l->unread || (l->faults != 0 && l->blamed == l->number)) return;
    va_start(rest, form);
    vsnprintf(words, sizeof words, form, rest);
    va_end(rest);
    l->blamed = l->number;
    l->faults++;
    if (l->over) say(l->c, "%s, at its end: %s", l->name, words);
    else
        say(l->c, "%s, line %llu, column %zu: %s: %s", l->name, (unsigned long long)l->number,
            characters(l->s, (size_t)(at - l->s)) + 1, typed(at, n), words);
    if (l->faults == MOST_FAULTS) say(l->c, "%s has %d faults so far: the rest of it is not read", l->name, MOST_FAULTS);
}

// ---- lines

// Gives up, which is said.
static bool give_up(struct lines *l, const char *why) {
    say(l->c, "%s can't be read: %s", l->name, why);
    l->unread = l->over = true;
    return false;
}

// Room for one byte more and a NUL.
static bool make_room(struct lines *l, size_t n) {
    if (n + 2 <= l->room) return true;
    size_t room = 2 * l->room + 256;
    char *more = realloc(l->s, room);
    if (more == NULL) return give_up(l, "there is no memory for its line");
    l->s = more;
    l->room = room;
    return true;
}

// Reads a line up to its LF. Answers false where there is none, or it is too long.
static bool read_line(struct lines *l, size_t *n) {
    int c = getc(l->in);
    for (*n = 0; c != EOF && c != '\n'; c = getc(l->in)) {
        if (*n == MOST_LINE) return give_up(l, "it has a line of more than 4194304 bytes");
        if (!make_room(l, *n)) return false;
        l->s[(*n)++] = (char)c;
    }
    if (ferror(l->in)) return give_up(l, strerror(errno));
    if (l->number == 1 && *n >= 2 && (memcmp(l->s, "\xFF\xFE", 2) == 0 || memcmp(l->s, "\xFE\xFF", 2) == 0))
        return give_up(l, "it is in UTF-16, and has to be in UTF-8");
    return make_room(l, *n) && (c == '\n' || *n != 0);
}

// Finds word and value in a line of n bytes. Answers false where it is empty or a remark.
static bool split(struct lines *l, size_t n) {
    char *begin = l->s + (l->number == 1 && n >= MARK && memcmp(l->s, "\xEF\xBB\xBF", MARK) == 0 ? MARK : 0), *end = l->s + n;
    while (end > begin && (end[-1] == ' ' || end[-1] == '\t' || end[-1] == '\r')) end--;
    *end = '\0';
    while (*begin == ' ' || *begin == '\t') begin++;
    l->word = l->value = begin;
    while (l->value < end && *l->value != ' ' && *l->value != '\t') l->value++;
    l->word_bytes = (size_t)(l->value - begin);
    while (*l->value == ' ' || *l->value == '\t') l->value++;
    l->value_bytes = (size_t)(end - l->value);
    return begin < end && *begin != '#';
}

// A control character can't be seen, and may have come by mistake.
static void judge_controls(struct lines *l) {
    for (char *c = l->word; c < l->value + l->value_bytes; c++) {
        unsigned char byte = (unsigned char)*c;
        if ((byte >= 0x20 && byte != 0x7F) || byte == '\t') continue;
        fault(l, c, 1, "a control character can't stand in a form: in a text it is written \\x%02X", byte);
        return;
    }
}

void lines_next(struct lines *l) {
    size_t n;
    do {
        l->number++;
        if (!l->over && !read_line(l, &n)) l->over = true;
    } while (!l->over && !split(l, n));
    if (l->over) l->word_bytes = l->value_bytes = 0;
    else judge_controls(l);
}

void lines_start(struct lines *l, const struct command *c, const char *name, FILE *in) {
    *l = (struct lines){.c = c, .name = name, .in = in};
    lines_next(l);
}

void lines_end(struct lines *l) { free(l->s); }

bool line_is(const struct lines *l, const char *word) {
    return !l->over && strlen(word) == l->word_bytes && memcmp(l->word, word, l->word_bytes) == 0;
}
