// notes.c: the fields of a body by name and value, to hold two bodies against each other.
// SPDX-License-Identifier: MIT
#include "notes.h"
#include "sha256.h"
#include "text.h"
#include <inttypes.h>
#include <stdio.h>
#include <stdlib.h>
#include <string.h>

static char *copied(const char *s) {
    char *copy = malloc(strlen(s) + 1);
    return copy == NULL ? NULL : strcpy(copy, s);
}

static void add(struct notes *n, const char *key, const char *value) {
    if (n->count == n->room) {
        size_t room = 2 * n->room + 64;
        struct note *more = realloc(n->list, room * sizeof *more);
        if (more == NULL) {
            n->full = true;
            return;
        }
        n->list = more;
        n->room = room;
    }
    struct note note = {copied(key), copied(value), false};
    n->full = n->full || note.key == NULL || note.value == NULL;
    if (note.key != NULL && note.value != NULL) n->list[n->count++] = note;
    else {
        free(note.key);
        free(note.value);
    }
}

// The things that a field stands in, and the field.
static void put_key(const struct notes *n, const struct walk *w, const struct field *f, char *key, size_t room) {
    size_t to = 0;
    for (const struct group *g = w->groups; g < w->groups + w->depth; g++) {
        const char *after = g + 1 < w->groups + w->depth || f->label[0] != '\0' ? ", " : "";
        bool named = g == w->groups && n->message[0] != '\0';
        if (g->single) to += (size_t)snprintf(key + to, room - to, "%s%s", g->label, after);
        else if (named) to += (size_t)snprintf(key + to, room - to, "%s %s%s", g->label, n->message, after);
        else to += (size_t)snprintf(key + to, room - to, "%s %" PRIu64 "%s", g->label, g->number + 1, after);
    }
    snprintf(key + to, room - to, "%s", f->label);
}

// The characters of a line up to its end, or as many as find room. Answers where the line ends.
static size_t put_text_line(const struct text *t, size_t from, char *value, size_t room) {
    size_t end = from, to = 0;
    while (end < t->n && t->c[end] != '\n') end++;
    for (size_t i = from; i < end && to < room - CHARACTER_ROOM; i++) {
        text_put(t->c[i], value + to);
        to += strlen(value + to);
    }
    value[to] = '\0';
    return end;
}

enum { VALUE_ROOM = 1200, LINE_ROOM = 1000 };

// A text line by line, so that the line that differs is told, in whatever character set it came.
static void note_text(struct notes *n, const struct walk *w, const struct field *f, const char *key) {
    struct text t;
    char value[VALUE_ROOM], line_key[320], digest[SHA256_DIGITS + 1];
    if (!text_decode(&t, f->set, w->body.s + f->at, f->bytes)) {
        n->full = true;
        return;
    }
    size_t number = 1;
    for (size_t at = 0; at < t.n; number++) {
        size_t end = put_text_line(&t, at, value, LINE_ROOM), to = strlen(value);
        if (to + CHARACTER_ROOM >= LINE_ROOM)
            snprintf(value + to, VALUE_ROOM - to, " (SHA-256 %s)", sha256_text((const uint8_t *)(t.c + at), (end - at) * sizeof *t.c, digest));
        snprintf(line_key, sizeof line_key, "%s, line %zu", key, number);
        add(n, line_key, value[0] == '\0' ? "an empty line" : value);
        at = end + 1;
    }
    if (t.n == 0) add(n, key, "none");
    free(t.c);
}

static void note_field(void *own, const struct walk *w, const struct field *f) {
    struct notes *n = own;
    char key[256], value[VALUE_ROOM];
    bool plain = f->role == COUNT || f->role == LENGTH || f->role == RESERVED || f->role == UNREAD;
    if (plain && f->refusal == NW_TAKEN) return;
    if (w->depth == 1 && strcmp(f->name, "EBM_id") == 0 && f->refusal == NW_TAKEN)
        snprintf(n->message, sizeof n->message, "%s", f->words);
    put_key(n, w, f, key, sizeof key);
    if (f->refusal != NW_TAKEN) snprintf(value, sizeof value, "refused, %s (refusal %u)", nw_refusal_text(f->refusal), f->refusal);
    else if (f->role == TEXT) {
        note_text(n, w, f, key);
        return;
    } else snprintf(value, sizeof value, "%s", f->words);
    add(n, key, value);
}

static void note_enter(void *own, const struct walk *w, const struct group *g) {
    (void)g;
    if (w->depth == 0) ((struct notes *)own)->message[0] = '\0';
}

static void note_leave(void *own, const struct walk *w) {
    if (w->depth == 0) ((struct notes *)own)->message[0] = '\0';
}

void notes_take(struct notes *n, const struct body *b, struct clock clock) {
    *n = (struct notes){0};
    body_walk(b, clock, (struct visitor){note_enter, note_leave, note_field, n});
}

struct note *notes_find(struct notes *n, const char *key, size_t from) {
    for (size_t i = 0; i < n->count; i++) {
        struct note *here = &n->list[(from + i) % n->count];
        if (!here->matched && strcmp(here->key, key) == 0) return here;
    }
    return NULL;
}

void notes_free(struct notes *n) {
    for (size_t i = 0; i < n->count; i++) {
        free(n->list[i].key);
        free(n->list[i].value);
    }
    free(n->list);
}
