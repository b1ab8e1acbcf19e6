// compare.c: `nw compare [--auxiliary BITS] [--offset OFFSET] A B`: which field of which message of two captures or forms differs, in words.
// SPDX-License-Identifier: MIT
#include "compare.h"
#include "load.h"
#include "notes.h"
#include "tables.h"
#include <inttypes.h>
#include <string.h>

const struct command compare_command = {
    "nw compare", "nw compare [--auxiliary BITS] [--offset OFFSET] A B",
    "Reads two captures as nw show does, - for standard input, or forms by their\n"
    "names, as nw make does, and tells in which tables and fields they differ. A\n"
    "table of one is held against the table of the other with the same kind and\n"
    "extension, in their newest versions, or but for content tables with the only\n"
    "one of its kind; a message against the one with the same identifier, a text\n"
    "line by line. How the tables were cut, repeated and ordered makes no\n"
    "difference, nor do damaged bytes or lost packets whose section came whole\n"
    "elsewhere.\n"
    "  --auxiliary BITS the length of an auxiliary file has 24 bits, as without it,\n"
    "                   or 32\n"
    "  --offset OFFSET  times are also local, so far east of UTC: minutes, -720 to\n"
    "                   840, or hours and minutes with their sign, as +08:00;\n"
    "                   without it they are UTC alone\n"
    "  --help           says this\n"
    "Exit status: 0, every table of both is whole, and nothing differs; 1, something\n"
    "does, or can't be told; 2, wrong usage, a capture or form that can't be read, a\n"
    "form with faults, or output that can't be written.\n"};

struct work {
    const char *names[2];
    bool is_form[2];
    unsigned given;
    struct clock clock;
    unsigned variant; // 0 while it is not given
    struct tables tables[2];
    struct sum sums[2];
    uint64_t fields, differences;
};

// ---- differences

// Begins a difference with the table that it is in.
static void differs(struct work *w, const struct table *t) {
    printf("%s table %04X", kind_name(t->state.kind), t->state.extension);
    w->differences++;
}

static void compare_notes(struct work *w, const struct table *t, struct notes *a, struct notes *b) {
    for (size_t i = 0; i < a->count; i++) {
        struct note *here = &a->list[i], *there = notes_find(b, here->key, i);
        w->fields++;
        if (there != NULL) there->matched = true;
        if (there != NULL && strcmp(here->value, there->value) == 0) continue;
        differs(w, t);
        if (there != NULL) printf(", %s: A has %s; B has %s\n", here->key, here->value, there->value);
        else printf(", %s: only A has it, %s\n", here->key, here->value);
    }
    for (size_t i = 0; i < b->count; i++) {
        if (b->list[i].matched) continue;
        w->fields++;
        differs(w, t);
        printf(", %s: only B has it, %s\n", b->list[i].key, b->list[i].value);
    }
}

static void compare_bodies(struct work *w, const struct table *a, const struct table *b) {
    struct notes first, second;
    notes_take(&first, &a->body, w->clock);
    notes_take(&second, &b->body, w->clock);
    if (first.full || second.full) {
        differs(w, a);
        puts(": it can't be compared, there is no memory for it");
    } else compare_notes(w, a, &first, &second);
    notes_free(&first);
    notes_free(&second);
}

// The only table of a kind, or NULL.
static const struct table *only_one(const struct tables *all, unsigned kind) {
    const struct table *found = NULL;
    for (size_t i = 0; i < all->count; i++) {
        if (all->list[i].state.kind != kind) continue;
        if (found != NULL) return NULL;
        found = &all->list[i];
    }
    return found;
}

// The table that one is held against: that of its extension; else, of a kind whose extension means nothing, the only one, if
// it is the only one too.
static const struct table *other_table(const struct tables *own, const struct tables *others, const struct table *t) {
    for (size_t i = 0; i < others->count; i++)
        if (others->list[i].state.kind == t->state.kind && others->list[i].state.extension == t->state.extension)
            return &others->list[i];
    bool alone = t->state.kind != NW_CONTENT && only_one(own, t->state.kind) == t;
    return alone ? only_one(others, t->state.kind) : NULL;
}

// Tells that a table has not come whole, of A or of B.
static bool tell_not_whole(struct work *w, const struct table *t, char which) {
    if (t->whole) return false;
    differs(w, t);
    printf(": of %c it is not whole, %s (refusal %u)\n", which, nw_refusal_text(NW_REFUSAL(t->packed)), NW_REFUSAL(t->packed));
    return true;
}

static void compare_tables(struct work *w, const struct table *a, const struct table *b) {
    if (a->state.extension != b->state.extension) {
        differs(w, a);
        printf(": A has extension %04X; B has extension %04X\n", a->state.extension, b->state.extension);
    }
    if (a->state.version != b->state.version) {
        differs(w, a);
        printf(": A has version %u; B has version %u\n", a->state.version, b->state.version);
    }
    bool first = tell_not_whole(w, a, 'A'), second = tell_not_whole(w, b, 'B');
    if (!first && !second) compare_bodies(w, a, b);
}

static void tell_only(struct work *w, const struct table *t, char which) {
    differs(w, t);
    printf(": only %c has it\n", which);
}

// Tells what A and B are, and whether not all of them could be held.
static void tell_names(struct work *w) {
    static const char *const letters[] = {"A", "B"};
    for (unsigned i = 0; i < 2; i++) {
        printf("%s is %s%s\n", letters[i], called(w->names[i]), w->is_form[i] ? ", a form" : "");
        if (w->tables[i].left_out == 0) continue;
        printf(LEFT_OUT "\n", letters[i], w->tables[i].left_out);
        w->differences++;
    }
}

static int tell(struct work *w) {
    tell_names(w);
    for (size_t i = 0; i < w->tables[0].count; i++) {
        const struct table *a = &w->tables[0].list[i], *b = other_table(&w->tables[0], &w->tables[1], a);
        if (b == NULL) tell_only(w, a, 'A');
        else compare_tables(w, a, b);
    }
    for (size_t i = 0; i < w->tables[1].count; i++) {
        const struct table *b = &w->tables[1].list[i];
        if (other_table(&w->tables[1], &w->tables[0], b) == NULL) tell_only(w, b, 'B');
    }
    bool none = w->tables[0].count == 0 && w->tables[1].count == 0;
    if (none) puts("no table has come in either");
    else printf("differences: %" PRIu64 ", in %" PRIu64 " fields\n", w->differences, w->fields);
    return finish_output(&compare_command, w->differences == 0 && !none ? TAKEN : REFUSED);
}

static int run(struct work *w) {
    bool read = true;
    for (unsigned i = 0; i < 2 && read; i++) read = load_tables(&compare_command, w->names[i], w->variant, &w->tables[i], &w->sums[i], &w->is_form[i]);
    int status = read ? tell(w) : UNUSABLE;
    for (unsigned i = 0; i < 2; i++) tables_free(&w->tables[i]);
    return status;
}

// ---- the words of the command

// Takes a word, and perhaps the one after it. Answers how many were taken, or 0 where they are wrong, which is said.
static int take(void *own, char **word, bool option) {
    struct work *w = own;
    if (option && strcmp(word[0], "--offset") == 0) return take_offset(&compare_command, &w->clock, word[1]) ? 2 : 0;
    if (option && strcmp(word[0], "--auxiliary") == 0) return take_variant(&compare_command, &w->variant, word[1]) ? 2 : 0;
    if (option) return misused(&compare_command, word[0], ": there is no such word"), 0;
    if (w->given == 2) return misused(&compare_command, word[0], ": there are two captures already"), 0;
    if (w->given == 1 && strcmp(w->names[0], "-") == 0 && strcmp(word[0], "-") == 0)
        return misused(&compare_command, "-", ": standard input can be one of the two"), 0;
    w->names[w->given++] = word[0];
    return 1;
}

int compare(const struct command *name, int words, char **word) {
    struct work w = {0};
    int status = each_word(name, words, word, take, &w);
    if (status != GO_ON) return status;
    if (w.given < 2) return misused(name, "A and B", " are wanted: two captures' names, of which one may be - for standard input");
    if (w.variant == 0) w.variant = NW_AUXILIARY_24;
    return run(&w);
}
