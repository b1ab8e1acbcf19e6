// form_command.c: `nw form [--auxiliary BITS] [--offset OFFSET] CAPTURE`: the tables of a capture as a written form.
// SPDX-License-Identifier: MIT
#include "form_command.h"
#include "form.h"
#include "load.h"
#include <string.h>

const struct command form_command = {
    "nw form", "nw form [--auxiliary BITS] [--offset OFFSET] CAPTURE",
    "Reads CAPTURE as nw show does, or a form by its name, and writes its tables as\n"
    "a form, from which nw make makes the same tables again. The form of a form is\n"
    "the same, but that it has no remarks, one way of writing each value, and index\n"
    "tables first. nw help form says what stands in a form.\n"
    "  --auxiliary BITS the length of an auxiliary file has 24 bits, as without it,\n"
    "                   or 32\n"
    "  --offset OFFSET  times are local, so far east of UTC: minutes, -720 to 840,\n"
    "                   or hours and minutes with their sign, as +08:00; without it\n"
    "                   they are at +00:00\n"
    "  --help           says this\n"
    "Exit status: 0, all tables are in the form; 1, one that is not whole or not\n"
    "accepted is left out, which standard error says, or no table came; 2, wrong\n"
    "usage, a CAPTURE that can't be read, or output that can't be written.\n"};

struct work {
    const char *name; // the CAPTURE's, or NULL
    struct clock clock;
    unsigned variant; // 0 while it is not given
    struct tables tables;
    struct sum sum;
};

// Why a table is not in the form, or NULL.
static const char *why_not(const struct table *t, nw_answer *refusal) {
    *refusal = t->whole ? t->verdict : t->packed;
    if (NW_REFUSAL(*refusal) == NW_TAKEN) return NULL;
    return t->whole ? "it is refused" : "it is not whole";
}

static int print_tables(const struct work *w) {
    int status = w->tables.count == 0 ? REFUSED : TAKEN;
    bool first = true;
    if (w->tables.count == 0) say(&form_command, "%s: no table has come", called(w->name));
    if (w->tables.left_out != 0) {
        say(&form_command, LEFT_OUT, called(w->name), w->tables.left_out);
        status = REFUSED;
    }
    for (const struct table *t = w->tables.list; t < w->tables.list + w->tables.count; t++) {
        nw_answer refusal;
        const char *why = why_not(t, &refusal);
        if (why != NULL) {
            say(&form_command, "%s table %04X, version %u is left out: %s, %s (refusal %u)", kind_name(t->state.kind), t->state.extension,
                t->state.version, why, nw_refusal_text(NW_REFUSAL(refusal)), NW_REFUSAL(refusal));
            status = REFUSED;
            continue;
        }
        if (!first) putchar('\n');
        first = false;
        if (!form_print(t, w->clock.offset)) return say(&form_command, "there is no memory left: the form is not whole"), UNUSABLE;
    }
    return finish_output(&form_command, status);
}

static int run(struct work *w) {
    bool is_form;
    int status = load_tables(&form_command, w->name, w->variant, &w->tables, &w->sum, &is_form) ? print_tables(w) : UNUSABLE;
    tables_free(&w->tables);
    return status;
}

// Takes a word, and perhaps the one after it. Answers how many were taken, or 0 where they are wrong, which is said.
static int take(void *own, char **word, bool option) {
    struct work *w = own;
    if (option && strcmp(word[0], "--offset") == 0) return take_offset(&form_command, &w->clock, word[1]) ? 2 : 0;
    if (option && strcmp(word[0], "--auxiliary") == 0) return take_variant(&form_command, &w->variant, word[1]) ? 2 : 0;
    if (option) return misused(&form_command, word[0], ": there is no such word"), 0;
    if (w->name != NULL) return misused(&form_command, word[0], ": there is a CAPTURE already, and one is read"), 0;
    w->name = word[0];
    return 1;
}

int form(const struct command *name, int words, char **word) {
    struct work w = {0};
    int status = each_word(name, words, word, take, &w);
    if (status != GO_ON) return status;
    if (w.name == NULL) return misused(name, "CAPTURE", " is wanted: a file's name, or - for standard input");
    if (w.variant == 0) w.variant = NW_AUXILIARY_24;
    return run(&w);
}
