// show.c: `nw show [--bytes | --json | --html FILE [--replace]] [--auxiliary BITS] [--offset OFFSET] CAPTURE`: every table of a capture told to a person.
// SPDX-License-Identifier: MIT
#include "show.h"
#include "events.h"
#include "load.h"
#include "output.h"
#include "page.h"
#include "progress.h"
#include "report.h"
#include <string.h>

const struct command show_command = {
    "nw show", "nw show [--bytes | --json | --html FILE [--replace]] [--auxiliary BITS] [--offset OFFSET] CAPTURE",
    "Reads the sections of GD/J 086-2018 in CAPTURE, or in standard input where it\n"
    "is -, damage among them or not, or in the packets on PID 0x0021 where it is a\n"
    "transport stream, gathers them into tables, and tells all that came: what was\n"
    "skipped, lost or refused and why, which sections are missing, and each field of\n"
    "every table.\n"
    "  --bytes          tells the bodies byte by byte, with each field's name in the\n"
    "                   standard\n"
    "  --json           tells the same for scripts; nw(1) says how\n"
    "  --html FILE      writes all of it to FILE, or to standard output where it is\n"
    "                   -, as one page for a browser, with pictures\n"
    "  --replace        replaces a FILE that is there already, once the new one is\n"
    "                   whole\n"
    "  --auxiliary BITS the length of an auxiliary file has 24 bits, as without it,\n"
    "                   or 32\n"
    "  --offset OFFSET  times are also local, so far east of UTC: minutes, -720 to\n"
    "                   840, or hours and minutes with their sign, as +08:00;\n"
    "                   without it they are UTC alone\n"
    "  --progress       says on standard error how much of a capture above 10 MB is\n"
    "                   read, as it does on a terminal without this\n"
    "  --help           says this\n"
    "Exit status: 0, every table is whole and accepted, nothing was skipped, lost or\n"
    "refused, and messages and contents belong together; 1, something of that is not\n"
    "so, or no table came; 2, wrong usage, a CAPTURE that can't be read, or output\n"
    "that can't be written.\n"};

struct work {
    const char *name; // the CAPTURE's, or NULL
    struct clock clock;
    unsigned variant; // 0 while it is not given
    const struct report *report;
    const char *page; // the FILE after --html, or NULL
    bool replace;
    struct tables tables;
    struct sum sum;
};

// ---- what came

static void note_begin(void *own) {
    const struct work *w = own;
    w->report->begin(called(w->name));
}

static void note_section(void *own, uint64_t at, const uint8_t *s, size_t n, nw_heading heading) {
    struct work *w = own;
    struct arrival a = tables_feed(&w->tables, at, s, n, heading);
    sum_arrival(&w->sum, &a);
    if (is_event(&a)) progress_clear();
    w->report->arrival(&a);
}

static void note_skipped(void *own, const struct stretch *bad) {
    struct work *w = own;
    w->sum.skipped += bad->bytes;
    progress_clear();
    w->report->skipped(bad);
}

static void note_lost(void *own, const struct stream_loss *loss) {
    struct work *w = own;
    w->sum.losses++;
    progress_clear();
    w->report->lost(loss);
}

// Ends the page, and says so.
static bool tell_page(const struct work *w, bool faultless) {
    if (!page_close(true)) return false;
    if (strcmp(w->page, "-") != 0) printf("%s is written: %s\n", shown(w->page), faultless ? ALL_WELL : NOT_ALL_WELL);
    return true;
}

static int tell(struct work *w) {
    tables_finish(&w->tables, w->variant);
    w->report->tables();
    for (size_t i = 0; i < w->tables.count; i++) w->report->table(&w->tables, &w->tables.list[i], w->clock);
    sum_tables(&w->sum, &w->tables);
    bool faultless = is_faultless(&w->sum, &w->tables);
    w->report->end(&w->tables, &w->sum, faultless);
    if (w->page != NULL && !tell_page(w, faultless)) return UNUSABLE;
    return finish_output(&show_command, faultless ? TAKEN : REFUSED);
}

static int run(struct work *w) {
    struct finder finder = {note_begin, note_section, note_skipped, note_lost, w};
    if (w->page != NULL && !page_open(&show_command, w->page, w->replace)) return UNUSABLE;
    bool loaded = load(&show_command, w->name, finder, &w->sum.capture);
    if (!loaded && w->page != NULL) page_close(false);
    int status = loaded ? tell(w) : UNUSABLE;
    tables_free(&w->tables);
    return status;
}

// ---- the words of the command

static bool take_report(struct work *w, const char *word, const struct report *report) {
    if (w->report != NULL) return misused(&show_command, word, ": one of --bytes, --json and --html is given already"), false;
    w->report = report;
    return true;
}

static bool take_page(struct work *w, const char *file) {
    if (!take_report(w, "--html", &html_report)) return false;
    if (file == NULL) return misused(&show_command, "--html", ": a FILE has to follow, or - for standard output"), false;
    w->page = file;
    return true;
}

// Takes a word, and perhaps the one after it. Answers how many were taken, or 0 where they are wrong, which is said.
static int take(void *own, char **word, bool option) {
    struct work *w = own;
    if (option && strcmp(word[0], "--bytes") == 0) return take_report(w, word[0], &bytes_report) ? 1 : 0;
    if (option && strcmp(word[0], "--json") == 0) return take_report(w, word[0], &json_report) ? 1 : 0;
    if (option && strcmp(word[0], "--html") == 0) return take_page(w, word[1]) ? 2 : 0;
    if (option && strcmp(word[0], "--replace") == 0) return w->replace = true, 1;
    if (option && strcmp(word[0], "--progress") == 0) return progress_ask(), 1;
    if (option && strcmp(word[0], "--offset") == 0) return take_offset(&show_command, &w->clock, word[1]) ? 2 : 0;
    if (option && strcmp(word[0], "--auxiliary") == 0) return take_variant(&show_command, &w->variant, word[1]) ? 2 : 0;
    if (option) return misused(&show_command, word[0], ": there is no such word"), 0;
    if (w->name != NULL) return misused(&show_command, word[0], ": there is a CAPTURE already, and one is read"), 0;
    w->name = word[0];
    return 1;
}

int show(const struct command *name, int words, char **word) {
    struct work w = {0};
    int status = each_word(name, words, word, take, &w);
    if (status != GO_ON) return status;
    if (w.name == NULL) return misused(name, "CAPTURE", " is wanted: a file's name, or - for standard input");
    if (w.replace && w.page == NULL) return misused(name, "--replace", ": it goes with --html");
    if (w.page != NULL && is_one_file(w.name, w.page)) return misused(name, w.page, ": this is the CAPTURE, and it would be lost");
    if (w.report == NULL) w.report = &plain_report;
    if (w.variant == 0) w.variant = NW_AUXILIARY_24;
    return run(&w);
}
