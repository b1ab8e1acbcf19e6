// nw-salvage [--output OUT] [FILE]: reads a damaged capture, all of FILE or of standard input, and writes its good sections back to
// back and the list of the runs of bytes that were kept and skipped. Both are made by proved functions, nw_salvage and
// nw_salvage_list; this file reads, writes and says what is wrong.
// SPDX-License-Identifier: MIT
#include "command.h"
#include <errno.h>
#include <locale.h>
#include <neapwillow.h>
#include <signal.h>
#include <stdio.h>
#include <string.h>

static const struct command me = {
    "nw-salvage", "nw-salvage [--output OUT] [FILE]",
    "Reads a capture from which pieces may be missing, all of FILE or else of\n"
    "standard input, at most 65536 bytes. Writes its good sections of GD/J 086-2018,\n"
    "unchanged and back to back, to standard output, and on standard error a line\n"
    "for each run of bytes: the word kept or skipped, its first offset and its\n"
    "length. A good section is one run.\n"
    "  --output OUT  writes the sections to the file OUT, and the lines to standard\n"
    "                   output\n"
    "  --help        says this\n"
    "  --version     says the version\n"
    "Exit status: 0, every byte is kept; 1, bytes are skipped, or the capture is too\n"
    "long and is refused; 2, wrong usage, a FILE that can't be read, or output that\n"
    "can't be written.\n"};

// The names of OUT and of FILE, or NULL.
struct work {
    const char *output, *name;
};

static struct input in;
static uint8_t sections[NW_SALVAGE_BYTES(NW_MOST_CAPTURE)], list[NW_MOST_LIST];
static uint32_t runs[NW_SALVAGE_NUMBERS(NW_MOST_CAPTURE)];

// Writes the sections to OUT, or says why not.
static bool write_file(const char *name, size_t n) {
    FILE *file = fopen(name, "wb");
    if (file == NULL) return say(&me, "%s can't be opened: %s", shown(name), strerror(errno)), false;
    bool written = fwrite(sections, 1, n, file) == n && fflush(file) == 0;
    int why = errno;
    if (fclose(file) != 0 && written) {
        why = errno;
        written = false;
    }
    if (!written) say(&me, "%s is not whole, it can't be written: %s", shown(name), strerror(why));
    return written;
}

// Writes both. A capture that is refused has no sections, and OUT is not touched.
static int write_both(const struct work *w, size_t bytes, size_t lines, bool refused, int status) {
    if (w->output != NULL) {
        if (!refused && !write_file(w->output, bytes)) return UNUSABLE;
        return write_output(&me, list, lines, status);
    }
    status = write_output(&me, sections, bytes, status);
    if (status == UNUSABLE) return status;
    return fwrite(list, 1, lines, stderr) == lines ? status : UNUSABLE;
}

static int salvage(const struct work *w) {
    if (!read_input(&me, w->name, &in)) return UNUSABLE;
    nw_salvaged got = nw_salvage(in.s, in.n, sections, sizeof sections, runs, sizeof runs / sizeof runs[0]);
    bool refused = NW_REFUSAL(got) != NW_TAKEN;
    size_t bytes = refused ? 0 : nw_salvaged_bytes(got), lines = nw_salvage_list(in.s, in.n, list);
    int status = write_both(w, bytes, lines, refused, !refused && bytes == in.n ? TAKEN : REFUSED);
    if (status == REFUSED && refused) say(&me, "%s: nothing is salvaged", nw_refusal_text(NW_REFUSAL(got)));
    return status;
}

int main(int words, char **word) {
    struct work w = {0};
    bool options = true;
    setlocale(LC_CTYPE, "");
    for (int i = 1; i < words; i++) {
        if (options && strcmp(word[i], "--help") == 0) return help(&me);
        if (options && strcmp(word[i], "--version") == 0) return version(&me);
        if (options && strcmp(word[i], "--") == 0) options = false;
        else if (options && strcmp(word[i], "--output") == 0) {
            if (w.output != NULL) return misused(&me, "--output", ": it is given already");
            if (word[i + 1] == NULL || word[i + 1][0] == '\0') return misused(&me, "--output", ": OUT has to follow, a file's name");
            w.output = word[++i];
        } else if (options && word[i][0] == '-' && word[i][1] != '\0') return misused(&me, word[i], ": there is no such word");
        else if (w.name != NULL) return misused(&me, word[i], ": there is a FILE already, and one capture is read");
        else w.name = word[i];
    }
    return salvage(&w);
}
