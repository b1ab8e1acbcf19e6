// salvage.c: `nw salvage [--replace] IN OUT`: the good sections of a damaged capture of any length, window by window by the proved nw_salvage.
// SPDX-License-Identifier: MIT
#include "salvage.h"
#include "capture.h"
#include "load.h"
#include "output.h"
#include <errno.h>
#include <inttypes.h>
#include <string.h>

const struct command salvage_command = {
    "nw salvage", "nw salvage [--replace] IN OUT",
    "Reads the capture IN, or standard input where it is -, from which pieces may be\n"
    "missing, and writes its good sections of GD/J 086-2018, unchanged and back to\n"
    "back, to the file OUT. Tells each run of bytes in a line: the word kept or\n"
    "skipped, its first offset and its length. A good section is one run. A capture\n"
    "may have any length; above 65536 bytes it is read in windows. A transport\n"
    "stream is refused: its sections stand in packets, which nw show and nw form\n"
    "read.\n"
    "  --replace  replaces an OUT that is there already, once the new one is whole\n"
    "  --help     says this\n"
    "Exit status: 0, every byte is kept; 1, bytes are skipped, or IN is a transport\n"
    "stream; 2, wrong usage, an IN that can't be read, or output that can't be\n"
    "written.\n"};

struct work {
    const char *in, *out; // names, or NULL
    bool replace;
    struct output output;
    uint64_t at;                       // where the window begins in the capture
    uint64_t skipped_at, skipped, all; // the run of skipped bytes that may go on, and how many were skipped in all
};

// ---- runs

// Tells the run of skipped bytes that has come to its end.
static void end_skipped(struct work *w) {
    if (w->skipped != 0) printf("skipped %" PRIu64 " %" PRIu64 "\n", w->skipped_at, w->skipped);
    w->all += w->skipped;
    w->skipped = 0;
}

static void take_run(struct work *w, const uint8_t *window, nw_run r, size_t length) {
    if (r.kept != 0) {
        end_skipped(w);
        printf("kept %" PRIu64 " %zu\n", w->at + r.first, length);
        output_put(&w->output, window + r.first, length);
    } else if (w->skipped == 0) w->skipped_at = w->at + r.first;
    if (r.kept == 0) w->skipped += length;
}

// Takes the runs of a window up to its last bytes, in which a section may be cut off, or all of the last window's. Answers how many bytes they
// are.
static size_t take_window(struct work *w, const uint8_t *window, size_t n, bool last) {
    static uint8_t sections[NW_SALVAGE_BYTES(NW_MOST_CAPTURE)];
    static uint32_t list[NW_SALVAGE_NUMBERS(NW_MOST_CAPTURE)];
    nw_salvaged got = nw_salvage(window, n, sections, sizeof sections, list, sizeof list / sizeof *list);
    size_t sure = last ? n : n - (NW_MOST_SECTION - 1), end = 0;
    for (size_t i = 0; i < nw_salvaged_runs(got); i++) {
        nw_run r = nw_run_at(list, i);
        if (r.first >= sure) break;
        end = r.first + r.length;
        if (r.kept == 0 && end > sure) end = sure;
        take_run(w, window, r, end - r.first);
    }
    return end;
}

// ---- the capture

// Reads all of it. False where it is a transport stream, which is said, or can't be read.
static bool take_capture(struct work *w, FILE *in) {
    static uint8_t window[NW_MOST_CAPTURE];
    size_t n = fread(window, 1, sizeof window, in), taken;
    if (ferror(in)) return false;
    if (stream_is(window, n)) {
        say(&salvage_command, "%s is a transport stream, whose sections stand in packets: nw show and nw form read it", called(w->in));
        return false;
    }
    puts("run first length");
    for (bool last = false; n != 0; n -= taken) {
        last = n < sizeof window;
        taken = take_window(w, window, n, last);
        memmove(window, window + taken, n - taken);
        w->at += taken;
        if (!last) n += fread(window + n - taken, 1, taken, in);
    }
    end_skipped(w);
    return true;
}

static int run(struct work *w) {
    bool standard = strcmp(w->in, "-") == 0;
    FILE *in = standard ? stdin : fopen(w->in, "rb");
    int why = errno; // which to call it by its name may change
    if (in == NULL) return say(&salvage_command, "%s can't be opened: %s", called(w->in), strerror(why)), UNUSABLE;
    int status = UNUSABLE;
    if (output_open(&w->output, &salvage_command, w->out, w->replace)) {
        bool taken = take_capture(w, in), read = ferror(in) == 0;
        why = errno;
        if (!read) say(&salvage_command, "%s can't be read: %s", called(w->in), strerror(why));
        if (output_close(&w->output, taken && read)) status = finish_output(&salvage_command, w->all == 0 ? TAKEN : REFUSED);
        else if (read && !taken) status = REFUSED;
    }
    if (!standard) fclose(in);
    return status;
}

// ---- the words of the command

// Takes a word. Answers 1, or 0 where it is wrong, which is said.
static int take(void *own, char **word, bool option) {
    struct work *w = own;
    if (option && strcmp(word[0], "--replace") == 0) return w->replace = true, 1;
    if (option) return misused(&salvage_command, word[0], ": there is no such word"), 0;
    if (w->out != NULL) return misused(&salvage_command, word[0], ": there are IN and OUT already"), 0;
    if (w->in == NULL) w->in = word[0];
    else w->out = word[0];
    return 1;
}

int salvage(const struct command *name, int words, char **word) {
    struct work w = {0};
    int status = each_word(name, words, word, take, &w);
    if (status != GO_ON) return status;
    if (w.out == NULL) return misused(name, "IN and OUT", " are wanted: a capture's name, or - for standard input, and a file's");
    if (w.out[0] == '\0' || strcmp(w.out, "-") == 0) return misused(name, w.out, ": an OUT has to be a file's name");
    if (is_one_file(w.in, w.out)) return misused(name, w.out, ": this is IN, and it would be lost");
    return run(&w);
}
