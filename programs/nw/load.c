// load.c: the words that commands over captures have in common: a capture or a form by its name, options.
// SPDX-License-Identifier: MIT
#include "load.h"
#include "form.h"
#include "progress.h"
#include <errno.h>
#include <string.h>
#include <sys/stat.h>
#include <unistd.h>

const char *called(const char *name) { return strcmp(name, "-") == 0 ? "standard input" : shown(name); }

// How many bytes a file has; 0 where it is none, as a pipe.
static uint64_t bytes_of(const char *name, bool standard) {
    struct stat about;
    bool known = (standard ? fstat(STDIN_FILENO, &about) : stat(name, &about)) == 0 && S_ISREG(about.st_mode);
    return known ? (uint64_t)about.st_size : 0;
}

bool load(const struct command *c, const char *name, struct finder finder, struct captured *got) {
    bool standard = strcmp(name, "-") == 0;
    FILE *in = standard ? stdin : fopen(name, "rb");
    int why = errno; // which to call it by its name may change
    if (in == NULL) return say(c, "%s can't be opened: %s", called(name), strerror(why)), false;
    progress_begin(c, bytes_of(name, standard));
    bool read = capture_read(in, finder, got);
    why = errno;
    progress_end();
    if (!read) say(c, "%s can't be read: %s", called(name), strerror(why));
    if (!standard) fclose(in);
    return read;
}

// Where what is read goes.
struct loaded {
    struct tables *all;
    struct sum *sum;
};

static void note_begin(void *own) { (void)own; }

static void note_section(void *own, uint64_t at, const uint8_t *s, size_t n, nw_heading heading) {
    const struct loaded *to = own;
    struct arrival a = tables_feed(to->all, at, s, n, heading);
    sum_arrival(to->sum, &a);
}

static void note_skipped(void *own, const struct stretch *bad) { ((const struct loaded *)own)->sum->skipped += bad->bytes; }

static void note_lost(void *own, const struct stream_loss *loss) {
    (void)loss;
    ((const struct loaded *)own)->sum->losses++;
}

bool load_tables(const struct command *c, const char *name, unsigned variant, struct tables *all, struct sum *sum, bool *is_form) {
    static struct form f;
    struct loaded to = {all, sum};
    FILE *in = strcmp(name, "-") == 0 ? NULL : fopen(name, "rb"); // where it can't be opened, reading the capture says so
    *is_form = in != NULL && form_is(in);
    bool read = true;
    if (*is_form) {
        read = form_read(&f, c, called(name), in, variant) == TAKEN;
        if (read) form_feed(&f, all);
        form_free(&f);
    }
    if (in != NULL) fclose(in);
    if (!*is_form) read = load(c, name, (struct finder){note_begin, note_section, note_skipped, note_lost, &to}, &sum->capture);
    tables_finish(all, variant);
    return read;
}

int each_word(const struct command *c, int words, char **word, int (*take)(void *own, char **word, bool option), void *own) {
    bool options = true;
    for (int i = 0, taken; i < words; i += taken) {
        taken = 1;
        if (options && strcmp(word[i], "--help") == 0) return help(c);
        if (options && strcmp(word[i], "--") == 0) options = false;
        else taken = take(own, word + i, options && word[i][0] == '-' && word[i][1] != '\0');
        if (taken == 0) return UNUSABLE;
    }
    return GO_ON;
}

bool read_hours(const char *s, int *out) {
    static const char form[] = "+99:99";
    for (size_t i = 0; i < sizeof form - 1; i++)
        if (form[i] == '9' ? s[i] < '0' || s[i] > '9' : form[i] == '+' ? s[i] != '+' && s[i] != '-' : s[i] != form[i]) return false;
    int minutes = (s[4] - '0') * 10 + (s[5] - '0'), all = ((s[1] - '0') * 10 + (s[2] - '0')) * 60 + minutes;
    *out = s[0] == '-' ? -all : all;
    return s[6] == '\0' && minutes < 60 && -720 <= *out && *out <= 840;
}

bool take_offset(const struct command *c, struct clock *clock, const char *offset) {
    const char *wanted = ": an OFFSET has to be a whole number of minutes from -720 to 840, or as +08:00";
    if (clock->local) return misused(c, "--offset", ": it is given already"), false;
    if (offset == NULL) return misused(c, "--offset", ": an OFFSET has to follow"), false;
    if (!read_minutes(offset, &clock->offset) && !read_hours(offset, &clock->offset)) return misused(c, offset, wanted), false;
    clock->local = true;
    return true;
}

bool take_variant(const struct command *c, unsigned *variant, const char *bits) {
    if (*variant != 0) return misused(c, "--auxiliary", ": it is given already"), false;
    if (bits == NULL) return misused(c, "--auxiliary", ": BITS have to follow, 24 or 32"), false;
    *variant = strcmp(bits, "24") == 0 ? NW_AUXILIARY_24 : strcmp(bits, "32") == 0 ? NW_AUXILIARY_32 : 0;
    if (*variant == 0) return misused(c, bits, ": BITS have to be 24 or 32"), false;
    return true;
}
