// make.c: `nw make [--auxiliary BITS] [--replace] FORM STREAM`: the tables of a written form as sections or transport packets.
// SPDX-License-Identifier: MIT
#include "make.h"
#include "form.h"
#include "load.h"
#include "output.h"
#include <errno.h>
#include <inttypes.h>
#include <stdlib.h>
#include <string.h>

const struct command make_command = {
    "nw make", "nw make [--auxiliary BITS] [--replace] FORM STREAM",
    "Reads the tables of the written FORM, or of standard input where it is -, and\n"
    "writes their sections to the file STREAM: in transport packets on PID 0x0021 if\n"
    "its name ends with .ts, else one right after the other. Tells what it wrote,\n"
    "and what a box would make little of. nw help form says what stands in a form;\n"
    "nw form gives it back.\n"
    "  --auxiliary BITS the length of an auxiliary file has 24 bits, as without it,\n"
    "                   or 32\n"
    "  --replace        replaces a STREAM that is there already, once the new one is\n"
    "                   whole\n"
    "  --help           says this\n"
    "Exit status: 0, STREAM is written; 1, the form is refused, each fault by its\n"
    "line and column, and nothing is written; 2, wrong usage, a FORM that can't be\n"
    "read, or a STREAM that can't be written.\n"};

struct work {
    const char *form, *stream; // names, or NULL
    unsigned variant;          // 0 while it is not given
    bool replace;
};

// ---- what was made

// What a box would make little of, or a volunteer should see before it goes out.
static void tell_message(const struct tables *all, const struct table *index, uint64_t i, const nw_record *r) {
    char identifier[NW_IDENTIFIER_DIGITS + 1];
    nw_identifier_text(index->body.s + r->at, identifier);
    if (r->class_ == NW_CLASS_EMERGENCY) printf("message %s: class 4, %s: this is no drill\n", identifier, nw_class_text(r->class_));
    if (r->end <= r->start) printf("message %s: its end is not after its start, so that it is never shown\n", identifier);
    if (content_of(all, index, i) == NULL) printf("message %s: the form has no content table for it\n", identifier);
}

static void tell_table(const struct tables *all, const struct table *t) {
    static nw_record list[NW_MOST_MESSAGES];
    uint64_t message;
    if (t->state.kind == NW_CONTENT && index_of(all, t, &message) == NULL)
        printf("content table %04X: the form has no message for it\n", t->state.extension);
    if (t->state.kind != NW_INDEX) return;
    nw_answer count = nw_index_records(NW_INDEX, t->body.s, t->body.n, list, NW_MOST_MESSAGES);
    for (uint64_t i = 0; i < nw_value(count); i++) tell_message(all, t, i, &list[i]);
}

static const char *plural(uint64_t n) { return n == 1 ? "" : "s"; }

static void tell(const struct form *f, const struct tables *all, const char *name, size_t bytes, size_t packets) {
    size_t sections = 0;
    for (const struct made *m = f->list; m < f->list + f->count; m++) {
        printf("%s table %04X, version %u: %zu bytes in %zu section%s\n", kind_name(m->kind), m->extension, m->version, m->bytes, m->sections,
               plural(m->sections));
        sections += m->sections;
    }
    for (size_t i = 0; i < all->count; i++) tell_table(all, &all->list[i]);
    printf("%s has %zu bytes: %zu section%s", shown(name), bytes, sections, plural(sections));
    if (packets != 0) printf(" in %zu packet%s on PID 0x0021", packets, plural(packets));
    putchar('\n');
}

// ---- the stream

// Whether a file's name asks for a transport stream.
static bool asks_for_packets(const char *name) {
    size_t n = strlen(name);
    return n >= 3 && strcmp(name + n - 3, ".ts") == 0;
}

// Packs all sections, each from the counter after the last packet's. Answers how many packets, or 0 where there is no memory.
static size_t pack(const struct form *f, struct bytes *out) {
    uint8_t packets[NW_MOST_PACKED];
    for (size_t at = 0, n; at < f->sections.n; at += n) {
        const uint8_t *s = f->sections.s + at;
        n = (size_t)nw_value(nw_section_length(s, f->sections.n - at));
        nw_answer made = nw_packet_pack(s, n, (uint32_t)(out->n / NW_PACKET_BYTES % 16), packets, sizeof packets);
        if (NW_REFUSAL(made) != NW_TAKEN || !bytes_add(out, packets, (size_t)nw_value(made))) return 0;
    }
    return out->n / NW_PACKET_BYTES;
}

static bool write_stream(const struct work *w, const struct bytes *b) {
    struct output out;
    if (!output_open(&out, &make_command, w->stream, w->replace)) return false;
    output_put(&out, b->s, b->n);
    return output_close(&out, true);
}

// The tables as a box will read them: each has to be whole and accepted, and is, or this program has a fault.
static bool read_back(const struct form *f, struct tables *all, unsigned variant) {
    form_feed(f, all);
    tables_finish(all, variant);
    bool good = all->count == f->count;
    for (size_t i = 0; i < all->count; i++) good = good && is_good(&all->list[i]);
    if (!good) say(&make_command, "the tables can't be read back: nothing is written");
    return good;
}

static int write_form(const struct work *w, const struct form *f) {
    struct tables all = {0};
    struct bytes packets = {0};
    size_t count = 0;
    int status = UNUSABLE;
    bool stream = asks_for_packets(w->stream);
    if (stream && (count = pack(f, &packets)) == 0) say(&make_command, "there is no memory for the packets");
    else if (read_back(f, &all, w->variant) && write_stream(w, stream ? &packets : &f->sections)) {
        tell(f, &all, w->stream, stream ? packets.n : f->sections.n, count);
        status = finish_output(&make_command, TAKEN);
    }
    tables_free(&all);
    free(packets.s);
    return status;
}

static int run(const struct work *w) {
    static struct form f;
    bool standard = strcmp(w->form, "-") == 0;
    FILE *in = standard ? stdin : fopen(w->form, "rb");
    int why = errno; // which to call it by its name may change
    if (in == NULL) return say(&make_command, "%s can't be opened: %s", called(w->form), strerror(why)), UNUSABLE;
    int status = form_read(&f, &make_command, called(w->form), in, w->variant);
    if (!standard) fclose(in);
    if (status == TAKEN) status = write_form(w, &f);
    form_free(&f);
    return status;
}

// ---- the words of the command

// Takes a word, and perhaps the one after it. Answers how many were taken, or 0 where they are wrong, which is said.
static int take(void *own, char **word, bool option) {
    struct work *w = own;
    if (option && strcmp(word[0], "--auxiliary") == 0) return take_variant(&make_command, &w->variant, word[1]) ? 2 : 0;
    if (option && strcmp(word[0], "--replace") == 0) return w->replace = true, 1;
    if (option) return misused(&make_command, word[0], ": there is no such word"), 0;
    if (w->stream != NULL) return misused(&make_command, word[0], ": there are FORM and STREAM already"), 0;
    if (w->form == NULL) w->form = word[0];
    else w->stream = word[0];
    return 1;
}

int make(const struct command *name, int words, char **word) {
    struct work w = {0};
    int status = each_word(name, words, word, take, &w);
    if (status != GO_ON) return status;
    if (w.stream == NULL) return misused(name, "FORM and STREAM", " are wanted: two files' names, or - and one for a form on standard input");
    if (w.stream[0] == '\0' || strcmp(w.stream, "-") == 0) return misused(name, w.stream, ": a STREAM has to be a file's name");
    if (is_one_file(w.form, w.stream)) return misused(name, w.stream, ": this is the FORM, and it would be lost");
    if (w.variant == 0) w.variant = NW_AUXILIARY_24;
    return run(&w);
}
