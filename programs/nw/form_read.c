// form_read.c: a written form read by its grammar, line by line, onto the library's tapes, and its tables made and cut into sections.
// SPDX-License-Identifier: MIT
#include "form.h"
#include <inttypes.h>
#include <stdlib.h>
#include <string.h>

enum { DEEPEST_PART = 8 };

// A part of a body whose length is limited, and how many bytes it has so far.
struct part {
    const char *what;
    size_t bytes, most;
};

struct reader {
    struct lines l;
    unsigned variant;
    struct bytes pool, value; // value: of the lines at hand
    uint64_t *tape;
    size_t entries, tape_room;
    uint64_t set, kind; // of the language, and of the return address, that is being read
    struct part parts[DEEPEST_PART];
    unsigned depth;
};

// ---- the tape

static void no_memory(struct reader *r) {
    if (!r->l.unread) say(r->l.c, "there is no memory for %s", r->l.name);
    r->l.unread = r->l.over = true;
}

static size_t put_number(struct reader *r, uint64_t x) {
    if (r->entries == r->tape_room) {
        size_t room = 2 * r->tape_room + 256;
        uint64_t *more = realloc(r->tape, room * sizeof *more);
        if (more == NULL) return no_memory(r), 0;
        r->tape = more;
        r->tape_room = room;
    }
    r->tape[r->entries] = x;
    return r->entries++;
}

static void put_bytes(struct reader *r, const uint8_t *s, size_t n) {
    put_number(r, r->pool.n);
    put_number(r, n);
    if (!bytes_add(&r->pool, s, n)) no_memory(r);
}

// ---- how long parts become

// Counts bytes that the line at hand adds to all parts it stands in.
static void grow(struct reader *r, size_t n) {
    for (struct part *p = r->parts; p < r->parts + r->depth; p++) {
        p->bytes += n;
        if (p->bytes <= p->most) continue;
        fault(&r->l, r->l.word, r->l.word_bytes, "with this line the %s would pass %zu bytes, the most that there can be", p->what, p->most);
        p->most = SIZE_MAX;
    }
}

static void open_part(struct reader *r, const char *what, size_t most) { r->parts[r->depth++] = (struct part){what, 0, most}; }

// The bytes that items always have, beside things of lists and counted bytes.
static size_t fixed_bytes(const struct item *items, unsigned count, unsigned variant) {
    size_t n = 0;
    for (const struct item *i = items; i < items + count; i++) n += i->shape == BYTES_LINES ? length_width(i, variant) : i->width;
    return n;
}

// ---- lines that are wanted

static bool is_known(const struct item *items, unsigned count, const struct lines *l) {
    for (const struct item *i = items; i < items + count; i++) {
        if (i->shape != THINGS && line_is(l, i->word)) return true;
        for (unsigned k = 0; k < i->kinds; k++)
            if (is_known(i->things[k].items, i->things[k].count, l)) return true;
    }
    return false;
}

static bool has_meaning(const struct lines *l) {
    static const char *const others[] = {"table", "extension", "version", "hex"};
    for (size_t i = 0; i < sizeof others / sizeof *others; i++)
        if (line_is(l, others[i])) return true;
    for (const struct grammar *g = grammars; g < grammars + GRAMMARS; g++)
        if (is_known(g->items, g->count, l)) return true;
    return false;
}

// Whether the line at hand has a word. A line whose word there isn't is taken for a slip of the wanted one, and passed.
static bool is_here(struct reader *r, const char *word) {
    struct lines *l = &r->l;
    if (line_is(l, word)) return true;
    if (l->over) fault(l, NULL, 0, "%s is wanted, and the form ends", word);
    else if (has_meaning(l)) fault(l, l->word, l->word_bytes, "%s is wanted before it", word);
    else {
        fault(l, l->word, l->word_bytes, "there is no such word; %s is wanted here", word);
        lines_next(l);
    }
    return false;
}

// ---- items

static void limit(struct reader *r, const struct item *i) {
    if (r->value.n > i->most)
        fault(&r->l, r->l.word, r->l.word_bytes, "with this line it has more than %" PRIu64 " bytes, the most that there can be", i->most);
}

// A text: its lines, with a line feed between.
static void read_text(struct reader *r, const struct item *i) {
    static const uint8_t feed = '\n';
    size_t before = r->value.n = 0;
    for (;;) {
        value_string(&r->l, (unsigned)r->set, &r->value);
        limit(r, i);
        grow(r, r->value.n - before);
        lines_next(&r->l);
        if (!line_is(&r->l, i->word) || too_many(&r->l)) break;
        before = r->value.n;
        if (!bytes_add(&r->value, &feed, 1)) no_memory(r);
    }
    put_bytes(r, r->value.s, r->value.n);
}

// Bytes: the line with their word, and more of them in lines with the word hex.
static void read_bytes(struct reader *r, const struct item *i) {
    size_t before = 0;
    r->value.n = 0;
    bool none = strcmp(r->l.value, "none") == 0;
    value_bytes(&r->l, (size_t)i->most, &r->value);
    for (;; before = r->value.n) {
        limit(r, i);
        grow(r, r->value.n - before);
        lines_next(&r->l);
        if (!line_is(&r->l, "hex") || too_many(&r->l)) break;
        if (none) fault(&r->l, r->l.word, r->l.word_bytes, "nothing is added to none");
        value_hex(&r->l, &r->value);
    }
    put_bytes(r, r->value.s, r->value.n);
}

static void read_digits(struct reader *r, const struct item *i) {
    uint8_t bytes[NW_IDENTIFIER_BYTES] = {0};
    value_digits(&r->l, i->width, bytes);
    put_bytes(r, bytes, i->width);
}

static void read_fixed(struct reader *r, const struct item *i) {
    struct lines *l = &r->l;
    uint64_t x = 0, six[6] = {0};
    uint8_t five[5] = {0};
    switch (i->shape) {
    case BARE_LINE: value_none(l); return;
    case TAG_LINE: value_tag(l, i, &x); break;
    case START_LINE: value_time(l, false, &x); break;
    case END_LINE: value_time(l, true, &x); break;
    case SET_LINE: r->set = value_set(l, &x) ? x : NW_SET_GB_13000; break; // any text, after a fault
    case KIND_LINE: r->kind = value_number(l, i, &x) ? x : 0; break;
    case DIGITS_LINE: read_digits(r, i); return;
    case TYPE_LINE: value_type(l, five); put_bytes(r, five, 5); return;
    case LETTERS_LINE: value_letters(l); put_bytes(r, (const uint8_t *)l->value, l->value_bytes); return;
    case CLOCK_LINE: value_clock(l, six); for (size_t k = 0; k < 6; k++) put_number(r, six[k]); return;
    default: value_number(l, i, &x); break;
    }
    put_number(r, x);
}

// A name or an address in one line.
static void read_name(struct reader *r, const struct item *i) {
    r->value.n = 0;
    if (i->shape == ADDRESS_LINE) value_address(&r->l, r->kind, &r->value);
    else value_string(&r->l, (unsigned)r->set, &r->value);
    limit(r, i);
    grow(r, r->value.n);
    put_bytes(r, r->value.s, r->value.n);
}

static void read_things(struct reader *r, const struct item *list);

static void read_items(struct reader *r, const struct item *items, unsigned count) {
    for (const struct item *i = items; i < items + count && !too_many(&r->l); i++) {
        if (i->shape == THINGS) read_things(r, i);
        else if (!is_here(r, i->word)) continue;
        else if (i->shape == TEXT_LINES) read_text(r, i);
        else if (i->shape == BYTES_LINES) read_bytes(r, i);
        else {
            if (i->shape == NAME_LINE || i->shape == ADDRESS_LINE) read_name(r, i);
            else read_fixed(r, i);
            lines_next(&r->l);
        }
    }
}

// ---- lists

// The kind of thing of a list that the line at hand begins, or NULL.
static const struct thing *thing_here(const struct reader *r, const struct item *list) {
    for (unsigned k = 0; k < list->kinds; k++)
        if (line_is(&r->l, list->things[k].items[0].word)) return &list->things[k];
    return NULL;
}

static void read_thing(struct reader *r, const struct item *list, const struct thing *t) {
    grow(r, t->before);
    unsigned depth = r->depth;
    if (t->most != 0) open_part(r, list->word, t->most);
    grow(r, fixed_bytes(t->items, t->count, r->variant));
    if (t->tag != 0) put_number(r, t->tag);
    read_items(r, t->items, t->count);
    r->depth = depth;
}

static void read_things(struct reader *r, const struct item *list) {
    size_t count = put_number(r, 0);
    unsigned depth = r->depth;
    if (list->part != 0) open_part(r, list->all, list->part);
    for (const struct thing *t; (t = thing_here(r, list)) != NULL && !too_many(&r->l);) {
        if (r->tape[count]++ == list->most)
            fault(&r->l, r->l.word, r->l.word_bytes, "one more than there can be: %" PRIu64 " stand before it", list->most);
        read_thing(r, list, t);
    }
    if (r->tape[count] < list->least && !too_many(&r->l)) is_here(r, list->word);
    r->depth = depth;
}

// ---- tables

// Writes the body of the tape's table. Answers its length, or 0 with the refusal.
static size_t write_body(const struct reader *r, struct made *m, uint8_t *body, unsigned *refusal) {
    nw_answer got;
    switch (m->kind) {
    case NW_INDEX: got = nw_index_write(r->pool.s, r->pool.n, r->tape, r->entries, body, NW_MOST_BODY); break;
    case NW_CERTIFICATE: got = nw_certificate_write(r->pool.s, r->pool.n, r->tape, r->entries, body, NW_MOST_BODY); break;
    case NW_CONFIGURATION: got = nw_configuration_write(r->pool.s, r->pool.n, r->tape, r->entries, body, NW_MOST_BODY); break;
    default: {
        nw_written made = nw_content_write(r->variant, r->pool.s, r->pool.n, r->tape, r->entries, body, NW_MOST_BODY);
        m->extension = nw_written_extension(made);
        *refusal = NW_REFUSAL(made);
        return *refusal == NW_TAKEN ? nw_written_length(made) : 0;
    }
    }
    *refusal = NW_REFUSAL(got);
    return *refusal == NW_TAKEN ? (size_t)nw_value(got) : 0;
}

static bool cut(struct reader *r, struct form *f, struct made *m, const uint8_t *body) {
    uint8_t section[NW_MOST_SECTION];
    m->sections = (size_t)nw_value(nw_section_count(m->bytes));
    for (uint32_t number = 0; number < m->sections; number++) {
        nw_answer made = nw_section_cut(body, m->bytes, m->kind, m->extension, m->version, number, section, sizeof section);
        if (NW_REFUSAL(made) != NW_TAKEN || !bytes_add(&f->sections, section, (size_t)nw_value(made))) return no_memory(r), false;
    }
    return true;
}

// A fault of a whole table, by the line where it begins.
static void table_fault(struct reader *r, const struct made *m, const char *why, uint64_t other) {
    say(r->l.c, "%s, line %" PRIu64 ": %s table %04X: %s line %" PRIu64, r->l.name, m->line, kind_name(m->kind), m->extension, why, other);
    r->l.faults++;
}

static void make_table(struct reader *r, struct form *f, struct made *m) {
    static uint8_t body[NW_MOST_BODY];
    unsigned refusal;
    m->bytes = write_body(r, m, body, &refusal);
    if (refusal != NW_TAKEN) { // each field was judged by its line, so that no writer should refuse one
        say(r->l.c, "%s, line %" PRIu64 ": the table can't be made: %s (refusal %u)", r->l.name, m->line, nw_refusal_text(refusal), refusal);
        r->l.faults++;
        return;
    }
    for (const struct made *other = f->list; other < f->list + f->count; other++)
        if (other->kind == m->kind && other->extension == m->extension) {
            table_fault(r, m, "one of this kind and extension stands already at", other->line);
            return;
        }
    if (f->count == MOST_TABLES) table_fault(r, m, "it is one more than the 512 that a form can have, of which the first is at", f->list[0].line);
    else if (cut(r, f, m, body)) f->list[f->count++] = *m;
}

// The number of a heading's line, off the tape.
static unsigned heading_number(struct reader *r, const struct item *i) {
    uint64_t x = 0;
    if (!is_here(r, i->word)) return 0;
    value_number(&r->l, i, &x);
    lines_next(&r->l);
    return (unsigned)x;
}

static void read_table(struct reader *r, struct form *f) {
    const struct grammar *g = grammars;
    struct made m = {.line = r->l.number};
    while (g < grammars + GRAMMARS && strcmp(kind_name(g->kind), r->l.value) != 0) g++;
    if (g == grammars + GRAMMARS) {
        fault(FAULT_VALUE(&r->l), "there is no such kind of table; there are index, content, certificate and configuration");
        lines_next(&r->l);
        while (!r->l.over && !line_is(&r->l, "table")) lines_next(&r->l);
        return;
    }
    m.kind = g->kind;
    r->entries = r->pool.n = r->depth = 0;
    open_part(r, "table", NW_MOST_BODY);
    grow(r, fixed_bytes(g->items, g->count, r->variant));
    lines_next(&r->l);
    if (m.kind != NW_CONTENT) m.extension = heading_number(r, &extension_item);
    m.version = heading_number(r, &version_item);
    read_items(r, g->items, g->count);
    if (r->l.faults == 0 && !r->l.unread) make_table(r, f, &m);
}

int form_read(struct form *f, const struct command *c, const char *name, FILE *in, unsigned variant) {
    struct reader r = {.variant = variant};
    char called_so[1100]; // what it is called to a person stays only until the next such call
    *f = (struct form){0};
    snprintf(called_so, sizeof called_so, "%s", name);
    lines_start(&r.l, c, called_so, in);
    if (r.l.over && !r.l.unread) {
        say(c, "%s has no table", called_so);
        r.l.faults++;
    }
    while (!r.l.over && !too_many(&r.l)) {
        if (line_is(&r.l, "table")) read_table(&r, f);
        else {
            fault(&r.l, r.l.word, r.l.word_bytes, "here the form has to end, or the next table to begin, with the word table");
            while (!r.l.over && !line_is(&r.l, "table")) lines_next(&r.l);
        }
    }
    if (r.l.faults != 0) say(c, "%s has %" PRIu64 " fault%s: nothing is made of it", called_so, r.l.faults, r.l.faults == 1 ? "" : "s");
    lines_end(&r.l);
    free(r.tape);
    free(r.pool.s);
    free(r.value.s);
    return r.l.unread ? UNUSABLE : r.l.faults != 0 ? REFUSED : TAKEN;
}

void form_free(struct form *f) {
    free(f->sections.s);
    *f = (struct form){0};
}

void form_feed(const struct form *f, struct tables *all) {
    for (size_t at = 0; at < f->sections.n;) {
        const uint8_t *s = f->sections.s + at;
        size_t n = (size_t)nw_value(nw_section_length(s, f->sections.n - at));
        tables_feed(all, at, s, n, nw_section_read(s, n));
        at += n;
    }
}

// Passes spaces, empty lines, remarks and a byte order mark. Answers the character after them.
static int first_character(FILE *in) {
    int c = getc(in);
    if (c == 0xEF && getc(in) == 0xBB && getc(in) == 0xBF) c = getc(in);
    for (bool remark = false; c != EOF && (remark || c == '#' || c == ' ' || c == '\t' || c == '\r' || c == '\n'); c = getc(in))
        remark = c != '\n' && (remark || c == '#');
    return c;
}

bool form_is(FILE *in) {
    static const char begin[] = "table";
    if (fseek(in, 0, SEEK_SET) != 0) return false;
    int c = first_character(in);
    size_t same = 0;
    for (; same < sizeof begin - 1 && c == begin[same]; same++) c = getc(in);
    return fseek(in, 0, SEEK_SET) == 0 && same == sizeof begin - 1 && (c == ' ' || c == '\t');
}
