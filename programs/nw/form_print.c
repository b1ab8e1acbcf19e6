// form_print.c: a table printed as a written form, by the grammar, from the tape on which the library lays its body.
// SPDX-License-Identifier: MIT
#include "form.h"
#include "form_strings.h"
#include <inttypes.h>
#include <stdlib.h>
#include <string.h>

enum { HEX_LINE = 32 }; // bytes in a line

struct printer {
    const uint8_t *body;
    const uint64_t *next; // of the tape
    uint64_t set, kind;   // of the language, and of the return address, that is being printed
    int offset;
};

static void begin(unsigned depth, const char *word) { printf("%*s%s", 2 * (int)depth, "", word); }

// ---- bytes

static void print_bytes(const uint8_t *s, size_t n, unsigned depth, const char *word) {
    begin(depth, word);
    fputs(n == 0 ? " none" : " ", stdout);
    for (size_t i = 0; i < n; i++) {
        if (i != 0 && i % HEX_LINE == 0) {
            putchar('\n');
            begin(depth + 1, "hex ");
        }
        printf("%02X", (unsigned)s[i]);
    }
    putchar('\n');
}

static void print_string(unsigned set, const uint8_t *s, size_t n, unsigned depth, const char *word) {
    begin(depth, word);
    if (n != 0) putchar(' ');
    string_print(set, s, n);
    putchar('\n');
}

static void print_text(const struct printer *p, const uint8_t *s, size_t n, unsigned depth, const char *word) {
    for (;;) {
        const uint8_t *end = n == 0 ? NULL : memchr(s, '\n', n);
        size_t line = end == NULL ? n : (size_t)(end - s);
        print_string((unsigned)p->set, s, line, depth, word);
        if (end == NULL) return;
        s += line + 1;
        n -= line + 1;
    }
}

static void print_digits(const uint8_t *s, size_t n) {
    char text[NW_IDENTIFIER_DIGITS + 1];
    printf(" %s\n", nw_digits_text(s, n, text));
}

// What stands on the tape as a start and a length.
static void print_span(struct printer *p, const struct item *i, unsigned depth) {
    const uint8_t *s = p->body + *p->next++;
    size_t n = (size_t)*p->next++;
    if (i->shape == BYTES_LINES) print_bytes(s, n, depth, i->word);
    else if (i->shape == TEXT_LINES) print_text(p, s, n, depth, i->word);
    else if (i->shape == NAME_LINE) print_string((unsigned)p->set, s, n, depth, i->word);
    else if (i->shape == DIGITS_LINE) begin(depth, i->word), print_digits(s, n);
    else if (i->shape == ADDRESS_LINE && p->kind == 2) {
        begin(depth, i->word);
        printf(" %u.%u.%u.%u:%u\n", s[0], s[1], s[2], s[3], (unsigned)s[4] << 8 | s[5]);
    } else print_string(PLAIN_ASCII, s, n, depth, i->word);
}

// ---- numbers

static void print_clock(struct printer *p) {
    const uint64_t *t = p->next;
    printf(" %02u/%02u/%04u %02u:%02u:%02u\n", (unsigned)t[2], (unsigned)t[1], (unsigned)t[0], (unsigned)t[3], (unsigned)t[4], (unsigned)t[5]);
    p->next += 6;
}

static void print_moment(uint64_t field, int offset) {
    putchar(' ');
    if (field == NW_LIVE) fputs("live", stdout);
    else print_time(field, offset);
    putchar('\n');
}

static void print_number(struct printer *p, const struct item *i, unsigned depth) {
    begin(depth, i->word);
    if (i->shape == CLOCK_LINE) {
        print_clock(p);
        return;
    }
    uint64_t x = *p->next++;
    if (i->shape == KIND_LINE) p->kind = x;
    if (i->shape == SET_LINE) p->set = x;
    if (i->shape == SET_LINE) printf(" %s\n", set_names[x]);
    else if (i->shape == START_LINE || i->shape == END_LINE) print_moment(x, p->offset);
    else if (i->shape == CODE_LINE) printf(" 0x%0*" PRIX64 "\n", i->most > 0xFF ? 4 : 2, x);
    else printf(" %" PRIu64 "\n", x);
}

// ---- items

static void print_things(struct printer *p, const struct item *list, unsigned depth);

static void print_item(struct printer *p, const struct item *i, unsigned depth) {
    switch (i->shape) {
    case THINGS: print_things(p, i, depth); break;
    case BARE_LINE: begin(depth, i->word), putchar('\n'); break;
    case BYTES_LINES: case TEXT_LINES: case NAME_LINE: case DIGITS_LINE: case ADDRESS_LINE: case TYPE_LINE: case LETTERS_LINE:
        print_span(p, i, depth);
        break;
    default: print_number(p, i, depth); break;
    }
}

// The thing that the tape has next: of commands by the tag, which is passed where it is not the thing's own line.
static const struct thing *next_thing(struct printer *p, const struct item *list) {
    for (unsigned k = 0; k < list->kinds; k++) {
        if (list->things[k].tag == 0) return &list->things[k];
        if (list->things[k].tag == *p->next) return p->next++, &list->things[k];
    }
    return NULL;
}

static void print_things(struct printer *p, const struct item *list, unsigned depth) {
    for (uint64_t count = *p->next++; count > 0; count--) {
        const struct thing *t = next_thing(p, list);
        print_item(p, &t->items[0], depth);
        for (unsigned k = 1; k < t->count; k++) print_item(p, &t->items[k], depth + 1);
    }
}

// ---- tables

// Lays an accepted body onto a new tape, or answers NULL where there is no memory.
static uint64_t *lay(const struct body *b) {
    size_t room = b->kind == NW_INDEX ? NW_INDEX_ENTRIES(b->n) : b->kind == NW_CONTENT ? NW_CONTENT_ENTRIES
                : b->kind == NW_CERTIFICATE ? NW_CERTIFICATE_ENTRIES(b->n) : NW_CONFIGURATION_ENTRIES(b->n);
    uint64_t *tape = malloc(room * sizeof *tape);
    if (tape == NULL) return NULL;
    nw_answer laid = b->kind == NW_INDEX         ? nw_index_lay(b->kind, b->s, b->n, tape, room)
                     : b->kind == NW_CONTENT     ? nw_content_lay(b->kind, b->variant, b->s, b->n, tape, room)
                     : b->kind == NW_CERTIFICATE ? nw_certificate_lay(b->kind, b->s, b->n, tape, room)
                                                 : nw_configuration_lay(b->kind, b->s, b->n, tape, room);
    if (NW_REFUSAL(laid) == NW_TAKEN) return tape;
    free(tape);
    return NULL;
}

bool form_print(const struct table *t, int offset) {
    const struct grammar *g = grammars;
    uint64_t *tape = lay(&t->body);
    if (tape == NULL) return false;
    while (g->kind != t->state.kind) g++;
    struct printer p = {.body = t->body.s, .next = tape, .offset = offset};
    printf("table %s\n", kind_name(g->kind));
    if (g->kind != NW_CONTENT) printf("  %s 0x%04X\n", extension_item.word, t->state.extension);
    printf("  %s %u\n", version_item.word, t->state.version);
    for (unsigned i = 0; i < g->count; i++) print_item(&p, &g->items[i], 1);
    free(tape);
    return true;
}
