/* form_grammar.h: which lines stand in the written form of a table, in the order of the library's tapes. Both ways go by it: `nw make`
 * reads a form with it and `nw form` prints one. */
/* SPDX-License-Identifier: MIT */
#ifndef FORM_GRAMMAR_H
#define FORM_GRAMMAR_H

#include <neapwillow.h>
#include <stddef.h>
#include <stdint.h>

/* What a line says after its word, and how it stands on the tape. */
enum shape {
    BARE_LINE,    /* nothing: the word begins a thing */
    NUMBER_LINE,  /* a number */
    CODE_LINE,    /* a number that is printed in hexadecimal */
    TAG_LINE,     /* a command's tag, none of those that have a word of their own */
    KIND_LINE,    /* the kind of a return address, */
    ADDRESS_LINE, /* and the address, as its kind has it */
    DIGITS_LINE,  /* the digits of an identifier or a resource */
    START_LINE,   /* a time */
    END_LINE,     /* a time or live */
    CLOCK_LINE,   /* a clock's time, six numbers of the tape */
    TYPE_LINE,    /* an event type */
    LETTERS_LINE, /* a language's letters */
    SET_LINE,     /* a character set, */
    TEXT_LINES,   /* a text in it, a line for each of its own, */
    NAME_LINE,    /* and an agency's name in it */
    BYTES_LINES,  /* opaque bytes */
    THINGS        /* a list: its count, and each thing's lines */
};

struct item {
    enum shape shape;
    const char *word;            /* with which the line begins; of THINGS what one is called */
    uint64_t least, most;        /* of a number; of the bytes of BYTES_LINES and texts; of how many THINGS */
    unsigned width;              /* bytes of the body: of a number, of digits; of the length before bytes; of the count or length before THINGS */
    const struct thing *things;  /* of THINGS: what each of them may be, */
    unsigned kinds;              /* so many */
    const char *all;             /* of THINGS that a length counts: what they are called together, */
    size_t part;                 /* and the most bytes they may have; else 0 */
};

/* A thing of a list. The first of its items has the word that begins it. */
struct thing {
    const struct item *items;
    unsigned count;
    unsigned tag;    /* of a command: the number on the tape before its items; 0 for none */
    unsigned before; /* bytes of the body before what its own length counts, that length with them */
    size_t most;     /* bytes that this length can count; 0 where it has none */
};

/* A table of a kind. Its first line is the word `table` and the kind's name. */
struct grammar {
    unsigned kind;
    const struct item *items;
    unsigned count;
};

enum { GRAMMARS = 4 };
extern const struct grammar grammars[GRAMMARS];

/* Lines before a table's items: the extension, which a content table's identifier gives it, and the version. */
extern const struct item extension_item, version_item;

/* The width of a BYTES_LINES' length: of an auxiliary file it is the variant's. */
unsigned length_width(const struct item *i, unsigned variant);

/* The names of the character sets in a form, by their numbers. */
enum { CHARACTER_SETS = 5 };
extern const char *const set_names[CHARACTER_SETS];

#endif
