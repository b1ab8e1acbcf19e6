// plain_content: the content table in plain C, made from document 01 and the header alone, to measure the library by.
// SPDX-License-Identifier: MIT
#include "plain_content.h"

#include "plain_numbers.h"
#include "plain_tables.h"

enum { LETTERS = 3, MOST_SET = 4, MOST_LANGUAGES = 5, MOST_FILES = 2 };

// The bytes of a file's length in each variant; and what goes through a table in both, by what goes through its files.
enum { width_24 = 3, width_32 = 4 };
#define BOTH(name, state, inner)                                                                                      \
    static unsigned name##_24(struct state *x) { return name(x, inner##_24); }                                       \
    static unsigned name##_32(struct state *x) { return name(x, inner##_32); }
#define BOTH_DO(name, state, inner)                                                                                   \
    static void name##_24(struct state *x) { name(x, inner##_24); }                                                   \
    static void name##_32(struct state *x) { name(x, inner##_32); }

// Where the language count stands in a body, and the character set and the text length in a language.
enum { COUNT_AT = IDENTIFIER_BYTES, LANGUAGES_AT, SET_AT = LETTERS, TEXT_AT };

static inline int is_letter(uint8_t c) { return c >= 'a' && c <= 'z'; }
static inline int are_letters(const uint8_t *s) { return is_letter(s[0]) && is_letter(s[1]) && is_letter(s[2]); }

// ---- the fields of a body taken

static unsigned take_letters(struct reader *r) {
    unsigned no = need(r, LETTERS);
    if (no) return no;
    if (!are_letters(r->s + r->at)) return OUTSIDE;
    r->at += LETTERS;
    return 0;
}

INLINED unsigned take_file(struct reader *r, size_t width) {
    unsigned no = take(r, 1);
    return no ? no : skip_part(r, width);
}
BOTH(take_file, reader, width)

INLINED unsigned take_language_fields(struct reader *r, taker *file) {
    unsigned no;
    if ((no = take_letters(r)) || (no = take_small(r, 0xF8, 0, MOST_SET)) || (no = skip_part(r, 2)) ||
        (no = skip_part(r, 1)))
        return no;
    return take_several(r, 0xF0, 0, MOST_FILES, file);
}
BOTH(take_language_fields, reader, take_file)

INLINED unsigned take_language(struct reader *r, taker *fields) {
    size_t length;
    unsigned no = take_length(r, 4, &length);
    return no ? no : take_filled(r, length, fields);
}
BOTH(take_language, reader, take_language_fields)

INLINED unsigned take_body(struct reader *r, taker *language) {
    unsigned no = take_identifier(r);
    if (no || (no = take_several(r, 0xF0, 1, MOST_LANGUAGES, language))) return no;
    return take_signature(r);
}
BOTH(take_body, reader, take_language)

// ---- an accepted body laid onto a tape: nothing is judged any more

typedef void laying(struct layer *l);

INLINED void lay_file(struct layer *l, size_t width) {
    lay_number(l, 1, 0xFF);
    lay_part(l, width);
}
BOTH_DO(lay_file, layer, width)

INLINED void lay_language(struct layer *l, laying *file) {
    l->at += 4;
    lay_span(l, LETTERS);
    lay_number(l, 1, 7);
    lay_part(l, 2);
    lay_part(l, 1);
    lay_several(l, 15, file);
}
BOTH_DO(lay_language, layer, lay_file)

INLINED void lay_body(struct layer *l, laying *language) {
    lay_span(l, IDENTIFIER_BYTES);
    lay_several(l, 15, language);
    lay_part(l, 2);
}
BOTH_DO(lay_body, layer, lay_language)

// ---- a form judged and measured

static unsigned form_letters(struct form *f) {
    const uint8_t *s;
    uint64_t length;
    unsigned no = form_span(f, &s, &length);
    return no || length != LETTERS || !are_letters(s) ? OUTSIDE : 0;
}

typedef unsigned forming(struct form *f);

INLINED unsigned form_file(struct form *f, size_t width) {
    unsigned no = form_number(f, 0, 0xFF);
    f->bytes++;
    return no ? no : form_opaque(f, width, (UINT64_C(1) << 8 * width) - 1);
}
BOTH(form_file, form, width)

INLINED unsigned form_language(struct form *f, forming *file) {
    unsigned no;
    if ((no = form_letters(f)) || (no = form_number(f, 0, MOST_SET)) || (no = form_opaque(f, 2, 0xFFFF)) ||
        (no = form_opaque(f, 1, 0xFF)))
        return no;
    f->bytes += 4 + LETTERS + 1;
    return form_several(f, 0, MOST_FILES, file);
}
BOTH(form_language, form, form_file)

INLINED unsigned form_body(struct form *f, forming *language) {
    unsigned no = form_identifier(f);
    if (no || (no = form_several(f, 1, MOST_LANGUAGES, language))) return no;
    return form_signature(f);
}
BOTH(form_body, form, form_language)

// ---- a form written: nothing is judged any more

typedef void putting(struct writer *w);

INLINED void put_file(struct writer *w, size_t width) {
    put_number(w, 1, 0);
    put_opaque(w, width);
}
BOTH_DO(put_file, writer, width)

INLINED void put_language(struct writer *w, putting *file) {
    uint8_t *length = w->to;
    w->to += 4;
    put_fixed(w, LETTERS);
    put_number(w, 1, 0xF8);
    put_opaque(w, 2);
    put_opaque(w, 1);
    put_several(w, 0xF0, file);
    put_length(w, length, 4, 0);
}
BOTH_DO(put_language, writer, put_file)

INLINED void put_body(struct writer *w, putting *language) {
    put_identifier(w);
    put_several(w, 0xF0, language);
    put_opaque(w, 2);
}
BOTH_DO(put_body, writer, put_language)

// ---- whole bodies and forms

static const struct table table_24 = {NW_CONTENT, take_body_24, lay_body_24, form_body_24, put_body_24};
static const struct table table_32 = {NW_CONTENT, take_body_32, lay_body_32, form_body_32, put_body_32};

// What a variant's table answers; another is refused.
#define BY(variant, call, ...)                                                                                        \
    ((variant) == NW_AUXILIARY_24   ? call(&table_24, __VA_ARGS__)                                                    \
     : (variant) == NW_AUXILIARY_32 ? call(&table_32, __VA_ARGS__)                                                    \
                                    : (plain_answer)OUTSIDE)

plain_answer plain_content_read(uint32_t kind, uint32_t variant, uint32_t extension, const uint8_t *body, size_t n) {
    if (kind != NW_CONTENT) return NW_OTHER_KIND;
    plain_answer got = BY(variant, read_table, kind, body, n);
    return got ? got : extension == plain_extension(body) ? 0 : NW_OTHER_CHECKSUM;
}

plain_answer plain_content_lay(uint32_t kind, uint32_t variant, const uint8_t *body, size_t n, uint64_t *tape,
                               size_t entries) {
    if (kind != NW_CONTENT) return NW_OTHER_KIND;
    return BY(variant, lay_table, kind, body, n, tape, entries);
}

plain_answer plain_content_write(uint32_t variant, const uint8_t *pool, size_t pool_bytes, const uint64_t *tape,
                                 size_t entries, uint8_t *out, size_t room) {
    plain_answer got = BY(variant, write_table, pool, pool_bytes, tape, entries, out, room);
    return refusal_of(got) ? got : part(plain_extension(out), value_of(got));
}

// ---- fields of a body asked for: what stands before them is passed by its length, and not judged

plain_answer plain_content_identifier(const uint8_t *body, size_t n) {
    struct reader r = {body, n, n, 0};
    return asked_identifier(&r);
}

plain_answer plain_content_identifier_digit(const uint8_t *body, size_t n, uint64_t i) {
    return asked_digit(body, plain_content_identifier(body, n), i);
}

plain_answer plain_content_extension(const uint8_t *body, size_t n) {
    plain_answer identifier = plain_content_identifier(body, n);
    return refusal_of(identifier) ? identifier : value(plain_extension(body));
}

plain_answer plain_content_language_count(const uint8_t *body, size_t n) {
    struct reader r = {body, n, n, COUNT_AT};
    return asked_small(&r, 0xF0, 1, MOST_LANGUAGES);
}

// The part that stands after some languages.
static plain_answer part_after(const uint8_t *body, size_t n, uint64_t languages, size_t width) {
    struct reader r = {body, n, n, LANGUAGES_AT};
    plain_answer no = skip_parts(&r, languages, 4);
    return no ? no : asked_part(&r, width);
}

plain_answer plain_content_language(const uint8_t *body, size_t n, uint64_t i) {
    plain_answer count = plain_content_language_count(body, n);
    if (refusal_of(count)) return count;
    return i < value_of(count) ? part_after(body, n, i, 4) : OUTSIDE;
}

plain_answer plain_content_signature(const uint8_t *body, size_t n) {
    plain_answer count = plain_content_language_count(body, n);
    return refusal_of(count) ? count : part_after(body, n, value_of(count), 2);
}

// ---- fields of a language asked for, each at its own place

plain_answer plain_language_letters(const uint8_t *body, size_t n, size_t at, size_t length) {
    struct reader r;
    if (!stands(&r, body, n, at, length, 0)) return OUTSIDE;
    unsigned no = take_letters(&r);
    return no ? refused(no, r.at) : part(at, LETTERS);
}

plain_answer plain_language_character_set(const uint8_t *body, size_t n, size_t at, size_t length) {
    struct reader r;
    return stands(&r, body, n, at, length, SET_AT) ? asked_small(&r, 0xF8, 0, MOST_SET) : OUTSIDE;
}

plain_answer plain_language_text(const uint8_t *body, size_t n, size_t at, size_t length) {
    struct reader r;
    return stands(&r, body, n, at, length, TEXT_AT) ? asked_part(&r, 2) : OUTSIDE;
}

plain_answer plain_language_agency(const uint8_t *body, size_t n, size_t at, size_t length) {
    struct reader r;
    if (!stands(&r, body, n, at, length, TEXT_AT)) return OUTSIDE;
    unsigned no = skip_part(&r, 2);
    return no ? refused(no, r.at) : asked_part(&r, 1);
}

// The auxiliary count, with the reader after it.
static plain_answer count_of(struct reader *r, const uint8_t *body, size_t n, size_t at, size_t length) {
    if (!stands(r, body, n, at, length, TEXT_AT)) return OUTSIDE;
    unsigned no;
    if ((no = skip_part(r, 2)) || (no = skip_part(r, 1))) return refused(no, r->at);
    return asked_small(r, 0xF0, 0, MOST_FILES);
}

plain_answer plain_language_auxiliary_count(const uint8_t *body, size_t n, size_t at, size_t length) {
    struct reader r;
    return count_of(&r, body, n, at, length);
}

// The reader at a file. Answers 0, or what is wrong before it.
static plain_answer file_of(struct reader *r, size_t width, const uint8_t *body, size_t n, size_t at, size_t length,
                            uint64_t i) {
    if (width == 0) return OUTSIDE;
    plain_answer count = count_of(r, body, n, at, length);
    if (refusal_of(count)) return count;
    if (i >= value_of(count)) return OUTSIDE;
    for (unsigned no; i > 0; i--)
        if ((no = take_file(r, width))) return refused(no, r->at);
    return 0;
}

// 0 for no variant.
static size_t width_of(uint32_t variant) {
    return variant == NW_AUXILIARY_24 ? width_24 : variant == NW_AUXILIARY_32 ? width_32 : 0;
}

plain_answer plain_language_auxiliary_type(uint32_t variant, const uint8_t *body, size_t n, size_t at, size_t length,
                                           uint64_t i) {
    struct reader r;
    plain_answer no = file_of(&r, width_of(variant), body, n, at, length, i);
    return no ? no : asked_number(&r, 1);
}

plain_answer plain_language_auxiliary(uint32_t variant, const uint8_t *body, size_t n, size_t at, size_t length,
                                      uint64_t i) {
    struct reader r;
    size_t width = width_of(variant);
    plain_answer no = file_of(&r, width, body, n, at, length, i);
    if (no) return no;
    unsigned missing = take(&r, 1);
    return missing ? refused(missing, r.at) : asked_part(&r, width);
}
