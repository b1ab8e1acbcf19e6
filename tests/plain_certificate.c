// plain_certificate: the certificate table in plain C, made from document 01 and the header alone.
// SPDX-License-Identifier: MIT
#include "plain_certificate.h"

#include "plain_tables.h"

// An authorization list has a length of two bytes, a certificate of one.

// ---- the fields of a body taken

static unsigned take_authorization(struct reader *r) { return skip_part(r, 2); }
static unsigned take_certificate(struct reader *r) { return skip_part(r, 1); }

static unsigned take_body(struct reader *r) {
    unsigned no = take_several(r, 0, 0, 0xFF, take_authorization);
    if (no || (no = take_several(r, 0, 0, 0xFF, take_certificate))) return no;
    return take_signature(r);
}

// ---- an accepted body laid onto a tape: nothing is judged any more

static void lay_authorization(struct layer *l) { lay_part(l, 2); }
static void lay_certificate(struct layer *l) { lay_part(l, 1); }

static void lay_body(struct layer *l) {
    lay_several(l, 0xFF, lay_authorization);
    lay_several(l, 0xFF, lay_certificate);
    lay_part(l, 2);
}

// ---- a form judged and measured

static unsigned form_authorization(struct form *f) { return form_opaque(f, 2, 0xFFFF); }
static unsigned form_certificate(struct form *f) { return form_opaque(f, 1, 0xFF); }

static unsigned form_body(struct form *f) {
    unsigned no = form_several(f, 0, UINT64_MAX, form_authorization);
    if (no || (no = form_several(f, 0, UINT64_MAX, form_certificate))) return no;
    return form_signature(f);
}

// ---- a form written: nothing is judged any more

static void put_authorization(struct writer *w) { put_opaque(w, 2); }
static void put_certificate(struct writer *w) { put_opaque(w, 1); }

static void put_body(struct writer *w) {
    put_several(w, 0, put_authorization);
    put_several(w, 0, put_certificate);
    put_opaque(w, 2);
}

// ---- whole bodies and forms

static const struct table table = {NW_CERTIFICATE, take_body, lay_body, form_body, put_body};

plain_answer plain_certificate_read(uint32_t kind, const uint8_t *body, size_t n) {
    return read_table(&table, kind, body, n);
}

plain_answer plain_certificate_lay(uint32_t kind, const uint8_t *body, size_t n, uint64_t *tape, size_t entries) {
    return lay_table(&table, kind, body, n, tape, entries);
}

plain_answer plain_certificate_write(const uint8_t *pool, size_t pool_bytes, const uint64_t *tape, size_t entries,
                                     uint8_t *out, size_t room) {
    return write_table(&table, pool, pool_bytes, tape, entries, out, room);
}

// ---- fields asked for: what stands before them is passed by its length

plain_answer plain_certificate_authorization_count(const uint8_t *body, size_t n) {
    struct reader r = {body, n, n, 0};
    return asked_number(&r, 1);
}

plain_answer plain_certificate_authorization(const uint8_t *body, size_t n, uint64_t i) {
    struct reader r = {body, n, n, 0};
    return asked_part_of_list(&r, i, 2);
}

plain_answer plain_certificate_certificate_count(const uint8_t *body, size_t n) {
    struct reader r = {body, n, n, 0};
    plain_answer no = skip_list(&r, 2);
    return no ? no : asked_number(&r, 1);
}

plain_answer plain_certificate_certificate(const uint8_t *body, size_t n, uint64_t i) {
    struct reader r = {body, n, n, 0};
    plain_answer no = skip_list(&r, 2);
    return no ? no : asked_part_of_list(&r, i, 1);
}

plain_answer plain_certificate_signature(const uint8_t *body, size_t n) {
    struct reader r = {body, n, n, 0};
    plain_answer no;
    if ((no = skip_list(&r, 2)) || (no = skip_list(&r, 1))) return no;
    return asked_part(&r, 2);
}
