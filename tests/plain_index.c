// plain_index: the index table in plain C, made from document 01 and the header alone, to measure the library by.
// SPDX-License-Identifier: MIT
#include "plain_index.h"

#include "plain_numbers.h"
#include "plain_tables.h"

enum { TYPE_BYTES = 5 };

// The most that the ten bits of a short length can say.
enum { MOST_SHORT = 0x3FF };

// Where fields stand in a message that have a fixed place.
enum { NETWORK_AT = 18, START_AT = 20, END_AT = 25, TYPE_AT = 30, CLASS_AT = 35, COUNT_AT = 36, RESOURCES_AT = 37 };

// Where fields of a channel stand after its flag.
enum { STREAM_AT = 2, PROGRAM_AT = 4, PCR_AT = 6, DESCRIPTORS_AT = 8 };

// The live mark is a good end.
static inline unsigned start_or_end_fault(uint64_t field, int is_end) {
    return is_end && field == NW_LIVE ? 0 : time_fault(field);
}

static int bad_type(const uint8_t *s) { return (s[0] | s[1] | s[2] | s[3] | s[4]) > 0x7F; }
static int in_set(unsigned class_or_level) { return class_or_level - 1 < 4; }

static inline unsigned take_time(struct reader *r, int is_end) {
    unsigned no = need(r, 5);
    if (no || (no = start_or_end_fault(big_endian(r->s + r->at, 5), is_end))) return no;
    r->at += 5;
    return 0;
}

static inline unsigned take_type(struct reader *r) {
    unsigned no = need(r, TYPE_BYTES);
    if (no) return no;
    if (bad_type(r->s + r->at)) return OUTSIDE;
    r->at += TYPE_BYTES;
    return 0;
}

static inline unsigned take_pid(struct reader *r) {
    unsigned no = reserved(r, 0xE0);
    return no ? no : take(r, 2);
}

// Four reserved bits and a 12-bit length. The low ten bits count, and the two above them must be 0.
static inline unsigned take_short_length(struct reader *r, size_t *length) {
    unsigned no = reserved(r, 0xF0);
    if (no || (no = need(r, 2))) return no;
    size_t field = big_endian(r->s + r->at, 2);
    *length = field & MOST_SHORT;
    if ((no = need(r, 2 + *length))) return no;
    if (field & 0xC00) return RESERVED;
    r->at += 2;
    return 0;
}

// ---- the fields of a body taken

// Things that fill a part of so many bytes.
INLINED unsigned take_repeated(struct reader *r, size_t length, taker *one) {
    size_t outer = r->end;
    unsigned no;
    for (r->end = r->at + length; r->at < r->end;)
        if ((no = one(r))) return no;
    r->end = outer;
    return 0;
}

static inline unsigned take_descriptor(struct reader *r) {
    r->at++;
    return skip_part(r, 1);
}

static inline unsigned take_descriptors(struct reader *r) {
    size_t length;
    unsigned no = take_short_length(r, &length);
    return no ? no : take_repeated(r, length, take_descriptor);
}

static inline unsigned take_stream(struct reader *r) {
    r->at++;
    unsigned no = take_pid(r);
    return no ? no : take_descriptors(r);
}

static inline unsigned take_streams(struct reader *r) {
    size_t length;
    unsigned no = take_length(r, 2, &length);
    return no ? no : take_repeated(r, length, take_stream);
}

static unsigned take_channel(struct reader *r) {
    unsigned no;
    for (int i = 0; i < 3; i++) // network, stream and program, each a field
        if ((no = take(r, 2))) return no;
    if ((no = take_pid(r)) || (no = take_descriptors(r))) return no;
    return take_streams(r);
}

static unsigned take_message_fields(struct reader *r) {
    unsigned no;
    if ((no = take_identifier(r)) || (no = take(r, 2)) || (no = take_time(r, 0)) ||
        (no = take_time(r, 1)) || (no = take_type(r)) || (no = need(r, 1)))
        return no;
    if (!in_set(r->s[r->at] >> 4) || !in_set(r->s[r->at] & 15u)) return OUTSIDE;
    r->at++;
    if ((no = take_several(r, 0, 0, 0xFF, take_resource)) || (no = take_small(r, 0xFE, 0, 1))) return no;
    return r->s[r->at - 1] & 1 ? take_channel(r) : 0;
}

static unsigned take_message(struct reader *r) {
    size_t length;
    unsigned no = take_length(r, 2, &length);
    return no ? no : take_filled(r, length, take_message_fields);
}

static unsigned take_body(struct reader *r) {
    unsigned no = take_several(r, 0, 0, 0xFF, take_message);
    return no ? no : take_signature(r);
}

// ---- an accepted body laid onto a tape: nothing is judged any more

// The count of things that fill a part, whose length is in the low bits of two bytes, and each.
INLINED void lay_repeated(struct layer *l, size_t mask, void (*one)(struct layer *l)) {
    size_t end = l->at + 2 + (big_endian(l->s + l->at, 2) & mask), place = l->laid;
    uint64_t count = 0;
    lay_entry(l, 0);
    for (l->at += 2; l->at < end; count++) one(l);
    if (place < l->room) l->tape[place] = count;
}

static void lay_descriptor(struct layer *l) {
    lay_number(l, 1, 0xFF);
    lay_part(l, 1);
}

static void lay_stream(struct layer *l) {
    lay_number(l, 1, 0xFF);
    lay_number(l, 2, 0x1FFF);
    lay_repeated(l, MOST_SHORT, lay_descriptor);
}

static void lay_channel(struct layer *l) {
    for (int i = 0; i < 3; i++) lay_number(l, 2, 0xFFFF);
    lay_number(l, 2, 0x1FFF);
    lay_repeated(l, MOST_SHORT, lay_descriptor);
    lay_repeated(l, 0xFFFF, lay_stream);
}

static void lay_message(struct layer *l) {
    l->at += 2;
    lay_span(l, IDENTIFIER_BYTES);
    lay_number(l, 2, 0xFFFF);
    lay_number(l, 5, NW_LIVE);
    lay_number(l, 5, NW_LIVE);
    lay_span(l, TYPE_BYTES);
    lay_entry(l, l->s[l->at] >> 4);
    lay_number(l, 1, 15);
    lay_several(l, 0xFF, lay_resource);
    if (lay_number(l, 1, 1)) lay_channel(l);
}

static void lay_body(struct layer *l) {
    lay_several(l, 0xFF, lay_message);
    lay_part(l, 2);
}

// ---- a form judged and measured

static inline unsigned form_type(struct form *f) {
    const uint8_t *s;
    uint64_t length;
    unsigned no = form_span(f, &s, &length);
    return no || length != TYPE_BYTES || bad_type(s) ? OUTSIDE : 0;
}

static inline unsigned form_time(struct form *f, int is_end) {
    unsigned no = form_number(f, 0, NW_LIVE);
    return no ? no : start_or_end_fault(f->t[-1], is_end);
}

// The count of things that are to fill a part, whose length in two bytes is at most `most`, and each.
INLINED unsigned form_repeated(struct form *f, uint64_t most, unsigned (*one)(struct form *f)) {
    unsigned no = form_number(f, 0, UINT64_MAX);
    if (no) return no;
    uint64_t before = f->bytes;
    for (uint64_t left = f->t[-1]; left > 0; left--)
        if ((no = one(f))) return no;
    f->large |= f->bytes - before > most;
    f->bytes += 2;
    return 0;
}

static unsigned form_descriptor(struct form *f) {
    unsigned no = form_number(f, 0, 0xFF);
    f->bytes++;
    return no ? no : form_opaque(f, 1, 0xFF);
}

static unsigned form_stream(struct form *f) {
    unsigned no;
    if ((no = form_number(f, 0, 0xFF)) || (no = form_number(f, 0, 0x1FFF))) return no;
    f->bytes += 3;
    return form_repeated(f, MOST_SHORT, form_descriptor);
}

static unsigned form_channel(struct form *f) {
    unsigned no;
    for (int i = 0; i < 3; i++)
        if ((no = form_number(f, 0, 0xFFFF))) return no;
    f->bytes += 8;
    if ((no = form_number(f, 0, 0x1FFF)) || (no = form_repeated(f, MOST_SHORT, form_descriptor))) return no;
    return form_repeated(f, 0xFFFF, form_stream);
}

static unsigned form_message(struct form *f) {
    uint64_t before = f->bytes;
    unsigned no;
    if ((no = form_identifier(f)) || (no = form_number(f, 0, 0xFFFF)) || (no = form_time(f, 0)) ||
        (no = form_time(f, 1)) || (no = form_type(f)) || (no = form_number(f, 1, 4)) || (no = form_number(f, 1, 4)) ||
        (no = form_several(f, 0, UINT64_MAX, form_resource)) || (no = form_number(f, 0, 1)) ||
        (f->t[-1] && (no = form_channel(f))))
        return no;
    f->bytes += COUNT_AT - IDENTIFIER_BYTES + 1;
    f->large |= f->bytes - before > 0xFFFF;
    f->bytes += 2;
    return 0;
}

static unsigned form_body(struct form *f) {
    unsigned no = form_several(f, 0, UINT64_MAX, form_message);
    return no ? no : form_signature(f);
}

// ---- a form written: nothing is judged any more

// So many things, after their length below the fixed bits of two bytes.
INLINED void put_repeated(struct writer *w, uint64_t fixed, void (*one)(struct writer *w)) {
    uint8_t *length = w->to;
    w->to += 2;
    for (uint64_t left = *w->t++; left > 0; left--) one(w);
    put_length(w, length, 2, fixed);
}

static void put_descriptor(struct writer *w) {
    put_number(w, 1, 0);
    put_opaque(w, 1);
}

static void put_stream(struct writer *w) {
    put_number(w, 1, 0);
    put_number(w, 2, 0xE000);
    put_repeated(w, 0xF000, put_descriptor);
}

static void put_channel(struct writer *w) {
    for (int i = 0; i < 3; i++) put_number(w, 2, 0);
    put_number(w, 2, 0xE000);
    put_repeated(w, 0xF000, put_descriptor);
    put_repeated(w, 0, put_stream);
}

static void put_message(struct writer *w) {
    uint8_t *length = w->to;
    w->to += 2;
    put_identifier(w);
    put_number(w, 2, 0);
    put_number(w, 5, 0);
    put_number(w, 5, 0);
    put_fixed(w, TYPE_BYTES);
    *w->to++ = (uint8_t)(w->t[0] << 4 | w->t[1]);
    w->t += 2;
    put_several(w, 0, put_resource);
    uint64_t flag = *w->t;
    put_number(w, 1, 0xFE);
    if (flag) put_channel(w);
    put_length(w, length, 2, 0);
}

static void put_body(struct writer *w) {
    put_several(w, 0, put_message);
    put_opaque(w, 2);
}

// ---- whole bodies and forms

static const struct table table = {NW_INDEX, take_body, lay_body, form_body, put_body};

plain_answer plain_index_read(uint32_t kind, const uint8_t *body, size_t n) {
    return read_table(&table, kind, body, n);
}

plain_answer plain_index_records(uint32_t kind, const uint8_t *body, size_t n, nw_record *list, size_t room) {
    plain_answer got = plain_index_read(kind, body, n);
    if (refusal_of(got)) return got;
    size_t count = body[0], at = 1;
    if (count > room) return NW_OUTPUT_TOO_SMALL;
    for (size_t i = 0; i < count; i++) {
        size_t length = big_endian(body + at, 2);
        const uint8_t *message = body + (at += 2);
        list[i] = (nw_record){at, length, big_endian(message + START_AT, 5), big_endian(message + END_AT, 5),
                              message[CLASS_AT] >> 4, message[CLASS_AT] & 15};
        at += length;
    }
    return value(count);
}

plain_answer plain_index_lay(uint32_t kind, const uint8_t *body, size_t n, uint64_t *tape, size_t entries) {
    return lay_table(&table, kind, body, n, tape, entries);
}

plain_answer plain_index_write(const uint8_t *pool, size_t pool_bytes, const uint64_t *tape, size_t entries,
                               uint8_t *out, size_t room) {
    return write_table(&table, pool, pool_bytes, tape, entries, out, room);
}

// ---- fields of a body asked for: what stands before them is passed by its length, and not judged

plain_answer plain_index_message_count(const uint8_t *body, size_t n) { return n == 0 ? PAST_BODY : value(body[0]); }

plain_answer plain_index_message(const uint8_t *body, size_t n, uint64_t i) {
    struct reader r = {body, n, n, 0};
    return asked_part_of_list(&r, i, 2);
}

plain_answer plain_index_signature(const uint8_t *body, size_t n) {
    struct reader r = {body, n, n, 0};
    plain_answer no = skip_list(&r, 2);
    return no ? no : asked_part(&r, 2);
}

// ---- fields of a message asked for, each at its own place

static plain_answer asked_pid(struct reader *r) {
    unsigned no = take_pid(r);
    return no ? refused(no, r->at) : value(big_endian(r->s + r->at - 2, 2) & 0x1FFF);
}

static plain_answer asked_short_part(struct reader *r) {
    size_t length;
    unsigned no = take_short_length(r, &length);
    return no ? refused(no, r->at) : part(r->at, length);
}

static plain_answer asked_time(struct reader *r, int is_end) {
    unsigned no = take_time(r, is_end);
    return no ? refused(no, r->at) : value(big_endian(r->s + r->at - 5, 5));
}

plain_answer plain_message_identifier(const uint8_t *body, size_t n, size_t at, size_t length) {
    struct reader r;
    return stands(&r, body, n, at, length, 0) ? asked_identifier(&r) : OUTSIDE;
}

plain_answer plain_message_identifier_digit(const uint8_t *body, size_t n, size_t at, size_t length, uint64_t i) {
    return asked_digit(body, plain_message_identifier(body, n, at, length), i);
}

plain_answer plain_message_extension(const uint8_t *body, size_t n, size_t at, size_t length) {
    plain_answer identifier = plain_message_identifier(body, n, at, length);
    return refusal_of(identifier) ? identifier : value(plain_extension(body + at));
}

plain_answer plain_message_network(const uint8_t *body, size_t n, size_t at, size_t length) {
    struct reader r;
    return stands(&r, body, n, at, length, NETWORK_AT) ? asked_number(&r, 2) : OUTSIDE;
}

plain_answer plain_message_start(const uint8_t *body, size_t n, size_t at, size_t length) {
    struct reader r;
    return stands(&r, body, n, at, length, START_AT) ? asked_time(&r, 0) : OUTSIDE;
}

plain_answer plain_message_end(const uint8_t *body, size_t n, size_t at, size_t length) {
    struct reader r;
    return stands(&r, body, n, at, length, END_AT) ? asked_time(&r, 1) : OUTSIDE;
}

plain_answer plain_message_type(const uint8_t *body, size_t n, size_t at, size_t length) {
    struct reader r;
    if (!stands(&r, body, n, at, length, TYPE_AT)) return OUTSIDE;
    unsigned no = take_type(&r);
    return no ? refused(no, r.at) : part(r.at - TYPE_BYTES, TYPE_BYTES);
}

// Class and level share a byte, and are judged together.
static plain_answer half_of_class(const uint8_t *body, size_t n, size_t at, size_t length, unsigned shift) {
    struct reader r;
    if (!stands(&r, body, n, at, length, CLASS_AT)) return OUTSIDE;
    unsigned no = need(&r, 1);
    if (no) return refused(no, r.at);
    unsigned both = body[r.at];
    return in_set(both >> 4) && in_set(both & 15u) ? value(both >> shift & 15u) : refused(OUTSIDE, r.at);
}

plain_answer plain_message_class(const uint8_t *body, size_t n, size_t at, size_t length) {
    return half_of_class(body, n, at, length, 4);
}

plain_answer plain_message_level(const uint8_t *body, size_t n, size_t at, size_t length) {
    return half_of_class(body, n, at, length, 0);
}

plain_answer plain_message_resource_count(const uint8_t *body, size_t n, size_t at, size_t length) {
    struct reader r;
    return stands(&r, body, n, at, length, COUNT_AT) ? asked_number(&r, 1) : OUTSIDE;
}

plain_answer plain_message_resource(const uint8_t *body, size_t n, size_t at, size_t length, uint64_t i) {
    plain_answer count = plain_message_resource_count(body, n, at, length);
    if (refusal_of(count)) return count;
    if (i >= value_of(count)) return OUTSIDE;
    struct reader r = {body, n, at + length, at + RESOURCES_AT + RESOURCE_BYTES * i};
    return asked_digits(&r, RESOURCE_BYTES);
}

plain_answer plain_message_resource_digit(const uint8_t *body, size_t n, size_t at, size_t length, uint64_t i,
                                          uint64_t j) {
    return asked_digit(body, plain_message_resource(body, n, at, length, i), j);
}

// The channel flag, with the reader at it.
static plain_answer flag_of(struct reader *r, const uint8_t *body, size_t n, size_t at, size_t length) {
    plain_answer count = plain_message_resource_count(body, n, at, length);
    if (refusal_of(count)) return count;
    *r = (struct reader){body, n, at + length, at + RESOURCES_AT + RESOURCE_BYTES * value_of(count)};
    unsigned no = reserved(r, 0xFE);
    return no ? refused(no, r->at) : value(body[r->at] & 1);
}

// The reader at a place of the channel. Answers 0, what is wrong before it, or 19 where there is no channel.
static plain_answer channel_of(struct reader *r, const uint8_t *body, size_t n, size_t at, size_t length,
                               size_t place) {
    plain_answer flag = flag_of(r, body, n, at, length);
    if (refusal_of(flag)) return flag;
    r->at += 1 + place;
    return value_of(flag) ? 0 : OUTSIDE;
}

plain_answer plain_message_channel_flag(const uint8_t *body, size_t n, size_t at, size_t length) {
    struct reader r;
    return flag_of(&r, body, n, at, length);
}

plain_answer plain_message_channel_network(const uint8_t *body, size_t n, size_t at, size_t length) {
    struct reader r;
    plain_answer no = channel_of(&r, body, n, at, length, 0);
    return no ? no : asked_number(&r, 2);
}

plain_answer plain_message_channel_stream(const uint8_t *body, size_t n, size_t at, size_t length) {
    struct reader r;
    plain_answer no = channel_of(&r, body, n, at, length, STREAM_AT);
    return no ? no : asked_number(&r, 2);
}

plain_answer plain_message_channel_program(const uint8_t *body, size_t n, size_t at, size_t length) {
    struct reader r;
    plain_answer no = channel_of(&r, body, n, at, length, PROGRAM_AT);
    return no ? no : asked_number(&r, 2);
}

plain_answer plain_message_pcr_pid(const uint8_t *body, size_t n, size_t at, size_t length) {
    struct reader r;
    plain_answer no = channel_of(&r, body, n, at, length, PCR_AT);
    return no ? no : asked_pid(&r);
}

plain_answer plain_message_descriptors(const uint8_t *body, size_t n, size_t at, size_t length) {
    struct reader r;
    plain_answer no = channel_of(&r, body, n, at, length, DESCRIPTORS_AT);
    return no ? no : asked_short_part(&r);
}

// The streams stand where the descriptors end.
plain_answer plain_message_streams(const uint8_t *body, size_t n, size_t at, size_t length) {
    plain_answer descriptors = plain_message_descriptors(body, n, at, length);
    if (refusal_of(descriptors)) return descriptors;
    struct reader r = {body, n, at + length, part_start(descriptors) + part_length(descriptors)};
    return asked_part(&r, 2);
}

// ---- descriptors and streams asked for, in a part that has `length` bytes from there on

// A reader at a place of such a thing; 0 where its part lies outside the body or has no byte left.
static int in_part(struct reader *r, const uint8_t *body, size_t n, size_t at, size_t length, size_t place) {
    return length > 0 && stands(r, body, n, at, length, place);
}

plain_answer plain_descriptor_tag(const uint8_t *body, size_t n, size_t at, size_t length) {
    struct reader r;
    return in_part(&r, body, n, at, length, 0) ? value(body[at]) : OUTSIDE;
}

plain_answer plain_descriptor_bytes(const uint8_t *body, size_t n, size_t at, size_t length) {
    struct reader r;
    return in_part(&r, body, n, at, length, 1) ? asked_part(&r, 1) : OUTSIDE;
}

plain_answer plain_stream_type(const uint8_t *body, size_t n, size_t at, size_t length) {
    return plain_descriptor_tag(body, n, at, length);
}

plain_answer plain_stream_pid(const uint8_t *body, size_t n, size_t at, size_t length) {
    struct reader r;
    return in_part(&r, body, n, at, length, 1) ? asked_pid(&r) : OUTSIDE;
}

plain_answer plain_stream_descriptors(const uint8_t *body, size_t n, size_t at, size_t length) {
    struct reader r;
    return in_part(&r, body, n, at, length, 3) ? asked_short_part(&r) : OUTSIDE;
}

// Things one after the other, as many as the part holds.
static plain_answer counted(const uint8_t *body, size_t n, size_t at, size_t length, taker *one) {
    struct reader r;
    if (!stands(&r, body, n, at, length, 0)) return OUTSIDE;
    uint64_t count = 0;
    for (unsigned no; r.at < r.end; count++)
        if ((no = one(&r))) return refused(no, r.at);
    return value(count);
}

plain_answer plain_descriptor_count(const uint8_t *body, size_t n, size_t at, size_t length) {
    return counted(body, n, at, length, take_descriptor);
}

plain_answer plain_stream_count(const uint8_t *body, size_t n, size_t at, size_t length) {
    return counted(body, n, at, length, take_stream);
}

// ---- local times

static plain_answer local_time(plain_answer field, int32_t offset) {
    if (!plain_is_offset(offset)) return OUTSIDE;
    return refusal_of(field) ? field : plain_time_unpack(value_of(field), offset);
}

plain_answer plain_message_local_start(const uint8_t *body, size_t n, size_t at, size_t length, int32_t offset) {
    return local_time(plain_message_start(body, n, at, length), offset);
}

plain_answer plain_message_local_end(const uint8_t *body, size_t n, size_t at, size_t length, int32_t offset) {
    return local_time(plain_message_end(body, n, at, length), offset);
}
