// plain_configuration: the configuration table in plain C, made from document 01 and the header, to measure by.
// SPDX-License-Identifier: MIT
#include "plain_configuration.h"

#include "plain_numbers.h"
#include "plain_tables.h"

enum { FIRST_AT = 1, HEAD = 3, MOST_MAPPING = 5, MOST_VOLUME = 100 };

// Least content lengths, and where the terminals begin in the content of those tags that have them at a fixed place.
static const uint8_t leasts[8] = {0, 7, 13, 10, 3, 5, 2, 2};
static const uint8_t terminals_at[8] = {[NW_FREQUENCY] = 9, [NW_PERIOD] = 4, [NW_VOLUME] = 1};

static size_t least_of(unsigned tag) { return tag < 8 ? leasts[tag] : 0; }

// ---- what holds of the fields, read or to be written

static int is_digit(uint8_t c) { return c >= '0' && c <= '9'; }

static int is_name_and_port(const uint8_t *s, size_t n) {
    size_t at = 0, port = 0;
    while (at < n && s[at] >= 0x21 && s[at] <= 0x7E && s[at] != ':') at++;
    if (at == 0 || at == n || s[at] != ':' || n - at < 2 || n - at > 6) return 0;
    for (at++; at < n; at++) {
        if (!is_digit(s[at])) return 0;
        port = port * 10 + s[at] - '0';
    }
    return port <= 65535;
}

// 0, 15 or 19 of an address.
static unsigned address_fault(uint64_t kind, const uint8_t *s, size_t n) {
    if ((kind == 1 && n != 11) || (kind == 2 && n != 6)) return PAST_PART;
    if (kind == 3) return is_name_and_port(s, n) ? 0 : OUTSIDE;
    for (size_t i = 0; kind == 1 && i < n; i++)
        if (!is_digit(s[i])) return OUTSIDE;
    return 0;
}

// ---- the fields of a body taken

static unsigned take_day(struct reader *r) {
    const uint8_t *s = r->s + r->at;
    unsigned no = need(r, 4);
    if (no) return no;
    if (!plain_is_day((uint32_t)big_endian(s, 2), s[2], s[3])) return IMPOSSIBLE;
    r->at += 4;
    return 0;
}

static unsigned take_time(struct reader *r) {
    const uint8_t *s = r->s + r->at;
    unsigned no = need(r, 3);
    if (no) return no;
    if (!is_time(s[0], s[1], s[2])) return IMPOSSIBLE;
    r->at += 3;
    return 0;
}

// Kind and address. A wrong length is refused at the length, another fault where the address begins.
static unsigned take_return(struct reader *r) {
    size_t length;
    unsigned no = take_small(r, 0, 1, 3);
    if (no || (no = take_length(r, 1, &length))) return no;
    no = address_fault(r->s[r->at - 2], r->s + r->at, length);
    if (no == PAST_PART) r->at--;
    if (no == 0) r->at += length;
    return no;
}

static unsigned take_parameter(struct reader *r) {
    return take(r, 1);
}

// What stands before the terminals, or all that there is where there are none.
static unsigned take_head(struct reader *r, unsigned tag) {
    unsigned no;
    switch (tag) {
    case NW_CLOCK: return (no = take_day(r)) ? no : take_time(r);
    case NW_CODE: return (no = skip_part(r, 1)) ? no : take_digits(r, RESOURCE_BYTES);
    case NW_FREQUENCY:
        if ((no = take(r, 4)) || (no = take(r, 4))) return no;
        return take_small(r, 0, 0, MOST_MAPPING);
    case NW_RETURN: return take_return(r);
    case NW_PERIOD: return take(r, 4);
    case NW_VOLUME: return take_small(r, 0, 0, MOST_VOLUME);
    case NW_QUERY: return take_several(r, 0, 0, 0xFF, take_parameter);
    default: r->at = r->end; return 0;
    }
}

static int has_terminals(uint64_t tag) { return tag >= NW_FREQUENCY && tag <= NW_QUERY; }

// A command's length, not below the least of its tag.
static unsigned take_content_length(struct reader *r, unsigned tag, size_t *length) {
    unsigned no = take_length(r, 2, length);
    if (no || *length >= least_of(tag)) return no;
    r->at -= 2;
    return PAST_PART;
}

// The content that stands after a tag and a length.
static unsigned take_content(struct reader *r) {
    unsigned tag = r->s[r->at - HEAD], no = take_head(r, tag);
    return no || !has_terminals(tag) ? no : take_several(r, 0, 0, 0xFF, take_resource);
}

static unsigned take_command(struct reader *r) {
    size_t length;
    unsigned no = take(r, 1);
    if (no || (no = take_content_length(r, r->s[r->at - 1], &length))) return no;
    return take_filled(r, length, take_content);
}

static unsigned take_body(struct reader *r) {
    unsigned no = take_several(r, 0, 0, 0xFF, take_command);
    return no ? no : take_signature(r);
}

// ---- an accepted body laid onto a tape: nothing is judged any more

static void lay_numbers(struct layer *l, size_t width, size_t count) {
    for (; count > 0; count--) lay_number(l, width, UINT32_MAX);
}

static void lay_head(struct layer *l, unsigned tag, size_t length) {
    switch (tag) {
    case NW_CLOCK: lay_number(l, 2, UINT16_MAX); lay_numbers(l, 1, 5); return;
    case NW_CODE: lay_part(l, 1); lay_span(l, RESOURCE_BYTES); return;
    case NW_FREQUENCY: lay_numbers(l, 4, 2); lay_numbers(l, 1, 1); return;
    case NW_RETURN: lay_numbers(l, 1, 1); lay_part(l, 1); return;
    case NW_PERIOD: lay_numbers(l, 4, 1); return;
    case NW_VOLUME: lay_numbers(l, 1, 1); return;
    case NW_QUERY: lay_numbers(l, 1, 1 + (size_t)l->s[l->at]); return;
    default: lay_span(l, length);
    }
}

static void lay_command(struct layer *l) {
    unsigned tag = l->s[l->at];
    size_t length = big_endian(l->s + l->at + 1, 2);
    lay_number(l, 1, UINT8_MAX);
    l->at += 2;
    lay_head(l, tag, length);
    if (has_terminals(tag)) lay_several(l, UINT8_MAX, lay_resource);
}

static void lay_body(struct layer *l) {
    lay_several(l, UINT8_MAX, lay_command);
    lay_part(l, 2);
}

// ---- a form judged and measured

// Three numbers, however large: the day or the time that they say is judged.
static unsigned form_three(struct form *f) {
    if (f->left < 3) return OUTSIDE;
    f->t += 3;
    f->left -= 3;
    return 0;
}

static unsigned form_clock(struct form *f) {
    unsigned no = form_three(f);
    if (no) return no;
    if (f->t[-3] > 0xFFFF || f->t[-2] > 0xFF || f->t[-1] > 0xFF) return IMPOSSIBLE;
    if (!plain_is_day((uint32_t)f->t[-3], (uint32_t)f->t[-2], (uint32_t)f->t[-1])) return IMPOSSIBLE;
    if ((no = form_three(f))) return no;
    f->bytes += 7;
    return is_time(f->t[-3], f->t[-2], f->t[-1]) ? 0 : IMPOSSIBLE;
}

static unsigned form_return(struct form *f) {
    unsigned no = form_number(f, 1, 3);
    if (no || (no = form_opaque(f, 1, 0xFF))) return no;
    f->bytes++;
    return address_fault(f->t[-3], f->pool + f->t[-2], f->t[-1]);
}

static unsigned form_parameter(struct form *f) {
    f->bytes++;
    return form_number(f, 0, 0xFF);
}

static unsigned form_head(struct form *f, uint64_t tag) {
    unsigned no;
    switch (tag) {
    case NW_CLOCK: return form_clock(f);
    case NW_CODE: return (no = form_opaque(f, 1, 0xFF)) ? no : form_digits(f, RESOURCE_BYTES);
    case NW_FREQUENCY:
        f->bytes += 9;
        if ((no = form_number(f, 0, UINT32_MAX)) || (no = form_number(f, 0, UINT32_MAX))) return no;
        return form_number(f, 0, MOST_MAPPING);
    case NW_RETURN: return form_return(f);
    case NW_PERIOD: f->bytes += 4; return form_number(f, 0, UINT32_MAX);
    case NW_VOLUME: f->bytes++; return form_number(f, 0, MOST_VOLUME);
    case NW_QUERY: return form_several(f, 0, UINT64_MAX, form_parameter);
    default: return form_opaque(f, 0, 0xFFFF);
    }
}

// A content is too large for its length only if one of its own counts or lengths is too large.
static unsigned form_command(struct form *f) {
    unsigned no = form_number(f, 0, 0xFF);
    if (no) return no;
    uint64_t tag = f->t[-1];
    f->bytes += HEAD;
    if ((no = form_head(f, tag))) return no;
    return has_terminals(tag) ? form_several(f, 0, UINT64_MAX, form_resource) : 0;
}

static unsigned form_body(struct form *f) {
    unsigned no = form_several(f, 0, UINT64_MAX, form_command);
    return no ? no : form_signature(f);
}

// ---- a form written: nothing is judged any more

static void put_numbers(struct writer *w, size_t width, uint64_t count) {
    for (; count > 0; count--) put_number(w, width, 0);
}

static void put_head(struct writer *w, uint64_t tag) {
    switch (tag) {
    case NW_CLOCK: put_number(w, 2, 0); put_numbers(w, 1, 5); return;
    case NW_CODE: put_opaque(w, 1); put_resource(w); return;
    case NW_FREQUENCY: put_numbers(w, 4, 2); put_numbers(w, 1, 1); return;
    case NW_RETURN: put_number(w, 1, 0); put_opaque(w, 1); return;
    case NW_PERIOD: put_number(w, 4, 0); return;
    case NW_VOLUME: put_number(w, 1, 0); return;
    case NW_QUERY: put_numbers(w, 1, 1 + *w->t); return;
    default: put_span(w);
    }
}

static void put_command(struct writer *w) {
    uint64_t tag = *w->t;
    put_number(w, 1, 0);
    uint8_t *length = w->to;
    w->to += 2;
    put_head(w, tag);
    if (has_terminals(tag)) put_several(w, 0, put_resource);
    put_length(w, length, 2, 0);
}

static void put_body(struct writer *w) {
    put_several(w, 0, put_command);
    put_opaque(w, 2);
}

// ---- whole bodies and forms

static const struct table table = {NW_CONFIGURATION, take_body, lay_body, form_body, put_body};

plain_answer plain_configuration_read(uint32_t kind, const uint8_t *body, size_t n) {
    return read_table(&table, kind, body, n);
}

plain_answer plain_configuration_lay(uint32_t kind, const uint8_t *body, size_t n, uint64_t *tape, size_t entries) {
    return lay_table(&table, kind, body, n, tape, entries);
}

plain_answer plain_configuration_write(const uint8_t *pool, size_t pool_bytes, const uint64_t *tape, size_t entries,
                                       uint8_t *out, size_t room) {
    return write_table(&table, pool, pool_bytes, tape, entries, out, room);
}

// ---- fields of a body asked for: what stands before them is passed by its length, and not judged

plain_answer plain_configuration_command_count(const uint8_t *body, size_t n) {
    return n == 0 ? PAST_BODY : value(body[0]);
}

static plain_answer skip_commands(struct reader *r, uint64_t count) {
    unsigned no;
    for (; count > 0; count--)
        if ((no = take(r, 1)) || (no = skip_part(r, 2))) return refused(no, r->at);
    return 0;
}

plain_answer plain_configuration_command(const uint8_t *body, size_t n, uint64_t i) {
    struct reader r = {body, n, n, FIRST_AT};
    plain_answer no;
    if (n == 0) return PAST_BODY;
    if (i >= body[0]) return OUTSIDE;
    if ((no = skip_commands(&r, i))) return no;
    size_t begin = r.at;
    return (no = skip_commands(&r, 1)) ? no : part(begin, r.at - begin);
}

plain_answer plain_configuration_signature(const uint8_t *body, size_t n) {
    struct reader r = {body, n, n, FIRST_AT};
    if (n == 0) return PAST_BODY;
    plain_answer no = skip_commands(&r, body[0]);
    return no ? no : asked_part(&r, 2);
}

// ---- fields of a command asked for, each at its own place

plain_answer plain_command_tag(const uint8_t *body, size_t n, size_t p) {
    return p >= n ? OUTSIDE : value(body[p]);
}

// The reader at the beginning of a command's content, of which it then has the end.
static plain_answer enter(struct reader *r, const uint8_t *body, size_t n, size_t p) {
    plain_answer tag = plain_command_tag(body, n, p);
    if (refusal_of(tag)) return tag;
    size_t length;
    *r = (struct reader){body, n, n, p + 1};
    unsigned no = take_content_length(r, (unsigned)value_of(tag), &length);
    r->end = r->at + (no ? 0 : length);
    return no ? refused(no, r->at) : 0;
}

plain_answer plain_command_content(const uint8_t *body, size_t n, size_t p) {
    struct reader r;
    plain_answer no = enter(&r, body, n, p);
    return no ? no : part(r.at, r.end - r.at);
}

// The reader at a place of the content of a command of this tag.
static plain_answer enter_as(struct reader *r, const uint8_t *body, size_t n, size_t p, unsigned tag, size_t place) {
    plain_answer its = plain_command_tag(body, n, p), no;
    if (refusal_of(its)) return its;
    if (value_of(its) != tag) return OUTSIDE;
    if ((no = enter(r, body, n, p))) return no;
    r->at += place;
    return 0;
}

static plain_answer asked_day(const uint8_t *body, size_t n, size_t p, size_t place, size_t width) {
    struct reader r;
    plain_answer no = enter_as(&r, body, n, p, NW_CLOCK, 0);
    if (no) return no;
    unsigned fault = take_day(&r);
    return fault ? refused(fault, r.at) : value(big_endian(body + r.at - 4 + place, width));
}

static plain_answer asked_time(const uint8_t *body, size_t n, size_t p, size_t place) {
    struct reader r;
    plain_answer no = enter_as(&r, body, n, p, NW_CLOCK, 4);
    if (no) return no;
    unsigned fault = take_time(&r);
    return fault ? refused(fault, r.at) : value(body[r.at - 3 + place]);
}

plain_answer plain_command_clock_year(const uint8_t *body, size_t n, size_t p) { return asked_day(body, n, p, 0, 2); }
plain_answer plain_command_clock_month(const uint8_t *body, size_t n, size_t p) { return asked_day(body, n, p, 2, 1); }
plain_answer plain_command_clock_day(const uint8_t *body, size_t n, size_t p) { return asked_day(body, n, p, 3, 1); }
plain_answer plain_command_clock_hour(const uint8_t *body, size_t n, size_t p) { return asked_time(body, n, p, 0); }
plain_answer plain_command_clock_minute(const uint8_t *body, size_t n, size_t p) { return asked_time(body, n, p, 1); }
plain_answer plain_command_clock_second(const uint8_t *body, size_t n, size_t p) { return asked_time(body, n, p, 2); }

plain_answer plain_command_code_address(const uint8_t *body, size_t n, size_t p) {
    struct reader r;
    plain_answer no = enter_as(&r, body, n, p, NW_CODE, 0);
    return no ? no : asked_part(&r, 1);
}

plain_answer plain_command_code_resource(const uint8_t *body, size_t n, size_t p) {
    struct reader r;
    plain_answer no = enter_as(&r, body, n, p, NW_CODE, 0);
    if (no) return no;
    unsigned fault = skip_part(&r, 1);
    return fault ? refused(fault, r.at) : asked_digits(&r, RESOURCE_BYTES);
}

plain_answer plain_command_code_digit(const uint8_t *body, size_t n, size_t p, uint64_t j) {
    return asked_digit(body, plain_command_code_resource(body, n, p), j);
}

static plain_answer asked_wide(const uint8_t *body, size_t n, size_t p, unsigned tag, size_t place) {
    struct reader r;
    plain_answer no = enter_as(&r, body, n, p, tag, place);
    return no ? no : asked_number(&r, 4);
}

static plain_answer asked_within(const uint8_t *body, size_t n, size_t p, unsigned tag, size_t place, unsigned least,
                                 unsigned most) {
    struct reader r;
    plain_answer no = enter_as(&r, body, n, p, tag, place);
    return no ? no : asked_small(&r, 0, least, most);
}

plain_answer plain_command_frequency(const uint8_t *body, size_t n, size_t p) {
    return asked_wide(body, n, p, NW_FREQUENCY, 0);
}

plain_answer plain_command_symbol_rate(const uint8_t *body, size_t n, size_t p) {
    return asked_wide(body, n, p, NW_FREQUENCY, 4);
}

plain_answer plain_command_mapping(const uint8_t *body, size_t n, size_t p) {
    return asked_within(body, n, p, NW_FREQUENCY, 8, 0, MOST_MAPPING);
}

plain_answer plain_command_return_kind(const uint8_t *body, size_t n, size_t p) {
    return asked_within(body, n, p, NW_RETURN, 0, 1, 3);
}

plain_answer plain_command_return_address(const uint8_t *body, size_t n, size_t p) {
    struct reader r;
    plain_answer no = enter_as(&r, body, n, p, NW_RETURN, 0);
    if (no) return no;
    size_t begin = r.at + 2;
    unsigned fault = take_return(&r);
    return fault ? refused(fault, r.at) : part(begin, r.at - begin);
}

plain_answer plain_command_period(const uint8_t *body, size_t n, size_t p) {
    return asked_wide(body, n, p, NW_PERIOD, 0);
}

plain_answer plain_command_volume(const uint8_t *body, size_t n, size_t p) {
    return asked_within(body, n, p, NW_VOLUME, 0, 0, MOST_VOLUME);
}

plain_answer plain_command_parameter_count(const uint8_t *body, size_t n, size_t p) {
    struct reader r;
    plain_answer no = enter_as(&r, body, n, p, NW_QUERY, 0);
    return no ? no : asked_number(&r, 1);
}

plain_answer plain_command_parameter(const uint8_t *body, size_t n, size_t p, uint64_t i) {
    struct reader r;
    plain_answer count = plain_command_parameter_count(body, n, p);
    if (refusal_of(count)) return count;
    if (i >= value_of(count)) return OUTSIDE;
    plain_answer no = enter_as(&r, body, n, p, NW_QUERY, 1 + i);
    return no ? no : asked_number(&r, 1);
}

// The terminal count, with the reader after it.
static plain_answer count_of(struct reader *r, const uint8_t *body, size_t n, size_t p) {
    plain_answer tag = plain_command_tag(body, n, p), no;
    if (refusal_of(tag)) return tag;
    if (!has_terminals(value_of(tag))) return OUTSIDE;
    if ((no = enter(r, body, n, p))) return no;
    unsigned fault = value_of(tag) == NW_RETURN ? take_return(r) : 0;
    if (fault) return refused(fault, r->at);
    r->at += value_of(tag) == NW_QUERY ? 1u + body[r->at] : terminals_at[value_of(tag)];
    return asked_number(r, 1);
}

plain_answer plain_command_terminal_count(const uint8_t *body, size_t n, size_t p) {
    struct reader r;
    return count_of(&r, body, n, p);
}

plain_answer plain_command_terminal(const uint8_t *body, size_t n, size_t p, uint64_t i) {
    struct reader r;
    plain_answer count = count_of(&r, body, n, p);
    if (refusal_of(count)) return count;
    if (i >= value_of(count)) return OUTSIDE;
    r.at += RESOURCE_BYTES * i;
    return asked_digits(&r, RESOURCE_BYTES);
}

plain_answer plain_command_terminal_digit(const uint8_t *body, size_t n, size_t p, uint64_t i, uint64_t j) {
    return asked_digit(body, plain_command_terminal(body, n, p, i), j);
}
