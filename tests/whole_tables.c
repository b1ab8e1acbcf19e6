// whole_tables: the part of `whole` that makes forms and bodies of the four tables by chance, damages and tries them.
// SPDX-License-Identifier: MIT
#include <inttypes.h>
#include <stdio.h>
#include <string.h>

#include "real_day.h"
#include "whole.h"

enum { MOST_POOL = 2000000, MOST_ENTRIES = 180000, MOST_TRIED = NW_MOST_BODY + 4096 };

// ---- forms made by chance

static uint8_t pool[MOST_POOL];
static uint64_t tape[MOST_ENTRIES];

// The bytes that stand in the pool at first and are free; whether a field may be wrong; and how many more lists and
// lengths there are before the one that is as long as its field allows, or one longer.
static size_t free_bytes;
static int faults;
static uint64_t until_long;

// The usual number of things or bytes, or once in a form about the most of the field.
static size_t some(uint64_t usual, uint64_t most) {
    if (until_long-- > 0) return below(usual + 1);
    return most - 1 + below(3);
}

// Whether this field is to be wrong.
static int at_fault(uint64_t in) { return faults && one_in(in); }

static nw_form begin(size_t first_bytes, int may_be_wrong, uint64_t lists_before) {
    nw_form f = nw_form_start(pool, MOST_POOL, tape, MOST_ENTRIES);
    memcpy(pool, noise(), f.pool_bytes = free_bytes = first_bytes);
    faults = may_be_wrong;
    until_long = lists_before;
    return f;
}

// Bytes that are free.
static void opaque_of(nw_form *f, size_t length) {
    nw_form_number(f, below(free_bytes - length + 1));
    nw_form_number(f, length);
}

static void opaque(nw_form *f, uint64_t most) { opaque_of(f, some(20, most)); }

static void draw_digits(uint8_t *s, size_t width) {
    for (size_t i = 0; i < width; i++) s[i] = (uint8_t)(below(10) << 4 | below(10));
    s[0] |= (uint8_t)(below(16) << 4);
}

static void put_digits(nw_form *f, uint8_t *s, size_t width) {
    if (at_fault(100)) s[below(width)] |= one_in(2) ? 0x0A : 0xA0;
    nw_form_bytes(f, s, width);
}

static void resource(nw_form *f) {
    uint8_t s[12];
    draw_digits(s, sizeof s);
    put_digits(f, s, sizeof s);
}

// The identifiers made as good, and how many of them had a day at which a calendar goes wrong.
static uint64_t identifiers, at_an_end, on_leap_day, at_month_end;

// The identifiers made with a day that there is not.
static uint64_t without_day;

// A month 00 or 13, a day 00 or 32, 30 February, or a day just outside the range, in the place of a real day.
static void spoil_day(uint8_t *s) {
    static const uint8_t before[] = {0x19, 0x00, 0x02, 0x28}, after[] = {0x20, 0x38, 0x04, 0x23};
    uint8_t *day = s + DAY_AT;
    switch (below(5)) {
    case 0: day[2] = one_in(2) ? 0 : 0x13; break;
    case 1: day[3] = one_in(2) ? 0 : 0x32; break;
    case 2: day[2] = 0x02, day[3] = 0x30; break;
    case 3: memcpy(day, before, sizeof before); break;
    default: memcpy(day, after, sizeof after);
    }
    struct real_day d = day_in(s);
    if (!refusal_of(plain_day_of(d.year, d.month, d.day))) wrong("a spoiled day is real");
    without_day++;
}

// Counts an identifier made as good, whose day plain C's calendar must have.
static void hold_real_day(const uint8_t *s) {
    struct real_day d = day_in(s);
    plain_answer day = plain_day_of(d.year, d.month, d.day), next = plain_date_of((uint32_t)value_of(day) + 1);
    if (refusal_of(day)) wrong("an identifier made as good has no real day");
    identifiers++;
    at_an_end += value_of(day) == 15079 || value_of(day) == 65535;
    if (d.month == 2 && d.day == 29) on_leap_day++;
    else at_month_end += refusal_of(next) == 0 && date_day(next) == 1;
}

static void identifier(nw_form *f) {
    uint8_t s[18];
    draw_digits(s, sizeof s);
    put_real_day(s);
    hold_real_day(s);
    if (at_fault(50)) spoil_day(s);
    put_digits(f, s, sizeof s);
}

static void time_field(nw_form *f, int is_end) {
    static const uint64_t times[] = {0,        0x235959, 0x120000, 0x074500, 0x240000,
                                     0x006000, 0x000060, 0x0A0000, 0x00000A}; // four are good
    uint64_t day = at_fault(100) ? 15078 : one_in(20) ? 15079 : one_in(20) ? 65535 : 15079 + below(50457);
    nw_form_number(f, is_end && one_in(3) ? NW_LIVE : day << 24 | times[below(at_fault(60) ? 9 : 4)]);
}

static void list_of_opaque(nw_form *f, uint64_t most) {
    size_t left = some(4, 255);
    for (nw_form_number(f, left); left > 0; left--) opaque(f, most);
}

static void certificate_form(nw_form *f) {
    list_of_opaque(f, 65535);
    list_of_opaque(f, 255);
    opaque(f, 65535);
}

// 341 descriptors of one byte each fill the 1,023 bytes that their length can count.
static void descriptors(nw_form *f, size_t usual) {
    size_t count = some(usual, 341);
    nw_form_number(f, count);
    for (size_t i = 0; i < count; i++) {
        nw_form_number(f, below(256));
        opaque_of(f, count < 340 ? some(9, 255) : i == 0 ? below(3) : 1);
    }
}

static void channel(nw_form *f) {
    for (int i = 0; i < 3; i++) nw_form_number(f, below(65536));
    nw_form_number(f, below(0x2000));
    descriptors(f, 3);
    size_t left = some(3, 13107);
    for (nw_form_number(f, left); left > 0; left--) {
        nw_form_number(f, below(256));
        nw_form_number(f, below(0x2000));
        if (left > 20) nw_form_number(f, 0);
        else descriptors(f, 2);
    }
}

// What stands before the resources.
static void message_head(nw_form *f) {
    uint8_t type[5];
    for (size_t i = 0; i < 5; i++) type[i] = (uint8_t)below(at_fault(200) ? 256 : 128);
    identifier(f);
    nw_form_number(f, below(65536));
    time_field(f, 0);
    time_field(f, 1);
    nw_form_bytes(f, type, 5);
    nw_form_number(f, 1 + below(4));
    nw_form_number(f, 1 + below(4));
}

static void list_of_resources(nw_form *f, size_t left) {
    for (nw_form_number(f, left); left > 0; left--) resource(f);
}

// What follows in a message of about the 65,535 bytes that its length can count: a descriptor, and streams of 5 bytes.
static void long_message(nw_form *f) {
    nw_form_number(f, 0);
    for (int i = 0; i < 7; i++) nw_form_number(f, 1); // flag, three numbers, PCR PID, one descriptor, tag
    opaque_of(f, 1 + below(5));
    nw_form_number(f, 13096);
    for (size_t i = 0; i < 13096 * 3; i++) nw_form_number(f, 0);
}

static void message(nw_form *f) {
    uint64_t has_channel = below(2);
    message_head(f);
    if (some(0, 2) > 0) {
        long_message(f);
        return;
    }
    list_of_resources(f, some(3, 255));
    nw_form_number(f, has_channel);
    if (has_channel) channel(f);
}

static void index_form(nw_form *f) {
    size_t left = some(3, 255);
    for (nw_form_number(f, left); left > 0; left--) message(f);
    opaque(f, 65535);
}

static void language(nw_form *f) {
    uint8_t letters[3];
    for (size_t i = 0; i < 3; i++) letters[i] = (uint8_t)('a' + below(at_fault(100) ? 27 : 26));
    nw_form_bytes(f, letters, 3);
    nw_form_number(f, below(5));
    opaque(f, 65535);
    opaque(f, 255);
    uint64_t left = below(3);
    for (nw_form_number(f, left); left > 0; left--) {
        nw_form_number(f, below(256));
        opaque(f, 65535);
    }
}

static void content_form(nw_form *f) {
    identifier(f);
    uint64_t left = 1 + below(5);
    for (nw_form_number(f, left); left > 0; left--) language(f);
    opaque(f, 65535);
}

// An address of a kind, and sometimes none.
static void return_address(nw_form *f) {
    static const char *const good[] = {"13800138000", "\0\1\2\3\4\5", "a:1", "www.chinaeb-lab.org:8080",
                                       "~!:65535",    "x:00000"};
    static const char *const bad[] = {"1380013800", "1380013800a", "a:65536",  ":1", "a:",
                                      "a b:1",      "a:b:1",       "a:000001", ""};
    uint8_t s[300];
    size_t i = below(6), n = i == 1 ? 6 : strlen(good[i]);
    const char *from = good[i];
    nw_form_number(f, i < 2 ? i + 1 : 3);
    if (at_fault(10)) n = strlen(from = bad[below(9)]);
    memcpy(s, from, n);
    if (i > 2 && until_long-- == 0) { // a name that is about as long as the field allows
        memset(s, 'n', sizeof s);
        n = 254 + below(4);
        memcpy(s + n - 2, ":9", 2);
    }
    nw_form_bytes(f, s, n);
}

static void clock_fields(nw_form *f) {
    plain_answer date = plain_date_of(one_in(100) ? 15079 : 15079 + (uint32_t)below(50457));
    nw_form_number(f, date_year(date));
    nw_form_number(f, date_month(date));
    nw_form_number(f, date_day(date) + (uint64_t)at_fault(10));
    nw_form_number(f, below(24));
    nw_form_number(f, below(60));
    nw_form_number(f, below(at_fault(10) ? 80 : 60));
}

static void command(nw_form *f) {
    uint64_t tag = one_in(6) ? below(256) : 1 + below(7);
    nw_form_number(f, tag);
    switch (tag) {
    case NW_CLOCK: clock_fields(f); return;
    case NW_CODE: opaque(f, 255); resource(f); return;
    case NW_FREQUENCY:
        nw_form_number(f, chance() & UINT32_MAX);
        nw_form_number(f, chance() & UINT32_MAX);
        nw_form_number(f, below(6));
        break;
    case NW_RETURN: return_address(f); break;
    case NW_PERIOD: nw_form_number(f, chance() & UINT32_MAX); break;
    case NW_VOLUME: nw_form_number(f, below(101)); break;
    case NW_QUERY:
        for (size_t left = some(4, 255), i = (nw_form_number(f, left), 0); i < left; i++) nw_form_number(f, below(256));
        break;
    default: opaque(f, 65535); return;
    }
    list_of_resources(f, some(3, 255));
}

static void configuration_form(nw_form *f) {
    size_t left = some(5, 255);
    for (nw_form_number(f, left); left > 0; left--) command(f);
    opaque(f, 65535);
}

// ---- forms of the longest body less a byte, and so many more

static void certificate_longest(nw_form *f, size_t more) {
    nw_form_number(f, 15);
    for (int i = 0; i < 15; i++) opaque_of(f, 65535);
    nw_form_number(f, 0);
    opaque_of(f, NW_MOST_BODY - 1 - (1 + 15 * 65537 + 1 + 2) + more);
}

// 255 messages of 4,098 bytes, each with 255 resources and descriptors of 988 bytes, and their lengths.
static void index_longest(nw_form *f, size_t more) {
    nw_form_number(f, 255);
    for (int i = 0; i < 255; i++) {
        message_head(f);
        list_of_resources(f, 255);
        for (int k = 0; k < 5; k++) nw_form_number(f, 1); // flag, network, stream, program, PCR PID
        nw_form_number(f, 4);
        for (int k = 0; k < 4; k++) {
            nw_form_number(f, 7);
            opaque_of(f, k < 3 ? 255 : 215);
        }
        nw_form_number(f, 0);
    }
    opaque_of(f, more);
}

// The variant that content tables are made in, and the one that they are written, laid and read by: now and then another.
static uint32_t variant, by_variant;

static void in_variant(uint32_t bits) { variant = by_variant = bits; }
static uint32_t mostly_the_variant(void) { return one_in(8) ? (uint32_t)around(one_in(2) ? 24 : 32) : variant; }

static void content_longest(nw_form *f, size_t more) {
    identifier(f);
    nw_form_number(f, 1);
    nw_form_bytes(f, (const uint8_t *)"zho", 3);
    nw_form_number(f, 4);
    opaque_of(f, 0);
    opaque_of(f, 0);
    nw_form_number(f, 1);
    nw_form_number(f, 9);
    opaque_of(f, NW_MOST_BODY - 1 - (34 + variant / 8) + more);
    opaque_of(f, 0);
}

static void configuration_longest(nw_form *f, size_t more) {
    nw_form_number(f, 15);
    for (int i = 0; i < 15; i++) {
        nw_form_number(f, 200);
        opaque_of(f, 65535);
    }
    opaque_of(f, NW_MOST_BODY - 1 - (1 + 15 * 65538 + 2) + more);
}

// ---- the certificate table asked

// The kind mostly, and else another number.
static uint32_t mostly(uint32_t kind) { return one_in(8) ? (uint32_t)around(0xFB + below(4)) : kind; }

// The number of one of the things that were counted, mostly.
static uint64_t one_of(plain_answer count) { return around(below(value_of(count) % 256 + 1)); }

static void ask_certificate(const uint8_t *body, size_t n) {
    uint32_t kind = mostly(NW_CERTIFICATE);
    TRY(certificate_read, kind, body, n);
    plain_answer lists = TRY(certificate_authorization_count, body, n);
    plain_answer parts = TRY(certificate_certificate_count, body, n);
    for (int left = 4; left > 0; left--) {
        uint64_t i = one_of(lists), j = one_of(parts);
        TRY(certificate_authorization, body, n, i);
        TRY(certificate_certificate, body, n, j);
    }
    TRY(certificate_signature, body, n);
}

// ---- parts of a body asked

static size_t end_of(plain_answer part) { return part_start(part) + part_length(part); }

typedef void asks_part(const uint8_t *body, size_t n, size_t at, size_t length);

// A part that was answered, and what begins and ends near it.
static void ask_near(asks_part *ask, const uint8_t *body, size_t n, plain_answer part) {
    if (refusal_of(part)) return;
    ask(body, n, part_start(part), part_length(part));
    ask(body, n, around(part_start(part)), around(part_length(part)));
}

// What begins anywhere, and ends about the body's end.
static void ask_anywhere(asks_part *ask, const uint8_t *body, size_t n) {
    size_t at = below(n + 2);
    ask(body, n, at, around(n - at));
}

// ---- the index table asked

// What begins at a place of a part that has so many bytes from there on. Answers how many of them it has.
static size_t ask_placed(const uint8_t *body, size_t n, size_t at, size_t length, int is_stream) {
    TRY(descriptor_tag, body, n, at, length);
    TRY(stream_type, body, n, at, length);
    TRY(stream_pid, body, n, at, length);
    TRY(descriptor_count, body, n, at, length);
    TRY(stream_count, body, n, at, length);
    plain_answer bytes = TRY(descriptor_bytes, body, n, at, length);
    plain_answer inner = TRY(stream_descriptors, body, n, at, length);
    plain_answer next = is_stream ? inner : bytes;
    return refusal_of(next) ? length : end_of(next) - at;
}

static void ask_part(const uint8_t *body, size_t n, plain_answer part, int is_stream) {
    if (refusal_of(part)) return;
    size_t at = part_start(part), length = part_length(part);
    for (int left = 6; left > 0 && length > 0; left--) {
        if (is_stream) ask_part(body, n, TRY(stream_descriptors, body, n, at, length), 0);
        size_t size = ask_placed(body, n, at, length, is_stream);
        at += size;
        length -= size;
    }
    ask_placed(body, n, around(at), around(length), is_stream);
}

static void ask_channel(const uint8_t *body, size_t n, size_t at, size_t length) {
    TRY(message_channel_flag, body, n, at, length);
    TRY(message_channel_network, body, n, at, length);
    TRY(message_channel_stream, body, n, at, length);
    TRY(message_channel_program, body, n, at, length);
    TRY(message_pcr_pid, body, n, at, length);
    ask_part(body, n, TRY(message_descriptors, body, n, at, length), 0);
    ask_part(body, n, TRY(message_streams, body, n, at, length), 1);
}

static void ask_message(const uint8_t *body, size_t n, size_t at, size_t length) {
    uint64_t digit = around(below(36));
    int32_t offset = (int32_t)below(1700) - 760;
    TRY(message_identifier, body, n, at, length);
    TRY(message_identifier_digit, body, n, at, length, digit);
    TRY(message_extension, body, n, at, length);
    TRY(message_network, body, n, at, length);
    TRY(message_start, body, n, at, length);
    TRY(message_end, body, n, at, length);
    TRY(message_local_start, body, n, at, length, offset);
    TRY(message_local_end, body, n, at, length, offset);
    TRY(message_type, body, n, at, length);
    TRY(message_class, body, n, at, length);
    TRY(message_level, body, n, at, length);
    plain_answer count = TRY(message_resource_count, body, n, at, length);
    for (int left = 3; left > 0; left--) {
        uint64_t i = one_of(count), j = around(below(24));
        TRY(message_resource, body, n, at, length, i);
        TRY(message_resource_digit, body, n, at, length, i, j);
    }
    ask_channel(body, n, at, length);
}

// What a box shows that has the code of some message, mostly, while this or another one is on.
static void ask_screen(uint32_t kind, const uint8_t *body, size_t n, plain_answer message) {
    uint8_t code[NW_SCREEN_CODE_DIGITS + 1] = {0};
    size_t digits = one_in(40) ? below(sizeof code + 1) : NW_SCREEN_CODE_DIGITS;
    plain_answer own = refusal_of(message) ? message : plain_message_resource(body, n, part_start(message), part_length(message), 0);
    plain_answer start = refusal_of(message) ? message : plain_message_start(body, n, part_start(message), part_length(message));
    for (size_t i = 0; i < NW_SCREEN_CODE_DIGITS; i++)
        code[i] = (uint8_t)(refusal_of(own) ? below(10) : i % 2 ? body[part_start(own) + (i + 1) / 2] >> 4 : body[part_start(own) + i / 2] & 15);
    if (one_in(10)) code[below(sizeof code)] = (uint8_t)below(12);
    uint32_t day = refusal_of(start) || one_in(10) ? (uint32_t)around(40000) : (uint32_t)(value_of(start) >> 24) + (uint32_t)below(2);
    uint32_t second = (uint32_t)below(86500);
    TRY(screen_choose, kind, body, n, code, digits, day, second);
}

static void ask_index(const uint8_t *body, size_t n) {
    uint32_t kind = mostly(NW_INDEX);
    TRY(index_read, kind, body, n);
    plain_answer count = TRY(index_message_count, body, n);
    size_t messages = value_of(count) % 256, room = one_in(4) ? below(258) : messages + 1 - below(messages ? 3 : 2);
    TRY_OUTPUT(index_records, room, sizeof(nw_record), kind, body, n);
    TRY(index_signature, body, n);
    for (int left = 4; left > 0; left--) {
        uint64_t i = one_of(count);
        plain_answer message = TRY(index_message, body, n, i);
        ask_near(ask_message, body, n, message);
        ask_screen(kind, body, n, message);
    }
    ask_anywhere(ask_message, body, n);
}

// ---- the content table asked

static void ask_language(const uint8_t *body, size_t n, size_t at, size_t length) {
    TRY(language_letters, body, n, at, length);
    TRY(language_character_set, body, n, at, length);
    TRY(language_text, body, n, at, length);
    TRY(language_agency, body, n, at, length);
    plain_answer count = TRY(language_auxiliary_count, body, n, at, length);
    for (int left = 3; left > 0; left--) {
        uint64_t i = one_of(count);
        by_variant = mostly_the_variant();
        TRY(language_auxiliary_type, by_variant, body, n, at, length, i);
        TRY(language_auxiliary, by_variant, body, n, at, length, i);
    }
}

static void ask_content(const uint8_t *body, size_t n) {
    uint32_t kind = mostly(NW_CONTENT), extension = (uint32_t)around(value_of(TRY(content_extension, body, n)));
    uint64_t digit = around(below(36));
    if (one_in(8)) extension += (uint32_t)below(3) << 16;
    by_variant = mostly_the_variant();
    TRY(content_read, kind, by_variant, extension, body, n);
    TRY(content_read, kind, variant == 24 ? 32 : 24, extension, body, n);
    TRY(content_identifier, body, n);
    TRY(content_identifier_digit, body, n, digit);
    plain_answer count = TRY(content_language_count, body, n);
    TRY(content_signature, body, n);
    for (int left = 4; left > 0; left--) {
        uint64_t i = one_of(count);
        ask_near(ask_language, body, n, TRY(content_language, body, n, i));
    }
    ask_anywhere(ask_language, body, n);
}

// ---- the configuration table asked

static void ask_fixed(const uint8_t *body, size_t n, size_t p) {
    uint64_t digit = around(below(24));
    TRY(command_tag, body, n, p);
    TRY(command_clock_year, body, n, p);
    TRY(command_clock_month, body, n, p);
    TRY(command_clock_day, body, n, p);
    TRY(command_clock_hour, body, n, p);
    TRY(command_clock_minute, body, n, p);
    TRY(command_clock_second, body, n, p);
    TRY(command_code_address, body, n, p);
    TRY(command_code_resource, body, n, p);
    TRY(command_code_digit, body, n, p, digit);
    TRY(command_frequency, body, n, p);
    TRY(command_symbol_rate, body, n, p);
    TRY(command_mapping, body, n, p);
    TRY(command_return_kind, body, n, p);
    TRY(command_return_address, body, n, p);
    TRY(command_period, body, n, p);
    TRY(command_volume, body, n, p);
}

// Answers where the next command begins, or n.
static size_t ask_command(const uint8_t *body, size_t n, size_t p) {
    ask_fixed(body, n, p);
    plain_answer parameters = TRY(command_parameter_count, body, n, p);
    plain_answer terminals = TRY(command_terminal_count, body, n, p);
    for (int left = 3; left > 0; left--) {
        uint64_t parameter = one_of(parameters), terminal = one_of(terminals), digit = around(below(24));
        TRY(command_parameter, body, n, p, parameter);
        TRY(command_terminal, body, n, p, terminal);
        TRY(command_terminal_digit, body, n, p, terminal, digit);
    }
    plain_answer content = TRY(command_content, body, n, p);
    return refusal_of(content) ? n : end_of(content);
}

static void ask_configuration(const uint8_t *body, size_t n) {
    uint32_t kind = mostly(NW_CONFIGURATION);
    TRY(configuration_read, kind, body, n);
    plain_answer count = TRY(configuration_command_count, body, n);
    TRY(configuration_signature, body, n);
    for (int left = 4; left > 0; left--) {
        uint64_t i = one_of(count);
        plain_answer command = TRY(configuration_command, body, n, i);
        if (!refusal_of(command)) ask_command(body, n, part_start(command));
    }
    size_t p = 1;
    for (int left = 10; left > 0 && p < n; left--) p = ask_command(body, n, p);
    ask_command(body, n, around(below(n + 1)));
}

// ---- a table tried

typedef plain_answer writes(const uint8_t *pool, size_t pool_bytes, const uint64_t *tape, size_t entries, uint8_t *out,
                            size_t room);
typedef plain_answer lays(uint32_t kind, const uint8_t *body, size_t n, uint64_t *tape, size_t entries);

// The library's, whose answers have different shapes, as plain C's.
#define LIBRARYS(name)                                                                                               \
    static plain_answer writes_##name(const uint8_t *s, size_t n, const uint64_t *its, size_t entries, uint8_t *out, \
                                      size_t room) {                                                                 \
        return nw_##name##_write(s, n, its, entries, out, room).packed;                                              \
    }                                                                                                                \
    static plain_answer lays_##name(uint32_t kind, const uint8_t *s, size_t n, uint64_t *its, size_t entries) {      \
        return nw_##name##_lay(kind, s, n, its, entries).packed;                                                     \
    }

LIBRARYS(certificate)
LIBRARYS(index)
LIBRARYS(configuration)

// The content table's and plain C's, by the variant.
static plain_answer writes_content(const uint8_t *s, size_t n, const uint64_t *its, size_t entries, uint8_t *out,
                                   size_t room) {
    return nw_content_write(by_variant, s, n, its, entries, out, room).packed;
}
static plain_answer lays_content(uint32_t kind, const uint8_t *s, size_t n, uint64_t *its, size_t entries) {
    return nw_content_lay(kind, by_variant, s, n, its, entries).packed;
}
static plain_answer writes_plain_content(const uint8_t *s, size_t n, const uint64_t *its, size_t entries, uint8_t *out,
                                         size_t room) {
    return plain_content_write(by_variant, s, n, its, entries, out, room);
}
static plain_answer lays_plain_content(uint32_t kind, const uint8_t *s, size_t n, uint64_t *its, size_t entries) {
    return plain_content_lay(kind, by_variant, s, n, its, entries);
}

struct table {
    uint32_t kind;
    void (*form)(nw_form *f), (*longest)(nw_form *f, size_t more), (*ask)(const uint8_t *body, size_t n);
    int write, lay;
    writes *writes_library, *writes_plain;
    lays *lays_library, *lays_plain;
};

#define TABLE_BY(name, kind, writes_plain, lays_plain)                                                                \
    {kind, name##_form, name##_longest, ask_##name, F_##name##_write, F_##name##_lay,                                \
     writes_##name, writes_plain, lays_##name, lays_plain}
#define TABLE(name, kind) TABLE_BY(name, kind, plain_##name##_write, plain_##name##_lay)

static const struct table tables[] = {TABLE(certificate, NW_CERTIFICATE), TABLE(index, NW_INDEX),
                                      TABLE_BY(content, NW_CONTENT, writes_plain_content, lays_plain_content),
                                      TABLE(configuration, NW_CONFIGURATION)};

static plain_answer try_write(const struct table *t, const nw_form *f, size_t room) {
    const uint8_t *s = lend(&input, f->pool, f->pool_bytes);
    const uint64_t *its = lend(&tape_input, f->tape, f->entries * sizeof(uint64_t));
    lend_outputs(room);
    trying = t->write;
    plain_answer got = same_outputs(t->writes_library(s, f->pool_bytes, its, f->entries, output_library.at, room),
                                    t->writes_plain(s, f->pool_bytes, its, f->entries, output_plain.at, room));
    unchanged(&input, f->pool);
    unchanged(&tape_input, f->tape);
    return got;
}

// Writes a form at sizes of the output about the body's. Answers the body's length, and 0 for a refusal.
static size_t try_form(const struct table *t, const nw_form *f, uint8_t *body) {
    plain_answer got = try_write(t, f, f->pool_bytes < 10000 ? 8000 : MOST_TRIED);
    if (refusal_of(got)) return 0;
    size_t n = value_of(got) & 0xFFFFFF;
    memcpy(body, output_library.at, n);
    for (size_t room = n - (n < 3 ? n : 3); room < n + 3; room++) try_write(t, f, room);
    try_write(t, f, below(n + 1));
    return n;
}

static plain_answer try_lay(const struct table *t, const uint8_t *body, size_t n, size_t entries) {
    uint32_t kind = mostly(t->kind);
    by_variant = mostly_the_variant();
    lend_outputs(entries * sizeof(uint64_t));
    trying = t->lay;
    return same_outputs(t->lays_library(kind, body, n, (void *)output_library.at, entries),
                        t->lays_plain(kind, body, n, (void *)output_plain.at, entries));
}

// Asks a body for everything, and lays it at sizes of the tape about what it needs.
static void try_body(const struct table *t, const uint8_t *bytes, size_t n) {
    const uint8_t *body = lend(&input, bytes, n);
    t->ask(body, n);
    plain_answer got = try_lay(t, body, n, n < 10000 ? 600 : MOST_ENTRIES);
    size_t entries = value_of(got);
    for (size_t least = entries - 1; refusal_of(got) == 0 && least < entries + 2; least++) try_lay(t, body, n, least);
    unchanged(&input, bytes);
}

// An entry changed, some cut off, one put at the end, or the pool changed.
static void damage_form(nw_form *f) {
    size_t at = below(f->entries + 1);
    switch (below(8)) {
    case 0: f->entries = at; return;
    case 1: f->tape[f->entries++] = around(0); return;
    case 2: f->pool_bytes -= below(20); return;
    case 3: f->pool[below(f->pool_bytes)] = (uint8_t)chance(); return;
    default:
        if (at < f->entries) f->tape[at] = around(f->tape[at] + below(2));
    }
}

static void try_damaged_forms(const struct table *t, const nw_form *f, int count, size_t room) {
    static uint8_t kept_pool[MOST_POOL];
    static uint64_t kept_tape[MOST_ENTRIES];
    memcpy(kept_pool, f->pool, f->pool_bytes);
    memcpy(kept_tape, f->tape, f->entries * sizeof(uint64_t));
    for (; count > 0; count--) {
        nw_form damaged = *f;
        for (uint64_t left = 1 + below(2); left > 0; left--) damage_form(&damaged);
        by_variant = mostly_the_variant();
        try_write(t, &damaged, room);
        memcpy(f->pool, kept_pool, f->pool_bytes);
        memcpy(f->tape, kept_tape, f->entries * sizeof(uint64_t));
    }
}

// A form and its body, then both damaged in some ways, and the body at every length up to some hundreds.
static void try_made(const struct table *t, int is_long) {
    static uint8_t body[MOST_TRIED], damaged[MOST_TRIED];
    in_variant(one_in(2) ? NW_AUXILIARY_24 : NW_AUXILIARY_32);
    nw_form f = begin(is_long ? 70000 : 64, one_in(3), is_long ? below(20) : UINT64_MAX);
    t->form(&f);
    size_t n = try_form(t, &f, body);
    try_damaged_forms(t, &f, is_long ? 2 : 12, is_long ? MOST_TRIED : 8000);
    if (n == 0) return;
    try_body(t, body, n);
    for (int left = is_long ? 2 : 20; left > 0; left--) {
        size_t bytes = n;
        memcpy(damaged, body, n);
        damage(damaged, &bytes, sizeof damaged);
        try_body(t, damaged, bytes);
    }
    if (one_in(40))
        for (size_t cut = 0; cut < n && cut < 400; cut++) try_body(t, body, cut);
}

static void try_longest_of(const struct table *t) {
    static uint8_t body[MOST_TRIED];
    for (size_t more = 0; more < 3; more++) {
        in_variant(variant);
        nw_form f = begin(1100000, 0, UINT64_MAX);
        t->longest(&f, more);
        size_t n = try_form(t, &f, body);
        if (n == 0) continue;
        try_body(t, body, n);
        for (size_t i = n - 2; i < n + 3; i++) try_body(t, body, i);
    }
}

static void try_noise(const struct table *t) {
    static uint8_t body[600];
    for (size_t n = 0; n < sizeof body; n++)
        for (int left = 8; left > 0; left--) {
            size_t bytes = n;
            for (size_t i = 0; i < n; i++) body[i] = one_in(2) ? (uint8_t)below(3) : (uint8_t)chance();
            damage(body, &bytes, sizeof body);
            try_body(t, body, bytes);
        }
}

void try_tables(void) {
    for (size_t i = 0; i < sizeof tables / sizeof tables[0]; i++) {
        for (int left = 8000; left > 0; left--) try_made(tables + i, 0);
        for (int left = 800; left > 0; left--) try_made(tables + i, 1);
        in_variant(NW_AUXILIARY_24);
        try_longest_of(tables + i);
        in_variant(NW_AUXILIARY_32);
        if (tables[i].kind == NW_CONTENT) try_longest_of(tables + i);
        try_noise(tables + i);
    }
    if (!at_an_end || !on_leap_day || !at_month_end) wrong("no identifier has a day at which a calendar goes wrong");
    if (!without_day) wrong("no identifier has an unreal day");
    printf("whole: %" PRIu64 " identifiers made as good have a real day, %" PRIu64 " times the first or last, %" PRIu64
           " a 29 February, %" PRIu64 " another month's end; %" PRIu64 " then got an unreal one\n",
           identifiers, at_an_end, on_leap_day, at_month_end, without_day);
}
