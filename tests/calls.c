// calls: puts requests from standard input to the library, one to a line, and prints a line of answer to each.
//
// A request is the name of a call and its arguments, one space before each: numbers in decimal, byte strings in
// hexadecimal, tapes as numbers with a comma between two, lists of records so too, with six numbers for each, `-` for
// what is empty. So are answers. In a request `005a*20` is 00 and then 5a twenty times over. A new call is a function and
// its line in `calls`.
// SPDX-License-Identifier: MIT
#define _POSIX_C_SOURCE 200809L
#include <errno.h>
#include <inttypes.h>
#include <stdio.h>
#include <stdlib.h>
#include <string.h>

#include "neapwillow.h"

enum { MOST_ARGUMENTS = 8, GUARD = 64 };

// A byte string or a tape stands in a block of exactly its size, so that a memory checker sees any byte read past it.
// A lent output has guard bytes on both sides, which no call may change. A length counts bytes, entries or records.
struct argument {
    uint8_t *block;
    size_t guard;
    size_t size;
    uint8_t *bytes;
    uint64_t *tape;
    nw_record *records;
    size_t length;
    int64_t number;
    uint64_t wide;
};

// `takes` has a letter for each argument: b, a byte string; u, a number of 32 bits; i, a signed one; w, one of 64 bits;
// t, a tape, an array of these; and lent outputs, given by what they hold before the call: o, of bytes; l, a tape to
// lay on; r, a list of records.
struct call {
    const char *name;
    const char *takes;
    void (*answer)(const struct argument *a);
};

static unsigned long line_number;

static _Noreturn void stop(const char *why) {
    fprintf(stderr, "calls: line %lu: %s\n", line_number, why);
    exit(2);
}

static uint8_t guard_byte(size_t i) { return (uint8_t)(i ^ 0xa5); }

static void hold_guards(const struct argument *a) {
    for (size_t i = 0; i < a->guard; i++)
        if (a->block[i] != guard_byte(i) || a->bytes[a->size + i] != guard_byte(i))
            stop("a byte beside a lent output changed");
}

// ---- what an answer is printed with

static const char *between = "";

// What stands before an item: nothing before the first of a line, a space before the others.
static void next_item(void) {
    fputs(between, stdout);
    between = " ";
}

static void put_number(uint64_t x) {
    next_item();
    printf("%" PRIu64, x);
}

static void put_signed(int64_t x) {
    next_item();
    printf("%" PRId64, x);
}

static void put_bytes(const uint8_t *s, size_t n) {
    static const char digits[] = "0123456789abcdef";
    next_item();
    if (n == 0) putchar('-');
    for (size_t i = 0; i < n; i++) {
        putchar(digits[s[i] / 16]);
        putchar(digits[s[i] % 16]);
    }
}

static void put_tape(const uint64_t *tape, size_t entries) {
    next_item();
    if (entries == 0) putchar('-');
    for (size_t i = 0; i < entries; i++) printf(i > 0 ? ",%" PRIu64 : "%" PRIu64, tape[i]);
}

static void put_records(const nw_record *list, size_t count) {
    next_item();
    if (count == 0) putchar('-');
    for (const nw_record *r = list; r < list + count; r++)
        printf("%s%zu,%zu,%" PRIu64 ",%" PRIu64 ",%" PRIu64 ",%" PRIu64, r > list ? "," : "", r->at, r->length,
               r->start, r->end, r->class_, r->level);
}

// Of an answer of any shape: the refusal's number, 0 for none; then its place, or the value.
#define put_answer(answer) put_packed((answer).packed)

static void put_packed(uint64_t a) {
    put_number(a & 0xff);
    put_number(a >> 8);
}

// ---- the calls

// What was read, as it was understood.
static void call_echo(const struct argument *a) {
    put_bytes(a[0].bytes, a[0].length);
    put_number((uint64_t)a[1].number);
    put_signed(a[2].number);
    put_number(a[3].wide);
    put_bytes(a[4].bytes, a[4].length);
    put_tape(a[5].tape, a[5].length);
}

static void call_crc32(const struct argument *a) { put_number(nw_crc32(a[0].bytes, a[0].length)); }
static void call_crc16(const struct argument *a) { put_number(nw_crc16(a[0].bytes, a[0].length)); }

static void call_day_of(const struct argument *a) {
    put_answer(nw_day_of((uint32_t)a[0].number, (uint32_t)a[1].number, (uint32_t)a[2].number));
}

static void call_date_of(const struct argument *a) { put_answer(nw_date_of((uint32_t)a[0].number)); }
static void call_weekday(const struct argument *a) { put_answer(nw_weekday((uint32_t)a[0].number)); }

static void call_time_pack(const struct argument *a) {
    put_answer(nw_time_pack((uint32_t)a[0].number, (uint32_t)a[1].number, (uint32_t)a[2].number, (uint32_t)a[3].number,
                            (uint32_t)a[4].number, (uint32_t)a[5].number, (int32_t)a[6].number));
}

// An answer of several numbers is printed whole, and then as the header takes it apart.
static void call_time_unpack(const struct argument *a) {
    nw_time got = nw_time_unpack(a[0].wide, (int32_t)a[1].number);
    put_answer(got);
    if (NW_REFUSAL(got)) return;
    put_number(nw_time_year(got));
    put_number(nw_time_month(got));
    put_number(nw_time_day(got));
    put_number(nw_time_hour(got));
    put_number(nw_time_minute(got));
    put_number(nw_time_second(got));
}

static void call_time_read_text(const struct argument *a) {
    put_answer(nw_time_read_text(a[0].bytes, a[0].length, (int32_t)a[1].number));
}

static void call_time_print_start(const struct argument *a) {
    put_answer(nw_time_print_start(a[0].wide, (int32_t)a[1].number, a[2].bytes, a[2].length));
    put_bytes(a[2].bytes, a[2].length);
}

static void call_time_print_end(const struct argument *a) {
    put_answer(nw_time_print_end(a[0].wide, (int32_t)a[1].number, a[2].bytes, a[2].length));
    put_bytes(a[2].bytes, a[2].length);
}

static void call_times_read_text(const struct argument *a) {
    if (a[4].length != 2) stop("two fields are lent");
    put_answer(nw_times_read_text(a[0].bytes, a[0].length, a[1].bytes, a[1].length, (uint32_t)a[2].number,
                                  (int32_t)a[3].number, a[4].tape));
    put_tape(a[4].tape, a[4].length);
}

static void call_time_showing(const struct argument *a) {
    put_answer(nw_time_showing(a[0].wide, a[1].wide, (uint32_t)a[2].number, (uint32_t)a[3].number));
}

static void call_section_read(const struct argument *a) {
    nw_heading got = nw_section_read(a[0].bytes, a[0].length);
    put_answer(got);
    if (NW_REFUSAL(got)) return;
    put_number(nw_heading_kind(got));
    put_number(nw_heading_extension(got));
    put_number(nw_heading_version(got));
    put_number(nw_heading_current(got));
    put_number(nw_heading_number(got));
    put_number(nw_heading_last(got));
}

static void call_section_length(const struct argument *a) { put_answer(nw_section_length(a[0].bytes, a[0].length)); }
static void call_section_count(const struct argument *a) { put_answer(nw_section_count(a[0].wide)); }

static nw_answer cut(const struct argument *a, uint32_t number, uint8_t *out, size_t room) {
    return nw_section_cut(a[0].bytes, a[0].length, (uint32_t)a[1].number, (uint32_t)a[2].number, (uint32_t)a[3].number,
                          number, out, room);
}

static void call_section_cut(const struct argument *a) {
    put_answer(cut(a, (uint32_t)a[4].number, a[5].bytes, a[5].length));
    put_bytes(a[5].bytes, a[5].length);
}

// All sections of a body, each right after the one before; the answer is the refusal that ends them.
static void call_section_cut_all(const struct argument *a) {
    nw_answer got;
    size_t used = 0;
    for (uint32_t number = 0; NW_REFUSAL(got = cut(a, number, a[4].bytes + used, a[4].length - used)) == 0; number++) {
        if (nw_value(got) == 0 || nw_value(got) > a[4].length - used) stop("a section of no bytes, or past its room");
        used += nw_value(got);
    }
    put_answer(got);
    put_bytes(a[4].bytes, a[4].length);
}

// A list of runs is lent and printed as its bytes.
static void call_salvage(const struct argument *a) {
    nw_salvaged got = nw_salvage(a[0].bytes, a[0].length, a[1].bytes, a[1].length, (uint32_t *)(void *)a[2].bytes,
                                 a[2].length / sizeof(uint32_t));
    put_answer(got);
    if (NW_REFUSAL(got) == NW_TAKEN) {
        put_number(nw_salvaged_runs(got));
        put_number(nw_salvaged_bytes(got));
    }
    put_bytes(a[1].bytes, a[1].length);
    put_bytes(a[2].bytes, a[2].length);
}

// ---- a gathering: its state and its store are lent once, and stay between requests

static struct argument state, store;

// A copy of a lent output, guard bytes and all, in the place of what was lent before.
static void keep(struct argument *kept, const struct argument *lent) {
    free(kept->block);
    *kept = *lent;
    kept->block = malloc(lent->size + 2 * lent->guard);
    if (kept->block == NULL) stop("out of memory");
    memcpy(kept->block, lent->block, lent->size + 2 * lent->guard);
    kept->bytes = kept->block + kept->guard;
}

static void call_gathering_state(const struct argument *a) {
    if (a[0].length != sizeof(struct nw_gathering)) stop("not as long as a state");
    keep(&state, &a[0]);
}

static void call_gathering_store(const struct argument *a) { keep(&store, &a[0]); }

static struct nw_gathering *lent_state(void) {
    if (state.block == NULL || store.block == NULL) stop("no state or no store is lent");
    return (struct nw_gathering *)(void *)state.bytes;
}

static void call_gathering_feed(const struct argument *a) {
    put_answer(nw_gathering_feed(lent_state(), store.bytes, store.length, a[0].bytes, a[0].length));
    hold_guards(&state);
    hold_guards(&store);
}

static void call_gathering_hand_out(const struct argument *a) {
    put_answer(nw_gathering_hand_out(lent_state(), store.bytes, store.length, a[0].bytes, a[0].length));
    put_bytes(a[0].bytes, a[0].length);
    hold_guards(&state);
    hold_guards(&store);
}

// With the answer the packed body is shown, which stands at the front of the store.
static void call_gathering_pack(const struct argument *a) {
    (void)a;
    nw_answer packed = nw_gathering_pack(lent_state(), store.bytes, store.length);
    put_answer(packed);
    put_bytes(store.bytes, NW_REFUSAL(packed) == NW_TAKEN ? (size_t)nw_value(packed) : 0);
    hold_guards(&state);
    hold_guards(&store);
}

// Adler-32, a checksum that has nothing of the library's. The sums of 1 MiB are far below 2^64.
static uint64_t adler32(const uint8_t *s, size_t n) {
    uint64_t sum = 1, sums = 0;
    for (size_t i = 0; i < n; i++) sums += sum += s[i];
    return sums % 65521 << 16 | sum % 65521;
}

// The store by its checksum; the state by its fields, and for each held number the number and what the state has there.
static void call_gathering_show(const struct argument *a) {
    (void)a;
    const struct nw_gathering *g = lent_state();
    put_number(adler32(store.bytes, store.length));
    put_number(g->bytes);
    put_number(g->missing);
    put_number(g->extension);
    put_number(g->kind);
    put_number(g->version);
    put_number(g->last);
    put_number(g->spoiled);
    for (size_t k = 0; k < sizeof g->held / sizeof g->held[0]; k++)
        if (g->held[k] != 0) {
            put_number(k);
            put_number(g->held[k]);
        }
}

static void call_gathering_counts(const struct argument *a) {
    (void)a;
    const struct nw_gathering *g = lent_state();
    put_number(g->missing);
    put_number(g->bytes);
}

// ---- the certificate table

// An accepted body's fields follow in their order, each as it is answered.
static void call_certificate_read(const struct argument *a) {
    const uint8_t *body = a[1].bytes;
    size_t n = a[1].length;
    nw_answer got = nw_certificate_read((uint32_t)a[0].number, body, n);
    put_answer(got);
    if (NW_REFUSAL(got)) return;
    put_answer(got = nw_certificate_authorization_count(body, n));
    for (uint64_t i = 0; i < nw_value(got); i++) put_answer(nw_certificate_authorization(body, n, i));
    put_answer(got = nw_certificate_certificate_count(body, n));
    for (uint64_t i = 0; i < nw_value(got); i++) put_answer(nw_certificate_certificate(body, n, i));
    put_answer(nw_certificate_signature(body, n));
}

static void call_certificate_authorization(const struct argument *a) {
    put_answer(nw_certificate_authorization(a[0].bytes, a[0].length, a[1].wide));
}

static void call_certificate_certificate(const struct argument *a) {
    put_answer(nw_certificate_certificate(a[0].bytes, a[0].length, a[1].wide));
}

static void call_certificate_measure(const struct argument *a) {
    put_answer(nw_certificate_measure(a[0].bytes, a[0].length, a[1].tape, a[1].length));
}

static void call_certificate_write(const struct argument *a) {
    put_answer(nw_certificate_write(a[0].bytes, a[0].length, a[1].tape, a[1].length, a[2].bytes, a[2].length));
    put_bytes(a[2].bytes, a[2].length);
}

// The whole tape is printed, what was laid and what stayed.
static void call_certificate_lay(const struct argument *a) {
    put_answer(nw_certificate_lay((uint32_t)a[0].number, a[1].bytes, a[1].length, a[2].tape, a[2].length));
    put_tape(a[2].tape, a[2].length);
}

// ---- the index table

// What a function answers of what stands in a body, told by the words after its name.
#define ASK(name, ...) put_answer(nw_##name(body->bytes, body->length, __VA_ARGS__))

// What is asked of a message without a further number.
static void put_message(const struct argument *body, size_t at, size_t length) {
    ASK(message_identifier, at, length);
    ASK(message_extension, at, length);
    ASK(message_network, at, length);
    ASK(message_start, at, length);
    ASK(message_end, at, length);
    ASK(message_type, at, length);
    ASK(message_class, at, length);
    ASK(message_level, at, length);
    ASK(message_resource_count, at, length);
    ASK(message_channel_flag, at, length);
    ASK(message_channel_network, at, length);
    ASK(message_channel_stream, at, length);
    ASK(message_channel_program, at, length);
    ASK(message_pcr_pid, at, length);
    ASK(message_descriptors, at, length);
    ASK(message_streams, at, length);
}

static void put_local_times(const struct argument *body, size_t at, size_t length, int32_t offset) {
    put_answer(nw_message_local_start(body->bytes, body->length, at, length, offset));
    put_answer(nw_message_local_end(body->bytes, body->length, at, length, offset));
}

// A digit that was answered, or a sign that none was.
static void put_digit(nw_answer got) {
    putchar(NW_REFUSAL(got) == 0 && nw_value(got) < 10 ? (int)('0' + nw_value(got)) : '?');
}

static void put_identifier_digits(const struct argument *body, size_t at, size_t length) {
    next_item();
    for (uint64_t i = 0; i < 35; i++)
        put_digit(nw_message_identifier_digit(body->bytes, body->length, at, length, i));
}

static void put_resources(const struct argument *body, size_t at, size_t length) {
    uint64_t count = nw_value(nw_message_resource_count(body->bytes, body->length, at, length));
    for (uint64_t i = 0; i < count; i++) {
        put_answer(nw_message_resource(body->bytes, body->length, at, length, i));
        next_item();
        for (uint64_t j = 0; j < 23; j++)
            put_digit(nw_message_resource_digit(body->bytes, body->length, at, length, i, j));
    }
}

// Where a part ends that must lie after p.
static size_t end_after(size_t p, nw_part part) {
    size_t end = nw_part_start(part) + nw_part_length(part);
    if (NW_REFUSAL(part) || end <= p) stop("a part that leads no further");
    return end;
}

static void put_descriptor(const struct argument *body, size_t at, size_t length) {
    put_answer(nw_descriptor_tag(body->bytes, body->length, at, length));
    put_answer(nw_descriptor_bytes(body->bytes, body->length, at, length));
}

static void put_stream(const struct argument *body, size_t at, size_t length) {
    put_answer(nw_stream_type(body->bytes, body->length, at, length));
    put_answer(nw_stream_pid(body->bytes, body->length, at, length));
    put_answer(nw_stream_descriptors(body->bytes, body->length, at, length));
}

// The count stands before what is counted.
static void put_descriptors(const struct argument *body, nw_part part) {
    size_t at = nw_part_start(part), length = nw_part_length(part);
    put_answer(nw_descriptor_count(body->bytes, body->length, at, length));
    for (size_t size; length > 0; at += size, length -= size) {
        put_descriptor(body, at, length);
        size = end_after(at, nw_descriptor_bytes(body->bytes, body->length, at, length)) - at;
    }
}

static void put_streams(const struct argument *body, nw_part part) {
    size_t at = nw_part_start(part), length = nw_part_length(part);
    put_answer(nw_stream_count(body->bytes, body->length, at, length));
    for (size_t size; length > 0; at += size, length -= size) {
        nw_part descriptors = nw_stream_descriptors(body->bytes, body->length, at, length);
        put_stream(body, at, length);
        put_descriptors(body, descriptors);
        size = end_after(at, descriptors) - at;
    }
}

// A message, its resources, and what its channel has.
static void put_whole_message(const struct argument *body, nw_part part, int32_t offset) {
    size_t n = body->length, at = nw_part_start(part), length = nw_part_length(part);
    put_answer(part);
    put_message(body, at, length);
    put_identifier_digits(body, at, length);
    put_local_times(body, at, length, offset);
    put_resources(body, at, length);
    if (nw_value(nw_message_channel_flag(body->bytes, n, at, length)) == 0) return;
    put_descriptors(body, nw_message_descriptors(body->bytes, n, at, length));
    put_streams(body, nw_message_streams(body->bytes, n, at, length));
}

// An accepted body's fields follow in their order, each as it is answered; the local times are those at an offset.
static void call_index_read(const struct argument *a) {
    const struct argument *body = &a[1];
    nw_answer got = nw_index_read((uint32_t)a[0].number, body->bytes, body->length);
    put_answer(got);
    if (NW_REFUSAL(got)) return;
    put_answer(got = nw_index_message_count(body->bytes, body->length));
    for (uint64_t i = 0; i < nw_value(got); i++)
        put_whole_message(body, nw_index_message(body->bytes, body->length, i), (int32_t)a[2].number);
    put_answer(nw_index_signature(body->bytes, body->length));
}

// The whole list is printed, what was written and what stayed.
static void call_index_records(const struct argument *a) {
    put_answer(nw_index_records((uint32_t)a[0].number, a[1].bytes, a[1].length, a[2].records, a[2].length));
    put_records(a[2].records, a[2].length);
}

static void call_index_lay(const struct argument *a) {
    put_answer(nw_index_lay((uint32_t)a[0].number, a[1].bytes, a[1].length, a[2].tape, a[2].length));
    put_tape(a[2].tape, a[2].length);
}

static void call_index_measure(const struct argument *a) {
    put_answer(nw_index_measure(a[0].bytes, a[0].length, a[1].tape, a[1].length));
}

static void call_index_write(const struct argument *a) {
    put_answer(nw_index_write(a[0].bytes, a[0].length, a[1].tape, a[1].length, a[2].bytes, a[2].length));
    put_bytes(a[2].bytes, a[2].length);
}

static void call_index_message_count(const struct argument *a) {
    put_answer(nw_index_message_count(a[0].bytes, a[0].length));
}

static void call_index_message(const struct argument *a) {
    put_answer(nw_index_message(a[0].bytes, a[0].length, a[1].wide));
}

static void call_index_signature(const struct argument *a) { put_answer(nw_index_signature(a[0].bytes, a[0].length)); }

static void call_message_fields(const struct argument *a) { put_message(&a[0], a[1].wide, a[2].wide); }

static void call_message_local_times(const struct argument *a) {
    put_local_times(&a[0], a[1].wide, a[2].wide, (int32_t)a[3].number);
}

static void call_message_identifier_digit(const struct argument *a) {
    put_answer(nw_message_identifier_digit(a[0].bytes, a[0].length, a[1].wide, a[2].wide, a[3].wide));
}

static void call_message_resource(const struct argument *a) {
    put_answer(nw_message_resource(a[0].bytes, a[0].length, a[1].wide, a[2].wide, a[3].wide));
}

static void call_message_resource_digit(const struct argument *a) {
    put_answer(nw_message_resource_digit(a[0].bytes, a[0].length, a[1].wide, a[2].wide, a[3].wide, a[4].wide));
}

static void call_descriptor_fields(const struct argument *a) { put_descriptor(&a[0], a[1].wide, a[2].wide); }
static void call_stream_fields(const struct argument *a) { put_stream(&a[0], a[1].wide, a[2].wide); }

static void call_descriptor_count(const struct argument *a) {
    put_answer(nw_descriptor_count(a[0].bytes, a[0].length, a[1].wide, a[2].wide));
}

static void call_stream_count(const struct argument *a) {
    put_answer(nw_stream_count(a[0].bytes, a[0].length, a[1].wide, a[2].wide));
}

// ---- the content table

// What is asked of a body, and of a language, without a further number.
static void put_content(const struct argument *body) {
    put_answer(nw_content_identifier(body->bytes, body->length));
    put_answer(nw_content_extension(body->bytes, body->length));
    put_answer(nw_content_language_count(body->bytes, body->length));
    put_answer(nw_content_signature(body->bytes, body->length));
}

static void put_language(const struct argument *body, size_t at, size_t length) {
    ASK(language_letters, at, length);
    ASK(language_character_set, at, length);
    ASK(language_text, at, length);
    ASK(language_agency, at, length);
    ASK(language_auxiliary_count, at, length);
}

static void put_auxiliary(uint32_t variant, const struct argument *body, size_t at, size_t length, uint64_t i) {
    put_answer(nw_language_auxiliary_type(variant, body->bytes, body->length, at, length, i));
    put_answer(nw_language_auxiliary(variant, body->bytes, body->length, at, length, i));
}

static void put_whole_language(uint32_t variant, const struct argument *body, nw_part part) {
    size_t at = nw_part_start(part), length = nw_part_length(part);
    put_answer(part);
    put_language(body, at, length);
    uint64_t count = nw_value(nw_language_auxiliary_count(body->bytes, body->length, at, length));
    for (uint64_t i = 0; i < count; i++) put_auxiliary(variant, body, at, length, i);
}

// An accepted body's fields follow, each as it is answered.
static void call_content_read(const struct argument *a) {
    const struct argument *body = &a[3];
    uint32_t variant = (uint32_t)a[1].number;
    nw_answer got = nw_content_read((uint32_t)a[0].number, variant, (uint32_t)a[2].number, body->bytes, body->length);
    put_answer(got);
    if (NW_REFUSAL(got)) return;
    put_content(body);
    next_item();
    for (uint64_t i = 0; i < 35; i++) put_digit(nw_content_identifier_digit(body->bytes, body->length, i));
    uint64_t count = nw_value(nw_content_language_count(body->bytes, body->length));
    for (uint64_t i = 0; i < count; i++)
        put_whole_language(variant, body, nw_content_language(body->bytes, body->length, i));
}

static void call_content_lay(const struct argument *a) {
    put_answer(nw_content_lay((uint32_t)a[0].number, (uint32_t)a[1].number, a[2].bytes, a[2].length, a[3].tape,
                              a[3].length));
    put_tape(a[3].tape, a[3].length);
}

static void call_content_measure(const struct argument *a) {
    put_answer(nw_content_measure((uint32_t)a[0].number, a[1].bytes, a[1].length, a[2].tape, a[2].length));
}

static void call_content_write(const struct argument *a) {
    nw_written got = nw_content_write((uint32_t)a[0].number, a[1].bytes, a[1].length, a[2].tape, a[2].length, a[3].bytes,
                                      a[3].length);
    put_answer(got);
    if (NW_REFUSAL(got) == 0) {
        put_number(nw_written_extension(got));
        put_number(nw_written_length(got));
    }
    put_bytes(a[3].bytes, a[3].length);
}

static void call_content_fields(const struct argument *a) { put_content(&a[0]); }

static void call_content_identifier_digit(const struct argument *a) {
    put_answer(nw_content_identifier_digit(a[0].bytes, a[0].length, a[1].wide));
}

static void call_content_language(const struct argument *a) {
    put_answer(nw_content_language(a[0].bytes, a[0].length, a[1].wide));
}

static void call_language_fields(const struct argument *a) { put_language(&a[0], a[1].wide, a[2].wide); }

static void call_auxiliary_fields(const struct argument *a) {
    put_auxiliary((uint32_t)a[0].number, &a[1], a[2].wide, a[3].wide, a[4].wide);
}

// ---- the configuration table

static void put_configuration(const struct argument *body) {
    put_answer(nw_configuration_command_count(body->bytes, body->length));
    put_answer(nw_configuration_signature(body->bytes, body->length));
}

// What is asked of a command without a further number.
static void put_command(const struct argument *body, size_t at) {
    ASK(command_tag, at);
    ASK(command_content, at);
    ASK(command_clock_year, at);
    ASK(command_clock_month, at);
    ASK(command_clock_day, at);
    ASK(command_clock_hour, at);
    ASK(command_clock_minute, at);
    ASK(command_clock_second, at);
    ASK(command_code_address, at);
    ASK(command_code_resource, at);
    ASK(command_frequency, at);
    ASK(command_symbol_rate, at);
    ASK(command_mapping, at);
    ASK(command_return_kind, at);
    ASK(command_return_address, at);
    ASK(command_period, at);
    ASK(command_volume, at);
    ASK(command_parameter_count, at);
    ASK(command_terminal_count, at);
}

// So many things of a command; where there are none of these, its count is refused.
static uint64_t count_of(nw_answer count) { return NW_REFUSAL(count) ? 0 : nw_value(count); }

static void put_terminals(const struct argument *body, size_t at) {
    uint64_t count = count_of(nw_command_terminal_count(body->bytes, body->length, at));
    for (uint64_t i = 0; i < count; i++) {
        put_answer(nw_command_terminal(body->bytes, body->length, at, i));
        next_item();
        for (uint64_t j = 0; j < 23; j++) put_digit(nw_command_terminal_digit(body->bytes, body->length, at, i, j));
    }
}

// A command, and what is counted in it.
static void put_whole_command(const struct argument *body, size_t at) {
    put_command(body, at);
    if (nw_value(nw_command_tag(body->bytes, body->length, at)) == NW_CODE) {
        next_item();
        for (uint64_t j = 0; j < 23; j++) put_digit(nw_command_code_digit(body->bytes, body->length, at, j));
    }
    uint64_t parameters = count_of(nw_command_parameter_count(body->bytes, body->length, at));
    for (uint64_t i = 0; i < parameters; i++) put_answer(nw_command_parameter(body->bytes, body->length, at, i));
    put_terminals(body, at);
}

// An accepted body's fields follow, each as it is answered.
static void call_configuration_read(const struct argument *a) {
    const struct argument *body = &a[1];
    nw_answer got = nw_configuration_read((uint32_t)a[0].number, body->bytes, body->length);
    put_answer(got);
    if (NW_REFUSAL(got)) return;
    put_configuration(body);
    uint64_t count = nw_value(nw_configuration_command_count(body->bytes, body->length));
    size_t at = 1;
    for (uint64_t i = 0; i < count; i++) {
        put_answer(nw_configuration_command(body->bytes, body->length, i));
        put_whole_command(body, at);
        at = end_after(at, nw_command_content(body->bytes, body->length, at));
    }
}

static void call_configuration_lay(const struct argument *a) {
    put_answer(nw_configuration_lay((uint32_t)a[0].number, a[1].bytes, a[1].length, a[2].tape, a[2].length));
    put_tape(a[2].tape, a[2].length);
}

static void call_configuration_measure(const struct argument *a) {
    put_answer(nw_configuration_measure(a[0].bytes, a[0].length, a[1].tape, a[1].length));
}

static void call_configuration_write(const struct argument *a) {
    put_answer(nw_configuration_write(a[0].bytes, a[0].length, a[1].tape, a[1].length, a[2].bytes, a[2].length));
    put_bytes(a[2].bytes, a[2].length);
}

static void call_configuration_fields(const struct argument *a) { put_configuration(&a[0]); }
static void call_command_fields(const struct argument *a) { put_command(&a[0], a[1].wide); }

static void call_configuration_command(const struct argument *a) {
    put_answer(nw_configuration_command(a[0].bytes, a[0].length, a[1].wide));
}

static void call_command_code_digit(const struct argument *a) {
    put_answer(nw_command_code_digit(a[0].bytes, a[0].length, a[1].wide, a[2].wide));
}

static void call_command_parameter(const struct argument *a) {
    put_answer(nw_command_parameter(a[0].bytes, a[0].length, a[1].wide, a[2].wide));
}

static void call_command_terminal(const struct argument *a) {
    put_answer(nw_command_terminal(a[0].bytes, a[0].length, a[1].wide, a[2].wide));
}

static void call_command_terminal_digit(const struct argument *a) {
    put_answer(nw_command_terminal_digit(a[0].bytes, a[0].length, a[1].wide, a[2].wide, a[3].wide));
}

static const struct call calls[] = {
    {"echo", "buiwot", call_echo},
    {"crc32", "b", call_crc32},
    {"crc16", "b", call_crc16},
    {"day_of", "uuu", call_day_of},
    {"date_of", "u", call_date_of},
    {"weekday", "u", call_weekday},
    {"time_pack", "uuuuuui", call_time_pack},
    {"time_unpack", "wi", call_time_unpack},
    {"time_read_text", "bi", call_time_read_text},
    {"time_print_start", "wio", call_time_print_start},
    {"time_print_end", "wio", call_time_print_end},
    {"times_read_text", "bbuil", call_times_read_text},
    {"time_showing", "wwuu", call_time_showing},
    {"section_read", "b", call_section_read},
    {"section_length", "b", call_section_length},
    {"section_count", "w", call_section_count},
    {"section_cut", "buuuuo", call_section_cut},
    {"salvage", "boo", call_salvage},
    {"section_cut_all", "buuuo", call_section_cut_all},
    {"gathering_state", "o", call_gathering_state},
    {"gathering_store", "o", call_gathering_store},
    {"gathering_feed", "b", call_gathering_feed},
    {"gathering_hand_out", "o", call_gathering_hand_out},
    {"gathering_pack", "", call_gathering_pack},
    {"gathering_show", "", call_gathering_show},
    {"gathering_counts", "", call_gathering_counts},
    {"certificate_read", "ub", call_certificate_read},
    {"certificate_authorization", "bw", call_certificate_authorization},
    {"certificate_certificate", "bw", call_certificate_certificate},
    {"certificate_measure", "bt", call_certificate_measure},
    {"certificate_write", "bto", call_certificate_write},
    {"certificate_lay", "ubl", call_certificate_lay},
    {"index_read", "ubi", call_index_read},
    {"index_records", "ubr", call_index_records},
    {"index_lay", "ubl", call_index_lay},
    {"index_measure", "bt", call_index_measure},
    {"index_write", "bto", call_index_write},
    {"index_message_count", "b", call_index_message_count},
    {"index_message", "bw", call_index_message},
    {"index_signature", "b", call_index_signature},
    {"message_fields", "bww", call_message_fields},
    {"message_local_times", "bwwi", call_message_local_times},
    {"message_identifier_digit", "bwww", call_message_identifier_digit},
    {"message_resource", "bwww", call_message_resource},
    {"message_resource_digit", "bwwww", call_message_resource_digit},
    {"descriptor_fields", "bww", call_descriptor_fields},
    {"stream_fields", "bww", call_stream_fields},
    {"descriptor_count", "bww", call_descriptor_count},
    {"stream_count", "bww", call_stream_count},
    {"content_read", "uuub", call_content_read},
    {"content_lay", "uubl", call_content_lay},
    {"content_measure", "ubt", call_content_measure},
    {"content_write", "ubto", call_content_write},
    {"content_fields", "b", call_content_fields},
    {"content_identifier_digit", "bw", call_content_identifier_digit},
    {"content_language", "bw", call_content_language},
    {"language_fields", "bww", call_language_fields},
    {"auxiliary_fields", "ubwww", call_auxiliary_fields},
    {"configuration_read", "ub", call_configuration_read},
    {"configuration_lay", "ubl", call_configuration_lay},
    {"configuration_measure", "bt", call_configuration_measure},
    {"configuration_write", "bto", call_configuration_write},
    {"configuration_fields", "b", call_configuration_fields},
    {"configuration_command", "bw", call_configuration_command},
    {"command_fields", "bw", call_command_fields},
    {"command_code_digit", "bww", call_command_code_digit},
    {"command_parameter", "bww", call_command_parameter},
    {"command_terminal", "bww", call_command_terminal},
    {"command_terminal_digit", "bwww", call_command_terminal_digit},
};

// ---- what a request is read with

static unsigned digit(char c) {
    if (c >= '0' && c <= '9') return (unsigned)(c - '0');
    if (c >= 'a' && c <= 'f') return (unsigned)(c - 'a') + 10;
    stop("not hexadecimal");
}

static struct argument number(const char *word, int64_t least, int64_t most) {
    char *end;
    errno = 0;
    struct argument a = {.number = strtoll(word, &end, 10)};
    if (*word == '\0' || *end != '\0' || errno != 0) stop("not a number");
    if (a.number < least || a.number > most) stop("a number that the call can't take");
    return a;
}

static struct argument wide_number(const char *word) {
    char *end;
    errno = 0;
    struct argument a = {.wide = strtoull(word, &end, 10)};
    if (*word < '0' || *word > '9' || *end != '\0' || errno != 0) stop("not a number of 64 bits");
    return a;
}

// So many things in a block of their own, with so many guard bytes on both sides.
static struct argument block_of(size_t length, size_t each, size_t guard) {
    struct argument a = {.length = length, .size = length * each, .guard = guard};
    a.block = malloc(a.size + 2 * guard);
    if (a.block == NULL && a.size + guard > 0) stop("out of memory");
    a.bytes = a.block + guard;
    for (size_t i = 0; i < guard; i++) a.block[i] = a.bytes[a.size + i] = guard_byte(i);
    return a;
}

static struct argument byte_string(const char *word, size_t guard) {
    size_t digits = strcmp(word, "-") == 0 ? 0 : strcspn(word, "*"), given = digits / 2;
    size_t times = word[digits] == '*' ? (size_t)number(word + digits + 1, 1, INT32_MAX).number : 1;
    if (digits % 2 != 0 || (given == 0 && times > 1)) stop("half a byte, or none to repeat");
    struct argument a = block_of(given + times - 1, 1, guard);
    for (size_t i = 0; i < a.length; i++)
        a.bytes[i] = i < given ? (uint8_t)(digit(word[2 * i]) * 16 + digit(word[2 * i + 1])) : a.bytes[i - 1];
    return a;
}

static struct argument tape(const char *word, size_t guard) {
    size_t entries = strcmp(word, "-") != 0;
    for (const char *c = word; *c != '\0'; c++) entries += *c == ',';
    struct argument a = block_of(entries, sizeof(uint64_t), guard);
    a.tape = (uint64_t *)(void *)a.bytes;
    for (size_t i = 0; i < entries; i++) {
        char *end;
        errno = 0;
        a.tape[i] = strtoull(word, &end, 10);
        if (*word < '0' || *word > '9' || *end != (i + 1 < entries ? ',' : '\0') || errno != 0) stop("not a tape");
        word = end + 1;
    }
    return a;
}

// Each record is given as its six numbers.
static struct argument record_list(const char *word) {
    struct argument numbers = tape(word, 0);
    if (numbers.length % 6 != 0) stop("not a list of records");
    struct argument a = block_of(numbers.length / 6, sizeof(nw_record), GUARD);
    a.records = (nw_record *)(void *)a.bytes;
    for (size_t i = 0; i < a.length; i++) {
        const uint64_t *t = numbers.tape + 6 * i;
        a.records[i] = (nw_record){t[0], t[1], t[2], t[3], t[4], t[5]};
    }
    free(numbers.block);
    return a;
}

static void give_back(const struct argument *a) {
    hold_guards(a);
    free(a->block);
}

static struct argument argument(char letter, const char *word) {
    switch (letter) {
    case 'b': return byte_string(word, 0);
    case 'o': return byte_string(word, GUARD);
    case 'u': return number(word, 0, UINT32_MAX);
    case 'i': return number(word, INT32_MIN, INT32_MAX);
    case 'w': return wide_number(word);
    case 't': return tape(word, 0);
    case 'l': return tape(word, GUARD);
    case 'r': return record_list(word);
    default: stop("a letter that the table of calls must not have");
    }
}

static const struct call *called(const char *name) {
    for (size_t i = 0; i < sizeof calls / sizeof calls[0]; i++)
        if (name != NULL && strcmp(calls[i].name, name) == 0) return &calls[i];
    stop("no such call");
}

static void serve(char *line) {
    struct argument a[MOST_ARGUMENTS];
    const struct call *call = called(strtok(line, " "));
    size_t count = strlen(call->takes);
    for (size_t i = 0; i < count; i++) {
        const char *word = strtok(NULL, " ");
        if (word == NULL) stop("too few arguments");
        a[i] = argument(call->takes[i], word);
    }
    if (strtok(NULL, " ") != NULL) stop("too many arguments");
    between = "";
    call->answer(a);
    putchar('\n');
    for (size_t i = 0; i < count; i++) give_back(&a[i]);
}

int main(void) {
    char *line = NULL;
    size_t room = 0;
    ssize_t length;
    while ((length = getline(&line, &room, stdin)) > 0) {
        line_number++;
        if (line[length - 1] == '\n') line[length - 1] = '\0';
        serve(line);
    }
    free(line);
    return fflush(stdout) == 0 && !ferror(stdin) ? 0 : 2;
}
