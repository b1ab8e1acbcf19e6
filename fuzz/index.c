// The index table's target.
// SPDX-License-Identifier: MIT
#include "table.h"

static void put_time(struct input *in, nw_form *f, bool end) {
    uint64_t day = 15079 + upto(in, 50456), clock = 0;
    for (unsigned most = 23, i = 0; i < 3; i++, most = 59) {
        unsigned x = (unsigned)upto(in, most);
        clock = clock << 8 | (x / 10 << 4 | x % 10);
    }
    if (end && now_and_then(in, 4)) nw_form_number(f, NW_LIVE);
    else nw_form_number(f, now_and_then(in, 64) ? take(in, 6) : day << 24 | clock);
}

static void put_descriptors(struct input *in, nw_form *f) {
    for (size_t count = put_count(in, f, 3); count > 0; count--) {
        put_number(in, f, 0, 255);
        put_some(in, f);
    }
}

static void put_channel(struct input *in, nw_form *f) {
    for (int i = 0; i < 3; i++) put_number(in, f, 0, 0xFFFF);
    put_number(in, f, 0, 0x1FFF);
    put_descriptors(in, f);
    for (size_t count = put_count(in, f, 3); count > 0; count--) {
        put_number(in, f, 0, 255);
        put_number(in, f, 0, 0x1FFF);
        put_descriptors(in, f);
    }
}

static void make(struct input *in, nw_form *f) {
    for (size_t count = put_count(in, f, 3); count > 0; count--) {
        put_identifier(in, f);
        put_number(in, f, 0, 0xFFFF);
        put_time(in, f, false);
        put_time(in, f, true);
        uint8_t type[5];
        for (int i = 0; i < 5; i++) type[i] = (uint8_t)(take(in, 1) & (now_and_then(in, 64) ? 0xFF : 0x7F));
        nw_form_bytes(f, type, 5);
        put_number(in, f, 1, 4);
        put_number(in, f, 1, 4);
        for (size_t resources = put_count(in, f, 3); resources > 0; resources--) put_resource(in, f);
        bool channel = now_and_then(in, 2);
        nw_form_number(f, channel);
        if (channel) put_channel(in, f);
    }
    put_some(in, f);
}

// Each descriptor of a part, as far as they can be told.
static void ask_descriptors(const uint8_t *body, size_t n, nw_part part) {
    if (!taken(part)) return;
    size_t at = nw_part_start(part), length = nw_part_length(part);
    nw_answer count = nw_descriptor_count(body, n, at, length);
    uint64_t met = 0;
    hold_number(count, length / 2);
    for (size_t size; length > 0; at += size, length -= size, met++) {
        hold_number(nw_descriptor_tag(body, n, at, length), 255);
        nw_part bytes = nw_descriptor_bytes(body, n, at, length);
        hold_part(bytes, n);
        if (!taken(bytes)) {
            must(!taken(count));
            return;
        }
        must(nw_part_start(bytes) > at);
        size = nw_part_start(bytes) + nw_part_length(bytes) - at;
        must(size <= length);
    }
    must(taken(count) && nw_value(count) == met);
}

static void ask_streams(const uint8_t *body, size_t n, nw_part part) {
    if (!taken(part)) return;
    size_t at = nw_part_start(part), length = nw_part_length(part);
    nw_answer count = nw_stream_count(body, n, at, length);
    uint64_t met = 0;
    hold_number(count, length / 5);
    for (size_t size; length > 0; at += size, length -= size, met++) {
        hold_number(nw_stream_type(body, n, at, length), 255);
        hold_number(nw_stream_pid(body, n, at, length), 0x1FFF);
        nw_part inner = nw_stream_descriptors(body, n, at, length);
        hold_part(inner, n);
        ask_descriptors(body, n, inner);
        if (!taken(inner)) return;
        must(nw_part_start(inner) > at);
        size = nw_part_start(inner) + nw_part_length(inner) - at;
        must(size <= length);
    }
    must(!taken(count) || nw_value(count) == met);
}

static void ask_digits(struct input *in, const uint8_t *body, size_t n, size_t at, size_t length) {
    nw_part identifier = nw_message_identifier(body, n, at, length);
    for (uint64_t i = 0; i < 35; i++) hold_digit(nw_message_identifier_digit(body, n, at, length, i), body, identifier, i);
    must(!taken(nw_message_identifier_digit(body, n, at, length, 35)));
    nw_answer count = nw_message_resource_count(body, n, at, length);
    hold_number(count, 255);
    for (uint64_t i = 0; taken(count) && i <= nw_value(count); i++) {
        nw_part resource = nw_message_resource(body, n, at, length, i);
        hold_part(resource, n);
        for (uint64_t j = 0; j < 24; j++)
            hold_digit(nw_message_resource_digit(body, n, at, length, i, j), body, resource, j);
    }
    hold_number(nw_message_identifier_digit(body, n, at, length, take(in, 8)), 9);
    hold_number(nw_message_resource_digit(body, n, at, length, take(in, 8), take(in, 8)), 9);
}

static void ask_message(struct input *in, const uint8_t *body, size_t n, size_t at, size_t length, bool accepted) {
    nw_part identifier = nw_message_identifier(body, n, at, length);
    nw_answer extension = nw_message_extension(body, n, at, length);
    hold_part(identifier, n);
    must(extension.packed == (taken(identifier) ? (uint64_t)extension_of(body + at) << 8 : identifier.packed));
    hold_number(nw_message_network(body, n, at, length), 0xFFFF);
    nw_answer start = nw_message_start(body, n, at, length), end = nw_message_end(body, n, at, length);
    hold_number(start, NW_LIVE - 1);
    hold_number(end, NW_LIVE);
    hold_part(nw_message_type(body, n, at, length), n);
    hold_number(nw_message_class(body, n, at, length), 4);
    hold_number(nw_message_level(body, n, at, length), 4);
    ask_digits(in, body, n, at, length);
    hold_number(nw_message_channel_flag(body, n, at, length), 1);
    hold_number(nw_message_channel_network(body, n, at, length), 0xFFFF);
    hold_number(nw_message_channel_stream(body, n, at, length), 0xFFFF);
    hold_number(nw_message_channel_program(body, n, at, length), 0xFFFF);
    hold_number(nw_message_pcr_pid(body, n, at, length), 0x1FFF);
    nw_part descriptors = nw_message_descriptors(body, n, at, length), streams = nw_message_streams(body, n, at, length);
    hold_part(descriptors, n);
    hold_part(streams, n);
    ask_descriptors(body, n, descriptors);
    ask_streams(body, n, streams);
    int32_t offset = (int32_t)upto(in, 2000) - 800;
    nw_time local_start = nw_message_local_start(body, n, at, length, offset);
    nw_time local_end = nw_message_local_end(body, n, at, length, offset);
    must(!taken(start) || local_start.packed == nw_time_unpack(nw_value(start), offset).packed);
    must(!taken(end) || local_end.packed == nw_time_unpack(nw_value(end), offset).packed);
    must(!accepted || (taken(start) && taken(end)));
}

// The records of an accepted body are its messages; a list without room for them stays as it is, and can be NULL.
static void ask_records(const uint8_t *body, size_t n, bool accepted, size_t room) {
    struct lent list = lend(room * sizeof(nw_record), 0x33);
    const nw_record *r = (const nw_record *)(const void *)list.bytes;
    nw_answer count = nw_index_records(NW_INDEX, body, n, (nw_record *)(void *)list.bytes, room);
    must(taken(count) ? accepted && nw_value(count) <= room : !accepted || refused(count, NW_OUTPUT_TOO_SMALL));
    must(kept(&list, taken(count) ? (size_t)nw_value(count) * sizeof *r : 0));
    for (uint64_t i = 0; taken(count) && i < nw_value(count); i++) {
        nw_part m = nw_index_message(body, n, i);
        must(taken(m) && nw_part_start(m) == r[i].at && nw_part_length(m) == r[i].length);
        must(nw_value(nw_message_start(body, n, r[i].at, r[i].length)) == r[i].start);
        must(nw_value(nw_message_end(body, n, r[i].at, r[i].length)) == r[i].end);
        must(nw_value(nw_message_class(body, n, r[i].at, r[i].length)) == r[i].class_);
        must(nw_value(nw_message_level(body, n, r[i].at, r[i].length)) == r[i].level);
    }
    nw_answer none = nw_index_records(NW_INDEX, body, n, NULL, 0);
    must(taken(none) == (accepted && body[0] == 0) && (!accepted || taken(none) || refused(none, NW_OUTPUT_TOO_SMALL)));
    give_back(&list);
}

static void ask(struct input *in, const uint8_t *body, size_t n, bool accepted) {
    nw_answer count = nw_index_message_count(body, n);
    nw_part signature = nw_index_signature(body, n);
    hold_number(count, 255);
    hold_part(signature, n);
    must(!accepted || (taken(count) && taken(signature) && nw_part_start(signature) + nw_part_length(signature) == n));
    for (uint64_t i = 0; taken(count) && i < nw_value(count); i++) {
        nw_part m = nw_index_message(body, n, i);
        hold_part(m, n);
        must(!accepted || taken(m));
        if (!taken(m)) break;
        ask_message(in, body, n, nw_part_start(m), nw_part_length(m), accepted);
    }
    size_t at = upto(in, n + 1), length = upto(in, n + 1);
    ask_message(in, body, n, at, length, false);
    ask_message(in, body, n, (size_t)take(in, 8), (size_t)take(in, 8), false);
    hold_part(nw_stream_descriptors(body, n, upto(in, n + 1), (size_t)take(in, 8)), n);
    hold_part(nw_descriptor_bytes(body, n, (size_t)take(in, 8), upto(in, n + 1)), n);
    ask_records(body, n, accepted, upto(in, 3));
    ask_records(body, n, accepted, NW_MOST_MESSAGES);
}

static size_t enough(size_t n) { return NW_INDEX_ENTRIES(n); }

static const struct table index_table = {NW_INDEX, nw_index_read, nw_index_lay, nw_index_measure, nw_index_write, enough, make, ask};

int LLVMFuzzerTestOneInput(const uint8_t *data, size_t size) {
    try_table(&index_table, (struct input){data, size});
    return 0;
}
