// walk_index.c: the way through an index table (GD/J 086-2018, table 1).
// SPDX-License-Identifier: MIT
#include "steps.h"
#include "words.h"

// The descriptors that fill a part.
static bool descriptors(struct walk *w, nw_part part) {
    size_t at = nw_part_start(part), length = nw_part_length(part), before = w->end;
    bool on = true;
    w->end = at + length;
    for (uint64_t i = 0; on && length > 0; i++) {
        nw_part bytes = nw_descriptor_bytes(BODY(w), at, length);
        enter(w, (struct group){.name = "descriptor", .label = "descriptor", .number = i, .row = true});
        on = leave(w, step_code(w, "descriptor_tag", "tag", 8, nw_descriptor_tag(BODY(w), at, length)) &&
                          step_length(w, "descriptor_length", 8, bytes) && step_bytes(w, "data", "", bytes));
        size_t size = 2 + nw_part_length(bytes);
        at += size;
        length -= size;
    }
    w->end = before;
    return on;
}

static bool stream(struct walk *w, size_t at, size_t length, nw_part inner) {
    return step_code(w, "stream_type", "type", 8, nw_stream_type(BODY(w), at, length)) &&
           step_pid(w, "elementary_PID", "PID", nw_stream_pid(BODY(w), at, length)) &&
           step_length(w, "ES_info_length", 12, inner) && descriptors(w, inner);
}

// The streams that fill a part.
static bool streams(struct walk *w, nw_part part) {
    size_t at = nw_part_start(part), length = nw_part_length(part), before = w->end;
    bool on = true;
    w->end = at + length;
    for (uint64_t i = 0; on && length > 0; i++) {
        nw_part inner = nw_stream_descriptors(BODY(w), at, length);
        enter(w, (struct group){.name = "stream", .label = "stream", .number = i});
        on = leave(w, stream(w, at, length, inner));
        size_t size = 5 + nw_part_length(inner);
        at += size;
        length -= size;
    }
    w->end = before;
    return on;
}

static bool channel_fields(struct walk *w, size_t at, size_t length) {
    nw_part inner = nw_message_descriptors(BODY(w), at, length);
    if (!step_number(w, "details_channel_network_id", "network", 16, nw_message_channel_network(BODY(w), at, length)) ||
        !step_number(w, "details_channel_transport_stream_id", "transport stream", 16,
                     nw_message_channel_stream(BODY(w), at, length)) ||
        !step_number(w, "details_channel_program_number", "program", 16, nw_message_channel_program(BODY(w), at, length)) ||
        !step_pid(w, "details_channel_PCR_PID", "PCR PID", nw_message_pcr_pid(BODY(w), at, length)) ||
        !step_length(w, "details_channel_program_info_length", 12, inner) || !descriptors(w, inner))
        return false;
    nw_part all = nw_message_streams(BODY(w), at, length);
    return step_length(w, "stream_info_length", 16, all) && streams(w, all);
}

static bool channel(struct walk *w, size_t at, size_t length) {
    nw_answer flag = nw_message_channel_flag(BODY(w), at, length);
    struct field f = {.name = "details_channel_indicate", .label = "channel", .role = VALUE, .bits = 1, .numeric = true};
    f.number = nw_value(flag);
    f.words = f.number == 0 ? "none" : "given";
    if (!step_after(w, 7, NW_REFUSAL(flag), f)) return false;
    if (f.number == 0) return true;
    enter(w, (struct group){.name = "details_channel", .label = "channel", .single = true});
    return leave(w, channel_fields(w, at, length));
}

// Class and level share a byte, and the library judges them together: the first that is outside its set is the refused one.
static bool class_and_level(struct walk *w, size_t at, size_t length) {
    nw_answer class_ = nw_message_class(BODY(w), at, length), level = nw_message_level(BODY(w), at, length);
    unsigned here = NW_REFUSAL(class_) == NW_OUTSIDE_SET ? w->body.s[w->bit / 8] >> 4 : 0;
    if (here >= NW_CLASS_SYSTEM_DRILL && here <= NW_CLASS_EMERGENCY) class_ = (nw_answer){(uint64_t)here << 8};
    return step_named(w, "EBM_class", "class", 4, class_, nw_class_text(nw_value(class_))) &&
           step_named(w, "EBM_level", "level", 4, level, nw_level_text(nw_value(level)));
}

static bool resources(struct walk *w, size_t at, size_t length) {
    nw_answer count = nw_message_resource_count(BODY(w), at, length);
    bool on = step_count(w, "EBM_resource_number", "resources", count);
    for (uint64_t i = 0; on && i < nw_value(count); i++) {
        enter(w, (struct group){.name = "EBM_resource", .label = "resource", .number = i, .count = nw_value(count), .row = true});
        on = leave(w, step_digits(w, "EBM_resource_code", "", NW_RESOURCE_BYTES, nw_message_resource(BODY(w), at, length, i)));
    }
    return on;
}

static bool message_fields(struct walk *w, size_t at, size_t length) {
    return step_digits(w, "EBM_id", "identifier", NW_IDENTIFIER_BYTES, nw_message_identifier(BODY(w), at, length)) &&
           step_number(w, "EBM_original_network_id", "network", 16, nw_message_network(BODY(w), at, length)) &&
           step_time(w, "EBM_start_time", "start", nw_message_start(BODY(w), at, length)) &&
           step_time(w, "EBM_end_time", "end", nw_message_end(BODY(w), at, length)) &&
           step_ascii(w, "EBM_type", "type", NW_REFUSAL(nw_message_type(BODY(w), at, length)), 5) &&
           class_and_level(w, at, length) && resources(w, at, length) && channel(w, at, length) && step_left(w, NW_PAST_PART);
}

static bool message(struct walk *w, uint64_t i) {
    nw_part part = nw_index_message(BODY(w), i);
    if (!step_length(w, "EBM_length", 16, part)) return false;
    size_t before = w->end;
    w->end = nw_part_start(part) + nw_part_length(part);
    bool on = message_fields(w, nw_part_start(part), nw_part_length(part));
    w->end = before;
    return on;
}

bool walk_index(struct walk *w) {
    nw_answer count = nw_index_message_count(BODY(w));
    bool on = step_count(w, "EBM_number", "messages", count);
    for (uint64_t i = 0; on && i < nw_value(count); i++) {
        enter(w, (struct group){.name = "EBM", .label = "message", .number = i, .count = nw_value(count)});
        on = leave(w, message(w, i));
    }
    return on && step_signature(w, nw_index_signature(BODY(w)));
}
