// contenders: what is measured, written once: compiled over the library, and with PLAIN over plain C. All calls are direct, as a caller writes them.
// SPDX-License-Identifier: MIT
#include <string.h>

#include "bench.h"
#include "plain_certificate.h"
#include "plain_configuration.h"
#include "plain_content.h"
#include "plain_index.h"
#include "plain_numbers.h"
#include "plain_packets.h"
#include "plain_rooms.h"
#include "plain_screen.h"
#include "plain_sections.h"

// A work by its contender's name, and a call's answer as its 64 bits.
#ifdef PLAIN
#define BY(name) name##_plain
#define CRC32 plain_crc32
#define CALL(name, ...) plain_##name(__VA_ARGS__)
#else
#define BY(name) name##_library
#define CRC32 nw_crc32
#define CALL(name, ...) nw_##name(__VA_ARGS__).packed
#endif

// ---- CRC_32, a section read, times

uint64_t BY(crc32)(const uint8_t *s, size_t n) { return CRC32(s, n); }

uint64_t BY(section_read)(const uint8_t *s, size_t n) { return CALL(section_read, s, n); }

uint64_t BY(time_read_text)(const uint8_t *s, size_t n) { return CALL(time_read_text, s, n, EAST); }

uint64_t BY(time_unpack)(const uint8_t *s, size_t n) {
    uint64_t field = 0;
    for (size_t i = 0; i < n; i++) field = field << 8 | s[i];
    return CALL(time_unpack, field, EAST);
}

// ---- a body cut into all its sections, one right after the other; a capture salvaged

// The bytes written, and the refusal that ends them.
uint64_t BY(section_cut)(const uint8_t *s, size_t n) {
    uint64_t used = 0;
    for (uint32_t number = 0;; number++) {
        plain_answer got = CALL(section_cut, s, n, NW_INDEX, 0x0C29, 17, number, output + used, sizeof output - used);
        if (refusal_of(got)) return used << 8 | refusal_of(got);
        used += value_of(got);
    }
}

uint64_t BY(salvage)(const uint8_t *s, size_t n) {
    return CALL(salvage, s, n, output, sizeof output, lent_list, sizeof lent_list / sizeof lent_list[0]);
}

// ---- full sections packed one after the other, the packets unpacked, and a table gathered from them

// The bytes of all packets, which stand in the output.
uint64_t BY(packets_of)(const uint8_t *s, size_t n) {
    uint64_t used = 0;
    for (size_t at = 0; at < n; at += NW_MOST_SECTION)
        used += value_of(CALL(packet_pack, s + at, NW_MOST_SECTION, (uint32_t)(used / NW_PACKET_BYTES % 16),
                              output + used, sizeof output - used));
    return used;
}

// The bytes of all sections, which stand in the output.
uint64_t BY(sections_of)(const uint8_t *s, size_t n) {
    uint64_t used = 0;
    memset(lent_state, 0, NW_UNPACKER_BYTES);
    for (size_t at = 0; at < n; at += NW_PACKET_BYTES)
        used += value_of(CALL(packet_unpack, lent_state, s + at, NW_PACKET_BYTES, output + used, sizeof output - used));
    return used;
}

// The length of the body, which stands in the output. The answers to sections that are taken are 0.
uint64_t BY(table_of)(const uint8_t *s, size_t n) {
    uint8_t sections[NW_MOST_COMPLETED_BYTES];
    nw_gathering g = {0};
    uint64_t answers = 0;
    memset(lent_state, 0, NW_UNPACKER_BYTES);
    for (size_t at = 0; at < n; at += NW_PACKET_BYTES) {
        size_t got = value_of(CALL(packet_unpack, lent_state, s + at, NW_PACKET_BYTES, sections, sizeof sections));
        for (size_t p = 0, length; p < got; p += length) {
            length = value_of(CALL(section_length, sections + p, got - p));
            answers += CALL(gathering_feed, &g, lent_store, NW_MOST_BODY, sections + p, length);
        }
    }
    return answers + value_of(CALL(gathering_hand_out, &g, lent_store, NW_MOST_BODY, output, sizeof output));
}

// ---- the gathering: one section fed; a table of full sections, which come one right after the other, gathered and handed out; a table packed

uint64_t BY(feed)(const uint8_t *s, size_t n) {
    nw_gathering g = half;
    return CALL(gathering_feed, &g, half_store, sizeof half_store, s, n);
}

// The sum of all answers: of a section that is taken it is 0.
uint64_t BY(gather)(const uint8_t *s, size_t n) {
    nw_gathering g = {0};
    uint64_t answers = 0;
    for (size_t at = 0; at < n; at += NW_MOST_SECTION) answers += CALL(gathering_feed, &g, lent_store, NW_MOST_BODY, s + at, NW_MOST_SECTION);
    return answers + CALL(gathering_hand_out, &g, lent_store, NW_MOST_BODY, output, sizeof output);
}

// The store is the output. Of each payload the first byte and the last are its own.
uint64_t BY(gathering_pack)(const uint8_t *s, size_t n) {
    (void)s, (void)n;
    nw_gathering g = whole;
    for (size_t k = 0; k <= whole.last; k++)
        output[k * NW_MOST_PAYLOAD] = output[k * NW_MOST_PAYLOAD + SHORT_PAYLOAD - 1] = (uint8_t)(k * 77);
    return CALL(gathering_pack, &g, output, NW_STORE_BYTES(whole.last));
}

// ---- two networks over one store: one section fed for one of them; the table fed to each, in turn, and handed out

uint64_t BY(feed_two)(const uint8_t *s, size_t n) {
    nw_networks x = halves;
    return CALL(networks_feed, &x, 1, halves_store, sizeof halves_store, s, n);
}

uint64_t BY(gather_two)(const uint8_t *s, size_t n) {
    nw_networks x;
    uint64_t answers = plain_networks_start(&x, sizeof lent_store);
    for (size_t at = 0; at < n; at += NW_MOST_SECTION)
        for (uint32_t network = 1; network <= 2; network++)
            answers = answers * 31 + CALL(networks_feed, &x, network, lent_store, sizeof lent_store, s + at, NW_MOST_SECTION);
    for (uint32_t network = 1; network <= 2; network++)
        answers = answers * 31 + CALL(networks_hand_out, &x, network, lent_store, sizeof lent_store, output, sizeof output);
    return answers;
}

// ---- bodies read, and written from a form

uint64_t BY(certificate_read)(const uint8_t *s, size_t n) { return CALL(certificate_read, NW_CERTIFICATE, s, n); }
uint64_t BY(index_read)(const uint8_t *s, size_t n) { return CALL(index_read, NW_INDEX, s, n); }
uint64_t BY(configuration_read)(const uint8_t *s, size_t n) { return CALL(configuration_read, NW_CONFIGURATION, s, n); }
uint64_t BY(screen_choose)(const uint8_t *s, size_t n) {
    return CALL(screen_choose, NW_INDEX, s, n, screen_code, NW_SCREEN_CODE_DIGITS, SCREEN_DAY, SCREEN_SECOND);
}
uint64_t BY(content_read)(const uint8_t *s, size_t n) {
    return CALL(content_read, NW_CONTENT, content_variant, content_extension, s, n);
}

uint64_t BY(certificate_write)(const uint8_t *s, size_t n) {
    return CALL(certificate_write, s, n, tape, entries, output, sizeof output);
}

uint64_t BY(index_write)(const uint8_t *s, size_t n) {
    return CALL(index_write, s, n, tape, entries, output, sizeof output);
}

uint64_t BY(configuration_write)(const uint8_t *s, size_t n) {
    return CALL(configuration_write, s, n, tape, entries, output, sizeof output);
}

uint64_t BY(content_write)(const uint8_t *s, size_t n) {
    return CALL(content_write, content_variant, s, n, tape, entries, output, sizeof output);
}

// ---- bodies asked for every field: a number that every answer has a part in

struct asked {
    const uint8_t *s;
    size_t n;
    uint64_t so_far;
};

static plain_answer answered(struct asked *a, plain_answer got) {
    a->so_far = a->so_far * 31 + got;
    return got;
}

// An answer of a function of a body, of which the other words are given.
#define ASK(a, name, ...) answered(a, CALL(name, (a)->s, (a)->n, __VA_ARGS__))
#define ASK_BODY(a, name) answered(a, CALL(name, (a)->s, (a)->n))

static size_t part_after(plain_answer part) { return part_start(part) + part_length(part); }

// ---- every field of every message of an index body

static void ask_descriptors(struct asked *a, plain_answer part) {
    plain_answer bytes;
    for (size_t at = part_start(part), end = part_after(part); at < end; at = part_after(bytes)) {
        ASK(a, descriptor_tag, at, end - at);
        bytes = ASK(a, descriptor_bytes, at, end - at);
    }
}

static void ask_streams(struct asked *a, plain_answer part) {
    plain_answer descriptors;
    for (size_t at = part_start(part), end = part_after(part); at < end; at = part_after(descriptors)) {
        ASK(a, stream_type, at, end - at);
        ASK(a, stream_pid, at, end - at);
        ask_descriptors(a, descriptors = ASK(a, stream_descriptors, at, end - at));
    }
}

static void ask_message(struct asked *a, size_t at, size_t length) {
    ASK(a, message_identifier, at, length);
    ASK(a, message_network, at, length);
    ASK(a, message_start, at, length);
    ASK(a, message_end, at, length);
    ASK(a, message_type, at, length);
    ASK(a, message_class, at, length);
    ASK(a, message_level, at, length);
    uint64_t resources = value_of(ASK(a, message_resource_count, at, length));
    for (uint64_t i = 0; i < resources; i++) ASK(a, message_resource, at, length, i);
    ASK(a, message_channel_flag, at, length);
    ASK(a, message_channel_network, at, length);
    ASK(a, message_channel_stream, at, length);
    ASK(a, message_channel_program, at, length);
    ASK(a, message_pcr_pid, at, length);
    ask_descriptors(a, ASK(a, message_descriptors, at, length));
    ask_streams(a, ASK(a, message_streams, at, length));
}

uint64_t BY(index_asked)(const uint8_t *s, size_t n) {
    plain_answer got = CALL(index_records, NW_INDEX, s, n, lent_records, NW_MOST_MESSAGES);
    struct asked a = {s, n, got};
    if (refusal_of(got)) return got;
    for (const nw_record *r = lent_records; r < lent_records + value_of(got); r++) ask_message(&a, r->at, r->length);
    return a.so_far;
}

// ---- every field of a content body

static void ask_language(struct asked *a, size_t at, size_t length) {
    ASK(a, language_letters, at, length);
    ASK(a, language_character_set, at, length);
    ASK(a, language_text, at, length);
    ASK(a, language_agency, at, length);
    uint64_t files = value_of(ASK(a, language_auxiliary_count, at, length));
    for (uint64_t i = 0; i < files; i++) {
        answered(a, CALL(language_auxiliary_type, content_variant, a->s, a->n, at, length, i));
        answered(a, CALL(language_auxiliary, content_variant, a->s, a->n, at, length, i));
    }
}

uint64_t BY(content_asked)(const uint8_t *s, size_t n) {
    struct asked a = {s, n, 0};
    ASK_BODY(&a, content_identifier);
    ASK_BODY(&a, content_extension);
    ASK_BODY(&a, content_signature);
    uint64_t languages = value_of(ASK_BODY(&a, content_language_count));
    for (uint64_t i = 0; i < languages; i++) {
        plain_answer language = ASK(&a, content_language, i);
        ask_language(&a, part_start(language), part_length(language));
    }
    return a.so_far;
}

// ---- every field of every command of a configuration body

static void ask_clock(struct asked *a, size_t at) {
    ASK(a, command_clock_year, at);
    ASK(a, command_clock_month, at);
    ASK(a, command_clock_day, at);
    ASK(a, command_clock_hour, at);
    ASK(a, command_clock_minute, at);
    ASK(a, command_clock_second, at);
}

static void ask_parameters(struct asked *a, size_t at) {
    uint64_t parameters = value_of(ASK(a, command_parameter_count, at));
    for (uint64_t i = 0; i < parameters; i++) ASK(a, command_parameter, at, i);
}

static void ask_terminals(struct asked *a, size_t at) {
    uint64_t terminals = value_of(ASK(a, command_terminal_count, at));
    for (uint64_t i = 0; i < terminals; i++) ASK(a, command_terminal, at, i);
}

static void ask_head(struct asked *a, size_t at, uint64_t tag) {
    switch (tag) {
    case NW_CLOCK: ask_clock(a, at); return;
    case NW_CODE: ASK(a, command_code_address, at); ASK(a, command_code_resource, at); return;
    case NW_FREQUENCY: ASK(a, command_frequency, at); ASK(a, command_symbol_rate, at); ASK(a, command_mapping, at); return;
    case NW_RETURN: ASK(a, command_return_kind, at); ASK(a, command_return_address, at); return;
    case NW_PERIOD: ASK(a, command_period, at); return;
    case NW_VOLUME: ASK(a, command_volume, at); return;
    case NW_QUERY: ask_parameters(a, at); return;
    }
}

uint64_t BY(configuration_asked)(const uint8_t *s, size_t n) {
    struct asked a = {s, n, 0};
    plain_answer content;
    size_t at = 1;
    ASK_BODY(&a, configuration_signature);
    for (uint64_t left = value_of(ASK_BODY(&a, configuration_command_count)); left > 0; left--, at = part_after(content)) {
        content = ASK(&a, command_content, at);
        uint64_t tag = value_of(ASK(&a, command_tag, at));
        ask_head(&a, at, tag);
        if (tag >= NW_FREQUENCY && tag <= NW_QUERY) ask_terminals(&a, at);
    }
    return a.so_far;
}
