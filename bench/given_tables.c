// given_tables: the bodies of the four tables that the contenders are given, each with its form; what is opaque in them is any bytes.
// SPDX-License-Identifier: MIT
#include <stdlib.h>
#include <string.h>

#include "bench.h"
#include "plain_certificate.h"
#include "plain_configuration.h"
#include "plain_content.h"
#include "plain_index.h"
#include "real_day.h"

uint64_t tape[NW_INDEX_ENTRIES(MOST_TABLE)];
size_t entries;
uint32_t content_variant, content_extension;

enum { ENTRIES = sizeof tape / sizeof tape[0] };

// A length in so many bytes, and what it counts.
static uint8_t *put_opaque(uint8_t *to, size_t width, size_t length) {
    for (size_t i = 0; i < width; i++) to[i] = (uint8_t)(length >> 8 * (width - 1 - i));
    return to + width + length;
}

// The form is laid, and written it gives the body back.
static void hold_form(plain_answer laid, work *write, size_t n) {
    entries = value_of(laid);
    if (refusal_of(laid) || written_length(write(input, n)) != n || memcmp(input, output, n) != 0) abort();
}

// ---- a certificate body: as many parts as there can be

enum { LISTS = 255, CERTIFICATES = 255, MOST_CERTIFICATE = 255 };

// A body of n bytes, the signature having the few that the other parts leave.
void fill_certificate(size_t n) {
    size_t share = n / 2 / CERTIFICATES - 1, certificate = share < MOST_CERTIFICATE ? share : MOST_CERTIFICATE;
    size_t list = (n - CERTIFICATES * (1 + certificate) - 4) / LISTS - 2;
    fill_bytes(n);
    uint8_t *to = input;
    *to++ = LISTS;
    for (size_t i = 0; i < LISTS; i++) to = put_opaque(to, 2, list);
    *to++ = CERTIFICATES;
    for (size_t i = 0; i < CERTIFICATES; i++) to = put_opaque(to, 1, certificate);
    put_opaque(to, 2, n - 2 - (size_t)(to - input));
    hold_form(plain_certificate_lay(NW_CERTIFICATE, input, n, tape, ENTRIES), certificate_write_plain, n);
}

// ---- an index body

enum { RESOURCES = 4, STREAM_BYTES = 25, MESSAGE_BYTES = 130, MESSAGES = 250, USUAL_MESSAGE = 437 };

static uint8_t *put_two(uint8_t *to, size_t x) {
    to[0] = (uint8_t)(x >> 8);
    to[1] = (uint8_t)x;
    return to + 2;
}

static uint8_t *put_digits(uint8_t *to, size_t width) {
    for (size_t i = 0; i < width; i++) to[i] = (uint8_t)(to[i] % 10 * 16 + to[i] / 16 % 10);
    to[0] |= 0xF0;
    return to + width;
}

static uint8_t *put_identifier(uint8_t *to) {
    put_digits(to, 18);
    put_real_day(to);
    return to + 18;
}

// Two descriptors of so many bytes each.
static uint8_t *put_descriptors(uint8_t *to, size_t first, size_t second) {
    to = put_two(to, 0xF000 | (2 + first + 2 + second));
    to[1] = (uint8_t)first;
    to += 2 + first;
    to[1] = (uint8_t)second;
    return to + 2 + second;
}

static uint8_t *put_stream(uint8_t *to) {
    to[1] |= 0xE0;
    return put_descriptors(to + 3, 6, 10);
}

// A message of MESSAGE_BYTES, and STREAM_BYTES for each stream, after its length.
static uint8_t *put_message(uint8_t *to, size_t streams) {
    static const uint8_t middle[17] = {0xEC, 0xC9, 0x07, 0x45, 0x00, 0xEC, 0xC9, 0x09, 0x00,
                                       0x00, '1',  '1',  'A',  '0',  '1',  0x42, RESOURCES};
    to = put_two(to, MESSAGE_BYTES + STREAM_BYTES * streams);
    to = put_identifier(to) + 2;
    memcpy(to, middle, sizeof middle);
    to += sizeof middle;
    for (size_t i = 0; i < RESOURCES; i++) to = put_digits(to, 12);
    to[0] = 0xFF;
    to[7] |= 0xE0;
    to = put_descriptors(to + 9, 14, 14);
    to = put_two(to, STREAM_BYTES * streams);
    for (size_t i = 0; i < streams; i++) to = put_stream(to);
    return to;
}

// A body of n bytes, the signature having what the messages leave.
void fill_index(size_t n) {
    fill_bytes(n);
    size_t messages = n / USUAL_MESSAGE < MESSAGES ? n / USUAL_MESSAGE : MESSAGES;
    size_t streams = ((n - 3) / messages - 2 - MESSAGE_BYTES) / STREAM_BYTES;
    uint8_t *to = input;
    *to++ = (uint8_t)messages;
    for (size_t i = 0; i < messages; i++) to = put_message(to, streams);
    put_two(to, n - 2 - (size_t)(to - input));
    hold_form(plain_index_lay(NW_INDEX, input, n, tape, ENTRIES), index_write_plain, n);
}

// The code is the last of each message's, and each starts before those that stand before it: every code is compared, every message takes over, and the last
// is shown.
enum { SCREEN_MESSAGES = 255, START_MINUTE = 23, LAST_RESOURCE = 37 + 12 * (RESOURCES - 1) };
_Static_assert(SCREEN_BYTES == 1 + SCREEN_MESSAGES * (2 + MESSAGE_BYTES) + 2, "messages, each after its length, and no signature");

uint8_t screen_code[NW_SCREEN_CODE_DIGITS];

void fill_screen(size_t n) {
    static const uint8_t own[NW_RESOURCE_BYTES] = {0xF3, 0x65, 0x43, 0x20, 0x00, 0x00, 0x00, 0x30, 0x30, 0x10, 0x10, 0x30};
    fill_bytes(n);
    uint8_t *to = input;
    *to++ = SCREEN_MESSAGES;
    for (unsigned left = SCREEN_MESSAGES; left > 0; left--) {
        uint8_t *message = to + 2;
        to = put_message(to, 0);
        memcpy(message + LAST_RESOURCE, own, sizeof own);
        message[START_MINUTE] = (uint8_t)(left / 60 % 10);
        message[START_MINUTE + 1] = (uint8_t)(left % 60 / 10 << 4 | left % 10);
    }
    put_two(to, 0);
    for (size_t i = 0; i < sizeof screen_code; i++) screen_code[i] = i % 2 ? own[(i + 1) / 2] >> 4 : own[i / 2] & 15u;
    if (screen_choose_plain(input, n) >> 48 != (1 << 8 | (SCREEN_MESSAGES - 1))) abort();
}

// ---- a content body of either variant

enum { LANGUAGES = 5, FILES = 2, AGENCY_BYTES = 20, MOST_TEXT = 65535 };

// A language of so many bytes: a third of them text, if that is not too long for its length, the others mostly files.
static uint8_t *put_language(uint8_t *to, size_t bytes) {
    size_t text = bytes / 3 < MOST_TEXT ? bytes / 3 : MOST_TEXT, width = content_variant / 8;
    size_t data = (bytes - 8 - text - AGENCY_BYTES) / FILES - (1 + width);
    put_opaque(to, 4, 8 + text + AGENCY_BYTES + FILES * (1 + width + data));
    memcpy(to + 4, "zho\xF9", 4);
    to = put_opaque(to + 8, 2, text);
    to = put_opaque(to, 1, AGENCY_BYTES);
    *to++ = 0xF0 | FILES;
    for (int i = 0; i < FILES; i++) to = put_opaque(to + 1, width, data);
    return to;
}

// A body of n bytes, the signature having what the languages leave.
static void fill_content(size_t n, uint32_t variant) {
    content_variant = variant;
    fill_bytes(n);
    uint8_t *to = put_identifier(input);
    *to++ = 0xF0 | LANGUAGES;
    for (int i = 0; i < LANGUAGES; i++) to = put_language(to, (n - 100) / LANGUAGES - 4);
    put_opaque(to, 2, n - 2 - (size_t)(to - input));
    content_extension = (uint32_t)value_of(plain_content_extension(input, n));
    hold_form(plain_content_lay(NW_CONTENT, variant, input, n, tape, ENTRIES), content_write_plain, n);
    if (content_read_plain(input, n) != 0) abort();
}

void fill_content_24(size_t n) { fill_content(n, NW_AUXILIARY_24); }
void fill_content_32(size_t n) { fill_content(n, NW_AUXILIARY_32); }

// ---- a configuration body of so many rounds, each of a command of each tag

// The bytes of a round are those without terminals.
enum { TAGS = NW_QUERY, ROUND_BYTES = 117, MOST_COMMAND_ROUNDS = 34, PARAMETERS = 10 };

// What stands in a command after its length and before its terminals.
static uint8_t *put_head(uint8_t *to, int tag) {
    static const uint8_t clock[] = {0x07, 0xDE, 11, 3, 7, 45, 0}, name[] = "\3\30www.chinaeb-lab.org:8080";
    switch (tag) {
    case NW_CLOCK: memcpy(to, clock, sizeof clock); return to + sizeof clock;
    case NW_CODE: return put_digits(put_opaque(to, 1, 20), 12);
    case NW_FREQUENCY: to[8] = 3; return to + 9;
    case NW_RETURN: memcpy(to, name, sizeof name - 1); return to + sizeof name - 1;
    case NW_PERIOD: return to + 4;
    case NW_VOLUME: *to = 100; return to + 1;
    default: return put_opaque(to, 1, PARAMETERS);
    }
}

static uint8_t *put_command(uint8_t *to, int tag, size_t terminals) {
    uint8_t *content = to + 3, *end = put_head(content, tag);
    if (tag >= NW_FREQUENCY) {
        *end++ = (uint8_t)terminals;
        for (size_t i = 0; i < terminals; i++) end = put_digits(end, 12);
    }
    *to = (uint8_t)tag;
    put_two(to + 1, (size_t)(end - content));
    return end;
}

// A body of n bytes, opaque commands and the signature having what the others leave.
void fill_configuration(size_t n) {
    fill_bytes(n);
    size_t rounds = n / (2 * ROUND_BYTES) < MOST_COMMAND_ROUNDS ? n / (2 * ROUND_BYTES) : MOST_COMMAND_ROUNDS;
    size_t terminals = ((n - 3) / rounds - ROUND_BYTES) / (5 * 12);
    if (terminals > 255) terminals = 255;
    uint8_t *to = input + 1, *end = input + n;
    for (size_t i = 0; i < rounds * TAGS; i++) to = put_command(to, (int)(i % TAGS) + 1, terminals);
    input[0] = (uint8_t)(rounds * TAGS);
    for (; end - to > 65537; input[0]++) {
        *to = 200;
        to = put_opaque(to + 1, 2, 60000);
    }
    put_two(to, (size_t)(end - to) - 2);
    hold_form(plain_configuration_lay(NW_CONFIGURATION, input, n, tape, ENTRIES), configuration_write_plain, n);
}
