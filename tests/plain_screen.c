// plain_screen: what a screen box shows in plain C, made from document 02 and the header alone, to measure the package by: the body is judged, and then
// gone over once.
// SPDX-License-Identifier: MIT
#include "plain_screen.h"

#include "plain_fields.h"
#include "plain_index.h"

// Where fields stand in a message.
enum { START_AT = 20, END_AT = 25, LEVEL_AT = 35, COUNT_AT = 36, RESOURCES_AT = 37 };
enum { DAY_SECONDS = 86400 };

// The code as a body has it. Answers whether it is one.
static int pack_code(const uint8_t *code, size_t digits, uint8_t own[RESOURCE_BYTES]) {
    if (digits != NW_RESOURCE_DIGITS) return 0;
    uint8_t bad = code[0] > 9;
    own[0] = 0xF0 | code[0];
    for (size_t i = 1; i < RESOURCE_BYTES; i++) {
        bad |= code[2 * i - 1] > 9 || code[2 * i] > 9;
        own[i] = (uint8_t)(code[2 * i - 1] << 4 | code[2 * i]);
    }
    return !bad;
}

// A moment as a time field, which is greater the later it is; the live mark is greater than all.
static uint64_t moment_field(uint32_t day, uint32_t second) {
    uint32_t h = second / 3600, m = second / 60 % 60, s = second % 60;
    return (uint64_t)day << 24 | (h / 10 << 20 | h % 10 << 16 | m / 10 << 12 | m % 10 << 8 | s / 10 << 4 | s % 10);
}

static int lists(const uint8_t *message, const uint8_t own[RESOURCE_BYTES]) {
    const uint8_t *r = message + RESOURCES_AT;
    for (unsigned left = message[COUNT_AT]; left > 0; left--, r += RESOURCE_BYTES)
        if (memcmp(r, own, RESOURCE_BYTES) == 0) return 1;
    return 0;
}

// The level above the start: the least of these, and the first of equals.
static plain_answer walk(const uint8_t *body, const uint8_t own[RESOURCE_BYTES], uint64_t now) {
    plain_answer found = 0;
    uint64_t best = UINT64_MAX;
    size_t at = 3;
    for (uint64_t i = 0; i < body[0]; i++) {
        const uint8_t *message = body + at;
        size_t length = big_endian(message - 2, 2);
        uint64_t start = big_endian(message + START_AT, 5), rank = (uint64_t)(message[LEVEL_AT] & 15u) << 40 | start;
        if (rank < best && start <= now && now < big_endian(message + END_AT, 5) && lists(message, own)) {
            best = rank;
            found = value(UINT64_C(1) << 48 | i << 40 | (uint64_t)at << 16 | length);
        }
        at += length + 2;
    }
    return found;
}

plain_answer plain_screen_choose(uint32_t kind, const uint8_t *body, size_t n, const uint8_t *code, size_t digits, uint32_t day, uint32_t second) {
    uint8_t own[RESOURCE_BYTES];
    if (!pack_code(code, digits, own)) return DIGIT;
    if (day < FIRST_DAY || day > LAST_DAY || second >= DAY_SECONDS) return IMPOSSIBLE;
    plain_answer read = plain_index_read(kind, body, n);
    return refusal_of(read) ? read : walk(body, own, moment_field(day, second));
}
