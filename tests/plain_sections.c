// plain_sections: sections read and cut, and the gathering, in plain C, made from document 01 and the header alone.
// SPDX-License-Identifier: MIT
#include "plain_sections.h"

#include <stdbool.h>

#include "plain_fields.h"
#include "plain_numbers.h"

enum { HEADING = 8, CHECK = 4, FRAME = HEADING + CHECK, MOST_VERSION = 31 };

static int is_kind(uint32_t kind) { return kind >= NW_CONFIGURATION && kind <= NW_CONTENT; }

plain_answer plain_section_read(const uint8_t *s, size_t n) {
    if (n < FRAME) return NW_SECTION_TOO_SHORT;
    if (!is_kind(s[0])) return NW_OTHER_KIND;
    if (s[1] >> 4 != 15 || s[5] >> 6 != 3) return NW_FIXED_BIT_ZERO;
    size_t length = (s[1] & 15u) << 8 | s[2];
    if (length < 9 || length > 4093) return NW_SECTION_LENGTH_OUTSIDE;
    if (n != length + 3) return NW_OTHER_LENGTH;
    if (s[6] > s[7]) return NW_NUMBER_ABOVE_LAST;
    if (plain_crc32(s, n) != 0) return NW_CHECK_NOT_ZERO;
    uint64_t extension = (uint64_t)s[3] << 8 | s[4], version = s[5] >> 1 & 31, current = s[5] & 1;
    return value((uint64_t)s[0] << 48 | extension << 32 | version << 24 | current << 16 | (uint64_t)s[6] << 8 | s[7]);
}

plain_answer plain_section_length(const uint8_t *s, size_t n) {
    if (n < 3) return NW_SECTION_TOO_SHORT;
    size_t length = ((size_t)s[1] * 256 + s[2]) % 4096;
    return length >= 9 && length <= 4093 ? value(length + 3) : NW_SECTION_LENGTH_OUTSIDE;
}

// ---- a damaged capture

// How many bytes the good section has that begins at s, or 0.
static size_t good_length(const uint8_t *s, size_t n) {
    plain_answer stated = plain_section_length(s, n);
    size_t length = refusal_of(stated) ? 0 : (size_t)value_of(stated);
    return length != 0 && length <= n && refusal_of(plain_section_read(s, length)) == 0 ? length : 0;
}

// Goes over a capture: counts, and where out is not NULL, writes.
static void go_over(const uint8_t *s, size_t n, uint8_t *out, uint32_t *list, size_t *bytes, size_t *numbers) {
    bool skipping = false;
    *bytes = *numbers = 0;
    for (size_t at = 0, length; at < n; at += length > 0 ? length : 1) {
        length = good_length(s + at, n - at);
        if (length == 0 && skipping) {
            if (out) list[*numbers - 1]++;
            continue;
        }
        if (out) {
            list[*numbers] = length > 0;
            list[*numbers + 1] = (uint32_t)at;
            list[*numbers + 2] = length > 0 ? (uint32_t)length : 1;
            if (length > 0) memcpy(out + *bytes, s + at, length);
        }
        skipping = length == 0;
        *bytes += length;
        *numbers += 3;
    }
}

plain_answer plain_salvage(const uint8_t *capture, size_t n, uint8_t *out, size_t room, uint32_t *list, size_t numbers) {
    size_t bytes, needed;
    if (n > NW_MOST_CAPTURE) return NW_CAPTURE_TOO_LONG;
    if (room < n || numbers < NW_SALVAGE_NUMBERS(n)) {
        go_over(capture, n, NULL, NULL, &bytes, &needed);
        if (room < bytes || numbers < needed) return NW_OUTPUT_TOO_SMALL;
    }
    go_over(capture, n, out, list, &bytes, &needed);
    return value((uint64_t)(needed / 3) << 24 | bytes);
}

// ---- cutting

plain_answer plain_section_count(size_t length) {
    if (length == 0) return PAST_BODY;
    return length > NW_MOST_BODY ? NW_TOO_LARGE : value((length + NW_MOST_PAYLOAD - 1) / NW_MOST_PAYLOAD);
}

void plain_section_put(uint8_t *out, const struct plain_heading *h, const uint8_t *payload, size_t n) {
    out[0] = (uint8_t)h->kind;
    put(out + 1, 0xF000 | (n + 9), 2);
    put(out + 3, h->extension, 2);
    out[5] = (uint8_t)(0xC0 | h->version << 1 | h->current);
    out[6] = (uint8_t)h->number;
    out[7] = (uint8_t)h->last;
    if (n > 0) memcpy(out + HEADING, payload, n);
    put(out + HEADING + n, plain_crc32(out, HEADING + n), CHECK);
}

plain_answer plain_section_cut(const uint8_t *body, size_t n, uint32_t kind, uint32_t extension, uint32_t version,
                               uint32_t number, uint8_t *out, size_t room) {
    if (!is_kind(kind)) return NW_OTHER_KIND;
    if (version > MOST_VERSION || extension > 65535) return OUTSIDE;
    if (n == 0) return PAST_BODY;
    if (n > NW_MOST_BODY) return NW_TOO_LARGE;
    size_t last = (n - 1) / NW_MOST_PAYLOAD;
    if (number > last) return NW_NUMBER_ABOVE_LAST;
    size_t part = number < last ? NW_MOST_PAYLOAD : n - last * NW_MOST_PAYLOAD;
    if (room < part + FRAME) return NW_OUTPUT_TOO_SMALL;
    struct plain_heading h = {kind, extension, version, 1, number, (uint32_t)last};
    plain_section_put(out, &h, body + number * (size_t)NW_MOST_PAYLOAD, part);
    return value(part + FRAME);
}

// ---- gathering

// In one way over the lengths: with none above the last section, what is missing is what is not present.
int plain_possible(const nw_gathering *g) {
    unsigned sum = 0, present = 0, over = 0, above = 0;
    for (size_t k = 0; k < 256; k++) {
        sum += g->held[k];
        present += g->held[k] != 0;
        over |= g->held[k] > NW_MOST_PAYLOAD + 1;
    }
    if (g->kind == 0) return (sum | g->extension | g->version | g->last | g->spoiled | g->missing | g->bytes) == 0;
    for (size_t k = g->last + (size_t)1; k < 256; k++) above |= g->held[k];
    return is_kind(g->kind) && g->version <= MOST_VERSION && g->spoiled <= 1 && present > 0 && !over && above == 0 &&
           g->missing == g->last + 1u - present && g->bytes == sum - present;
}

int plain_other_heading(const nw_gathering *g, plain_answer read) {
    return g->kind != heading_kind(read) || g->extension != heading_extension(read) ||
           g->version != heading_version(read) || g->last != heading_last(read);
}

// Of the same table in a version 1 to 15 steps ahead, round the ring of 32.
static int is_newer(const nw_gathering *g, plain_answer read) {
    unsigned steps = ((unsigned)heading_version(read) + MOST_VERSION + 1 - g->version) & MOST_VERSION;
    return g->kind == heading_kind(read) && g->extension == heading_extension(read) && steps > 0 && steps < 16;
}

int plain_begins(const nw_gathering *g, plain_answer read) { return g->kind == 0 || is_newer(g, read); }

// The kept numbers go on from what they were: a fresh state misses all.
void plain_hold(nw_gathering *g, plain_answer read, size_t length) {
    g->missing = (uint16_t)(g->kind == 0 ? heading_last(read) : g->missing - 1u);
    g->bytes += (uint32_t)length;
    g->extension = (uint16_t)heading_extension(read);
    g->kind = (uint8_t)heading_kind(read);
    g->version = (uint8_t)heading_version(read);
    g->last = (uint8_t)heading_last(read);
    g->held[heading_number(read)] = (uint16_t)(length + 1);
}

plain_answer plain_gathering_feed(nw_gathering *g, uint8_t *store, size_t store_bytes, const uint8_t *s, size_t n) {
    if (!plain_possible(g)) return NW_IMPOSSIBLE_STATE;
    plain_answer read = plain_section_read(s, n);
    if (refusal_of(read)) return read;
    if (!heading_current(read)) return NW_NOT_CURRENT;
    int begins = plain_begins(g, read);
    if (!begins && plain_other_heading(g, read)) return NW_OTHER_HEADING;
    if (store_bytes < NW_STORE_BYTES(heading_last(read))) return NW_STORE_TOO_SHORT;
    if (begins) memset(g, 0, sizeof *g);
    if (g->spoiled) return NW_CONTRADICTION;
    size_t number = heading_number(read), length = n - FRAME;
    uint8_t *place = store + number * NW_MOST_PAYLOAD;
    if (g->held[number] == length + 1 && memcmp(place, s + HEADING, length) == 0) return value(NW_FED_HELD_ALREADY);
    if (g->held[number] != 0) {
        g->spoiled = 1;
        return NW_CONTRADICTION;
    }
    memcpy(place, s + HEADING, length);
    plain_hold(g, read, length);
    return value(NW_FED_TAKEN);
}

// The length of the body, if all of the table is there.
plain_answer plain_whole_body(const nw_gathering *g, size_t store_bytes) {
    if (!plain_possible(g)) return NW_IMPOSSIBLE_STATE;
    if (g->kind == 0) return NW_MISSING;
    if (store_bytes < NW_STORE_BYTES(g->last)) return NW_STORE_TOO_SHORT;
    if (g->spoiled) return NW_CONTRADICTION;
    if (g->missing == 0) return value(g->bytes);
    size_t first = 0;
    while (g->held[first] != 0) first++;
    return refused(NW_MISSING, first);
}

plain_answer plain_gathering_hand_out(const nw_gathering *g, const uint8_t *store, size_t store_bytes, uint8_t *out,
                                      size_t out_bytes) {
    plain_answer whole = plain_whole_body(g, store_bytes);
    if (refusal_of(whole)) return whole;
    if (value_of(whole) > out_bytes) return NW_OUTPUT_TOO_SMALL;
    for (size_t k = 0; k <= g->last; out += g->held[k++] - 1) memcpy(out, store + k * NW_MOST_PAYLOAD, g->held[k] - 1u);
    return whole;
}

plain_answer plain_gathering_pack(nw_gathering *g, uint8_t *store, size_t store_bytes) {
    plain_answer whole = plain_whole_body(g, store_bytes);
    if (refusal_of(whole)) return whole;
    uint8_t *front = store;
    for (size_t k = 0; k <= g->last; front += g->held[k++] - 1)
        memmove(front, store + k * NW_MOST_PAYLOAD, g->held[k] - 1u);
    memset(g, 0, sizeof *g);
    return whole;
}
