// given_sections: the bytes, times, sections and packets that the contenders are given, and the states that they begin from.
// SPDX-License-Identifier: MIT
#include <stdlib.h>
#include <string.h>

#include "bench.h"
#include "plain_packets.h"
#include "plain_rooms.h"
#include "plain_sections.h"

_Alignas(64) uint8_t input[512 * NW_MOST_SECTION];
_Alignas(64) uint8_t output[256 * NW_MOST_PACKED];
static _Alignas(64) uint8_t states[NW_UNPACKER_BYTES + 4096];
uint8_t *lent_state = states;
_Alignas(64) uint8_t lent_store[NW_ROOMS_BYTES(NW_MOST_ROOMS)];
_Alignas(64) uint32_t lent_list[NW_SALVAGE_NUMBERS(NW_MOST_CAPTURE)];
_Alignas(64) nw_record lent_records[NW_MOST_MESSAGES];
nw_gathering half, whole;
nw_networks halves;
uint8_t half_store[NW_STORE_BYTES(1)], halves_store[NW_ROOMS_BYTES(4)];

void place_state(int turn) { lent_state = states + turn * 112 % 4096; }

void fill_bytes(size_t n) {
    uint32_t chance = 86;
    for (size_t i = 0; i < n; i++) input[i] = (uint8_t)((chance = chance * 1664525 + 1013904223) >> 24);
}

// The text that document 01's date program is given first, and what it is at +8 hours as a field.
void fill_text(size_t n) { memcpy(input, "03/11/2024 07:45:00", n); }
void fill_field(size_t n) { memcpy(input, "\xEC\xC8\x23\x45\x00", n); }

// Each byte begins a section that only fails its check.
void fill_false(size_t n) { memset(input, 0xFE, n); }

// ---- one section

// A section of n bytes of a table, with any payload.
static void put_section(size_t n, uint32_t number, uint32_t last) {
    static uint8_t payload[NW_MOST_PAYLOAD];
    fill_bytes(n - 12);
    memcpy(payload, input, n - 12);
    plain_section_put(input, &(struct plain_heading){NW_INDEX, 0x0C29, 17, 1, number, last}, payload, n - 12);
}

void fill_section(size_t n) {
    put_section(n, 0, 0);
    if (refusal_of(section_read_plain(input, n))) abort();
}

// The first of two sections, n bytes of it; the second, without a payload, is held.
void fill_feeding(size_t n) {
    memset(&half, 0, sizeof half);
    put_section(12, 1, 1);
    plain_answer held = plain_gathering_feed(&half, half_store, sizeof half_store, input, 12);
    put_section(n, 0, 1);
    if (refusal_of(held) || feed_plain(input, n) != NW_FED_TAKEN) abort();
}

// The same for network 1, while network 2 holds the second section too.
void fill_feeding_two(size_t n) {
    plain_networks_start(&halves, sizeof halves_store);
    put_section(12, 1, 1);
    for (uint32_t network = 1; network <= 2; network++)
        if (refusal_of(plain_networks_feed(&halves, network, halves_store, sizeof halves_store, input, 12))) abort();
    fill_feeding(n);
    if (feed_two_plain(input, n) != NW_FED_TAKEN) abort();
}

// ---- tables

// A state that holds all of a table whose body has n bytes. Each payload is a byte short of full, and so is moved over a part of itself.
void fill_packing(size_t n) {
    size_t sections = n / SHORT_PAYLOAD;
    whole = (nw_gathering){.bytes = (uint32_t)n, .kind = NW_INDEX, .version = 17, .last = (uint8_t)(sections - 1)};
    for (size_t k = 0; k < sections; k++) whole.held[k] = SHORT_PAYLOAD + 1;
    if (gathering_pack_plain(input, n) != (uint64_t)n << 8) abort();
}

// The section of some number of a table of so many sections, in place i.
static void put_full_section(size_t i, size_t number, size_t sections) {
    static uint8_t payload[NW_MOST_PAYLOAD];
    for (size_t k = 0; k < sizeof payload; k++) payload[k] = (uint8_t)((k * k + number * 2654435761u) >> 8);
    struct plain_heading h = {NW_INDEX, 0x0C29, 17, 1, (uint32_t)number, (uint32_t)sections - 1};
    plain_section_put(input + i * NW_MOST_SECTION, &h, payload, sizeof payload);
}

void fill_in_order(size_t n) {
    size_t sections = n / NW_MOST_SECTION;
    for (size_t i = 0; i < sections; i++) put_full_section(i, i, sections);
}

void fill_reversed(size_t n) {
    size_t sections = n / NW_MOST_SECTION;
    for (size_t i = 0; i < sections; i++) put_full_section(i, sections - 1 - i, sections);
}

void fill_shuffled(size_t n) {
    uint8_t numbers[256] = {0};
    uint32_t chance = 86;
    size_t sections = n / NW_MOST_SECTION;
    for (size_t i = 0; i < sections; i++) {
        size_t other = ((chance = chance * 1664525 + 1013904223) >> 16) % (i + 1);
        numbers[i] = numbers[other];
        numbers[other] = (uint8_t)i;
    }
    for (size_t i = 0; i < sections; i++) put_full_section(i, numbers[i], sections);
}

// All sections, and then all of them again.
void fill_twice(size_t n) {
    size_t sections = n / NW_MOST_SECTION / 2;
    for (size_t i = 0; i < 2 * sections; i++) put_full_section(i, i % sections, sections);
}

void fill_packets(size_t n) {
    size_t bytes = n / NW_MOST_PACKED * NW_MOST_SECTION;
    fill_in_order(bytes);
    if (packets_of_plain(input, bytes) != n) abort();
    memcpy(input, output, n);
}
