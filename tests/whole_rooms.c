// whole_rooms.c: two networks over one store, by the library and by plain C: calls by chance for either, state after state.
// SPDX-License-Identifier: MIT
#include <string.h>

#include "whole.h"

enum { LARGE = NW_ROOMS_BYTES(NW_MOST_ROOMS) };

static nw_networks state;
static uint8_t store[LARGE];

// ---- both made to do the same

static void lend_both(size_t store_bytes) {
    bool high = one_in(2);
    lend(&state_library, &state, sizeof state);
    lend(&state_plain, &state, sizeof state);
    lend_at(&output_library, store, store_bytes, high);
    lend_at(&output_plain, store, store_bytes, high);
}

// Both have become the same, with nothing changed by a refused call but that a contradiction spoils a network.
static void same_both(plain_answer got, uint32_t network, size_t store_bytes) {
    nw_networks before = state;
    if (trying == F_networks_feed && refusal_of(got) == NW_CONTRADICTION)
        (network == 1 ? &before.one : &before.two)->gathering.spoiled = 1;
    unchanged(&output_plain, refusal_of(got) ? store : NULL);
    unchanged(&output_library, output_plain.at);
    unchanged(&state_library, state_plain.at);
    unchanged(&state_plain, refusal_of(got) ? &before : NULL);
    memcpy(&state, state_plain.at, sizeof state);
    memcpy(store, output_plain.at, store_bytes);
}

static void start(size_t store_bytes) {
    trying = F_networks_start;
    lend_both(store_bytes);
    same((plain_answer)nw_networks_start((void *)state_library.at, store_bytes) << 8,
         (plain_answer)plain_networks_start((void *)state_plain.at, store_bytes) << 8);
    same_both(0, 0, store_bytes);
}

static void feed(uint32_t network, const uint8_t *section, size_t n, size_t store_bytes) {
    const uint8_t *s = lend(&input, section, n);
    lend_both(store_bytes);
    trying = F_networks_feed;
    plain_answer got = same(nw_networks_feed((void *)state_library.at, network, output_library.at, store_bytes, s, n).packed,
                            plain_networks_feed((void *)state_plain.at, network, output_plain.at, store_bytes, s, n));
    unchanged(&input, section);
    same_both(got, network, store_bytes);
}

static void end(uint32_t network, size_t store_bytes) {
    trying = F_networks_end;
    lend_both(store_bytes);
    plain_answer got = same(nw_networks_end((void *)state_library.at, network, store_bytes).packed,
                            plain_networks_end((void *)state_plain.at, network, store_bytes));
    same_both(got, network, store_bytes);
}

static void hand_out(uint32_t network, size_t store_bytes) {
    size_t length = network == 1 ? state.one.gathering.bytes : state.two.gathering.bytes;
    size_t room = one_in(3) ? length + 2 - below(4) : length + below(100);
    if (room > MOST_LENT / 2) room = length > MOST_LENT / 2 ? 0 : length;
    const nw_networks *x = lend(&state_library, &state, sizeof state);
    const uint8_t *s = lend(&input, store, store_bytes);
    TRY_OUTPUT(networks_hand_out, room, 1, x, network, s, store_bytes);
    unchanged(&state_library, &state);
    unchanged(&input, store);
}

static void count(size_t store_bytes) {
    const nw_networks *x = lend(&state_library, &state, sizeof state);
    TRY(networks_held_rooms, x, store_bytes);
    TRY(networks_free_rooms, x, store_bytes);
    unchanged(&state_library, &state);
}

// ---- by chance

// A state that is perhaps not possible: a room shared, lost, of no store, or of a number that is not held; any other byte.
static void damage_state(void) {
    nw_network *p = one_in(2) ? &state.one : &state.two, *q = one_in(2) ? &state.one : &state.two;
    size_t k = below(p->gathering.last + 1u), l = below(q->gathering.last + 1u);
    switch (below(8)) {
    case 0: p->rooms[k] = q->rooms[l]; break;
    case 1: p->rooms[k] = 0; break;
    case 2: p->rooms[k] = (uint16_t)(1 + below(12)); break;
    case 3: p->rooms[below(256)] = (uint16_t)below(514); break;
    case 4: state.bytes += 1 - below(3); break;
    case 5: p->gathering.held[k] = (uint16_t)(4083 + below(5)); break;
    case 6: p->gathering.missing = (uint16_t)(p->gathering.missing + 1 - below(3)); break;
    default: ((uint8_t *)&state)[below(sizeof state)] ^= (uint8_t)(1 << below(8));
    }
}

static uint32_t some_network(void) { return one_in(40) ? (uint32_t)around(2) : 1 + (uint32_t)below(2); }

// A section of a network's table, or perhaps of a newer one, of another, not current, or damaged.
static size_t fed_section(uint8_t *s, const struct plain_heading *table) {
    struct plain_heading h = *table;
    h.number = (uint32_t)below(h.last + 1);
    h.current = !one_in(30);
    if (one_in(20)) h.version = (h.version + (uint32_t)below(20)) % 32;
    if (one_in(40)) h.last = h.number + (uint32_t)below(4);
    if (one_in(60)) h.extension ^= 1;
    size_t n = one_in(20) ? below(NW_MOST_PAYLOAD + 1) : h.number * 7 % 50;
    plain_section_put(s, &h, noise() + h.number + (one_in(30) ? 1 : 0), n);
    n += 12;
    if (one_in(12)) damage(s, &n, NW_MOST_SECTION + 50);
    return n;
}

static void try_run(size_t rooms, uint32_t most_last, size_t calls) {
    static uint8_t s[NW_MOST_SECTION + 50];
    struct plain_heading tables[2];
    for (size_t i = 0; i < 2; i++) {
        uint32_t last = (uint32_t)below(most_last + 1);
        tables[i] = (struct plain_heading){0xFB + (uint32_t)below(4), (uint32_t)below(65536), (uint32_t)below(32), 1, 0, last};
    }
    size_t bytes = NW_ROOMS_BYTES(rooms) + below(one_in(2) ? 2 : NW_ROOM_BYTES);
    if (bytes > sizeof store) bytes = sizeof store;
    memcpy(store, noise(), bytes);
    start(bytes);
    for (size_t i = 0; i < calls; i++) {
        uint32_t network = some_network();
        size_t other = one_in(60) && bytes > 0 ? bytes - 1 : bytes;
        feed(network, s, fed_section(s, &tables[network == 2]), other);
        if (one_in(4)) hand_out(network, other);
        if (one_in(20)) end(some_network(), other);
        if (one_in(8)) count(other);
        if (one_in(60)) damage_state();
        if (one_in(60)) start(bytes);
    }
}

void try_rooms(void) {
    for (size_t i = 0; i < 500; i++) try_run(below(one_in(4) ? 9 : 5), 1 + (uint32_t)below(5), 30);
    try_run(NW_MOST_ROOMS - below(2), 255, 60);
}
