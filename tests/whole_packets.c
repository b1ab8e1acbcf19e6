// whole_packets.c: packets by chance, packed and unpacked by the library and by plain C, state after state.
// SPDX-License-Identifier: MIT
#include <string.h>

#include "whole.h"

static uint8_t state[NW_UNPACKER_BYTES];

// ---- packing

// A good section of n bytes of payload, or one that is damaged.
static size_t some_section(uint8_t *s, size_t n) {
    uint32_t last = (uint32_t)below(256);
    struct plain_heading h = {0xFB + (uint32_t)below(4), (uint32_t)below(65536), (uint32_t)below(32), !one_in(20), (uint32_t)below(last + 1), last};
    plain_section_put(s, &h, noise() + below(1000), n);
    return n + 12;
}

static void try_packing(void) {
    static uint8_t bytes[NW_MOST_SECTION + 50];
    for (size_t i = 0; i < 30000; i++) {
        size_t n = some_section(bytes, one_in(2) ? below(600) : below(NW_MOST_PAYLOAD + 1));
        if (one_in(4)) damage(bytes, &n, sizeof bytes);
        const uint8_t *s = lend(&input, bytes, n);
        uint32_t counter = one_in(8) ? (uint32_t)around(16) : (uint32_t)below(16);
        size_t room = one_in(4) ? below(5000) : NW_PACKED_BYTES(n) + 2 - below(4);
        TRY_OUTPUT(packet_pack, room, 1, s, n, counter);
        unchanged(&input, bytes);
    }
}

// ---- unpacking

// Both have become the same, and a refused packet changes nothing.
static void unpack(const uint8_t *packet, size_t n, size_t room) {
    const uint8_t *p = lend(&input, packet, n);
    lend(&state_library, state, sizeof state);
    lend(&state_plain, state, sizeof state);
    lend_outputs(room);
    trying = F_packet_unpack;
    plain_answer got = same_outputs(nw_packet_unpack(state_library.at, p, n, output_library.at, room).packed,
                                    plain_packet_unpack(state_plain.at, p, n, output_plain.at, room));
    unchanged(&input, packet);
    unchanged(&state_library, state_plain.at);
    unchanged(&state_plain, refusal_of(got) ? state : NULL);
    memcpy(state, state_plain.at, sizeof state);
}

// A packet on PID 0x21 that goes on with a stream of framed sections, with a pointer where one begins.
static size_t make_packet(uint8_t *p, uint8_t counter, const uint8_t *stream, size_t at, size_t begins, size_t n) {
    size_t room = one_in(6) ? 1 + below(183) : 184, left = n - at < room ? n - at : room;
    bool starts = begins >= at && begins < at + left - 1;
    size_t field = 184 - left, head = 4;
    p[0] = 0x47;
    p[1] = starts ? 0x40 : 0;
    p[2] = 0x21;
    p[3] = (uint8_t)((field > 0 ? 0x30 : 0x10) | counter);
    if (field > 0) {
        p[4] = (uint8_t)(field - 1);
        memset(p + 5, 0xFF, field - 1);
        head = 4 + field;
    }
    size_t pointer = starts ? 1 : 0;
    if (starts) p[head] = (uint8_t)(begins - at);
    memcpy(p + head + pointer, stream + at, left - pointer);
    return left - pointer;
}

// Something happens to a packet on its way.
static void meet(uint8_t *p, size_t *n) {
    switch (below(14)) {
    case 0: p[below(NW_PACKET_BYTES)] ^= (uint8_t)(1u << below(8)); break;
    case 1: p[below(8)] ^= (uint8_t)(1u << below(8)); break;
    case 2: p[1] |= 0x80; break;
    case 3: p[2] ^= 1; break;
    case 4: p[3] |= 0x40; break;
    case 5: p[4] = (uint8_t)around(183); break;
    case 6: *n = below(2) ? below(190) : NW_PACKET_BYTES; break;
    default: break;
    }
}

static void try_stream(void) {
    static uint8_t stream[3 * NW_MOST_SECTION];
    size_t n = 0, begins[8], count = 1 + below(6);
    for (size_t i = 0; i < count; i++) {
        size_t length = one_in(3) ? below(4096) : below(400);
        begins[i] = n;
        if (n + 3 + length > sizeof stream) length = sizeof stream - n - 3;
        stream[n] = one_in(20) ? 0xFF : (uint8_t)below(255);
        stream[n + 1] = (uint8_t)(0xF0 | length >> 8);
        stream[n + 2] = (uint8_t)length;
        memcpy(stream + n + 3, noise() + below(1000), length);
        n += 3 + length;
        if (n + 3 >= sizeof stream) count = i + 1;
    }
    uint8_t counter = (uint8_t)below(16), p[NW_PACKET_BYTES + 2] = {0};
    for (size_t at = 0, i = 0; at < n;) {
        while (i < count && begins[i] < at) i++;
        at += make_packet(p, counter, stream, at, i < count ? begins[i] : n, n);
        counter = (uint8_t)((counter + 1 + one_in(30)) % 16);
        size_t length = NW_PACKET_BYTES, room = one_in(5) ? below(5000) : NW_MOST_COMPLETED_BYTES;
        if (one_in(8)) meet(p, &length);
        unpack(p, length, room);
        for (size_t again = one_in(6) ? 1 + below(3) : 0; again > 0; again--) unpack(p, length, room);
    }
}

void try_packets(void) {
    try_packing();
    for (size_t i = 0; i < 20000; i++) {
        if (one_in(10)) memset(state, 0, sizeof state);
        if (one_in(20)) state[below(one_in(2) ? 200 : sizeof state)] = (uint8_t)below(256);
        if (one_in(200)) memcpy(state, noise() + below(1000), sizeof state);
        try_stream();
    }
}
