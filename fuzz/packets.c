// The target of transport packets: any state, any packets, and sections packed and unpacked again.
// SPDX-License-Identifier: MIT
#include "trial.h"

enum { ROOM = NW_MOST_COMPLETED_BYTES };

// A packet that is ours more often than not, with the fields that decide taken from the input.
static void make_packet(struct input *in, uint8_t p[NW_PACKET_BYTES]) {
    for (size_t i = 0; i < NW_PACKET_BYTES; i++) p[i] = now_and_then(in, 4) ? 0xFF : (uint8_t)take(in, 1);
    if (now_and_then(in, 16)) return;
    p[0] = 0x47;
    p[1] = now_and_then(in, 2) ? 0x40 : 0;
    p[2] = 0x21;
    p[3] = (uint8_t)(0x10 | upto(in, 15));
    if (now_and_then(in, 4)) p[3] |= 0x20;
    p[4] = (uint8_t)upto(in, now_and_then(in, 2) ? 255 : 12);
    if (now_and_then(in, 8)) p[1] |= 0x80;
}

// Each section stands whole in the output, as many bytes together as were told.
static void hold_sections(const uint8_t *s, size_t n) {
    size_t count = 0;
    for (; n > 0; count++) {
        must(n >= 3 && s[0] != 0xFF);
        size_t length = 3 + ((size_t)(s[1] & 0x0F) << 8 | s[2]);
        must(length <= NW_MOST_SECTION && length <= n);
        s += length;
        n -= length;
    }
    must(count <= NW_MOST_COMPLETED);
}

static void try_packet(struct lent *state, const uint8_t *packet, size_t n, size_t room) {
    static uint8_t before[NW_UNPACKER_BYTES];
    struct lent out = lend(room, 0x5a);
    uint8_t *p = copy_of(packet, n);
    memcpy(before, state->bytes, sizeof before);
    nw_answer a = nw_packet_unpack(state->bytes, p, n, out.bytes, room);
    unsigned number = NW_REFUSAL(a);
    must(number == NW_TAKEN || number == NW_OUTPUT_TOO_SMALL || (number >= NW_NOT_A_PACKET && number <= NW_PAST_PACKET));
    must(taken(a) || (NW_PLACE(a) == 0 && memcmp(before, state->bytes, sizeof before) == 0));
    must((number == NW_NOT_A_PACKET) == (n != NW_PACKET_BYTES));
    must(room < ROOM || number != NW_OUTPUT_TOO_SMALL);
    must(kept(&out, taken(a) ? (size_t)nw_value(a) : 0));
    if (taken(a)) hold_sections(out.bytes, (size_t)nw_value(a));
    give_back(&out);
    free(p);
}

// A section that is cut and packed comes out of a fresh unpacker as it was.
static void try_packing(struct input *in) {
    static uint8_t body[NW_MOST_PAYLOAD], s[NW_MOST_SECTION];
    size_t n = 1 + upto(in, now_and_then(in, 2) ? NW_MOST_PAYLOAD - 1 : 400);
    for (size_t i = 0; i < n; i++) body[i] = (uint8_t)(in->n > 0 ? in->s[i % in->n] + i / in->n : i);
    nw_answer cut = nw_section_cut(body, n, NW_CONTENT, 7, 1, 0, s, sizeof s);
    must(taken(cut));
    n = (size_t)nw_value(cut);
    uint32_t counter = (uint32_t)(now_and_then(in, 8) ? take(in, 4) : upto(in, 15));
    struct lent packets = lend(now_and_then(in, 8) ? upto(in, 5000) : NW_PACKED_BYTES(n), 0x5a);
    nw_answer a = nw_packet_pack(s, n, counter, packets.bytes, packets.size);
    must(taken(a) == (counter <= 15 && packets.size >= NW_PACKED_BYTES(n)));
    must(kept(&packets, taken(a) ? (size_t)nw_value(a) : 0));
    if (taken(a)) {
        static uint8_t state[NW_UNPACKER_BYTES], out[ROOM];
        memset(state, 0, sizeof state);
        for (size_t at = 0; at < nw_value(a); at += NW_PACKET_BYTES) {
            nw_answer got = nw_packet_unpack(state, packets.bytes + at, NW_PACKET_BYTES, out, sizeof out);
            must(taken(got) && nw_value(got) == (at + NW_PACKET_BYTES == nw_value(a) ? n : 0));
        }
        must(memcmp(out, s, n) == 0);
        s[upto(in, n - 1)] ^= (uint8_t)(1 << upto(in, 7));
        must(!taken(nw_packet_pack(s, n, counter, packets.bytes, packets.size)));
    }
    give_back(&packets);
}

int LLVMFuzzerTestOneInput(const uint8_t *data, size_t size) {
    struct input in = {data, size};
    struct lent state = lend(NW_UNPACKER_BYTES, 0);
    if (now_and_then(&in, 4))
        for (size_t i = 0; i < NW_UNPACKER_BYTES; i++) state.bytes[i] = (uint8_t)take(&in, 1);
    try_packing(&in);
    while (in.n > 0) {
        uint8_t p[NW_PACKET_BYTES + 1];
        make_packet(&in, p);
        size_t n = now_and_then(&in, 32) ? upto(&in, NW_PACKET_BYTES + 1) : NW_PACKET_BYTES;
        size_t room = now_and_then(&in, 8) ? upto(&in, ROOM) : ROOM;
        p[NW_PACKET_BYTES] = 0;
        try_packet(&state, p, n, room);
        if (now_and_then(&in, 3)) try_packet(&state, p, n, room);
    }
    give_back(&state);
    return 0;
}
