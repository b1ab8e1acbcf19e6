// packets: what the library makes of packets, asked in bytes on standard input and answered in bytes on standard output.
//
// S and 4,286 bytes: the state is these. P, a length, a room and a packet of that length: it is unpacked into an output of
// that room; the answer is the refusal, a length and so many bytes of sections, and then the state's mark and the CRC-32 of
// what it holds. K, a counter, a length, a room and a section: it is packed; the answer is the refusal, a length and so many
// bytes. Lengths and rooms are two bytes, the high one first. A refusal that changes the state, or a byte written behind what
// is answered, ends the program.
// SPDX-License-Identifier: MIT
#include <stdio.h>
#include <stdlib.h>
#include <string.h>

#include "neapwillow.h"

enum { MOST = 65535, BEHIND = 0xA5 };

static uint8_t state[NW_UNPACKER_BYTES], in[MOST], out[MOST];

static void stop(const char *why) {
    fprintf(stderr, "packets: %s\n", why);
    exit(2);
}

static void take(uint8_t *s, size_t n) {
    if (fread(s, 1, n, stdin) != n) stop("the input ends too early");
}

static size_t take_length(void) {
    uint8_t s[2];
    take(s, 2);
    return (size_t)s[0] << 8 | s[1];
}

static void put_length(size_t n) {
    putchar((int)(n >> 8));
    putchar((int)(n & 0xFF));
}

static uint32_t check(uint32_t crc, const uint8_t *s, size_t n) {
    crc = ~crc;
    for (size_t i = 0; i < n; i++) {
        crc ^= s[i];
        for (int k = 0; k < 8; k++) crc = crc >> 1 ^ (crc & 1 ? UINT32_C(0xEDB88320) : 0);
    }
    return ~crc;
}

// The refusal and what was written; nothing may be written behind it, nor by a refusal.
static void put_answer(nw_answer a, size_t room) {
    size_t n = NW_REFUSAL(a) == NW_TAKEN ? (size_t)nw_value(a) : 0;
    if (NW_REFUSAL(a) != NW_TAKEN && NW_PLACE(a) != 0) stop("a refusal has a place");
    if (n > room) stop("more is told than there is room for");
    for (size_t i = n; i < MOST; i++)
        if (out[i] != BEHIND) stop("a byte is written behind what is told");
    putchar((int)NW_REFUSAL(a));
    put_length(n);
    fwrite(out, 1, n, stdout);
    memset(out, BEHIND, n);
}

static void unpack(void) {
    static uint8_t before[NW_UNPACKER_BYTES];
    size_t n = take_length(), room = take_length();
    take(in, n);
    memcpy(before, state, sizeof state);
    nw_answer a = nw_packet_unpack(state, in, n, out, room);
    if (NW_REFUSAL(a) != NW_TAKEN && memcmp(before, state, sizeof state) != 0) stop("a refusal changes the state");
    put_answer(a, room);
    size_t kept = (size_t)state[1] << 8 | state[2];
    uint32_t held = 0;
    if (state[0] == 1 || state[0] == 2) held = check(0, state + 3, 188 + (kept <= 4095 ? kept : 0));
    putchar(state[0]);
    for (int k = 24; k >= 0; k -= 8) putchar((int)(held >> k & 0xFF));
}

static void pack(void) {
    uint8_t counter[4];
    take(counter, 4);
    size_t n = take_length(), room = take_length();
    take(in, n);
    uint32_t from = (uint32_t)counter[0] << 24 | (uint32_t)counter[1] << 16 | (uint32_t)counter[2] << 8 | counter[3];
    put_answer(nw_packet_pack(in, n, from, out, room), room);
}

int main(void) {
    memset(out, BEHIND, sizeof out);
    for (int what; (what = getchar()) != EOF;) {
        if (what == 'S') take(state, sizeof state);
        else if (what == 'P') unpack();
        else if (what == 'K') pack();
        else stop("no such request");
    }
    return 0;
}
