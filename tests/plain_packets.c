// plain_packets.c: packing and unpacking as a C programmer would write them, with memcpy, memmove and memcmp, and the same checks: of the
// packet, of the counter and of the state, which may hold anything.
// SPDX-License-Identifier: MIT
#include "plain_packets.h"

#include <stdbool.h>
#include <string.h>

#include "plain_sections.h"

enum { PACKET = 188, LAST = 3, BEGUN = 191, LONGEST = 4096 };

static plain_answer refusing(unsigned number) { return number; }
static plain_answer telling(size_t n) { return (plain_answer)n << 8; }

// ---- packing

plain_answer plain_packet_pack(const uint8_t *section, size_t n, uint32_t counter, uint8_t *out, size_t room) {
    plain_answer read = plain_section_read(section, n);
    if (refusal_of(read) != 0) return refusing(refusal_of(read));
    if (counter > 15) return refusing(NW_OUTSIDE_SET);
    size_t size = PACKET * (1 + n / 184);
    if (room < size) return refusing(NW_OUTPUT_TOO_SMALL);
    for (uint8_t *p = out; p < out + size; p += PACKET) {
        bool first = p == out;
        size_t at = first ? 5 : 4, take = PACKET - at < n ? PACKET - at : n;
        p[0] = 0x47;
        p[1] = first ? 0x40 : 0;
        p[2] = 0x21;
        p[3] = (uint8_t)(0x10 | counter);
        p[4] = 0;
        memcpy(p + at, section, take);
        if (at + take < PACKET) memset(p + at + take, 0xFF, PACKET - at - take);
        section += take;
        n -= take;
        counter = (counter + 1) % 16;
    }
    return telling(size);
}

// ---- a packet by itself

struct packet {
    unsigned refusal;
    bool error, skipped, starts;
    size_t at, pointed; // where the payload begins behind the pointer, and what the pointer points at
};

static struct packet judge(const uint8_t *p, size_t n) {
    if (n != PACKET) return (struct packet){.refusal = NW_NOT_A_PACKET};
    if (p[0] != 0x47) return (struct packet){.refusal = NW_NO_SYNC_BYTE};
    if (p[1] & 0x80) return (struct packet){.error = true};
    if ((p[1] & 0x1F) != 0 || p[2] != 0x21) return (struct packet){.refusal = NW_OTHER_PID};
    if (p[3] & 0xC0) return (struct packet){.refusal = NW_SCRAMBLED};
    unsigned control = p[3] >> 4 & 3;
    size_t at = control == 1 ? 4 : 5 + (size_t)p[4];
    if (control == 0 || at > PACKET) return (struct packet){.refusal = NW_PAST_PACKET};
    if (control == 2) return (struct packet){.skipped = true};
    if (!(p[1] & 0x40)) return (struct packet){.at = at};
    if (at == PACKET || at + 1 + p[at] >= PACKET) return (struct packet){.refusal = NW_PAST_PACKET};
    return (struct packet){.starts = true, .at = at + 1, .pointed = at + 1 + p[at]};
}

// ---- sections

static size_t length_of(const uint8_t *s) { return 3 + ((size_t)(s[1] & 0x0F) << 8 | s[2]); }

// Where the sections from a pointer on end, and where the one begun after them begins; at the packet's end, where there is none.
static void scan(const uint8_t *p, size_t at, size_t *stop, size_t *left) {
    for (;;) {
        *stop = at;
        *left = PACKET;
        if (at == PACKET || p[at] == 0xFF) return;
        if (at + 3 > PACKET) break;
        size_t n = length_of(p + at);
        if (n > LONGEST) return;
        if (at + n > PACKET) break;
        at += n;
    }
    *left = at;
}

// The byte i of a section begun with `begun` bytes at s, and then at p.
static uint8_t joint(const uint8_t *s, size_t begun, const uint8_t *p, size_t i) { return i < begun ? s[i] : p[i - begun]; }

// How many bytes the section has that is begun with so many bytes and goes on with n more: 0 while its length is not there.
static size_t whole_length(const uint8_t *s, size_t begun, const uint8_t *p, size_t n) {
    if (begun + n < 3) return 0;
    return 3 + ((size_t)(joint(s, begun, p, 1) & 0x0F) << 8 | joint(s, begun, p, 2));
}

// ---- the state

static size_t kept_in(const uint8_t *state) { return (size_t)state[1] << 8 | state[2]; }

static bool possible(const uint8_t *state) {
    if (state[0] != 1 && state[0] != 2) return false;
    const uint8_t *last = state + LAST, *begun = state + BEGUN;
    struct packet was = judge(last, PACKET);
    size_t kept = kept_in(state);
    if (was.refusal != 0 || was.error || was.skipped || kept >= LONGEST) return false;
    if (kept > 0 && begun[0] == 0xFF) return false;
    if (kept >= 3 && (length_of(begun) > LONGEST || length_of(begun) <= kept)) return false;
    if (!was.starts) {
        size_t carried = PACKET - was.at;
        return kept == 0 || (kept > carried && memcmp(begun + kept - carried, last + was.at, carried) == 0);
    }
    size_t stop, left;
    scan(last, was.pointed, &stop, &left);
    return kept == PACKET - left && memcmp(begun, last + left, kept) == 0;
}

// ---- unpacking

static plain_answer take(uint8_t *state, size_t kept, const uint8_t *p, const struct packet *is, uint8_t *out, size_t room) {
    uint8_t *begun = state + BEGUN;
    size_t upto = is->starts ? is->pointed : PACKET, more = upto - is->at;
    size_t n = kept > 0 ? whole_length(begun, kept, p + is->at, more) : 0;
    bool ends = n > 0 && n <= LONGEST && n <= kept + more;
    size_t stop = is->pointed, left = PACKET, given = ends ? n : 0;
    if (is->starts) scan(p, is->pointed, &stop, &left);
    size_t sections = is->starts ? stop - is->pointed : 0;
    if (room < given + sections) return refusing(NW_OUTPUT_TOO_SMALL);
    if (ends) {
        memcpy(out, begun, kept);
        memcpy(out + kept, p + is->at, n - kept);
    }
    if (sections > 0) memcpy(out + given, p + is->pointed, sections);
    size_t goes = 0;
    if (!is->starts && kept > 0 && !ends && n <= LONGEST) goes = kept, left = is->at;
    memcpy(begun + goes, p + left, PACKET - left);
    goes += PACKET - left;
    state[0] = 1;
    state[1] = (uint8_t)(goes >> 8);
    state[2] = (uint8_t)goes;
    memcpy(state + LAST, p, PACKET);
    return telling(given + sections);
}

plain_answer plain_packet_unpack(uint8_t state[NW_UNPACKER_BYTES], const uint8_t *packet, size_t n, uint8_t *out,
                                 size_t room) {
    struct packet is = judge(packet, n);
    if (is.refusal != 0) return refusing(is.refusal);
    if (is.error) state[0] = 0;
    if (is.error || is.skipped) return telling(0);
    bool known = possible(state);
    const uint8_t *last = state + LAST;
    if (known && state[0] == 1 && memcmp(last, packet, PACKET) == 0) {
        state[0] = 2;
        return telling(0);
    }
    bool follows = known && (packet[3] & 0x0F) == ((last[3] + 1) & 0x0F);
    return take(state, follows ? kept_in(state) : 0, packet, &is, out, room);
}
