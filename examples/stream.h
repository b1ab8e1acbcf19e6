// stream.h: a transport stream told from a file of sections, its packets found, and what it lost noted, for box.c and nw.
//
// The library unpacks, and does not say what it drops. Who judges a cable has to know: so the counters, and how much has come of the
// section that is unfinished, are followed here beside it. A section's bytes are the library's alone. Where 16 packets in a row are lost,
// or a multiple of it, the counters show nothing.
// SPDX-License-Identifier: MIT
#ifndef STREAM_H
#define STREAM_H

#include <neapwillow.h>
#include <stdbool.h>
#include <string.h>

enum { STREAM_SYNC = 0x47, STREAM_PAYLOAD = 184, STREAM_HEADING = 8 };
enum stream_kind { STREAM_GAP, STREAM_ERROR, STREAM_POINTER, STREAM_LENGTH, STREAM_NO_BEGINNING, STREAM_NO_END };

// Something that did not come whole, and shows at a packet.
struct stream_loss {
    uint64_t at; // where the packet begins in the stream
    enum stream_kind kind;
    unsigned packets;                // of a gap: how many are lost before it, by the counters
    bool known;                      // nothing is lost but a section, and its heading is this one
    uint8_t heading[STREAM_HEADING];
};

struct stream {
    void (*lost)(void *own, const struct stream_loss *loss);
    void *own;
    uint64_t at, ours, others, errors, repeats, refused; // the present packet's place, and how many there were
    uint8_t state[NW_UNPACKER_BYTES], last[NW_PACKET_BYTES];
    bool taken, repeated, error;     // one is the last, its repeat was ignored, an error bit came after it
    bool begun, gone;                // a section is unfinished; it is lost already
    bool told;                       // up to the next pointer nothing can be read, and that is told
    size_t have;                     // bytes of the unfinished section that came, or were lost
    uint8_t heading[STREAM_HEADING];
};

static inline const char *stream_words(enum stream_kind kind) {
    static const char *const words[] = {
        "packets before it are lost",
        "an error bit came, and what was unfinished is dropped",
        "a section begins in it before the last one has ended",
        "a section_length in it is above 4,093",
        "it has bytes of a section whose beginning did not come",
        "the stream ends after it, and a section has not ended"};
    return words[kind];
}

// ---- where packets are

// How many bytes stand before the next packet: the sync byte begins it and the two after it, as far as the bytes reach. Of places
// for it the first `sure` ones are looked at.
static inline size_t stream_next(const uint8_t *s, size_t n, size_t sure) {
    for (size_t at = 0; at < sure; at++) {
        size_t p = at;
        while (p < n && p <= at + 2 * NW_PACKET_BYTES && s[p] == STREAM_SYNC) p += NW_PACKET_BYTES;
        if (p >= n || p > at + 2 * NW_PACKET_BYTES) return at;
    }
    return sure;
}

// Whether packets are nine bytes in ten, found as a reader finds them: from one to the next, and where there is none, searched for.
static inline bool stream_is_found(const uint8_t *s, size_t n) {
    size_t at = s[0] == STREAM_SYNC ? 0 : stream_next(s, n, n), packets = 0;
    for (; at < n; packets++) {
        at += NW_PACKET_BYTES;
        if (at < n && s[at] != STREAM_SYNC) at += stream_next(s + at, n - at, n - at);
    }
    return packets >= 5 && packets * NW_PACKET_BYTES * 10 >= n * 9;
}

// Whether bytes are a transport stream: packets are found, or nine in ten have the sync byte at one place, or all of less than five at their
// beginning; never where a good section begins the bytes.
static inline bool stream_is(const uint8_t *s, size_t n) {
    nw_answer stated = nw_section_length(s, n);
    if (NW_REFUSAL(stated) == NW_TAKEN && nw_value(stated) <= n && NW_REFUSAL(nw_section_read(s, nw_value(stated))) == NW_TAKEN)
        return false;
    for (size_t start = 0; start < NW_PACKET_BYTES && start < n; start++) {
        size_t packets = 0, synced = 0;
        for (size_t p = start; p < n; p += NW_PACKET_BYTES, packets++) synced += s[p] == STREAM_SYNC;
        if (packets >= 5 ? synced * 10 >= packets * 9 : start == 0 && n % NW_PACKET_BYTES == 0 && synced == packets) return true;
    }
    return n != 0 && stream_is_found(s, n);
}

// ---- what is lost

static inline size_t stream_length(const struct stream *x) { return 3 + ((size_t)(x->heading[1] & 0x0F) << 8 | x->heading[2]); }

static inline void stream_tell(struct stream *x, enum stream_kind kind, unsigned packets, bool known) {
    struct stream_loss loss = {.at = x->at, .kind = kind, .packets = packets, .known = known};
    memcpy(loss.heading, x->heading, STREAM_HEADING);
    x->lost(x->own, &loss);
}

// Whether of the unfinished section the heading came, and at least so many bytes did not.
static inline bool stream_lacks(const struct stream *x, size_t n) {
    return x->begun && x->have >= STREAM_HEADING && stream_length(x) >= x->have + n;
}

// Packets are lost. Where the unfinished section lacked all that they can have carried, they were of it and of no other.
static inline void stream_gap(struct stream *x, unsigned packets) {
    size_t most = (size_t)packets * STREAM_PAYLOAD;
    bool known = stream_lacks(x, most);
    stream_tell(x, STREAM_GAP, packets, known);
    x->have += most;
    x->gone = x->told = true;
    x->begun = known && x->have < stream_length(x);
}

// ---- what goes on

// Goes on with the section that is begun. Answers how many of the bytes are its own.
static inline size_t stream_go_on(struct stream *x, const uint8_t *s, size_t n) {
    size_t i = 0;
    for (; x->begun && i < n; i++) {
        if (x->have < STREAM_HEADING) x->heading[x->have] = s[i];
        x->have++;
        if (x->have == 3 && stream_length(x) > NW_MOST_SECTION) {
            stream_tell(x, STREAM_LENGTH, 0, false);
            x->begun = false;
            x->told = true;
        } else if (x->have >= 3 && x->have == stream_length(x)) x->begun = false;
    }
    return i;
}

// The bytes before a pointer, or of a packet without one: the section's that is unfinished, and stuffing.
static inline void stream_before(struct stream *x, const uint8_t *s, size_t n, bool pointed) {
    size_t at = stream_go_on(x, s, n);
    if (x->begun && pointed && !x->gone) stream_tell(x, STREAM_POINTER, 0, x->have >= STREAM_HEADING);
    while (at < n && s[at] == 0xFF) at++;
    if (at == n || x->told) return;
    stream_tell(x, STREAM_NO_BEGINNING, 0, false);
    x->told = true;
}

static inline void stream_carry(struct stream *x, const uint8_t *p) {
    size_t at = p[3] & 0x20 ? 5 + (size_t)p[4] : 4, end = NW_PACKET_BYTES;
    bool pointed = (p[1] & 0x40) != 0;
    if (pointed) end = at + 1 + p[at], at++;
    stream_before(x, p + at, end - at, pointed);
    if (!pointed) return;
    x->begun = x->told = x->gone = false;
    for (at = end; at < NW_PACKET_BYTES && p[at] != 0xFF && !x->begun && !x->told;) {
        x->begun = true;
        x->have = 0;
        at += stream_go_on(x, p + at, NW_PACKET_BYTES - at);
    }
}

// A packet that the library took.
static inline void stream_follow(struct stream *x, const uint8_t *p) {
    if (p[1] & 0x80) {
        x->errors++;
        x->error = true;
        return;
    }
    x->ours++;
    if ((p[3] & 0x30) == 0x20) return;
    if (x->taken && !x->repeated && !x->error && memcmp(p, x->last, NW_PACKET_BYTES) == 0) {
        x->repeats++;
        x->repeated = true;
        return;
    }
    unsigned lost = x->taken ? ((unsigned)p[3] - x->last[3] - 1) & 15 : 0;
    if (lost != 0) stream_gap(x, lost);
    else if (x->error && x->begun && !x->gone) {
        stream_tell(x, STREAM_ERROR, 0, stream_lacks(x, 0));
        x->gone = x->told = true;
    }
    stream_carry(x, p);
    memcpy(x->last, p, NW_PACKET_BYTES);
    x->taken = true;
    x->repeated = x->error = false;
}

// Takes one packet, as nw_packet_unpack does, and tells what was lost before it and in it.
static inline nw_answer stream_take(struct stream *x, uint64_t at, const uint8_t *p, size_t n, uint8_t out[NW_MOST_COMPLETED_BYTES]) {
    nw_answer got = nw_packet_unpack(x->state, p, n, out, NW_MOST_COMPLETED_BYTES);
    x->at = at;
    if (NW_REFUSAL(got) == NW_TAKEN) stream_follow(x, p);
    else if (NW_REFUSAL(got) == NW_OTHER_PID) x->others++;
    else x->refused++;
    return got;
}

// The stream has ended.
static inline void stream_end(struct stream *x) {
    if (x->error) stream_tell(x, STREAM_ERROR, 0, stream_lacks(x, STREAM_PAYLOAD));
    else if (x->begun && !x->gone) stream_tell(x, STREAM_NO_END, 0, x->have >= STREAM_HEADING);
}

#endif
