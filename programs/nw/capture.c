// capture.c: a capture of sections or of transport packets read through a window of bounded size, and the sections in it found.
// SPDX-License-Identifier: MIT
#include "capture.h"
#include "progress.h"
#include <string.h>

enum { WINDOW = 1 << 16, LEAST = 12 };

struct window {
    FILE *in;
    uint8_t s[WINDOW];
    size_t start, end; // the bytes at hand
    uint64_t at;       // where the first of them stands in the capture
    bool over;         // there are no more
};

// Sees to it that the longest section is at hand, or all that is left.
static void fill(struct window *w) {
    if (w->over || w->end - w->start >= NW_MOST_SECTION) return;
    memmove(w->s, w->s + w->start, w->end - w->start);
    w->end -= w->start;
    w->start = 0;
    w->end += fread(w->s + w->end, 1, WINDOW - w->end, w->in);
    w->over = w->end < WINDOW;
    progress_at(w->at + w->end);
}

// Judges what begins a byte string, as long as it says to be: 12 bytes where it doesn't, so that its kind is looked at first.
static nw_heading judge(const uint8_t *s, size_t n, size_t *length) {
    nw_answer stated = nw_section_length(s, n);
    *length = NW_REFUSAL(stated) == NW_TAKEN ? (size_t)nw_value(stated) : LEAST;
    if (*length > n) *length = n;
    return nw_section_read(s, *length);
}

static void pass(struct window *w, size_t n) {
    w->start += n;
    w->at += n;
}

// Passes over what begins no good section, to the next that does, and tells it.
static void skip(struct window *w, struct finder finder, nw_heading got, size_t length) {
    struct stretch bad = {.at = w->at, .refusal = NW_REFUSAL(got)};
    bool damaged = bad.refusal == NW_CHECK_NOT_ZERO;
    if (damaged) memcpy(bad.heading, w->s + w->start, HEADING);
    do {
        pass(w, 1);
        fill(w);
        bad.bytes = w->at - bad.at;
        if (w->start == w->end || (damaged && bad.bytes == length)) break;
        size_t its;
        got = judge(w->s + w->start, w->end - w->start, &its);
    } while (NW_REFUSAL(got) != NW_TAKEN);
    finder.skipped(finder.own, &bad);
}

// ---- a file of sections

static void read_sections(struct window *w, struct finder finder) {
    while (w->start < w->end) {
        size_t length;
        nw_heading got = judge(w->s + w->start, w->end - w->start, &length);
        if (NW_REFUSAL(got) == NW_TAKEN) {
            finder.section(finder.own, w->at, w->s + w->start, length, got);
            pass(w, length);
        } else skip(w, finder, got, length);
        fill(w);
    }
}

// ---- a transport stream

// Tells the sections that the packet at hand completes.
static void take_completed(struct window *w, struct finder finder, const uint8_t *s, size_t n) {
    for (size_t length; n > 0; s += length, n -= length) {
        length = 3 + ((size_t)(s[1] & 0x0F) << 8 | s[2]);
        nw_heading got = nw_section_read(s, length);
        struct stretch bad = {.at = w->at, .bytes = length, .refusal = NW_REFUSAL(got), .in_packets = true};
        if (bad.refusal == NW_CHECK_NOT_ZERO) memcpy(bad.heading, s, HEADING);
        if (bad.refusal == NW_TAKEN) finder.section(finder.own, w->at, s, length, got);
        else finder.skipped(finder.own, &bad);
    }
}

// Passes over what is no packet, up to the next one, and tells it.
static void find_packet(struct window *w, struct finder finder) {
    struct stretch bad = {.at = w->at, .refusal = NW_NO_SYNC_BYTE};
    size_t before, sure;
    do {
        fill(w);
        size_t n = w->end - w->start;
        sure = w->over ? n : n - 2 * NW_PACKET_BYTES;
        before = stream_next(w->s + w->start, n, sure);
        pass(w, before);
    } while (before == sure && w->start < w->end);
    bad.bytes = w->at - bad.at;
    if (bad.bytes != 0) finder.skipped(finder.own, &bad);
}

static void read_packets(struct window *w, struct finder finder, struct stream *x) {
    uint8_t out[NW_MOST_COMPLETED_BYTES];
    for (; w->start < w->end; fill(w)) {
        if (w->at == 0 || w->s[w->start] != STREAM_SYNC) find_packet(w, finder);
        size_t left = w->end - w->start, n = left < NW_PACKET_BYTES ? left : NW_PACKET_BYTES;
        if (n == 0) break;
        nw_answer got = stream_take(x, w->at, w->s + w->start, n, out);
        unsigned number = NW_REFUSAL(got);
        if (number == NW_TAKEN) take_completed(w, finder, out, nw_value(got));
        else if (number != NW_OTHER_PID) finder.skipped(finder.own, &(struct stretch){.at = w->at, .bytes = n, .refusal = number});
        pass(w, n);
    }
    stream_end(x);
}

bool capture_read(FILE *in, struct finder finder, struct captured *got) {
    static struct window w;
    static struct stream x;
    w = (struct window){.in = in};
    x = (struct stream){.lost = finder.lost, .own = finder.own};
    fill(&w);
    if (ferror(in)) return false;
    bool is_stream = stream_is(w.s, w.end);
    finder.begin(finder.own);
    if (is_stream) read_packets(&w, finder, &x);
    else read_sections(&w, finder);
    *got = (struct captured){w.at, is_stream, x.ours, x.others, x.errors, x.repeats, x.refused};
    return !ferror(in);
}
