/* capture.h: a capture of sections or of transport packets read through a window of bounded size, and the sections in it found. */
/* SPDX-License-Identifier: MIT */
#ifndef CAPTURE_H
#define CAPTURE_H

#include "../../examples/stream.h"
#include <stdio.h>

enum { HEADING = STREAM_HEADING }; /* bytes of a section's heading */

/* Bytes that are no good section or packet, and why none begins where they do. */
struct stretch {
    uint64_t at, bytes;
    unsigned refusal;
    bool in_packets;          /* a section of so many bytes, which the packet at this place completes */
    uint8_t heading[HEADING]; /* of a section that has all but the right check; else zeros */
};

/* Who is told, in the order of the capture: first that it begins, which nobody is told of what can't be read. The place of a section in a
 * transport stream is that of the packet that completes it. */
struct finder {
    void (*begin)(void *own);
    void (*section)(void *own, uint64_t at, const uint8_t *s, size_t n, nw_heading heading);
    void (*skipped)(void *own, const struct stretch *bad);
    void (*lost)(void *own, const struct stream_loss *loss);
    void *own;
};

/* How much there was. */
struct captured {
    uint64_t bytes;
    bool is_stream;
    uint64_t ours, others, errors, repeats, refused; /* packets of a stream, as stream.h counts them */
};

/* Finds all sections. In a file of them a good one is taken wherever it begins, and the search goes on after its end, else a byte further
 * on; one that only fails its check is a stretch of its own, unless a good one begins inside. In a transport stream they are those that its
 * packets complete. False where the capture can't be read, as errno says. */
bool capture_read(FILE *in, struct finder finder, struct captured *got);

#endif
