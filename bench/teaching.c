// teaching: the slow gathering to teach with beside the quick one. Four times the sections are some sixteen times the time: each kept one is read with
// all after it.
// SPDX-License-Identifier: MIT
#include <stdlib.h>
#include <string.h>

#include "bench.h"

static nw_gathering taught;
static uint8_t store[NW_STORE_BYTES(63)], buffer[64 * NW_TAUGHT_BYTES(NW_MOST_SECTION)];
static size_t used;

// ---- all but the last section of a table are kept, and it is fed; or all are, and the body is handed out

uint64_t teaching_feed_slow(const uint8_t *s, size_t n) {
    size_t more = used;
    return nw_teaching_feed(buffer, sizeof buffer, &more, sizeof store, s + n - NW_MOST_SECTION, NW_MOST_SECTION).packed;
}

uint64_t teaching_feed_quick(const uint8_t *s, size_t n) {
    nw_gathering g = taught;
    return nw_gathering_feed(&g, store, sizeof store, s + n - NW_MOST_SECTION, NW_MOST_SECTION).packed;
}

uint64_t teaching_hand_out_slow(const uint8_t *s, size_t n) {
    (void)s, (void)n;
    return nw_teaching_hand_out(buffer, sizeof buffer, used, sizeof store, output, sizeof output).packed;
}

uint64_t teaching_hand_out_quick(const uint8_t *s, size_t n) {
    (void)s, (void)n;
    return nw_gathering_hand_out(&taught, store, sizeof store, output, sizeof output).packed;
}

// Both gatherings are fed the first of the sections of the input.
static void teach(size_t sections) {
    memset(&taught, 0, sizeof taught);
    used = 0;
    for (size_t i = 0; i < sections; i++) {
        const uint8_t *s = input + i * NW_MOST_SECTION;
        nw_answer quick = nw_gathering_feed(&taught, store, sizeof store, s, NW_MOST_SECTION);
        nw_answer slow = nw_teaching_feed(buffer, sizeof buffer, &used, sizeof store, s, NW_MOST_SECTION);
        if (quick.packed != slow.packed || quick.packed != NW_TAKEN) abort();
    }
}

void fill_teaching_feed(size_t n) {
    fill_in_order(n);
    teach(n / NW_MOST_SECTION - 1);
}

void fill_teaching_body(size_t n) {
    fill_in_order(n);
    teach(n / NW_MOST_SECTION);
}
