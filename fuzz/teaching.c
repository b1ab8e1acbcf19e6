// The slow gathering's target: feeds to it and to the quick one side by side, and buffers of any bytes with any number in use.
// SPDX-License-Identifier: MIT
#include "trial.h"

enum { LAST = 3, STORE = NW_STORE_BYTES(LAST), BUFFER = 24 * 1024, FEEDS = 16 };

// A section of one of a few small tables, now and then damaged, cut or not current; answers its length.
static size_t make_section(struct input *in, uint8_t *s) {
    size_t n = upto(in, 255) % 12;
    unsigned other = now_and_then(in, 16), version = now_and_then(in, 4) ? (unsigned)upto(in, 31) : 7, number = (unsigned)upto(in, LAST);
    unsigned last = now_and_then(in, 8) ? (unsigned)upto(in, LAST + 1) : LAST;
    const uint8_t heading[] = {NW_CONTENT, 0xF0, (uint8_t)(n + 9), 0x12, (uint8_t)other, (uint8_t)(0xC1 | version << 1), (uint8_t)number, (uint8_t)last};
    memcpy(s, heading, sizeof heading);
    for (size_t i = 0; i < n; i++) s[8 + i] = (uint8_t)(now_and_then(in, 32) ? take(in, 1) : s[6]);
    if (now_and_then(in, 16)) s[5] ^= 1;
    n += 12;
    uint32_t check = nw_crc32(s, n - 4);
    for (size_t i = 0; i < 4; i++) s[n - 4 + i] = (uint8_t)(check >> (24 - 8 * i));
    if (now_and_then(in, 16)) s[upto(in, n - 1)] ^= (uint8_t)(1 + upto(in, 254));
    return now_and_then(in, 16) ? upto(in, n) : n;
}

// What every call answers to any buffer and any number in use: a number of its list, and nothing is written that may not be.
static void try_questions(struct lent *buffer, size_t used, size_t store_bytes, size_t out_bytes) {
    struct lent out = lend(out_bytes, 0x5a);
    remember(buffer);
    nw_heading heading = nw_teaching_heading(buffer->bytes, buffer->size, used, store_bytes);
    nw_answer missing = nw_teaching_missing(buffer->bytes, buffer->size, used, store_bytes);
    nw_answer handed = nw_teaching_hand_out(buffer->bytes, buffer->size, used, store_bytes, out.bytes, out.size);
    must(kept(buffer, 0) && kept(&out, taken(handed) ? (size_t)nw_value(handed) : 0));
    must(taken(heading) || refused(heading, NW_MISSING) || refused(heading, NW_IMPOSSIBLE_STATE));
    must(taken(heading) ? taken(missing) && nw_value(missing) <= nw_heading_last(heading) : missing.packed == heading.packed);
    must(taken(heading) || handed.packed == heading.packed);
    must(!taken(handed) || nw_value(missing) == 0);
    must(used <= buffer->size || refused(handed, NW_IMPOSSIBLE_STATE));
    if (NW_REFUSAL(handed) == NW_MISSING && taken(heading)) must(NW_PLACE(handed) <= nw_heading_last(heading) && nw_value(missing) > 0);
    give_back(&out);
}

// A feed keeps the string's row behind what is in use, whatever it answers; 37 and 12 change nothing.
static nw_answer try_feed(struct lent *buffer, size_t *used, size_t store_bytes, const uint8_t *section, size_t n) {
    uint8_t *s = copy_of(section, n);
    size_t before = *used;
    remember(buffer);
    nw_answer fed = nw_teaching_feed(buffer->bytes, buffer->size, used, store_bytes, s, n);
    bool fits = before <= buffer->size && NW_TAUGHT_BYTES(n) <= buffer->size - before;
    must(refused(fed, NW_TEACHING_BUFFER_FULL) == !fits);
    if (fits && !refused(fed, NW_IMPOSSIBLE_STATE)) {
        must(*used == before + NW_TAUGHT_BYTES(n));
        for (size_t i = 0; i < 8; i++) buffer->before[before + i] = (uint8_t)((uint64_t)n >> (56 - 8 * i));
        if (n > 0) memcpy(buffer->before + before + 8, s, n);
    } else must(*used == before);
    must(kept(buffer, 0));
    free(s);
    return fed;
}

// Both gatherings on the same strings, until the teaching buffer is full.
static void try_both(struct input *in) {
    static uint8_t store[STORE], quick_out[STORE], slow_out[STORE];
    nw_gathering g = NW_FRESH;
    size_t used = 0, store_bytes = now_and_then(in, 8) ? upto(in, STORE) : STORE;
    struct lent buffer = lend(now_and_then(in, 4) ? upto(in, 400) : BUFFER, 0x33);
    for (size_t feeds = upto(in, FEEDS); feeds > 0; feeds--) {
        uint8_t s[300];
        size_t n = make_section(in, s);
        nw_answer slow = try_feed(&buffer, &used, store_bytes, s, n);
        if (refused(slow, NW_TEACHING_BUFFER_FULL)) break;
        must(slow.packed == nw_gathering_feed(&g, store, store_bytes, s, n).packed);
        nw_heading heading = nw_teaching_heading(buffer.bytes, buffer.size, used, store_bytes);
        nw_answer missing = nw_teaching_missing(buffer.bytes, buffer.size, used, store_bytes);
        must(taken(heading) == (g.kind != 0) && (g.kind == 0 || (nw_heading_version(heading) == g.version && nw_heading_last(heading) == g.last)));
        must(g.kind == 0 ? refused(missing, NW_MISSING) : taken(missing) && nw_value(missing) == g.missing);
        nw_answer one = nw_gathering_hand_out(&g, store, store_bytes, quick_out, sizeof quick_out);
        nw_answer other = nw_teaching_hand_out(buffer.bytes, buffer.size, used, store_bytes, slow_out, sizeof slow_out);
        must(one.packed == other.packed && (!taken(one) || memcmp(quick_out, slow_out, (size_t)nw_value(one)) == 0));
        try_questions(&buffer, used, store_bytes, upto(in, 60));
    }
    give_back(&buffer);
}

// A buffer that holds the rest of the input, or rows and a change in them, with any number in use.
static void try_any(struct input *in) {
    struct lent buffer = lend(upto(in, 600), 0);
    size_t used = 0, store_bytes = (size_t)take(in, 2);
    uint8_t s[300];
    for (size_t rows = upto(in, 4); rows > 0; rows--) try_feed(&buffer, &used, store_bytes, s, make_section(in, s));
    if (now_and_then(in, 2) && buffer.size > 0) buffer.bytes[upto(in, buffer.size - 1)] ^= (uint8_t)take(in, 1);
    if (now_and_then(in, 2)) used = now_and_then(in, 4) ? (size_t)take(in, 8) : upto(in, 640);
    try_questions(&buffer, used, store_bytes, upto(in, 60));
    try_feed(&buffer, &used, store_bytes, in->s, in->n);
    give_back(&buffer);
}

int LLVMFuzzerTestOneInput(const uint8_t *data, size_t size) {
    struct input in = {data, size};
    must(refused(nw_teaching_feed(NULL, 0, &(size_t){0}, 0, NULL, 0), NW_TEACHING_BUFFER_FULL));
    must(refused(nw_teaching_hand_out(NULL, 0, 0, 0, NULL, 0), NW_MISSING));
    try_both(&in);
    try_any(&in);
    return 0;
}
