// The gathering's target: feeds, handings out and packings over one state and one store, beside the bodies that were cut.
// SPDX-License-Identifier: MIT
#include "cuts.h"

enum { STORE = 4 * NW_MOST_PAYLOAD };

// Without a store, at NULL, a feed is refused with 10, or as before where its refusal stands before 10; it changes nothing.
static void try_no_store(const nw_gathering *g, const uint8_t *s, size_t n, unsigned refusal) {
    nw_gathering after = *g;
    bool earlier = refusal != NW_TAKEN && refusal != NW_STORE_TOO_SHORT && refusal != NW_CONTRADICTION;
    must(refused(nw_gathering_feed(&after, NULL, 0, s, n), earlier ? refusal : NW_STORE_TOO_SHORT));
    must(memcmp(&after, g, sizeof after) == 0);
}

// The state with a section that was taken: alone, where it began a table or is 1 to 15 steps ahead of the one before.
static nw_gathering after_taking(nw_gathering before, const uint8_t *s, size_t n) {
    uint8_t version = s[5] >> 1 & 0x1F;
    if (before.kind != 0 && before.version != version) {
        unsigned steps = (version + 32u - before.version) % 32;
        must(before.kind == s[0] && before.extension == (s[3] << 8 | s[4]) && steps >= 1 && steps <= 15);
    } else must(before.kind == 0 || (before.last == s[7] && before.spoiled == 0 && before.held[s[6]] == 0));
    if (before.version != version) memset(&before, 0, sizeof before);
    before.kind = s[0];
    before.extension = (uint16_t)(s[3] << 8 | s[4]);
    before.version = version;
    before.last = s[7];
    before.held[s[6]] = (uint16_t)(n - 11);
    before.bytes = before.missing = 0; // counted afresh
    for (size_t k = 0; k <= before.last; k++) {
        before.missing += before.held[k] == 0;
        before.bytes += before.held[k] ? before.held[k] - 1u : 0;
    }
    return before;
}

// A refused feed changes nothing, but that a contradiction spoils; a taken one changes its own place only.
static void try_feed(struct lent *state, struct lent *store, const uint8_t *section, size_t n) {
    nw_gathering *g = (nw_gathering *)(void *)state->bytes, before = *g;
    uint8_t *s = copy_of(section, n);
    nw_answer fed = nw_gathering_feed(g, store->bytes, store->size, s, n);
    must(taken(fed) ? nw_value(fed) <= NW_FED_HELD_ALREADY : NW_PLACE(fed) == 0);
    try_no_store(&before, s, n, NW_REFUSAL(fed));
    if (taken(fed) && nw_value(fed) == NW_FED_TAKEN) {
        size_t at = (size_t)s[6] * NW_MOST_PAYLOAD;
        must(memcmp(store->bytes + at, s + 8, n - 12) == 0);
        memcpy(store->before + at, s + 8, n - 12);
        before = after_taking(before, s, n);
    } else before.spoiled = NW_REFUSAL(fed) == NW_CONTRADICTION ? 1 : before.spoiled;
    must(memcmp(g, &before, sizeof before) == 0);
    must(kept(store, 0));
    free(s);
}

// Handing out changes neither state nor store; a body handed out is the one that was cut, where all fed was of it.
static void try_handing_out(struct input *in, struct lent *state, struct lent *store, const struct cuts *c, bool clean) {
    remember(state);
    struct lent out = lend(now_and_then(in, 4) ? upto(in, BODY) : STORE, 0x5a);
    const nw_gathering *g = (const nw_gathering *)(const void *)state->bytes;
    nw_answer a = nw_gathering_hand_out(g, store->bytes, store->size, out.bytes, out.size);
    must(kept(state, 0) && kept(store, 0));
    must(kept(&out, taken(a) ? (size_t)nw_value(a) : 0));
    must(taken(a) || NW_REFUSAL(a) == NW_MISSING || NW_PLACE(a) == 0);
    nw_answer none = nw_gathering_hand_out(g, store->bytes, store->size, NULL, 0);
    must(refused(none, taken(a) && nw_value(a) != 0 ? NW_OUTPUT_TOO_SMALL : a.packed));
    must(!taken(nw_gathering_hand_out(g, NULL, 0, NULL, 0)));
    if (clean && taken(a)) must(nw_value(a) == c->n && memcmp(out.bytes, c->body, c->n) == 0);
    give_back(&out);
}

// Packing answers as handing out does; a packed body stands at the front, all beyond it is as it was, and the state is
// fresh. A refused packing changes nothing. What is packed is a copy: the gathering goes on.
static void try_packing(const struct lent *state, const struct lent *store) {
    static const nw_gathering fresh = NW_FRESH;
    struct lent body = lend(STORE, 0x5a), packed = lend(store->size, 0), after = lend(sizeof fresh, 0);
    nw_gathering *g = memcpy(after.bytes, state->bytes, sizeof fresh);
    memcpy(packed.bytes, store->bytes, store->size);
    nw_answer handed = nw_gathering_hand_out(g, store->bytes, store->size, body.bytes, body.size);
    nw_answer a = nw_gathering_pack(g, packed.bytes, packed.size);
    must(a.packed == handed.packed);
    size_t n = taken(a) ? (size_t)nw_value(a) : 0;
    must(n == (taken(a) ? ((const nw_gathering *)(const void *)state->bytes)->bytes : 0));
    must(memcmp(packed.bytes, body.bytes, n) == 0 && memcmp(packed.bytes + n, store->bytes + n, store->size - n) == 0);
    must(memcmp(g, taken(a) ? (const void *)&fresh : state->bytes, sizeof fresh) == 0);
    must(!taken(nw_gathering_pack(g, NULL, 0)));
    give_back(&after);
    give_back(&packed);
    give_back(&body);
}

// Every section of the table, in an order of the input's, is the body again.
static void try_whole(struct input *in, struct lent *store, const struct cuts *c) {
    struct lent state = lend(sizeof(nw_gathering), 0);
    uint8_t section[NW_MOST_SECTION];
    uint32_t count = (uint32_t)nw_value(nw_section_count(c->n)), first = (uint32_t)upto(in, count - 1);
    for (uint32_t i = 0; i < count; i++) {
        nw_answer a = nw_section_cut(c->body, c->n, NW_CONTENT, 0x1234, 7, (first + i) % count, section, sizeof section);
        try_feed(&state, store, section, (size_t)nw_value(a));
    }
    must(store->size < NW_STORE_BYTES(count - 1) || ((nw_gathering *)(void *)state.bytes)->kind == NW_CONTENT);
    try_handing_out(in, &state, store, c, true);
    try_packing(&state, store);
    give_back(&state);
}

int LLVMFuzzerTestOneInput(const uint8_t *data, size_t size) {
    struct input in = {data, size};
    struct cuts c = take_cuts(&in);
    struct lent state = lend(sizeof(nw_gathering), 0), store = lend(now_and_then(&in, 8) ? upto(&in, STORE) : STORE, 0x11);
    uint8_t section[NW_MOST_SECTION];
    if (now_and_then(&in, 8)) // a state that no feed made, mostly an impossible one
        for (size_t i = 0; i < 16; i++) state.bytes[upto(&in, sizeof(nw_gathering) - 1)] = (uint8_t)take(&in, 1);
    for (size_t feeds = upto(&in, 12); feeds > 0; feeds--) {
        try_feed(&state, &store, section, make_section(&in, &c, section));
        if (now_and_then(&in, 4)) try_handing_out(&in, &state, &store, &c, false);
        if (now_and_then(&in, 4)) try_packing(&state, &store);
    }
    try_feed(&state, &store, in.s, in.n);
    try_whole(&in, &store, &c);
    give_back(&state);
    give_back(&store);
    return 0;
}
