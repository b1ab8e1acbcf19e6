// The target of two networks over one store: calls for either, beside two gatherings with stores of their own, which have to be answered the
// same but where every room is held.
// SPDX-License-Identifier: MIT
#include "cuts.h"

enum { MOST_ROOMS = 7 };

// What is lent, and for each network a gathering by itself, whose store has a place for each number.
struct border {
    struct lent state, store;
    nw_gathering alone[2];
    size_t rooms;
};

static uint8_t stores[2][NW_STORE_BYTES(255)];

static nw_networks *networks(const struct border *b) { return (nw_networks *)(void *)b->state.bytes; }
static nw_network *part(nw_networks *x, uint32_t network) { return network == 1 ? &x->one : &x->two; }
static bool is_network(uint32_t network) { return network == 1 || network == 2; }

// No room is held twice, each that is held is one of the store's, and they are counted; each network holds what it would hold alone.
static void hold_rooms(const struct border *b) {
    nw_networks *x = networks(b);
    bool marked[MOST_ROOMS + 1] = {false};
    size_t held = 0;
    for (uint32_t network = 1; network <= 2; network++) {
        const nw_network *p = part(x, network);
        must(memcmp(&p->gathering, &b->alone[network - 1], sizeof p->gathering) == 0);
        for (size_t k = 0; k < 256; k++) {
            must((p->rooms[k] == 0) == (p->gathering.held[k] == 0) && p->rooms[k] <= b->rooms);
            if (p->rooms[k] == 0) continue;
            must(!marked[p->rooms[k]]);
            marked[p->rooms[k]] = true;
            held++;
            const uint8_t *payload = b->store.bytes + (p->rooms[k] - 1u) * NW_ROOM_BYTES;
            must(memcmp(payload, stores[network - 1] + k * NW_MOST_PAYLOAD, p->gathering.held[k] - 1u) == 0);
        }
    }
    must(x->bytes == b->store.size && nw_value(nw_networks_held_rooms(x, b->store.size)) == held);
    must(nw_value(nw_networks_free_rooms(x, b->store.size)) == b->rooms - held);
}

// Nothing of state or store has changed.
static void hold_all(struct border *b) {
    must(memcmp(b->state.bytes, b->state.before, b->state.size) == 0);
    must(kept(&b->store, 0));
}

// A feed is answered as the network alone would be, but where it would be taken and every room is held. What is no network is 19.
static void try_feed(struct border *b, uint32_t network, const uint8_t *section, size_t n) {
    nw_networks *x = networks(b);
    uint64_t free_rooms = nw_value(nw_networks_free_rooms(x, b->store.size));
    uint8_t *s = copy_of(section, n);
    remember(&b->state);
    remember(&b->store);
    nw_answer a = nw_networks_feed(x, network, b->store.bytes, b->store.size, s, n);
    if (!is_network(network)) {
        must(refused(a, NW_OUTSIDE_SET));
        hold_all(b);
    } else if (refused(a, NW_NO_FREE_ROOM)) {
        nw_gathering alone = b->alone[network - 1];
        uint8_t version = s[5] >> 1 & 0x1F;
        must(free_rooms == 0 && (alone.kind == 0 || (alone.version == version && alone.spoiled == 0 && alone.held[s[6]] == 0)));
        hold_all(b);
    } else {
        must(a.packed == nw_gathering_feed(&b->alone[network - 1], stores[network - 1], sizeof stores[0], s, n).packed);
        if (!taken(a) || nw_value(a) == NW_FED_HELD_ALREADY) must(kept(&b->store, 0));
        must(memcmp(part(x, 3 - network), part((nw_networks *)(void *)b->state.before, 3 - network), sizeof(nw_network)) == 0);
    }
    hold_rooms(b);
    free(s);
}

// The body is the one that the network alone would hand out; nothing is given back.
static void try_handing_out(struct input *in, struct border *b, uint32_t network) {
    static uint8_t body[NW_MOST_BODY];
    struct lent out = lend(now_and_then(in, 2) ? upto(in, BODY) : BODY, 0x5a);
    remember(&b->state);
    remember(&b->store);
    nw_answer a = nw_networks_hand_out(networks(b), network, b->store.bytes, b->store.size, out.bytes, out.size);
    hold_all(b);
    if (is_network(network)) {
        nw_answer alone = nw_gathering_hand_out(&b->alone[network - 1], stores[network - 1], sizeof stores[0], body, out.size);
        must(a.packed == alone.packed);
    } else must(refused(a, NW_OUTSIDE_SET));
    must(kept(&out, taken(a) ? (size_t)nw_value(a) : 0));
    if (taken(a)) must(memcmp(out.bytes, body, (size_t)nw_value(a)) == 0);
    give_back(&out);
}

static void try_end(struct border *b, uint32_t network) {
    remember(&b->state);
    remember(&b->store);
    nw_answer a = nw_networks_end(networks(b), network, b->store.size);
    must(is_network(network) ? a.packed == 0 : refused(a, NW_OUTSIDE_SET));
    must(kept(&b->store, 0));
    if (is_network(network)) memset(&b->alone[network - 1], 0, sizeof b->alone[0]);
    else hold_all(b);
    hold_rooms(b);
}

// A state with some bytes changed, or a store of another length: 12 to every call or to none, and then nothing changes.
static void try_damaged(struct input *in, const struct border *b) {
    struct lent state = lend(sizeof(nw_networks), 0), store = lend(now_and_then(in, 4) ? upto(in, b->store.size) : b->store.size, 0x33);
    uint8_t out[1];
    memcpy(state.bytes, b->state.bytes, state.size);
    for (size_t i = upto(in, 3); i > 0; i--) state.bytes[upto(in, state.size - 1)] ^= (uint8_t)take(in, 1);
    remember(&state);
    nw_networks *x = (nw_networks *)(void *)state.bytes;
    nw_answer a = nw_networks_feed(x, 1, store.bytes, store.size, NULL, 0);
    bool impossible = refused(a, NW_IMPOSSIBLE_STATE);
    must(impossible || refused(a, NW_SECTION_TOO_SHORT));
    must(impossible || x->bytes == store.size);
    must(memcmp(state.bytes, state.before, state.size) == 0 && kept(&store, 0));
    must(refused(nw_networks_held_rooms(x, store.size), NW_IMPOSSIBLE_STATE) == impossible);
    must(refused(nw_networks_free_rooms(x, store.size), NW_IMPOSSIBLE_STATE) == impossible);
    must(refused(nw_networks_hand_out(x, 2, store.bytes, store.size, out, 0), NW_IMPOSSIBLE_STATE) == impossible);
    must(memcmp(state.bytes, state.before, state.size) == 0);
    must(refused(nw_networks_end(x, 2, store.size), NW_IMPOSSIBLE_STATE) == impossible);
    if (impossible) must(memcmp(state.bytes, state.before, state.size) == 0);
    give_back(&state);
    give_back(&store);
}

static uint32_t some_network(struct input *in) { return now_and_then(in, 32) ? (uint32_t)take(in, 4) : 1 + (uint32_t)upto(in, 1); }

int LLVMFuzzerTestOneInput(const uint8_t *data, size_t size) {
    struct input in = {data, size};
    struct cuts c = take_cuts(&in);
    struct border b = {.state = lend(sizeof(nw_networks), (uint8_t)take(&in, 1))};
    b.rooms = upto(&in, MOST_ROOMS);
    b.store = lend(NW_ROOMS_BYTES(b.rooms) + (now_and_then(&in, 4) ? upto(&in, NW_ROOM_BYTES - 1) : 0), 0x11);
    must(nw_networks_start(networks(&b), b.store.size) == b.rooms);
    hold_rooms(&b);
    uint8_t section[NW_MOST_SECTION];
    for (size_t calls = upto(&in, 24); calls > 0; calls--) {
        uint32_t network = some_network(&in);
        try_feed(&b, network, section, make_section(&in, &c, section));
        if (now_and_then(&in, 4)) try_handing_out(&in, &b, network);
        if (now_and_then(&in, 12)) try_end(&b, some_network(&in));
        if (now_and_then(&in, 8)) try_damaged(&in, &b);
    }
    try_feed(&b, 1, in.s, in.n);
    give_back(&b.state);
    give_back(&b.store);
    return 0;
}
