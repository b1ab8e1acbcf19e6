// rooms: what the library makes of two networks over one store, asked in bytes on standard input and answered in bytes on standard output.
//
// N, a length and a byte: a store of that length is made of the byte, and the state is started; the answer is how many rooms there
// are. S and 2,080 bytes: the state is these. F, a network, a store's length, a length in two bytes and a string of it: it is fed. f: the
// same, and nothing is told but the answer, for stores that are long to look at. H, a network, a store's length and a room: the body is
// handed out. E, a network and a store's length: the gathering ends. C and a store's length: held and free rooms are counted. Numbers are
// four bytes, the high one first. An answer is the refusal, then four bytes of its place or the value, after H the body, after C both
// answers; and then, but after f, the CRC-32 of the state and, but after C, that of the store.
//
// All is done twice, for one box and for another whose networks are exchanged: a call for 1 is there one for 2. Answers that differ, states
// that are not each other's exchanged ones, stores that differ, a refusal that changes something but that a contradiction spoils, or a
// byte written behind what is answered end the program.
// SPDX-License-Identifier: MIT
#include <stdio.h>
#include <stdlib.h>
#include <string.h>

#include "neapwillow.h"

enum { MOST_STORE = NW_MOST_ROOMS * NW_ROOM_BYTES + 2 * NW_ROOM_BYTES, MOST_OUT = NW_MOST_BODY + 4096, BEHIND = 0xA5 };

struct box {
    nw_networks state, before;
    uint8_t *store, *kept;
};

static struct box boxes[2];
static size_t stored; // bytes of each store
static uint8_t in[65535], out[2][MOST_OUT];
static uint32_t table[256];

static void stop(const char *why) {
    fprintf(stderr, "rooms: %s\n", why);
    exit(2);
}

// ---- bytes in and out

static void take(void *s, size_t n) {
    if (fread(s, 1, n, stdin) != n) stop("the input ends too early");
}

static uint32_t take_number(size_t bytes) {
    uint8_t s[4];
    uint32_t x = 0;
    take(s, bytes);
    for (size_t i = 0; i < bytes; i++) x = x << 8 | s[i];
    return x;
}

static void put_number(uint64_t x) {
    for (int k = 24; k >= 0; k -= 8) putchar((int)(x >> k & 0xFF));
}

static void fill_table(void) {
    for (uint32_t i = 0; i < 256; i++) {
        table[i] = i;
        for (int k = 0; k < 8; k++) table[i] = table[i] >> 1 ^ (table[i] & 1 ? UINT32_C(0xEDB88320) : 0);
    }
}

static uint32_t check(const void *bytes, size_t n) {
    uint32_t crc = UINT32_MAX;
    for (const uint8_t *s = bytes; n > 0; s++, n--) crc = crc >> 8 ^ table[(crc ^ *s) & 0xFF];
    return ~crc;
}

// ---- both boxes

// The network of the exchanged box; what is no network stays none.
static uint32_t exchanged(uint32_t network) { return network == 1 ? 2 : network == 2 ? 1 : network; }

static void exchange(nw_networks *x) {
    nw_network one = x->one;
    x->one = x->two;
    x->two = one;
}

static void remember(void) {
    for (struct box *b = boxes; b < boxes + 2; b++) {
        b->before = b->state;
        memcpy(b->kept, b->store, stored);
    }
}

// A refused call changes nothing, but that a contradiction that was fed spoils the network it was fed for.
static void hold_refused(struct box *b, nw_answer a, uint32_t network, int fed) {
    if (NW_REFUSAL(a) == NW_TAKEN) return;
    if (NW_REFUSAL(a) != NW_MISSING && NW_PLACE(a) != 0) stop("a refusal has a place");
    if (fed && NW_REFUSAL(a) == NW_CONTRADICTION) (network == 1 ? &b->before.one : &b->before.two)->gathering.spoiled = 1;
    if (memcmp(&b->before, &b->state, sizeof b->state) != 0) stop("a refusal changes the state");
    if (memcmp(b->kept, b->store, stored) != 0) stop("a refusal changes the store");
}

// Both answered the same, their states are each other's exchanged ones, and their stores are the same.
static void hold_both(nw_answer a, nw_answer of_exchanged) {
    nw_networks x = boxes[1].state;
    exchange(&x);
    if (a.packed != of_exchanged.packed) stop("the exchanged networks are answered otherwise");
    if (memcmp(&x, &boxes[0].state, sizeof x) != 0) stop("the exchanged networks leave another state");
    if (memcmp(boxes[0].store, boxes[1].store, stored) != 0) stop("the exchanged networks leave another store");
}

static void put_answer(nw_answer a) {
    putchar((int)NW_REFUSAL(a));
    put_number(a.packed >> 8);
}

static void put_checks(void) {
    put_number(check(&boxes[0].state, sizeof boxes[0].state));
    put_number(check(boxes[0].store, stored));
}

// ---- the requests

static void start(void) {
    stored = take_number(4);
    uint8_t byte = (uint8_t)take_number(1);
    if (stored > MOST_STORE) stop("a store that is too long");
    size_t rooms[2];
    for (int i = 0; i < 2; i++) {
        struct box *b = &boxes[i];
        memset(b->store, byte, stored);
        memset(&b->state, byte, sizeof b->state);
        rooms[i] = nw_networks_start(&b->state, stored);
    }
    hold_both((nw_answer){rooms[0]}, (nw_answer){rooms[1]});
    put_number(rooms[0]);
    put_checks();
}

static void set_state(void) {
    take(&boxes[0].state, sizeof boxes[0].state);
    boxes[1].state = boxes[0].state;
    exchange(&boxes[1].state);
}

static void feed(int quietly) {
    uint32_t network = take_number(4);
    size_t length = take_number(4), n = take_number(2);
    take(in, n);
    if (!quietly) remember();
    nw_answer a = nw_networks_feed(&boxes[0].state, network, boxes[0].store, length, in, n);
    nw_answer other = nw_networks_feed(&boxes[1].state, exchanged(network), boxes[1].store, length, in, n);
    put_answer(a);
    if (quietly) {
        if (a.packed != other.packed) stop("the exchanged networks are answered otherwise");
        return;
    }
    hold_refused(&boxes[0], a, network, 1);
    hold_refused(&boxes[1], other, exchanged(network), 1);
    hold_both(a, other);
    put_checks();
}

static void hand_out(void) {
    uint32_t network = take_number(4);
    size_t length = take_number(4), room = take_number(4);
    if (room > MOST_OUT) stop("an output that is too long");
    remember();
    nw_answer a = nw_networks_hand_out(&boxes[0].state, network, boxes[0].store, length, out[0], room);
    nw_answer other = nw_networks_hand_out(&boxes[1].state, exchanged(network), boxes[1].store, length, out[1], room);
    size_t n = NW_REFUSAL(a) == NW_TAKEN ? (size_t)nw_value(a) : 0;
    hold_both(a, other);
    if (memcmp(&boxes[0].before, &boxes[0].state, sizeof boxes[0].state) != 0) stop("handing out changes the state");
    if (memcmp(boxes[0].kept, boxes[0].store, stored) != 0) stop("handing out changes the store");
    hold_refused(&boxes[0], a, network, 0);
    if (n > room || memcmp(out[0], out[1], n) != 0) stop("more is told than there is room for, or another body");
    for (size_t i = n; i < MOST_OUT && i < n + 4096; i++)
        if (out[0][i] != BEHIND || out[1][i] != BEHIND) stop("a byte is written behind what is told");
    put_answer(a);
    fwrite(out[0], 1, n, stdout);
    for (int i = 0; i < 2; i++) memset(out[i], BEHIND, n);
    put_checks();
}

static void end(void) {
    uint32_t network = take_number(4);
    size_t length = take_number(4);
    remember();
    nw_answer a = nw_networks_end(&boxes[0].state, network, length);
    nw_answer other = nw_networks_end(&boxes[1].state, exchanged(network), length);
    hold_refused(&boxes[0], a, network, 0);
    hold_both(a, other);
    if (memcmp(boxes[0].kept, boxes[0].store, stored) != 0) stop("the end of a gathering changes the store");
    put_answer(a);
    put_checks();
}

static void count(void) {
    size_t length = take_number(4);
    remember();
    nw_answer held = nw_networks_held_rooms(&boxes[0].state, length), free_ = nw_networks_free_rooms(&boxes[0].state, length);
    hold_both(held, nw_networks_held_rooms(&boxes[1].state, length));
    hold_both(free_, nw_networks_free_rooms(&boxes[1].state, length));
    if (memcmp(&boxes[0].before, &boxes[0].state, sizeof boxes[0].state) != 0) stop("counting changes the state");
    put_answer(held);
    put_answer(free_);
    put_number(check(&boxes[0].state, sizeof boxes[0].state));
}

int main(void) {
    fill_table();
    memset(out, BEHIND, sizeof out);
    for (struct box *b = boxes; b < boxes + 2; b++) {
        b->store = malloc(MOST_STORE);
        b->kept = malloc(MOST_STORE);
        if (b->store == NULL || b->kept == NULL) stop("out of memory");
    }
    for (int what; (what = getchar()) != EOF;) {
        if (what == 'N') start();
        else if (what == 'S') set_state();
        else if (what == 'F' || what == 'f') feed(what == 'f');
        else if (what == 'H') hand_out();
        else if (what == 'E') end();
        else if (what == 'C') count();
        else stop("no such request");
    }
    return 0;
}
