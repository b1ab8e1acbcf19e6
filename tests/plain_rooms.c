// plain_rooms: two networks over one store of rooms, in plain C, made from request M-109 and the header alone.
// SPDX-License-Identifier: MIT
#include "plain_rooms.h"

#include <stdbool.h>
#include <string.h>

#include "plain_fields.h"
#include "plain_sections.h"

enum { HEADING = 8, FRAME = 12, MARKS = NW_MOST_ROOMS + 1 };

static size_t rooms_of(size_t store_bytes) {
    size_t whole = store_bytes / NW_ROOM_BYTES;
    return whole < NW_MOST_ROOMS ? whole : NW_MOST_ROOMS;
}

static size_t place_of(size_t room) { return (room - 1) * NW_ROOM_BYTES; }

static bool is_network(uint32_t network) { return network == 1 || network == 2; }

// ---- possible states

// Marks the rooms of a part. Whether it is possible, and none of them is marked before.
static bool mark(const nw_network *p, size_t rooms, uint8_t *marks) {
    if (!plain_possible(&p->gathering)) return false;
    for (size_t k = 0; k < 256; k++) {
        size_t room = p->rooms[k];
        if ((room == 0) != (p->gathering.held[k] == 0) || room > rooms) return false;
        if (room > 0 && marks[room]++ > 0) return false;
    }
    return true;
}

static bool is_possible(const nw_networks *x, size_t store_bytes, uint8_t marks[MARKS]) {
    size_t rooms = rooms_of(store_bytes);
    memset(marks, 0, MARKS);
    return x->bytes == store_bytes && mark(&x->one, rooms, marks) && mark(&x->two, rooms, marks);
}

// ---- the calls

size_t plain_networks_start(nw_networks *x, size_t store_bytes) {
    memset(x, 0, sizeof *x);
    x->bytes = store_bytes;
    return rooms_of(store_bytes);
}

// Takes a section into the first room that is not marked, a beginning one into a fresh part.
static plain_answer take_section(nw_network *p, bool begins, uint8_t *marks, size_t rooms, uint8_t *store, plain_answer read,
                                 const uint8_t *s, size_t n) {
    size_t room = 1, length = n - FRAME;
    for (size_t k = 0; begins && k < 256; k++) marks[p->rooms[k]] = 0;
    while (room <= rooms && marks[room] > 0) room++;
    if (room > rooms) return NW_NO_FREE_ROOM;
    if (begins) memset(p, 0, sizeof *p);
    memcpy(store + place_of(room), s + HEADING, length);
    p->rooms[heading_number(read)] = (uint16_t)room;
    plain_hold(&p->gathering, read, length);
    return value(NW_FED_TAKEN);
}

plain_answer plain_networks_feed(nw_networks *x, uint32_t network, uint8_t *store, size_t store_bytes, const uint8_t *s,
                                 size_t n) {
    uint8_t marks[MARKS];
    if (!is_network(network)) return NW_OUTSIDE_SET;
    if (!is_possible(x, store_bytes, marks)) return NW_IMPOSSIBLE_STATE;
    nw_network *p = network == 1 ? &x->one : &x->two;
    nw_gathering *g = &p->gathering;
    plain_answer read = plain_section_read(s, n);
    if (refusal_of(read)) return read;
    if (!heading_current(read)) return NW_NOT_CURRENT;
    bool begins = plain_begins(g, read);
    if (!begins && plain_other_heading(g, read)) return NW_OTHER_HEADING;
    if (!begins && g->spoiled) return NW_CONTRADICTION;
    size_t number = heading_number(read), length = n - FRAME;
    if (begins || g->held[number] == 0) return take_section(p, begins, marks, rooms_of(store_bytes), store, read, s, n);
    const uint8_t *place = store + place_of(p->rooms[number]);
    if (g->held[number] == length + 1 && memcmp(place, s + HEADING, length) == 0) return value(NW_FED_HELD_ALREADY);
    g->spoiled = 1;
    return NW_CONTRADICTION;
}

plain_answer plain_networks_hand_out(const nw_networks *x, uint32_t network, const uint8_t *store, size_t store_bytes,
                                     uint8_t *out, size_t out_bytes) {
    uint8_t marks[MARKS];
    if (!is_network(network)) return NW_OUTSIDE_SET;
    if (!is_possible(x, store_bytes, marks)) return NW_IMPOSSIBLE_STATE;
    const nw_network *p = network == 1 ? &x->one : &x->two;
    const uint16_t *held = p->gathering.held;
    plain_answer whole = plain_whole_body(&p->gathering, NW_MOST_BODY);
    if (refusal_of(whole)) return whole;
    if (value_of(whole) > out_bytes) return NW_OUTPUT_TOO_SMALL;
    for (size_t k = 0; k <= p->gathering.last; out += held[k++] - 1) memcpy(out, store + place_of(p->rooms[k]), held[k] - 1u);
    return whole;
}

plain_answer plain_networks_end(nw_networks *x, uint32_t network, size_t store_bytes) {
    uint8_t marks[MARKS];
    if (!is_network(network)) return NW_OUTSIDE_SET;
    if (!is_possible(x, store_bytes, marks)) return NW_IMPOSSIBLE_STATE;
    memset(network == 1 ? &x->one : &x->two, 0, sizeof x->one);
    return value(0);
}

static plain_answer count(const nw_networks *x, size_t store_bytes, uint8_t wanted) {
    uint8_t marks[MARKS];
    if (!is_possible(x, store_bytes, marks)) return NW_IMPOSSIBLE_STATE;
    size_t found = 0;
    for (size_t room = 1; room <= rooms_of(store_bytes); room++) found += marks[room] == wanted;
    return value(found);
}

plain_answer plain_networks_held_rooms(const nw_networks *x, size_t store_bytes) { return count(x, store_bytes, 1); }
plain_answer plain_networks_free_rooms(const nw_networks *x, size_t store_bytes) { return count(x, store_bytes, 0); }
