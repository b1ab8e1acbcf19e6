// plain_sections.h: the header's sections and gathering in plain C, each with the library's contract.
// SPDX-License-Identifier: MIT
#ifndef PLAIN_SECTIONS_H
#define PLAIN_SECTIONS_H

#include "neapwillow.h"
#include "plain_answers.h"

// The fields of a section's heading.
struct plain_heading {
    uint32_t kind, extension, version, current, number, last;
};

// Writes a section with this heading and payload, whatever they are. Its bytes are n + 12.
void plain_section_put(uint8_t *out, const struct plain_heading *h, const uint8_t *payload, size_t n);

plain_answer plain_section_read(const uint8_t *s, size_t n);
plain_answer plain_section_length(const uint8_t *s, size_t n);
plain_answer plain_section_count(size_t length);
plain_answer plain_section_cut(const uint8_t *body, size_t n, uint32_t kind, uint32_t extension, uint32_t version,
                               uint32_t number, uint8_t *out, size_t room);

plain_answer plain_salvage(const uint8_t *capture, size_t n, uint8_t *out, size_t room, uint32_t *list, size_t numbers);

plain_answer plain_gathering_feed(nw_gathering *g, uint8_t *store, size_t store_bytes, const uint8_t *s, size_t n);
plain_answer plain_gathering_hand_out(const nw_gathering *g, const uint8_t *store, size_t store_bytes, uint8_t *out,
                                      size_t out_bytes);
plain_answer plain_gathering_pack(nw_gathering *g, uint8_t *store, size_t store_bytes);

// What of a gathering plain_rooms.c shares: whether a state is possible, whether a section that was read begins a gathering or has
// another heading, what holding it makes of the state, and the length of the body, if all of the table is there.
int plain_possible(const nw_gathering *g);
int plain_begins(const nw_gathering *g, plain_answer read);
int plain_other_heading(const nw_gathering *g, plain_answer read);
void plain_hold(nw_gathering *g, plain_answer read, size_t length);
plain_answer plain_whole_body(const nw_gathering *g, size_t store_bytes);

#endif
