// plain_rooms.h: the header's two networks over one store in plain C, each function with the library's contract.
// SPDX-License-Identifier: MIT
#ifndef PLAIN_ROOMS_H
#define PLAIN_ROOMS_H

#include "neapwillow.h"
#include "plain_answers.h"

size_t plain_networks_start(nw_networks *x, size_t store_bytes);
plain_answer plain_networks_feed(nw_networks *x, uint32_t network, uint8_t *store, size_t store_bytes, const uint8_t *s,
                                 size_t n);
plain_answer plain_networks_hand_out(const nw_networks *x, uint32_t network, const uint8_t *store, size_t store_bytes,
                                     uint8_t *out, size_t out_bytes);
plain_answer plain_networks_end(nw_networks *x, uint32_t network, size_t store_bytes);
plain_answer plain_networks_held_rooms(const nw_networks *x, size_t store_bytes);
plain_answer plain_networks_free_rooms(const nw_networks *x, size_t store_bytes);

#endif
