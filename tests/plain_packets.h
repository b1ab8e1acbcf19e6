// plain_packets.h: the header's transport packets in plain C, each with the library's contract.
// SPDX-License-Identifier: MIT
#ifndef PLAIN_PACKETS_H
#define PLAIN_PACKETS_H

#include "neapwillow.h"
#include "plain_answers.h"

plain_answer plain_packet_pack(const uint8_t *section, size_t n, uint32_t counter, uint8_t *out, size_t room);
plain_answer plain_packet_unpack(uint8_t state[NW_UNPACKER_BYTES], const uint8_t *packet, size_t n, uint8_t *out,
                                 size_t room);

#endif
