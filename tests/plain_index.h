// plain_index.h: the header's index functions in plain C, each with the library's contract (see neapwillow.h).
// SPDX-License-Identifier: MIT
#ifndef PLAIN_INDEX_H
#define PLAIN_INDEX_H

#include "neapwillow.h"
#include "plain_answers.h"

plain_answer plain_index_read(uint32_t kind, const uint8_t *body, size_t n);
plain_answer plain_index_records(uint32_t kind, const uint8_t *body, size_t n, nw_record *list, size_t room);
plain_answer plain_index_lay(uint32_t kind, const uint8_t *body, size_t n, uint64_t *tape, size_t entries);
plain_answer plain_index_write(const uint8_t *pool, size_t pool_bytes, const uint64_t *tape, size_t entries,
                               uint8_t *out, size_t room);

plain_answer plain_index_message_count(const uint8_t *body, size_t n);
plain_answer plain_index_message(const uint8_t *body, size_t n, uint64_t i);
plain_answer plain_index_signature(const uint8_t *body, size_t n);

plain_answer plain_message_identifier(const uint8_t *body, size_t n, size_t at, size_t length);
plain_answer plain_message_identifier_digit(const uint8_t *body, size_t n, size_t at, size_t length, uint64_t i);
plain_answer plain_message_extension(const uint8_t *body, size_t n, size_t at, size_t length);
plain_answer plain_message_network(const uint8_t *body, size_t n, size_t at, size_t length);
plain_answer plain_message_start(const uint8_t *body, size_t n, size_t at, size_t length);
plain_answer plain_message_end(const uint8_t *body, size_t n, size_t at, size_t length);
plain_answer plain_message_type(const uint8_t *body, size_t n, size_t at, size_t length);
plain_answer plain_message_class(const uint8_t *body, size_t n, size_t at, size_t length);
plain_answer plain_message_level(const uint8_t *body, size_t n, size_t at, size_t length);
plain_answer plain_message_resource_count(const uint8_t *body, size_t n, size_t at, size_t length);
plain_answer plain_message_resource(const uint8_t *body, size_t n, size_t at, size_t length, uint64_t i);
plain_answer plain_message_resource_digit(const uint8_t *body, size_t n, size_t at, size_t length, uint64_t i,
                                          uint64_t j);
plain_answer plain_message_channel_flag(const uint8_t *body, size_t n, size_t at, size_t length);
plain_answer plain_message_channel_network(const uint8_t *body, size_t n, size_t at, size_t length);
plain_answer plain_message_channel_stream(const uint8_t *body, size_t n, size_t at, size_t length);
plain_answer plain_message_channel_program(const uint8_t *body, size_t n, size_t at, size_t length);
plain_answer plain_message_pcr_pid(const uint8_t *body, size_t n, size_t at, size_t length);
plain_answer plain_message_descriptors(const uint8_t *body, size_t n, size_t at, size_t length);
plain_answer plain_message_streams(const uint8_t *body, size_t n, size_t at, size_t length);
plain_answer plain_message_local_start(const uint8_t *body, size_t n, size_t at, size_t length, int32_t offset);
plain_answer plain_message_local_end(const uint8_t *body, size_t n, size_t at, size_t length, int32_t offset);

plain_answer plain_descriptor_tag(const uint8_t *body, size_t n, size_t at, size_t length);
plain_answer plain_descriptor_bytes(const uint8_t *body, size_t n, size_t at, size_t length);
plain_answer plain_stream_type(const uint8_t *body, size_t n, size_t at, size_t length);
plain_answer plain_stream_pid(const uint8_t *body, size_t n, size_t at, size_t length);
plain_answer plain_stream_descriptors(const uint8_t *body, size_t n, size_t at, size_t length);
plain_answer plain_descriptor_count(const uint8_t *body, size_t n, size_t at, size_t length);
plain_answer plain_stream_count(const uint8_t *body, size_t n, size_t at, size_t length);

#endif
