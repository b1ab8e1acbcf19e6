// whole.h: what the parts of `whole` share: chance, memory lent between walls, and the two answers compared.
// SPDX-License-Identifier: MIT
#ifndef WHOLE_H
#define WHOLE_H

#include <stdbool.h>

#include "neapwillow.h"
#include "plain_certificate.h"
#include "plain_configuration.h"
#include "plain_content.h"
#include "plain_index.h"
#include "plain_numbers.h"
#include "plain_packets.h"
#include "plain_rooms.h"
#include "plain_screen.h"
#include "plain_sections.h"

// Every function of the headers, and the refusals that it can give: each must be met, and no other.
#define FUNCTIONS(X)                                                                                                 \
    X(version, "") X(crc32, "") X(crc16, "") X(day_of, "20") X(date_of, "20") X(weekday, "20")                       \
    X(time_pack, "19 20") X(time_unpack, "18 19 20") X(time_read_text, "19 20 24") X(time_showing, "18 19 20")       \
    X(time_print_start, "18 19 20 21") X(time_print_end, "18 19 20 21") X(times_read_text, "19 20 24")               \
    X(section_read, "1 2 3 4 5 6 7") X(section_length, "1 4") X(section_count, "14 22")                              \
    X(section_cut, "2 6 14 19 21 22") X(salvage, "21 36")                                                            \
    X(packet_pack, "1 2 3 4 5 6 7 19 21") X(packet_unpack, "21 30 31 32 33 34")                                      \
    X(gathering_feed, "1 2 3 4 5 6 7 8 9 10 11 12") X(gathering_hand_out, "10 11 12 13 21")                          \
    X(gathering_pack, "10 11 12 13")                                                                                 \
    X(networks_start, "") X(networks_feed, "1 2 3 4 5 6 7 8 9 11 12 19 35") X(networks_hand_out, "11 12 13 19 21")   \
    X(networks_end, "12 19") X(networks_held_rooms, "12") X(networks_free_rooms, "12")                               \
    X(certificate_read, "2 14 16 22") X(certificate_authorization_count, "14") X(certificate_authorization, "14 19") \
    X(certificate_certificate_count, "14") X(certificate_certificate, "14 19") X(certificate_signature, "14")        \
    X(certificate_write, "19 21 22") X(certificate_lay, "2 14 16 21 22")                                             \
    X(index_read, "2 14 15 16 17 18 19 20 22") X(index_records, "2 14 15 16 17 18 19 20 21 22")                      \
    X(index_message_count, "14") X(index_message, "14 19") X(index_signature, "14")                                  \
    X(message_identifier, "14 15 17 18 19 20") X(message_identifier_digit, "14 15 17 18 19 20")                      \
    X(message_extension, "14 15 17 18 19 20")                                                                        \
    X(message_network, "14 15 19") X(message_start, "14 15 18 19 20") X(message_end, "14 15 18 19 20")               \
    X(message_type, "14 15 19") X(message_class, "14 15 19") X(message_level, "14 15 19")                            \
    X(message_resource_count, "14 15 19") X(message_resource, "14 15 17 18 19")                                      \
    X(message_resource_digit, "14 15 17 18 19") X(message_channel_flag, "14 15 17 19")                               \
    X(message_channel_network, "14 15 17 19") X(message_channel_stream, "14 15 17 19")                               \
    X(message_channel_program, "14 15 17 19") X(message_pcr_pid, "14 15 17 19")                                      \
    X(message_descriptors, "14 15 17 19") X(message_streams, "14 15 17 19")                                          \
    X(message_local_start, "14 15 18 19 20") X(message_local_end, "14 15 18 19 20")                                  \
    X(descriptor_tag, "19") X(descriptor_bytes, "14 15 19") X(stream_type, "19") X(stream_pid, "14 15 17 19")        \
    X(stream_descriptors, "14 15 17 19") X(descriptor_count, "14 15 19") X(stream_count, "14 15 17 19")              \
    X(index_write, "18 19 20 21 22")                                                                                 \
    X(index_lay, "2 14 15 16 17 18 19 20 21 22")                                                                     \
    X(content_read, "2 14 15 16 17 18 19 20 22 23") X(content_identifier, "14 17 18 20")                             \
    X(content_identifier_digit, "14 17 18 19 20") X(content_extension, "14 17 18 20")                                \
    X(content_language_count, "14 17 19") X(content_language, "14 17 19") X(content_signature, "14 17 19")           \
    X(language_letters, "14 15 19") X(language_character_set, "14 15 17 19") X(language_text, "14 15 19")            \
    X(language_agency, "14 15 19") X(language_auxiliary_count, "14 15 17 19")                                        \
    X(language_auxiliary_type, "14 15 17 19") X(language_auxiliary, "14 15 17 19")                                   \
    X(content_write, "18 19 20 21 22") X(content_lay, "2 14 15 16 17 18 19 20 21 22")                                \
    X(configuration_read, "2 14 15 16 17 18 19 20 22") X(configuration_command_count, "14")                          \
    X(configuration_command, "14 19") X(configuration_signature, "14")                                               \
    X(command_tag, "19") X(command_content, "14 15 19")                                                              \
    X(command_clock_year, "14 15 19 20") X(command_clock_month, "14 15 19 20") X(command_clock_day, "14 15 19 20")   \
    X(command_clock_hour, "14 15 19 20") X(command_clock_minute, "14 15 19 20")                                      \
    X(command_clock_second, "14 15 19 20") X(command_code_address, "14 15 19")                                       \
    X(command_code_resource, "14 15 17 18 19") X(command_code_digit, "14 15 17 18 19")                               \
    X(command_frequency, "14 15 19") X(command_symbol_rate, "14 15 19") X(command_mapping, "14 15 19")               \
    X(command_return_kind, "14 15 19") X(command_return_address, "14 15 19") X(command_period, "14 15 19")           \
    X(command_volume, "14 15 19") X(command_parameter_count, "14 15 19") X(command_parameter, "14 15 19")            \
    X(command_terminal_count, "14 15 19") X(command_terminal, "14 15 17 18 19")                                      \
    X(command_terminal_digit, "14 15 17 18 19") X(configuration_write, "15 18 19 20 21 22")                          \
    X(configuration_lay, "2 14 15 16 17 18 19 20 21 22")                                                             \
    X(screen_choose, "2 14 15 16 17 18 19 20 22")

#define NUMBERED(name, refusals) F_##name,
enum { FUNCTIONS(NUMBERED) COUNT_OF_FUNCTIONS };

// ---- chance

uint64_t chance(void);
uint64_t below(uint64_t n);                     // 0 to n - 1
int one_in(uint64_t n);
uint64_t around(uint64_t x);                    // x, or mostly a number near it, or any number
const uint8_t *noise(void);                     // MOST_LENT bytes that never change
void damage(uint8_t *s, size_t *n, size_t room); // bytes changed, cut off or put in, a length moved

// ---- memory lent: one end of it touches memory that nobody may touch, and at its other end stand bytes that must stay

enum { MOST_LENT = 2 * 1024 * 1024 };

struct box {
    uint8_t *low, *at; // where it begins, and what is lent of it
    size_t n;
};

extern struct box input, tape_input, output_library, output_plain, state_library, state_plain;

// A copy of n bytes, at the low end, at the high one, or at one of the two; and, after the calls, that it still is one.
void *lend_at(struct box *b, const void *from, size_t n, bool high);
void *lend(struct box *b, const void *from, size_t n);
void unchanged(const struct box *b, const void *from);

// ---- a function tried: both answers, and what both have written where something is to be written

extern int trying;

plain_answer same(plain_answer library, plain_answer plain);
void lend_outputs(size_t bytes);
plain_answer same_outputs(plain_answer library, plain_answer plain); // nothing may be written by a refused call
void wrong(const char *what);                               // says it and ends

// The words after the name are taken twice, and must come out the same.
#define TRY(name, ...) (trying = F_##name, same(nw_##name(__VA_ARGS__).packed, plain_##name(__VA_ARGS__)))

// For functions whose last two words are an output and its size, in units of so many bytes.
#define TRY_OUTPUT(name, size, unit, ...)                                                                            \
    (trying = F_##name, lend_outputs((size) * (unit)),                                                               \
     same_outputs(nw_##name(__VA_ARGS__, (void *)output_library.at, size).packed,                                    \
                  plain_##name(__VA_ARGS__, (void *)output_plain.at, size)))

void try_packets(void); // in whole_packets.c
void try_rooms(void);   // in whole_rooms.c
void try_tables(void);  // in whole_tables.c

#endif
