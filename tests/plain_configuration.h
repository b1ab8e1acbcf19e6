// plain_configuration.h: the header's configuration functions in plain C, each with the library's contract.
// SPDX-License-Identifier: MIT
#ifndef PLAIN_CONFIGURATION_H
#define PLAIN_CONFIGURATION_H

#include "neapwillow.h"
#include "plain_answers.h"

plain_answer plain_configuration_read(uint32_t kind, const uint8_t *body, size_t n);
plain_answer plain_configuration_command_count(const uint8_t *body, size_t n);
plain_answer plain_configuration_command(const uint8_t *body, size_t n, uint64_t i);
plain_answer plain_configuration_signature(const uint8_t *body, size_t n);
plain_answer plain_command_tag(const uint8_t *body, size_t n, size_t p);
plain_answer plain_command_content(const uint8_t *body, size_t n, size_t p);
plain_answer plain_command_clock_year(const uint8_t *body, size_t n, size_t p);
plain_answer plain_command_clock_month(const uint8_t *body, size_t n, size_t p);
plain_answer plain_command_clock_day(const uint8_t *body, size_t n, size_t p);
plain_answer plain_command_clock_hour(const uint8_t *body, size_t n, size_t p);
plain_answer plain_command_clock_minute(const uint8_t *body, size_t n, size_t p);
plain_answer plain_command_clock_second(const uint8_t *body, size_t n, size_t p);
plain_answer plain_command_code_address(const uint8_t *body, size_t n, size_t p);
plain_answer plain_command_code_resource(const uint8_t *body, size_t n, size_t p);
plain_answer plain_command_code_digit(const uint8_t *body, size_t n, size_t p, uint64_t j);
plain_answer plain_command_frequency(const uint8_t *body, size_t n, size_t p);
plain_answer plain_command_symbol_rate(const uint8_t *body, size_t n, size_t p);
plain_answer plain_command_mapping(const uint8_t *body, size_t n, size_t p);
plain_answer plain_command_return_kind(const uint8_t *body, size_t n, size_t p);
plain_answer plain_command_return_address(const uint8_t *body, size_t n, size_t p);
plain_answer plain_command_period(const uint8_t *body, size_t n, size_t p);
plain_answer plain_command_volume(const uint8_t *body, size_t n, size_t p);
plain_answer plain_command_parameter_count(const uint8_t *body, size_t n, size_t p);
plain_answer plain_command_parameter(const uint8_t *body, size_t n, size_t p, uint64_t i);
plain_answer plain_command_terminal_count(const uint8_t *body, size_t n, size_t p);
plain_answer plain_command_terminal(const uint8_t *body, size_t n, size_t p, uint64_t i);
plain_answer plain_command_terminal_digit(const uint8_t *body, size_t n, size_t p, uint64_t i, uint64_t j);
plain_answer plain_configuration_write(const uint8_t *pool, size_t pool_bytes, const uint64_t *tape, size_t entries,
                                       uint8_t *out, size_t room);
plain_answer plain_configuration_lay(uint32_t kind, const uint8_t *body, size_t n, uint64_t *tape, size_t entries);

#endif
