// plain_numbers.h: the header's checksums, days and times in plain C, each with the library's contract.
// SPDX-License-Identifier: MIT
#ifndef PLAIN_NUMBERS_H
#define PLAIN_NUMBERS_H

#include "neapwillow.h"
#include "plain_answers.h"

// Fills the tables of CRC_32 and CRC-16, once, before one is first asked for.
void plain_fill_tables(void);

// By its text.
uint32_t plain_version(void);

// Eight bytes at a time by eight tables; and, to measure by, a byte at a time by one.
uint32_t plain_crc32(const uint8_t *s, size_t n);
uint32_t plain_crc32_byte_table(const uint8_t *s, size_t n);

uint16_t plain_crc16(const uint8_t *s, size_t n);

// The CRC-16 of the 35 digits that the 18 bytes of an identifier hold, without the four bits before them.
uint16_t plain_extension(const uint8_t *identifier);

// Whether there is such a day from 1 March 1900 to 22 April 2038.
int plain_is_day(uint32_t year, uint32_t month, uint32_t day);

plain_answer plain_day_of(uint32_t year, uint32_t month, uint32_t day);
plain_answer plain_date_of(uint32_t day);
plain_answer plain_weekday(uint32_t day);

// Whether an offset is one of -720 to 840 minutes.
int plain_is_offset(int32_t offset);

plain_answer plain_time_pack(uint32_t year, uint32_t month, uint32_t day, uint32_t hour, uint32_t minute,
                             uint32_t second, int32_t offset);
plain_answer plain_time_unpack(uint64_t field, int32_t offset);
plain_answer plain_time_read_text(const uint8_t *text, size_t n, int32_t offset);
plain_answer plain_time_print_start(uint64_t field, int32_t offset, uint8_t *out, size_t room);
plain_answer plain_time_print_end(uint64_t field, int32_t offset, uint8_t *out, size_t room);
plain_answer plain_times_read_text(const uint8_t *start, size_t n, const uint8_t *end, size_t m, uint32_t live,
                                   int32_t offset, uint64_t fields[2]);
plain_answer plain_time_showing(uint64_t start, uint64_t end, uint32_t day, uint32_t second);

#endif
