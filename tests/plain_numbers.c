// plain_numbers: the version, checksums, days and times in plain C, made from document 01 and the header alone.
// SPDX-License-Identifier: MIT
#include "plain_numbers.h"

#include <stdio.h>
#include <string.h>

#include "plain_fields.h"

uint32_t plain_version(void) {
    unsigned major, minor, patch;
    return sscanf(NW_VERSION, "%u.%u.%u", &major, &minor, &patch) == 3 ? major * 10000 + minor * 100 + patch : 0;
}

// ---- checksums

static uint32_t slices[8][256];
static uint16_t crc16_steps[256];

// A register after eight more bits that are 0.
static uint32_t stepped(uint32_t held, uint32_t top, uint32_t polynomial) {
    for (int bit = 0; bit < 8; bit++) held = held << 1 ^ (held & top ? polynomial : 0);
    return held;
}

void plain_fill_tables(void) {
    for (uint32_t i = 0; i < 256; i++) {
        slices[0][i] = stepped(i << 24, UINT32_C(1) << 31, 0x04C11DB7);
        crc16_steps[i] = (uint16_t)stepped(i << 8, UINT32_C(1) << 15, 0x1021);
    }
    for (int k = 1; k < 8; k++)
        for (uint32_t i = 0; i < 256; i++) slices[k][i] = slices[k - 1][i] << 8 ^ slices[0][slices[k - 1][i] >> 24];
}

static uint32_t by_bytes(uint32_t held, const uint8_t *s, size_t n) {
    for (size_t i = 0; i < n; i++) held = held << 8 ^ slices[0][held >> 24 ^ s[i]];
    return held;
}

uint32_t plain_crc32_byte_table(const uint8_t *s, size_t n) { return by_bytes(UINT32_MAX, s, n); }

static uint32_t four_bytes(const uint8_t *s) { return (uint32_t)s[0] << 24 | (uint32_t)s[1] << 16 | (uint32_t)s[2] << 8 | s[3]; }

// The second word's lookups do not wait for the register.
uint32_t plain_crc32(const uint8_t *s, size_t n) {
    uint32_t held = UINT32_MAX;
    for (; n >= 8; s += 8, n -= 8) {
        uint32_t first = held ^ four_bytes(s), second = four_bytes(s + 4);
        held = slices[3][second >> 24] ^ slices[2][second >> 16 & 0xFF] ^ slices[1][second >> 8 & 0xFF] ^ slices[0][second & 0xFF] ^
               slices[7][first >> 24] ^ slices[6][first >> 16 & 0xFF] ^ slices[5][first >> 8 & 0xFF] ^ slices[4][first & 0xFF];
    }
    return by_bytes(held, s, n);
}

static uint16_t crc16_by_bytes(unsigned held, const uint8_t *s, size_t n) {
    for (size_t i = 0; i < n; i++) held = (held << 8 & 0xFFFF) ^ crc16_steps[held >> 8 ^ s[i]];
    return (uint16_t)held;
}

uint16_t plain_crc16(const uint8_t *s, size_t n) { return crc16_by_bytes(0xFFFF, s, n); }

// The first digit is half a byte, the others are bytes.
uint16_t plain_extension(const uint8_t *identifier) {
    unsigned held = 0xFFF0 ^ crc16_steps[0xF ^ (identifier[0] & 15u)];
    return crc16_by_bytes(held, identifier + 1, IDENTIFIER_BYTES - 1);
}

// ---- days

enum { FIRST_YEAR = 1900, LAST_YEAR = 2038 };

// Days from 1 January of the year 1 to day 0, 17 November 1858.
enum { BEFORE_DAY_0 = 678575 };

static int is_leap(uint32_t year) { return (year % 4 == 0 && year % 100 != 0) || year % 400 == 0; }

static uint32_t days_of(uint32_t year, uint32_t month) {
    static const uint8_t days[12] = {31, 28, 31, 30, 31, 30, 31, 31, 30, 31, 30, 31};
    return days[month - 1] + (uint32_t)(month == 2 && is_leap(year));
}

static uint32_t new_year(uint32_t year) {
    uint32_t before = year - 1;
    return before * 365 + before / 4 - before / 100 + before / 400 - BEFORE_DAY_0;
}

static int is_in_range(uint64_t day) { return day >= FIRST_DAY && day <= LAST_DAY; }

int plain_is_day(uint32_t year, uint32_t month, uint32_t day) {
    if (year < FIRST_YEAR || year > LAST_YEAR || month < 1 || month > 12) return 0;
    if (day < 1 || day > days_of(year, month)) return 0;
    uint32_t date = year << 16 | month << 8 | day;
    return date >= (FIRST_YEAR << 16 | 3 << 8 | 1) && date <= (LAST_YEAR << 16 | 4 << 8 | 22);
}

plain_answer plain_day_of(uint32_t year, uint32_t month, uint32_t day) {
    if (!plain_is_day(year, month, day)) return IMPOSSIBLE;
    uint32_t number = new_year(year) + day - 1;
    for (uint32_t m = 1; m < month; m++) number += days_of(year, m);
    return value(number);
}

plain_answer plain_date_of(uint32_t day) {
    if (!is_in_range(day)) return IMPOSSIBLE;
    uint32_t year = FIRST_YEAR + (day - FIRST_DAY) / 366, month = 1;
    while (new_year(year + 1) <= day) year++;
    uint32_t left = day - new_year(year);
    for (; left >= days_of(year, month); month++) left -= days_of(year, month);
    return value((uint64_t)year << 16 | month << 8 | (left + 1));
}

plain_answer plain_weekday(uint32_t day) { return is_in_range(day) ? value((day + 2) % 7 + 1) : IMPOSSIBLE; }

// ---- times

enum { MINUTES = 1440, LEAST_OFFSET = -720, MOST_OFFSET = 840 };

int plain_is_offset(int32_t offset) { return offset >= LEAST_OFFSET && offset <= MOST_OFFSET; }
static uint64_t two_digits(uint64_t x) { return x / 10 << 4 | x % 10; }
static uint64_t decimal(uint64_t digits) { return (digits >> 4 & 15) * 10 + (digits & 15); }

plain_answer plain_time_pack(uint32_t year, uint32_t month, uint32_t day, uint32_t hour, uint32_t minute,
                             uint32_t second, int32_t offset) {
    if (!plain_is_offset(offset)) return OUTSIDE;
    plain_answer local = plain_day_of(year, month, day);
    if (refusal_of(local) || !is_time(hour, minute, second)) return IMPOSSIBLE;
    uint64_t at = value_of(local) * MINUTES + hour * 60 + minute - (uint64_t)(int64_t)offset;
    if (!is_in_range(at / MINUTES)) return IMPOSSIBLE;
    return value(at / MINUTES << 24 | two_digits(at / 60 % 24) << 16 | two_digits(at % 60) << 8 | two_digits(second));
}

// 0, 19, 18 or 20 of any number as a time field that is not live.
static unsigned field_fault(uint64_t field) { return field >> 40 ? OUTSIDE : time_fault(field); }

plain_answer plain_time_unpack(uint64_t field, int32_t offset) {
    if (!plain_is_offset(offset)) return OUTSIDE;
    unsigned no = field_fault(field);
    if (no) return no;
    uint64_t at = (field >> 24) * MINUTES + decimal(field >> 16) * 60 + decimal(field >> 8) + (uint64_t)(int64_t)offset;
    plain_answer date = plain_date_of((uint32_t)(at / MINUTES));
    if (refusal_of(date)) return date;
    return value(value_of(date) << 24 | at / 60 % 24 << 16 | at % 60 << 8 | decimal(field));
}

plain_answer plain_time_read_text(const uint8_t *text, size_t n, int32_t offset) {
    static const char form[] = "dd/mm/yyyy hh:mm:ss";
    uint32_t numbers[6] = {0};
    size_t k = 0;
    if (!plain_is_offset(offset)) return OUTSIDE;
    if (n != sizeof form - 1) return NW_NOT_OF_THE_FORM;
    for (size_t i = 0; i < n; i++) {
        if (form[i] < 'a') {
            if (text[i] != form[i]) return NW_NOT_OF_THE_FORM;
            k++;
        } else {
            if (text[i] < '0' || text[i] > '9') return NW_NOT_OF_THE_FORM;
            numbers[k] = numbers[k] * 10 + text[i] - '0';
        }
    }
    return plain_time_pack(numbers[2], numbers[1], numbers[0], numbers[3], numbers[4], numbers[5], offset);
}

// ---- times for people

static plain_answer print(const char *text, uint8_t *out, size_t room) {
    size_t n = strlen(text);
    if (room < n) return NW_OUTPUT_TOO_SMALL;
    memcpy(out, text, n);
    return value(n);
}

plain_answer plain_time_print_start(uint64_t field, int32_t offset, uint8_t *out, size_t room) {
    char text[80];
    plain_answer local = plain_time_unpack(field, offset);
    if (refusal_of(local)) return local;
    uint64_t t = value_of(local);
    snprintf(text, sizeof text, "%02u/%02u/%04u %02u:%02u:%02u", (unsigned)(t >> 24 & 255), (unsigned)(t >> 32 & 255), (unsigned)(t >> 40),
             (unsigned)(t >> 16 & 255), (unsigned)(t >> 8 & 255), (unsigned)(t & 255));
    return print(text, out, room);
}

plain_answer plain_time_print_end(uint64_t field, int32_t offset, uint8_t *out, size_t room) {
    if (plain_is_offset(offset) && field == NW_LIVE) return print("live", out, room);
    return plain_time_print_start(field, offset, out, room);
}

plain_answer plain_times_read_text(const uint8_t *start, size_t n, const uint8_t *end, size_t m, uint32_t live,
                                   int32_t offset, uint64_t fields[2]) {
    plain_answer from = plain_time_read_text(start, n, offset), until = live ? value(NW_LIVE) : plain_time_read_text(end, m, offset);
    if (refusal_of(from)) return from;
    if (refusal_of(until)) return until;
    fields[0] = value_of(from);
    fields[1] = value_of(until);
    return value(0);
}

// The seconds of a good field.
static uint64_t instant(uint64_t field) {
    return (field >> 24) * 86400 + decimal(field >> 16) * 3600 + decimal(field >> 8) * 60 + decimal(field);
}

plain_answer plain_time_showing(uint64_t start, uint64_t end, uint32_t day, uint32_t second) {
    unsigned no;
    if (!is_in_range(day) || second > 86399) return IMPOSSIBLE;
    if ((no = field_fault(start)) || (end != NW_LIVE && (no = field_fault(end)))) return no;
    uint64_t now = (uint64_t)day * 86400 + second;
    if (now < instant(start)) return value(NW_BEFORE);
    return value(end == NW_LIVE || now < instant(end) ? NW_ON : NW_ENDED);
}
