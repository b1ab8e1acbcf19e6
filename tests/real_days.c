// real_days: each date of a range of years, with any month and day of two digits, as the day of an identifier: what the library answers.
//
// For a year and a month, a line: for each day from 00 to 99 a letter. `.` is a day that every call takes; `x` one that every call that
// judges an identifier refuses with 20, each at its place, and the others don't; `?` anything else.
// SPDX-License-Identifier: MIT
#include <inttypes.h>
#include <stdio.h>
#include <stdlib.h>
#include <string.h>

#include "neapwillow.h"

enum { YEARS_FROM = 1899, YEARS_TO = 2039, IDENTIFIER = 18, DAY_AT = 12 };

// One message at 3 of an index body: network 7, a start, live, a type, class and level 1, no resource, no channel; and its form.
static uint8_t index_body[43] = {1, 0, 38};
static const uint8_t after_identifier[] = {0,    7,    0xEC, 0xC9, 0x07, 0x45, 0x00, 0xFF, 0xFF, 0xFF, 0xFF,
                                           0xFF, 0x31, 0x31, 0x41, 0x30, 0x31, 0x11, 0x00, 0xFE, 0,    0};
static const uint64_t index_tape[] = {1, 3, 18, 7, UINT64_C(0xECC9074500), NW_LIVE, 33, 5, 1, 1, 0, 0, 0, 0};

// The smallest content body: one language `aaa` with nothing in it, and no signature.
static uint8_t content_body[33];
static const uint8_t after_content[] = {0xF1, 0, 0, 0, 8, 0x61, 0x61, 0x61, 0xF8, 0, 0, 0, 0xF0, 0, 0};
static const uint64_t content_tape[] = {0, 18, 1, 23, 3, 0, 0, 0, 0, 0, 0, 0, 0};

enum { INDEX_ENTRIES = sizeof index_tape / sizeof index_tape[0], CONTENT_ENTRIES = sizeof content_tape / sizeof content_tape[0] };

// How many of the calls so far took the day, and how many refused it with 20 at the right place.
static unsigned taken, refused, calls;

static void told(uint64_t packed, uint64_t place) {
    calls++;
    if ((packed & 0xFF) == NW_TAKEN) taken++;
    if ((packed & 0xFF) == NW_IMPOSSIBLE_DAY && packed >> 8 == place) refused++;
}

static void ask_index(void) {
    const uint8_t *s = index_body;
    size_t n = sizeof index_body;
    uint8_t out[sizeof index_body];
    uint64_t tape[INDEX_ENTRIES];
    nw_record list[1];
    told(nw_index_read(NW_INDEX, s, n).packed, 3);
    told(nw_index_records(NW_INDEX, s, n, list, 1).packed, 3);
    told(nw_index_lay(NW_INDEX, s, n, tape, INDEX_ENTRIES).packed, 3);
    told(nw_index_measure(s, n, index_tape, INDEX_ENTRIES).packed, 1);
    told(nw_index_write(s, n, index_tape, INDEX_ENTRIES, out, sizeof out).packed, 0);
    told(nw_message_identifier(s, n, 3, 38).packed, 3);
    told(nw_message_identifier_digit(s, n, 3, 38, 34).packed, 3);
    told(nw_message_extension(s, n, 3, 38).packed, 3);
}

static void ask_content(void) {
    const uint8_t *s = content_body;
    size_t n = sizeof content_body;
    uint8_t out[sizeof content_body];
    uint64_t tape[CONTENT_ENTRIES];
    uint64_t extension = nw_content_extension(s, n).packed;
    told(extension, 0);
    told(nw_content_read(NW_CONTENT, NW_AUXILIARY_24, (uint32_t)(extension >> 8), s, n).packed, 0);
    told(nw_content_lay(NW_CONTENT, NW_AUXILIARY_24, s, n, tape, CONTENT_ENTRIES).packed, 0);
    told(nw_content_measure(NW_AUXILIARY_24, s, n, content_tape, CONTENT_ENTRIES).packed, 0);
    told(nw_content_write(NW_AUXILIARY_24, s, n, content_tape, CONTENT_ENTRIES, out, sizeof out).packed, 0);
    told(nw_content_identifier(s, n).packed, 0);
    told(nw_content_identifier_digit(s, n, 0).packed, 0);
}

// Whether the fields that are no identifier's are answered whatever its day is.
static int others_stay(void) {
    return nw_message_network(index_body, sizeof index_body, 3, 38).packed == 7 << 8 &&
           nw_content_language_count(content_body, sizeof content_body).packed == 1 << 8;
}

static uint8_t two(unsigned x) { return (uint8_t)(x / 10 << 4 | x % 10); }

static char letter(unsigned year, unsigned month, unsigned day) {
    const uint8_t digits[] = {two(year / 100), two(year % 100), two(month), two(day)};
    memcpy(index_body + 3 + DAY_AT, digits, sizeof digits);
    memcpy(content_body + DAY_AT, digits, sizeof digits);
    taken = refused = calls = 0;
    ask_index();
    ask_content();
    return !others_stay() ? '?' : taken == calls ? '.' : refused == calls ? 'x' : '?';
}

int main(void) {
    index_body[3] = content_body[0] = 0xF0;
    memcpy(index_body + 3 + IDENTIFIER, after_identifier, sizeof after_identifier);
    memcpy(content_body + IDENTIFIER, after_content, sizeof after_content);
    for (unsigned year = YEARS_FROM; year <= YEARS_TO; year++)
        for (unsigned month = 0; month < 100; month++) {
            char line[101] = "";
            for (unsigned day = 0; day < 100; day++) line[day] = letter(year, month, day);
            printf("%u %02u %s\n", year, month, line);
        }
    return ferror(stdout) || fflush(stdout) ? EXIT_FAILURE : EXIT_SUCCESS;
}
