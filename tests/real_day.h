// real_day.h: the day in a message identifier, which whatever makes an identifier in C as a good one puts there.
// SPDX-License-Identifier: MIT
#ifndef REAL_DAY_H
#define REAL_DAY_H

#include <stdint.h>

// The days from 1 March 1900 to 22 April 2038, and those among them that are a 29 February: the last of each 1,461.
enum { REAL_DAYS = 50457, FOUR_YEARS = 1461, LEAP_DAYS = REAL_DAYS / FOUR_YEARS };

// Digits 24 to 31 of an identifier, YYYYMMDD, are bytes 12 to 15 of its 18.
enum { DAY_AT = 12, DAY_BYTES = 4 };

struct real_day {
    unsigned year, month, day;
};

// The day so many days after 1 March 1900. Years begin with March here, so that the day a leap year has more is its last.
static inline struct real_day real_day_after(uint32_t days) {
    uint32_t years = (4 * days + 3) / FOUR_YEARS, rest = days - years * FOUR_YEARS / 4;
    uint32_t months = (5 * rest + 2) / 153, day = rest - (153 * months + 2) / 5 + 1;
    return (struct real_day){1900 + years + months / 10, months % 10 + (months < 10 ? 3 : 1), day};
}

// A day by any number: every second one any day, the others an end of the range, a 29 February or a month's last.
static inline struct real_day real_day_by(uint32_t x) {
    uint32_t by = x / 6, days = by % REAL_DAYS, day = real_day_after(days).day;
    switch (x % 6) {
    case 0: return real_day_after(by % 2 ? 0 : REAL_DAYS - 1);
    case 1: return real_day_after(by % LEAP_DAYS * FOUR_YEARS + FOUR_YEARS - 1);
    case 2: return real_day_after(days < day ? days : days - day);
    default: return real_day_after(days);
    }
}

static inline unsigned two_decimals(uint8_t byte) { return byte / 16 * 10u + byte % 16; }

// What stands in an identifier as its day.
static inline struct real_day day_in(const uint8_t *identifier) {
    const uint8_t *s = identifier + DAY_AT;
    return (struct real_day){two_decimals(s[0]) * 100 + two_decimals(s[1]), two_decimals(s[2]), two_decimals(s[3])};
}

// Puts a real day into an identifier, by the digits that stand in its place.
static inline void put_real_day(uint8_t *identifier) {
    struct real_day old = day_in(identifier), d = real_day_by(old.year * 10000 + old.month * 100 + old.day);
    uint32_t digits = d.year * 10000 + d.month * 100 + d.day;
    for (int i = DAY_BYTES - 1; i >= 0; i--, digits /= 100)
        identifier[DAY_AT + i] = (uint8_t)(digits / 10 % 10 << 4 | digits % 10);
}

#endif
