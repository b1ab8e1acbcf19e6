// words.c: values of the standard in words.
// SPDX-License-Identifier: MIT
#include "words.h"
#include <stdio.h>
#include <stdlib.h>

const char *weekday_words(uint32_t year, uint32_t month, uint32_t day) {
    static const char *const days[] = {"Monday", "Tuesday", "Wednesday", "Thursday", "Friday", "Saturday", "Sunday"};
    nw_answer number = nw_weekday((uint32_t)nw_value(nw_day_of(year, month, day)));
    return NW_REFUSAL(number) == NW_TAKEN ? days[nw_value(number) - 1] : "no day";
}

// Answers how many characters were put.
static size_t put_time(nw_time t, char *text, size_t room) {
    return (size_t)snprintf(text, room, "%s %02u/%02u/%04u %02u:%02u:%02u ",
                            weekday_words(nw_time_year(t), nw_time_month(t), nw_time_day(t)), nw_time_day(t), nw_time_month(t),
                            nw_time_year(t), nw_time_hour(t), nw_time_minute(t), nw_time_second(t));
}

static size_t put_local(uint64_t field, int offset, char *text, size_t room) {
    char sign = offset < 0 ? '-' : '+';
    nw_time t = nw_time_unpack(field, offset);
    size_t n = NW_REFUSAL(t) == NW_TAKEN ? put_time(t, text, room) : (size_t)snprintf(text, room, "a day out of the range at ");
    return n + (size_t)snprintf(text + n, room - n, "UTC%c%02d:%02d, ", sign, abs(offset) / 60, abs(offset) % 60);
}

const char *time_words(uint64_t field, struct clock clock, char *text, size_t room) {
    if (field == NW_LIVE) return "live";
    size_t n = clock.local ? put_local(field, clock.offset, text, room) : 0;
    n += put_time(nw_time_unpack(field, 0), text + n, room - n);
    snprintf(text + n, room - n, "UTC");
    return text;
}

static unsigned days_of(unsigned month, unsigned year) {
    bool leap = year % 4 == 0 && (year % 100 != 0 || year % 400 == 0);
    if (month == 2) return leap ? 29 : 28;
    return month == 4 || month == 6 || month == 9 || month == 11 ? 30 : 31;
}

const char *impossible_words(const char *text) {
    unsigned day, month, year, hour, minute, second;
    int got = sscanf(text, "%2u/%2u/%4u %2u:%2u:%2u", &day, &month, &year, &hour, &minute, &second);
    if (got != 6) return "it can't be read";
    if (month < 1 || month > 12) return "there is no such month (the day comes first, then the month)";
    if (day < 1 || day > days_of(month, year)) return "there is no such day in the calendar";
    if (hour > 23 || minute > 59 || second > 59) return "there is no such time of day";
    if (NW_REFUSAL(nw_day_of(year, month, day)) != NW_TAKEN) return "the day is out of the range 01/03/1900 to 22/04/2038";
    return "in UTC, less the offset, the day is out of the range 01/03/1900 to 22/04/2038";
}

const char *command_words(uint64_t tag) {
    static const char *const texts[] = {"set the clock",          "set the resource code",  "set the locked frequency",
                                        "set the return address", "set the return period",  "set the default volume",
                                        "query status or parameters"};
    return tag >= NW_CLOCK && tag <= NW_QUERY ? texts[tag - NW_CLOCK] : "not one of the standard's seven";
}

const char *mapping_words(uint64_t mapping) {
    static const char *const texts[] = {"not defined", "QAM16", "QAM32", "QAM64", "QAM128", "QAM256"};
    return mapping <= 5 ? texts[mapping] : "reserved";
}

const char *return_words(uint64_t kind) {
    static const char *const texts[] = {"short message", "IP address and port", "domain name and port"};
    return kind >= 1 && kind <= 3 ? texts[kind - 1] : "reserved";
}
