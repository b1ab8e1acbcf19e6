/* words.h: values of the standard in words. */
/* SPDX-License-Identifier: MIT */
#ifndef WORDS_H
#define WORDS_H

#include "walk.h"

/* A time field as weekday and day-first time, in local time where that is asked for, and always in UTC; a live end as such.
 * Answers the text. */
const char *time_words(uint64_t field, struct clock clock, char *text, size_t room);

/* Why the library refuses a text of the form dd/mm/yyyy hh:mm:ss as a time. */
const char *impossible_words(const char *text);

/* The weekday of a date of the calendar. */
const char *weekday_words(uint32_t year, uint32_t month, uint32_t day);

/* What a command does, a constellation and a return address's kind, by their numbers. */
const char *command_words(uint64_t tag);
const char *mapping_words(uint64_t mapping);
const char *return_words(uint64_t kind);

#endif
