// screen FILE CODE MINUTES [TIME SECONDS]: the main loop of a screen box. FILE holds the body of an index table, as a gathering hands it
// out. CODE is the box's resource code, 23 digits. Each second the box asks the library which message it has to show, and says so when
// that changes: times day first and local, at MINUTES east of UTC, -720 to 840.
//
// Without TIME it goes by the clock and does not end by itself. FILE is read anew each second: a new table counts from the next one on,
// and is best put there by a rename, so that it is never seen half written. While FILE can't be read or its table is refused, that is said,
// nothing is shown, and the box goes on.
//
// With TIME, which is typed dd/mm/yyyy hh:mm:ss, local and day first, FILE is read once, and the box goes through so many SECONDS from
// then on without waiting, 1 to 31,622,400, and ends.
//
// Exit status: 0, all SECONDS were gone through. 1, the table or a moment was refused, and it is said why. 2, wrong usage, a FILE that
// can't be read, or output that can't be written.
// SPDX-License-Identifier: MIT
#define _POSIX_C_SOURCE 200809L
#include <errno.h>
#include <inttypes.h>
#include <neapwillow-screen.h>
#include <stdarg.h>
#include <stdbool.h>
#include <stdio.h>
#include <stdlib.h>
#include <string.h>
#include <time.h>

enum { DAY_SECONDS = 86400, DAY_OF_1970 = 40587, FIRST_DAY = 15079, MOST_SECONDS = 366 * DAY_SECONDS, WORDS = 200, ZONE = 24 };
enum { DONE = 0, REFUSED = 1, UNUSABLE = 2 }; // exit statuses

struct box {
    uint8_t code[NW_SCREEN_CODE_DIGITS + 1]; // by value; one more, so that a longer code is refused
    size_t digits;
    int32_t offset;
    uint8_t body[NW_MOST_BODY + 1]; // one byte more, so that a longer file is refused
    size_t n;
    const char *fault; // why the file could not be read, or NULL
    char said[WORDS];  // what was said last
};

static const char usage[] = "usage: screen FILE CODE MINUTES [TIME SECONDS]; screen --help says more";

// Says something on standard error; answers the status for it.
static int say(int status, const char *form, ...) {
    va_list words;
    va_start(words, form);
    fputs("screen: ", stderr);
    vfprintf(stderr, form, words);
    fputc('\n', stderr);
    va_end(words);
    return status;
}

// ---- times for people

typedef nw_answer printer(uint64_t field, int32_t offset, uint8_t *out, size_t room);

// A time field as local text with its offset; in UTC where the local day would be out of the range of days. A live end is the word live.
static void time_text(printer *print, uint64_t field, int32_t offset, char text[NW_TIME_TEXT + ZONE]) {
    nw_answer printed = print(field, offset, (uint8_t *)text, NW_TIME_TEXT);
    if (NW_REFUSAL(printed) != NW_TAKEN) printed = print(field, offset = 0, (uint8_t *)text, NW_TIME_TEXT);
    char *after = text + nw_value(printed);
    if (field == NW_LIVE) *after = '\0';
    else if (offset == 0) memcpy(after, " UTC", sizeof " UTC");
    else snprintf(after, ZONE, " UTC%c%02d:%02d", offset < 0 ? '-' : '+', abs(offset) / 60, abs(offset) % 60);
}

// The time field of a moment that the library has taken.
static uint64_t field_of(uint32_t day, uint32_t second) {
    nw_date d = nw_date_of(day);
    return nw_value(nw_time_pack(nw_date_year(d), nw_date_month(d), nw_date_day(d), second / 3600, second / 60 % 60, second % 60, 0));
}

// ---- what is shown

// The message in words. Its place belongs to this body, so it is asked for before another body is read.
static void message_words(const struct box *b, nw_choice choice, char words[WORDS]) {
    size_t at = nw_choice_start(choice), length = nw_choice_length(choice);
    char identifier[NW_IDENTIFIER_DIGITS + 1], start[NW_TIME_TEXT + ZONE], end[NW_TIME_TEXT + ZONE];
    nw_digits_text(b->body + nw_part_start(nw_message_identifier(b->body, b->n, at, length)), NW_IDENTIFIER_BYTES, identifier);
    time_text(nw_time_print_start, nw_value(nw_message_start(b->body, b->n, at, length)), b->offset, start);
    time_text(nw_time_print_end, nw_value(nw_message_end(b->body, b->n, at, length)), b->offset, end);
    snprintf(words, WORDS, "message %s, level %" PRIu64 ", start %s, end %s", identifier, nw_value(nw_message_level(b->body, b->n, at, length)), start,
             end);
}

// That the table is refused, and why: at which byte, where a field is.
static void refusal_words(nw_choice choice, char words[WORDS]) {
    char byte[32] = "";
    if (NW_REFUSAL(choice) != NW_TOO_LARGE) snprintf(byte, sizeof byte, ", at byte %" PRIu64, NW_PLACE(choice));
    snprintf(words, WORDS, "nothing, the table is refused: %s (refusal %u%s)", nw_refusal_text(NW_REFUSAL(choice)), NW_REFUSAL(choice), byte);
}

// Says what is shown from a moment on, if it is not what was said last: another table may have the same message elsewhere, so the words
// are compared and not their place. Answers whether it could be written.
static bool show(struct box *b, uint32_t day, uint32_t second, const char *words) {
    char moment[NW_TIME_TEXT + ZONE];
    if (strcmp(words, b->said) == 0) return true;
    snprintf(b->said, sizeof b->said, "%s", words);
    time_text(nw_time_print_start, field_of(day, second), b->offset, moment);
    return printf("%s: %s\n", moment, words) > 0 && fflush(stdout) == 0;
}

// One turn of the main loop: what is to be shown at a moment.
static int turn(struct box *b, uint32_t day, uint32_t second) {
    char words[WORDS] = "nothing to show";
    nw_choice choice = nw_screen_choose(NW_INDEX, b->body, b->n, b->code, b->digits, day, second);
    if (NW_REFUSAL(choice) == NW_IMPOSSIBLE_DAY && NW_PLACE(choice) == 0)
        return say(REFUSED, "day %" PRIu32 " (MJD): the library's days end with 65535, 22/04/2038 UTC", day);
    if (b->fault) snprintf(words, sizeof words, "nothing, the file can't be read: %s", b->fault);
    else if (NW_REFUSAL(choice) != NW_TAKEN) refusal_words(choice, words);
    else if (nw_choice_shown(choice)) message_words(b, choice, words);
    if (!show(b, day, second, words)) return say(UNUSABLE, "the output can't be written: %s", strerror(errno));
    return NW_REFUSAL(choice) == NW_TAKEN ? DONE : REFUSED;
}

// ---- the two ways to go

// Reads the whole file; where that fails, there is no body.
static void read_body(struct box *b, const char *path) {
    FILE *file = fopen(path, "rb");
    b->n = file ? fread(b->body, 1, sizeof b->body, file) : 0;
    b->fault = !file || ferror(file) ? strerror(errno) : NULL;
    if (b->fault) b->n = 0;
    if (file) fclose(file);
}

// By the clock, until the output or the calendar ends. What is wrong with a table is said, and the next one may be good.
static int by_clock(struct box *b, const char *path) {
    for (;;) {
        time_t now = time(NULL);
        if (now < 0) return say(UNUSABLE, "there is no clock");
        uint32_t day = (uint32_t)(now / DAY_SECONDS + DAY_OF_1970), second = (uint32_t)(now % DAY_SECONDS);
        read_body(b, path);
        int status = turn(b, day, second);
        if (status == UNUSABLE || (status == REFUSED && day > UINT16_MAX)) return status;
        nanosleep(&(struct timespec){.tv_sec = 1}, NULL);
    }
}

// From a time field on, so many seconds, each at once.
static int from_then_on(struct box *b, const char *path, uint64_t field, uint32_t seconds) {
    nw_time t = nw_time_unpack(field, 0);
    uint64_t first = (field >> 24) * DAY_SECONDS + nw_time_hour(t) * 3600 + nw_time_minute(t) * 60 + nw_time_second(t);
    read_body(b, path);
    if (b->fault) return say(UNUSABLE, "%s can't be read: %s", path, b->fault);
    for (uint64_t moment = first; moment < first + seconds; moment++) {
        int status = turn(b, (uint32_t)(moment / DAY_SECONDS), (uint32_t)(moment % DAY_SECONDS));
        if (status != DONE) return status;
    }
    return DONE;
}

// ---- the words of the command

// A whole decimal number from least to most and nothing else; a sign only where there are numbers below 0.
static bool read_number(const char *s, int32_t least, int32_t most, int32_t *out) {
    bool negative = least < 0 && *s == '-';
    if (least < 0 && (*s == '-' || *s == '+')) s++;
    size_t digits = strspn(s, "0123456789");
    int32_t x = 0;
    for (size_t i = 0; i < digits && x <= most; i++) x = 10 * x + (s[i] - '0'); // a larger one is out of the range
    *out = negative ? -x : x;
    return digits != 0 && s[digits] == '\0' && least <= *out && *out <= most;
}

// The code by the values of its digits; a character that is none becomes a value that the library refuses. It judges the code first, so
// without a body it answers 18 exactly if the code is wrong.
static bool read_code(struct box *b, const char *s) {
    for (b->digits = 0; b->digits < sizeof b->code && s[b->digits]; b->digits++)
        b->code[b->digits] = strchr("0123456789", s[b->digits]) ? (uint8_t)(s[b->digits] - '0') : UINT8_MAX;
    if (NW_REFUSAL(nw_screen_choose(NW_INDEX, NULL, 0, b->code, b->digits, FIRST_DAY, 0)) != NW_DIGIT_ABOVE_NINE) return true;
    size_t good = strspn(s, "0123456789");
    if (s[good]) say(UNUSABLE, "CODE %s: character %zu is no digit (refusal %d)\n%s", s, good + 1, NW_DIGIT_ABOVE_NINE, usage);
    else say(UNUSABLE, "CODE %s: a box's code has 23 digits, and these are %zu (refusal %d)\n%s", s, good, NW_DIGIT_ABOVE_NINE, usage);
    return false;
}

static int help(void) {
    puts("usage: screen FILE CODE MINUTES [TIME SECONDS]\n"
         "Says which message of the index body in FILE a box with the resource code CODE, 23 digits, shows, and when that changes:\n"
         "by the clock, or from TIME on, dd/mm/yyyy hh:mm:ss, for SECONDS, 1 to 31622400. Times are local, MINUTES east of UTC, -720 to 840.\n"
         "Exit status: 0, all SECONDS were gone through; 1, the table or a moment was refused; 2, wrong usage, a FILE that can't be\n"
         "read, or output that can't be written.");
    return fflush(stdout) == 0 ? DONE : UNUSABLE;
}

int main(int words, char **word) {
    static struct box b; // too long for a stack
    int32_t seconds = 0;
    if (words == 2 && strcmp(word[1], "--help") == 0) return help();
    if (words != 4 && words != 6)
        return say(UNUSABLE, "FILE, CODE and MINUTES are wanted, and perhaps TIME and SECONDS; words given: %d\n%s", words - 1, usage);
    if (!read_number(word[3], -720, 840, &b.offset))
        return say(UNUSABLE, "MINUTES %s: they have to be a whole number from -720 to 840\n%s", word[3], usage);
    if (!read_code(&b, word[2])) return UNUSABLE;
    if (words == 4) return by_clock(&b, word[1]);
    nw_answer from = nw_time_read_text((const uint8_t *)word[4], strlen(word[4]), b.offset);
    if (NW_REFUSAL(from) != NW_TAKEN)
        return say(UNUSABLE, "TIME %s: %s (refusal %u)\n%s", word[4], nw_refusal_text(NW_REFUSAL(from)), NW_REFUSAL(from), usage);
    if (!read_number(word[5], 1, MOST_SECONDS, &seconds))
        return say(UNUSABLE, "SECONDS %s: they have to be a whole number from 1 to %d\n%s", word[5], MOST_SECONDS, usage);
    return from_then_on(&b, word[1], nw_value(from), (uint32_t)seconds);
}
