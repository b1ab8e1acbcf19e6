// dates.c: day-first times, one to a line, become time fields with their weekdays; with --fields it is the other way round. Times
// are local, at MINUTES east of UTC, or without them UTC.
//
// In UTC the report is the proved nw_dates_report's. At another offset, and from fields, each line is answered by proved
// functions of the library, and this file takes the lines apart and prints the answers.
// SPDX-License-Identifier: MIT
#include "dates.h"
#include <neapwillow.h>
#include <stdarg.h>
#include <stdio.h>
#include <string.h>

#define WORDS " [--fields] [--offset MINUTES] [FILE]"
#define MORE \
    "Reads lines dd/mm/yyyy hh:mm:ss, day first, from FILE or else from standard\n" \
    "input, at most 65536 bytes. Writes for each its number, its time field of GD/J\n" \
    "086-2018 and its weekday, 1 for Monday to 7 for Sunday; or its number, the word\n" \
    "refused and the refusal's number.\n" \
    "  --fields          reads fields, ten hexadecimal digits to a line, and writes\n" \
    "                    times with their weekdays\n" \
    "  --offset MINUTES  times are local, at so many minutes east of UTC, -720 to\n" \
    "                    840; without it they are UTC\n" \
    "  --help            says this\n" \
    "  --version         says the version\n" \
    "Exit status: 0, each line is taken; 1, something is refused, and the output\n" \
    "says what; 2, wrong usage, a FILE that can't be read, or output that can't be\n" \
    "written.\n"

const struct command nw_dash_dates = {"nw-dates", "nw-dates" WORDS, MORE}, nw_dates = {"nw dates", "nw dates" WORDS, MORE};

static const struct command *me; // under which name it runs

struct work {
    const char *name; // the FILE's, or NULL
    bool fields, given; // given: an offset is
    int offset;
};

// What is written. In each way a line makes at most 17 bytes for each of its own, as in the proved report.
struct report {
    char s[NW_MOST_REPORT + 1];
    size_t n;
};

static void put(struct report *r, const char *form, ...) {
    va_list words;
    va_start(words, form);
    r->n += (size_t)vsnprintf(r->s + r->n, sizeof r->s - r->n, form, words);
    va_end(words);
}

// ---- lines answered one by one

static unsigned weekday(nw_time local) {
    nw_answer day = nw_day_of(nw_time_year(local), nw_time_month(local), nw_time_day(local));
    return (unsigned)nw_value(nw_weekday((uint32_t)nw_value(day)));
}

// The field of a local time, with the weekday of the day that the line has.
static unsigned put_field(struct report *r, const uint8_t *s, size_t n, int offset) {
    nw_answer field = nw_time_read_text(s, n, offset);
    if (NW_REFUSAL(field) != NW_TAKEN) return NW_REFUSAL(field);
    put(r, "%010llX %u\n", (unsigned long long)nw_value(field), weekday(nw_time_unpack(nw_value(field), offset)));
    return NW_TAKEN;
}

static bool read_field(const uint8_t *s, size_t n, uint64_t *field) {
    static const char digits[] = "0123456789ABCDEF0123456789abcdef";
    *field = 0;
    if (n != 10) return false;
    for (size_t i = 0; i < n; i++) {
        const char *digit = memchr(digits, s[i], sizeof digits - 1);
        if (digit == NULL) return false;
        *field = *field << 4 | ((uint64_t)(digit - digits) & 0xF);
    }
    return true;
}

// The local time of a field, with its weekday.
static unsigned put_time(struct report *r, const uint8_t *s, size_t n, int offset) {
    uint64_t field;
    if (!read_field(s, n, &field)) return NW_NOT_OF_THE_FORM;
    nw_time t = nw_time_unpack(field, offset);
    if (NW_REFUSAL(t) != NW_TAKEN) return NW_REFUSAL(t);
    put(r, "%02u/%02u/%04u %02u:%02u:%02u %u\n", nw_time_day(t), nw_time_month(t), nw_time_year(t), nw_time_hour(t),
        nw_time_minute(t), nw_time_second(t), weekday(t));
    return NW_TAKEN;
}

// The length of the line that begins the n bytes at s, without its LF.
static size_t line_length(const uint8_t *s, size_t n) {
    const uint8_t *end = n == 0 ? NULL : memchr(s, '\n', n);
    return end == NULL ? n : (size_t)(end - s);
}

static void answer_lines(struct report *r, const struct work *w, const struct input *in) {
    put(r, w->fields ? "line time weekday\n" : "line field weekday\n");
    if (in->n > NW_MOST_INPUT) {
        put(r, "0 refused %u\n", NW_TOO_LARGE);
        return;
    }
    unsigned number = 1;
    for (size_t at = 0, n; at < in->n; at += n + 1, number++) {
        n = line_length(in->s + at, in->n - at);
        put(r, "%u ", number);
        unsigned refusal = (w->fields ? put_time : put_field)(r, in->s + at, n, w->offset);
        if (refusal != NW_TAKEN) put(r, "refused %u\n", refusal);
    }
}

// ---- what keeps lines from being taken

static void remark_returns(const struct input *in) {
    unsigned number = 1, first = 0, count = 0;
    for (size_t at = 0, n; at < in->n; at += n + 1, number++) {
        n = line_length(in->s + at, in->n - at);
        if (n == 0 || in->s[at + n - 1] != '\r') continue;
        if (count++ == 0) first = number;
    }
    if (count != 0)
        say(me, "lines that end with CR LF: %u, the first of them line %u; they are refused, as LF alone has to end a line",
            count, first);
}

static void remark(const struct input *in) {
    const uint8_t *s = in->s;
    if (in->n == 0) say(me, "the input is empty: there is no line");
    else if (in->n > NW_MOST_INPUT) say(me, "the input has more than %u bytes: none of its lines is read", NW_MOST_INPUT);
    else if (in->n >= 2 && ((s[0] == 0xFF && s[1] == 0xFE) || (s[0] == 0xFE && s[1] == 0xFF)))
        say(me, "the input begins with a byte order mark of UTF-16: its lines are refused, as they have to be plain ASCII");
    else {
        if (in->n >= 3 && memcmp(s, "\xEF\xBB\xBF", 3) == 0)
            say(me, "line 1 begins with a byte order mark, EF BB BF: it is refused, as a line has to begin with its digits");
        remark_returns(in);
    }
}

static int run(const struct work *w) {
    static struct input in;
    static struct report r; // of zeros: what is written in it ends with one
    if (!read_input(me, w->name, &in)) return UNUSABLE;
    if (w->fields || w->offset != 0) answer_lines(&r, w, &in);
    else r.n = nw_dates_report(in.s, in.n, (uint8_t *)r.s);
    int status = write_output(me, r.s, r.n, strstr(r.s, " refused ") == NULL ? TAKEN : REFUSED);
    if (status != UNUSABLE) remark(&in);
    return status;
}

// ---- the words of the command

// The word after --offset, which may be missing.
static int take_offset(struct work *w, const char *minutes) {
    if (w->given) return misused(me, "--offset", ": it is given already");
    if (minutes == NULL) return misused(me, "--offset", ": MINUTES have to follow");
    if (!read_minutes(minutes, &w->offset))
        return misused(me, minutes, ": MINUTES have to be a whole number from -720 to 840");
    w->given = true;
    return TAKEN;
}

int dates(const struct command *name, int words, char **word) {
    struct work w = {0};
    bool options = true;
    me = name;
    for (int i = 0; i < words; i++) {
        if (options && strcmp(word[i], "--help") == 0) return help(me);
        if (options && strcmp(word[i], "--version") == 0) return version(me);
        if (options && strcmp(word[i], "--") == 0) options = false;
        else if (options && strcmp(word[i], "--fields") == 0) w.fields = true;
        else if (options && strcmp(word[i], "--offset") == 0) {
            if (take_offset(&w, word[++i]) != TAKEN) return UNUSABLE; // word[words] is NULL
        } else if (options && word[i][0] == '-' && word[i][1] != '\0') return misused(me, word[i], ": there is no such word");
        else if (w.name != NULL) return misused(me, word[i], ": there is a FILE already, and one is read");
        else w.name = word[i];
    }
    return run(&w);
}
