// form_values.c: what stands after a line's word, read whole; what is wrong with it is told.
// SPDX-License-Identifier: MIT
#include "form_values.h"
#include "form_strings.h"
#include "load.h"
#include "words.h"
#include <errno.h>
#include <inttypes.h>
#include <stdlib.h>
#include <string.h>

bool bytes_add(struct bytes *b, const uint8_t *s, size_t n) {
    if (b->room - b->n < n) {
        size_t room = 2 * b->room + n + 256;
        uint8_t *more = realloc(b->s, room);
        if (more == NULL) return false;
        b->s = more;
        b->room = room;
    }
    if (n != 0) memcpy(b->s + b->n, s, n);
    b->n += n;
    return true;
}

// Appends, or tells that there is no memory.
static bool add(struct lines *l, struct bytes *out, const uint8_t *s, size_t n) {
    bool added = bytes_add(out, s, n);
    if (!added) fault(FAULT_VALUE(l), "there is no memory for it");
    return added;
}

bool value_none(struct lines *l) {
    if (l->value_bytes != 0) fault(FAULT_VALUE(l), "nothing stands after the word %.*s", (int)l->word_bytes, l->word);
    return l->value_bytes == 0;
}

// ---- numbers

static int digit_of(char c) { return c >= '0' && c <= '9' ? c - '0' : c >= 'A' && c <= 'F' ? c - 'A' + 10 : c >= 'a' && c <= 'f' ? c - 'a' + 10 : 16; }

// A whole number of decimal digits, or of hexadecimal ones after 0x; of too large a one some number above the most.
static bool read_whole(const char *s, size_t n, uint64_t most, uint64_t *out) {
    int base = n > 2 && s[0] == '0' && s[1] == 'x' ? 16 : 10;
    *out = 0;
    for (size_t i = base == 16 ? 2 : 0; i < n; i++) {
        if (digit_of(s[i]) >= base) return false;
        if (*out <= most) *out = *out * (uint64_t)base + (uint64_t)digit_of(s[i]);
    }
    return n != 0;
}

bool value_number(struct lines *l, const struct item *i, uint64_t *out) {
    bool good = read_whole(l->value, l->value_bytes, i->most, out) && i->least <= *out && *out <= i->most;
    if (!good) fault(FAULT_VALUE(l), "%s has to be a whole number from %" PRIu64 " to %" PRIu64, i->word, i->least, i->most);
    return good;
}

bool value_tag(struct lines *l, const struct item *i, uint64_t *out) {
    static const char *const words[] = {"clock", "code", "frequency", "return", "period", "volume", "query"};
    if (!value_number(l, i, out)) return false;
    bool own = *out >= NW_CLOCK && *out <= NW_QUERY;
    if (own) fault(FAULT_VALUE(l), "a command of this tag is written with the word %s", words[*out - NW_CLOCK]);
    return !own;
}

// ---- digits

bool value_digits(struct lines *l, size_t bytes, uint8_t *out) {
    size_t wanted = 2 * bytes - 1, digits = strspn(l->value, "0123456789");
    if (digits != l->value_bytes) {
        fault(l, l->value + digits, 1, "here %zu digits have to stand, and this is none", wanted);
        return false;
    }
    if (!nw_digits_bytes(l->value, out, bytes)) {
        fault(FAULT_VALUE(l), "here %zu digits have to stand, and there are %zu", wanted, digits);
        return false;
    }
    bool good = bytes != NW_IDENTIFIER_BYTES || NW_REFUSAL(nw_content_identifier(out, bytes)) == NW_TAKEN;
    if (!good)
        fault(l, l->value + 23, 8, "digits 24 to 31 have to be a day of the calendar, year, month and day, from 19000301 to 20380422");
    return good;
}

// ---- times

enum { TIME_TEXT = 19 };

static bool read_time(struct lines *l, size_t n, int offset, const char *wanted, uint64_t *out) {
    nw_answer answer = nw_time_read_text((const uint8_t *)l->value, n, offset);
    *out = nw_value(answer);
    if (NW_REFUSAL(answer) == NW_TAKEN) return true;
    if (NW_REFUSAL(answer) == NW_IMPOSSIBLE_DAY) fault(FAULT_VALUE(l), "%s", impossible_words(l->value));
    else fault(FAULT_VALUE(l), "%s", wanted);
    return false;
}

bool value_time(struct lines *l, bool may_be_live, uint64_t *out) {
    const char *wanted = may_be_live ? "it has to be dd/mm/yyyy hh:mm:ss +hh:mm, day first, with the offset from UTC; or the word live"
                                     : "it has to be dd/mm/yyyy hh:mm:ss +hh:mm, day first, with the offset from UTC";
    int offset;
    *out = NW_LIVE;
    if (may_be_live && strcmp(l->value, "live") == 0) return true;
    const char *after = l->value + TIME_TEXT;
    if (l->value_bytes <= TIME_TEXT || *after != ' ') {
        fault(FAULT_VALUE(l), "%s", wanted);
        return false;
    }
    after += strspn(after, " ");
    if (!read_hours(after, &offset)) {
        fault(l, after, l->value_bytes - (size_t)(after - l->value), "the offset has to be from -12:00 to +14:00, as +08:00");
        return false;
    }
    return read_time(l, TIME_TEXT, offset, wanted, out);
}

bool value_clock(struct lines *l, uint64_t out[6]) {
    uint64_t field;
    if (!read_time(l, l->value_bytes, 0, "it has to be dd/mm/yyyy hh:mm:ss, day first, without an offset", &field)) return false;
    nw_time t = nw_time_unpack(field, 0);
    uint64_t parts[] = {nw_time_year(t), nw_time_month(t), nw_time_day(t), nw_time_hour(t), nw_time_minute(t), nw_time_second(t)};
    memcpy(out, parts, sizeof parts);
    return true;
}

void print_time(uint64_t field, int offset) {
    nw_time t = nw_time_unpack(field, offset);
    if (NW_REFUSAL(t) != NW_TAKEN) {
        offset = 0;
        t = nw_time_unpack(field, offset);
    }
    printf("%02u/%02u/%04u %02u:%02u:%02u %c%02d:%02d", nw_time_day(t), nw_time_month(t), nw_time_year(t), nw_time_hour(t),
           nw_time_minute(t), nw_time_second(t), offset < 0 ? '-' : '+', abs(offset) / 60, abs(offset) % 60);
}

// ---- strings

bool value_string(struct lines *l, unsigned set, struct bytes *out) {
    uint8_t bytes[CHARACTER_BYTES];
    for (size_t at = 0, typed, n; at < l->value_bytes; at += typed) {
        const char *why = "";
        typed = string_take(set, l->value + at, l->value_bytes - at, bytes, &n, &why);
        if (typed == 0) {
            size_t shown_bytes = 1;
            while (at + shown_bytes < l->value_bytes && ((unsigned char)l->value[at + shown_bytes] & 0xC0) == 0x80) shown_bytes++;
            fault(l, l->value + at, shown_bytes, "%s", why);
            return false;
        }
        if (!add(l, out, bytes, n)) return false;
    }
    return true;
}

bool value_type(struct lines *l, uint8_t out[5]) {
    struct bytes got = {0};
    bool read = value_string(l, PLAIN_ASCII, &got), good = got.n == 5;
    for (size_t i = 0; i < got.n; i++) good = good && got.s[i] < 0x80;
    if (read && !good) fault(FAULT_VALUE(l), "it has to be five ASCII characters, a space at its ends as \\x20");
    if (read && good) memcpy(out, got.s, 5);
    free(got.s);
    return read && good;
}

bool value_letters(struct lines *l) {
    bool good = l->value_bytes == 3;
    for (size_t i = 0; i < l->value_bytes; i++) good = good && l->value[i] >= 'a' && l->value[i] <= 'z';
    if (!good) fault(FAULT_VALUE(l), "it has to be three letters a to z");
    return good;
}

bool value_set(struct lines *l, uint64_t *out) {
    for (*out = 0; *out < CHARACTER_SETS; ++*out)
        if (strcmp(set_names[*out], l->value) == 0) return true;
    fault(FAULT_VALUE(l), "there is no such character set; there are GB/T 2312, GB/T 18030, GB/T 13000, GB/T 21669 and GB 16959");
    return false;
}

// ---- return addresses

// Four numbers up to 255 and a port, as 192.0.2.7:8080.
static bool read_internet(const char *s, uint8_t out[6]) {
    for (unsigned i = 0; i < 5; i++) {
        size_t n = strspn(s, "0123456789");
        uint64_t x, most = i < 4 ? 0xFF : 0xFFFF;
        if (n == 0 || n > 5 || !read_whole(s, n, most, &x) || x > most || s[n] != (i < 3 ? '.' : i == 3 ? ':' : '\0')) return false;
        if (i == 4) out[i++] = (uint8_t)(x >> 8);
        out[i] = (uint8_t)x;
        s += n + 1;
    }
    return true;
}

bool value_address(struct lines *l, uint64_t kind, struct bytes *out) {
    static const char *const wanted[] = {"of kind 1 it has to be the 11 digits of a telephone",
                                         "of kind 2 it has to be an IP address and a port, as 192.0.2.7:8080",
                                         "of kind 3 it has to be a name, a colon and a port up to 65535, all in printed ASCII without spaces"};
    uint8_t internet[6];
    if (kind < 1 || kind > 3) return false; // which is told already
    if (kind == 2) {
        bool good = read_internet(l->value, internet);
        if (!good) fault(FAULT_VALUE(l), "%s", wanted[kind - 1]);
        return good && add(l, out, internet, sizeof internet);
    }
    if (!value_string(l, PLAIN_ASCII, out)) return false;
    // The library judges the address, in a table of it alone.
    uint64_t tape[] = {1, NW_RETURN, kind, 0, out->n, 0, 0, 0};
    unsigned refusal = NW_REFUSAL(nw_configuration_measure(out->s, out->n, tape, sizeof tape / sizeof *tape));
    if (refusal == NW_TOO_LARGE) fault(FAULT_VALUE(l), "it has %zu bytes, and an address has at most 255", out->n);
    else if (refusal != NW_TAKEN) fault(FAULT_VALUE(l), "%s", wanted[kind - 1]);
    return refusal == NW_TAKEN;
}

// ---- bytes

bool value_hex(struct lines *l, struct bytes *out) {
    const char *s = l->value, *end = l->value + l->value_bytes;
    if (s == end) fault(FAULT_VALUE(l), "hexadecimal digits have to follow, two for each byte; or the word none; or from and a file's name");
    while (s < end) {
        int high = digit_of(s[0]), low = s + 1 < end ? digit_of(s[1]) : 16;
        if (high == 16 || low == 16) {
            fault(l, s, 1, high < 16 ? "a byte has two hexadecimal digits, and after this there is none"
                                     : "here have to stand hexadecimal digits, two for each byte; or the word none; or from and a file's name");
            return false;
        }
        uint8_t byte = (uint8_t)(high << 4 | low);
        if (!add(l, out, &byte, 1)) return false;
        s += 2 + strspn(s + 2, " \t");
    }
    return l->value_bytes != 0;
}

// All bytes of a file, which may have so many.
static bool take_file(struct lines *l, const char *name, size_t most, struct bytes *out) {
    uint8_t part[4096];
    size_t n = 1;
    FILE *in = fopen(name, "rb");
    if (in == NULL) {
        fault(l, name, strlen(name), "the file can't be opened: %s", strerror(errno));
        return false;
    }
    bool good = true;
    while (good && n != 0 && out->n <= most) {
        n = fread(part, 1, sizeof part, in);
        good = add(l, out, part, n);
    }
    if (ferror(in)) fault(l, name, strlen(name), "the file can't be read: %s", strerror(errno));
    else if (out->n > most) fault(l, name, strlen(name), "the file has more than %zu bytes, the most that there can be", most);
    good = good && ferror(in) == 0 && out->n <= most;
    fclose(in);
    return good;
}

bool value_bytes(struct lines *l, size_t most, struct bytes *out) {
    if (strcmp(l->value, "none") == 0) return true;
    bool from = strncmp(l->value, "from", 4) == 0 && (l->value[4] == ' ' || l->value[4] == '\t');
    return from ? take_file(l, l->value + 4 + strspn(l->value + 4, " \t"), most, out) : value_hex(l, out);
}
