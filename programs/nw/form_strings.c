// form_strings.c: bytes of a character set as characters of a written form, and back.
// SPDX-License-Identifier: MIT
#include "form_strings.h"
#include <iconv.h>
#include <langinfo.h>
#include <neapwillow.h>
#include <stdio.h>
#include <string.h>

// ---- characters

static bool within(uint32_t c, uint32_t least, uint32_t most) { return least <= c && c <= most; }

// The bytes of the character of UTF-8 that begins n bytes, and the character; 0 where none does.
static size_t utf8_take(const uint8_t *s, size_t n, uint32_t *c) {
    size_t bytes = s[0] < 0x80 ? 1 : within(s[0], 0xC2, 0xDF) ? 2 : within(s[0], 0xE0, 0xEF) ? 3 : within(s[0], 0xF0, 0xF4) ? 4 : 0;
    if (bytes == 0 || bytes > n) return 0;
    *c = bytes == 1 ? s[0] : s[0] & (0x7Fu >> bytes);
    for (size_t i = 1; i < bytes; i++) {
        if ((s[i] & 0xC0) != 0x80) return 0;
        *c = *c << 6 | (s[i] & 0x3Fu);
    }
    static const uint32_t least[] = {0, 0, 0x80, 0x800, 0x10000};
    return *c < least[bytes] || within(*c, 0xD800, 0xDFFF) || *c > 0x10FFFF ? 0 : bytes;
}

// Whether a character is printed as itself: not one that steers a terminal, turns the direction of writing round or can't be seen.
static bool is_seen(uint32_t c) {
    return c >= 0xA0 && c != 0xAD && c != 0x61C && !within(c, 0x200B, 0x200F) && !within(c, 0x2028, 0x202E) && !within(c, 0x2060, 0x206F) &&
           c != 0xFEFF && !within(c, 0xFFF0, 0xFFFB) && (c & 0xFFFE) != 0xFFFE && !within(c, 0xE0000, 0xE0FFF);
}

// The C library's way from one name to another, kept open; NULL where it has none.
static iconv_t way(unsigned set, bool back) {
    static iconv_t ways[2][2];
    static bool tried[2][2];
    static const char *const names[] = {"GB2312", "GB18030"};
    if (!tried[set][back]) ways[set][back] = back ? iconv_open("UTF-8", names[set]) : iconv_open(names[set], "UTF-8");
    tried[set][back] = true;
    return ways[set][back];
}

// Converts n bytes, all of one character. Answers how many they become, or 0.
static size_t convert(iconv_t how, const uint8_t *s, size_t n, uint8_t out[CHARACTER_BYTES]) {
    char *in = (char *)s, *to = (char *)out;
    size_t left = n, room = CHARACTER_BYTES;
    if (how == (iconv_t)-1) return 0;
    iconv(how, NULL, NULL, NULL, NULL);
    return iconv(how, &in, &left, &to, &room) == 0 && left == 0 ? CHARACTER_BYTES - room : 0;
}

static bool has_conversion(unsigned set) {
    return set == NW_SET_GB_13000 || (set < NW_SET_GB_13000 && way(set, false) != (iconv_t)-1 && way(set, true) != (iconv_t)-1);
}

// ---- typed

static int hex_digit(char c) {
    static const char digits[] = "0123456789ABCDEFabcdef";
    const char *at = c == '\0' ? NULL : strchr(digits, c);
    return at == NULL ? -1 : at - digits < 16 ? (int)(at - digits) : (int)(at - digits) - 6;
}

static size_t take_escape(const char *s, size_t n, uint8_t *out, size_t *bytes, const char **why) {
    *bytes = 1;
    *out = '\\';
    if (n >= 2 && s[1] == '\\') return 2;
    bool two = n >= 4 && s[1] == 'x' && hex_digit(s[2]) >= 0 && hex_digit(s[3]) >= 0;
    if (two) *out = (uint8_t)(hex_digit(s[2]) << 4 | hex_digit(s[3]));
    else *why = "after a backslash has to stand x and two hexadecimal digits, or another backslash";
    return two ? 4 : 0;
}

size_t string_take(unsigned set, const char *s, size_t n, uint8_t out[CHARACTER_BYTES], size_t *bytes, const char **why) {
    uint32_t c = 0;
    if (s[0] == '\\') return take_escape(s, n, out, bytes, why);
    size_t typed = utf8_take((const uint8_t *)s, n, &c);
    if (typed == 0) return *why = "it is no character of UTF-8, in which a form has to be", 0;
    if (c == '\t') return *why = "a tab is written \\x09", 0;
    memcpy(out, s, typed);
    *bytes = typed;
    if (c < 0x80 || set == NW_SET_GB_13000) return typed;
    if (set == PLAIN_ASCII) return *why = "it is no ASCII", 0;
    if (!has_conversion(set)) return *why = "the C library has no conversion to this character set: its bytes are written as \\xNN", 0;
    *bytes = convert(way(set, false), (const uint8_t *)s, typed, out);
    if (*bytes == 0) *why = "it is no character of this character set";
    return *bytes == 0 ? 0 : typed;
}

// ---- printed

// The character that begins n bytes of a set, as UTF-8, if it is to be printed as such and is typed back to the same bytes. Answers how many
// bytes it is of the set, or 0.
static size_t character(unsigned set, const uint8_t *s, size_t n, uint8_t utf8[CHARACTER_BYTES], size_t *bytes) {
    static const size_t sizes[] = {2, 4};
    uint8_t again[CHARACTER_BYTES];
    uint32_t c;
    if (set == NW_SET_GB_13000) {
        *bytes = utf8_take(s, n, &c);
        memcpy(utf8, s, *bytes);
        return *bytes != 0 && is_seen(c) ? *bytes : 0;
    }
    for (size_t i = 0; set < NW_SET_GB_13000 && has_conversion(set) && i < 2 && sizes[i] <= n; i++) {
        *bytes = convert(way(set, true), s, sizes[i], utf8);
        bool one = *bytes != 0 && utf8_take(utf8, *bytes, &c) == *bytes && is_seen(c);
        if (one && convert(way(set, false), utf8, *bytes, again) == sizes[i] && memcmp(again, s, sizes[i]) == 0) return sizes[i];
    }
    return 0;
}

void string_print(unsigned set, const uint8_t *s, size_t n) {
    bool ascii = strcmp(nl_langinfo(CODESET), "UTF-8") != 0; // another terminal would take bytes of UTF-8 for something else
    for (size_t i = 0, used; i < n; i += used) {
        uint8_t utf8[CHARACTER_BYTES];
        size_t bytes = 0;
        bool at_end = i == 0 || i + 1 == n; // where a space can't be seen
        used = s[i] < 0x80 || ascii ? 0 : character(set, s + i, n - i, utf8, &bytes);
        if (used != 0) fwrite(utf8, 1, bytes, stdout);
        else if (s[i] == '\\') fputs("\\\\", stdout);
        else if (s[i] < 0x20 || s[i] >= 0x7F || (s[i] == ' ' && at_end)) printf("\\x%02X", (unsigned)s[i]);
        else putchar(s[i]);
        if (used == 0) used = 1;
    }
}
