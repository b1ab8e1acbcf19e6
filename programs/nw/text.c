// text.c: texts of a capture, decoded from their character set and shown so that nothing in them steers a terminal.
// SPDX-License-Identifier: MIT
#include "text.h"
#include <iconv.h>
#include <limits.h>
#include <neapwillow.h>
#include <stdio.h>
#include <stdlib.h>
#include <wchar.h>
#include <wctype.h>

// What the C library calls a set; it has no name for the two after these. GB/T 13000 is read as UTF-8.
static const char *const conversions[] = {"GB2312", "GB18030", "UTF-8"};

// The next character of n bytes, one or more. Answers how many bytes it takes; one that is no character is a bare byte.
static size_t next(iconv_t way, const uint8_t *s, size_t n, uint32_t *c) {
    char *in = (char *)s, *out;
    wchar_t got = 0;
    size_t most = n < 8 ? n : 8, left = most, room = sizeof got;
    out = (char *)&got;
    iconv(way, &in, &left, &out, &room);
    iconv(way, NULL, NULL, NULL, NULL);
    *c = room == 0 ? (uint32_t)got : BARE_BYTE | s[0];
    return room == 0 ? most - left : 1;
}

bool text_decode(struct text *t, unsigned set, const uint8_t *s, size_t n) {
    iconv_t none = (iconv_t)-1, way = set <= NW_SET_GB_13000 ? iconv_open("WCHAR_T", conversions[set]) : none;
    *t = (struct text){malloc((n + 1) * sizeof *t->c), 0, 0, way != none};
    for (size_t at = 0; t->c != NULL && at < n; t->n++) {
        uint32_t c = s[at] < 0x80 ? s[at] : BARE_BYTE | s[at];
        at += t->known ? next(way, s + at, n - at, &c) : 1;
        t->bare += (c & BARE_BYTE) != 0;
        t->c[t->n] = c;
    }
    if (way != none) iconv_close(way);
    return t->c != NULL;
}

// Characters that turn the direction of writing round, or part lines.
static bool steers(uint32_t c) { return (c >= 0x2028 && c <= 0x202E) || (c >= 0x2066 && c <= 0x2069); }

bool text_put(uint32_t c, char out[CHARACTER_ROOM]) {
    mbstate_t fresh = {0};
    if ((c & BARE_BYTE) != 0) return sprintf(out, "\\x%02X", (unsigned)(c & 0xFF)), false;
    size_t n = steers(c) || !iswprint((wint_t)c) ? (size_t)-1 : wcrtomb(out, (wchar_t)c, &fresh);
    if (n == (size_t)-1) return sprintf(out, "\\u{%X}", (unsigned)c), true;
    out[n] = '\0';
    return false;
}

bool text_show(uint32_t c) {
    char out[CHARACTER_ROOM];
    bool hidden = text_put(c, out);
    fputs(out, stdout);
    return hidden;
}

_Static_assert(MB_LEN_MAX < CHARACTER_ROOM, "a character finds room");
