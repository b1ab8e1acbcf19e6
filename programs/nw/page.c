// page.c: the file that an HTML page is written to, whole or not at all, and what stands in it put safely.
// SPDX-License-Identifier: MIT
#include "page.h"
#include "output.h"
#include "text.h"
#include <errno.h>
#include <string.h>
#include <wchar.h>

FILE *page;

static struct output output;

// ---- the file

bool page_open(const struct command *c, const char *name, bool replace) {
    bool standard = strcmp(name, "-") == 0;
    if (!standard && !output_open(&output, c, name, replace)) return false;
    page = standard ? stdout : output.file;
    fputs("<!DOCTYPE html>\n", page);
    return true;
}

bool page_close(bool keep) {
    if (page == stdout) return keep; // which is finished as all output is
    if (ferror(page)) output.why = EIO; // unless the next write tells why
    if (output.why != 0 && fflush(page) != 0) output.why = errno;
    return output_close(&output, keep);
}

// ---- what stands in it

// Whether a character is invisible, steers others or is none: controls, directions, noncharacters, tags.
static bool is_odd(uint32_t c) {
    static const uint32_t odd[][2] = {{0, 0x1F},         {0x7F, 0x9F},     {0x61C, 0x61C},   {0x200B, 0x200F}, {0x2028, 0x202E}, {0x2060, 0x206F},
                                      {0xD800, 0xDFFF},  {0xFDD0, 0xFDEF}, {0xFEFF, 0xFEFF}, {0xFFF9, 0xFFFB}, {0xE0000, 0xE0FFF}};
    for (size_t i = 0; i < sizeof odd / sizeof *odd; i++)
        if (odd[i][0] <= c && c <= odd[i][1]) return true;
    return (c & 0xFFFE) == 0xFFFE || c > 0x10FFFF;
}

// A character of Unicode as UTF-8.
static void put_utf8(uint32_t c) {
    unsigned more = c < 0x80 ? 0 : c < 0x800 ? 1 : c < 0x10000 ? 2 : 3;
    static const uint8_t leads[] = {0, 0xC0, 0xE0, 0xF0};
    putc((int)(leads[more] | c >> 6 * more), page);
    while (more-- > 0) putc((int)(0x80 | (c >> 6 * more & 0x3F)), page);
}

static void put_spelt(const char *form, uint32_t c, bool marks) {
    if (marks) fputs("<span class=\"odd\">", page);
    fprintf(page, form, (unsigned)c);
    if (marks) fputs("</span>", page);
}

void page_put_character(uint32_t c, bool marks) {
    if ((c & BARE_BYTE) != 0) put_spelt("\\x%02X", c & 0xFF, marks);
    else if (is_odd(c)) put_spelt("\\u{%X}", c, marks);
    else if (c == '&') fputs("&amp;", page);
    else if (c == '<') fputs("&lt;", page);
    else if (c == '>') fputs("&gt;", page);
    else if (c == '"') fputs("&quot;", page);
    else put_utf8(c);
}

void page_put(const char *s) {
    for (; *s != '\0'; s++) page_put_character((unsigned char)*s, true);
}

void page_put_name(const char *s, bool marks) {
    mbstate_t state = {0};
    for (size_t left = strlen(s), n; left > 0; s += n, left -= n) {
        wchar_t c = 0;
        n = mbrtowc(&c, s, left, &state);
        bool none = n == 0 || n > left;
        if (none) memset(&state, 0, sizeof state), n = 1;
        page_put_character(none ? BARE_BYTE | (unsigned char)*s : (uint32_t)c, marks);
    }
}
