// plot: measured rows as a picture, SVG: the library's time in each contender's as a bar, beside a line at 1.0 and one at 1.2.
// SPDX-License-Identifier: MIT
#include <string.h>

#include "measure.h"

// In points: where names, sizes and bars stand, the bar of a ratio of 1, and the height of a bar with its gap.
enum { MARGIN = 16, SIZES_AT = 224, NAMES_AT = 232, RATIOS_AT = 400, BARS_AT = 408, ONE = 132, STEP = 14, BAR = 9, TOP = 118, GAP = 6, WIDTH = 1000 };

// A longer bar is cut off here.
#define MOST_RATIO 4.2

static void put_escaped(FILE *to, const char *text) {
    for (; *text; text++) switch (*text) {
        case '&': fputs("&amp;", to); break;
        case '<': fputs("&lt;", to); break;
        default: fputc(*text, to);
        }
}

static void put_text(FILE *to, double x, double y, const char *style, const char *text) {
    fprintf(to, "<text x=\"%.1f\" y=\"%.1f\" %s>", x, y, style);
    put_escaped(to, text);
    fputs("</text>\n", to);
}

// The words about the machine, a line for each part between semicolons.
static void put_about(FILE *to, const char *about) {
    char line[200];
    for (double y = 46; *about; y += 15) {
        size_t n = strcspn(about, ";"), kept = n < sizeof line ? n : sizeof line - 1;
        memcpy(line, about, kept);
        line[kept] = 0;
        put_text(to, MARGIN, y, "fill=\"#555\"", line + strspn(line, " "));
        about += n + (about[n] == ';');
    }
}

static double x_of(double ratio) { return BARS_AT + ONE * (ratio < MOST_RATIO ? ratio : MOST_RATIO); }

static const char *colour_of(const struct row *r, size_t i) {
    if (is_above(r, i)) return "#c0392b";
    return r->operation->contenders[i].bound > 0 ? "#2e7d4f" : "#6c86ad";
}

static void put_legend(FILE *to, double y) {
    static const struct {
        const char *colour, *text;
    } parts[] = {{"#2e7d4f", "within its bound"}, {"#c0392b", "above its bound"}, {"#6c86ad", "a peer, without a bound"}, {"#222", "before (a tick)"}};
    double x = BARS_AT;
    for (size_t i = 0; i < sizeof parts / sizeof parts[0]; i++, x += 160) {
        fprintf(to, "<rect x=\"%.1f\" y=\"%.1f\" width=\"%d\" height=\"9\" fill=\"%s\"/>\n", x, y - 9, i < 3 ? 9 : 2, parts[i].colour);
        put_text(to, x + 14, y, "", parts[i].text);
    }
}

// The bar of a contender, and a tick where it ended before.
static void put_bar(FILE *to, const struct row *r, size_t i, double y) {
    char text[32];
    double ratio = ratio_of(r->best, i), before = ratio_of(r->before, i);
    put_text(to, NAMES_AT, y, "", r->operation->contenders[i].name);
    if (ratio == 0) {
        put_text(to, BARS_AT + 4, y, "fill=\"#555\"", "not installed");
        return;
    }
    snprintf(text, sizeof text, "%.2f", ratio);
    put_text(to, RATIOS_AT, y, is_above(r, i) ? "text-anchor=\"end\" fill=\"#c0392b\" font-weight=\"bold\"" : "text-anchor=\"end\"", text);
    fprintf(to, "<rect x=\"%d\" y=\"%.1f\" width=\"%.1f\" height=\"%d\" fill=\"%s\"/>\n", BARS_AT, y - BAR, x_of(ratio) - BARS_AT, BAR, colour_of(r, i));
    if (before > 0) fprintf(to, "<rect x=\"%.1f\" y=\"%.1f\" width=\"2\" height=\"%d\" fill=\"#222\"/>\n", x_of(before) - 1, y - BAR - 1, BAR + 2);
    if (ratio > MOST_RATIO) put_text(to, x_of(ratio) + 3, y, "", "cut off");
}

// All bars, from a height on; gives back where they end. Without a file nothing is drawn.
static double put_rows(FILE *to, const struct row *rows, size_t count, double y) {
    char size[32];
    for (const struct row *r = rows; r < rows + count; r++) {
        if (strcmp(r->operation->contenders[0].name, "neapwillow") != 0) continue;
        int first = r == rows || r[-1].operation != r->operation;
        if (first) y += GAP;
        if (to && first) put_text(to, MARGIN, y + STEP, "font-weight=\"bold\"", r->operation->name);
        snprintf(size, sizeof size, "%zu", r->bytes);
        if (to) put_text(to, SIZES_AT, y + STEP, "text-anchor=\"end\"", size);
        for (size_t i = 1; is_contender(r, i); i++, y += STEP)
            if (to) put_bar(to, r, i, y + STEP);
    }
    return y;
}

static void put_line(FILE *to, double ratio, double bottom, const char *style) {
    char text[16];
    snprintf(text, sizeof text, "%.1f", ratio);
    fprintf(to, "<line x1=\"%.1f\" x2=\"%.1f\" y1=\"%d\" y2=\"%.1f\" %s/>\n", x_of(ratio), x_of(ratio), TOP, bottom, style);
    put_text(to, x_of(ratio), TOP - 4, "text-anchor=\"middle\"", text);
    put_text(to, x_of(ratio), bottom + 13, "text-anchor=\"middle\"", text);
}

void write_plot(FILE *to, const char *about, const struct row *rows, size_t count) {
    double bottom = put_rows(NULL, rows, count, TOP) + GAP, height = bottom + 24;
    fprintf(to, "<svg xmlns=\"http://www.w3.org/2000/svg\" width=\"%d\" height=\"%.0f\" viewBox=\"0 0 %d %.0f\"", WIDTH, height, WIDTH, height);
    fputs(" font-family=\"DejaVu Sans, Arial, sans-serif\" font-size=\"10.5\">\n", to);
    fprintf(to, "<rect width=\"%d\" height=\"%.0f\" fill=\"#fff\"/>\n", WIDTH, height);
    put_text(to, MARGIN, 26, "font-size=\"16\" font-weight=\"bold\"", "Neapwillow's time in that of plain C and of its peers: shorter is faster");
    put_about(to, about);
    put_legend(to, TOP - 20);
    put_line(to, 0.5, bottom, "stroke=\"#ddd\"");
    for (double ratio = 2; ratio < MOST_RATIO; ratio++) put_line(to, ratio, bottom, "stroke=\"#ddd\"");
    put_rows(to, rows, count, TOP);
    put_line(to, 1.0, bottom, "stroke=\"#222\"");
    put_line(to, 1.2, bottom, "stroke=\"#c0392b\" stroke-dasharray=\"4 3\"");
    fputs("</svg>\n", to);
}
