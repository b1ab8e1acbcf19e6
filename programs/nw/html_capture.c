// html_capture.c: the sections that came and went in a capture, drawn on an HTML page from its first byte to its last.
// SPDX-License-Identifier: MIT
#include "html.h"
#include "page.h"
#include <inttypes.h>
#include <string.h>

enum { BINS = 400, MOST_SPANS = 32, MOST_LANES = 64, MOST_SECTIONS = 256 };
enum { ROW = 60, NAMES = 32, LANE = 16 }; // pixels: of a band with its names, of the names, and of the band itself
enum { LABEL = 20 };                      // percent of the width: what a version's name may take

// What came in some bytes of the capture.
struct bin {
    uint32_t taken, held, refused;
};

// A version of a table: where its first section came, where it was whole, and where another took over.
struct span {
    unsigned version;
    uint64_t from, whole, to;
    bool is_whole, is_over;
};

// The sections of one kind and extension.
struct lane {
    unsigned kind, extension;
    struct bin bins[BINS];
    struct span spans[MOST_SPANS]; // the latest
    size_t span_count;
    struct {
        uint64_t first;
        uint32_t times;
    } seen[MOST_SECTIONS]; // of the version that is held
};

// Bounded, however long the capture is: the bins grow with it.
static struct lane lanes[MOST_TABLES];
static size_t lane_count;
static uint64_t width, not_drawn; // bytes of a bin; sections without a lane
static uint32_t skipped_in[BINS], lost_in[BINS];
static bool any_skipped, any_lost;

// ---- what came

void picture_begin(void) {
    lane_count = 0;
    width = 16;
    not_drawn = 0;
    memset(skipped_in, 0, sizeof skipped_in);
    memset(lost_in, 0, sizeof lost_in);
    any_skipped = any_lost = false;
}

// Doubles the bins' width.
static void fold(void) {
    for (size_t i = 0; i < BINS; i++) {
        bool inside = 2 * i + 1 < BINS;
        skipped_in[i] = inside ? skipped_in[2 * i] + skipped_in[2 * i + 1] : 0;
        lost_in[i] = inside ? lost_in[2 * i] + lost_in[2 * i + 1] : 0;
        for (struct lane *l = lanes; l < lanes + lane_count; l++) {
            struct bin none = {0, 0, 0}, one = inside ? l->bins[2 * i] : none, two = inside ? l->bins[2 * i + 1] : none;
            l->bins[i] = (struct bin){one.taken + two.taken, one.held + two.held, one.refused + two.refused};
        }
    }
    width *= 2;
}

static size_t bin_of(uint64_t at) {
    while (at / width >= BINS) fold();
    return (size_t)(at / width);
}

void picture_skipped(const struct stretch *bad) {
    size_t to = bin_of(bad->at + (bad->in_packets ? 0 : bad->bytes - 1));
    any_skipped = true;
    for (size_t i = bin_of(bad->at); i <= to; i++) skipped_in[i]++;
}

void picture_lost(const struct stream_loss *loss) {
    any_lost = true;
    lost_in[bin_of(loss->at)]++;
}

static struct lane *lane_of(unsigned kind, unsigned extension, bool may_add) {
    for (struct lane *l = lanes; l < lanes + lane_count; l++)
        if (l->kind == kind && l->extension == extension) return l;
    if (!may_add || lane_count == MOST_TABLES) return NULL;
    lanes[lane_count] = (struct lane){.kind = kind, .extension = extension};
    return &lanes[lane_count++];
}

// Another version begins.
static void begin_span(struct lane *l, unsigned version, uint64_t at) {
    if (l->span_count == MOST_SPANS) memmove(l->spans, l->spans + 1, (MOST_SPANS - 1) * sizeof *l->spans), l->span_count--;
    if (l->span_count > 0) l->spans[l->span_count - 1].to = at, l->spans[l->span_count - 1].is_over = true;
    l->spans[l->span_count++] = (struct span){.version = version, .from = at};
    memset(l->seen, 0, sizeof l->seen);
}

void picture_arrival(const struct arrival *a) {
    nw_heading h = a->heading;
    struct lane *l = lane_of(nw_heading_kind(h), nw_heading_extension(h), true);
    if (l == NULL) {
        not_drawn++;
        return;
    }
    size_t i = bin_of(a->at);
    bool taken = a->outcome == TOOK || a->outcome == TOOK_OVER, held = a->outcome == HELD;
    l->bins[i].taken += taken;
    l->bins[i].held += held;
    l->bins[i].refused += !taken && !held;
    if (a->outcome == TOOK_OVER || (taken && l->span_count == 0)) begin_span(l, nw_heading_version(h), a->at);
    if (!taken && !held) return;
    if (l->seen[nw_heading_number(h)].times++ == 0) l->seen[nw_heading_number(h)].first = a->at;
    struct span *s = &l->spans[l->span_count - 1];
    if (!s->is_whole && a->table->state.missing == 0 && a->table->state.spoiled == 0) s->is_whole = true, s->whole = a->at;
}

// ---- the picture

static double percent(uint64_t at, uint64_t all) { return all == 0 ? 0 : 100.0 * (double)(at < all ? at : all) / (double)all; }

// A mark over bins in a row.
static void put_mark(const char *kind, size_t from, size_t to, uint64_t all, int y, int height, const char *what, uint64_t count) {
    uint64_t end = to * width < all ? to * width : all;
    double x = percent(from * width, all), wide = percent(end, all) - x;
    fprintf(page,
            "<rect class=\"%s\" x=\"%.2f%%\" y=\"%d\" width=\"%.2f%%\" height=\"%d\"><title>bytes %" PRIu64 " to %" PRIu64 ": %s %" PRIu64
            "</title></rect>\n",
            kind, x, y, wide, height, (uint64_t)from * width, end - 1, what, count);
}

// The marks of one kind, those of bins side by side as one.
static void put_marks(const char *kind, const uint32_t *counts, size_t stride, uint64_t all, int y, int height, const char *what) {
    for (size_t i = 0, from = 0; i < BINS; i = from = i + 1) {
        uint64_t count = 0;
        for (; i < BINS && counts[i * stride] != 0; i++) count += counts[i * stride];
        if (i > from) put_mark(kind, from, i, all, y, height, what, count);
    }
}

static void put_lane_label(int y, const char *label) {
    fprintf(page, "<text x=\"0\" y=\"%d\">%s</text><rect class=\"lane\" x=\"0\" y=\"%d\" width=\"100%%\" height=\"%d\"/>\n", y + 12, label,
            y + NAMES, LANE);
}

static void put_span(const struct span *s, uint64_t all, int y) {
    double from = percent(s->from, all), to = s->is_over ? percent(s->to, all) : 100, whole = percent(s->whole, all);
    fprintf(page, "<rect class=\"version\" x=\"%.2f%%\" y=\"%d\" width=\"%.2f%%\" height=\"%d\"><title>version %u, from byte %" PRIu64 "</title></rect>", from,
            y + NAMES, to - from, LANE, s->version, s->from);
    if (s->is_whole)
        fprintf(page,
                "<rect class=\"whole\" x=\"%.2f%%\" y=\"%d\" width=\"%.2f%%\" height=\"%d\"><title>version %u, whole from byte %" PRIu64
                "</title></rect>",
                whole, y + NAMES, to - whole, LANE, s->version, s->whole);
    putc('\n', page);
}

// The versions by name, over where they begin, as far as they find room: the latest first.
static void put_names(const struct lane *l, uint64_t all, int y) {
    double end = 100;
    for (size_t i = l->span_count; i-- > 0;) {
        double x = percent(l->spans[i].from, all);
        bool at_end = x > 100 - LABEL;
        if ((at_end ? x : x + LABEL) > end) continue;
        fprintf(page, "<text x=\"%.2f%%\" y=\"%d\" text-anchor=\"%s\">version %u</text>\n", x, y + NAMES - 4, at_end ? "end" : "start",
                l->spans[i].version);
        end = at_end ? x - LABEL : x;
    }
}

static void put_lane(const struct lane *l, uint64_t all, int y) {
    char label[64];
    size_t stride = sizeof *l->bins / sizeof l->bins->taken;
    snprintf(label, sizeof label, "%s table %04X", kind_name(l->kind), l->extension);
    put_lane_label(y, label);
    for (size_t i = 0; i < l->span_count; i++) put_span(&l->spans[i], all, y);
    put_names(l, all, y);
    put_marks("held", &l->bins->held, stride, all, y + NAMES + LANE - 4, 4, "held already:");
    put_marks("taken", &l->bins->taken, stride, all, y + NAMES, LANE, "taken:");
    put_marks("no", &l->bins->refused, stride, all, y + NAMES + LANE + 2, 6, "refused:");
}

static void put_legend(void) {
    static const char *const marks[][2] = {
        {"<rect class=\"taken\" x=\"8\" y=\"0\" width=\"4\" height=\"16\"/>", "a section is taken"},
        {"<rect class=\"held\" x=\"8\" y=\"12\" width=\"4\" height=\"4\"/>", "it is held already: a repeat"},
        {"<rect class=\"no\" x=\"8\" y=\"10\" width=\"4\" height=\"6\"/>", "it is refused or left out, below the band"},
        {"<rect class=\"version\" x=\"0\" y=\"0\" width=\"20\" height=\"16\"/>", "a version of the table has begun"},
        {"<rect class=\"whole\" x=\"0\" y=\"0\" width=\"20\" height=\"16\"/>", "and is whole, until another takes over"}};
    fputs("<ul class=\"legend\">\n", page);
    for (size_t i = 0; i < sizeof marks / sizeof *marks; i++)
        fprintf(page, "<li><svg width=\"20\" height=\"16\" aria-hidden=\"true\">%s</svg> %s</li>\n", marks[i][0], marks[i][1]);
    fputs("</ul>\n", page);
}

static void put_bands(const struct sum *sum, int *y) {
    uint64_t all = sum->capture.bytes;
    if (any_skipped) {
        put_lane_label(*y, "skipped");
        put_marks("no", skipped_in, 1, all, *y + NAMES, LANE, "stretches that are skipped:");
        *y += ROW;
    }
    if (!any_lost) return;
    put_lane_label(*y, "lost");
    put_marks("no", lost_in, 1, all, *y + NAMES, LANE, "losses:");
    *y += ROW;
}

void picture_of_capture(const struct sum *sum) {
    size_t drawn = lane_count < MOST_LANES ? lane_count : MOST_LANES;
    int rows = (int)drawn + any_skipped + any_lost, y = 0;
    if (rows == 0) return;
    fprintf(page, "<figure><svg role=\"img\" aria-label=\"Which sections came where in the capture; the events and the tables say the same in words.\" "
                  "width=\"100%%\" height=\"%d\">\n", rows * ROW + 20);
    put_bands(sum, &y);
    for (size_t i = 0; i < drawn; i++, y += ROW) put_lane(&lanes[i], sum->capture.bytes, y);
    fprintf(page, "<text x=\"0\" y=\"%d\">byte 0</text><text x=\"100%%\" y=\"%d\" text-anchor=\"end\">byte %" PRIu64
                  "</text>\n</svg>\n<figcaption>From the first byte of the capture to its last.", y + 14, y + 14, sum->capture.bytes);
    if (sum->capture.is_stream) fputs(" A section stands at the packet that completes it.", page);
    if (lane_count > drawn || not_drawn > 0)
        fprintf(page, " The first %zu kinds and extensions are drawn of %zu or more.", drawn, lane_count);
    fputs("</figcaption>\n", page);
    put_legend();
    fputs("</figure>\n", page);
}

// ---- a table's sections

void picture_of_sections(const struct table *t) {
    const struct lane *l = lane_of(t->state.kind, t->state.extension, false);
    if (l == NULL) return;
    fputs("<ol class=\"cells\" start=\"0\" aria-label=\"sections\">\n", page);
    for (unsigned i = 0; i <= t->state.last; i++)
        if (t->state.held[i] == 0) fprintf(page, "<li class=\"missing\" title=\"section %u is missing\">%u missing</li>\n", i, i);
        else
            fprintf(page, "<li title=\"section %u came first at byte %" PRIu64 ", %u bytes of the body\">%u<small> &times;%" PRIu32 "</small></li>\n", i,
                    l->seen[i].first, t->state.held[i] - 1u, i, l->seen[i].times);
    fputs("</ol>\n", page);
}
