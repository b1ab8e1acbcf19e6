// html_messages.c: the messages of a capture on an HTML page, drawn from the first start to the last end.
// SPDX-License-Identifier: MIT
#include "html.h"
#include "page.h"
#include "words.h"
#include <inttypes.h>
#include <stdlib.h>
#include <string.h>

enum { MOST_DRAWN = 60, ROW = 54, TOP = 36, HOUR = 3600, DAY = 86400 };

// ---- the messages

struct search {
    struct messages *to;
    const struct table *table;
    size_t place;
};

static void enter(void *own, const struct walk *w, const struct group *g) {
    struct search *s = own;
    struct messages *m = s->to;
    if (w->depth != 0) return;
    if (m->count == m->room) {
        struct message *more = realloc(m->list, (m->room + 64) * sizeof *more);
        m->full = more == NULL;
        if (m->full) return;
        m->list = more;
        m->room += 64;
    }
    m->list[m->count++] = (struct message){.table = s->table, .place = s->place, .number = g->number};
}

static void leave(void *own, const struct walk *w) { (void)own, (void)w; }

static void field(void *own, const struct walk *w, const struct field *f) {
    const struct search *s = own;
    if (w->depth != 1 || s->to->full) return;
    struct message *m = &s->to->list[s->to->count - 1];
    if (f->refusal != NW_TAKEN) m->refused = f->name;
    if (f->refusal != NW_TAKEN) return;
    if (strcmp(f->name, "EBM_id") == 0) snprintf(m->identifier, sizeof m->identifier, "%s", f->words);
    if (strcmp(f->name, "EBM_start_time") == 0) m->has_start = true, m->start = f->number;
    if (strcmp(f->name, "EBM_end_time") == 0) m->has_end = true, m->end = f->number;
    if (strcmp(f->name, "EBM_class") == 0) snprintf(m->class_, sizeof m->class_, "%s", f->words);
    if (strcmp(f->name, "EBM_level") == 0) snprintf(m->level, sizeof m->level, "%s", f->words);
}

void messages_find(struct messages *m, const struct tables *all) {
    for (size_t i = 0; i < all->count && !m->full; i++) {
        const struct table *t = &all->list[i];
        struct search s = {m, t, i};
        if (t->state.kind == NW_INDEX && t->body.n != 0) body_walk(&t->body, (struct clock){false, 0}, (struct visitor){enter, leave, field, &s});
    }
}

// ---- when they are

// What the axis begins and ends with, in seconds from the first day that a field can have; local where that is asked for.
struct axis {
    int64_t from, to;
};

static int64_t seconds(uint64_t field, struct clock clock) {
    int64_t digits[6], s = (int64_t)(field >> 24) * DAY;
    for (unsigned i = 0; i < 6; i++) digits[i] = (int64_t)(field >> 4 * (5 - i) & 15);
    s += (digits[0] * 10 + digits[1]) * HOUR + (digits[2] * 10 + digits[3]) * 60 + digits[4] * 10 + digits[5];
    return s + (clock.local ? clock.offset * 60 : 0);
}

static bool is_drawn(const struct message *m) { return m->has_start; }
static bool is_live(const struct message *m) { return !m->has_end || m->end == NW_LIVE; }

// Where a message ends; a live one has no end, and its bar goes on to the end of the axis.
static int64_t ends(const struct message *m, struct clock clock) { return seconds(is_live(m) ? m->start : m->end, clock); }

static struct axis axis_of(const struct messages *m, struct clock clock) {
    struct axis a = {INT64_MAX, INT64_MIN};
    for (const struct message *x = m->list; x < m->list + m->count; x++) {
        if (!is_drawn(x)) continue;
        int64_t start = seconds(x->start, clock), end = ends(x, clock);
        if (start < a.from) a.from = start;
        if ((end > start ? end : start) > a.to) a.to = end > start ? end : start;
    }
    int64_t room = (a.to - a.from) / 12 > HOUR / 4 ? (a.to - a.from) / 12 : HOUR / 4;
    return (struct axis){a.from - room, a.to + room};
}

static double percent(struct axis a, int64_t at) { return 100.0 * (double)(at - a.from) / (double)(a.to - a.from); }

// A time of the axis.
static nw_time moment(int64_t s) {
    int64_t day = s / DAY, hour = s % DAY / HOUR, minute = s % HOUR / 60;
    return nw_time_unpack((uint64_t)day << 24 | (uint64_t)(hour / 10 << 20 | hour % 10 << 16 | minute / 10 << 12 | minute % 10 << 8), 0);
}

// ---- the picture

// The shortest of these steps that parts the axis at most three times.
static int64_t step_of(struct axis a) {
    static const int64_t steps[] = {300,     600,     1200,     HOUR / 2, HOUR,      2 * HOUR,  3 * HOUR,  6 * HOUR,   12 * HOUR,  DAY,
                                    2 * DAY, 5 * DAY, 10 * DAY, 20 * DAY, 50 * DAY, 100 * DAY, 200 * DAY, 1000 * DAY, 5000 * DAY, 20000 * DAY};
    size_t i = 0;
    while (i + 1 < sizeof steps / sizeof *steps && (a.to - a.from) / steps[i] >= 3) i++;
    return steps[i];
}

// The day, first, and the time below it, so that three find room on a phone.
static void put_tick(double x, nw_time t, int height) {
    const char *anchor = x < 12 ? "start" : x > 88 ? "end" : "middle";
    fprintf(page, "<line class=\"grid\" x1=\"%.2f%%\" x2=\"%.2f%%\" y1=\"%d\" y2=\"%d\"/>", x, x, TOP - 4, height);
    fprintf(page, "<text class=\"day\" x=\"%.2f%%\" y=\"12\" text-anchor=\"%s\">%02u/%02u/%04u</text>", x, anchor, nw_time_day(t), nw_time_month(t),
            nw_time_year(t));
    fprintf(page, "<text x=\"%.2f%%\" y=\"27\" text-anchor=\"%s\">%02u:%02u</text>\n", x, anchor, nw_time_hour(t), nw_time_minute(t));
}

static void put_axis(struct axis a, int height) {
    int64_t step = step_of(a);
    for (int64_t at = (a.from / step + 1) * step; at < a.to; at += step)
        if (at >= 0 && at / DAY < 65536 && NW_REFUSAL(moment(at)) == NW_TAKEN) put_tick(percent(a, at), moment(at), height);
}

// A class or a level without its number.
static const char *named(const char *words) { return words[0] == '\0' ? "not read" : strchr(words, ' ') + 1; }

static void put_message(const struct message *m, struct axis a, struct clock clock, int y) {
    char text[256];
    double from = percent(a, seconds(m->start, clock)), to = is_live(m) ? 100 : percent(a, ends(m, clock));
    fprintf(page, "<text class=\"mono\" x=\"0\" y=\"%d\">%s</text>", y + 13, m->identifier);
    fprintf(page, "<text x=\"0\" y=\"%d\">%s, %s%s</text>", y + 28, named(m->class_), named(m->level),
            !is_live(m) ? "" : m->has_end ? ", live" : ", end not read");
    fprintf(page, "<rect class=\"lane\" x=\"0\" y=\"%d\" width=\"100%%\" height=\"12\"/>", y + 34);
    fprintf(page, "<rect class=\"%s\" x=\"%.3f%%\" y=\"%d\" width=\"%.3f%%\" height=\"12\"><title>%s to ", is_live(m) ? "message live" : "message", from,
            y + 34, to > from ? to - from : 0.0, time_words(m->start, clock, text, sizeof text));
    fprintf(page, "%s</title></rect>\n", m->has_end ? time_words(m->end, clock, text, sizeof text) : "an end that is not read");
}

void picture_of_messages(const struct messages *m, struct clock clock) {
    size_t drawn = 0, can_be = 0;
    for (size_t i = 0; i < m->count; i++) can_be += is_drawn(&m->list[i]);
    if (can_be == 0) return;
    struct axis a = axis_of(m, clock);
    int rows = (int)(can_be < MOST_DRAWN ? can_be : MOST_DRAWN), height = TOP + rows * ROW;
    fprintf(page, "<figure><svg role=\"img\" aria-label=\"When the messages begin and end; the table after the picture has the same in words.\" "
                  "width=\"100%%\" height=\"%d\">\n", height);
    put_axis(a, height);
    for (size_t i = 0; i < m->count && drawn < MOST_DRAWN; i++)
        if (is_drawn(&m->list[i])) put_message(&m->list[i], a, clock, TOP + (int)drawn++ * ROW);
    fputs("</svg>\n<figcaption>From the start of each message to its end", page);
    if (clock.local) fprintf(page, ", in UTC%c%02d:%02d", clock.offset < 0 ? '-' : '+', abs(clock.offset) / 60, abs(clock.offset) % 60);
    else fputs(", in UTC", page);
    fputs("; a dashed bar has no end: the message is live.", page);
    if (can_be > drawn) fprintf(page, " The first %zu of %zu are drawn.", drawn, can_be);
    fputs("</figcaption></figure>\n", page);
}
