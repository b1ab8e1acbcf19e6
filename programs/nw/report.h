/* report.h: what `nw show` tells of a capture, in the order in which it becomes known, to one of several reporters. */
/* SPDX-License-Identifier: MIT */
#ifndef REPORT_H
#define REPORT_H

#include "sum.h"

struct report {
    void (*begin)(const char *name); /* of the capture */
    void (*skipped)(const struct stretch *bad);
    void (*lost)(const struct stream_loss *loss);
    void (*arrival)(const struct arrival *a);
    void (*tables)(void); /* the capture is read, and the tables follow */
    void (*table)(const struct tables *all, const struct table *t, struct clock clock);
    void (*end)(const struct tables *all, const struct sum *sum, bool faultless);
};

extern const struct report plain_report, bytes_report, json_report, html_report;

/* The verdict of a capture. */
#define ALL_WELL "everything is whole and accepted"
#define NOT_ALL_WELL "not everything is whole and accepted"

#endif
