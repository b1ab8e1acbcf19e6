// measure.h: an operation measured at one size, and how a measured row is told: as text, as a table in Markdown, as a plot.
// SPDX-License-Identifier: MIT
#ifndef MEASURE_H
#define MEASURE_H

#include <stdio.h>

#include "bench.h"

// What measures, measure.c or counted.c: its tool, the words that this takes, the unit of its numbers, and whether they are counts.
struct meter {
    const char *tool, *words, *unit;
    int counts;
};
extern const struct meter meter;

// The least that each contender took for a call, and took in an earlier table; 0: not measured.
struct row {
    const struct operation *operation;
    size_t bytes;
    double best[MOST_CONTENDERS], before[MOST_CONTENDERS];
};

// Before the first row.
void begin_measuring(void);

// Sees that all contenders of an operation give the same number and the same output, or ends the program.
void agree(const struct operation *o, size_t n);

// Fills the input, sees that all contenders agree, and measures each: what is less than the row's best becomes its best.
void measure(struct row *r);

static inline int is_contender(const struct row *r, size_t i) { return i < MOST_CONTENDERS && r->operation->contenders[i].name; }

// What the library took in what a contender took; 0: not measured.
static inline double ratio_of(const double *times, size_t i) { return times[0] > 0 && times[i] > 0 ? times[0] / times[i] : 0; }

// As the ratio is told, by two places.
static inline int is_above(const struct row *r, size_t i) {
    double bound = r->operation->contenders[i].bound;
    return bound > 0 && ratio_of(r->best, i) >= bound + 0.005;
}

void print_heading(void);
void print_row(const struct row *r);

// Rows that were measured, after a line about the machine, with the times before or without.
void write_table(FILE *to, const char *about, const struct row *rows, size_t count, int with_before);

// The times of earlier tables, of several the least: as those before, or as those by which the rows begin. Gives back how many are of these rows.
size_t read_table(FILE *from, struct row *rows, size_t count, int as_before);

void write_plot(FILE *to, const char *about, const struct row *rows, size_t count);

#endif
