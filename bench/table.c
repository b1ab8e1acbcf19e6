// table: measured rows as text, and as a table in Markdown, which is read again to stand beside a later one.
// SPDX-License-Identifier: MIT
#include <string.h>

#include "measure.h"

// How many places of a number are told: a hundredth of a nanosecond tells only in a short time, and a count has none.
static int places_of(double each) { return meter.counts ? 0 : each < 100 ? 2 : 1; }

// ---- as text, numbers as wide as what stands above them

void print_heading(void) {
    printf("%-21s %7s  %-20s   %s a call %s a byte %6s %8s\n", "", "bytes", "", meter.unit, meter.unit, "ratio", "at most");
}

void print_row(const struct row *r) {
    int wide = (int)strlen(meter.unit) + 7;
    for (size_t i = 0; is_contender(r, i); i++) {
        const struct contender *c = &r->operation->contenders[i];
        printf("%-21s %7zu  %-20s ", r->operation->name, r->bytes, c->name);
        if (!c->run) {
            printf("not measured: its package is not installed\n");
            continue;
        }
        printf("%*.*f %*.5f", wide + 2, places_of(r->best[i]), r->best[i], wide, r->best[i] / (double)r->bytes);
        if (i > 0) printf(" %6.2f", ratio_of(r->best, i));
        if (c->bound > 0) printf(" %8.1f%s", c->bound, is_above(r, i) ? "  above" : "");
        printf("\n");
    }
    fflush(stdout);
}

// ---- as Markdown

static void write_ratio(FILE *to, double ratio, int above) {
    if (ratio == 0) fprintf(to, " |");
    else fprintf(to, above ? " **%.2f** |" : " %.2f |", ratio);
}

static void write_contender(FILE *to, const struct row *r, size_t i, int with_before) {
    const struct contender *c = &r->operation->contenders[i];
    fprintf(to, "| %s | %zu | %s |", r->operation->name, r->bytes, c->name);
    if (!c->run) fprintf(to, " not installed | | |");
    else fprintf(to, " %.*f | %.5f |", places_of(r->best[i]), r->best[i], r->best[i] / (double)r->bytes);
    if (c->run) write_ratio(to, i > 0 ? ratio_of(r->best, i) : 0, is_above(r, i));
    if (c->bound > 0) fprintf(to, " %.1f |", c->bound);
    else fprintf(to, " |");
    if (with_before && r->before[i] > 0) fprintf(to, " %.*f |", places_of(r->before[i]), r->before[i]);
    else if (with_before) fprintf(to, " |");
    if (with_before) write_ratio(to, i > 0 ? ratio_of(r->before, i) : 0, 0);
    fprintf(to, "\n");
}

void write_table(FILE *to, const char *about, const struct row *rows, size_t count, int with_before) {
    fprintf(to, "%s on %s.\n\n", meter.counts ? "Counted" : "Measured", about);
    fprintf(to, "| Operation | Bytes | Contender | %s a call | %s a byte | Ratio | At most |", meter.unit, meter.unit);
    if (with_before) fprintf(to, " %s before | Ratio before |", meter.unit);
    fprintf(to, "\n|---|--:|---|--:|--:|--:|--:|%s\n", with_before ? "--:|--:|" : "");
    for (size_t k = 0; k < count; k++)
        for (size_t i = 0; is_contender(&rows[k], i); i++) write_contender(to, &rows[k], i, with_before);
}

// ---- earlier tables, by their first four columns

static void keep(struct row *r, size_t i, double each, int as_before) {
    double *least = as_before ? &r->before[i] : &r->best[i];
    if (*least == 0 || each < *least) *least = each;
}

// Whether there is such a row.
static int find(struct row *rows, size_t count, const char *operation, size_t bytes, const char *contender, double each, int as_before) {
    for (struct row *r = rows; r < rows + count; r++)
        for (size_t i = 0; r->bytes == bytes && strcmp(r->operation->name, operation) == 0 && is_contender(r, i); i++)
            if (strcmp(r->operation->contenders[i].name, contender) == 0) {
                keep(r, i, each, as_before);
                return 1;
            }
    return 0;
}

size_t read_table(FILE *from, struct row *rows, size_t count, int as_before) {
    char line[400], operation[64], contender[64];
    size_t bytes, found = 0;
    double each;
    while (fgets(line, sizeof line, from))
        if (sscanf(line, "| %63[^|] | %zu | %63[^|] | %lf |", operation, &bytes, contender, &each) == 4) {
            operation[strlen(operation) - 1] = contender[strlen(contender) - 1] = 0; // the space before the bar
            found += (size_t)find(rows, count, operation, bytes, contender, each, as_before);
        }
    return found;
}
