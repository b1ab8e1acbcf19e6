// measure: contenders timed in turns, each by its best turn, after they were seen to agree on the same warm bytes.
// SPDX-License-Identifier: MIT
#define _GNU_SOURCE
#include "measure.h"

#include <sched.h>
#include <time.h>

// Turns of a row; of one whose turns take long, fewer.
enum { TURNS = 75, LEAST_TURNS = 5, LONG = 1000000000 };

const struct meter meter = {"benchmark", "[--runs N] [--before TABLE.md] [--table FILE.md] [--plot FILE.svg] [WORD], or benchmark [--runs N] --page", "ns", 0};

static volatile uint64_t sink;

// Stays on one processor, where the system lets it.
void begin_measuring(void) {
    cpu_set_t one;
    int here = sched_getcpu();
    if (here < 0) return;
    CPU_ZERO(&one);
    CPU_SET((size_t)here, &one);
    if (sched_setaffinity(0, sizeof one, &one) != 0) fprintf(stderr, "benchmark: not kept on one processor\n");
}

static double now(void) {
    struct timespec t;
    clock_gettime(CLOCK_MONOTONIC, &t);
    return (double)t.tv_sec * 1e9 + (double)t.tv_nsec;
}

// Nanoseconds for some calls. The compiler can't take a call out of the loop: it does not know the function.
static double batch(work *run, size_t n, uint64_t calls) {
    work *volatile unknown = run;
    double began = now();
    for (uint64_t i = 0; i < calls; i++) sink = unknown(input, n);
    return now() - began;
}

// As many calls as take some 1 ms, less than a busy machine gives a program at a time.
static uint64_t calls_of(work *run, size_t n) {
    uint64_t calls = 1;
    while (batch(run, n, calls) < 1e6 || batch(run, n, calls) < 1e6) calls *= 2;
    return calls;
}

// Contenders take turns, and the best turn of each counts, so that a busy machine hurts none of them more.
static void take_turn(struct row *r, const uint64_t *calls) {
    for (size_t i = 0; is_contender(r, i); i++) {
        if (calls[i] == 0) continue;
        double each = batch(r->operation->contenders[i].run, r->bytes, calls[i]) / (double)calls[i];
        if (r->best[i] == 0 || each < r->best[i]) r->best[i] = each;
    }
}

void measure(struct row *r) {
    uint64_t calls[MOST_CONTENDERS];
    r->operation->fill(r->bytes);
    agree(r->operation, r->bytes);
    for (size_t i = 0; is_contender(r, i); i++) {
        work *run = r->operation->contenders[i].run;
        calls[i] = run ? calls_of(run, r->bytes) : 0;
    }
    double began = now();
    for (int turn = 0; turn < TURNS && (turn < LEAST_TURNS || now() - began < LONG); turn++) {
        place_state(turn);
        take_turn(r, calls);
    }
}
