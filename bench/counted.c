// counted: takes measure.c's place where instructions are counted, under qemu with the plugin of counter.c, whose file COUNTER names.
// SPDX-License-Identifier: MIT
#define _POSIX_C_SOURCE 200809L
#include <fcntl.h>
#include <stdlib.h>
#include <sys/mman.h>
#include <unistd.h>

#include "measure.h"

const struct meter meter = {"counted", "[--processor NAME] [WORD], or counted [--processor NAME] --page", "instructions", 1};

static const volatile uint64_t *counter;
static volatile uint64_t sink;

void begin_measuring(void) {
    const char *path = getenv("COUNTER");
    int file = path ? open(path, O_RDONLY) : -1;
    void *begin = file < 0 ? MAP_FAILED : mmap(NULL, sizeof *counter, PROT_READ, MAP_SHARED, file, 0);
    if (begin == MAP_FAILED) {
        fprintf(stderr, "counted: COUNTER names no file of the counter's\n");
        exit(2);
    }
    close(file);
    counter = begin;
}

// A block counts as soon as it begins: so what reads the number is a function, and begins one.
static __attribute__((noipa)) uint64_t executed(void) { return *counter; }

// A function that the compiler can't make another of for some contender: what is executed around a call is the same for each.
static __attribute__((noipa)) uint64_t with_the_call(work *run, size_t n) {
    uint64_t began = executed();
    sink = run(input, n);
    return executed() - began;
}

// One instruction, the return.
static uint64_t nothing(const uint8_t *s, size_t n) {
    (void)n;
    return (uintptr_t)s;
}

// Contenders ran when they were seen to agree, so they are warm. One call tells all: the next takes as many, and so does one in another run with the same
// words. With other words the stack begins elsewhere, and memset may take some 8 instructions more or less to reach its even places.
void measure(struct row *r) {
    r->operation->fill(r->bytes);
    agree(r->operation, r->bytes);
    for (size_t i = 0; is_contender(r, i); i++) {
        work *run = r->operation->contenders[i].run;
        if (run) r->best[i] = (double)(with_the_call(run, r->bytes) - with_the_call(nothing, r->bytes));
    }
}
