// agree: contenders are seen to agree before they are measured.
// SPDX-License-Identifier: MIT
#include <stdlib.h>
#include <string.h>

#include "measure.h"

void agree(const struct operation *o, size_t n) {
    static uint8_t first_output[sizeof output];
    memset(output, 0, sizeof output);
    uint64_t first = o->contenders[0].run(input, n);
    memcpy(first_output, output, sizeof output);
    for (const struct contender *c = o->contenders + 1; c < o->contenders + MOST_CONTENDERS && c->name; c++) {
        if (!c->run) continue;
        memset(output, 0, sizeof output);
        if (c->run(input, n) != first || memcmp(output, first_output, sizeof output) != 0) {
            fprintf(stderr, "%s: %s of %zu bytes: %s and %s differ\n", meter.tool, o->name, n, c->name, o->contenders[0].name);
            exit(1);
        }
    }
}
