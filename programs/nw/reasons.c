// reasons.c: why a message of an index table is the one that a box shows, or is not.
// SPDX-License-Identifier: MIT
#include "reasons.h"
#include <string.h>

static bool lists_code(const struct box *box, const struct body *index, const nw_record *m) {
    uint64_t count = nw_value(nw_message_resource_count(index->s, index->n, m->at, m->length));
    for (uint64_t i = 0; i < count; i++) {
        nw_part own = nw_message_resource(index->s, index->n, m->at, m->length, i);
        if (memcmp(index->s + nw_part_start(own), box->resource, NW_RESOURCE_BYTES) == 0) return true;
    }
    return false;
}

// What stands against a message by itself, or SHOWN.
static enum reason by_itself(const struct box *box, const struct body *index, const nw_record *m) {
    if (!lists_code(box, index, m)) return OTHER_CODES;
    if (m->end <= m->start) return NEVER_ON;
    uint64_t now = nw_value(nw_time_showing(m->start, m->end, box->day, box->second));
    return now == NW_BEFORE ? NOT_BEGUN : now == NW_ENDED ? ENDED : SHOWN;
}

enum reason reason_of(const struct box *box, const struct body *index, const nw_record *m, const nw_record *shown) {
    enum reason own = by_itself(box, index, m);
    if (own != SHOWN || shown == NULL || m->level < shown->level) return own;
    if (m->level > shown->level) return SMALLER_LEVEL;
    if (m->start != shown->start) return m->start > shown->start ? EARLIER_START : SHOWN;
    return m > shown ? STANDS_BEFORE : SHOWN;
}

uint64_t count_on(const struct box *box, const struct body *index, const nw_record *list, uint64_t count) {
    uint64_t on = 0;
    for (uint64_t i = 0; i < count; i++) on += by_itself(box, index, &list[i]) == SHOWN;
    return on;
}
