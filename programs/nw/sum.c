// sum.c: what came of a capture, all in all, counted.
// SPDX-License-Identifier: MIT
#include "sum.h"

void sum_arrival(struct sum *s, const struct arrival *a) {
    if (a->outcome == TOOK || a->outcome == TOOK_OVER) s->taken++;
    else if (a->outcome == HELD) s->held++;
    else s->refused++;
}

static void sum_table(struct sum *s, const struct tables *all, const struct table *t) {
    if (!t->whole) return;
    uint64_t message;
    s->whole++;
    s->accepted += is_good(t);
    if (t->state.kind == NW_CONTENT) s->contents_without_message += index_of(all, t, &message) == NULL;
    for (uint64_t i = 0; t->state.kind == NW_INDEX && i < message_count(t); i++) s->messages_without_content += content_of(all, t, i) == NULL;
}

void sum_tables(struct sum *s, const struct tables *all) {
    for (size_t i = 0; i < all->count; i++) sum_table(s, all, &all->list[i]);
}

bool is_faultless(const struct sum *s, const struct tables *all) {
    return all->count != 0 && s->accepted == all->count && s->refused == 0 && s->skipped == 0 && s->losses == 0 &&
           s->messages_without_content == 0 && s->contents_without_message == 0;
}
