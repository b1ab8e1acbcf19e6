// tables.c: the sections of a capture gathered into tables, each by the library's gathering; what came of them is kept.
// SPDX-License-Identifier: MIT
#include "tables.h"
#include "content.h"
#include <stdlib.h>
#include <string.h>

// ---- feeding

// The table of a kind and an extension, or else a new one; NULL where there is no room for it.
static struct table *table_of(struct tables *all, nw_heading heading, bool *full) {
    for (size_t i = 0; i < all->count; i++) {
        struct table *t = &all->list[i];
        if (t->state.kind == nw_heading_kind(heading) && t->state.extension == nw_heading_extension(heading)) return t;
    }
    *full = all->count == MOST_TABLES;
    if (*full) return NULL;
    if (all->count == all->room) {
        size_t room = all->room + 16;
        struct table *more = realloc(all->list, room * sizeof *more);
        if (more == NULL) return NULL;
        all->list = more;
        all->room = room;
    }
    all->list[all->count] = (struct table){0};
    return &all->list[all->count];
}

// Room in the store for the table of a section, which may be newer and longer than what is held.
static bool make_room(struct table *t, nw_heading heading) {
    size_t bytes = NW_STORE_BYTES(nw_heading_last(heading));
    if (bytes <= t->store_bytes) return true;
    uint8_t *more = realloc(t->store, bytes);
    if (more == NULL) return false;
    t->store = more;
    t->store_bytes = bytes;
    return true;
}

static void note_given_up(struct table *t, const nw_gathering *old) {
    if (t->given_up >= MOST_VERSIONS) memmove(t->versions, t->versions + 1, (MOST_VERSIONS - 1) * sizeof *t->versions);
    size_t at = t->given_up < MOST_VERSIONS ? t->given_up : MOST_VERSIONS - 1;
    t->versions[at] = (struct version){old->version, old->last + 1u - old->missing, old->last + 1u, old->spoiled != 0};
    t->given_up++;
}

// What becomes of a section that a table is fed.
static enum outcome feed(struct table *t, const uint8_t *s, size_t n, nw_heading heading, unsigned *refusal) {
    nw_gathering before = t->state;
    nw_answer fed = make_room(t, heading) ? nw_gathering_feed(&t->state, t->store, t->store_bytes, s, n)
                                          : (nw_answer){NW_STORE_TOO_SHORT};
    *refusal = NW_REFUSAL(fed);
    if (*refusal != NW_TAKEN) {
        t->refused++;
        return NOT_TAKEN;
    }
    if (nw_value(fed) == NW_FED_HELD_ALREADY) {
        t->repeats++;
        return HELD;
    }
    if (before.kind == 0 || before.version == t->state.version) return TOOK;
    note_given_up(t, &before);
    return TOOK_OVER;
}

struct arrival tables_feed(struct tables *all, uint64_t at, const uint8_t *s, size_t n, nw_heading heading) {
    bool full = false;
    struct arrival a = {at, heading, ONE_TABLE_TOO_MANY, NW_STORE_TOO_SHORT, NULL};
    struct table *t = table_of(all, heading, &full);
    if (t == NULL) {
        if (!full) a.outcome = NOT_TAKEN;
        all->left_out++;
        return a;
    }
    a.outcome = feed(t, s, n, heading, &a.refusal);
    all->left_out += a.refusal == NW_STORE_TOO_SHORT;
    bool begins = t == all->list + all->count;
    if (begins && t->state.kind == 0) { // its first section is not taken: there is no table yet
        free(t->store);
        t->store = NULL;
        return a;
    }
    if (begins) all->count++;
    a.table = t;
    return a;
}

// ---- bodies

// Moves the payloads before a number together at the front of the store. Answers how many bytes they are. Of a whole table the
// library does it; it offers nothing for a part of one.
static size_t join_front(const nw_gathering *g, uint8_t *store, size_t number) {
    size_t to = 0;
    for (size_t i = 0; i < number; i++) {
        size_t n = g->held[i] - 1u;
        memmove(store + to, store + i * NW_MOST_PAYLOAD, n);
        to += n;
    }
    return to;
}

// The body stands at the front of the store; what the state was is kept.
static void pack(struct table *t, unsigned variant) {
    nw_gathering state = t->state;
    t->packed = nw_gathering_pack(&state, t->store, t->store_bytes);
    t->whole = NW_REFUSAL(t->packed) == NW_TAKEN;
    t->body = (struct body){t->state.kind, t->state.extension, variant, t->store, (size_t)nw_value(t->packed)};
    if (!t->whole) t->body.n = t->state.spoiled ? 0 : join_front(&t->state, t->store, (size_t)NW_PLACE(t->packed));
    t->verdict = body_read(&t->body);
}

// By kind, index and content first; tables of one kind as they came, which their places in the list tell.
static unsigned rank(const struct table *t) {
    static const unsigned ranks[] = {3, 2, 0, 1};
    return ranks[t->state.kind - NW_CONFIGURATION];
}

static bool put_in_order(struct tables *all) {
    struct table *sorted = malloc((all->count + 1) * sizeof *sorted);
    size_t n = 0;
    if (sorted == NULL) return false;
    for (unsigned r = 0; r < 4; r++)
        for (size_t i = 0; i < all->count; i++)
            if (rank(&all->list[i]) == r) sorted[n++] = all->list[i];
    free(all->list);
    all->list = sorted;
    return true;
}

bool is_good(const struct table *t) { return t->whole && NW_REFUSAL(t->verdict) == NW_TAKEN; }

// ---- which message a content table belongs to

uint64_t message_count(const struct table *index) {
    nw_answer count = nw_index_message_count(index->body.s, index->body.n);
    return index->whole && NW_REFUSAL(count) == NW_TAKEN ? nw_value(count) : 0;
}

static struct message_key find_key(const struct table *index, uint64_t i) {
    const struct body *b = &index->body;
    nw_part part = nw_index_message(b->s, b->n, i);
    nw_part own = nw_message_identifier(b->s, b->n, nw_part_start(part), nw_part_length(part));
    nw_answer extension = nw_message_extension(b->s, b->n, nw_part_start(part), nw_part_length(part));
    bool known = NW_REFUSAL(part) == NW_TAKEN && NW_REFUSAL(own) == NW_TAKEN && NW_REFUSAL(extension) == NW_TAKEN;
    return known ? (struct message_key){(unsigned)nw_value(extension), b->s + nw_part_start(own)} : (struct message_key){0, NULL};
}

// Each key is looked for once: to find a message the library goes over all that stand before it.
static void keep_keys(struct table *index) {
    uint64_t count = message_count(index);
    index->keys = malloc((size_t)count * sizeof *index->keys);
    for (uint64_t i = 0; index->keys != NULL && i < count; i++) index->keys[i] = find_key(index, i);
}

static struct message_key key_of(const struct table *index, uint64_t i) { return index->keys != NULL ? index->keys[i] : find_key(index, i); }

bool message_extension(const struct table *index, uint64_t i, unsigned *extension) {
    struct message_key key = key_of(index, i);
    *extension = key.extension;
    return key.identifier != NULL;
}

static bool belongs(const struct table *index, uint64_t i, const struct table *content) {
    struct message_key key = key_of(index, i);
    if (key.identifier == NULL || key.extension != content->state.extension || !content->whole) return false;
    const uint8_t *its = content_identifier(&content->body);
    return its != NULL && memcmp(key.identifier, its, NW_IDENTIFIER_BYTES) == 0;
}

const struct table *content_of(const struct tables *all, const struct table *index, uint64_t message) {
    for (size_t i = 0; i < all->count; i++)
        if (all->list[i].state.kind == NW_CONTENT && belongs(index, message, &all->list[i])) return &all->list[i];
    return NULL;
}

const struct table *index_of(const struct tables *all, const struct table *content, uint64_t *message) {
    for (size_t i = 0; i < all->count; i++) {
        const struct table *t = &all->list[i];
        uint64_t count = t->state.kind == NW_INDEX ? message_count(t) : 0;
        for (*message = 0; *message < count; ++*message)
            if (belongs(t, *message, content)) return t;
    }
    return NULL;
}

// ---- the end of the capture

void tables_finish(struct tables *all, unsigned variant) {
    for (size_t i = 0; i < all->count; i++) {
        pack(&all->list[i], variant);
        if (all->list[i].state.kind == NW_INDEX) keep_keys(&all->list[i]);
    }
    put_in_order(all); // where there is no memory, they stay as they came
}

void tables_free(struct tables *all) {
    for (size_t i = 0; i < all->count; i++) {
        free(all->list[i].store);
        free(all->list[i].keys);
    }
    free(all->list);
}
