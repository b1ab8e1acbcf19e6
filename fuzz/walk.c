// The target of nw's walk through a body: its fields stand in a row and are all of the body, and the one that is marked as refused is
// the reader's.
// SPDX-License-Identifier: MIT
#include "trial.h"

#include "../programs/nw/sha256.c"
#include "../programs/nw/walk.c"
#include "../programs/nw/walk_certificate.c"
#include "../programs/nw/walk_configuration.c"
#include "../programs/nw/walk_content.c"
#include "../programs/nw/walk_index.c"
#include "../programs/nw/words.c"

// What a walk has told so far.
struct told {
    size_t bit; // where the next field begins
    size_t place;
    unsigned refusal, depth;
};

static void told_enter(void *own, const struct walk *w, const struct group *g) {
    struct told *t = own;
    must(w->depth == t->depth++ && w->depth < DEEPEST && g->label[0] != '\0');
}

static void told_leave(void *own, const struct walk *w) {
    struct told *t = own;
    must(w->depth == --t->depth);
}

static void told_field(void *own, const struct walk *w, const struct field *f) {
    struct told *t = own;
    size_t end = t->bit + f->bits, at_hand = 8 * (f->at + f->bytes);
    must(8 * f->at + f->bit == t->bit && f->at + f->bytes <= w->body.n);
    must(f->refusal != NW_TAKEN || (end <= at_hand && strlen(f->words) < sizeof w->words));
    must(t->refusal == NW_TAKEN || f->role == UNREAD);
    if (f->refusal != NW_TAKEN) {
        must(t->refusal == NW_TAKEN);
        t->refusal = f->refusal;
        t->place = f->at;
    }
    t->bit = end < at_hand ? end : at_hand;
}

int LLVMFuzzerTestOneInput(const uint8_t *data, size_t size) {
    struct input in = {data, size};
    unsigned kind = NW_CONFIGURATION + (unsigned)take(&in, 1) % 4, extension = (unsigned)take(&in, 2);
    struct clock clock = {now_and_then(&in, 2), (int)upto(&in, 1560) - 720};
    struct body body = {kind, extension, now_and_then(&in, 2) ? NW_AUXILIARY_24 : NW_AUXILIARY_32, NULL, 0};
    uint8_t *s = block_of(in.n);
    if (in.n != 0) memcpy(s, in.s, in.n);
    body.s = s;
    body.n = in.n;
    struct told told = {0};
    nw_answer verdict = body_read(&body);
    unsigned refusal = NW_REFUSAL(verdict) == NW_OTHER_CHECKSUM ? NW_TAKEN : NW_REFUSAL(verdict); // which is no field's
    bool taken = body_walk(&body, clock, (struct visitor){told_enter, told_leave, told_field, &told});
    must(told.bit == 8 * in.n && told.depth == 0 && taken == (refusal == NW_TAKEN) && told.refusal == refusal);
    must(refusal == NW_TAKEN || told.place == NW_PLACE(verdict));
    free(s);
    return 0;
}
