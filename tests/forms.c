// forms: a certificate table put together with the header's form helpers is written as its bytes are by hand, and a form without room is refused.
// SPDX-License-Identifier: MIT
#include <stdio.h>
#include <string.h>

#include "neapwillow.h"

static int failures;

static void expect(int holds, const char *what) {
    if (!holds) {
        printf("not so: %s\n", what);
        failures++;
    }
}

// Two authorization lists, no certificate, a signature of one byte.
static nw_form drill(uint8_t *pool, size_t pool_room, uint64_t *tape, size_t tape_room) {
    nw_form f = nw_form_start(pool, pool_room, tape, tape_room);
    size_t lists = nw_form_list(&f);
    nw_form_thing(&f, lists);
    nw_form_bytes(&f, (const uint8_t *)"ab", 2);
    nw_form_thing(&f, lists);
    nw_form_bytes(&f, NULL, 0);
    nw_form_number(&f, 0);
    nw_form_bytes(&f, (const uint8_t *)"s", 1);
    return f;
}

// By document 01: 8-bit count, each with 16-bit length and data; 8-bit count; 16-bit signature length and signature.
static const uint8_t BODY[] = {2, 0, 2, 'a', 'b', 0, 0, 0, 0, 1, 's'};
enum { POOL = 3, ENTRIES = 8 };

static void written_as_by_hand(void) {
    uint8_t pool[POOL], out[16];
    uint64_t tape[ENTRIES];
    nw_form f = drill(pool, POOL, tape, ENTRIES);
    expect(!f.full && f.pool_bytes == POOL && f.entries == ENTRIES, "the form takes 3 bytes and 8 entries");
    memset(out, 0x5a, sizeof out);
    nw_answer answer = nw_certificate_write(f.pool, f.pool_bytes, f.tape, f.entries, out, sizeof out);
    expect(NW_REFUSAL(answer) == NW_TAKEN && nw_value(answer) == sizeof BODY, "it is written");
    expect(memcmp(out, BODY, sizeof BODY) == 0 && out[sizeof BODY] == 0x5a, "with the bytes made by hand, and none after them");
}

// Without its last byte of pool or its last entry the form is empty, nothing beside the arrays changes, and a writer refuses it.
static void refused_without_room(size_t pool_room, size_t tape_room) {
    uint8_t pool[POOL + 1], out[16], before[16];
    uint64_t tape[ENTRIES + 1];
    pool[pool_room] = 0xa5;
    tape[tape_room] = 0xa5;
    nw_form f = drill(pool, pool_room, tape, tape_room);
    expect(f.full && f.entries == 0, "a form without room has no entries");
    expect(pool[pool_room] == 0xa5 && tape[tape_room] == 0xa5, "nothing is put past the arrays");
    memset(out, 0x5a, sizeof out);
    memcpy(before, out, sizeof out);
    nw_answer answer = nw_certificate_write(f.pool, f.pool_bytes, f.tape, f.entries, out, sizeof out);
    expect(answer.packed == NW_OUTSIDE_SET && memcmp(out, before, sizeof out) == 0, "it is 19, and nothing is written");
}

int main(void) {
    written_as_by_hand();
    for (size_t room = 0; room < POOL; room++)
        refused_without_room(room, ENTRIES);
    for (size_t room = 0; room < ENTRIES; room++)
        refused_without_room(POOL, room);
    puts(failures ? "forms: not as they should be" : "forms: as made by hand, and refused without room");
    return failures != 0;
}
