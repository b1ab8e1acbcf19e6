// whole: the whole header against plain C, on many inputs made by chance: long and short, valid and damaged.
// SPDX-License-Identifier: MIT
#define _DEFAULT_SOURCE
#include <inttypes.h>
#include <signal.h>
#include <stdio.h>
#include <stdlib.h>
#include <string.h>
#include <sys/mman.h>
#include <unistd.h>

#include "whole.h"

enum { REFUSALS = 64 };  // room for each number, whichever the list has

#define NAMED(name, refusals) {#name, refusals},
static const struct { const char *name, *refusals; } functions[] = {FUNCTIONS(NAMED)};
static uint64_t answered[COUNT_OF_FUNCTIONS][REFUSALS];
int trying;

// ---- chance

uint64_t chance(void) {
    static uint64_t state = 862018;
    state ^= state << 13;
    state ^= state >> 7;
    state ^= state << 17;
    return state * UINT64_C(0x2545F4914F6CDD1D) >> 8 ^ state << 56;
}

uint64_t below(uint64_t n) { return (chance() >> 8 & 0xFFFFFFFF) * n >> 32; }
int one_in(uint64_t n) { return below(n) == 0; }

uint64_t around(uint64_t x) {
    switch (below(16)) {
    case 0: return x + 1;
    case 1: return x - 1;
    case 2: return x + below(20);
    case 3: return x - below(20);
    case 4: return below(300);
    case 5: return UINT64_MAX - below(3);
    case 6: return chance() >> below(64);
    default: return x;
    }
}

const uint8_t *noise(void) {
    static uint8_t bytes[MOST_LENT];
    static int filled;
    for (size_t i = 0; !filled && i < sizeof bytes; i++) bytes[i] = (uint8_t)chance();
    filled = 1;
    return bytes;
}

// Bytes that lengths, counts and reserved bits like to have, among others.
static uint8_t telling_byte(void) {
    static const uint8_t telling[] = {0, 1, 2, 3, 4, 5, 7, 0x0F, 0x7F, 0x80, 0xF0, 0xF1, 0xFE, 0xFF};
    return one_in(2) ? telling[below(sizeof telling)] : (uint8_t)chance();
}

void damage(uint8_t *s, size_t *n, size_t room) {
    for (uint64_t left = 1 + below(2); left > 0; left--) {
        size_t at = below(*n + 1), some = 1 + below(one_in(4) ? 40 : 3);
        switch (below(6)) {
        case 0: *n = at; break;
        case 1:
            if (*n + some > room) break;
            memmove(s + at + some, s + at, *n - at);
            for (size_t i = 0; i < some; i++) s[at + i] = telling_byte();
            *n += some;
            break;
        case 2:
            if (some > *n - at) break;
            memmove(s + at, s + at + some, *n - at - some);
            *n -= some;
            break;
        case 3: if (at < *n) s[at] = (uint8_t)(s[at] + 2 - below(5)); break;
        case 4: if (at < *n) s[at] ^= (uint8_t)(1 << below(8)); break;
        default: if (at < *n) s[at] = telling_byte();
        }
    }
}

// ---- memory lent

enum { GUARD = 64, GUARD_BYTE = 0xA5 };

struct box input, tape_input, output_library, output_plain, state_library, state_plain;

static void make(struct box *b) {
    size_t page = (size_t)sysconf(_SC_PAGESIZE), all = MOST_LENT + 2 * page;
    uint8_t *low = mmap(NULL, all, PROT_NONE, MAP_PRIVATE | MAP_ANONYMOUS, -1, 0);
    if (low == MAP_FAILED || mprotect(low + page, MOST_LENT, PROT_READ | PROT_WRITE) != 0) abort();
    b->low = low + page;
}

// The bytes that must stay, after or before what is lent.
static uint8_t *guard_of(const struct box *b) { return b->at == b->low ? b->at + b->n : b->at - GUARD; }

void *lend_at(struct box *b, const void *from, size_t n, bool high) {
    if (n > MOST_LENT - GUARD) abort();
    b->n = n;
    b->at = high ? b->low + MOST_LENT - n : b->low;
    if (n > 0) memcpy(b->at, from, n);
    memset(guard_of(b), GUARD_BYTE, GUARD);
    return b->at;
}

void *lend(struct box *b, const void *from, size_t n) { return lend_at(b, from, n, one_in(2)); }

void unchanged(const struct box *b, const void *from) {
    static uint8_t guard[GUARD];
    memset(guard, GUARD_BYTE, GUARD);
    if (memcmp(guard_of(b), guard, GUARD) != 0) wrong("a byte beside what was lent has changed");
    if (from && memcmp(b->at, from, b->n) != 0) wrong("a byte that should stay has changed");
}

// ---- answers compared

void wrong(const char *what) {
    printf("whole: %s: %s; the input of %zu bytes begins", functions[trying].name, what, input.n);
    for (size_t i = 0; i < input.n && i < 400; i++) printf(" %02X", input.at[i]);
    puts("");
    exit(1);
}

plain_answer same(plain_answer library, plain_answer plain) {
    char what[120];
    if (library == plain && refusal_of(plain) < REFUSALS) {
        answered[trying][refusal_of(plain)]++;
        return library;
    }
    snprintf(what, sizeof what, "the library answers %u, %#" PRIx64 ", plain C %u, %#" PRIx64, refusal_of(library),
             value_of(library), refusal_of(plain), value_of(plain));
    wrong(what);
    return library;
}

void lend_outputs(size_t bytes) {
    lend(&output_library, noise(), bytes);
    lend(&output_plain, noise(), bytes);
}

plain_answer same_outputs(plain_answer library, plain_answer plain) {
    same(library, plain);
    unchanged(&output_plain, refusal_of(plain) ? noise() : NULL);
    unchanged(&output_library, output_plain.at);
    return library;
}

// ---- numbers

static void try_version(void) {
    trying = F_version;
    same((plain_answer)nw_version() << 8, (plain_answer)plain_version() << 8);
}

static void try_checksums(void) {
    for (size_t i = 0; i < 12000; i++) {
        size_t n = i % 1200, from = below(1000);
        if (one_in(1000)) n = below(MOST_LENT / 2);
        const uint8_t *s = lend(&input, noise() + from, n);
        trying = F_crc32;
        same((plain_answer)nw_crc32(s, n) << 8, (plain_answer)plain_crc32(s, n) << 8);
        trying = F_crc16;
        same((plain_answer)nw_crc16(s, n) << 8, (plain_answer)plain_crc16(s, n) << 8);
        unchanged(&input, noise() + from);
    }
}

static void try_days(void) {
    for (uint32_t year = 1890; year < 2050; year++)
        for (uint32_t month = 0; month < 15; month++)
            for (uint32_t day = 0; day < 34; day++) TRY(day_of, year, month, day);
    for (uint32_t day = 0; day < 70000; day++) {
        TRY(date_of, day);
        TRY(weekday, day);
        uint32_t any = (uint32_t)chance() >> below(32), year = (uint32_t)around(1900 + below(139));
        uint32_t month = (uint32_t)around(1 + below(12)), date = (uint32_t)around(1 + below(31));
        TRY(date_of, any);
        TRY(weekday, any);
        TRY(day_of, year, month, date);
    }
}

// An offset, a day or a field of a time that is mostly good, and often at an end of its range.
static int32_t some_offset(void) {
    static const int32_t ends[] = {-721, -720, -719, 0, 480, 839, 840, 841, INT32_MIN, INT32_MAX};
    return one_in(4) ? ends[below(10)] : (int32_t)below(1600) - 740;
}

static uint32_t some_day(void) {
    static const uint32_t ends[] = {0, 15078, 15079, 15080, 65534, 65535, 65536};
    return one_in(4) ? ends[below(7)] : 15079 + (uint32_t)below(50457);
}

static uint64_t some_field(void) {
    static const uint64_t times[] = {0,        0x120000, 0x235900, 0x235959, 0x235960,
                                     0x240000, 0x006000, 0x0A0000, 0x00000A};
    uint64_t field = (uint64_t)some_day() << 24, of_day = below(86400);
    if (one_in(20)) return one_in(2) ? NW_LIVE : chance() >> below(64);
    if (one_in(4)) return field | times[below(9)];
    for (unsigned shift = 0; shift < 24; shift += 8, of_day /= 60)
        field |= (of_day % 60 / 10 << 4 | of_day % 60 % 10) << shift;
    return one_in(10) ? field ^ UINT64_C(1) << below(42) : field;
}

// A local time in text, mostly of the form: how many characters.
static size_t some_text(char text[40]) {
    unsigned day = (unsigned)below(33), month = (unsigned)below(14), year = 1899 + (unsigned)below(141);
    unsigned hour = (unsigned)below(25), minute = (unsigned)below(61), second = (unsigned)below(61);
    size_t n = (size_t)snprintf(text, 40, "%02u/%02u/%04u %02u:%02u:%02u", day % 100, month % 100,
                                year % 10000, hour % 100, minute % 100, second % 100);
    if (one_in(3)) damage((uint8_t *)text, &n, 40);
    if (one_in(4)) text[below(19)] = "0123456789/: "[below(13)];
    return n;
}

static void try_text(void) {
    char text[40] = {0}, end[40] = {0};
    size_t n = some_text(text), m = some_text(end), fields = 2 * sizeof(uint64_t);
    const uint8_t *s = lend(&input, text, n), *e = lend(&tape_input, end, m);
    int32_t offset = some_offset();
    TRY(time_read_text, s, n, offset);
    uint32_t live = one_in(3) ? (uint32_t)around(1) : 0;
    trying = F_times_read_text;
    lend_at(&output_library, noise(), fields, true);
    lend_at(&output_plain, noise(), fields, true);
    same_outputs(nw_times_read_text(s, n, e, m, live, offset, (void *)output_library.at).packed,
                 plain_times_read_text(s, n, e, m, live, offset, (void *)output_plain.at));
    unchanged(&input, text);
    unchanged(&tape_input, end);
}

static void try_times(void) {
    for (size_t i = 0; i < 500000; i++) {
        uint32_t day = some_day(), hour = (uint32_t)around(below(24)), minute = (uint32_t)around(below(60));
        uint32_t second = (uint32_t)around(below(60)), of_day = (uint32_t)around(below(86401));
        int32_t offset = some_offset();
        plain_answer date = TRY(date_of, day);
        TRY(time_pack, date_year(date), date_month(date), date_day(date), hour, minute, second, offset);
        uint64_t start = some_field(), end = one_in(2) ? start + below(3) : some_field();
        TRY(time_unpack, start, offset);
        size_t room = one_in(4) ? below(24) : NW_TIME_TEXT + below(3);
        uint64_t until = one_in(8) ? NW_LIVE : end;
        TRY_OUTPUT(time_print_start, room, 1, start, offset);
        TRY_OUTPUT(time_print_end, room, 1, until, offset);
        if (one_in(2)) day = (uint32_t)(start >> 24);
        TRY(time_showing, start, end, day, of_day);
        try_text();
    }
}

// ---- sections

// A section, good or nearly so.
static size_t some_section(uint8_t *s, struct plain_heading h) {
    size_t n = one_in(8) ? below(NW_MOST_PAYLOAD + 1) : below(60);
    if (one_in(30)) n = NW_MOST_PAYLOAD - below(2);
    plain_section_put(s, &h, noise() + below(1000), n);
    n += 12;
    if (!one_in(3)) return n;
    damage(s, &n, NW_MOST_SECTION + 40);
    if (n >= 12 && one_in(2)) { // its length and its check made good again
        s[1] = (uint8_t)((s[1] & 0xF0) | (n - 3) >> 8);
        s[2] = (uint8_t)(n - 3);
        uint32_t check = plain_crc32(s, n - 4);
        for (size_t i = 0; i < 4; i++) s[n - 4 + i] = (uint8_t)(check >> (24 - 8 * i));
    }
    return n;
}

static struct plain_heading some_heading(uint32_t last) {
    return (struct plain_heading){0xFB + (uint32_t)below(4), (uint32_t)below(65536), (uint32_t)below(32), !one_in(20),
                                  (uint32_t)below(last + 1), last};
}

static void try_sections(void) {
    static uint8_t bytes[NW_MOST_SECTION + 50];
    for (size_t i = 0; i < 200000; i++) {
        size_t n = one_in(20) ? below(sizeof bytes) : some_section(bytes, some_heading((uint32_t)below(256)));
        const uint8_t *s = lend(&input, bytes, n);
        TRY(section_read, s, n);
        TRY(section_length, s, n);
        unchanged(&input, bytes);
        size_t length = i < 10000 ? i : around(one_in(2) ? NW_MOST_BODY : below(256) * NW_MOST_PAYLOAD);
        TRY(section_count, length);
    }
}

// Bytes cut as the section of some number, with an output of about the size that it needs.
static void try_cut(size_t n) {
    const uint8_t *body = lend(&input, noise(), n);
    uint32_t kind = one_in(10) ? (uint32_t)around(0xFF) : 0xFB + (uint32_t)below(4);
    uint32_t extension = one_in(20) ? (uint32_t)around(65536) : (uint32_t)below(65536);
    uint32_t version = one_in(10) ? (uint32_t)around(32) : (uint32_t)below(32);
    uint32_t number = (uint32_t)(one_in(2) ? around(n / NW_MOST_PAYLOAD) : below(n / NW_MOST_PAYLOAD + 1));
    size_t length = n - number * (size_t)NW_MOST_PAYLOAD;
    if (length > NW_MOST_PAYLOAD) length = NW_MOST_PAYLOAD;
    size_t room = one_in(4) ? below(5000) : length + 10 + below(5);
    TRY_OUTPUT(section_cut, room, 1, body, n, kind, extension, version, number);
    unchanged(&input, noise());
}

static void try_cutting(void) {
    for (size_t n = 0; n < 20000; n++) try_cut(n % 2 ? below(5) * NW_MOST_PAYLOAD + below(9) : n);
    for (size_t i = 0; i < 100; i++) try_cut(NW_MOST_BODY - 5 + i % 10);
}

// ---- damaged captures

// Sections and junk, some of them damaged: a capture; answers its length.
static size_t some_capture(uint8_t *s, size_t most) {
    size_t n = 0;
    while (n + NW_MOST_SECTION + 50 < most && !one_in(12)) {
        if (one_in(5))
            for (uint64_t left = below(30); left > 0; left--) s[n++] = (uint8_t)(one_in(3) ? 0xFB + below(4) : chance());
        else n += some_section(s + n, some_heading((uint32_t)below(256)));
        if (one_in(4)) damage(s, &n, most);
    }
    return n;
}

// A capture salvaged, with an output and a list of about the sizes that it needs, or of those that are always enough.
static void try_capture(const uint8_t *bytes, size_t n) {
    static uint8_t kept[NW_MOST_CAPTURE];
    static uint32_t list[NW_SALVAGE_NUMBERS(NW_MOST_CAPTURE)];
    const uint8_t *s = lend(&input, bytes, n);
    plain_answer needs = plain_salvage(s, n, kept, sizeof kept, list, sizeof list / sizeof list[0]);
    bool much = one_in(3);
    size_t room = much ? NW_SALVAGE_BYTES(n) : (value_of(needs) & 0xFFFFFF) + (one_in(2) ? 0 : below(3));
    size_t numbers = much ? NW_SALVAGE_NUMBERS(n) : 3 * (value_of(needs) >> 24) + (one_in(2) ? 0 : below(3));
    if (room > 0 && one_in(6)) room--;
    if (numbers > 0 && one_in(6)) numbers--;
    lend_outputs(room);
    lend(&state_library, noise(), numbers * sizeof(uint32_t));
    lend(&state_plain, noise(), numbers * sizeof(uint32_t));
    trying = F_salvage;
    plain_answer got = same_outputs(
        nw_salvage(s, n, output_library.at, room, (uint32_t *)(void *)state_library.at, numbers).packed,
        plain_salvage(s, n, output_plain.at, room, (uint32_t *)(void *)state_plain.at, numbers));
    unchanged(&state_library, refusal_of(got) ? noise() : state_plain.at);
    unchanged(&input, bytes);
}

static void try_salvaging(void) {
    static uint8_t bytes[NW_MOST_CAPTURE + 5000];
    for (size_t i = 0; i < 8000; i++) try_capture(bytes, some_capture(bytes, one_in(50) ? sizeof bytes : 12000));
    for (size_t i = 0; i < 10; i++) try_capture(noise(), NW_MOST_CAPTURE - 5 + i);
}

// ---- the gathering

// What both gatherings have.
static nw_gathering state;
static uint8_t store[256 * NW_MOST_PAYLOAD];

// Two gatherings in the same state and with the same store; these are lent at their low ends or at their high ones.
static void lend_gatherings(size_t store_bytes, bool high) {
    lend(&state_library, &state, sizeof state);
    lend(&state_plain, &state, sizeof state);
    lend_at(&output_library, store, store_bytes, high);
    lend_at(&output_plain, store, store_bytes, high);
}

// Both have become the same, with nothing changed by a refused call but that a contradiction spoils.
static void same_gatherings(plain_answer got) {
    nw_gathering before = state;
    before.spoiled = trying == F_gathering_feed && refusal_of(got) == NW_CONTRADICTION ? 1 : before.spoiled;
    unchanged(&output_plain, refusal_of(got) ? store : NULL);
    unchanged(&output_library, output_plain.at);
    unchanged(&state_library, state_plain.at);
    unchanged(&state_plain, refusal_of(got) ? &before : NULL);
}

// All goes on from what they have become.
static void go_on(size_t store_bytes) {
    memcpy(&state, state_plain.at, sizeof state);
    memcpy(store, output_plain.at, store_bytes);
}

static void feed(const uint8_t *section, size_t n, size_t store_bytes) {
    const uint8_t *s = lend(&input, section, n);
    lend_gatherings(store_bytes, one_in(2));
    trying = F_gathering_feed;
    plain_answer got = same(nw_gathering_feed((void *)state_library.at, output_library.at, store_bytes, s, n).packed,
                            plain_gathering_feed((void *)state_plain.at, output_plain.at, store_bytes, s, n));
    unchanged(&input, section);
    same_gatherings(got);
    go_on(store_bytes);
}

// Packs the store, first with memory before it that nobody may touch, then with such memory behind it.
static void pack(size_t store_bytes) {
    trying = F_gathering_pack;
    for (int high = 0; high < 2; high++) {
        lend_gatherings(store_bytes, high);
        same_gatherings(same(nw_gathering_pack((void *)state_library.at, output_library.at, store_bytes).packed,
                             plain_gathering_pack((void *)state_plain.at, output_plain.at, store_bytes)));
    }
    go_on(store_bytes);
}

static void hand_out(size_t store_bytes) {
    size_t length = 0;
    for (size_t k = 0; k < 256; k++) length += state.held[k] ? state.held[k] - 1u : 0;
    size_t room = one_in(3) ? length + 2 - below(4) : length + below(100);
    if (room > MOST_LENT / 2) room = length > MOST_LENT / 2 ? 0 : length;
    const nw_gathering *g = lend(&state_library, &state, sizeof state);
    const uint8_t *s = lend(&input, store, store_bytes);
    TRY_OUTPUT(gathering_hand_out, room, 1, g, s, store_bytes);
    unchanged(&state_library, &state);
    unchanged(&input, store);
}

// A held length that is perhaps too long, and counted.
static void lengthen_held(void) {
    uint16_t *held = &state.held[below(state.last + 1u)], longer = (uint16_t)(4083 + below(5));
    state.missing = (uint16_t)(state.missing - (*held == 0 && state.kind != 0));
    state.bytes += longer - 1u - (*held ? *held - 1u : 0);
    *held = longer;
}

// A state that is perhaps not possible.
static void damage_state(void) {
    uint8_t *bytes = (uint8_t *)&state;
    switch (below(7)) {
    case 0: bytes[below(14)] = (uint8_t)chance(); break;
    case 1: lengthen_held(); break;
    case 5: state.missing = (uint16_t)(state.missing + 1 - below(3)); break;
    case 6: state.bytes += 1 - (uint32_t)below(3); break;
    case 2: state.kind = (uint8_t)(0xFA + below(6)); break;
    case 3: memset(&state, 0, sizeof state); state.spoiled = (uint8_t)below(3); break;
    default: bytes[below(sizeof state)] ^= (uint8_t)(1 << below(8));
    }
}

// A section of the table, or perhaps of another one, or damaged.
static size_t fed_section(uint8_t *s, const struct plain_heading *table) {
    struct plain_heading h = one_in(20) ? some_heading(table->last) : *table;
    h.number = (uint32_t)below(table->last + 1);
    h.current = !one_in(30);
    if (one_in(60)) h.version = (h.version + 1) % 32;
    if (one_in(60)) h.last = (uint32_t)below(256);
    if (one_in(6)) return some_section(s, h);
    size_t n = h.number % 40 + (table->last > 200 ? 4000 : 0);
    plain_section_put(s, &h, noise() + h.number, n);
    if (one_in(12)) s[below(n + 12)] ^= 1;
    return n + 12;
}

// One table's sections fed by chance, others and damaged ones among them.
static void try_table_fed(uint32_t last, size_t feeds) {
    static uint8_t s[NW_MOST_SECTION + 50];
    struct plain_heading table = some_heading(last);
    memset(&state, 0, sizeof state);
    memcpy(store, noise(), NW_STORE_BYTES(last));
    for (size_t i = 0; i < feeds; i++) {
        size_t room = NW_STORE_BYTES(last) - (one_in(20) ? 1 + below(50) : 0);
        feed(s, fed_section(s, &table), room);
        if (one_in(4) || i + 1 == feeds) hand_out(room);
        if (one_in(12) || i + 1 == feeds) pack(room);
        if (state.spoiled && one_in(3)) memset(&state, 0, sizeof state);
        if (one_in(100)) damage_state();
    }
}

// A table of 256 payloads of n bytes each: the longest body of all, or one that is packed by moves that overlap.
static void try_longest(size_t n) {
    static uint8_t s[NW_MOST_SECTION];
    memset(&state, 0, sizeof state);
    for (uint32_t i = 0; i < 256; i++) {
        struct plain_heading h = {NW_INDEX, 0x0C29, 17, 1, i * 77 % 256, 255};
        plain_section_put(s, &h, noise() + i, n);
        feed(s, n + 12, sizeof store);
        if (i % 64 == 63) hand_out(sizeof store);
    }
    for (int i = 0; i < 8; i++) hand_out(sizeof store - (size_t)(i == 3));
    pack(sizeof store - 1);
    pack(sizeof store);
}

static void try_gathering(void) {
    for (size_t i = 0; i < 6000; i++) try_table_fed((uint32_t)below(one_in(20) ? 12 : 4), 30);
    for (size_t i = 0; i < 2; i++) try_table_fed(255 - (uint32_t)below(2), 300);
    try_longest(NW_MOST_PAYLOAD);
    try_longest(NW_MOST_PAYLOAD - 1);
}

// ---- what was met

static void end_on_signal(int number) {
    static const char text[] = "whole: memory beside what was lent was touched by ";
    const char *name = functions[trying].name;
    (void)!write(1, text, sizeof text - 1);
    (void)!write(1, name, strlen(name));
    (void)!write(1, "\n", 1);
    _exit(128 + number);
}

// Whether a function gave the refusals that it can give, no other one, and was accepted.
static int met(size_t f) {
    uint64_t expected = 1, seen = 0;
    char *end;
    for (const char *p = functions[f].refusals; *p; p = end) expected |= UINT64_C(1) << strtoul(p, &end, 10);
    for (unsigned number = 0; number < REFUSALS; number++) seen |= (uint64_t)(answered[f][number] > 0) << number;
    for (unsigned number = 0; number < REFUSALS; number++)
        if ((seen ^ expected) >> number & 1)
            printf("whole: %s: %u was %s\n", functions[f].name, number,
                   seen >> number & 1 ? "not expected" : "never met");
    return seen == expected;
}

static void show(size_t f) {
    printf("%-32s", functions[f].name);
    for (unsigned number = 0; number < REFUSALS; number++)
        if (answered[f][number]) printf(" %u:%" PRIu64, number, answered[f][number]);
    puts("");
}

// With a word, it shows how often each function gave each answer.
int main(int count, char **words) {
    (void)words;
    struct box *boxes[] = {&input, &tape_input, &output_library, &output_plain, &state_library, &state_plain};
    for (size_t i = 0; i < sizeof boxes / sizeof boxes[0]; i++) make(boxes[i]);
    signal(SIGSEGV, end_on_signal);
    signal(SIGBUS, end_on_signal);
    plain_fill_tables();
    try_version();
    try_checksums();
    try_days();
    try_times();
    try_sections();
    try_cutting();
    try_salvaging();
    try_packets();
    try_gathering();
    try_rooms();
    try_tables();
    uint64_t calls = 0;
    int failed = 0;
    for (size_t f = 0; f < COUNT_OF_FUNCTIONS; f++) {
        failed |= !met(f);
        if (count > 1) show(f);
        for (unsigned number = 0; number < REFUSALS; number++) calls += answered[f][number];
    }
    if (!failed) printf("whole: %d functions are as in plain C, in %" PRIu64 " calls\n", COUNT_OF_FUNCTIONS, calls);
    return failed;
}
