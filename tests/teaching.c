// teaching run FIRST COUNT: so many runs of feeds made by chance, each by its number, to the quick gathering and to the slow one
// side by side. After each feed the answers, the heading, what is missing and what is handed out have to be the same, up to the
// first feed that the teaching buffer has no room for. Says how many feeds there were, and how many were answered with each
// refusal; 256 stands for held already.
//
// teaching, without words: what the slow gathering answers, asked in bytes on standard input and answered in bytes on standard
// output. B, a store's length, a number in use, a room and so many bytes: the buffer is these. F, a length and a string: it is
// fed; the answer is 64 bits, the number in use and the CRC-32 of the buffer. H and a room: the body is handed out; the answer
// is 64 bits, a length and so many bytes. A: the heading, 64 bits. M: what is missing, 64 bits. Numbers have eight bytes, the
// high one first. A byte that is written where none may be ends the program.
// SPDX-License-Identifier: MIT
#include <inttypes.h>
#include <stdio.h>
#include <stdlib.h>
#include <string.h>

#include "neapwillow.h"

enum { MOST = 1 << 20, GUARD = 64, BEHIND = 0xA5, HELD_ALREADY = 256 };
enum { LAST = 5, FEEDS = 24, MOST_BUFFER = FEEDS * 4105 }; // of a run: a row of the longest string has 8 + 4,097 bytes

static void stop(const char *why, uint64_t number) {
    fprintf(stderr, "teaching: %s (%" PRIu64 ")\n", why, number);
    exit(2);
}

static void hold(int holds, const char *what, uint64_t run) {
    if (!holds) stop(what, run);
}

// ---- by chance

static uint64_t seed;

static uint64_t any(void) {
    seed += UINT64_C(0x9E3779B97F4A7C15); // splitmix64
    uint64_t x = seed;
    x = (x ^ x >> 30) * UINT64_C(0xBF58476D1CE4E5B9);
    x = (x ^ x >> 27) * UINT64_C(0x94D049BB133111EB);
    return x ^ x >> 31;
}

static size_t upto(size_t most) { return (size_t)(any() % (most + 1)); }
static int once_in(unsigned often) { return any() % often == 0; }

// The table of a run: what its sections carry, and how often something else comes.
struct table {
    unsigned kind, extension, version, last;
    uint8_t payloads[LAST + 1][NW_MOST_PAYLOAD];
    size_t lengths[LAST + 1];
    unsigned quarrels; // one in so many payloads is another one
};

static void make_table(struct table *t) {
    t->kind = 0xFB + (unsigned)upto(3);
    t->extension = (unsigned)upto(0xFFFF);
    t->version = once_in(3) ? 31 : (unsigned)upto(31);
    t->last = (unsigned)upto(LAST);
    t->quarrels = once_in(2) ? 1000000 : 8;
    for (size_t k = 0; k <= LAST; k++) {
        t->lengths[k] = once_in(50) ? NW_MOST_PAYLOAD - upto(1) : upto(9);
        for (size_t i = 0; i < t->lengths[k]; i++) t->payloads[k][i] = (uint8_t)any();
    }
}

static void put_check(uint8_t *s, size_t n) {
    uint32_t check = nw_crc32(s, n - 4);
    for (size_t i = 0; i < 4; i++) s[n - 4 + i] = (uint8_t)(check >> (24 - 8 * i));
}

// A good section, whatever its heading says.
static size_t put_section(uint8_t *s, unsigned kind, unsigned extension, unsigned version, unsigned current, unsigned number,
                          unsigned last, const uint8_t *payload, size_t n) {
    size_t length = n + 9;
    const uint8_t heading[] = {(uint8_t)kind, (uint8_t)(0xF0 | length >> 8), (uint8_t)length, (uint8_t)(extension >> 8),
                               (uint8_t)extension, (uint8_t)(0xC0 | version << 1 | current), (uint8_t)number, (uint8_t)last};
    memcpy(s, heading, sizeof heading);
    memcpy(s + 8, payload, n);
    put_check(s, n + 12);
    return n + 12;
}

// A section that is damaged, in one of several ways, with its check put right again or not.
static size_t damage(uint8_t *s, size_t n) {
    if (once_in(4)) return upto(n);
    if (once_in(4)) return s[n] = (uint8_t)any(), n + 1;
    if (once_in(8)) return s[1] = 0xF0, s[2] = 8, n;
    s[once_in(2) ? upto(7) : upto(n - 1)] ^= (uint8_t)(1u << upto(7));
    if (once_in(2)) put_check(s, n);
    return n;
}

// A string to feed: mostly a section of the table; a stranger's, one of another version, one not current, a quarrel, damage.
static size_t make_string(const struct table *t, uint8_t *s) {
    unsigned kind = t->kind, extension = t->extension, version = t->version, last = t->last, number = (unsigned)upto(last);
    static uint8_t payload[NW_MOST_PAYLOAD];
    size_t n = t->lengths[number];
    memcpy(payload, t->payloads[number], n);
    if (once_in(30)) kind = 0xFB + (unsigned)upto(3);
    if (once_in(30)) extension ^= 1u << upto(15);
    if (once_in(12)) version = (version + (unsigned)upto(31)) % 32;
    if (once_in(12)) last = (unsigned)upto(LAST + 1);
    if (once_in(t->quarrels) && n > 0) payload[upto(n - 1)] ^= (uint8_t)(1u << upto(7));
    if (once_in(t->quarrels) && n > 0) n--;
    n = put_section(s, kind, extension, version, !once_in(25), number, last, payload, n);
    return once_in(12) ? damage(s, n) : n;
}

// ---- both side by side

struct both {
    nw_gathering quick;
    uint8_t store[NW_STORE_BYTES(LAST + 1)], buffer[MOST_BUFFER + GUARD];
    uint8_t was[MOST_BUFFER + GUARD]; // what the buffer and the bytes behind it have to hold
    size_t store_bytes, room, used;
};

static uint64_t counted[257], feeds;

static void same_heading(const struct both *b, uint64_t run) {
    nw_heading h = nw_teaching_heading(b->buffer, b->room, b->used, b->store_bytes);
    const nw_gathering *g = &b->quick;
    if (g->kind == 0) {
        hold(h.packed == NW_MISSING, "a heading is told of nothing", run);
        return;
    }
    hold(NW_REFUSAL(h) == NW_TAKEN && nw_heading_kind(h) == g->kind && nw_heading_extension(h) == g->extension &&
             nw_heading_version(h) == g->version && nw_heading_last(h) == g->last && nw_heading_current(h) == 1,
         "the headings differ", run);
}

static void same_missing(const struct both *b, uint64_t run) {
    nw_answer a = nw_teaching_missing(b->buffer, b->room, b->used, b->store_bytes);
    if (b->quick.kind == 0) hold(a.packed == NW_MISSING, "something is missing of nothing", run);
    else hold(NW_REFUSAL(a) == NW_TAKEN && nw_value(a) == b->quick.missing, "the missing numbers differ", run);
}

// Into an output that is long enough, one byte too short, or of any length; behind the body nothing is written.
static void same_body(const struct both *b, uint64_t run) {
    static uint8_t quick[NW_STORE_BYTES(LAST + 1) + 1], slow[NW_STORE_BYTES(LAST + 1) + 1];
    size_t held = b->quick.bytes, rooms[] = {held, held, held > 0 ? held - 1 : 0, upto(held + 1), sizeof slow};
    size_t room = rooms[upto(4)], clean = room < GUARD ? GUARD : room;
    memset(quick, BEHIND, clean);
    memset(slow, BEHIND, clean);
    nw_answer one = nw_gathering_hand_out(&b->quick, b->store, b->store_bytes, quick, room);
    nw_answer other = nw_teaching_hand_out(b->buffer, b->room, b->used, b->store_bytes, slow, room);
    hold(one.packed == other.packed, "handing out answers otherwise", run);
    hold(memcmp(quick, slow, clean) == 0, "other bodies are handed out", run);
}

// The row of a string that was kept, high byte of its length first.
static void keep(uint8_t *at, const uint8_t *s, size_t n) {
    for (size_t i = 0; i < 8; i++) at[i] = (uint8_t)((uint64_t)n >> (56 - 8 * i));
    memcpy(at + 8, s, n);
}

// One feed to both; whether it was kept.
static int same_feed(struct both *b, const uint8_t *s, size_t n, uint64_t run) {
    size_t used = b->used;
    nw_answer slow = nw_teaching_feed(b->buffer, b->room, &b->used, b->store_bytes, s, n);
    int fits = NW_TAUGHT_BYTES(n) <= b->room - used;
    if (fits) keep(b->was + used, s, n);
    hold(b->used == (fits ? used + NW_TAUGHT_BYTES(n) : used), "other bytes are in use", run);
    hold(memcmp(b->buffer, b->was, b->room + GUARD) == 0, "the buffer holds something else", run);
    hold((slow.packed == NW_TEACHING_BUFFER_FULL) == !fits, "37 is given where it may not be, or not given", run);
    feeds++;
    counted[NW_REFUSAL(slow) == NW_TAKEN && nw_value(slow) == NW_FED_HELD_ALREADY ? HELD_ALREADY : NW_REFUSAL(slow)]++;
    if (!fits) return 0;
    nw_answer quick = nw_gathering_feed(&b->quick, b->store, b->store_bytes, s, n);
    hold(quick.packed == slow.packed, "the answers differ", run);
    return 1;
}

static void one_run(uint64_t run) {
    static struct both b;
    static struct table t;
    static uint8_t s[NW_MOST_SECTION + 1];
    static const nw_gathering fresh = NW_FRESH;
    seed = run * UINT64_C(0xD1342543DE82EF95) + 112;
    make_table(&t);
    b.quick = fresh;
    size_t enough = NW_STORE_BYTES(t.last), stores[] = {enough, enough, enough - 1, NW_STORE_BYTES(LAST), NW_STORE_BYTES(LAST + 1)};
    b.store_bytes = stores[upto(4)];
    b.used = 0;
    b.room = once_in(4) ? upto(600) : once_in(20) ? MOST_BUFFER : 12000;
    memset(b.buffer, (int)upto(255), b.room + GUARD);
    memcpy(b.was, b.buffer, b.room + GUARD);
    for (size_t left = 1 + upto(once_in(16) ? FEEDS - 1 : 9); left > 0; left--) { // long runs are slow: each feed reads all before it
        int kept = same_feed(&b, s, make_string(&t, s), run);
        same_heading(&b, run);
        same_missing(&b, run);
        same_body(&b, run);
        if (!kept) return;
    }
}

static int runs(const char *first, const char *count) {
    uint64_t from = strtoull(first, NULL, 10), much = strtoull(count, NULL, 10);
    for (uint64_t i = 0; i < much; i++) one_run(from + i);
    printf("%" PRIu64, feeds);
    for (unsigned i = 0; i <= HELD_ALREADY; i++)
        if (counted[i] > 0) printf(" %u:%" PRIu64, i, counted[i]);
    putchar('\n');
    return 0;
}

// ---- asked on standard input

static uint8_t buffer[MOST], in[MOST], out[MOST];
static size_t room, used, store_bytes;

static void take(uint8_t *s, size_t n) {
    if (n > MOST || fread(s, 1, n, stdin) != n) stop("the input ends too early, or is too long", n);
}

static uint64_t take_number(void) {
    uint8_t s[8];
    uint64_t x = 0;
    take(s, sizeof s);
    for (size_t i = 0; i < sizeof s; i++) x = x << 8 | s[i];
    return x;
}

static void put_number(uint64_t x) {
    for (int k = 56; k >= 0; k -= 8) putchar((int)(x >> k & 0xFF));
}

static uint32_t check(const uint8_t *s, size_t n) {
    uint32_t crc = 0xFFFFFFFF;
    for (size_t i = 0; i < n; i++) {
        crc ^= s[i];
        for (int k = 0; k < 8; k++) crc = crc >> 1 ^ (crc & 1 ? UINT32_C(0xEDB88320) : 0);
    }
    return ~crc;
}

static void behind(const uint8_t *s, size_t from) {
    for (size_t i = from; i < MOST && i < from + GUARD; i++)
        if (s[i] != BEHIND) stop("a byte is written behind what may be written", i);
}

static void lend(void) {
    store_bytes = (size_t)take_number();
    used = (size_t)take_number();
    room = (size_t)take_number();
    take(buffer, room);
    memset(buffer + room, BEHIND, MOST - room < GUARD ? MOST - room : GUARD);
}

static void ask_feed(void) {
    size_t n = (size_t)take_number();
    take(in, n);
    put_number(nw_teaching_feed(buffer, room, &used, store_bytes, in, n).packed);
    behind(buffer, room);
    put_number(used);
    put_number(check(buffer, room));
}

static void ask_body(void) {
    size_t most = (size_t)take_number();
    if (most > MOST - GUARD) stop("an output is too long", most);
    memset(out, BEHIND, most + GUARD);
    nw_answer a = nw_teaching_hand_out(buffer, room, used, store_bytes, out, most);
    size_t n = NW_REFUSAL(a) == NW_TAKEN ? (size_t)nw_value(a) : 0;
    if (n > most) stop("more is told than there is room for", n);
    for (size_t i = n; i < most + GUARD; i++)
        if (out[i] != BEHIND) stop("a byte is written behind the body", i);
    put_number(a.packed);
    put_number(n);
    fwrite(out, 1, n, stdout);
}

int main(int count, char **words) {
    if (count == 4 && strcmp(words[1], "run") == 0) return runs(words[2], words[3]);
    if (count != 1) stop("usage: teaching run FIRST COUNT, or teaching without words", (uint64_t)count);
    for (int what; (what = getchar()) != EOF;) {
        if (what == 'B') lend();
        else if (what == 'F') ask_feed();
        else if (what == 'H') ask_body();
        else if (what == 'A') put_number(nw_teaching_heading(buffer, room, used, store_bytes).packed);
        else if (what == 'M') put_number(nw_teaching_missing(buffer, room, used, store_bytes).packed);
        else stop("no such request", (uint64_t)what);
    }
    return 0;
}
