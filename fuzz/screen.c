// The screen box's target: what it shows, beside the same worked out from each field that the library tells.
// SPDX-License-Identifier: MIT
#include "neapwillow-screen.h"
#include "trial.h"

enum { POOL = 2048, ENTRIES = 512, ROOM = 8192, FIRST_DAY = 15079, LAST_DAY = 65535, DAY_SECONDS = 86400 };

// What is asked of the package.
struct question {
    uint32_t kind;
    const uint8_t *body;
    size_t n;
    uint8_t code[NW_SCREEN_CODE_DIGITS + 1];
    size_t digits;
    uint32_t day, second;
};

// ---- a table of few codes, levels and starts, so that messages tie

// A time near the instant, or far off.
static uint64_t time_near(struct input *in, const struct question *q) {
    uint64_t moment = (uint64_t)q->day * DAY_SECONDS + q->second + upto(in, 2), clock = 0;
    if (now_and_then(in, 8)) moment = (FIRST_DAY + upto(in, LAST_DAY - FIRST_DAY)) * (uint64_t)DAY_SECONDS;
    if (moment > FIRST_DAY * (uint64_t)DAY_SECONDS) moment--;
    for (uint64_t second = moment % DAY_SECONDS, unit = 3600; unit > 0; second %= unit, unit /= 60)
        clock = clock << 8 | (second / unit / 10 << 4 | second / unit % 10);
    return moment / DAY_SECONDS << 24 | clock;
}

// The own code, mostly; else one digit of it is another.
static void put_code(struct input *in, nw_form *f, const struct question *q) {
    uint8_t bytes[NW_RESOURCE_BYTES] = {q->code[0] & 15u};
    for (size_t i = 1; i < sizeof bytes; i++) bytes[i] = (uint8_t)((unsigned)q->code[2 * i - 1] << 4 | q->code[2 * i]);
    if (now_and_then(in, 2)) bytes[upto(in, sizeof bytes - 1)] ^= 1;
    nw_form_bytes(f, bytes, sizeof bytes);
}

static void put_message(struct input *in, nw_form *f, const struct question *q) {
    put_identifier(in, f);
    nw_form_number(f, 1);
    nw_form_number(f, time_near(in, q));
    nw_form_number(f, now_and_then(in, 3) ? NW_LIVE : time_near(in, q));
    nw_form_bytes(f, (const uint8_t *)"11A01", 5);
    nw_form_number(f, 1 + upto(in, 3));
    nw_form_number(f, 1 + upto(in, 3) % 2);
    for (size_t codes = put_count(in, f, 3); codes > 0; codes--) put_code(in, f, q);
    nw_form_number(f, 0);
}

static size_t make_table(struct input *in, const struct question *q, uint8_t *out) {
    uint8_t pool[POOL];
    uint64_t tape[ENTRIES];
    nw_form f = nw_form_start(pool, POOL, tape, ENTRIES);
    for (size_t messages = put_count(in, &f, 5); messages > 0; messages--) put_message(in, &f, q);
    nw_form_bytes(&f, out, 0);
    nw_answer written = nw_index_write(f.pool, f.pool_bytes, f.tape, f.entries, out, ROOM);
    return taken(written) ? (size_t)nw_value(written) : 0;
}

// ---- what is to be shown, by the library's other answers

static bool is_own(const struct question *q, size_t at, size_t length, uint64_t resource) {
    for (uint64_t j = 0; j < NW_SCREEN_CODE_DIGITS; j++)
        if (nw_value(nw_message_resource_digit(q->body, q->n, at, length, resource, j)) != q->code[j]) return false;
    return true;
}

static bool concerns(const struct question *q, size_t at, size_t length) {
    for (uint64_t left = nw_value(nw_message_resource_count(q->body, q->n, at, length)); left > 0; left--)
        if (is_own(q, at, length, left - 1)) return true;
    return false;
}

// Of an accepted body. Time fields are greater the later they are.
static nw_choice shown(const struct question *q) {
    uint64_t least = UINT64_MAX, count = nw_value(nw_index_message_count(q->body, q->n));
    nw_choice found = {0};
    for (uint64_t i = 0; i < count; i++) {
        nw_part m = nw_index_message(q->body, q->n, i);
        size_t at = nw_part_start(m), length = nw_part_length(m);
        uint64_t start = nw_value(nw_message_start(q->body, q->n, at, length)), end = nw_value(nw_message_end(q->body, q->n, at, length));
        uint64_t rank = nw_value(nw_message_level(q->body, q->n, at, length)) << 40 | start;
        if (!concerns(q, at, length) || nw_value(nw_time_showing(start, end, q->day, q->second)) != NW_ON || rank >= least) continue;
        least = rank;
        found.packed = UINT64_C(1) << 56 | i << 48 | (uint64_t)at << 24 | (uint64_t)length << 8;
    }
    return found;
}

static uint64_t expected(const struct question *q) {
    nw_answer read = nw_index_read(q->kind, q->body, q->n);
    bool code = q->digits == NW_SCREEN_CODE_DIGITS;
    for (size_t i = 0; i < q->digits; i++) code = code && q->code[i] <= 9;
    if (!code) return NW_DIGIT_ABOVE_NINE;
    if (q->day < FIRST_DAY || q->day > LAST_DAY || q->second >= DAY_SECONDS) return NW_IMPOSSIBLE_DAY;
    return taken(read) ? shown(q).packed : read.packed;
}

// In blocks of exactly their size.
static void ask(const struct question *q) {
    struct question own = *q;
    uint8_t *body = copy_of(q->body, q->n), *code = copy_of(q->code, q->digits);
    own.body = body;
    nw_choice a = nw_screen_choose(q->kind, body, q->n, code, q->digits, q->day, q->second);
    must(a.packed == expected(&own));
    must(NW_REFUSAL(a) != NW_OUTPUT_TOO_SMALL && (!taken(a) || nw_choice_start(a) + nw_choice_length(a) <= q->n));
    must(q->n == 0 || memcmp(body, q->body, q->n) == 0);
    free(body);
    free(code);
}

int LLVMFuzzerTestOneInput(const uint8_t *data, size_t size) {
    struct input in = {data, size};
    uint8_t out[ROOM];
    struct question q = {.kind = NW_INDEX, .body = out, .digits = NW_SCREEN_CODE_DIGITS};
    q.day = (uint32_t)(FIRST_DAY + upto(&in, LAST_DAY - FIRST_DAY)), q.second = (uint32_t)upto(&in, DAY_SECONDS - 1);
    for (size_t i = 0; i < sizeof q.code; i++) q.code[i] = (uint8_t)upto(&in, 9);
    q.n = make_table(&in, &q, out);
    ask(&q);
    for (size_t edits = upto(&in, 3); edits > 0 && q.n > 0; edits--) out[upto(&in, q.n - 1)] = (uint8_t)take(&in, 1);
    ask(&q);
    if (now_and_then(&in, 4)) q.digits = upto(&in, sizeof q.code);
    if (now_and_then(&in, 4)) q.code[upto(&in, sizeof q.code - 1)] = (uint8_t)take(&in, 1);
    if (now_and_then(&in, 4)) q.day = (uint32_t)take(&in, 4), q.second = (uint32_t)take(&in, 3);
    if (now_and_then(&in, 8)) q.kind = (uint32_t)take(&in, 4);
    ask(&q);
    q.body = in.s, q.n = in.n;
    ask(&q);
    return 0;
}
