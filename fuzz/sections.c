// The target of sections, read and cut, and of captures, salvaged.
// SPDX-License-Identifier: MIT
#include "trial.h"

static void try_reading(const uint8_t *data, size_t n) {
    uint8_t *s = copy_of(data, n);
    nw_heading a = nw_section_read(s, n);
    must(NW_REFUSAL(a) <= NW_CHECK_NOT_ZERO && (taken(a) || NW_PLACE(a) == 0));
    nw_answer length = nw_section_length(s, n);
    must(taken(length) ? nw_value(length) >= 12 && nw_value(length) <= NW_MOST_SECTION : NW_PLACE(length) == 0);
    if (taken(a)) {
        must(taken(length) && nw_value(length) == n);
        must(n >= 12 && n <= NW_MOST_SECTION && nw_crc32(s, n) == 0);
        must(nw_heading_kind(a) == s[0] && nw_heading_number(a) <= nw_heading_last(a));
    }
    free(s);
}

// A section that was cut is read as what was asked for, and carries its part of the body.
static void hold_cut(const uint8_t *body, size_t n, const uint8_t *s, size_t length, nw_answer count, uint32_t number) {
    nw_heading read = nw_section_read(s, length);
    must(taken(read) && nw_heading_current(read) == 1 && nw_heading_number(read) == number);
    must(taken(count) && nw_heading_last(read) + 1 == nw_value(count) && number < nw_value(count));
    size_t from = (size_t)number * NW_MOST_PAYLOAD, payload = n - from < NW_MOST_PAYLOAD ? n - from : NW_MOST_PAYLOAD;
    must(length == payload + 12 && memcmp(s + 8, body + from, payload) == 0);
}

static void try_cutting(struct input *in) {
    uint32_t kind = now_and_then(in, 8) ? (uint32_t)take(in, 4) : 0xFB + (uint32_t)take(in, 1) % 4;
    uint32_t extension = (uint32_t)take(in, now_and_then(in, 8) ? 4 : 2);
    uint32_t version = now_and_then(in, 8) ? (uint32_t)take(in, 4) : (uint32_t)take(in, 1) % 32;
    size_t n = upto(in, now_and_then(in, 2) ? 20000 : 64);
    uint32_t number = now_and_then(in, 8) ? (uint32_t)take(in, 4) : (uint32_t)upto(in, n / NW_MOST_PAYLOAD);
    struct lent out = lend(now_and_then(in, 4) ? upto(in, 5000) : NW_MOST_SECTION, 0x5a);
    uint8_t *body = block_of(n);
    for (size_t i = 0; i < n; i++) body[i] = (uint8_t)(in->n > 0 ? in->s[i % in->n] + i / in->n : i);
    nw_answer a = nw_section_cut(body, n, kind, extension, version, number, out.bytes, out.size);
    must(taken(a) || NW_PLACE(a) == 0);
    must(kept(&out, taken(a) ? (size_t)nw_value(a) : 0));
    nw_answer none = nw_section_cut(body, n, kind, extension, version, number, NULL, 0);
    must(refused(none, taken(a) ? NW_OUTPUT_TOO_SMALL : a.packed));
    if (taken(a)) {
        hold_cut(body, n, out.bytes, (size_t)nw_value(a), nw_section_count(n), number);
        out.bytes[upto(in, (size_t)nw_value(a) - 1)] ^= (uint8_t)(1 << upto(in, 7));
        must(!taken(nw_section_read(out.bytes, (size_t)nw_value(a))));
    }
    give_back(&out);
    free(body);
}

// Runs follow each other and cover the capture; what they keep is good and is what was written.
static void hold_runs(const uint8_t *s, size_t n, const uint8_t *out, const uint32_t *list, nw_salvaged a) {
    size_t at = 0, used = 0;
    bool skipped = false;
    for (size_t i = 0; i < nw_salvaged_runs(a); i++) {
        nw_run run = nw_run_at(list, i);
        must(run.kept <= 1 && run.first == at && run.length > 0 && run.length <= n - at && (run.kept == 1 || !skipped));
        if (run.kept == 1) {
            must(taken(nw_section_read(s + at, run.length)) && memcmp(out + used, s + at, run.length) == 0);
            used += run.length;
        }
        skipped = run.kept == 0;
        at += run.length;
    }
    must(at == n && used == nw_salvaged_bytes(a));
}

// A capture of good sections among what the input has, some of them damaged.
static size_t put_capture(struct input *in, uint8_t *s, size_t most) {
    size_t n = 0;
    while (in->n > 0 && n + 200 < most) {
        bool good = !now_and_then(in, 3);
        size_t some = upto(in, 60);
        if (some > in->n) some = in->n; // what draws takes of the input, too
        nw_answer got = {NW_PAST_BODY};
        if (good) got = nw_section_cut(in->s, some, 0xFB + some % 4, 7, 3, 0, s + n, most - n);
        if (taken(got)) n += (size_t)nw_value(got);
        else
            for (size_t i = 0; i < some; i++) s[n++] = in->s[i];
        in->s += some, in->n -= some;
        if (n > 0 && now_and_then(in, 4)) s[upto(in, n - 1)] ^= (uint8_t)(1 << upto(in, 7));
        if (n > 0 && now_and_then(in, 6)) n -= upto(in, n < 20 ? n : 20);
    }
    return n;
}

static void try_salvage(struct input in) {
    enum { MOST = 8192 };
    uint8_t *bytes = block_of(MOST);
    bool tight = now_and_then(&in, 2);
    size_t n = put_capture(&in, bytes, MOST), numbers = NW_SALVAGE_NUMBERS(n);
    uint8_t *s = copy_of(bytes, n);
    struct lent out = lend(NW_SALVAGE_BYTES(n), 0x5a), list = lend(numbers * sizeof(uint32_t), 0x5a);
    nw_salvaged a = nw_salvage(s, n, out.bytes, out.size, (uint32_t *)(void *)list.bytes, numbers);
    must(taken(a) && kept(&out, nw_salvaged_bytes(a)) && kept(&list, 3 * nw_salvaged_runs(a) * sizeof(uint32_t)));
    hold_runs(s, n, out.bytes, (uint32_t *)(void *)list.bytes, a);
    if (tight && nw_salvaged_runs(a) > 0) {
        struct lent less = lend((3 * nw_salvaged_runs(a) - 1) * sizeof(uint32_t), 0x5a), same = lend(nw_salvaged_bytes(a), 0x5a);
        nw_salvaged b = nw_salvage(s, n, same.bytes, same.size, (uint32_t *)(void *)less.bytes, less.size / sizeof(uint32_t));
        must(refused(b, NW_OUTPUT_TOO_SMALL) && kept(&less, 0) && kept(&same, 0));
        give_back(&less);
        give_back(&same);
    }
    give_back(&out);
    give_back(&list);
    free(s);
    free(bytes);
}

int LLVMFuzzerTestOneInput(const uint8_t *data, size_t size) {
    struct input in = {data, size};
    try_salvage(in);
    nw_answer count = nw_section_count((size_t)take(&in, 4));
    must(taken(count) ? nw_value(count) >= 1 && nw_value(count) <= 256 : NW_PLACE(count) == 0);
    try_cutting(&in);
    try_reading(in.s, in.n);
    return 0;
}
