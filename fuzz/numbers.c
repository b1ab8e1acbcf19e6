// The target of checksums, days, times, and the header's own texts: digits, and the words of refusals.
// SPDX-License-Identifier: MIT
#include "trial.h"

static void try_checksums(const uint8_t *data, size_t n) {
    uint8_t *s = copy_of(data, n);
    must(nw_crc32(s, n) == by_bits(s, 0, 8 * n, 32, 0x04C11DB7));
    must(nw_crc16(s, n) == by_bits(s, 0, 8 * n, 16, 0x1021));
    free(s);
}

static void try_days(struct input *in) {
    uint32_t year = (uint32_t)take(in, 2) % 200 + 1880, month = (uint32_t)take(in, 1) % 14, date = (uint32_t)take(in, 1) % 33;
    nw_answer day = now_and_then(in, 4) ? nw_day_of((uint32_t)take(in, 4), (uint32_t)take(in, 4), (uint32_t)take(in, 4))
                                        : nw_day_of(year, month, date);
    must(taken(day) ? nw_value(day) >= 15079 && nw_value(day) <= 65535 : refused(day, NW_IMPOSSIBLE_DAY));
    uint32_t mjd = taken(day) ? (uint32_t)nw_value(day) : (uint32_t)take(in, 3);
    nw_date back = nw_date_of(mjd);
    nw_answer weekday = nw_weekday(mjd);
    must(taken(back) == taken(weekday) && taken(back) == (mjd >= 15079 && mjd <= 65535));
    if (!taken(back)) return;
    must(nw_value(nw_day_of(nw_date_year(back), nw_date_month(back), nw_date_day(back))) == mjd);
    must(nw_value(weekday) == (mjd + 2) % 7 + 1);
}

// A field that has a local time is packed and printed back to itself.
static void try_times(struct input *in) {
    uint64_t field = take(in, now_and_then(in, 8) ? 8 : 5);
    int32_t offset = now_and_then(in, 8) ? (int32_t)(uint32_t)take(in, 4) : (int32_t)upto(in, 1600) - 740;
    nw_time t = nw_time_unpack(field, offset);
    must(taken(t) || (NW_PLACE(t) == 0 && NW_REFUSAL(t) >= NW_DIGIT_ABOVE_NINE && NW_REFUSAL(t) <= NW_IMPOSSIBLE_DAY));
    if (!taken(t)) return;
    must(nw_value(nw_time_pack(nw_time_year(t), nw_time_month(t), nw_time_day(t), nw_time_hour(t), nw_time_minute(t),
                               nw_time_second(t), offset)) == field);
    char text[64];
    int n = snprintf(text, sizeof text, "%02u/%02u/%04u %02u:%02u:%02u", nw_time_day(t), nw_time_month(t), nw_time_year(t),
                     nw_time_hour(t), nw_time_minute(t), nw_time_second(t));
    must(n == 19);
    nw_answer read = nw_time_read_text((const uint8_t *)text, 19, offset);
    must(taken(read) && nw_value(read) == field);
    must(NW_REFUSAL(nw_time_read_text((const uint8_t *)text, 18, offset)) == NW_NOT_OF_THE_FORM);
}

// What is printed is read as the field it was printed from; what is refused, or lies after it, stays.
static void try_printing(struct input *in) {
    uint64_t field = now_and_then(in, 8) ? NW_LIVE : take(in, now_and_then(in, 8) ? 8 : 5);
    int32_t offset = (int32_t)upto(in, 1600) - 740;
    struct lent out = lend(now_and_then(in, 4) ? upto(in, 30) : NW_TIME_TEXT, 0x5a), fields = lend(2 * sizeof(uint64_t), 0x5a);
    nw_answer start = nw_time_print_start(field, offset, out.bytes, out.size);
    must(taken(start) ? nw_value(start) == NW_TIME_TEXT && taken(nw_time_unpack(field, offset)) : NW_PLACE(start) == 0);
    must(kept(&out, taken(start) ? NW_TIME_TEXT : 0));
    if (taken(start)) {
        nw_answer both = nw_times_read_text(out.bytes, NW_TIME_TEXT, out.bytes, (size_t)take(in, 1) % 20, field % 2 == 0, offset, (uint64_t *)fields.bytes);
        uint64_t first;
        memcpy(&first, fields.bytes, sizeof first);
        must(taken(both) ? nw_value(both) == 0 && first == field : refused(both, NW_NOT_OF_THE_FORM) && kept(&fields, 0));
    }
    remember(&out);
    nw_answer end = nw_time_print_end(field, offset, out.bytes, out.size);
    must(field == NW_LIVE || end.packed == start.packed);
    must(field != NW_LIVE || !taken(end) || (nw_value(end) == 4 && memcmp(out.bytes, "live", 4) == 0));
    must(kept(&out, taken(end) ? nw_value(end) : 0));
    give_back(&out);
    give_back(&fields);
}

static void try_text(struct input *in) {
    size_t n = now_and_then(in, 4) ? upto(in, 40) : 19;
    static const char form[] = "03/11/2024 07:45:00";
    uint8_t *text = block_of(n);
    for (size_t i = 0; i < n; i++) {
        uint8_t x = (uint8_t)take(in, 1);
        text[i] = x < 128 ? (uint8_t)form[i % 19] : x < 250 && form[i % 19] >= '0' && form[i % 19] <= '9' ? '0' + x % 10 : x;
    }
    int32_t offset = (int32_t)upto(in, 1600) - 740;
    nw_answer a = nw_time_read_text(text, n, offset);
    unsigned number = NW_REFUSAL(a);
    must(number == NW_TAKEN || number == NW_OUTSIDE_SET || number == NW_NOT_OF_THE_FORM || number == NW_IMPOSSIBLE_DAY);
    must(taken(a) ? n == 19 && taken(nw_time_unpack(nw_value(a), offset)) : NW_PLACE(a) == 0);
    free(text);
}

// A text of 35 digits, and no other one, becomes bytes, and these the text again.
static void try_digits(struct input *in) {
    size_t n = now_and_then(in, 4) ? upto(in, 40) : 35;
    char *text = block_of(n + 1), back[36];
    for (size_t i = 0; i < n; i++) text[i] = (char)(now_and_then(in, 128) ? take(in, 1) : '0' + take(in, 1) % 10);
    text[n] = '\0';
    struct lent bytes = lend(18, 0x5a);
    bool good = strspn(text, "0123456789") == 35 && strlen(text) == 35;
    must(nw_identifier_bytes(text, bytes.bytes) == good);
    if (good) must(bytes.bytes[0] >> 4 == 15 && strcmp(nw_identifier_text(bytes.bytes, back), text) == 0);
    else must(kept(&bytes, 0));
    give_back(&bytes);
    free(text);
}

static void try_showing(struct input *in) {
    uint64_t start = take(in, 5), end = now_and_then(in, 4) ? NW_LIVE : take(in, 5);
    uint32_t day = (uint32_t)take(in, 2), second = (uint32_t)take(in, 3) % 90000;
    nw_answer a = nw_time_showing(start, end, day, second);
    must(taken(a) ? nw_value(a) <= NW_ENDED : NW_PLACE(a) == 0);
    must(!taken(a) || end != NW_LIVE || nw_value(a) != NW_ENDED);
}

int LLVMFuzzerTestOneInput(const uint8_t *data, size_t size) {
    struct input in = {data, size};
    must(nw_version() == NW_VERSION_NUMBER);
    try_days(&in);
    try_times(&in);
    try_printing(&in);
    try_text(&in);
    try_showing(&in);
    try_digits(&in);
    unsigned number = (unsigned)take(&in, 4);
    must(number < 256 || !listed(number));
    try_checksums(in.s, in.n);
    return 0;
}
