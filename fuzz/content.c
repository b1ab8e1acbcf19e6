// The content table's target, in both variants.
// SPDX-License-Identifier: MIT
#include "table.h"

static uint32_t variant;

static void put_letters(struct input *in, nw_form *f) {
    uint8_t letters[3];
    for (int i = 0; i < 3; i++) letters[i] = (uint8_t)(now_and_then(in, 64) ? take(in, 1) : 'a' + take(in, 1) % 26);
    nw_form_bytes(f, letters, 3);
}

static void make(struct input *in, nw_form *f) {
    put_identifier(in, f);
    size_t languages = 1 + upto(in, 4);
    nw_form_number(f, now_and_then(in, 64) ? take(in, 1) : languages);
    for (; languages > 0; languages--) {
        put_letters(in, f);
        put_number(in, f, 0, 4);
        put_some(in, f);
        put_some(in, f);
        for (size_t files = put_count(in, f, 2); files > 0; files--) {
            put_number(in, f, 0, 255);
            put_some(in, f);
        }
    }
    put_some(in, f);
}

// Read with the extension that the identifier asks for, so as laying does, which does not look at it; another one is 23.
static nw_answer read_content(uint32_t kind, const uint8_t *body, size_t n) {
    nw_answer extension = nw_content_extension(body, n);
    uint32_t right = taken(extension) ? (uint32_t)nw_value(extension) : 0;
    nw_answer a = nw_content_read(kind, variant, right, body, n);
    must(!taken(a) || taken(extension));
    must(refused(nw_content_read(kind, variant, right ^ 1, body, n), taken(a) ? NW_OTHER_CHECKSUM : a.packed));
    must(refused(nw_content_read(kind, variant + 1, right, body, n), kind == NW_CONTENT ? NW_OUTSIDE_SET : NW_OTHER_KIND));
    return a;
}

static nw_answer lay_content(uint32_t kind, const uint8_t *body, size_t n, uint64_t *tape, size_t entries) {
    return nw_content_lay(kind, variant, body, n, tape, entries);
}

static nw_answer measure_content(const uint8_t *pool, size_t pool_bytes, const uint64_t *tape, size_t entries) {
    must(refused(nw_content_measure(variant + 1, pool, pool_bytes, tape, entries), NW_OUTSIDE_SET));
    return nw_content_measure(variant, pool, pool_bytes, tape, entries);
}

// The extension is that of the identifier; the answer goes on with the length alone.
static nw_answer write_content(const uint8_t *pool, size_t pool_bytes, const uint64_t *tape, size_t entries, uint8_t *out,
                               size_t room) {
    nw_written a = nw_content_write(variant, pool, pool_bytes, tape, entries, out, room);
    must(!taken(a) || nw_written_extension(a) == extension_of(out));
    return (nw_answer){taken(a) ? (uint64_t)nw_written_length(a) << 8 : a.packed};
}

static void ask_language(struct input *in, const uint8_t *body, size_t n, size_t at, size_t length, bool accepted) {
    nw_answer files = nw_language_auxiliary_count(body, n, at, length);
    nw_part text = nw_language_text(body, n, at, length);
    hold_part(nw_language_letters(body, n, at, length), n);
    hold_number(nw_language_character_set(body, n, at, length), 4);
    hold_part(text, n);
    hold_part(nw_language_agency(body, n, at, length), n);
    hold_number(files, 2);
    for (uint64_t i = 0; i < 3; i++) {
        hold_number(nw_language_auxiliary_type(variant, body, n, at, length, i), 255);
        nw_part file = nw_language_auxiliary(variant, body, n, at, length, i);
        hold_part(file, n);
        must(!accepted || taken(file) == (i < nw_value(files)));
    }
    must(!taken(nw_language_auxiliary(variant, body, n, at, length, 3 + take(in, 7))));
    must(refused(nw_language_auxiliary(variant - 1, body, n, at, length, 0), NW_OUTSIDE_SET));
    must(!accepted || (taken(text) && taken(files)));
}

static void ask(struct input *in, const uint8_t *body, size_t n, bool accepted) {
    nw_part identifier = nw_content_identifier(body, n), signature = nw_content_signature(body, n);
    nw_answer count = nw_content_language_count(body, n), extension = nw_content_extension(body, n);
    hold_part(identifier, n);
    hold_number(count, 5);
    hold_part(signature, n);
    must(taken(identifier) == taken(extension));
    must(!taken(extension) || nw_value(extension) == extension_of(body));
    for (uint64_t i = 0; i < 35; i++) hold_digit(nw_content_identifier_digit(body, n, i), body, identifier, i);
    must(!taken(nw_content_identifier_digit(body, n, 35 + take(in, 7))));
    for (uint64_t i = 0; taken(count) && i <= nw_value(count); i++) {
        nw_part language = nw_content_language(body, n, i);
        hold_part(language, n);
        must(!accepted || taken(language) == (i < nw_value(count)));
        if (taken(language)) ask_language(in, body, n, nw_part_start(language), nw_part_length(language), accepted);
    }
    size_t at = upto(in, n + 1), length = upto(in, n + 1);
    ask_language(in, body, n, at, length, false);
    ask_language(in, body, n, (size_t)take(in, 8), (size_t)take(in, 8), false);
    must(!accepted || (taken(identifier) && taken(count) && taken(signature)));
    must(!accepted || nw_part_start(signature) + nw_part_length(signature) == n);
}

static size_t enough(size_t n) { return (void)n, NW_CONTENT_ENTRIES; }

static const struct table content = {NW_CONTENT, read_content, lay_content, measure_content, write_content, enough, make, ask};

int LLVMFuzzerTestOneInput(const uint8_t *data, size_t size) {
    struct input in = {data, size};
    variant = take(&in, 1) % 2 ? NW_AUXILIARY_32 : NW_AUXILIARY_24;
    try_table(&content, in);
    return 0;
}
