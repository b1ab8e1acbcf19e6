// walk_content.c: the way through a content table (GD/J 086-2018, table 4), and all else that is asked of one.
// SPDX-License-Identifier: MIT
#include "content.h"
#include "steps.h"

nw_answer content_read(const struct body *b) { return nw_content_read(b->kind, b->variant, b->extension, b->s, b->n); }

const uint8_t *content_identifier(const struct body *b) {
    nw_part part = nw_content_identifier(b->s, b->n);
    return NW_REFUSAL(part) == NW_TAKEN ? b->s + nw_part_start(part) : NULL;
}

bool content_extension(const struct body *b, unsigned *extension) {
    nw_answer own = nw_content_extension(b->s, b->n);
    *extension = (unsigned)nw_value(own);
    return NW_REFUSAL(own) == NW_TAKEN;
}

static bool text(struct walk *w, const char *name, const char *label, unsigned set, nw_part part) {
    struct field f = {.name = name, .label = label, .role = TEXT, .bits = 8 * nw_part_length(part), .words = "", .set = set};
    return step(w, NW_REFUSAL(part), f);
}

static bool files(struct walk *w, size_t at, size_t length) {
    nw_answer count = nw_language_auxiliary_count(BODY(w), at, length);
    struct field f = {.name = "auxiliary_data_number", .label = "auxiliary files", .role = COUNT, .bits = 4, .numeric = true};
    f.number = nw_value(count);
    f.words = f.number == 0 ? "none" : f.number == 1 ? "1" : "2";
    bool on = step_after(w, 4, NW_REFUSAL(count), f);
    for (uint64_t i = 0; on && i < nw_value(count); i++) {
        nw_part file = nw_language_auxiliary(w->body.variant, BODY(w), at, length, i);
        enter(w, (struct group){.name = "auxiliary_data", .label = "file", .number = i, .count = nw_value(count), .row = true});
        nw_answer type = nw_language_auxiliary_type(w->body.variant, BODY(w), at, length, i);
        on = leave(w, step_number(w, "auxiliary_data_type", "type", 8, type) &&
                          step_length(w, "auxiliary_data_length", w->body.variant, file) && step_opaque(w, "auxiliary_data", "", file));
    }
    return on;
}

static bool language_fields(struct walk *w, size_t at, size_t length) {
    nw_part letters = nw_language_letters(BODY(w), at, length);
    nw_answer set = nw_language_character_set(BODY(w), at, length);
    if (!step_ascii(w, "language_code", "language", NW_REFUSAL(letters), 3)) return false;
    struct field f = {.name = "code_character_set", .label = "character set", .role = VALUE, .bits = 3, .numeric = true};
    f.number = nw_value(set);
    f.words = f.number == NW_SET_GB_13000 ? "GB/T 13000-2010, read as UTF-8" : nw_character_set_text(f.number);
    if (!step_after(w, 5, NW_REFUSAL(set), f)) return false;
    nw_part words = nw_language_text(BODY(w), at, length), agency = nw_language_agency(BODY(w), at, length);
    unsigned number = (unsigned)f.number;
    return step_length(w, "message_text_length", 16, words) && text(w, "message_text", "text", number, words) &&
           step_length(w, "agency_name_length", 8, agency) && text(w, "agency_name", "agency", number, agency) &&
           files(w, at, length) && step_left(w, NW_PAST_PART);
}

static bool language(struct walk *w, uint64_t i) {
    nw_part part = nw_content_language(BODY(w), i);
    if (!step_length(w, "multilingual_content_length", 32, part)) return false;
    size_t before = w->end;
    w->end = nw_part_start(part) + nw_part_length(part);
    bool on = language_fields(w, nw_part_start(part), nw_part_length(part));
    w->end = before;
    return on;
}

bool walk_content(struct walk *w) {
    nw_answer count = nw_content_language_count(BODY(w));
    struct field f = {.name = "multilingual_content_number", .label = "languages", .role = COUNT, .bits = 4, .numeric = true};
    f.number = nw_value(count);
    f.words = (const char *const[]){"0", "1", "2", "3", "4", "5"}[f.number <= 5 ? f.number : 0];
    bool on = step_digits(w, "EBM_id", "identifier", NW_IDENTIFIER_BYTES, nw_content_identifier(BODY(w))) &&
              step_after(w, 4, NW_REFUSAL(count), f);
    for (uint64_t i = 0; on && i < nw_value(count); i++) {
        enter(w, (struct group){.name = "multilingual_content", .label = "language", .number = i, .count = nw_value(count)});
        on = leave(w, language(w, i));
    }
    return on && step_signature(w, nw_content_signature(BODY(w)));
}
