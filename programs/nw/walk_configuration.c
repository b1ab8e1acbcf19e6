// walk_configuration.c: the way through a configuration table (GD/J 086-2018, tables 7 to 15).
// SPDX-License-Identifier: MIT
#include "steps.h"
#include "words.h"
#include <stdio.h>

// Day and time are judged three numbers at a time: where they are refused, all three are marked as one field.
static bool clock_part(struct walk *w, nw_answer first, const char *names, size_t bits) {
    if (NW_REFUSAL(first) == NW_TAKEN) return true;
    return step(w, NW_REFUSAL(first), (struct field){.name = names, .label = names, .role = VALUE, .bits = bits});
}

static bool set_clock(struct walk *w, size_t at) {
    nw_answer year = nw_command_clock_year(BODY(w), at), month = nw_command_clock_month(BODY(w), at);
    nw_answer day = nw_command_clock_day(BODY(w), at), hour = nw_command_clock_hour(BODY(w), at);
    if (!clock_part(w, year, "wYear, iMonth, iDay", 32)) return false;
    const char *name = weekday_words((uint32_t)nw_value(year), (uint32_t)nw_value(month), (uint32_t)nw_value(day));
    return step_number(w, "wYear", "year", 16, year) && step_number(w, "iMonth", "month", 8, month) &&
           step_named(w, "iDay", "day", 8, day, name) && clock_part(w, hour, "iHour, iMinute, iSecond", 24) &&
           step_number(w, "iHour", "hour", 8, hour) &&
           step_number(w, "iMinute", "minute", 8, nw_command_clock_minute(BODY(w), at)) &&
           step_number(w, "iSecond", "second", 8, nw_command_clock_second(BODY(w), at));
}

static bool set_code(struct walk *w, size_t at) {
    nw_part address = nw_command_code_address(BODY(w), at);
    return step_length(w, "terminal_address_length", 8, address) && step_bytes(w, "terminal_address", "address", address) &&
           step_digits(w, "resource_code", "resource", NW_RESOURCE_BYTES, nw_command_code_resource(BODY(w), at));
}

// The terminals that a command is for; table 11 has another name for them than the others.
static bool terminals(struct walk *w, size_t at, const char *name) {
    nw_answer count = nw_command_terminal_count(BODY(w), at);
    bool on = step_count(w, "terminal_number", "terminals", count);
    for (uint64_t i = 0; on && i < nw_value(count); i++) {
        enter(w, (struct group){.name = "terminal", .label = "terminal", .number = i, .count = nw_value(count), .row = true});
        on = leave(w, step_digits(w, name, "", NW_RESOURCE_BYTES, nw_command_terminal(BODY(w), at, i)));
    }
    return on;
}

static bool set_frequency(struct walk *w, size_t at) {
    nw_answer mapping = nw_command_mapping(BODY(w), at);
    return step_number(w, "freq", "frequency, kHz", 32, nw_command_frequency(BODY(w), at)) &&
           step_number(w, "symbolrate", "symbol rate, kBd", 32, nw_command_symbol_rate(BODY(w), at)) &&
           step_named(w, "constellation_mapping", "constellation", 8, mapping, mapping_words(nw_value(mapping))) &&
           terminals(w, at, "resource_address");
}

static bool internet_address(struct walk *w, nw_part address) {
    const uint8_t *s = w->body.s + nw_part_start(address);
    snprintf(w->words, sizeof w->words, "%u.%u.%u.%u, port %u", s[0], s[1], s[2], s[3], (unsigned)s[4] << 8 | s[5]);
    return step(w, NW_TAKEN, (struct field){.name = "reback_address", .label = "return address", .role = VALUE,
                                            .bits = 8 * nw_part_length(address), .words = w->words});
}

// An address is judged with its length where its kind fixes one, and else where it begins.
static bool return_address(struct walk *w, uint64_t kind, nw_part address) {
    bool here = NW_REFUSAL(address) != NW_TAKEN && NW_PLACE(address) != w->bit / 8; // the address itself is refused
    size_t n = here ? w->body.s[w->bit / 8] : nw_part_length(address);
    nw_part length = here ? (nw_part){(uint64_t)n << 8} : address;
    if (!step_length(w, "reback_address_length", 8, length)) return false;
    if (kind == 2 && !here) return internet_address(w, address);
    return step_ascii(w, "reback_address", "return address", NW_REFUSAL(address), n);
}

static bool set_return(struct walk *w, size_t at) {
    nw_answer kind = nw_command_return_kind(BODY(w), at);
    return step_named(w, "reback_type", "return by", 8, kind, return_words(nw_value(kind))) &&
           return_address(w, nw_value(kind), nw_command_return_address(BODY(w), at)) && terminals(w, at, "resource_code");
}

static bool set_period(struct walk *w, size_t at) {
    return step_number(w, "reback_period", "period, seconds", 32, nw_command_period(BODY(w), at)) &&
           terminals(w, at, "resource_code");
}

static bool set_volume(struct walk *w, size_t at) {
    return step_number(w, "volume", "volume, percent", 8, nw_command_volume(BODY(w), at)) && terminals(w, at, "resource_code");
}

static bool query(struct walk *w, size_t at) {
    nw_answer count = nw_command_parameter_count(BODY(w), at);
    bool on = step_count(w, "parameter_number", "parameters", count);
    for (uint64_t i = 0; on && i < nw_value(count); i++) {
        enter(w, (struct group){.name = "parameter", .label = "parameter", .number = i, .count = nw_value(count), .row = true});
        on = leave(w, step_number(w, "parameter_tag", "", 8, nw_command_parameter(BODY(w), at, i)));
    }
    return on && terminals(w, at, "resource_code");
}

static bool content(struct walk *w, uint64_t tag, size_t at, nw_part part) {
    static bool (*const ways[])(struct walk *, size_t) = {set_clock, set_code, set_frequency, set_return, set_period, set_volume, query};
    if (tag < NW_CLOCK || tag > NW_QUERY) return step_opaque(w, "configure_cmd_char", "content", part);
    return ways[tag - NW_CLOCK](w, at) && step_left(w, NW_PAST_PART);
}

static bool command(struct walk *w, uint64_t i) {
    size_t at = w->bit / 8;
    nw_answer tag = nw_command_tag(BODY(w), at);
    if (at >= w->body.n) tag = (nw_answer){nw_configuration_command(BODY(w), i).packed}; // the tag is cut off: refused as the part is
    nw_part part = nw_command_content(BODY(w), at);
    if (!step_named(w, "configure_cmd_tag", "command", 8, tag, command_words(nw_value(tag))) ||
        !step_length(w, "configure_cmd_length", 16, part))
        return false;
    size_t before = w->end;
    w->end = nw_part_start(part) + nw_part_length(part);
    bool on = content(w, nw_value(tag), at, part);
    w->end = before;
    return on;
}

bool walk_configuration(struct walk *w) {
    nw_answer count = nw_configuration_command_count(BODY(w));
    bool on = step_count(w, "configure_cmd_number", "commands", count);
    for (uint64_t i = 0; on && i < nw_value(count); i++) {
        enter(w, (struct group){.name = "configure_cmd", .label = "command", .number = i, .count = nw_value(count)});
        on = leave(w, command(w, i));
    }
    return on && step_signature(w, nw_configuration_signature(BODY(w)));
}
