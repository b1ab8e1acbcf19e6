// The configuration table's target.
// SPDX-License-Identifier: MIT
#include "table.h"

static void put_terminals(struct input *in, nw_form *f) {
    for (size_t count = put_count(in, f, 3); count > 0; count--) put_resource(in, f);
}

static void put_clock(struct input *in, nw_form *f) {
    static const unsigned least[] = {1901, 1, 1, 0, 0, 0}, most[] = {2037, 12, 28, 23, 59, 59};
    for (int i = 0; i < 6; i++) put_number(in, f, least[i], most[i]);
}

static void put_return(struct input *in, nw_form *f) {
    static const char *const addresses[] = {"13800138000", "\1\2\3\4\5\6", "box.example:65535"};
    size_t kind = upto(in, 2), bytes = strlen(addresses[kind]);
    uint8_t address[32];
    memcpy(address, addresses[kind], bytes);
    if (now_and_then(in, 8)) address[upto(in, bytes - 1)] = (uint8_t)take(in, 1);
    nw_form_number(f, kind + 1);
    nw_form_bytes(f, address, now_and_then(in, 16) ? upto(in, bytes) : bytes);
}

// What stands before the terminals of a command of tags 3 to 7.
static void put_fields(struct input *in, nw_form *f, uint64_t tag) {
    if (tag == 3 || tag == 5) put_number(in, f, 0, 0xFFFFFF);
    if (tag == 3) put_number(in, f, 0, 0xFFFFFF);
    if (tag == 3) put_number(in, f, 0, 5);
    if (tag == 4) put_return(in, f);
    if (tag == 6) put_number(in, f, 0, 100);
    if (tag == 7)
        for (size_t count = put_count(in, f, 4); count > 0; count--) put_number(in, f, 0, 255);
}

static void make(struct input *in, nw_form *f) {
    for (size_t count = put_count(in, f, 4); count > 0; count--) {
        uint64_t tag = now_and_then(in, 16) ? take(in, 1) : 1 + take(in, 1) % 7;
        nw_form_number(f, tag);
        if (tag == 1) put_clock(in, f);
        if (tag == 2 || tag == 0 || tag > 7) put_some(in, f);
        if (tag == 2) put_resource(in, f);
        put_fields(in, f, tag);
        if (tag >= 3 && tag <= 7) put_terminals(in, f);
    }
    put_some(in, f);
}

typedef nw_answer of_command(const uint8_t *body, size_t n, size_t p);

static const struct {
    of_command *ask;
    uint64_t tag, most;
} numbers[] = {
    {nw_command_clock_year, 1, 2038},         {nw_command_clock_month, 1, 12},           {nw_command_clock_day, 1, 31},
    {nw_command_clock_hour, 1, 23},           {nw_command_clock_minute, 1, 59},          {nw_command_clock_second, 1, 59},
    {nw_command_frequency, 3, UINT32_MAX},    {nw_command_symbol_rate, 3, UINT32_MAX},   {nw_command_mapping, 3, 5},
    {nw_command_return_kind, 4, 3},           {nw_command_period, 5, UINT32_MAX},        {nw_command_volume, 6, 100},
    {nw_command_parameter_count, 7, 255},
};

// A field is told of a command with its tag only; of an accepted body it is always told then.
static void ask_numbers(const uint8_t *body, size_t n, size_t p, nw_answer tag, bool accepted) {
    for (size_t i = 0; i < sizeof numbers / sizeof numbers[0]; i++) {
        nw_answer a = numbers[i].ask(body, n, p);
        hold_number(a, numbers[i].most);
        must(!taken(a) || (taken(tag) && nw_value(tag) == numbers[i].tag));
        must(!accepted || taken(a) == (nw_value(tag) == numbers[i].tag));
    }
}

static void ask_command(struct input *in, const uint8_t *body, size_t n, size_t p, bool accepted) {
    nw_answer tag = nw_command_tag(body, n, p), terminals = nw_command_terminal_count(body, n, p);
    hold_number(tag, 255);
    ask_numbers(body, n, p, tag, accepted);
    hold_part(nw_command_code_address(body, n, p), n);
    hold_part(nw_command_code_resource(body, n, p), n);
    hold_part(nw_command_return_address(body, n, p), n);
    for (uint64_t j = 0; j < 23; j++) hold_number(nw_command_code_digit(body, n, p, j), 9);
    must(!taken(nw_command_code_digit(body, n, p, 23 + take(in, 7))));
    hold_number(nw_command_parameter(body, n, p, take(in, 1) % 8), 255);
    hold_number(terminals, 255);
    for (uint64_t i = 0; taken(terminals) && i <= nw_value(terminals); i++) {
        nw_part terminal = nw_command_terminal(body, n, p, i);
        hold_part(terminal, n);
        must(!accepted || taken(terminal) == (i < nw_value(terminals)));
        for (uint64_t j = 0; j < 24; j++) hold_number(nw_command_terminal_digit(body, n, p, i, j), 9);
    }
    must(!taken(nw_command_terminal_digit(body, n, p, take(in, 8), 23)));
}

static void ask(struct input *in, const uint8_t *body, size_t n, bool accepted) {
    nw_answer count = nw_configuration_command_count(body, n);
    nw_part signature = nw_configuration_signature(body, n);
    size_t p = 1;
    hold_number(count, 255);
    hold_part(signature, n);
    for (uint64_t i = 0; taken(count) && i < nw_value(count); i++) {
        nw_part command = nw_configuration_command(body, n, i), content = nw_command_content(body, n, p);
        hold_part(command, n);
        hold_part(content, n);
        must(!accepted || taken(content));
        ask_command(in, body, n, p, accepted);
        if (!taken(content)) break;
        must(taken(command) && nw_part_start(command) == p && nw_part_start(content) == p + 3);
        must(nw_part_length(command) == 3 + nw_part_length(content));
        p += nw_part_length(command);
    }
    must(!taken(nw_configuration_command(body, n, nw_value(count) + take(in, 7))));
    ask_command(in, body, n, upto(in, n + 1), false);
    ask_command(in, body, n, (size_t)take(in, 8), false);
    must(!accepted || (taken(count) && taken(signature) && nw_part_start(signature) + nw_part_length(signature) == n));
}

static size_t enough(size_t n) { return NW_CONFIGURATION_ENTRIES(n); }

static const struct table configuration = {
    NW_CONFIGURATION, nw_configuration_read, nw_configuration_lay, nw_configuration_measure, nw_configuration_write, enough, make, ask,
};

int LLVMFuzzerTestOneInput(const uint8_t *data, size_t size) {
    try_table(&configuration, (struct input){data, size});
    return 0;
}
