// form_grammar.c: which lines stand in the written form of a table, in the order of the library's tapes (neapwillow.h has them).
// SPDX-License-Identifier: MIT
#include "form_grammar.h"

#define COUNTED(items) items, sizeof items / sizeof *items
#define BYTES_32 UINT64_C(0xFFFFFFFF)

const struct item extension_item = {.shape = CODE_LINE, .word = "extension", .most = 0xFFFF, .width = 2};
const struct item version_item = {.shape = NUMBER_LINE, .word = "version", .most = 31, .width = 1};
const char *const set_names[CHARACTER_SETS] = {"GB/T 2312", "GB/T 18030", "GB/T 13000", "GB/T 21669", "GB 16959"};

// What ends every table.
#define SIGNATURE {.shape = BYTES_LINES, .word = "signature", .most = 0xFFFF, .width = 2}

// ---- index

static const struct item descriptor_items[] = {
    {.shape = CODE_LINE, .word = "descriptor", .most = 0xFF, .width = 1},
    {.shape = BYTES_LINES, .word = "data", .most = 0xFF, .width = 1},
};
static const struct thing descriptor = {.items = COUNTED(descriptor_items)};

#define DESCRIPTORS \
    {.shape = THINGS, .word = "descriptor", .most = UINT64_MAX, .width = 2, .things = &descriptor, .kinds = 1, .all = "descriptors", .part = 0x3FF}

static const struct item stream_items[] = {
    {.shape = CODE_LINE, .word = "stream", .most = 0xFF, .width = 1},
    {.shape = CODE_LINE, .word = "pid", .most = 0x1FFF, .width = 2},
    DESCRIPTORS,
};
static const struct thing stream = {.items = COUNTED(stream_items)};

static const struct item channel_items[] = {
    {.shape = BARE_LINE, .word = "channel"},
    {.shape = NUMBER_LINE, .word = "network", .most = 0xFFFF, .width = 2},
    {.shape = NUMBER_LINE, .word = "transport", .most = 0xFFFF, .width = 2},
    {.shape = NUMBER_LINE, .word = "program", .most = 0xFFFF, .width = 2},
    {.shape = CODE_LINE, .word = "pcr", .most = 0x1FFF, .width = 2},
    DESCRIPTORS,
    {.shape = THINGS, .word = "stream", .most = UINT64_MAX, .width = 2, .things = &stream, .kinds = 1, .all = "streams", .part = 0xFFFF},
};
static const struct thing channel = {.items = COUNTED(channel_items)};

static const struct item resource_items[] = {{.shape = DIGITS_LINE, .word = "resource", .width = NW_RESOURCE_BYTES}};
static const struct thing resource = {.items = COUNTED(resource_items)};

// The channel's flag is the count of a list of at most one. Class and level share a byte.
static const struct item message_items[] = {
    {.shape = DIGITS_LINE, .word = "message", .width = NW_IDENTIFIER_BYTES},
    {.shape = NUMBER_LINE, .word = "network", .most = 0xFFFF, .width = 2},
    {.shape = START_LINE, .word = "start", .width = 5},
    {.shape = END_LINE, .word = "end", .width = 5},
    {.shape = TYPE_LINE, .word = "type", .width = 5},
    {.shape = NUMBER_LINE, .word = "class", .least = 1, .most = 4, .width = 1},
    {.shape = NUMBER_LINE, .word = "level", .least = 1, .most = 4, .width = 0},
    {.shape = THINGS, .word = "resource", .most = 255, .width = 1, .things = &resource, .kinds = 1},
    {.shape = THINGS, .word = "channel", .most = 1, .width = 1, .things = &channel, .kinds = 1},
};
static const struct thing message = {.items = COUNTED(message_items), .before = 2, .most = 0xFFFF};

static const struct item index_items[] = {
    {.shape = THINGS, .word = "message", .most = NW_MOST_MESSAGES, .width = 1, .things = &message, .kinds = 1},
    SIGNATURE,
};

// ---- content

static const struct item file_items[] = {
    {.shape = NUMBER_LINE, .word = "file", .most = 0xFF, .width = 1},
    {.shape = BYTES_LINES, .word = "data", .most = NW_MOST_BODY, .width = 0}, // by the variant
};
static const struct thing file = {.items = COUNTED(file_items)};

static const struct item language_items[] = {
    {.shape = LETTERS_LINE, .word = "language", .width = 3},
    {.shape = SET_LINE, .word = "set", .most = CHARACTER_SETS - 1, .width = 1},
    {.shape = TEXT_LINES, .word = "text", .most = 0xFFFF, .width = 2},
    {.shape = NAME_LINE, .word = "agency", .most = 0xFF, .width = 1},
    {.shape = THINGS, .word = "file", .most = 2, .width = 1, .things = &file, .kinds = 1},
};
static const struct thing language = {.items = COUNTED(language_items), .before = 4, .most = NW_MOST_BODY};

static const struct item content_items[] = {
    {.shape = DIGITS_LINE, .word = "message", .width = NW_IDENTIFIER_BYTES},
    {.shape = THINGS, .word = "language", .least = 1, .most = 5, .width = 1, .things = &language, .kinds = 1},
    SIGNATURE,
};

// ---- certificate

static const struct item authorization_items[] = {{.shape = BYTES_LINES, .word = "authorization", .most = 0xFFFF, .width = 2}};
static const struct item certificate_itself[] = {{.shape = BYTES_LINES, .word = "certificate", .most = 0xFF, .width = 1}};
static const struct thing authorization = {.items = COUNTED(authorization_items)}, one_certificate = {.items = COUNTED(certificate_itself)};

static const struct item certificate_items[] = {
    {.shape = THINGS, .word = "authorization", .most = 255, .width = 1, .things = &authorization, .kinds = 1},
    {.shape = THINGS, .word = "certificate", .most = 255, .width = 1, .things = &one_certificate, .kinds = 1},
    SIGNATURE,
};

// ---- configuration

static const struct item terminal_items[] = {{.shape = DIGITS_LINE, .word = "terminal", .width = NW_RESOURCE_BYTES}};
static const struct item parameter_items[] = {{.shape = NUMBER_LINE, .word = "parameter", .most = 0xFF, .width = 1}};
static const struct thing terminal = {.items = COUNTED(terminal_items)}, parameter = {.items = COUNTED(parameter_items)};

#define TERMINALS {.shape = THINGS, .word = "terminal", .most = 255, .width = 1, .things = &terminal, .kinds = 1}

static const struct item clock_items[] = {{.shape = CLOCK_LINE, .word = "clock", .width = 7}};
static const struct item code_items[] = {
    {.shape = BYTES_LINES, .word = "code", .most = 0xFF, .width = 1},
    {.shape = DIGITS_LINE, .word = "resource", .width = NW_RESOURCE_BYTES},
};
static const struct item frequency_items[] = {
    {.shape = NUMBER_LINE, .word = "frequency", .most = BYTES_32, .width = 4},
    {.shape = NUMBER_LINE, .word = "rate", .most = BYTES_32, .width = 4},
    {.shape = NUMBER_LINE, .word = "mapping", .most = 5, .width = 1},
    TERMINALS,
};
static const struct item return_items[] = {
    {.shape = KIND_LINE, .word = "return", .least = 1, .most = 3, .width = 1},
    {.shape = ADDRESS_LINE, .word = "address", .most = 0xFF, .width = 1},
    TERMINALS,
};
static const struct item period_items[] = {{.shape = NUMBER_LINE, .word = "period", .most = BYTES_32, .width = 4}, TERMINALS};
static const struct item volume_items[] = {{.shape = NUMBER_LINE, .word = "volume", .most = 100, .width = 1}, TERMINALS};
static const struct item query_items[] = {
    {.shape = BARE_LINE, .word = "query"},
    {.shape = THINGS, .word = "parameter", .most = 255, .width = 1, .things = &parameter, .kinds = 1},
    TERMINALS,
};
static const struct item other_items[] = {
    {.shape = TAG_LINE, .word = "command", .most = 0xFF, .width = 0}, // the tag stands before the content
    {.shape = BYTES_LINES, .word = "data", .most = 0xFFFF, .width = 0},
};

// A tag and the content's length stand before each.
#define COMMAND(number, its) {.items = COUNTED(its), .tag = number, .before = 3, .most = 0xFFFF}
static const struct thing commands[] = {
    COMMAND(NW_CLOCK, clock_items),   COMMAND(NW_CODE, code_items),     COMMAND(NW_FREQUENCY, frequency_items),
    COMMAND(NW_RETURN, return_items), COMMAND(NW_PERIOD, period_items), COMMAND(NW_VOLUME, volume_items),
    COMMAND(NW_QUERY, query_items),   COMMAND(0, other_items),
};

static const struct item configuration_items[] = {
    {.shape = THINGS, .word = "command", .most = 255, .width = 1, .things = commands, .kinds = sizeof commands / sizeof *commands},
    SIGNATURE,
};

const struct grammar grammars[GRAMMARS] = {
    {NW_INDEX, COUNTED(index_items)},
    {NW_CONTENT, COUNTED(content_items)},
    {NW_CERTIFICATE, COUNTED(certificate_items)},
    {NW_CONFIGURATION, COUNTED(configuration_items)},
};

unsigned length_width(const struct item *i, unsigned variant) { return i == &file_items[1] ? variant / 8 : i->width; }
