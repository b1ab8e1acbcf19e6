// bench.h: what the files of the benchmark share: operations, their contenders, and what these are given.
//
// A new operation is its work in contenders.c, written once for the library and for plain C, and its name in EACH_WORK; what fills its input, in
// given_sections.c or given_tables.c; and its line in `operations` of bench.c.
// SPDX-License-Identifier: MIT
#ifndef BENCH_H
#define BENCH_H

#include "neapwillow-screen.h"
#include "plain_answers.h"

enum { MOST_CONTENDERS = 6, MOST_SIZES = 5, MOST_TABLE = 1000000 };

// ---- operations

// A work goes over n bytes of the input, may write `output`, and gives back a number that tells what it found.
typedef uint64_t work(const uint8_t *s, size_t n);

// Of an absent peer there is no work. The library is to take at most `bound` of a contender's time; 0: nothing is asked.
struct contender {
    const char *name;
    work *run;
    double bound;
};

// The first contender is held to the others.
struct operation {
    const char *name;
    void (*fill)(size_t n);
    struct contender contenders[MOST_CONTENDERS];
    size_t sizes[MOST_SIZES];
};

#define EACH_WORK(X)                                                                                                 \
    X(crc32) X(section_read) X(section_cut) X(salvage) X(time_read_text) X(time_unpack)                              \
    X(packets_of) X(sections_of) X(table_of)                                                                         \
    X(feed) X(gather) X(gathering_pack) X(feed_two) X(gather_two)                                                    \
    X(certificate_read) X(certificate_write) X(index_read) X(index_write) X(index_asked) X(screen_choose)            \
    X(content_read) X(content_write) X(content_asked)                                                                \
    X(configuration_read) X(configuration_write) X(configuration_asked)
#define DECLARED(name) work name##_library, name##_plain;
EACH_WORK(DECLARED)

// A byte at a time; what gathering has to do at least, by the library's CRC_32 and by plain C's.
work crc32_byte_table, copied_library, copied_plain;

// Debian's peers, where their packages are.
#ifdef WITH_DVBPSI
work crc32_dvbpsi, table_of_dvbpsi;
#else
#define crc32_dvbpsi NULL
#define table_of_dvbpsi NULL
#endif
#ifdef WITH_AVUTIL
work crc32_avutil;
#else
#define crc32_avutil NULL
#endif

// Peers stand after an operation's other contenders. Where none could be there, no row tells of them.
#ifdef WITHOUT_PEERS
#define PEERS(...)
#else
#define PEERS(...) , __VA_ARGS__
#endif

// The slow gathering to teach with, and the quick one.
work teaching_feed_slow, teaching_feed_quick, teaching_hand_out_slow, teaching_hand_out_quick;

// ---- what they are given

extern uint8_t input[512 * NW_MOST_SECTION], output[256 * NW_MOST_PACKED];

// What contenders lend to calls: the same memory for each. An unpacker's state is written and read again at once, and where it begins can cost either more than
// twice the time: so each turn has another place.
extern uint8_t *lent_state;
void place_state(int turn);
extern uint8_t lent_store[NW_ROOMS_BYTES(NW_MOST_ROOMS)];
extern uint32_t lent_list[NW_SALVAGE_NUMBERS(NW_MOST_CAPTURE)];
extern nw_record lent_records[NW_MOST_MESSAGES];

// A state that holds the second section of two, for one network and for each of two; and one that holds a whole table, to be packed.
extern nw_gathering half, whole;
extern nw_networks halves;
extern uint8_t half_store[NW_STORE_BYTES(1)], halves_store[NW_ROOMS_BYTES(4)];
enum { SHORT_PAYLOAD = NW_MOST_PAYLOAD - 1 };

// The form of the body that is the input, which is its pool; and of a content body its variant and its table extension.
extern uint64_t tape[NW_INDEX_ENTRIES(MOST_TABLE)];
extern size_t entries;
extern uint32_t content_variant, content_extension;

// A box's code, and a moment at which every message that lists it is on; an index body of 255 messages without streams.
extern uint8_t screen_code[NW_SCREEN_CODE_DIGITS];
enum { SCREEN_DAY = 0xECC9, SCREEN_SECOND = 8 * 3600, SCREEN_BYTES = 1 + 255 * (2 + 130) + 2 };

// An offset of time, of Beijing.
enum { EAST = 480 };

typedef void filler(size_t n);
filler fill_bytes, fill_text, fill_field, fill_section, fill_false, fill_feeding, fill_feeding_two, fill_packing;
filler fill_in_order, fill_reversed, fill_shuffled, fill_twice, fill_packets, fill_teaching_feed, fill_teaching_body;
filler fill_certificate, fill_index, fill_screen, fill_content_24, fill_content_32, fill_configuration;

#endif
