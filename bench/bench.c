// bench: the library's speed beside plain C's and its peers', in one run; bench.h says how an operation is added.
// SPDX-License-Identifier: MIT
#include <stdlib.h>
#include <string.h>

#include "measure.h"
#include "plain_numbers.h"

// The sizes of a table of which a body, a form and every field are looked at.
#define TABLE_SIZES {4 * 1024, 64 * 1024, MOST_TABLE}
#define SECTION_SIZES {4096, 16 * 4096, 256 * 4096}

// The library and plain C, and what it is to take at most of plain C's time.
#define LIBRARY(work) {"neapwillow", work##_library, 0}
#define BOTH_WITHIN(bound, work, name) LIBRARY(work), {name, work##_plain, bound}
#define BOTH(work, name) BOTH_WITHIN(1.2, work, name)

// Gathering is held to copying and CRC_32 alone besides.
#define GATHERED {BOTH(gather, "C, slicing by 8"), {"memcpy, nw_crc32", copied_library, 1.1}, {"memcpy, slicing by 8", copied_plain, 1.1}}

static const struct operation operations[] = {
    {"CRC_32",
     fill_bytes,
     {BOTH(crc32, "C, slicing by 8"), {"C, byte table", crc32_byte_table, 1.2} PEERS({"libdvbpsi", crc32_dvbpsi, 0}, {"libavutil", crc32_avutil, 0})},
     {12, 64, 256, 1024, 4096}},
    {"empty section read", fill_section, {BOTH_WITHIN(1.0, section_read, "C, slicing by 8")}, {12}},
    {"section read", fill_section, {BOTH(section_read, "C, slicing by 8")}, {188, 4096}},
    {"time from text", fill_text, {BOTH(time_read_text, "C")}, {19}},
    {"time from a field", fill_field, {BOTH(time_unpack, "C")}, {5}},
    {"cutting", fill_bytes, {BOTH(section_cut, "C, slicing by 8")}, {4084, 16 * 4084, 256 * 4084}},
    {"salvage, all good", fill_in_order, {BOTH(salvage, "C, slicing by 8")}, {4096, NW_MOST_CAPTURE}},
    {"salvage, worst", fill_false, {BOTH(salvage, "C, slicing by 8")}, {NW_MOST_CAPTURE}},
    {"packets from sections", fill_in_order, {BOTH(packets_of, "C, memcpy")}, SECTION_SIZES},
    {"sections from packets",
     fill_packets,
     {BOTH(sections_of, "C, memcpy")},
     {NW_MOST_PACKED, 16 * NW_MOST_PACKED, 256 * NW_MOST_PACKED}},
    {"table from packets",
     fill_packets,
     {BOTH(table_of, "C, slicing by 8") PEERS({"libdvbpsi", table_of_dvbpsi, 0})},
     {NW_MOST_PACKED, 16 * NW_MOST_PACKED, 256 * NW_MOST_PACKED}},
    {"feeding", fill_feeding, {BOTH(feed, "C, slicing by 8")}, {12, 4096}},
    {"gathering, in order", fill_in_order, GATHERED, SECTION_SIZES},
    {"gathering, reversed", fill_reversed, GATHERED, SECTION_SIZES},
    {"gathering, shuffled", fill_shuffled, GATHERED, SECTION_SIZES},
    {"gathering, twice", fill_twice, {BOTH(gather, "C, slicing by 8")}, {2 * 4096, 32 * 4096, 512 * 4096}},
    {"feeding, one of two", fill_feeding_two, {BOTH(feed_two, "C, slicing by 8")}, {12, 4096}},
    {"gathering, two", fill_in_order, {BOTH(gather_two, "C, slicing by 8")}, SECTION_SIZES},
    {"teaching, one feed",
     fill_teaching_feed,
     {{"the slow one", teaching_feed_slow, 0}, {"the quick one", teaching_feed_quick, 0}},
     {4 * 4096, 16 * 4096, 64 * 4096}},
    {"teaching, handing out",
     fill_teaching_body,
     {{"the slow one", teaching_hand_out_slow, 0}, {"the quick one", teaching_hand_out_quick, 0}},
     {4 * 4096, 16 * 4096, 64 * 4096}},
    {"packing", fill_packing, {BOTH(gathering_pack, "C, memmove")}, {SHORT_PAYLOAD, 16 * SHORT_PAYLOAD, 256 * SHORT_PAYLOAD}},
    {"certificate read", fill_certificate, {BOTH(certificate_read, "C")}, TABLE_SIZES},
    {"certificate written", fill_certificate, {BOTH(certificate_write, "C")}, TABLE_SIZES},
    {"index read", fill_index, {BOTH(index_read, "C")}, TABLE_SIZES},
    {"index written", fill_index, {BOTH(index_write, "C")}, TABLE_SIZES},
    {"index asked", fill_index, {BOTH(index_asked, "C")}, TABLE_SIZES},
    {"screen, 255 messages", fill_screen, {BOTH(screen_choose, "C")}, {SCREEN_BYTES}},
    {"content 24, read", fill_content_24, {BOTH(content_read, "C")}, TABLE_SIZES},
    {"content 32, read", fill_content_32, {BOTH(content_read, "C")}, TABLE_SIZES},
    {"content 24, written", fill_content_24, {BOTH(content_write, "C")}, TABLE_SIZES},
    {"content 32, written", fill_content_32, {BOTH(content_write, "C")}, TABLE_SIZES},
    {"content 24, asked", fill_content_24, {BOTH(content_asked, "C")}, TABLE_SIZES},
    {"content 32, asked", fill_content_32, {BOTH(content_asked, "C")}, TABLE_SIZES},
    {"configuration read", fill_configuration, {BOTH(configuration_read, "C")}, TABLE_SIZES},
    {"configuration written", fill_configuration, {BOTH(configuration_write, "C")}, TABLE_SIZES},
    {"configuration asked", fill_configuration, {BOTH(configuration_asked, "C")}, TABLE_SIZES},
};

enum { OPERATIONS = sizeof operations / sizeof operations[0], MOST_ROWS = OPERATIONS * MOST_SIZES };

// ---- what is asked for

// `kept` has the tables of earlier runs, by whose times these rows begin, and gets this one's.
struct wishes {
    const char *about, *word, *table, *plot, *before, *kept;
};

static void usage(const char *typed, const char *wrong) {
    fprintf(stderr, "%s: %s: %s\nusage: %s %s\n", meter.tool, typed, wrong, meter.tool, meter.words);
    exit(2);
}

static void take_word(struct wishes *w, const char *word) {
    if (*word == '-') usage(word, "there is no such option");
    if (w->word) usage(word, "a second word");
    w->word = word;
}

// Where the value of an option goes that names a file.
static const char **file_of(struct wishes *w, const char *option) {
    if (strcmp(option, "--table") == 0) return &w->table;
    if (strcmp(option, "--plot") == 0) return &w->plot;
    if (strcmp(option, "--before") == 0) return &w->before;
    return strcmp(option, "--kept") == 0 ? &w->kept : NULL;
}

static struct wishes wishes_of(int count, char **words) {
    struct wishes w = {.about = words[1]};
    for (int i = 2; i < count; i++) {
        const char **file = file_of(&w, words[i]);
        if (file && i + 1 == count) usage(words[i], "its value is missing");
        if (file) *file = words[++i];
        else take_word(&w, words[i]);
    }
    return w;
}

// ---- what is told

static FILE *opened(const char *path, const char *mode) {
    FILE *file = fopen(path, mode);
    if (file) return file;
    perror(path);
    exit(2);
}

static void closed(FILE *file, const char *path) {
    int bad = ferror(file);
    if (fclose(file) == 0 && !bad) return;
    fprintf(stderr, "%s: %s is not whole\n", meter.tool, path);
    exit(2);
}

// The rows of those operations whose name has the word in it.
static size_t rows_of(const char *word, struct row *rows) {
    size_t count = 0;
    for (const struct operation *o = operations; o < operations + OPERATIONS; o++) {
        if (word && !strstr(o->name, word)) continue;
        for (size_t i = 0; i < MOST_SIZES && o->sizes[i] > 0; i++) rows[count++] = (struct row){.operation = o, .bytes = o->sizes[i]};
    }
    if (count == 0) usage(word, "no operation has this in its name");
    return count;
}

static void measure_all(struct row *rows, size_t count) {
    print_heading();
    for (struct row *r = rows; r < rows + count; r++) {
        measure(r);
        print_row(r);
    }
}

int main(int count, char **words) {
    static struct row rows[MOST_ROWS];
    if (count < 2) usage("no words", "the tool of this name runs this");
    struct wishes w = wishes_of(count, words);
    size_t measured = rows_of(w.word, rows);
    FILE *before = w.before ? opened(w.before, "r") : NULL, *kept = w.kept ? opened(w.kept, "a+") : NULL;
    if (before && read_table(before, rows, measured, 1) == 0) usage(w.before, "it has no time of what is measured");
    if (kept) read_table(kept, rows, measured, 0);
    FILE *table = w.table ? opened(w.table, "w") : NULL, *plot = w.plot ? opened(w.plot, "w") : NULL;
    plain_fill_tables();
    begin_measuring();
    printf("%s\n", w.about);
    measure_all(rows, measured);
    if (kept) write_table(kept, w.about, rows, measured, 0);
    if (table) write_table(table, w.about, rows, measured, w.before != NULL);
    if (plot) write_plot(plot, w.about, rows, measured);
    if (before) closed(before, w.before);
    if (kept) closed(kept, w.kept);
    if (table) closed(table, w.table);
    if (plot) closed(plot, w.plot);
    return 0;
}
