// road: goes the whole road from a form to a screen through the library, once for each form on standard input, and prints the screen.
//
// A form is lines of words with tabs between: `form OFFSET VARIANT VERSION SEED`, then for each message `message IDENTIFIER NETWORK START
// END TYPE CLASS LEVEL RESOURCES..`, of which some have a content table, `content MESSAGE`, with `language LETTERS SET TEXT AGENCY FILES..`
// for each language, where a file is its type and its data; then `go`. Bytes are in hexadecimal, - for none; a live end is the word live.
// What is shown is printed in the same words, from the bodies that were handed out alone, so that a screen has the characters of its form.
// SPDX-License-Identifier: MIT
#include <inttypes.h>
#include <stdio.h>
#include <stdlib.h>
#include <string.h>

#include "neapwillow.h"

enum { MESSAGES = 256, TABLES = 16, ENTRIES = 8192, POOL = 2 << 20, SECTIONS = 4096, LINE = 4 << 20, WORDS = 400 };

struct table {
    uint8_t *body;
    size_t n;
    unsigned kind, extension;
};

struct section {
    uint8_t *at;
    size_t n;
};

static char line[LINE];
static char *word[WORDS];
static size_t words;
static int32_t offset;
static uint32_t variant, version;
static uint64_t seed;
static uint8_t pool[POOL];
static uint64_t tape[ENTRIES];
static nw_form index_form, content_form;
static uint8_t index_pool[POOL / 8];
static uint64_t index_tape[ENTRIES];
static size_t languages;        // the entry of the count of a content table's languages
static char digits_of[MESSAGES][NW_IDENTIFIER_DIGITS + 1];
static size_t messages;
static struct table tables[TABLES];
static size_t table_count;
static struct section sent[SECTIONS], got[SECTIONS];
static size_t sent_count, got_count;

static _Noreturn void stop(const char *what, unsigned refusal) {
    fprintf(stderr, "road: %s (refusal %u)\n", what, refusal);
    exit(2);
}

static void *memory(size_t n) {
    void *p = malloc(n > 0 ? n : 1);
    if (p == NULL) stop("no memory", 0);
    return p;
}

static uint64_t below(uint64_t n) {
    seed ^= seed << 13;
    seed ^= seed >> 7;
    seed ^= seed << 17;
    return (seed >> 11) % n;
}

// ---- the form

static uint8_t digit(char c) { return (uint8_t)(c <= '9' ? c - '0' : c - 'a' + 10); }

static void put_hex(nw_form *f, const char *text) {
    static uint8_t bytes[LINE / 2];
    size_t n = 0;
    for (; *text != '-' && text[2 * n] != '\0'; n++) bytes[n] = (uint8_t)(digit(text[2 * n]) << 4 | digit(text[2 * n + 1]));
    nw_form_bytes(f, bytes, n);
}

static void put_identifier(nw_form *f, const char *text) {
    uint8_t bytes[NW_IDENTIFIER_BYTES];
    nw_identifier_bytes(text, bytes);
    nw_form_bytes(f, bytes, sizeof bytes);
}

// word: message IDENTIFIER NETWORK START END TYPE CLASS LEVEL RESOURCES..
static void take_message(void) {
    uint64_t fields[2];
    uint8_t resource[NW_RESOURCE_BYTES];
    nw_answer typed = nw_times_read_text((uint8_t *)word[3], strlen(word[3]), (uint8_t *)word[4], strlen(word[4]), strcmp(word[4], "live") == 0,
                                         offset, fields);
    if (NW_REFUSAL(typed) != NW_TAKEN) stop(word[3], NW_REFUSAL(typed));
    snprintf(digits_of[messages++], sizeof digits_of[0], "%s", word[1]);
    nw_form_thing(&index_form, 0);
    put_identifier(&index_form, word[1]);
    nw_form_number(&index_form, strtoull(word[2], NULL, 10));
    nw_form_number(&index_form, fields[0]);
    nw_form_number(&index_form, fields[1]);
    put_hex(&index_form, word[5]);
    nw_form_number(&index_form, strtoull(word[6], NULL, 10));
    nw_form_number(&index_form, strtoull(word[7], NULL, 10));
    nw_form_number(&index_form, words - 8);
    for (size_t i = 8; i < words; i++) {
        nw_resource_bytes(word[i], resource);
        nw_form_bytes(&index_form, resource, sizeof resource);
    }
    nw_form_number(&index_form, 0); // no channel
}

// word: language LETTERS SET TEXT AGENCY FILES..
static void take_language(void) {
    nw_form_thing(&content_form, languages);
    nw_form_bytes(&content_form, (uint8_t *)word[1], 3);
    nw_form_number(&content_form, strtoull(word[2], NULL, 10));
    put_hex(&content_form, word[3]);
    put_hex(&content_form, word[4]);
    nw_form_number(&content_form, (words - 5) / 2);
    for (size_t i = 5; i + 1 < words; i += 2) {
        nw_form_number(&content_form, strtoull(word[i], NULL, 10));
        put_hex(&content_form, word[i + 1]);
    }
}

static void add_table(const uint8_t *body, size_t n, unsigned kind, unsigned extension) {
    struct table *t = &tables[table_count++];
    if (table_count > TABLES) stop("too many tables", 0);
    *t = (struct table){memory(n), n, kind, extension};
    memcpy(t->body, body, n);
}

static uint8_t written[NW_MOST_BODY];

static void end_content(void) {
    if (languages == 0) return;
    nw_form_bytes(&content_form, NULL, 0); // no signature
    nw_written made = nw_content_write(variant, content_form.pool, content_form.pool_bytes, content_form.tape, content_form.entries, written, sizeof written);
    if (NW_REFUSAL(made) != NW_TAKEN) stop("a content table", NW_REFUSAL(made));
    add_table(written, nw_written_length(made), NW_CONTENT, nw_written_extension(made));
    languages = 0;
}

static void begin_content(void) {
    end_content();
    content_form = nw_form_start(pool, sizeof pool, tape, ENTRIES);
    put_identifier(&content_form, digits_of[strtoull(word[1], NULL, 10)]);
    languages = nw_form_list(&content_form);
}

// The index, last, so that other tables stand before it; and a table of a stranger's.
static void end_form(void) {
    end_content();
    nw_form_bytes(&index_form, NULL, 0); // no signature
    nw_answer made = nw_index_write(index_form.pool, index_form.pool_bytes, index_form.tape, index_form.entries, written, sizeof written);
    if (NW_REFUSAL(made) != NW_TAKEN) stop("the index table", NW_REFUSAL(made));
    add_table(written, (size_t)nw_value(made), NW_INDEX, 0);
    for (size_t i = 0; i < 6000; i++) written[i] = (uint8_t)below(256);
    add_table(written, 1 + below(6000), NW_CERTIFICATE, (unsigned)below(65536));
}

// ---- the way

static void add(struct section *list, size_t *count, const uint8_t *s, size_t n) {
    if (*count == SECTIONS) stop("too many sections", 0);
    list[*count] = (struct section){memory(n), n};
    memcpy(list[(*count)++].at, s, n);
}

static void shuffle(struct section *list, size_t n) {
    for (size_t i = n; i > 1; i--) {
        size_t k = below(i);
        struct section s = list[i - 1];
        list[i - 1] = list[k];
        list[k] = s;
    }
}

static void cut(const struct table *t) {
    uint8_t out[NW_MOST_SECTION];
    for (uint32_t number = 0; number < nw_value(nw_section_count(t->n)); number++)
        for (uint64_t again = below(4) == 0 ? 2 : 1; again > 0; again--) {
            nw_answer made = nw_section_cut(t->body, t->n, t->kind, t->extension, version, number, out, sizeof out);
            if (NW_REFUSAL(made) != NW_TAKEN) stop("a section", NW_REFUSAL(made));
            add(sent, &sent_count, out, (size_t)nw_value(made));
        }
}

// All sections go into one stream of packets, and what the unpacker gives is taken apart.
static void carry(void) {
    static uint8_t packets[NW_MOST_PACKED], out[NW_MOST_COMPLETED_BYTES], state[NW_UNPACKER_BYTES];
    uint32_t counter = (uint32_t)below(16);
    memset(state, 0, sizeof state);
    for (size_t i = 0; i < sent_count; i++) {
        nw_answer packed = nw_packet_pack(sent[i].at, sent[i].n, counter, packets, sizeof packets);
        if (NW_REFUSAL(packed) != NW_TAKEN) stop("a section's packets", NW_REFUSAL(packed));
        counter = (uint32_t)((counter + nw_value(packed) / NW_PACKET_BYTES) % 16);
        for (size_t at = 0; at < nw_value(packed); at += NW_PACKET_BYTES) {
            nw_answer given = nw_packet_unpack(state, packets + at, NW_PACKET_BYTES, out, sizeof out);
            if (NW_REFUSAL(given) != NW_TAKEN) stop("a packet", NW_REFUSAL(given));
            for (size_t from = 0; from < nw_value(given);) {
                size_t n = (size_t)nw_value(nw_section_length(out + from, nw_value(given) - from));
                add(got, &got_count, out + from, n);
                from += n;
            }
        }
    }
}

static int is_of(const struct section *s, unsigned kind, unsigned extension) {
    nw_heading h = nw_section_read(s->at, s->n);
    return nw_heading_kind(h) == kind && nw_heading_extension(h) == extension;
}

// A fresh gathering of one table, fed everything in another order, a section of its own first; the body is put into an exact output.
static struct table gathered(unsigned kind, unsigned extension) {
    nw_gathering g = NW_FRESH;
    shuffle(got, got_count);
    size_t first = 0;
    while (first < got_count && !is_of(&got[first], kind, extension)) first++;
    if (first == got_count) stop("no section of the table has come", 0);
    struct section s = got[first];
    got[first] = got[0];
    got[0] = s;
    size_t room = NW_STORE_BYTES(nw_heading_last(nw_section_read(s.at, s.n)));
    uint8_t *store = memory(room);
    for (size_t i = 0; i < got_count; i++) nw_gathering_feed(&g, store, room, got[i].at, got[i].n);
    struct table t = {memory(g.bytes), g.bytes, kind, extension};
    nw_answer handed = nw_gathering_hand_out(&g, store, room, t.body, t.n);
    if (NW_REFUSAL(handed) != NW_TAKEN || nw_value(handed) != t.n) stop("a body", NW_REFUSAL(handed));
    free(store);
    return t;
}

// ---- the screen

static void show_bytes(const struct table *t, nw_part p) {
    static const char digits[] = "0123456789abcdef";
    if (nw_part_length(p) == 0) putchar('-');
    for (size_t i = 0; i < nw_part_length(p); i++) {
        putchar(digits[t->body[nw_part_start(p) + i] >> 4]);
        putchar(digits[t->body[nw_part_start(p) + i] & 15]);
    }
}

static void show_time(nw_answer (*print)(uint64_t, int32_t, uint8_t *, size_t), nw_answer field) {
    uint8_t text[NW_TIME_TEXT];
    nw_answer shown = print(nw_value(field), offset, text, sizeof text);
    if (NW_REFUSAL(field) != NW_TAKEN || NW_REFUSAL(shown) != NW_TAKEN) stop("a time", NW_REFUSAL(shown));
    printf("\t%.*s", (int)nw_value(shown), (const char *)text);
}

static void show_message(const struct table *t, size_t at, size_t n) {
    char digits[NW_IDENTIFIER_DIGITS + 1];
    printf("message\t%s", nw_identifier_text(t->body + nw_part_start(nw_message_identifier(t->body, t->n, at, n)), digits));
    printf("\t%" PRIu64, nw_value(nw_message_network(t->body, t->n, at, n)));
    show_time(nw_time_print_start, nw_message_start(t->body, t->n, at, n));
    show_time(nw_time_print_end, nw_message_end(t->body, t->n, at, n));
    putchar('\t');
    show_bytes(t, nw_message_type(t->body, t->n, at, n));
    printf("\t%" PRIu64, nw_value(nw_message_class(t->body, t->n, at, n)));
    printf("\t%" PRIu64, nw_value(nw_message_level(t->body, t->n, at, n)));
    for (uint64_t i = 0; i < nw_value(nw_message_resource_count(t->body, t->n, at, n)); i++)
        printf("\t%s", nw_resource_text(t->body + nw_part_start(nw_message_resource(t->body, t->n, at, n, i)), digits));
    putchar('\n');
}

static void show_language(const struct table *t, nw_part language) {
    size_t at = nw_part_start(language), n = nw_part_length(language);
    nw_part letters = nw_language_letters(t->body, t->n, at, n);
    printf("language\t%.3s\t%" PRIu64 "\t", (const char *)t->body + nw_part_start(letters), nw_value(nw_language_character_set(t->body, t->n, at, n)));
    show_bytes(t, nw_language_text(t->body, t->n, at, n));
    putchar('\t');
    show_bytes(t, nw_language_agency(t->body, t->n, at, n));
    for (uint64_t i = 0; i < nw_value(nw_language_auxiliary_count(t->body, t->n, at, n)); i++) {
        printf("\t%" PRIu64 "\t", nw_value(nw_language_auxiliary_type(variant, t->body, t->n, at, n, i)));
        show_bytes(t, nw_language_auxiliary(variant, t->body, t->n, at, n, i));
    }
    putchar('\n');
}

// The content table that is found by the extension of message number i of the index, if one was sent, and is this message's: another message's
// identifier may have the same checksum.
static void show_content(const struct table *index, uint64_t message) {
    size_t i = 0;
    nw_part its = nw_index_message(index->body, index->n, message);
    size_t at = nw_part_start(its), n = nw_part_length(its);
    unsigned extension = (unsigned)nw_value(nw_message_extension(index->body, index->n, at, n));
    const uint8_t *identifier = index->body + nw_part_start(nw_message_identifier(index->body, index->n, at, n));
    while (i < got_count && !is_of(&got[i], NW_CONTENT, extension)) i++;
    if (i == got_count) return;
    struct table t = gathered(NW_CONTENT, extension);
    nw_answer read = nw_content_read(NW_CONTENT, variant, extension, t.body, t.n);
    if (NW_REFUSAL(read) != NW_TAKEN) stop("a content table is read", NW_REFUSAL(read));
    if (memcmp(t.body + nw_part_start(nw_content_identifier(t.body, t.n)), identifier, NW_IDENTIFIER_BYTES) == 0) {
        printf("content\t%" PRIu64 "\n", message);
        for (uint64_t k = 0; k < nw_value(nw_content_language_count(t.body, t.n)); k++) show_language(&t, nw_content_language(t.body, t.n, k));
    }
    free(t.body);
}

static void show(void) {
    struct table t = gathered(NW_INDEX, 0);
    nw_answer read = nw_index_read(NW_INDEX, t.body, t.n);
    if (NW_REFUSAL(read) != NW_TAKEN) stop("the index table is read", NW_REFUSAL(read));
    uint64_t count = nw_value(nw_index_message_count(t.body, t.n));
    for (uint64_t i = 0; i < count; i++) {
        nw_part message = nw_index_message(t.body, t.n, i);
        show_message(&t, nw_part_start(message), nw_part_length(message));
    }
    for (uint64_t i = 0; i < count; i++) show_content(&t, i);
    puts("go");
    free(t.body);
}

// ---- one form after the other

static void forget(void) {
    for (size_t i = 0; i < table_count; i++) free(tables[i].body);
    for (size_t i = 0; i < sent_count; i++) free(sent[i].at);
    for (size_t i = 0; i < got_count; i++) free(got[i].at);
    table_count = sent_count = got_count = messages = languages = 0;
}

static void begin(void) {
    offset = (int32_t)strtol(word[1], NULL, 10);
    variant = (uint32_t)strtoul(word[2], NULL, 10);
    version = (uint32_t)strtoul(word[3], NULL, 10);
    seed = strtoull(word[4], NULL, 10) | 1;
    index_form = nw_form_start(index_pool, sizeof index_pool, index_tape, ENTRIES);
    nw_form_list(&index_form);
}

static void go(void) {
    end_form();
    for (size_t i = 0; i < table_count; i++) cut(&tables[i]);
    shuffle(sent, sent_count);
    carry();
    if (got_count != sent_count) stop("other sections have come than were sent", 0);
    show();
    forget();
}

static void split(void) {
    words = 0;
    for (char *w = strtok(line, "\t\n"); w != NULL && words < WORDS; w = strtok(NULL, "\t\n")) word[words++] = w;
}

int main(void) {
    while (fgets(line, sizeof line, stdin) != NULL) {
        split();
        if (strcmp(word[0], "form") == 0) begin();
        else if (strcmp(word[0], "message") == 0) take_message();
        else if (strcmp(word[0], "content") == 0) begin_content();
        else if (strcmp(word[0], "language") == 0) take_language();
        else go();
    }
    return ferror(stdin) || fflush(stdout) != 0 ? 2 : 0;
}
