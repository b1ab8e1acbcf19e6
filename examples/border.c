// border [--rooms N] FILE1 FILE2: a box at a border site, which listens to two cable networks and has memory for one store. FILE1 is what came
// from network 1 and FILE2 what came from network 2: sections one after the other, damage among them, or a transport stream. Their sections
// are taken in turn, one of either network, over one store of N rooms, 1 to 512, or without the word 256: rooms for the longest table there is.
//
// Each network gathers one table at a time. A table that is whole is handed out and judged, and its gathering ends, so that its rooms are free.
// Sections of other tables, and those for which no room is free, count as not fed: they are fed again in the next round, as they would come
// again over a cable. Where a round takes nothing because every room is held, the gathering of network 2 gives way to that of network 1, and its
// sections wait until that one is done; that is said.
//
// Exit status: 0, every table of both networks is whole and accepted, and nothing of either file was damaged or lost. 1, something of that is
// not so, and it is said what, or no table came from one of them. 2, wrong usage, a file that can't be read, or output that can't be written.
//
// Limits: files of 16 MiB, 64 tables of each network; no signature is checked, and of a table nothing is shown but its length: box.c shows one.
// SPDX-License-Identifier: MIT
#include <errno.h>
#include <neapwillow.h>
#include <stdarg.h>
#include <stdbool.h>
#include <stdio.h>
#include <stdlib.h>
#include <string.h>

#include "stream.h"

enum { MOST_FILE = 1 << 24, MOST_TABLES = 64, ROOMS = 256 };
enum { WHOLE = 0, FAULTY = 1, UNUSABLE = 2 }; // exit statuses

// A good section: where it stands in its file, and how it fares.
enum fate { WAITING, HELD, DONE };
struct item {
    uint8_t *s;
    size_t n, at;
    enum fate fate;
};

// What came from one network.
struct side {
    const char *name;
    uint32_t network;
    uint8_t *file;
    size_t n;
    struct item *items;
    size_t count, room;
    nw_gathering done[MOST_TABLES]; // tables that were whole, or given up
    size_t tables, accepted;
    unsigned taken, repeated, for_room; // for_room: how often a section was refused for room
    bool waits;                         // until the table of network 1 is done
};

struct border {
    nw_networks state;
    uint8_t *store, *body;
    size_t store_bytes;
    struct side sides[2];
    unsigned faults;
};

static int unusable(const char *form, ...) {
    va_list words;
    va_start(words, form);
    fputs("border: ", stderr);
    vfprintf(stderr, form, words);
    fputc('\n', stderr);
    va_end(words);
    return UNUSABLE;
}

// Something that makes the exit status 1.
static void fault(struct border *b, const struct side *side, const char *form, ...) {
    va_list words;
    va_start(words, form);
    printf("network %u: ", (unsigned)side->network);
    vprintf(form, words);
    putchar('\n');
    va_end(words);
    b->faults++;
}

// ---- the sections of a file

// Keeps a copy of a good section.
static void keep(struct border *b, struct side *side, size_t at, const uint8_t *s, size_t n) {
    if (side->count == side->room) {
        struct item *more = realloc(side->items, (2 * side->room + 16) * sizeof *more);
        if (more != NULL) {
            side->items = more;
            side->room = 2 * side->room + 16;
        }
    }
    uint8_t *copy = side->count < side->room ? malloc(n) : NULL;
    if (copy == NULL) {
        fault(b, side, "section at byte %zu: left out, there is no memory for it", at);
        return;
    }
    side->items[side->count++] = (struct item){memcpy(copy, s, n), n, at, WAITING};
}

static void tell_no_section(struct border *b, const struct side *side, size_t at, size_t end) {
    if (at < end) fault(b, side, "bytes %zu to %zu of %s: no good section begins there", at, end - 1, side->name);
}

// A file of sections: where no good one begins, one byte is passed over.
static void read_sections(struct border *b, struct side *side) {
    size_t passed = 0;
    for (size_t at = 0; at < side->n;) {
        const uint8_t *s = side->file + at;
        nw_answer stated = nw_section_length(s, side->n - at);
        size_t length = NW_REFUSAL(stated) == NW_TAKEN ? (size_t)nw_value(stated) : side->n + 1;
        if (length > side->n - at || NW_REFUSAL(nw_section_read(s, length)) != NW_TAKEN) {
            at++;
            continue;
        }
        tell_no_section(b, side, passed, at);
        keep(b, side, at, s, length);
        passed = at += length;
    }
    tell_no_section(b, side, passed, side->n);
}

// What a transport stream lost is told as it shows.
struct listener {
    struct border *b;
    struct side *side;
};

static void tell_loss(void *own, const struct stream_loss *loss) {
    struct listener *l = own;
    fault(l->b, l->side, "packet at byte %zu: %s", (size_t)loss->at, stream_words(loss->kind));
}

static void keep_completed(struct border *b, struct side *side, size_t at, const uint8_t *s, size_t n) {
    for (size_t length; n > 0; s += length, n -= length) {
        length = 3 + ((size_t)(s[1] & 0x0F) << 8 | s[2]);
        unsigned number = NW_REFUSAL(nw_section_read(s, length));
        if (number == NW_TAKEN) keep(b, side, at, s, length);
        else fault(b, side, "section that ends in the packet at byte %zu: %s (refusal %u)", at, nw_refusal_text(number), number);
    }
}

static void read_packets(struct border *b, struct side *side) {
    static struct stream x;
    uint8_t out[NW_MOST_COMPLETED_BYTES];
    struct listener l = {b, side};
    memset(&x, 0, sizeof x);
    x.lost = tell_loss;
    x.own = &l;
    for (size_t at = 0, n; at < side->n; at += n) {
        size_t before = at > 0 && side->file[at] == STREAM_SYNC ? 0 : stream_next(side->file + at, side->n - at, side->n - at);
        if (before > 0) fault(b, side, "bytes %zu to %zu of %s: no packet begins there", at, at + before - 1, side->name);
        at += before;
        n = side->n - at < NW_PACKET_BYTES ? side->n - at : NW_PACKET_BYTES;
        if (n == 0) break;
        nw_answer got = stream_take(&x, at, side->file + at, n, out);
        unsigned number = NW_REFUSAL(got);
        if (number == NW_TAKEN) keep_completed(b, side, at, out, (size_t)nw_value(got));
        else if (number != NW_OTHER_PID) fault(b, side, "packet at byte %zu: %s (refusal %u)", at, nw_refusal_text(number), number);
    }
    stream_end(&x);
}

// ---- tables

static const nw_gathering *gathering_of(const struct border *b, const struct side *side) {
    return side->network == 1 ? &b->state.one.gathering : &b->state.two.gathering;
}

static const char *kind_name(unsigned kind) {
    static const char *const names[] = {"configuration", "certificate", "index", "content"};
    return names[kind - NW_CONFIGURATION];
}

// Whether the table of a section has come already, in this version, or was given up.
static bool is_done(const struct side *side, nw_heading h) {
    for (const nw_gathering *g = side->done; g < side->done + side->tables; g++)
        if (g->kind == nw_heading_kind(h) && g->extension == nw_heading_extension(h) && g->version == nw_heading_version(h)) return true;
    return false;
}

static nw_answer judge(const nw_gathering *g, const uint8_t *body, size_t n, uint32_t variant) {
    switch (g->kind) {
    case NW_CONFIGURATION: return nw_configuration_read(g->kind, body, n);
    case NW_CERTIFICATE: return nw_certificate_read(g->kind, body, n);
    case NW_INDEX: return nw_index_read(g->kind, body, n);
    default: return nw_content_read(g->kind, variant, g->extension, body, n);
    }
}

static void tell_table(struct border *b, struct side *side, const nw_gathering *g, size_t n) {
    nw_answer got = judge(g, b->body, n, NW_AUXILIARY_24);
    bool wide = NW_REFUSAL(got) != NW_TAKEN && g->kind == NW_CONTENT && NW_REFUSAL(judge(g, b->body, n, NW_AUXILIARY_32)) == NW_TAKEN;
    if (NW_REFUSAL(got) != NW_TAKEN && !wide) {
        fault(b, side, "%s table, extension %04X, version %u: whole but refused, %s (refusal %u at byte %u of its body)", kind_name(g->kind),
              g->extension, g->version, nw_refusal_text(NW_REFUSAL(got)), NW_REFUSAL(got), (unsigned)NW_PLACE(got));
        return;
    }
    side->accepted++;
    printf("network %u: %s table, extension %04X, version %u: whole and accepted, %zu bytes out of %u room%s%s\n", (unsigned)side->network,
           kind_name(g->kind), g->extension, g->version, n, g->last + 1u, g->last == 0 ? "" : "s", wide ? ", with auxiliary lengths of 32 bits" : "");
}

// The gathering of a network ends: its rooms are free. What it held is done with, or waits, which only network 2 does.
static void end(struct border *b, struct side *side, enum fate fate) {
    if (fate == DONE && side->tables < MOST_TABLES) side->done[side->tables++] = *gathering_of(b, side);
    nw_networks_end(&b->state, side->network, b->store_bytes);
    b->sides[1].waits = fate == WAITING;
    for (struct item *i = side->items; i < side->items + side->count; i++)
        if (i->fate == HELD) i->fate = fate;
}

// Hands a table out once it is whole.
static void hand_out(struct border *b, struct side *side) {
    nw_answer got = nw_networks_hand_out(&b->state, side->network, b->store, b->store_bytes, b->body, NW_MOST_BODY);
    if (NW_REFUSAL(got) != NW_TAKEN) return;
    tell_table(b, side, gathering_of(b, side), (size_t)nw_value(got));
    end(b, side, DONE);
}

// ---- rounds

// Feeds a section that waits. Whether it was taken.
static bool feed(struct border *b, struct side *side, struct item *item) {
    nw_heading heading = nw_section_read(item->s, item->n);
    if (is_done(side, heading)) {
        side->repeated++;
        item->fate = DONE;
        return false;
    }
    unsigned before = gathering_of(b, side)->version, begun = gathering_of(b, side)->kind;
    nw_answer fed = nw_networks_feed(&b->state, side->network, b->store, b->store_bytes, item->s, item->n);
    unsigned number = NW_REFUSAL(fed);
    if (number == NW_OTHER_HEADING) return false; // its table's turn may come
    if (number == NW_NO_FREE_ROOM) {
        side->for_room++;
        return false;
    }
    item->fate = number == NW_TAKEN ? HELD : DONE;
    if (number != NW_TAKEN) {
        fault(b, side, "section at byte %zu: not taken, %s (refusal %u)", item->at, nw_refusal_text(number), number);
        return false;
    }
    if (nw_value(fed) == NW_FED_HELD_ALREADY) {
        side->repeated++;
        return false;
    }
    side->taken++;
    if (begun != 0 && before != gathering_of(b, side)->version)
        printf("network %u: section at byte %zu: version %u takes over from version %u, whose rooms are free\n", (unsigned)side->network, item->at,
               gathering_of(b, side)->version, before);
    hand_out(b, side);
    return true;
}

// One section of either network in turn, as far as they go. Whether one was taken.
static bool go_round(struct border *b) {
    bool taken = false;
    struct side *one = &b->sides[0], *two = &b->sides[1];
    for (size_t i = 0; i < one->count || i < two->count; i++)
        for (struct side *side = one; side <= two; side++)
            if (i < side->count && !side->waits && side->items[i].fate == WAITING && feed(b, side, &side->items[i])) taken = true;
    return taken;
}

// A gathering that can't go on is given up, and it is said why.
static void give_up(struct border *b, struct side *side) {
    const nw_gathering *g = gathering_of(b, side);
    size_t rooms = (size_t)nw_value(nw_networks_held_rooms(&b->state, b->store_bytes)) +
                   (size_t)nw_value(nw_networks_free_rooms(&b->state, b->store_bytes));
    if (g->spoiled)
        fault(b, side, "%s table, extension %04X, version %u: given up, %s", kind_name(g->kind), g->extension, g->version,
              nw_refusal_text(NW_CONTRADICTION));
    else if (g->last + 1u > rooms)
        fault(b, side, "%s table, extension %04X, version %u: given up, it has %u sections and the store %zu rooms", kind_name(g->kind), g->extension,
              g->version, g->last + 1u, rooms);
    else
        fault(b, side, "%s table, extension %04X, version %u: not whole, %u of its %u sections %s missing", kind_name(g->kind), g->extension,
              g->version, g->missing, g->last + 1u, g->missing == 1 ? "is" : "are");
    end(b, side, DONE);
}

// Nothing was taken in a round. Whether something can go on: network 2 gives way where both want rooms, else a gathering is given up.
static bool make_way(struct border *b, bool for_room) {
    struct side *one = &b->sides[0], *two = &b->sides[1];
    bool first = gathering_of(b, one)->kind != 0, second = gathering_of(b, two)->kind != 0;
    if (!first && !second) return false;
    if (first && second && for_room) {
        printf("network 2: every room is held; its gathering gives way to that of network 1, and its sections wait\n");
        end(b, two, WAITING);
    } else give_up(b, first ? one : two);
    return true;
}

static void gather(struct border *b) {
    for (bool goes = true; goes;) {
        unsigned before = b->sides[0].for_room + b->sides[1].for_room;
        goes = go_round(b) || make_way(b, b->sides[0].for_room + b->sides[1].for_room > before);
    }
}

static void tell_all(struct border *b) {
    for (struct side *side = b->sides; side < b->sides + 2; side++) {
        if (side->accepted == 0) fault(b, side, "no table has come that is whole and accepted");
        printf("network %u: sections: %u taken, %u repeated; %u times no room was free\n", (unsigned)side->network, side->taken, side->repeated,
               side->for_room);
    }
    if (b->faults != 0) printf("faults: %u, each of them named above\n", b->faults);
}

// ---- files and words

static int read_file(struct side *side) {
    FILE *in = fopen(side->name, "rb");
    if (in == NULL) return unusable("%s can't be opened: %s", side->name, strerror(errno));
    side->file = malloc(MOST_FILE + 1);
    if (side->file != NULL) side->n = fread(side->file, 1, MOST_FILE + 1, in);
    int failed = ferror(in) ? errno : 0;
    fclose(in);
    if (side->file == NULL) return unusable("there is no memory for %s", side->name);
    if (failed != 0) return unusable("%s can't be read: %s", side->name, strerror(failed));
    return side->n > MOST_FILE ? unusable("%s has more than %d bytes, the most that this box takes", side->name, MOST_FILE) : WHOLE;
}

static int run(struct border *b, size_t rooms, char **names) {
    b->store_bytes = NW_ROOMS_BYTES(rooms);
    b->store = malloc(b->store_bytes);
    b->body = malloc(NW_MOST_BODY);
    if (b->store == NULL || b->body == NULL) return unusable("there is no memory for a store of %zu rooms", rooms);
    nw_networks_start(&b->state, b->store_bytes);
    for (uint32_t i = 0; i < 2; i++) {
        struct side *side = &b->sides[i];
        side->name = names[i];
        side->network = i + 1;
        int status = read_file(side);
        if (status != WHOLE) return status;
        if (stream_is(side->file, side->n)) read_packets(b, side);
        else read_sections(b, side);
    }
    gather(b);
    tell_all(b);
    if (fflush(stdout) != 0 || ferror(stdout)) return unusable("what is shown can't be written: %s", strerror(errno));
    return b->faults == 0 ? WHOLE : FAULTY;
}

static void clear(struct border *b) {
    for (struct side *side = b->sides; side < b->sides + 2; side++) {
        for (size_t i = 0; i < side->count; i++) free(side->items[i].s);
        free(side->items);
        free(side->file);
    }
    free(b->store);
    free(b->body);
    free(b);
}

static const char usage[] = "usage: border [--rooms N] FILE1 FILE2; border --help says more";

static int help(void) {
    puts("usage: border [--rooms N] FILE1 FILE2\n"
         "Gathers the tables of two cable networks, FILE1 and FILE2, over one store of N rooms, 1 to 512, or else 256.\n"
         "A file is sections one after the other, or a transport stream. Their sections are taken in turn.\n"
         "Exit status: 0, every table of both is whole and accepted, and nothing was damaged or lost; 1, something of that is\n"
         "not so; 2, wrong usage, a file that can't be read, or output that can't be written.");
    return fflush(stdout) == 0 ? WHOLE : UNUSABLE;
}

// A whole decimal number from 1 to 512 and nothing else, or 0.
static size_t read_rooms(const char *s) {
    size_t digits = strspn(s, "0123456789"), x = 0;
    for (size_t i = 0; i < digits && x <= NW_MOST_ROOMS; i++) x = 10 * x + (size_t)(s[i] - '0');
    return s[digits] == '\0' && x <= NW_MOST_ROOMS ? x : 0;
}

int main(int words, char **word) {
    if (words == 2 && strcmp(word[1], "--help") == 0) return help();
    int at = 1;
    size_t rooms = ROOMS;
    if (words > 1 && strcmp(word[1], "--rooms") == 0) {
        if (words < 3) return unusable("--rooms: N has to follow, 1 to 512\n%s", usage);
        rooms = read_rooms(word[2]);
        if (rooms == 0) return unusable("N %s: a store has 1 to 512 rooms\n%s", word[2], usage);
        at = 3;
    } else if (words > 1 && strncmp(word[1], "--", 2) == 0) return unusable("there is no word %s\n%s", word[1], usage);
    if (words - at != 2) return unusable("FILE1 and FILE2 are wanted; words given: %d\n%s", words - at, usage);
    struct border *b = calloc(1, sizeof *b);
    if (b == NULL) return unusable("there is no memory");
    int status = run(b, rooms, word + at);
    clear(b);
    return status;
}
