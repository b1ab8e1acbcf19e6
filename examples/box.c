// box [--whole] [--auxiliary BITS] FILE [MINUTES]: the sections in a file, one after the other in any order, repeats and damage
// among them, or those that the transport packets on PID 0x0021 of a transport stream carry, are gathered into tables, and the
// messages are shown with their texts: times day first and local, at MINUTES east of UTC, -720 to 840, or without them in UTC. Of
// a text the first lines are shown, with --whole all. The length of an auxiliary file has BITS bits, 24 or 32, or without them 24:
// a donated box that follows the standard's text, and not its Table 4, is 32. As a table comes in, it is said how many of its
// sections have come and how many bytes are held.
//
// Of a table the newest version is held: one that is 1 to 15 steps ahead, round the ring of 32, takes over from the one before,
// and sections of other versions are left out.
//
// Exit status: 0, every table that was begun is whole and accepted, no section of another table or version was left out, each
// message has its text and each text its message, and where bytes were damaged or packets lost, the section they were of came
// whole elsewhere or was of an older version. 1, something of that is not so, and it is said what, or no table came at all. 2,
// wrong usage, a file that can't be read, or output that can't be written. The status says nothing about a text's characters.
//
// A file in which 0x47 stands every 188 bytes is a transport stream (stream.h says when exactly). Packets of other PIDs are passed
// over and counted; a packet that is refused or lost, and bytes that are no packet, are named. A section's byte is then that of
// the packet that completes it. Lost packets are told by the counters, which show nothing where 16 in a row are lost.
//
// The library salvages the good sections of a file of them, window by window: where none begins, it looks a byte further on. Few
// bytes look like a heading. Where one does, its check is computed over up to 4 KiB; junk in which each byte looks like one, inside
// a false section, is gone over some 4,000 times, which takes seconds for each MiB.
//
// Limits: 16 tables, files of 64 MiB, no signature is checked, of certificate and configuration tables nothing is shown, and
// sections that are not current are left out, which is said.
// SPDX-License-Identifier: MIT
#include <errno.h>
#include <iconv.h>
#include <inttypes.h>
#include <langinfo.h>
#include <limits.h>
#include <locale.h>
#include <neapwillow.h>
#include <stdarg.h>
#include <stdbool.h>
#include <stdio.h>
#include <stdlib.h>
#include <string.h>
#include <wchar.h>
#include <wctype.h>

#include "stream.h"

enum { TABLES = 16, MOST_FILE = 1 << 26, LINES = 4 };
enum { WHOLE = 0, FAULTY = 1, UNUSABLE = 2 }; // exit statuses

// A table that is being gathered. A whole one is packed: its body then stands in its store, and its state is fresh.
struct table {
    nw_gathering state, was; // was: the state before packing, by which the table is known from then on
    uint8_t *store;
    const uint8_t *body; // the first n bytes of the store
    size_t store_bytes, n;
    bool accepted, named; // named: a message has it as its text
};

// What could not be read: bytes of the file and why they are refused, or what a stream lost.
enum gone_kind { NO_SECTION, NO_PACKET, BAD_IN_PACKETS, LOST };
struct gone {
    enum gone_kind kind;
    size_t at, end; // in packets, at is where the last of them begins
    unsigned refusal;
    struct stream_loss loss; // where one is told, and else what its heading says was lost, if that is known
};

struct box {
    uint8_t *s; // the file
    size_t n;
    struct table tables[TABLES];
    size_t count;
    struct gone *gone;
    size_t gone_count, gone_room;
    struct stream *stream; // NULL for a file of sections
    unsigned taken, held, refused, bad, faults; // bad: those of the refused that are no good section
    int offset;
    uint32_t variant; // of content tables
    bool whole;
};

static int unusable(const char *form, ...) {
    va_list words;
    va_start(words, form);
    fputs("box: ", stderr);
    vfprintf(stderr, form, words);
    fputc('\n', stderr);
    va_end(words);
    return UNUSABLE;
}

// Something that makes the exit status 1.
static void fault(struct box *b, const char *form, ...) {
    va_list words;
    va_start(words, form);
    vprintf(form, words);
    putchar('\n');
    va_end(words);
    b->faults++;
}

// ---- gathering

static const char *kind_name(unsigned kind) {
    static const char *const names[] = {"configuration", "certificate", "index", "content"};
    return names[kind - NW_CONFIGURATION];
}

static void name_table(const nw_gathering *g) {
    printf("%s table, extension %04X, version %u: ", kind_name(g->kind), g->extension, g->version);
}

// Judges the section that begins at s, as long as it states: 12 bytes where it states nothing, so that its kind is looked at first,
// but no more than the n that there are.
static nw_heading judge(const uint8_t *s, size_t n, size_t *length) {
    nw_answer stated = nw_section_length(s, n);
    *length = NW_REFUSAL(stated) == NW_TAKEN ? (size_t)nw_value(stated) : 12;
    if (*length > n) *length = n;
    return nw_section_read(s, *length);
}

// The gathering that sections of this kind and extension are fed to: of such tables the box holds one, in its newest version.
// Else one that is not begun, or none.
static struct table *table_of(struct box *b, nw_heading heading) {
    for (struct table *t = b->tables; t < b->tables + b->count; t++)
        if (t->state.kind == nw_heading_kind(heading) && t->state.extension == nw_heading_extension(heading)) return t;
    return b->count < TABLES ? &b->tables[b->count] : NULL;
}

// Feeds a section, with room in the store for its table, which may be newer and longer than what is held.
static nw_answer feed_table(struct table *t, const uint8_t *s, size_t n, nw_heading heading) {
    size_t bytes = NW_STORE_BYTES(nw_heading_last(heading));
    if (bytes > t->store_bytes) {
        uint8_t *more = realloc(t->store, bytes);
        if (more == NULL) return (nw_answer){NW_STORE_TOO_SHORT};
        t->store = more;
        t->store_bytes = bytes;
    }
    return nw_gathering_feed(&t->state, t->store, t->store_bytes, s, n);
}

static void tell_refused(struct box *b, size_t at, unsigned number, const struct table *t, nw_heading heading) {
    unsigned version = nw_heading_version(heading), held = t->state.version;
    b->refused++;
    if (number == NW_STORE_TOO_SHORT) fault(b, "section at byte %zu: left out, there is no memory for its table", at);
    else if (number != NW_OTHER_HEADING)
        printf("section at byte %zu: not taken, %s (refusal %u)\n", at, nw_refusal_text(number), number);
    else if (version != held)
        fault(b, "section at byte %zu: left out, its version %u is not ahead of version %u, which is held (refusal 9)", at,
              version, held);
    else
        fault(b, "section at byte %zu: left out, its last number is %u, and that of its table %u (refusal 9)", at,
              nw_heading_last(heading), t->state.last);
}

// How far a table has come, as its state keeps it.
static void tell_progress(const struct table *t) {
    unsigned count = t->state.last + 1u;
    name_table(&t->state);
    printf("%u of %u sections, %lu bytes\n", count - t->state.missing, count, (unsigned long)t->state.bytes);
}

// Feeds a good section, which is told of by a byte of the file, to the table it belongs to. A newer version starts the table over.
static void feed(struct box *b, size_t at, const uint8_t *s, size_t n, nw_heading heading) {
    struct table *t = table_of(b, heading);
    if (t == NULL) {
        b->refused++;
        fault(b, "section at byte %zu: left out, it belongs to one more table than the %d that this box can hold", at, TABLES);
        return;
    }
    bool begun = t < b->tables + b->count;
    unsigned before = t->state.version;
    nw_answer fed = feed_table(t, s, n, heading);
    if (NW_REFUSAL(fed) != NW_TAKEN) {
        tell_refused(b, at, NW_REFUSAL(fed), t, heading);
        return;
    }
    if (nw_value(fed) == NW_FED_HELD_ALREADY) {
        b->held++;
        return;
    }
    b->taken++;
    if (!begun) b->count++;
    else if (t->state.version != before)
        printf("section at byte %zu: version %u of the %s table, extension %04X, takes over from version %u\n", at,
               t->state.version, kind_name(t->state.kind), t->state.extension, before);
    tell_progress(t);
}

// Notes what could not be read. Where there is no memory for it, that is a fault by itself.
static void note(struct box *b, const struct gone *gone) {
    if (b->gone_count == b->gone_room) {
        size_t room = 2 * b->gone_room + 16;
        struct gone *more = realloc(b->gone, room * sizeof *more);
        if (more == NULL) {
            fault(b, "at byte %zu something can't be read, and there is no memory to note what", gone->at);
            return;
        }
        b->gone = more;
        b->gone_room = room;
    }
    b->gone[b->gone_count++] = *gone;
}

// What begins with these bytes and is no good section. It is known by its heading, if only its check is wrong or it is cut off.
static void note_bad(struct box *b, struct gone gone, const uint8_t *s, bool known) {
    gone.loss.known = known && (gone.refusal == NW_CHECK_NOT_ZERO || gone.refusal == NW_OTHER_LENGTH);
    if (gone.loss.known) memcpy(gone.loss.heading, s, STREAM_HEADING);
    b->refused++;
    b->bad++;
    note(b, &gone);
}

// Notes bytes in which no good section begins: a section that only fails its check by itself, others together.
static void pass_over(struct box *b, size_t at, size_t end) {
    while (at < end) {
        size_t length, left = end - at;
        unsigned number = NW_REFUSAL(judge(b->s + at, b->n - at, &length));
        size_t next = number == NW_CHECK_NOT_ZERO && length < left ? at + length : end;
        note_bad(b, (struct gone){.kind = NO_SECTION, .at = at, .end = next, .refusal = number}, b->s + at, at + length == next);
        at = next;
    }
}

// The runs of a window of the file that begin in its `sure` bytes, after which a section may be cut off. Up to *passed the file
// is gone through. Answers where the next window begins.
static size_t take_runs(struct box *b, size_t window, size_t sure, const uint32_t *list, size_t count, size_t *passed) {
    size_t next = window;
    for (size_t i = 0; i < count && next < window + sure; i++) {
        nw_run run = nw_run_at(list, i);
        size_t at = window + run.first, end = at + run.length;
        if (run.kept == 0) {
            next = end < window + sure ? end : window + sure;
            continue;
        }
        pass_over(b, *passed, at);
        feed(b, at, b->s + at, run.length, nw_section_read(b->s + at, run.length));
        *passed = next = end;
    }
    return next;
}

static void gather(struct box *b) {
    static uint8_t kept[NW_SALVAGE_BYTES(NW_MOST_CAPTURE)];
    static uint32_t list[NW_SALVAGE_NUMBERS(NW_MOST_CAPTURE)];
    size_t passed = 0;
    for (size_t at = 0; at < b->n;) {
        size_t n = b->n - at < NW_MOST_CAPTURE ? b->n - at : NW_MOST_CAPTURE;
        size_t sure = at + n == b->n ? n : n - (NW_MOST_SECTION - 1);
        nw_salvaged got = nw_salvage(b->s + at, n, kept, sizeof kept, list, sizeof list / sizeof list[0]);
        at = take_runs(b, at, sure, list, nw_salvaged_runs(got), &passed);
    }
    pass_over(b, passed, b->n);
}

// ---- a transport stream

static void note_loss(void *own, const struct stream_loss *loss) {
    note(own, &(struct gone){.kind = LOST, .at = (size_t)loss->at, .loss = *loss});
}

// Feeds the sections that a packet completes, one right after the other.
static void feed_sections(struct box *b, size_t at, const uint8_t *s, size_t n) {
    for (size_t length; n > 0; s += length, n -= length) {
        length = 3 + ((size_t)(s[1] & 0x0F) << 8 | s[2]);
        nw_heading heading = nw_section_read(s, length);
        unsigned number = NW_REFUSAL(heading);
        if (number == NW_TAKEN) feed(b, at, s, length, heading);
        else note_bad(b, (struct gone){.kind = BAD_IN_PACKETS, .at = at, .refusal = number}, s, true);
    }
}

// Bytes that are no packet, or a packet that is refused.
static void note_no_packet(struct box *b, size_t at, size_t end, unsigned number) {
    if (at < end) note(b, &(struct gone){.kind = NO_PACKET, .at = at, .end = end, .refusal = number});
}

static void gather_packets(struct box *b, struct stream *x) {
    uint8_t out[NW_MOST_COMPLETED_BYTES];
    x->lost = note_loss;
    x->own = b;
    for (size_t at = 0, n; at < b->n; at += n) {
        size_t before = at > 0 && b->s[at] == STREAM_SYNC ? 0 : stream_next(b->s + at, b->n - at, b->n - at);
        note_no_packet(b, at, at + before, NW_NO_SYNC_BYTE);
        at += before;
        n = b->n - at < NW_PACKET_BYTES ? b->n - at : NW_PACKET_BYTES;
        if (n == 0) break;
        nw_answer got = stream_take(x, at, b->s + at, n, out);
        unsigned number = NW_REFUSAL(got);
        if (number == NW_TAKEN) feed_sections(b, at, out, nw_value(got));
        else if (number != NW_OTHER_PID) note_no_packet(b, at, at + n, number);
    }
    stream_end(x);
}

// ---- what is whole, and what is not

static nw_answer read_table(const struct table *t, uint32_t variant) {
    switch (t->was.kind) {
    case NW_CONFIGURATION: return nw_configuration_read(t->was.kind, t->body, t->n);
    case NW_CERTIFICATE: return nw_certificate_read(t->was.kind, t->body, t->n);
    case NW_INDEX: return nw_index_read(t->was.kind, t->body, t->n);
    default: return nw_content_read(t->was.kind, variant, t->was.extension, t->body, t->n);
    }
}

static void tell_missing(struct box *b, const struct table *t, uint64_t first) {
    unsigned missing = t->was.missing;
    name_table(&t->was);
    fault(b, "not whole, %u of its %u sections %s missing, the first of them number %u", missing, t->was.last + 1u,
          missing == 1 ? "is" : "are", (unsigned)first);
}

// A table that is refused; it is also said if the other variant would take it.
static void tell_not_accepted(struct box *b, const struct table *t, nw_answer got) {
    unsigned number = NW_REFUSAL(got), other = b->variant == NW_AUXILIARY_24 ? NW_AUXILIARY_32 : NW_AUXILIARY_24;
    name_table(&t->was);
    fault(b, "whole but refused, %s (refusal %u at byte %u of its body)", nw_refusal_text(number), number,
          (unsigned)NW_PLACE(got));
    if (t->was.kind == NW_CONTENT && NW_REFUSAL(read_table(t, other)) == NW_TAKEN)
        printf("  (with auxiliary lengths of %u bits it is accepted: box --auxiliary %u)\n", other, other);
}

// Packs a table where it stands and judges it.
static void pack(struct box *b, struct table *t) {
    t->was = t->state;
    nw_answer got = nw_gathering_pack(&t->state, t->store, t->store_bytes);
    unsigned number = NW_REFUSAL(got);
    if (number == NW_MISSING) {
        tell_missing(b, t, NW_PLACE(got));
        return;
    }
    if (number != NW_TAKEN) {
        name_table(&t->was);
        fault(b, "not whole, %s (refusal %u)", nw_refusal_text(number), number);
        return;
    }
    t->body = t->store;
    t->n = nw_value(got);
    got = read_table(t, b->variant);
    t->accepted = NW_REFUSAL(got) == NW_TAKEN;
    if (!t->accepted) tell_not_accepted(b, t, got);
}

// Why nothing is lost with a section that did not come whole, by what its heading says, or NULL.
static const char *made_good(const struct box *b, const struct stream_loss *loss) {
    const uint8_t *s = loss->heading;
    if (!loss->known) return NULL;
    for (const struct table *t = b->tables; t < b->tables + b->count; t++) {
        const nw_gathering *g = &t->was;
        if (g->kind != s[0] || g->extension != (s[3] << 8 | s[4])) continue;
        unsigned steps = (g->version + 32u - (s[5] >> 1 & 0x1Fu)) % 32;
        if (steps >= 1 && steps <= 15) return "was of an older version than is held";
        if (steps == 0 && g->last == s[7] && g->held[s[6]] != 0) return "came whole elsewhere";
    }
    return NULL;
}

static void show_gone(struct box *b, const struct gone *gone) {
    if (gone->kind == LOST) printf("packet at byte %zu: %s", gone->at, stream_words(gone->loss.kind));
    else if (gone->kind == BAD_IN_PACKETS) printf("section that the packet at byte %zu completes is not good", gone->at);
    else printf("bytes %zu to %zu are no good %s", gone->at, gone->end - 1, gone->kind == NO_PACKET ? "packet" : "section");
    if (gone->kind != LOST) printf(": %s (refusal %u)", nw_refusal_text(gone->refusal), gone->refusal);
    else if (gone->loss.kind == STREAM_GAP) printf(", %u by the counters", gone->loss.packets);
    const char *good = made_good(b, &gone->loss);
    if (good != NULL) printf("; %s %s\n", gone->kind == LOST ? "the section" : "it", good);
    else fault(b, "; what was lost there is not known");
}

static void show_packets(const struct stream *x) {
    printf("packets: %" PRIu64 " on PID 0x0021, of which %" PRIu64 " repeated, %" PRIu64 " of other PIDs, %" PRIu64
           " with the error bit, %" PRIu64 " refused\n",
           x->ours, x->repeats, x->others, x->errors, x->refused);
}

// ---- text

// What the C library calls a character set, where it knows it. GB/T 13000 is read as UTF-8.
static const char *const conversions[] = {"GB2312", "GB18030", "UTF-8", NULL, NULL};
#define BYTE UINT32_C(0x80000000) // marks a byte that is no character

// Decodes a character at a time, for room for one is lent; what is none is a byte. Answers how many there are, at most n.
static size_t decode(iconv_t way, const uint8_t *s, size_t n, uint32_t *out) {
    char *in = (char *)s;
    size_t count = 0;
    while (n > 0) {
        wchar_t c = 0;
        char *to = (char *)&c;
        size_t room = sizeof c;
        iconv(way, &in, &n, &to, &room);
        if (room == 0) out[count++] = (uint32_t)c;
        else {
            out[count++] = BYTE | (uint8_t)*in++;
            n--;
            iconv(way, NULL, NULL, NULL, NULL);
        }
    }
    return count;
}

// The bytes themselves, for a character set that the C library doesn't know.
static size_t undecoded(const uint8_t *s, size_t n, uint32_t *out) {
    for (size_t i = 0; i < n; i++) out[i] = s[i] < 0x80 ? s[i] : BYTE | s[i];
    return n;
}

// Shows a character, or how it is written where the terminal hasn't it or would be steered by it: control characters, and
// those that turn the direction of writing round. Answers whether a character was shown so.
static bool show_character(uint32_t c) {
    char bytes[MB_LEN_MAX];
    mbstate_t fresh = {0};
    bool steers = (c >= 0x202A && c <= 0x202E) || (c >= 0x2066 && c <= 0x2069);
    if ((c & BYTE) != 0) return printf("\\x%02X", (unsigned)(c & 0xFF)), false;
    size_t n = steers || !iswprint((wint_t)c) ? (size_t)-1 : wcrtomb(bytes, (wchar_t)c, &fresh);
    if (n == (size_t)-1) return printf("\\u{%X}", (unsigned)c), true;
    fwrite(bytes, 1, n, stdout);
    return false;
}

// Answers whether a character was shown as \u{..}.
static bool show_lines(const struct box *b, const uint32_t *c, size_t n) {
    size_t lines = 0;
    bool hidden = false;
    for (size_t i = 0; i < n; i++, lines++) {
        bool shown = b->whole || lines < LINES;
        if (shown) fputs("    | ", stdout);
        for (; i < n && c[i] != '\n'; i++)
            if (shown && show_character(c[i])) hidden = true;
        if (shown) putchar('\n');
    }
    if (!b->whole && lines > LINES) printf("    (more lines: %zu, which box --whole shows)\n", lines - LINES);
    return hidden;
}

static void show_text(const struct box *b, unsigned set, const uint8_t *s, size_t n) {
    uint32_t *c = malloc((n + 1) * sizeof *c);
    if (c == NULL) {
        puts("    (not shown: there is no memory for it)");
        return;
    }
    iconv_t none = (iconv_t)-1, way = conversions[set] ? iconv_open("WCHAR_T", conversions[set]) : none;
    size_t count = way != none ? decode(way, s, n, c) : undecoded(s, n, c), bytes = 0;
    for (size_t i = 0; i < count; i++) bytes += (c[i] & BYTE) != 0;
    bool hidden = show_lines(b, c, count);
    if (way == none && (bytes > 0 || set > 2))
        puts("    (the C library has no conversion from this character set: of its bytes ASCII is shown, others as \\xNN)");
    else if (bytes > 0) printf("    (bytes that are no character of this set: %zu, written as \\xNN)\n", bytes);
    if (hidden)
        printf("    (characters that steer a terminal, or that this one's set, %s, has not, are written as \\u{..})\n",
               nl_langinfo(CODESET));
    if (way != none) iconv_close(way);
    free(c);
}

// ---- showing

static void show_language(const struct box *b, const struct table *t, nw_part part) {
    size_t at = nw_part_start(part), length = nw_part_length(part);
    nw_part letters = nw_language_letters(t->body, t->n, at, length);
    unsigned set = (unsigned)nw_value(nw_language_character_set(t->body, t->n, at, length));
    nw_part text = nw_language_text(t->body, t->n, at, length), agency = nw_language_agency(t->body, t->n, at, length);
    printf("  text        %.3s, version %u, character set %u (%s%s), %zu bytes\n",
           (const char *)t->body + nw_part_start(letters), t->was.version, set, nw_character_set_text(set),
           set == NW_SET_GB_13000 ? ", read as UTF-8" : "", nw_part_length(text));
    show_text(b, set, t->body + nw_part_start(text), nw_part_length(text));
    if (nw_part_length(agency) != 0) {
        puts("  agency");
        show_text(b, set, t->body + nw_part_start(agency), nw_part_length(agency));
    }
    uint64_t files = nw_value(nw_language_auxiliary_count(t->body, t->n, at, length));
    for (uint64_t i = 0; i < files; i++) {
        unsigned type = (unsigned)nw_value(nw_language_auxiliary_type(b->variant, t->body, t->n, at, length, i));
        nw_part file = nw_language_auxiliary(b->variant, t->body, t->n, at, length, i);
        printf("  file        type %u, %zu bytes, not shown\n", type, nw_part_length(file));
    }
}

static void show_languages(const struct box *b, const struct table *t) {
    uint64_t count = nw_value(nw_content_language_count(t->body, t->n));
    for (uint64_t i = 0; i < count; i++) show_language(b, t, nw_content_language(t->body, t->n, i));
}

// The text of a message is the content table that has its extension, which several may share, and its identifier.
static void find_text(struct box *b, unsigned extension, const uint8_t *identifier, size_t n) {
    bool found = false;
    for (struct table *t = b->tables; t < b->tables + b->count; t++) {
        if (!t->accepted || t->was.kind != NW_CONTENT || t->was.extension != extension) continue;
        nw_part its = nw_content_identifier(t->body, t->n);
        if (nw_part_length(its) != n || memcmp(t->body + nw_part_start(its), identifier, n) != 0) continue;
        show_languages(b, t);
        t->named = found = true;
    }
    if (!found) fault(b, "  text        none has come whole; its sections have extension %04X", extension);
}

typedef nw_answer printer(uint64_t field, int32_t offset, uint8_t *out, size_t room);

// A time field at the offset, as the library prints it; in UTC where the local day would be out of the range of days.
static void show_time(const char *what, printer *print, uint64_t field, int offset) {
    static const char *const days[] = {"Monday", "Tuesday", "Wednesday", "Thursday", "Friday", "Saturday", "Sunday"};
    uint8_t text[NW_TIME_TEXT];
    nw_answer shown = print(field, offset, text, sizeof text);
    bool outside = NW_REFUSAL(shown) != NW_TAKEN;
    if (outside) shown = print(field, offset = 0, text, sizeof text);
    printf("  %s%.*s", what, (int)nw_value(shown), (const char *)text);
    nw_time t = nw_time_unpack(field, offset);
    if (NW_REFUSAL(t) != NW_TAKEN) { // a live end
        puts(", until it is called off");
        return;
    }
    nw_answer day = nw_day_of(nw_time_year(t), nw_time_month(t), nw_time_day(t));
    printf(" %s, UTC", days[nw_value(nw_weekday((uint32_t)nw_value(day))) - 1]);
    if (offset != 0) printf("%c%02d:%02d", offset < 0 ? '-' : '+', abs(offset) / 60, abs(offset) % 60);
    puts(outside ? ": its local day is out of the range 01/03/1900 to 22/04/2038" : "");
}

static void show_resources(const struct table *t, size_t at, size_t length) {
    char digits[NW_RESOURCE_DIGITS + 1];
    uint64_t count = nw_value(nw_message_resource_count(t->body, t->n, at, length));
    for (uint64_t i = 0; i < count; i++) {
        nw_part resource = nw_message_resource(t->body, t->n, at, length, i);
        printf("  resource    %s\n", nw_resource_text(t->body + nw_part_start(resource), digits));
    }
    if (count == 0) puts("  resource    none");
}

static void show_type(const struct table *t, nw_part part) {
    printf("  type        ");
    for (size_t i = 0; i < nw_part_length(part); i++) show_character(t->body[nw_part_start(part) + i]);
    putchar('\n');
}

static void show_message(struct box *b, const struct table *t, const nw_record *r) {
    char digits[NW_IDENTIFIER_DIGITS + 1];
    nw_part identifier = nw_message_identifier(t->body, t->n, r->at, r->length);
    printf("message %s\n", nw_identifier_text(t->body + nw_part_start(identifier), digits));
    show_time("start       ", nw_time_print_start, r->start, b->offset);
    show_time("end         ", nw_time_print_end, r->end, b->offset);
    if (r->end <= r->start) puts("  (its end is not after its start: it is never shown)");
    printf("  class       %u, %s\n", (unsigned)r->class_, nw_class_text(r->class_));
    printf("  level       %u, %s\n", (unsigned)r->level, nw_level_text(r->level));
    show_type(t, nw_message_type(t->body, t->n, r->at, r->length));
    printf("  network     %u\n", (unsigned)nw_value(nw_message_network(t->body, t->n, r->at, r->length)));
    printf("  version     %u\n", t->was.version);
    show_resources(t, r->at, r->length);
    if (nw_value(nw_message_channel_flag(t->body, t->n, r->at, r->length)) != 0) puts("  channel     given, and not shown");
    unsigned extension = (unsigned)nw_value(nw_message_extension(t->body, t->n, r->at, r->length));
    find_text(b, extension, t->body + nw_part_start(identifier), nw_part_length(identifier));
}

static void show_index(struct box *b, const struct table *t) {
    nw_record list[NW_MOST_MESSAGES];
    uint64_t count = nw_value(nw_index_records(t->was.kind, t->body, t->n, list, NW_MOST_MESSAGES));
    if (count == 0) {
        name_table(&t->was);
        puts("it has no message");
    }
    for (const nw_record *r = list; r < list + count; r++) show_message(b, t, r);
}

// A table that no message showed.
static void show_rest(struct box *b, const struct table *t) {
    if (t->was.kind == NW_INDEX || t->named) return;
    name_table(&t->was);
    if (t->was.kind != NW_CONTENT) {
        printf("whole and accepted, %zu bytes, not shown\n", t->n);
        return;
    }
    char digits[NW_IDENTIFIER_DIGITS + 1];
    nw_identifier_text(t->body + nw_part_start(nw_content_identifier(t->body, t->n)), digits);
    fault(b, "no message %s has come that it would be the text of", digits);
    show_languages(b, t);
}

static void tell_nothing(struct box *b) {
    if (b->n == 0) fault(b, "no table has come: the file is empty");
    else if (b->stream != NULL && b->refused == 0) fault(b, "no table has come: no packet completes a section");
    else if (b->refused == b->bad) fault(b, "no table has come: no good section begins anywhere in the file");
    else fault(b, "no table has come: no section in the file is taken");
}

static void show(struct box *b) {
    for (struct table *t = b->tables; t < b->tables + b->count; t++) pack(b, t);
    for (size_t i = 0; i < b->gone_count; i++) show_gone(b, &b->gone[i]);
    if (b->stream != NULL) show_packets(b->stream);
    printf("sections: %u taken, %u held already, %u refused\n", b->taken, b->held, b->refused);
    if (b->count == 0) tell_nothing(b);
    for (struct table *t = b->tables; t < b->tables + b->count; t++)
        if (t->accepted && t->was.kind == NW_INDEX) show_index(b, t);
    for (struct table *t = b->tables; t < b->tables + b->count; t++)
        if (t->accepted) show_rest(b, t);
    if (b->faults != 0) printf("faults: %u, each of them named above\n", b->faults);
}

// ---- the file

// Reads a file of at most MOST_FILE bytes, or says why not.
static int read_file(struct box *b, FILE *in, const char *name) {
    size_t room = 0, got = 1;
    for (; got != 0 && b->n <= MOST_FILE; b->n += got) {
        if (b->n == room) {
            uint8_t *more = realloc(b->s, room = 2 * room + 65536);
            if (more == NULL) return unusable("there is no memory for %s", name);
            b->s = more;
        }
        got = fread(b->s + b->n, 1, room - b->n, in);
    }
    if (ferror(in)) return unusable("%s can't be read: %s", name, strerror(errno));
    return b->n > MOST_FILE ? unusable("%s has more than %d bytes, the most that this box takes", name, MOST_FILE) : WHOLE;
}

static int run(struct box *b, const char *name) {
    FILE *in = fopen(name, "rb");
    if (in == NULL) return unusable("%s can't be opened: %s", name, strerror(errno));
    int status = read_file(b, in, name);
    fclose(in);
    if (status != WHOLE) return status;
    static struct stream stream;
    if (stream_is(b->s, b->n)) gather_packets(b, b->stream = &stream);
    else gather(b);
    show(b);
    if (fflush(stdout) != 0 || ferror(stdout)) return unusable("what is shown can't be written: %s", strerror(errno));
    return b->faults == 0 ? WHOLE : FAULTY;
}

static void clear(struct box *b) {
    for (struct table *t = b->tables; t < b->tables + TABLES; t++) free(t->store);
    free(b->gone);
    free(b->s);
    free(b);
}

// ---- the words of the command

static const char usage[] = "usage: box [--whole] [--auxiliary BITS] FILE [MINUTES]; box --help says more";

// A whole decimal number from least to most and nothing else; a sign only where there are numbers below 0.
static bool read_number(const char *s, int least, int most, int *out) {
    bool negative = least < 0 && *s == '-';
    if (least < 0 && (*s == '-' || *s == '+')) s++;
    size_t digits = strspn(s, "0123456789");
    int x = 0;
    for (size_t i = 0; i < digits && x <= 1000; i++) x = 10 * x + (s[i] - '0'); // a larger one is out of any range
    *out = negative ? -x : x;
    return digits != 0 && s[digits] == '\0' && least <= *out && *out <= most;
}

// The words before FILE. Answers where FILE stands, or 0 where one of them is wrong, which is said.
static int read_options(struct box *b, char **word) {
    int at = 1, bits = NW_AUXILIARY_24;
    for (; word[at] != NULL && strncmp(word[at], "--", 2) == 0; at++) {
        if (strcmp(word[at], "--whole") == 0) b->whole = true;
        else if (strcmp(word[at], "--auxiliary") != 0) return unusable("there is no word %s\n%s", word[at], usage), 0;
        else if (word[++at] == NULL) return unusable("--auxiliary: BITS have to follow, 24 or 32\n%s", usage), 0;
        else if (!read_number(word[at], 24, 32, &bits) || (bits != NW_AUXILIARY_24 && bits != NW_AUXILIARY_32))
            return unusable("BITS %s: an auxiliary file's length has 24 or 32 of them\n%s", word[at], usage), 0;
    }
    b->variant = (uint32_t)bits;
    return at;
}

static int help(void) {
    puts("usage: box [--whole] [--auxiliary BITS] FILE [MINUTES]\n"
         "Shows the messages of the sections in FILE, in local time at MINUTES east of UTC, -720 to 840, or else in UTC.\n"
         "The length of an auxiliary file has BITS bits, 24 or 32, or else 24.\n"
         "Exit status: 0, every table is whole and accepted, and messages and texts belong together; 1, something is damaged,\n"
         "missing or refused, or no table came; 2, wrong usage, a FILE that can't be read, or output that can't be written.\n"
         "FILE may be a transport stream. Of a text the first lines are shown, with --whole all.");
    return fflush(stdout) == 0 ? WHOLE : UNUSABLE;
}

int main(int words, char **word) {
    setlocale(LC_CTYPE, "");
    if (words == 2 && strcmp(word[1], "--help") == 0) return help();
    struct box *b = calloc(1, sizeof *b);
    if (b == NULL) return unusable("there is no memory");
    int status, at = read_options(b, word), given = words - at;
    if (at == 0) status = UNUSABLE;
    else if (given < 1 || given > 2)
        status = unusable("a FILE is wanted, and perhaps MINUTES; words given: %d\n%s", given, usage);
    else if (given == 2 && !read_number(word[at + 1], -720, 840, &b->offset))
        status = unusable("MINUTES %s: they have to be a whole number from -720 to 840\n%s", word[at + 1], usage);
    else status = run(b, word[at]);
    clear(b);
    return status;
}
