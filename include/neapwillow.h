/* neapwillow.h: the emergency tables of GD/J 086-2018 for adapters and set-top boxes, in C99 and
 * later, and in C++11 and later.
 *
 * Every function declared here takes every input of every length, finishes, keeps nothing between
 * calls and allocates nothing. It is proved (in Rattle) to do what the comment above it says; this file
 * itself is not, nor are the few helpers that are written out in it, so tests hold each declaration to
 * the source and the helpers to tables made by hand.
 *
 * All memory is the caller's. A byte string, a tape, a list and an output are a pointer and how many
 * bytes, entries or records it has: with 0 of them nothing is read or written behind the pointer, which
 * may then be NULL. What a call may write must not overlap anything else that it is lent; what it only
 * reads may overlap. A refused call writes nothing, but that a contradiction spoils a gathering and that
 * the slow gathering keeps what it refuses. Where an output is too small (21), the comment above the
 * function says what tells the room it needs.
 *
 * Stack: the most that a call takes of it, the return address included, stands with each function, or
 * with the first of those that share it; what memcpy, memmove and memset of the C library take comes
 * on top. A test finds it in the code of the archive for x86-64, along every way; another processor or
 * compiler takes another. No function calls itself.
 *
 * Link with libneapwillow.a or libneapwillow.so. */
/* SPDX-License-Identifier: MIT */
#ifndef NEAPWILLOW_H
#define NEAPWILLOW_H

#include <stddef.h>
#include <stdint.h>

#ifdef __cplusplus
extern "C" {
#endif

/* The version that this header is of: as text, its three numbers, and these as one, two decimal digits
 * for each but the first. */
#define NW_VERSION "0.2.0"
#define NW_VERSION_MAJOR 0
#define NW_VERSION_MINOR 2
#define NW_VERSION_PATCH 0
#define NW_VERSION_NUMBER (NW_VERSION_MAJOR * 10000 + NW_VERSION_MINOR * 100 + NW_VERSION_PATCH)

/* The version of the library that is linked, as NW_VERSION_NUMBER has that of the header.
 * Stack: 16 bytes. */
uint32_t nw_version(void);

/* What changed for C programs in version 0.2.0:
 * - nw_gathering has two fields more, bytes and missing, and is 524 bytes long: compile anew.
 * - A section of a newer version starts a gathering over and is taken; it was refused with 9.
 * - nw_gathering_pack is new: a whole table becomes its body at the front of its store.
 * - nw_teaching_feed, nw_teaching_hand_out, nw_teaching_heading and nw_teaching_missing are new, a slow
 *   gathering to teach with, and with them refusal 37.
 * - nw_crc16 answers in 32 bits: compile anew.
 * - The extension of a content table is the CRC-16 of its identifier's 140 bits, without the four
 *   reserved bits before them: no longer nw_crc16 of the 18 bytes. nw_message_extension, which is new,
 *   and nw_content_extension tell it; a table that is sent with the old one is refused (23).
 * - An identifier has to have a real day, YYYYMMDD from 19000301 to 20380422, as its digits 24 to 31,
 *   counted from 1: else it is refused (20), read, written or asked for.
 * - What reads or writes an auxiliary file's length takes a variant, NW_AUXILIARY_24 for what was
 *   before: nw_content_read and nw_content_lay after the kind; nw_content_write, nw_content_measure,
 *   nw_language_auxiliary_type and nw_language_auxiliary first. A call without it does not compile.
 * - Refusal 25 is gone, and its number is not given again.
 * - nw_salvage is new, the good sections of a damaged capture, and with it refusal 36.
 * - nw_packet_pack and nw_packet_unpack are new, transport packets on PID 0x0021, and with them refusals
 *   30 to 34.
 * - nw_networks_start, _feed, _hand_out, _end, _held_rooms and _free_rooms are new, two networks over one
 *   store, and with them refusal 35.
 * - nw_time_print_start, nw_time_print_end and nw_times_read_text are new: times for people.
 * - The stack that each function takes is stated. */

/* ---- Answers ----------------------------------------------------------------------------------
 *
 * A function that can refuse answers with 64 bits: the low byte is the refusal's number, 0 for none;
 * what stands above it is the refusal's place, or, where nothing was refused, the value. Each shape of
 * value is a struct of its own, so that a value taken with another shape's function does not compile;
 * it goes through one register as a number would. */
typedef struct nw_answer { uint64_t packed; } nw_answer;   /* one number */
typedef struct nw_part { uint64_t packed; } nw_part;       /* a part of a body */
typedef struct nw_date { uint64_t packed; } nw_date;       /* a date of the calendar */
typedef struct nw_time { uint64_t packed; } nw_time;       /* a local date and time */
typedef struct nw_heading { uint64_t packed; } nw_heading; /* a section's heading */
typedef struct nw_written { uint64_t packed; } nw_written; /* a content table's extension and length */
typedef struct nw_salvaged { uint64_t packed; } nw_salvaged; /* how many runs and bytes were salvaged */

/* Of an answer of any shape: the refusal's number, and its place. */
#define NW_REFUSAL(answer) ((unsigned)((answer).packed & 0xFFu))
#define NW_PLACE(answer) ((answer).packed >> 8)

/* Of an answer that refuses nothing: the value. Asked of a refusal, these tell nothing of use. */
static inline uint64_t nw_value(nw_answer a) { return a.packed >> 8; }

/* Where a part begins in the body, counted from 0, and how many bytes it has. */
static inline size_t nw_part_start(nw_part a) { return (size_t)(a.packed >> 32); }
static inline size_t nw_part_length(nw_part a) { return (size_t)(a.packed >> 8 & 0xFFFFFFu); }

static inline unsigned nw_date_year(nw_date a) { return (unsigned)(a.packed >> 24); }
static inline unsigned nw_date_month(nw_date a) { return (unsigned)(a.packed >> 16 & 0xFFu); }
static inline unsigned nw_date_day(nw_date a) { return (unsigned)(a.packed >> 8 & 0xFFu); }

static inline unsigned nw_time_year(nw_time a) { return (unsigned)(a.packed >> 48); }
static inline unsigned nw_time_month(nw_time a) { return (unsigned)(a.packed >> 40 & 0xFFu); }
static inline unsigned nw_time_day(nw_time a) { return (unsigned)(a.packed >> 32 & 0xFFu); }
static inline unsigned nw_time_hour(nw_time a) { return (unsigned)(a.packed >> 24 & 0xFFu); }
static inline unsigned nw_time_minute(nw_time a) { return (unsigned)(a.packed >> 16 & 0xFFu); }
static inline unsigned nw_time_second(nw_time a) { return (unsigned)(a.packed >> 8 & 0xFFu); }

static inline unsigned nw_heading_kind(nw_heading a) { return (unsigned)(a.packed >> 56); }
static inline unsigned nw_heading_extension(nw_heading a) { return (unsigned)(a.packed >> 40 & 0xFFFFu); }
static inline unsigned nw_heading_version(nw_heading a) { return (unsigned)(a.packed >> 32 & 0xFFu); }
static inline unsigned nw_heading_current(nw_heading a) { return (unsigned)(a.packed >> 24 & 0xFFu); }
static inline unsigned nw_heading_number(nw_heading a) { return (unsigned)(a.packed >> 16 & 0xFFu); }
static inline unsigned nw_heading_last(nw_heading a) { return (unsigned)(a.packed >> 8 & 0xFFu); }

static inline unsigned nw_written_extension(nw_written a) { return (unsigned)(a.packed >> 32); }
static inline size_t nw_written_length(nw_written a) { return (size_t)(a.packed >> 8 & 0xFFFFFFu); }

static inline size_t nw_salvaged_runs(nw_salvaged a) { return (size_t)(a.packed >> 32); }
static inline size_t nw_salvaged_bytes(nw_salvaged a) { return (size_t)(a.packed >> 8 & 0xFFFFFFu); }

/* The refusals, by their numbers. The place is the offset, in the body, of the byte where the refused
 * field begins (14 to 20), of a form that is measured the entry on its tape, the smallest missing
 * section number (13), and else 0. */
enum nw_refusal {
    NW_TAKEN = 0,                   /* no refusal */
    NW_SECTION_TOO_SHORT = 1,       /* a section shorter than 12 bytes */
    NW_OTHER_KIND = 2,              /* table_id not FB to FE, or not the kind this reader takes */
    NW_FIXED_BIT_ZERO = 3,          /* one of the six fixed bits of the heading is 0 */
    NW_SECTION_LENGTH_OUTSIDE = 4,  /* section_length below 9 or above 4,093 */
    NW_OTHER_LENGTH = 5,            /* the byte string is not section_length + 3 long */
    NW_NUMBER_ABOVE_LAST = 6,       /* section_number above last; the cutter is asked past the last */
    NW_CHECK_NOT_ZERO = 7,          /* the CRC_32 register over the section is not zero */
    NW_NOT_CURRENT = 8,             /* current is 0 */
    NW_OTHER_HEADING = 9,           /* the heading differs from the gathering's */
    NW_STORE_TOO_SHORT = 10,        /* the store is shorter than (last + 1) x 4,084 bytes */
    NW_CONTRADICTION = 11,          /* same heading and number, other payload; or spoiled already */
    NW_IMPOSSIBLE_STATE = 12,       /* not a possible state: see nw_gathering and nw_networks */
    NW_MISSING = 13,                /* a section is missing; the place is the smallest number */
    NW_PAST_BODY = 14,              /* the body ends inside a field or part; the cutter's is empty */
    NW_PAST_PART = 15,              /* a field passes the end of its part, or bytes are left in it */
    NW_LEFT_OVER = 16,              /* bytes left after the signature */
    NW_RESERVED_BIT_ZERO = 17,      /* a reserved bit is 0; a descriptor length has a top bit of 1 */
    NW_DIGIT_ABOVE_NINE = 18,       /* a decimal digit above 9 */
    NW_OUTSIDE_SET = 19,            /* a value outside its stated set */
    NW_IMPOSSIBLE_DAY = 20,         /* an impossible day or time, or a day outside 15079 to 65535 */
    NW_OUTPUT_TOO_SMALL = 21,       /* the output buffer or the list of records or runs is too small */
    NW_TOO_LARGE = 22,              /* a length or count too large for its field; a body too long */
    NW_OTHER_CHECKSUM = 23,         /* the extension is not the CRC-16 of the identifier */
    NW_NOT_OF_THE_FORM = 24,        /* date text not of the exact form */
    /* 25 was a joined body above 1,045,504 bytes, which no possible state has; it is not given again */
    NW_NOT_A_PACKET = 30,           /* not 188 bytes */
    NW_NO_SYNC_BYTE = 31,           /* a packet without the sync byte 0x47 */
    NW_OTHER_PID = 32,              /* a packet of another PID than 0x0021 */
    NW_SCRAMBLED = 33,              /* a scrambled packet */
    NW_PAST_PACKET = 34,            /* pointer or adaptation field past the packet's end; control 00 */
    NW_NO_FREE_ROOM = 35,           /* a room is needed, and every room of the store is held */
    NW_CAPTURE_TOO_LONG = 36,       /* a capture above 65,536 bytes */
    NW_TEACHING_BUFFER_FULL = 37    /* the teaching buffer has no room for what is fed */
};

/* What a refusal's number means, in words for a person; any other number is no such refusal. Plain C in
 * this header, tested and not proved. */
static inline const char *nw_refusal_text(unsigned number)
{
    switch (number) {
    case NW_TAKEN: return "nothing is refused";
    case NW_SECTION_TOO_SHORT: return "the section is shorter than 12 bytes";
    case NW_OTHER_KIND: return "the table is of another kind";
    case NW_FIXED_BIT_ZERO: return "a fixed bit of the heading is 0";
    case NW_SECTION_LENGTH_OUTSIDE: return "section_length is below 9 or above 4,093";
    case NW_OTHER_LENGTH: return "the section is not as long as its section_length says";
    case NW_NUMBER_ABOVE_LAST: return "the section number is above the last";
    case NW_CHECK_NOT_ZERO: return "the section's CRC_32 is wrong";
    case NW_NOT_CURRENT: return "the section is not current";
    case NW_OTHER_HEADING: return "the section belongs to another table";
    case NW_STORE_TOO_SHORT: return "the store is too short for the table";
    case NW_CONTRADICTION: return "two payloads contradict each other under one section number";
    case NW_IMPOSSIBLE_STATE: return "the gathering's state is not a possible one";
    case NW_MISSING: return "a section is missing";
    case NW_PAST_BODY: return "the body ends too early";
    case NW_PAST_PART: return "a field does not fit its part";
    case NW_LEFT_OVER: return "bytes are left after the signature";
    case NW_RESERVED_BIT_ZERO: return "a reserved bit is wrong";
    case NW_DIGIT_ABOVE_NINE: return "a decimal digit is above 9";
    case NW_OUTSIDE_SET: return "a value is outside its set";
    case NW_IMPOSSIBLE_DAY: return "the day or the time is impossible or out of range";
    case NW_OUTPUT_TOO_SMALL: return "the output buffer or the record list is too small";
    case NW_TOO_LARGE: return "a length, a count or a body is too large";
    case NW_OTHER_CHECKSUM: return "the extension is not the CRC-16 of the identifier";
    case NW_NOT_OF_THE_FORM: return "the text is not dd/mm/yyyy hh:mm:ss";
    case NW_NOT_A_PACKET: return "the packet has not 188 bytes";
    case NW_NO_SYNC_BYTE: return "the packet does not begin with the sync byte 0x47";
    case NW_OTHER_PID: return "the packet is of another PID than 0x0021";
    case NW_SCRAMBLED: return "the packet is scrambled";
    case NW_PAST_PACKET: return "a pointer or an adaptation field passes the packet's end";
    case NW_NO_FREE_ROOM: return "every room of the store is held";
    case NW_CAPTURE_TOO_LONG: return "the capture has more than 65,536 bytes";
    case NW_TEACHING_BUFFER_FULL: return "the teaching buffer has no room for what is fed";
    default: return "no such refusal";
    }
}

/* ---- Checksums --------------------------------------------------------------------------------
 *
 * High bit first, no final change. Neither refuses anything. */

/* CRC_32 of the n bytes at s: polynomial 0x04C11DB7, register of all ones at the start. Over a whole
 * section, its last four bytes included, it is 0 exactly if the section's check is right.
 * Stack: 64 bytes. */
uint32_t nw_crc32(const uint8_t *s, size_t n);

/* CRC-16 of the n bytes at s: polynomial 0x1021, register of all ones at the start. Of an identifier's
 * 18 bytes it is NOT the extension of the content table, which leaves out the four reserved bits:
 * nw_message_extension, nw_content_extension and nw_content_write tell that one. Stack: 64 bytes. */
uint32_t nw_crc16(const uint8_t *s, size_t n);

/* ---- Days -------------------------------------------------------------------------------------
 *
 * A day is its Modified Julian Day number (MJD), from 15079, 1 March 1900, to 65535, 22 April 2038. */

/* The day of a date of the Gregorian calendar.
 * Value: the MJD. Refusal 20: no such day in the calendar, or one outside the range.
 * Stack: 3,520 bytes. */
nw_answer nw_day_of(uint32_t year, uint32_t month, uint32_t day);

/* The date of a day: what nw_day_of turns back into it.
 * Value: the date. Refusal 20: a day outside the range. Stack: 3,408 bytes. */
nw_date nw_date_of(uint32_t day);

/* The weekday of a day. Value: 1 for Monday to 7 for Sunday. Refusal 20: a day outside the range.
 * Stack: 16 bytes. */
nw_answer nw_weekday(uint32_t day);

/* ---- Times ------------------------------------------------------------------------------------
 *
 * A time field is 40 bits, UTC: the MJD in 16 bits, then six decimal digits hhmmss. 40 one bits in
 * the end field mean that a message is live. An offset is in minutes, east positive, from -720 to
 * 840: UTC is local time less the offset. */
#define NW_LIVE UINT64_C(0xFFFFFFFFFF)

/* The UTC field of a local date and time. Value: the field.
 * Refusals, in this order: 19, the offset is outside its range; 20, the date or the time is
 * impossible, or the local or the UTC day lies outside the range of days. Stack: 3,584 bytes. */
nw_answer nw_time_pack(uint32_t year, uint32_t month, uint32_t day, uint32_t hour, uint32_t minute,
                       uint32_t second, int32_t offset);

/* The local date and time of a UTC field. Value: these.
 * Refusals, in this order: 19, the offset is outside its range, or the field has more than 40 bits;
 * 18, a digit is above 9; 20, as for nw_time_pack. Stack: 3,536 bytes. */
nw_time nw_time_unpack(uint64_t field, int32_t offset);

/* The UTC field of a local time in text: exactly dd/mm/yyyy hh:mm:ss, 19 bytes, day first.
 * Value: the field. Refusals, in this order: 19, the offset; 24, not of this form; 20, as for
 * nw_time_pack. 11/13/2024 is 20: it has no thirteenth month. Stack: 3,680 bytes. */
nw_answer nw_time_read_text(const uint8_t *text, size_t n, int32_t offset);

/* How a message with these start and end fields stands at a second of a day, both UTC.
 * Value: one of enum nw_showing; a live message never ends. Refusals, in this order: 20, the day is
 * outside its range or the second above 86,399; then those of the start field, then of the end field
 * (19, more than 40 bits; 18, a digit above 9; 20, impossible). The start may not be live (18).
 * Stack: 176 bytes. */
nw_answer nw_time_showing(uint64_t start, uint64_t end, uint32_t day, uint32_t second);
enum nw_showing { NW_BEFORE = 0, NW_ON = 1, NW_ENDED = 2 };

/* ---- Times for people -------------------------------------------------------------------------
 *
 * What a form has and a screen shows: dd/mm/yyyy hh:mm:ss, local and day first. What was typed and
 * accepted prints as it was typed, at the same offset: proved, over the whole road from a form to a
 * screen (docs/PROMISES.md). */
#define NW_TIME_TEXT 19u /* characters of a printed time, and the most that are printed */

/* Prints a start field as local time at the start of out: 19 characters, with no NUL after them. Value:
 * how many; bytes of out after them stay. Refusals, in this order, with nothing written: 19, the offset
 * is outside its range, or the field has more than 40 bits; 18, a digit is above 9, so a live one; 20, the
 * time is impossible, or its UTC or local day lies outside the range of days; 21, out is too small.
 * Stack: 3,600 bytes. */
nw_answer nw_time_print_start(uint64_t field, int32_t offset, uint8_t *out, size_t room);

/* Prints an end field: NW_LIVE as the word live, four characters, any other as nw_time_print_start. A live
 * one is refused with 19 for the offset and 21 alone. Stack: 3,600 bytes. */
nw_answer nw_time_print_end(uint64_t field, int32_t offset, uint8_t *out, size_t room);

/* Both times of a form, start and end, each in text as nw_time_read_text takes it. Where live is not 0 a
 * live end is asked for, and the end's text is not looked at. Accepted, the value is 0, and fields has the
 * start's field and then the end's, which is NW_LIVE if it was asked for. Refusals, in this order, with
 * nothing written: 19, the offset; 24 and 20 of the start; 24 and 20 of the end. The word live that is
 * typed is 24. That the end comes after the start is not looked at. fields is never NULL.
 * Stack: 3,776 bytes. */
nw_answer nw_times_read_text(const uint8_t *start, size_t n, const uint8_t *end, size_t m, uint32_t live,
                             int32_t offset, uint64_t fields[2]);

/* ---- Sections ---------------------------------------------------------------------------------
 *
 * A section is 12 to 4,096 bytes: eight of heading, the payload, four of check. The extension in the
 * heading is by GD/J 086-2018 for a content table the CRC-16 of its message's identifier (6.3), which
 * nw_content_write answers, and nw_message_extension to a box that looks for the table; for an index
 * table it is not used (6.2), and for the other two it has no stated value (7, 8.1): cut these with 0.
 * Only a content table's reader judges it. */
#define NW_MOST_SECTION 4096u   /* bytes of the longest section */
#define NW_MOST_PAYLOAD 4084u   /* bytes of its payload */
#define NW_MOST_BODY 1045504u   /* bytes of the longest body: 256 such payloads */

enum nw_kind { NW_CONFIGURATION = 0xFB, NW_CERTIFICATE = 0xFC, NW_INDEX = 0xFD, NW_CONTENT = 0xFE };

/* Judges any byte string. Value: the heading; the payload is the n - 12 bytes from s + 8 on. Refusals 1
 * to 7, in this order. A section that is not current is good all the same. Stack: 112 bytes. */
nw_heading nw_section_read(const uint8_t *s, size_t n);

/* The stated length of the section that begins at s, where n bytes are at hand: so many are
 * nw_section_read's to judge, and the next section of a stream begins after them. Value:
 * section_length + 3, 12 to 4,096, which may be more than n. Refusals, in this order: 1, fewer than 3
 * bytes; 4, section_length below 9 or above 4,093. Nothing else is looked at. Stack: 16 bytes. */
nw_answer nw_section_length(const uint8_t *s, size_t n);

/* How many sections a body of so many bytes makes: the ceiling of length / 4,084, 1 to 256.
 * Refusals, in this order: 14, no bytes; 22, more than NW_MOST_BODY. Stack: 16 bytes. */
nw_answer nw_section_count(size_t length);

/* Writes section `number` of a body at the start of out: every section but the last carries 4,084
 * bytes of the body, and each is current. Value: the bytes written, at most NW_MOST_SECTION; the
 * bytes of out after them stay. Refusals, in this order, with nothing written: 2, no such kind; 19,
 * a version above 31 or an extension above 65,535; 14, an empty body; 22, more than NW_MOST_BODY
 * bytes; 6, a number past the last; 21, out is too small for the section: NW_MOST_SECTION bytes are
 * enough for any. The body must not overlap out. Stack: 128 bytes. */
nw_answer nw_section_cut(const uint8_t *body, size_t n, uint32_t kind, uint32_t extension,
                         uint32_t version, uint32_t number, uint8_t *out, size_t room);

/* ---- Damaged captures -------------------------------------------------------------------------
 *
 * A capture from which pieces are missing is read byte by byte: where a good section begins, one that
 * nw_section_read takes at its own stated length, it is kept and reading goes on after its end; else
 * one byte is skipped. Each kept section is a run, and so are the bytes skipped between two of them. The
 * runs follow each other, no two skipped ones touch, and together they cover the capture once.
 *
 * The list of runs is lent as numbers, three for each run: 1 if it is kept and 0 if it is skipped, its
 * first offset, its length. nw_run_at reads a run out of it; an nw_run is laid out as its numbers are. */
#define NW_MOST_CAPTURE 65536u /* bytes of the longest capture */

typedef struct nw_run { uint32_t kept, first, length; } nw_run;

static inline nw_run nw_run_at(const uint32_t *list, size_t i)
{
    nw_run r = {list[3 * i], list[3 * i + 1], list[3 * i + 2]};
    return r;
}

/* Room that is enough for any capture of so many bytes: bytes for its sections, runs, and numbers for
 * these. Proved; with so much of both nothing is refused with 21, and the capture is read once. */
#define NW_SALVAGE_BYTES(bytes) ((size_t)(bytes))
#define NW_SALVAGE_RUNS(bytes) ((2 * (size_t)(bytes) + 11) / 13)
#define NW_SALVAGE_NUMBERS(bytes) (3 * NW_SALVAGE_RUNS(bytes))

/* Writes the good sections of a capture, unchanged and back to back, at the start of out, and the
 * numbers of its runs at the start of list; bytes and numbers after them stay. Value: how many runs,
 * and how many bytes. A capture of good sections alone comes out as it was, with a kept run for each;
 * one of no bytes has no run. A section that is not current is good.
 * Refusals, in this order, with nothing written: 36, more than NW_MOST_CAPTURE bytes; 21, out or list
 * is too small. Capture, out and list must not overlap.
 *
 * A longer capture is read in windows of NW_MOST_CAPTURE bytes: of each but the last take the runs that
 * begin before its last NW_MOST_SECTION - 1 bytes, where a section may be cut off, and begin the next
 * window where the last of them ends, but not past these bytes if it is skipped (examples/box.c).
 *
 * A capture of good sections is gone over once. The worst, in which each byte begins a section that
 * only fails its check, costs a check of up to 4,096 bytes at each byte: no more than 2^28 steps, and
 * twice that where out or list have less room than the macros above tell.
 * Stack: 192 bytes. */
nw_salvaged nw_salvage(const uint8_t *capture, size_t n, uint8_t *out, size_t room, uint32_t *list,
                       size_t numbers);

/* ---- Transport packets ------------------------------------------------------------------------
 *
 * Sections travel in transport packets (ISO/IEC 13818-1): 188 bytes, the sync byte 0x47, PID 0x0021, a
 * start indicator with a pointer field, a continuity counter of four bits, stuffing of 0xFF after a
 * section. For the unpacker the caller lends a state of NW_UNPACKER_BYTES bytes, at first all zeros. Any
 * bytes are a state; such as no call can have left are read as one that holds nothing. What is in it is
 * the library's, and it is never NULL. */
#define NW_PACKET_BYTES 188u
#define NW_UNPACKER_BYTES 4286u /* of an unpacker's state */

/* The bytes of the packets of a section of n bytes, and of the longest one's: 23 packets. */
#define NW_PACKED_BYTES(n) ((size_t)NW_PACKET_BYTES * (1 + (size_t)(n) / 184))
#define NW_MOST_PACKED NW_PACKED_BYTES(NW_MOST_SECTION)

/* The most sections that one packet can complete, and the most bytes that they have together. */
#define NW_MOST_COMPLETED 61u
#define NW_MOST_COMPLETED_BYTES 4278u

/* Writes a good section's packets at the start of out: the section begins in a fresh packet with pointer
 * 0, the first packet has the counter given, and each has the next after the one before it, round the
 * ring of 16. Value: the bytes written, NW_PACKED_BYTES(n); bytes of out after them stay. The next
 * section's counter is (counter + value / NW_PACKET_BYTES) % 16. Refusals, in this order, with nothing
 * written: 1 to 7, as nw_section_read; 19, a counter above 15; 21, out is too small.
 * Stack: 240 bytes. */
nw_answer nw_packet_pack(const uint8_t *section, size_t n, uint32_t counter, uint8_t *out, size_t room);

/* Takes one packet, and writes the sections that it completes at the start of out, one right after the
 * other, each as long as its section_length says, 3 to 4,096 bytes, whatever its table_id and its check:
 * nw_section_read judges it. Value: their bytes together, often 0; bytes of out after them stay.
 * NW_MOST_COMPLETED_BYTES of room are always enough. Several sections in one packet, any pointer and
 * adaptation fields are taken.
 * - A packet equal to the last one taken in all 188 bytes is ignored once; the next such is a gap.
 * - A packet without a payload is skipped, its counter unread.
 * - The unfinished section is dropped by a counter that does not follow the last packet's, by the error
 *   bit (of a packet of any PID; the next counter is then free), by a section_length above 4,093, and by
 *   a pointer that comes before its end. Reading goes on at the next pointer, a gap packet's own included.
 * - FF where a section would begin is stuffing to the packet's end. Without a pointer, bytes after a
 *   section's end are skipped.
 * Refusals, in this order, and a refused packet changes nothing, not even the counter: 30, n is not 188;
 * 31, no sync byte; 32, another PID: pass it over; 33, scrambled; 34, a pointer or an adaptation field
 * past the packet's end, or adaptation control 00; 21, out is too small for the sections together.
 * Stack: 176 bytes. */
nw_answer nw_packet_unpack(uint8_t state[NW_UNPACKER_BYTES], const uint8_t *packet, size_t n, uint8_t *out,
                           size_t room);

/* ---- The gathering ----------------------------------------------------------------------------
 *
 * Good, current sections of one table, fed in any order, repeats and damage among them, become its
 * body. The caller lends one state, at first all zeros, and one store; each call updates them and
 * keeps nothing else. The first section taken fixes the table: its kind, extension, version and last
 * number. A section of the same kind and extension whose version is 1 to 15 steps ahead, round the ring
 * of 32, starts the gathering over. State, store, section and output must not overlap, and the state is
 * never NULL.
 *
 * A state tells how far its table has come: how many of its last + 1 sections are missing, and how many
 * bytes of payload are held. Both are right after every call, and are the caller's to read, not to set.
 * Once a table is begun and none of it is missing, bytes is the length of its body.
 *
 * A state is possible if all of it is zeros, or if its kind is one of enum nw_kind, its version at most
 * 31, spoiled 0 or 1, at least one number held, none above last, each held length at most
 * NW_MOST_PAYLOAD, and missing and bytes are what counting them in held gives. From a fresh state on, or
 * any possible one, feeds leave only possible ones.
 *
 * The struct has 524 bytes. It grew with version 0.2.0, by bytes and missing: before, it had 518, and a
 * program with such states must be compiled anew, for this library looks at all 524 and would read and
 * write past their end. nw_version() other than NW_VERSION_NUMBER tells a library of another version. */
typedef struct nw_gathering {
    uint32_t bytes;     /* how many bytes of payload are held */
    uint16_t missing;   /* how many sections are missing; 0 while nothing is begun */
    uint16_t extension;
    uint8_t kind;       /* table_id; 0 while nothing is begun */
    uint8_t version;
    uint8_t last;       /* last_section_number */
    uint8_t spoiled;    /* 1 after a contradiction, else 0 */
    uint16_t held[256]; /* by section number: the payload's length + 1, or 0 where it is not held */
} nw_gathering;

#define NW_FRESH {0, 0, 0, 0, 0, 0, 0, {0}}                       /* a state that holds nothing */
#define NW_STORE_BYTES(last) (((size_t)(last) + 1) * NW_MOST_PAYLOAD) /* what a table asks of a store */

/* Feeds one byte string. Value: one of enum nw_fed. A payload that is taken goes to byte
 * number x 4,084 of the store, and all other bytes of the store stay, an older table's too; one section
 * less is missing, and so many bytes more are held. A section that is held already changes nothing. A
 * newer version's section is taken whatever was held, whole, spoiled or not, with whatever last number:
 * from then on the state has and counts that section alone. Refusals, in this order: 12, not a possible
 * state; 1 to 7, as nw_section_read; 8, not current; 9, another table's heading: another kind or
 * extension, the same version with another last number, or a version 16 to 31 steps ahead; 10, the store
 * has not NW_STORE_BYTES(last) bytes for the section's table; 11, a payload other than the one held for
 * its number, or the gathering is spoiled already. A refused call changes nothing, 8 and 10 for a newer
 * version neither, but that 11 for a contradiction spoils the gathering, which keeps its counts: make the
 * state fresh to begin again, or wait for a newer version. While nothing is begun, and for a newer
 * version's section, there is no 9 and no 11. Stack: 1,216 bytes. */
nw_answer nw_gathering_feed(nw_gathering *g, uint8_t *store, size_t store_bytes, const uint8_t *s,
                            size_t n);
enum nw_fed { NW_FED_TAKEN = 0, NW_FED_HELD_ALREADY = 1 };

/* Writes the body at the start of out: the payloads of numbers 0 to last, joined. Value: its length;
 * bytes of out after it stay, and so do store and state. It is written exactly when every number is
 * held and no contradiction was fed. Refusals, in this order, with nothing written: 12, not a
 * possible state; 13, nothing is begun (place 0); 10, the store is too short; 11, spoiled; 13, with
 * the smallest missing number as its place; 21, out is too small: g->bytes are enough, and no body is
 * longer than NW_MOST_BODY bytes. Stack: 672 bytes. */
nw_answer nw_gathering_hand_out(const nw_gathering *g, const uint8_t *store, size_t store_bytes,
                                uint8_t *out, size_t out_bytes);

/* Packs the body where it stands: the payloads of numbers 0 to last are moved together at the start of
 * the store, as handing out would write them, and no second buffer is needed. Value: the body's length,
 * which is g->bytes before the call. The gathering is over: the state is fresh again, so a caller keeps
 * what it wants to know of the table. Bytes of the store after the body stay, old payloads too. Packed
 * exactly when every number is held and no contradiction was fed. Refusals, in this order, with nothing
 * changed: 12, not a possible state; 13, nothing is begun (place 0); 10, the store is too short; 11,
 * spoiled; 13, with the smallest missing number as its place. There is no 21. Stack: 656 bytes.
 *
 * All that a box with one store needs; the body stands in the store until the next feed:
 *
 *     static nw_gathering g = NW_FRESH;
 *     static uint8_t store[NW_STORE_BYTES(255)];
 *
 *     void take_section(const uint8_t *s, size_t n) {
 *         nw_gathering_feed(&g, store, sizeof store, s, n);
 *         unsigned kind = g.kind, extension = g.extension; // what a reader asks for, and packing forgets
 *         nw_answer packed = nw_gathering_pack(&g, store, sizeof store);
 *         if (NW_REFUSAL(packed) == NW_TAKEN) show(kind, extension, store, nw_value(packed));
 *     } */
nw_answer nw_gathering_pack(nw_gathering *g, uint8_t *store, size_t store_bytes);

/* ---- Two networks, one store ------------------------------------------------------------------
 *
 * At a border site one box listens to two cable networks and has memory for one store. Its whole rooms
 * of NW_ROOM_BYTES bytes, at most NW_MOST_ROOMS of them, serve both: a room is taken for each section
 * that is taken, whose payload stands at its start, and is given back when its network's gathering ends
 * or a newer version takes over. No room is ever held twice, and held and free rooms together are all of
 * them. A number has no fixed place in this store, and there is no packing: a body is handed out.
 *
 * The networks are 1 and 2. Each gathers one table, as nw_gathering says. What a network is answered
 * depends on its own calls and on whether a room was free at each of its takes, and on nothing else that
 * the other one did. A section that is refused for room counts as not fed: it may come again.
 *
 * The caller lends one state, which nw_networks_start makes, and from then on to every call the same
 * store, or its length. State, store, section and output must not overlap, and the state is never NULL.
 * What each network holds is the caller's to read, not to set: x->one.gathering tells of network 1 how
 * many sections are missing and how many bytes are held, as an nw_gathering does.
 *
 * A state is possible if the store is as long as at the start, each gathering is possible by itself, each
 * number that is held has one of the store's rooms and no other number has any, and no two numbers, of
 * one network or of both, have the same room. From the start on calls leave only possible ones. The
 * struct has 2,080 bytes. */
#define NW_ROOM_BYTES 4084u /* of a room: the longest payload */
#define NW_MOST_ROOMS 512u  /* rooms that are used of any store */
#define NW_ROOMS_BYTES(rooms) ((size_t)(rooms) * NW_ROOM_BYTES) /* a store of so many rooms */

typedef struct nw_network {
    nw_gathering gathering;
    uint16_t rooms[256]; /* by section number: its room, counted from 1, or 0 where it is not held */
} nw_network;

typedef struct nw_networks {
    size_t bytes;   /* of the store, at the start */
    nw_network one;
    nw_network two;
} nw_networks;

/* Makes the state that holds nothing, over a store of so many bytes, whatever it was before; the store
 * itself may hold anything. The rooms of such a store: the smaller of NW_MOST_ROOMS and the whole rooms
 * in its length. Nothing is refused; where there is no room, no section is taken (35).
 * Stack: 32 bytes. */
size_t nw_networks_start(nw_networks *x, size_t store_bytes);

/* Feeds one byte string for a network. Value: one of enum nw_fed. A payload that is taken goes to the
 * start of the first room that is free, and all other bytes of the store stay; one section less is
 * missing, and so many bytes more are held. A section that is held already needs no room and changes
 * nothing. A newer version's section, as nw_gathering_feed says, gives back all rooms of its network
 * before it takes one, so that it is never refused for room. The other network's part stays. Refusals,
 * in this order: 19, a network other than 1 or 2; 12, not a possible state, whichever part it is that is
 * not, or a store of another length; 1 to 7, as nw_section_read; 8, not current; 9, another table's
 * heading; 11, a payload other than the one held for its number, or that network's gathering is spoiled
 * already; 35, the section would be taken, and every room is held. There is no 10. A refused call changes
 * nothing, so that a first section refused with 35 begins nothing, but that 11 for a contradiction spoils
 * the network's gathering, which keeps its counts and its rooms: end it to begin again, or wait for a
 * newer version. Stack: 22,752 bytes. */
nw_answer nw_networks_feed(nw_networks *x, uint32_t network, uint8_t *store, size_t store_bytes,
                           const uint8_t *s, size_t n);

/* Writes a network's body at the start of out: the payloads of numbers 0 to last, joined out of their
 * rooms. Value: its length; bytes of out after it stay, and so do store and state: no room is given back.
 * It is written exactly when every number is held and no contradiction was fed. Refusals, in this order,
 * with nothing written: 19, a network other than 1 or 2; 12, as for nw_networks_feed; 13, nothing is
 * begun (place 0); 11, spoiled; 13, with the smallest missing number as its place; 21, out is too small:
 * gathering.bytes of that network are enough, and no body is longer than NW_MOST_BODY bytes. There is no
 * 10. Stack: 2,768 bytes. */
nw_answer nw_networks_hand_out(const nw_networks *x, uint32_t network, const uint8_t *store,
                               size_t store_bytes, uint8_t *out, size_t out_bytes);

/* Ends a network's gathering, begun or not, whole, spoiled or neither: its part of the state is fresh
 * again, and its rooms are free. The other network's part stays, and nothing of the store is touched,
 * whose length alone is asked for. Value: 0. Refusals, in this order, with nothing changed: 19, a network
 * other than 1 or 2; 12, as for nw_networks_feed. Stack: 4,800 bytes. */
nw_answer nw_networks_end(nw_networks *x, uint32_t network, size_t store_bytes);

/* How many rooms both networks hold together, and how many of the store's rooms nobody holds. Together
 * they are what nw_networks_start answered. Refusal 12: as for nw_networks_feed. Stack: 2,704 bytes.
 *
 * All that a box between two networks needs, with memory for one table of 256 sections on either side:
 *
 *     static nw_networks x;
 *     static uint8_t store[NW_ROOMS_BYTES(NW_MOST_ROOMS)], body[NW_MOST_BODY];
 *
 *     void begin(void) { nw_networks_start(&x, sizeof store); }
 *
 *     void take_section(uint32_t network, const uint8_t *s, size_t n) {
 *         nw_networks_feed(&x, network, store, sizeof store, s, n);
 *         const nw_gathering *g = network == 1 ? &x.one.gathering : &x.two.gathering;
 *         nw_answer got = nw_networks_hand_out(&x, network, store, sizeof store, body, sizeof body);
 *         if (NW_REFUSAL(got) != NW_TAKEN) return;
 *         show(network, g->kind, g->extension, body, nw_value(got));
 *         nw_networks_end(&x, network, sizeof store); // and its rooms are free
 *     } */
nw_answer nw_networks_held_rooms(const nw_networks *x, size_t store_bytes);
nw_answer nw_networks_free_rooms(const nw_networks *x, size_t store_bytes);
/* ---- A slow gathering to teach with -----------------------------------------------------------
 *
 * The same gathering once more, for the training room: it keeps every byte string that it is fed,
 * and works everything out from the beginning whenever it is asked. It has no state. Its code is
 * one short function for each question, in the order of the rules (docs/TEACHING.md walks through
 * it), and over every run of feeds that its buffer has room for it answers as nw_gathering_feed and
 * nw_gathering_hand_out do from a fresh state: proved, not only tried.
 *
 * The caller lends a buffer, which may hold anything at first, and a number, how many of its bytes
 * are in use, at first 0. A string of n bytes takes NW_TAUGHT_BYTES(n) of them: its length in eight
 * bytes, the high one first, then the string. store_bytes is the length of the store that the quick
 * gathering has beside it, so that both answer 10 alike; no store is lent here.
 *
 * The bytes in use are whole rows of length and string, or a call answers 12. Where more are said
 * to be in use than the buffer has, that is 37 to a feed, since nothing fits, and 12 to every other
 * call.
 *
 * It is slow by design, and not for a box. With m strings kept, nw_teaching_heading reads each of
 * them once, its check included. To find contradictions, the other calls read each with all that
 * came after it, m x m / 2 readings, a feed of another table's section or of none excepted; handing
 * out and asking what is missing also read them once more for each number of the table. So the cost
 * of one such call grows with the square of what is kept, and that of a run of feeds with the cube:
 * docs/LANDINGS.md has times. Keep a lesson to some dozens of sections. */
#define NW_TAUGHT_BYTES(n) (8 + (size_t)(n)) /* what a string of n bytes takes of a teaching buffer */

/* Feeds one byte string. Value: one of enum nw_fed, by what was kept before it: taken, or held
 * already. The string is kept after the bytes in use, whatever the answer, refused ones and repeats
 * too, and *used is NW_TAUGHT_BYTES(n) more; bytes of the buffer after it stay. Refusals, in this
 * order: 37, the buffer has no room for NW_TAUGHT_BYTES(n) bytes after those in use, whatever they
 * are; 12, the bytes in use are no whole rows; then as nw_gathering_feed with a store of
 * store_bytes bytes: 1 to 7, 8, 9, 10, 11. With 37 and 12 nothing is kept and nothing changes: from
 * the first 37 on the quick gathering may know more. used is never NULL. Stack: 544 bytes. */
nw_answer nw_teaching_feed(uint8_t *buffer, size_t room, size_t *used, size_t store_bytes,
                           const uint8_t *s, size_t n);

/* Writes the body at the start of out: of each number 0 to last the payload that came first,
 * joined, from the section on that began the table. Value: its length; bytes of out after it stay,
 * and so does what is kept. Refusals, in this order, with nothing written: 12, the bytes in use are
 * no whole rows; 13, nothing is begun (place 0); 11, two payloads of one number differ; 13, with
 * the smallest missing number as its place; 21, out is too small: no body is longer than
 * NW_MOST_BODY bytes. There is no 37, and no 10, since a table that found no room never began.
 * Stack: 576 bytes. */
nw_answer nw_teaching_hand_out(const uint8_t *buffer, size_t room, size_t used, size_t store_bytes,
                               uint8_t *out, size_t out_bytes);

/* The heading of the section that began the table: of the latest takeover, and of the first section
 * taken where there was none. Its kind, extension, version and last number are the quick state's.
 * Refusals: 12, the bytes in use are no whole rows; 13, nothing is begun (place 0). Stack: 272
 * bytes. */
nw_heading nw_teaching_heading(const uint8_t *buffer, size_t room, size_t used, size_t store_bytes);

/* Value: how many of the table's last + 1 sections are missing, as the quick state's field missing
 * has it. Of a spoiled table only what came before the first contradiction counts. Which number is
 * the smallest is told by nw_teaching_hand_out. Refusals: 12, the bytes in use are no whole rows;
 * 13, nothing is begun (place 0), where the quick state has 0. Stack: 480 bytes. */
nw_answer nw_teaching_missing(const uint8_t *buffer, size_t room, size_t used, size_t store_bytes);

/* ---- Forms ------------------------------------------------------------------------------------
 *
 * What a writer takes: a tape of numbers in the body's order, and a pool of bytes. A list is its
 * count and then its things; bytes are two entries, their start and their length in the pool.
 * Lengths and reserved bits do not stand on the tape: the writer works them out.
 *
 * A form is put together by the helpers below, in two arrays that the caller lends. They are plain C
 * in this header and not proved. One that has no room left for something becomes a form of no
 * entries, and stays one: a writer then writes nothing, it answers 19. */
typedef struct nw_form {
    uint8_t *pool;          /* the bytes, of which the first pool_bytes are in use */
    size_t pool_room;
    size_t pool_bytes;
    uint64_t *tape;         /* the numbers, of which the first `entries` are in use */
    size_t tape_room;
    size_t entries;
    int full;               /* 1: something found no room */
} nw_form;

/* An empty form in the arrays lent. */
static inline nw_form nw_form_start(uint8_t *pool, size_t pool_room, uint64_t *tape, size_t tape_room)
{
    nw_form f = { pool, pool_room, 0, tape, tape_room, 0, 0 };
    return f;
}

/* Appends a number. Answers the entry it stands at. */
static inline size_t nw_form_number(nw_form *f, uint64_t x)
{
    size_t at = f->entries;
    if (f->full || f->tape_room - at < 1) {
        f->full = 1;
        f->entries = 0;
        return 0;
    }
    f->tape[at] = x;
    f->entries = at + 1;
    return at;
}

/* Appends n bytes: a copy of them to the pool, their start and their length to the tape. */
static inline void nw_form_bytes(nw_form *f, const uint8_t *bytes, size_t n)
{
    size_t start = f->pool_bytes, at = f->entries, i;
    if (f->full || f->pool_room - start < n || f->tape_room - at < 2) {
        f->full = 1;
        f->entries = 0;
        return;
    }
    for (i = 0; i < n; i++)
        f->pool[start + i] = bytes[i];
    f->pool_bytes = start + n;
    f->tape[at] = start;
    f->tape[at + 1] = n;
    f->entries = at + 2;
}

/* Begins a list whose things are not counted yet. Answers its count's entry, for nw_form_thing. */
static inline size_t nw_form_list(nw_form *f)
{
    return nw_form_number(f, 0);
}

/* Counts one more thing of the list; the thing itself is appended after this. */
static inline void nw_form_thing(nw_form *f, size_t list)
{
    if (!f->full)
        f->tape[list]++;
}

/* ---- Identifiers and resources ----------------------------------------------------------------
 *
 * A message's identifier is 35 decimal digits in 18 bytes; a resource, and a terminal is one, has 23 in
 * 12 bytes. Each digit has four bits, and before the first stand four reserved ones. Digits 24 to 31 of
 * an identifier, counted from 1, are a real day from 1 March 1900 to 22 April 2038, year, month and day
 * (YYYYMMDD), in bytes 12 to 15 of the 18; a resource has no day. The helpers here are plain C, tested
 * and not proved, and do not judge the day: nw_content_identifier(bytes, 18) does. */
#define NW_IDENTIFIER_BYTES 18u
#define NW_IDENTIFIER_DIGITS 35u
#define NW_RESOURCE_BYTES 12u
#define NW_RESOURCE_DIGITS 23u

/* The digits of n bytes, 1 or more, as a text of 2n - 1 characters and a NUL, with `?` for one above 9.
 * Answers the text. */
static inline char *nw_digits_text(const uint8_t *bytes, size_t n, char *text)
{
    size_t i;
    for (i = 0; i < 2 * n - 1; i++)
        text[i] = "0123456789??????"[i % 2 ? bytes[(i + 1) / 2] >> 4 : bytes[i / 2] & 15];
    text[2 * n - 1] = '\0';
    return text;
}

/* The n bytes, 1 or more, of a text of exactly 2n - 1 digits and a NUL, the reserved bits as ones.
 * Answers 1, and for any other text 0 with nothing written. */
static inline int nw_digits_bytes(const char *text, uint8_t *bytes, size_t n)
{
    size_t i;
    for (i = 0; i < 2 * n - 1; i++)
        if (text[i] < '0' || text[i] > '9')
            return 0;
    if (text[2 * n - 1] != '\0')
        return 0;
    bytes[0] = (uint8_t)(0xF0 | (text[0] - '0'));
    for (i = 1; i < n; i++)
        bytes[i] = (uint8_t)((text[2 * i - 1] - '0') << 4 | (text[2 * i] - '0'));
    return 1;
}

/* The same of an identifier, 18 bytes and a text of 36, and of a resource, 12 bytes and a text of 24. */
static inline char *nw_identifier_text(const uint8_t bytes[18], char text[36])
{
    return nw_digits_text(bytes, NW_IDENTIFIER_BYTES, text);
}

static inline char *nw_resource_text(const uint8_t bytes[12], char text[24])
{
    return nw_digits_text(bytes, NW_RESOURCE_BYTES, text);
}

static inline int nw_identifier_bytes(const char *text, uint8_t bytes[18])
{
    return nw_digits_bytes(text, bytes, NW_IDENTIFIER_BYTES);
}

static inline int nw_resource_bytes(const char *text, uint8_t bytes[12])
{
    return nw_digits_bytes(text, bytes, NW_RESOURCE_BYTES);
}

/* ---- Things of a body -------------------------------------------------------------------------
 *
 * A thing of a body is told by `at`, the offset of the byte where it begins, and, where it does not
 * carry its length, by `length`: a message and a language by their own length, as the part that is
 * answered for them has it; a descriptor and a stream by how many bytes their part has from there on,
 * so that at + length is the part's end. A command carries its length. The sum at + length is taken
 * without overflow: whatever lies after the body's end is refused (19), however large. After the thing
 * come the numbers of what is asked for in it, counted from 0. */

/* ---- The certificate table --------------------------------------------------------------------
 *
 * Its body is a list of certificate authorization lists, a list of certificates and a signature, all
 * of them opaque bytes. */

/* Entries that are enough to lay a body of so many bytes: counted by hand and tested, not proved. */
#define NW_CERTIFICATE_ENTRIES(bytes) ((size_t)(bytes) + 255)

/* Judges a body. Value: 0. Refusals, in this order: 2, the kind is not NW_CERTIFICATE; 22, more than
 * NW_MOST_BODY bytes; 14, the first field that passes the body's end, at its place; 16, bytes after
 * the signature, at the first of them. Stack: 336 bytes. */
nw_answer nw_certificate_read(uint32_t kind, const uint8_t *body, size_t n);

/* The fields of an accepted body, asked for without reading what stands after them. Value: a count;
 * or the part of the body that the bytes fill. Refusal 19: there is no i-th, counted from 0. Of a
 * body that nw_certificate_read refuses they tell the field all the same, where what stands before it
 * can be read, and else the refusal of what can't. Stack: 16 bytes. */
nw_answer nw_certificate_authorization_count(const uint8_t *body, size_t n);
nw_part nw_certificate_authorization(const uint8_t *body, size_t n, uint64_t i);
nw_answer nw_certificate_certificate_count(const uint8_t *body, size_t n);
nw_part nw_certificate_certificate(const uint8_t *body, size_t n, uint64_t i);
nw_part nw_certificate_signature(const uint8_t *body, size_t n);

/* Writes the table of a form at the start of out; bytes of out after it stay. Value: its length. The
 * tape has the count of authorization lists, for each its start and its length in the pool, the count
 * of certificates, for each the same, and the signature's start and length. Refusals, in this order,
 * with nothing written and place 0: 19, the tape is too short, has entries left over, or a span that is
 * not in the pool; 22, a count or length too large for its field, or more than NW_MOST_BODY bytes; 21,
 * out is too small: nw_certificate_measure tells the room. Out must overlap neither pool nor tape.
 * Stack: 272 bytes. */
nw_answer nw_certificate_write(const uint8_t *pool, size_t pool_bytes, const uint64_t *tape,
                               size_t entries, uint8_t *out, size_t room);

/* Judges and measures a form, as nw_certificate_write does before it writes, and writes nothing. Value:
 * the length of its body, the room that nw_certificate_write needs. Refusals: those of
 * nw_certificate_write but 21, each but 22 with a place: the entry of the tape, from 0, where the field
 * that is wrong begins, bytes at the entry of their start; the first of entries left over.
 * Stack: 96 bytes. */
nw_answer nw_certificate_measure(const uint8_t *pool, size_t pool_bytes, const uint64_t *tape,
                                 size_t entries);

/* Lays an accepted body onto a tape: the form from which, with the body itself as the pool,
 * nw_certificate_write writes it again. Value: the entries laid, two for each part and one for each
 * count; entries after them stay. Refusals, with nothing laid: those of nw_certificate_read, then 21,
 * the tape is too short: NW_CERTIFICATE_ENTRIES(n) are enough. The tape must not overlap the body.
 * Stack: 384 bytes. */
nw_answer nw_certificate_lay(uint32_t kind, const uint8_t *body, size_t n, uint64_t *tape,
                             size_t entries);

/* ---- The index table --------------------------------------------------------------------------
 *
 * Its body is a list of messages and a signature:
 *
 *   message     an identifier of 35 decimal digits (18 bytes, four reserved bits before the first
 *               digit) with a real day as its digits 24 to 31, network, start and end (time fields),
 *               type (five bytes of at most 0x7F), class and level (1 to 4 each), a list of resources,
 *               of 23 digits each (12 bytes), and perhaps a channel
 *   channel     network, stream and program (16 bits each), PCR PID (13 bits), descriptors, streams
 *   stream      type (8 bits), PID (13 bits), descriptors
 *   descriptor  tag (8 bits) and up to 255 bytes
 *
 * A message is told by where it begins in the body, the byte after its length, and that length
 * (EBM_length), as a record has them. A descriptor's bytes and the signature are opaque. */
#define NW_MOST_MESSAGES 255u   /* records that are always enough */

/* The classes and levels of a message, and the standard's words for them (6.2, tables 2 and 3). The
 * texts are plain C, tested and not proved. */
enum nw_class {
    NW_CLASS_SYSTEM_DRILL = 1,
    NW_CLASS_SIMULATED_DRILL = 2,
    NW_CLASS_ACTUAL_DRILL = 3,
    NW_CLASS_EMERGENCY = 4
};
enum nw_level {
    NW_LEVEL_VERY_GRAVE = 1,
    NW_LEVEL_GRAVE = 2,
    NW_LEVEL_SERIOUS = 3,
    NW_LEVEL_ORDINARY = 4
};

static inline const char *nw_class_text(uint64_t number)
{
    static const char *const texts[] = {
        "drill of the issuing system", "simulated drill", "actual drill", "emergency broadcast"};
    return number >= 1 && number <= 4 ? texts[number - 1] : "no such class";
}

static inline const char *nw_level_text(uint64_t number)
{
    static const char *const texts[] = {"very grave", "grave", "serious", "ordinary"};
    return number >= 1 && number <= 4 ? texts[number - 1] : "no such level";
}

/* Entries that are enough to lay a body of so many bytes: counted by hand and tested, not proved. */
#define NW_INDEX_ENTRIES(bytes) ((size_t)(bytes) / 2 * 3 + 1)

/* A message of an accepted body. */
typedef struct nw_record {
    size_t at;          /* where it begins in the body */
    size_t length;      /* its bytes */
    uint64_t start;     /* its start field */
    uint64_t end;       /* its end field, perhaps NW_LIVE */
    uint64_t class_;    /* 1 to 4; `class` is a word of C++ */
    uint64_t level;     /* 1 to 4 */
} nw_record;

/* Judges a body. Value: 0. Refusals, in this order: 2, the kind is not NW_INDEX; 22, more than
 * NW_MOST_BODY bytes; then that of the first field that is wrong, in the order of the body and at the
 * byte where the field begins; 16, bytes after the signature, at the first of them.
 * At one field, in this order: 14, it passes the body's end; 15, it passes the end of its message, or
 * of the descriptors or streams it stands in; 17, a reserved bit is 0; 18, a digit above 9; 19, a type
 * byte above 0x7F, a class or a level that is not 1 to 4; 20, an impossible day or time, or an
 * identifier without a real day. A length is 14 or 15 too if what it counts passes an end; one of
 * descriptors counts by its low ten bits, and is then 17 if one of the two bits above them is 1. Bytes
 * left in a message are 15, at the first of them. Reserved bits are a field before the one whose byte
 * they share. NW_LIVE is a good end, and 18 as a start. An end before its start is accepted.
 * Stack: 640 bytes. */
nw_answer nw_index_read(uint32_t kind, const uint8_t *body, size_t n);

/* Judges a body and writes a record for each message at the start of list, which has room for so many;
 * records after them stay. Value: the count of messages. Refusals, with no record written: those of
 * nw_index_read, then 21, the list has less room than there are messages: nw_index_message_count tells
 * how many, and NW_MOST_MESSAGES are always enough. The list must not overlap the body.
 * Stack: 688 bytes. */
nw_answer nw_index_records(uint32_t kind, const uint8_t *body, size_t n, nw_record *list, size_t room);

/* The messages and the signature, asked for without reading inside a message, whatever else is wrong
 * with the body. Value: a count; or a part of the body: for a message the two numbers of its record.
 * Refusals, in this order: 14, the body is empty (place 0); 19, there is no i-th, counted from 0
 * (place 0); 14, a length before the part, or its own, is cut off or passes the body's end, at its
 * place. Stack: 16 bytes. */
nw_answer nw_index_message_count(const uint8_t *body, size_t n);
nw_part nw_index_message(const uint8_t *body, size_t n, uint64_t i);
nw_part nw_index_signature(const uint8_t *body, size_t n);

/* The fields of the message of `length` bytes at `at`, each judged as nw_index_read judges this field,
 * whatever else is wrong with the message or the body: so of an accepted body's messages they are told.
 * Value: the number; a digit; or the part of the body that the bytes fill (identifier, type, resource,
 * descriptors and streams). Resources and digits are counted from 0: an identifier has digits 0 to 34,
 * a resource 0 to 22.
 * Refusals, in this order: 19, the message does not lie in the body (place 0); for a resource, and for
 * what stands after the resources, those of the resource count; for a resource, 19, there is no i-th
 * (place 0); for what stands in the channel, those of the flag, then 19, there is no channel (place 0);
 * for the streams, those of the descriptors' length; then 14 to 20 of the field itself, at its place,
 * which may lie after the body's end; last, for a digit, 19, there is no such digit (place 0). Class
 * and level share a byte and are judged together; descriptors and streams are not judged with the part
 * that they fill. A digit of the identifier is refused as the identifier is, also for its day (20). The
 * extension is that of the sections of the message's content table, the CRC-16 of the identifier's 140
 * bits, and is refused so too. Two identifiers may have the same one, so the table that is found by it
 * must have the identifier too (nw_content_identifier). Stack: 48 bytes. */
nw_part nw_message_identifier(const uint8_t *body, size_t n, size_t at, size_t length);
/* Stack: 64 bytes. */
nw_answer nw_message_identifier_digit(const uint8_t *body, size_t n, size_t at, size_t length,
                                      uint64_t i);
/* Stack: 96 bytes. */
nw_answer nw_message_extension(const uint8_t *body, size_t n, size_t at, size_t length);
nw_answer nw_message_network(const uint8_t *body, size_t n, size_t at, size_t length);
nw_answer nw_message_start(const uint8_t *body, size_t n, size_t at, size_t length);
nw_answer nw_message_end(const uint8_t *body, size_t n, size_t at, size_t length);
nw_part nw_message_type(const uint8_t *body, size_t n, size_t at, size_t length);
nw_answer nw_message_class(const uint8_t *body, size_t n, size_t at, size_t length);
nw_answer nw_message_level(const uint8_t *body, size_t n, size_t at, size_t length);
nw_answer nw_message_resource_count(const uint8_t *body, size_t n, size_t at, size_t length);
nw_part nw_message_resource(const uint8_t *body, size_t n, size_t at, size_t length, uint64_t i);
nw_answer nw_message_resource_digit(const uint8_t *body, size_t n, size_t at, size_t length, uint64_t i,
                                    uint64_t j);
nw_answer nw_message_channel_flag(const uint8_t *body, size_t n, size_t at, size_t length);
nw_answer nw_message_channel_network(const uint8_t *body, size_t n, size_t at, size_t length);
nw_answer nw_message_channel_stream(const uint8_t *body, size_t n, size_t at, size_t length);
nw_answer nw_message_channel_program(const uint8_t *body, size_t n, size_t at, size_t length);
nw_answer nw_message_pcr_pid(const uint8_t *body, size_t n, size_t at, size_t length);
nw_part nw_message_descriptors(const uint8_t *body, size_t n, size_t at, size_t length);
nw_part nw_message_streams(const uint8_t *body, size_t n, size_t at, size_t length);

/* The local date and time of a message's start or end. Value: as of nw_time_unpack. Refusals, in this
 * order: 19, the offset is outside its range (place 0); those of nw_message_start or nw_message_end,
 * with their places; 18, a live end, which has no local time, or 20, the local day lies outside the
 * range of days (place 0). Stack: 3,600 bytes. */
nw_time nw_message_local_start(const uint8_t *body, size_t n, size_t at, size_t length, int32_t offset);
nw_time nw_message_local_end(const uint8_t *body, size_t n, size_t at, size_t length, int32_t offset);

/* A descriptor or a stream that begins at `at`, in a part that has `length` bytes from there on. The
 * first one is told by its part, as nw_message_descriptors, nw_message_streams or nw_stream_descriptors
 * answer it; the next one begins where this one's bytes, or this stream's descriptors, end. So a loop
 * goes on by this one's size, at += size and length -= size, as long as length is not 0. In a body that
 * was not accepted, look at the refusal before going on.
 * Value: the number, or the part that the bytes or the descriptors fill. Refusals, in this order: 19,
 * length is 0, or at + length lies after the body's end (place 0); 14, 15 or 17 of the field, as
 * nw_index_read judges it, at its place, which may lie after the body's end. Stack: 16 bytes. */
nw_answer nw_descriptor_tag(const uint8_t *body, size_t n, size_t at, size_t length);
nw_part nw_descriptor_bytes(const uint8_t *body, size_t n, size_t at, size_t length);
nw_answer nw_stream_type(const uint8_t *body, size_t n, size_t at, size_t length);
nw_answer nw_stream_pid(const uint8_t *body, size_t n, size_t at, size_t length);
nw_part nw_stream_descriptors(const uint8_t *body, size_t n, size_t at, size_t length);

/* How many descriptors, or streams, fill the part of `length` bytes at `at`, as nw_message_descriptors,
 * nw_stream_descriptors or nw_message_streams answer it; 0 for no bytes. Each is judged as nw_index_read
 * judges it, a stream with its descriptors, in one way over the part. Refusals, in this order: 19, the
 * part does not lie in the body (place 0); 14, 15 or 17 of the first field that is wrong, at its
 * place. Stack: 48 bytes. */
nw_answer nw_descriptor_count(const uint8_t *body, size_t n, size_t at, size_t length);
nw_answer nw_stream_count(const uint8_t *body, size_t n, size_t at, size_t length);

/* Writes the table of a form at the start of out; bytes of out after it stay. Value: its length. The
 * tape has, where "bytes" are their start and their length in the pool:
 *   the count of messages; for each the identifier (18 bytes), network, start, end, type (5 bytes),
 *   class, level, the count of resources and each one (12 bytes), and 1 with a channel, else 0;
 *   for a channel, right after its 1: network, stream, program, PCR PID, descriptors, the count of
 *   streams, and for each its type, PID and descriptors;
 *   for descriptors: their count, and for each its tag and bytes;
 *   after the messages the signature (bytes).
 * The first four bits of an identifier or resource in the pool do not matter.
 * Refusals, in this order, with nothing written and place 0: that of the first field that is wrong, in
 * the order of the tape (19, the tape is too short, a span is not in the pool or has not the length
 * stated above, or a number is outside its set or has more bits than its field; 18, a digit above 9;
 * 20, an impossible day or time, or an identifier without a real day); 19, the tape has entries left
 * over; 22, a count or length too large for its field (descriptors: more than 1,023 bytes together), or
 * more than NW_MOST_BODY bytes; 21, out is too small: nw_index_measure tells the room. Out must overlap
 * neither pool nor tape.
 * Stack: 544 bytes. */
nw_answer nw_index_write(const uint8_t *pool, size_t pool_bytes, const uint64_t *tape, size_t entries,
                         uint8_t *out, size_t room);

/* Judges and measures a form, as nw_index_write does before it writes, and writes nothing. Value: the
 * length of its body, the room that nw_index_write needs. Refusals: those of nw_index_write but 21, each
 * but 22 with a place: the entry of the tape, from 0, where the field that is wrong begins, bytes at the
 * entry of their start; the first of entries left over. Stack: 304 bytes. */
nw_answer nw_index_measure(const uint8_t *pool, size_t pool_bytes, const uint64_t *tape, size_t entries);

/* Lays an accepted body onto a tape: the form from which, with the body itself as the pool,
 * nw_index_write writes it again. Value: the entries laid; entries after them stay. Refusals, with
 * nothing laid: those of nw_index_read, then 21, the tape is too short: NW_INDEX_ENTRIES(n) are enough.
 * The tape must not overlap the body. Stack: 608 bytes. */
nw_answer nw_index_lay(uint32_t kind, const uint8_t *body, size_t n, uint64_t *tape, size_t entries);

/* ---- The content table ------------------------------------------------------------------------
 *
 * Its body is the message's identifier, one to five languages and a signature:
 *
 *   identifier  35 decimal digits (18 bytes, four reserved bits before the first digit) with a real day
 *               as digits 24 to 31
 *   language    letters (three bytes a to z), character set (0 to 4), text (up to 65,535 bytes), agency
 *               (up to 255 bytes), and up to two auxiliary files
 *   file        type (8 bits, free), the length of its data in 24 or 32 bits, and the data
 *
 * The table's extension, in the headings of its sections, is the CRC-16 of the identifier's 140 bits:
 * the four reserved bits before the first digit are not part of it, so it is not nw_crc16 of the bytes.
 * A language is told by where it begins in the body, the byte after its length, and that length. Text,
 * agency, files and signature are opaque. The smallest body has 33 bytes. */

/* How many bits the length of an auxiliary file has, which a body does not say itself. The standard's
 * Table 4 has 24, and so do the tables of this library's networks; its text has 32, which a batch of
 * donated boxes follows. Such a box is given NW_AUXILIARY_32, by whoever sends to it and by what runs
 * in it: in the calls below that take a variant, in all of them the same. Every other number is refused
 * there (19, place 0), also of a table without auxiliary files, which is the same in both variants. A
 * body with such a file that is read by the other variant is refused or, if its bytes allow it, read as
 * another table: nothing in the sections tells the two apart. */
enum nw_variant {
    NW_AUXILIARY_24 = 24,
    NW_AUXILIARY_32 = 32
};

/* Entries that are always enough to lay a body: counted by hand and tested, not proved. */
#define NW_CONTENT_ENTRIES 75u

/* The character sets of a language, and the standards that define them (6.3, table 5). The texts are
 * plain C, tested and not proved. */
enum nw_character_set {
    NW_SET_GB_2312 = 0,
    NW_SET_GB_18030 = 1,
    NW_SET_GB_13000 = 2,
    NW_SET_GB_21669 = 3,
    NW_SET_GB_16959 = 4
};

static inline const char *nw_character_set_text(uint64_t number)
{
    static const char *const texts[] = {
        "GB/T 2312-1980", "GB/T 18030-2005", "GB/T 13000-2010", "GB/T 21669-2008", "GB 16959-1997"};
    return number <= 4 ? texts[number] : "no such character set";
}

/* Judges a body of a variant and the extension that its sections had. Value: 0. Refusals, in this
 * order: 2, the kind is not NW_CONTENT; 19, the variant is none of enum nw_variant (place 0); 22, more
 * than NW_MOST_BODY bytes; then that of the first field that is wrong, in the order of the body and at
 * the byte where the field begins; 16, bytes after the signature, at the first of them; 23, the
 * extension is not the CRC-16 of the identifier (place 0).
 * At one field, in this order: 14, it passes the body's end; 15, it passes the end of its language;
 * 17, a reserved bit is 0; 18, a digit above 9; 19, a letter that is not a to z, a character set above
 * 4, a language count that is not 1 to 5, an auxiliary count above 2; 20, the identifier has no real
 * day. A length is 14 or 15 too if what it counts passes an end. Bytes left in a language are 15, at the
 * first of them. Reserved bits are a field before the one whose byte they share.
 * Stack: 480 bytes. */
nw_answer nw_content_read(uint32_t kind, uint32_t variant, uint32_t extension, const uint8_t *body,
                          size_t n);

/* The fields of the body, each judged as nw_content_read judges this field, whatever else is wrong
 * with the body: so of an accepted body they are told. Value: the CRC-16; a digit, 0 to 34; a count;
 * or a part of the body.
 * Refusals, in this order: for a language and the signature, those of the language count; for a
 * language, 19, there is no i-th, counted from 0 (place 0); for both, 14, a length before the part, or
 * its own, is cut off or passes the body's end, at its place; for the identifier, its digits and the
 * extension, 14, 17, 18 or 20 of the identifier (place 0), and for the language count 14, 17 or 19 of it
 * (place 18); last, for a digit, 19, there is no such digit (place 0). For the identifier, its digits
 * and the extension only the first 18 bytes are looked at, so these alone are enough: after
 * nw_identifier_bytes(text, bytes), nw_content_extension(bytes, 18) is the extension of those digits.
 * Stack: 48 bytes. */
nw_part nw_content_identifier(const uint8_t *body, size_t n);
nw_answer nw_content_identifier_digit(const uint8_t *body, size_t n, uint64_t i);
/* Stack: 80 bytes. */
nw_answer nw_content_extension(const uint8_t *body, size_t n);
/* Stack: 16 bytes. */
nw_answer nw_content_language_count(const uint8_t *body, size_t n);
nw_part nw_content_language(const uint8_t *body, size_t n, uint64_t i);
nw_part nw_content_signature(const uint8_t *body, size_t n);

/* The fields of the language of `length` bytes at `at`, as nw_content_language tells them, each judged
 * as nw_content_read judges this field, whatever else is wrong with the language or the body. Value:
 * the number; or the part of the body that the bytes fill (letters, text, agency and an auxiliary
 * file's data). Files are counted from 0.
 * Refusals, in this order: for a file, 19, the variant is none of enum nw_variant (place 0); 19, the
 * language does not lie in the body (place 0); for what stands after the text, those of its length; for
 * what stands after the agency, those of its length; for a file, those of the auxiliary count, then 19,
 * there is no i-th (place 0), then 14 or 15 of a type or a length before it; last 14 to 19 of the field
 * itself, at its place, which may lie after the body's end.
 * Stack: 176 bytes. */
nw_part nw_language_letters(const uint8_t *body, size_t n, size_t at, size_t length);
nw_answer nw_language_character_set(const uint8_t *body, size_t n, size_t at, size_t length);
nw_part nw_language_text(const uint8_t *body, size_t n, size_t at, size_t length);
nw_part nw_language_agency(const uint8_t *body, size_t n, size_t at, size_t length);
nw_answer nw_language_auxiliary_count(const uint8_t *body, size_t n, size_t at, size_t length);
nw_answer nw_language_auxiliary_type(uint32_t variant, const uint8_t *body, size_t n, size_t at,
                                     size_t length, uint64_t i);
nw_part nw_language_auxiliary(uint32_t variant, const uint8_t *body, size_t n, size_t at,
                              size_t length, uint64_t i);

/* Writes the table of a form, in this variant, at the start of out; bytes of out after it stay. Value:
 * the extension for its sections, and the body's length. The tape, the same for both variants, has,
 * where "bytes" are their start and their length in the pool:
 *   the identifier (18 bytes); the count of languages, and for each its letters (3 bytes), character
 *   set, text (bytes), agency (bytes), the count of auxiliary files, and for each its type and data
 *   (bytes); the signature (bytes).
 * The first four bits of the identifier in the pool do not matter.
 * Refusals, in this order, with nothing written and place 0: 19, the variant is none of enum
 * nw_variant; that of the first field that is wrong, in the order of the tape (19, the tape is too
 * short, a span is not in the pool or has not the length stated above, or a number or a letter is
 * outside its set, the two counts too; 18, a digit above 9; 20, the identifier has no real day);
 * 19, the tape has entries left over; 22, a length too large for its field, or more than NW_MOST_BODY
 * bytes; 21, out is too small: nw_content_measure tells the room. Out must overlap neither pool nor
 * tape. Stack: 544 bytes. */
nw_written nw_content_write(uint32_t variant, const uint8_t *pool, size_t pool_bytes,
                            const uint64_t *tape, size_t entries, uint8_t *out, size_t room);

/* Judges and measures a form, as nw_content_write does before it writes, and writes nothing. Value: the
 * length of its body alone, the room that nw_content_write needs. Refusals: those of nw_content_write
 * but 21, the variant's 19 and 22 at place 0 and each other with a place: the entry of the tape, from 0,
 * where the field that is wrong begins, bytes at the entry of their start; the first of entries left
 * over. Stack: 256 bytes. */
nw_answer nw_content_measure(uint32_t variant, const uint8_t *pool, size_t pool_bytes,
                             const uint64_t *tape, size_t entries);

/* Lays an accepted body of a variant, whatever its extension, onto a tape: the form from which, with
 * the body itself as the pool, nw_content_write writes it again, in this variant or as the same table in
 * the other. Value: the entries laid; entries after them stay. Refusals, with nothing laid: those of
 * nw_content_read but 23, then 21, the tape is too short: NW_CONTENT_ENTRIES are enough for any body.
 * The tape must not overlap the body. Stack: 496 bytes. */
nw_answer nw_content_lay(uint32_t kind, uint32_t variant, const uint8_t *body, size_t n, uint64_t *tape,
                         size_t entries);

/* ---- The configuration table ------------------------------------------------------------------
 *
 * Its body is a list of commands and a signature. A command is a tag, the 16-bit length of its content
 * and the content, which has by the tag, in this order:
 *
 *   1  clock         year (16 bits), month, day, hour, minute and second (8 bits each), plain binary
 *   2  code          address (up to 255 bytes), resource
 *   3  frequency     frequency and symbol rate (32 bits each), mapping (0 to 5), terminals
 *   4  return        address kind (1 to 3), address, terminals
 *   5  period        period (32 bits), terminals
 *   6  volume        volume (0 to 100), terminals
 *   7  query         parameters (8 bits each), terminals
 *
 * Other tags have any bytes as their content. A resource is 23 decimal digits (12 bytes, four reserved
 * bits before the first digit), and so is each of the terminals. A return address is of kind 1 eleven
 * ASCII digits, of kind 2 six bytes, and of kind 3 a name of one or more bytes 0x21 to 0x7E that are no
 * colon, one colon, and one to five digits worth at most 65,535. */

/* Entries that are enough to lay a body of so many bytes: counted by hand and tested, not proved. */
#define NW_CONFIGURATION_ENTRIES(bytes) ((size_t)(bytes))

/* The tags that have fields. */
enum nw_command {
    NW_CLOCK = 1,
    NW_CODE = 2,
    NW_FREQUENCY = 3,
    NW_RETURN = 4,
    NW_PERIOD = 5,
    NW_VOLUME = 6,
    NW_QUERY = 7
};

/* Judges a body. Value: 0. Refusals, in this order: 2, the kind is not NW_CONFIGURATION; 22, more than
 * NW_MOST_BODY bytes; then that of the first field that is wrong, in the order of the body and at the
 * byte where the field begins; 16, bytes after the signature, at the first of them.
 * At one field, in this order: 14, it passes the body's end; 15, it passes the end of its command's
 * content; 17, a reserved bit is 0; 18, a digit above 9; 19, a mapping above 5, an address kind that
 * is not 1 to 3, a volume above 100; 20, at the year, an impossible day or one outside the range of
 * days, and at the hour an impossible time. A length is 14 or 15 too if what it counts passes an end.
 * A content shorter than its least, 7, 13, 10, 3, 5, 2, 2 bytes for tags 1 to 7, is 15 at its length;
 * bytes left in it are 15, at the first of them. An address of kind 1 or 2 of another length is 15 at
 * its length, any other wrong return address 19 where it begins. Reserved bits are a field before the
 * digits whose byte they share. Stack: 496 bytes. */
nw_answer nw_configuration_read(uint32_t kind, const uint8_t *body, size_t n);

/* How many commands there are, the part that the i-th command fills, from its tag to the end of its
 * content, and the part that the signature fills, asked for without reading inside a command, whatever
 * else is wrong with the body. Commands are counted from 0. Value: the number, or the part.
 * Refusals, in this order: 14, the body is empty (place 0); for a command, 19, there is no i-th
 * (place 0); for a command and the signature, 14, a tag or a length before it, or its own, is cut off
 * or passes the body's end, at its place. Least lengths are not looked at. Stack: 16 bytes. */
nw_answer nw_configuration_command_count(const uint8_t *body, size_t n);
nw_part nw_configuration_command(const uint8_t *body, size_t n, uint64_t i);
nw_part nw_configuration_signature(const uint8_t *body, size_t n);

/* The command whose tag stands at `at`. These places name a command of the table: 1, if there is one;
 * where a part told by nw_configuration_command begins; and where such a part ends, which is where the
 * command's content ends, if it is not the last command's. So a caller who goes on at each end asks
 * about all commands in one way over the body. The count ends the row: after the last command stands
 * the signature, and at any other place whatever stands there is read as a command. In a body that
 * was not accepted, look at the refusal before going on to the next. Value: the tag; or the part that
 * the content fills. Refusals, in this order: 19, the body has no byte there (place 0); for the content,
 * 14, its length is cut off or passes the body's end, or 15, is below the least of the tag, at the
 * length. Stack: 16 bytes. */
nw_answer nw_command_tag(const uint8_t *body, size_t n, size_t at);
nw_part nw_command_content(const uint8_t *body, size_t n, size_t at);

/* The fields of the command whose tag stands at `at`, each judged as nw_configuration_read judges this
 * field, whatever else is wrong with the command or the body: so of an accepted body's commands they
 * are told. Value: the number; a digit, 0 to 22; or the part of the body that the bytes fill
 * (addresses, resource and terminals). Parameters, terminals and digits are counted from 0.
 * Refusals, in this order: those of nw_command_tag; 19, the command has another tag than the field's
 * (place 0; terminals are tags 3 to 7's); those of nw_command_content; for what stands after an
 * address, those of its length, and of the return address also those of its kind and its own; for a
 * parameter, and for the terminals after them, those of the parameter count; for a terminal, those of
 * the terminal count; for a parameter or a terminal, 19, there is no i-th (place 0); then 14 to 20 of
 * the field itself, at its place, which may lie after the body's end; last, for a digit, 19, there is
 * no such digit (place 0). Year, month and day are judged together, and so are hour, minute and
 * second, whether or not the day is good. Stack: 80 bytes. */
nw_answer nw_command_clock_year(const uint8_t *body, size_t n, size_t at);
nw_answer nw_command_clock_month(const uint8_t *body, size_t n, size_t at);
nw_answer nw_command_clock_day(const uint8_t *body, size_t n, size_t at);
/* Stack: 192 bytes. */
nw_answer nw_command_clock_hour(const uint8_t *body, size_t n, size_t at);
nw_answer nw_command_clock_minute(const uint8_t *body, size_t n, size_t at);
nw_answer nw_command_clock_second(const uint8_t *body, size_t n, size_t at);
nw_part nw_command_code_address(const uint8_t *body, size_t n, size_t at);
nw_part nw_command_code_resource(const uint8_t *body, size_t n, size_t at);
nw_answer nw_command_code_digit(const uint8_t *body, size_t n, size_t at, uint64_t j);
nw_answer nw_command_frequency(const uint8_t *body, size_t n, size_t at);
nw_answer nw_command_symbol_rate(const uint8_t *body, size_t n, size_t at);
nw_answer nw_command_mapping(const uint8_t *body, size_t n, size_t at);
nw_answer nw_command_return_kind(const uint8_t *body, size_t n, size_t at);
nw_part nw_command_return_address(const uint8_t *body, size_t n, size_t at);
nw_answer nw_command_period(const uint8_t *body, size_t n, size_t at);
nw_answer nw_command_volume(const uint8_t *body, size_t n, size_t at);
nw_answer nw_command_parameter_count(const uint8_t *body, size_t n, size_t at);
nw_answer nw_command_parameter(const uint8_t *body, size_t n, size_t at, uint64_t i);
nw_answer nw_command_terminal_count(const uint8_t *body, size_t n, size_t at);
nw_part nw_command_terminal(const uint8_t *body, size_t n, size_t at, uint64_t i);
nw_answer nw_command_terminal_digit(const uint8_t *body, size_t n, size_t at, uint64_t i, uint64_t j);

/* Writes the table of a form at the start of out; bytes of out after it stay. Value: its length. The
 * tape has, where "bytes" are their start and their length in the pool:
 *   the count of commands; for each its tag and then, by the tag,
 *     1  year, month, day, hour, minute, second
 *     2  address (bytes), resource (12 bytes)
 *     3  frequency, symbol rate, mapping, terminals
 *     4  address kind, address (bytes), terminals
 *     5  period, terminals
 *     6  volume, terminals
 *     7  the count of parameters and each one, terminals
 *     another tag: its content (bytes);
 *   for terminals: their count, and each one (12 bytes);
 *   after the commands the signature (bytes).
 * The first four bits of a resource or terminal in the pool do not matter.
 * Refusals, in this order, with nothing written and place 0: that of the first field that is wrong, in
 * the order of the tape (19, the tape is too short, a span is not in the pool or has not the length
 * stated above, a number but the clock's is outside its set or has more bits than its field, or a
 * return address is not of its kind's form; 15, a return address of kind 1 or 2 has another length;
 * 18, a digit above 9; 20, an impossible day, once its three numbers are taken, or time, once its
 * three are, however large they are); 19, the tape has entries left over; 22, a count or length too
 * large for its field, or more than NW_MOST_BODY bytes; 21, out is too small: nw_configuration_measure
 * tells the room. Out must overlap neither pool nor tape. Stack: 400 bytes. */
nw_answer nw_configuration_write(const uint8_t *pool, size_t pool_bytes, const uint64_t *tape,
                                 size_t entries, uint8_t *out, size_t room);

/* Judges and measures a form, as nw_configuration_write does before it writes, and writes nothing.
 * Value: the length of its body, the room that nw_configuration_write needs. Refusals: those of
 * nw_configuration_write but 21, each but 22 with a place: the entry of the tape, from 0, where the field
 * that is wrong begins, bytes at the entry of their start, a day at its year, a time at its hour; the
 * first of entries left over. Stack: 160 bytes. */
nw_answer nw_configuration_measure(const uint8_t *pool, size_t pool_bytes, const uint64_t *tape,
                                   size_t entries);

/* Lays an accepted body onto a tape: the form from which, with the body itself as the pool,
 * nw_configuration_write writes it again. Value: the entries laid; entries after them stay. Refusals,
 * with nothing laid: those of nw_configuration_read, then 21, the tape is too short:
 * NW_CONFIGURATION_ENTRIES(n) are enough. The tape must not overlap the body. Stack: 512 bytes. */
nw_answer nw_configuration_lay(uint32_t kind, const uint8_t *body, size_t n, uint64_t *tape,
                               size_t entries);

#ifdef __cplusplus
}
#endif

#endif
