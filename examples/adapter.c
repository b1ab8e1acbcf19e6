// adapter [--auxiliary BITS] FILE: a drill, typed day first in lines on standard input, becomes an index table and a
// content table, cut into sections, which stand in FILE one right after the other; or, if its name ends with .ts, in transport
// packets on PID 0x0021, as an output card takes them. drill.txt is such a form. The content table is of the variant of BITS, 24
// or 32, or without them 24: the bits of an auxiliary file's length. A form has no such files, so that its sections are the same
// for both kinds of boxes; an adapter that sends pictures to donated boxes is told 32, as they are.
//
// A line is a word, a space or tab, and its value; a line that begins with # is a remark. The words are
//   identifier  35 digits, of which the 24th to the 31st are a day, year first, from 19000301 to 20380422
//   offset      minutes by which local time is east of UTC, -720 to 840
//   start       dd/mm/yyyy hh:mm:ss, local and day first, from 01/03/1900 to 22/04/2038, in UTC too
//   end         the same, after the start; or the word live, until it is called off
//   type        five ASCII characters, none of them a space
//   class       1, drill of the issuing system; 2, simulated drill; 3, actual drill; 4, emergency broadcast: remarked on
//   level       1, very grave, to 4, ordinary
//   network     0 to 65535
//   version     0 to 31
//   resource    23 digits; 1 to 255 lines of them
//   language    three letters a to z and a character set: 0 GB/T 2312 (as EUC-CN), 1 GB/T 18030, 2 GB/T 13000 (as UTF-8),
//               3 GB/T 21669, 4 GB 16959; 1 to 5 lines of them
//   text        a line of text of the language above it, in that character set; up to 65,535 bytes together
// and all of them have to be there, the first nine once, no resource and no language twice. Text goes out as it is typed;
// whether it is of its character set is looked at for 0, 1 and 2. A form has at most 1 MiB.
//
// Exit status: 0, FILE is written. 1, the form is refused: each fault is told, and FILE stays as it was. 2, wrong usage, a
// form that can't be read, or a FILE that can't be written.
// SPDX-License-Identifier: MIT
#include <errno.h>
#include <neapwillow.h>
#include <stdarg.h>
#include <stdbool.h>
#include <stdio.h>
#include <stdlib.h>
#include <string.h>

enum { FORM = 1 << 20, RESOURCES = 255, LANGUAGES = 5, TEXT = 65535, POOL = 400000, ENTRIES = 600 };
enum { TYPE_BYTES = 5 };
enum { MADE = 0, REFUSED = 1, UNUSABLE = 2 }; // exit statuses

enum word { IDENTIFIER, OFFSET, START, END, TYPE, CLASS, LEVEL, NETWORK, VERSION, RESOURCE, LANGUAGE, WORD_TEXT, WORDS };
static const char *const names[WORDS] = {"identifier", "offset",  "start",   "end",      "type",     "class",
                                         "level",      "network", "version", "resource", "language", "text"};

// A line of the form, taken apart; both strings stand in the form.
struct line {
    unsigned number;
    const char *word, *value;
};

struct language {
    struct line line;
    char letters[4];
    int set;
    uint8_t text[TEXT];
    size_t bytes;
};

struct drill {
    char form[FORM + 1];
    size_t form_bytes;
    struct line first[WORDS]; // where each word stands first; number 0 where it doesn't
    unsigned faults;
    int offset, class_, level, network, version;
    uint64_t start, end;
    uint8_t identifier[NW_IDENTIFIER_BYTES];
    uint8_t resources[RESOURCES][NW_RESOURCE_BYTES];
    unsigned resource_lines[RESOURCES];
    size_t resource_count;
    struct language languages[LANGUAGES];
    size_t language_count;
};

// What the tables are put together in and cut from, and the sections made so far.
struct desk {
    uint8_t pool[POOL];
    uint64_t tape[ENTRIES];
    uint8_t body[NW_MOST_BODY];
    uint8_t sections[2 * NW_MOST_BODY];
    size_t bytes;
    uint8_t packets[2 * 256 * NW_MOST_PACKED]; // two tables, each of 256 sections at most
    size_t packet_bytes;
    unsigned extension; // of the message's content table
    uint32_t variant;   // of that table
};

// ---- what is said

static void complain(const char *form, ...) {
    va_list words;
    va_start(words, form);
    fputs("adapter: ", stderr);
    vfprintf(stderr, form, words);
    fputc('\n', stderr);
    va_end(words);
}

// Shows bytes so that each can be seen: those that aren't printed ASCII as \xNN. Of many, the first.
static void show_bytes(const char *s, size_t n) {
    enum { MOST = 80 };
    for (size_t i = 0; i < n && i < MOST; i++) {
        unsigned char c = (unsigned char)s[i];
        fprintf(stderr, c < 0x20 || c > 0x7E ? "\\x%02X" : "%c", c);
    }
    if (n > MOST) fprintf(stderr, ".. (%zu bytes)", n);
}

// A fault of a line: its number, what was typed, and why it isn't taken.
static void fault(struct drill *d, const struct line *l, const char *form, ...) {
    va_list words;
    va_start(words, form);
    fprintf(stderr, "adapter: line %u, ", l->number);
    show_bytes(l->word, strlen(l->word));
    if (*l->value != '\0') fputc(' ', stderr);
    show_bytes(l->value, strlen(l->value));
    fputs(": ", stderr);
    vfprintf(stderr, form, words);
    fputc('\n', stderr);
    va_end(words);
    d->faults++;
}

// ---- one value

// A whole decimal number from least to most and nothing else; a sign only where there are numbers below 0.
static bool read_number(const char *s, int least, int most, int *out) {
    bool negative = least < 0 && *s == '-';
    if (least < 0 && (*s == '-' || *s == '+')) s++;
    size_t digits = strspn(s, "0123456789");
    int x = 0;
    for (size_t i = 0; i < digits && x <= 100000; i++) x = 10 * x + (s[i] - '0'); // a larger one is out of any range
    *out = negative ? -x : x;
    return digits != 0 && s[digits] == '\0' && least <= *out && *out <= most;
}

static void take_number(struct drill *d, const struct line *l, int least, int most, int *out) {
    if (!read_number(l->value, least, most, out)) fault(d, l, "it has to be a whole number from %d to %d", least, most);
}

// Why a value is not as many digits as wanted.
static void fault_digits(struct drill *d, const struct line *l, unsigned wanted) {
    size_t digits = strspn(l->value, "0123456789");
    if (l->value[digits] == '\0') fault(d, l, "it has to be %u digits, and has %zu", wanted, digits);
    else fault(d, l, "it has to be %u digits, and byte %zu of it is none", wanted, digits + 1);
}

// The library judges the digits that are the day, with the identifier by itself.
static void take_identifier(struct drill *d, const struct line *l) {
    if (!nw_identifier_bytes(l->value, d->identifier)) fault_digits(d, l, NW_IDENTIFIER_DIGITS);
    else if (NW_REFUSAL(nw_content_identifier(d->identifier, NW_IDENTIFIER_BYTES)) != NW_TAKEN)
        fault(d, l, "its day, digits 24 to 31, is %.8s: it has to be a day of the calendar, year, month and day, from 19000301 to 20380422",
              l->value + 23);
}

static void take_type(struct drill *d, const struct line *l) {
    bool good = strlen(l->value) == TYPE_BYTES;
    for (const char *c = l->value; *c != '\0'; c++) good = good && *c > ' ' && *c <= '~';
    if (!good) fault(d, l, "it has to be %d ASCII characters, none of them a space", TYPE_BYTES);
}

static void take_resource(struct drill *d, const struct line *l) {
    if (d->resource_count == RESOURCES) {
        fault(d, l, "there are %d resources already, the most a message can have", RESOURCES);
        return;
    }
    uint8_t *mine = d->resources[d->resource_count];
    if (!nw_resource_bytes(l->value, mine)) {
        fault_digits(d, l, NW_RESOURCE_DIGITS);
        return;
    }
    for (size_t i = 0; i < d->resource_count; i++)
        if (memcmp(d->resources[i], mine, NW_RESOURCE_BYTES) == 0) {
            fault(d, l, "the same resource stands at line %u already", d->resource_lines[i]);
            return;
        }
    d->resource_lines[d->resource_count++] = l->number;
}

// ---- languages and text

static bool is_letter(char c) { return c >= 'a' && c <= 'z'; }

// A language that isn't taken is counted all the same: the text after it is no second fault.
static void take_language(struct drill *d, const struct line *l) {
    const char *s = l->value;
    if (d->language_count == LANGUAGES) {
        fault(d, l, "there are %d languages already, the most a message can have", LANGUAGES);
        return;
    }
    struct language *mine = &d->languages[d->language_count++];
    mine->line = *l;
    mine->set = 4; // any text
    if (!is_letter(s[0]) || !is_letter(s[1]) || !is_letter(s[2]) || (s[3] != ' ' && s[3] != '\t')) {
        fault(d, l, "it has to be three letters a to z, a space and the number of a character set");
        return;
    }
    memcpy(mine->letters, s, 3);
    s += 3 + strspn(s + 3, " \t");
    int set;
    if (read_number(s, 0, 4, &set)) mine->set = set;
    else fault(d, l, "the character set has to be a whole number from 0 to 4");
    for (const struct language *other = d->languages; other < mine; other++)
        if (strcmp(other->letters, mine->letters) == 0)
            fault(d, l, "the same language stands at line %u already", other->line.number);
}

static bool within(uint8_t c, unsigned least, unsigned most) { return least <= c && c <= most; }

// The bytes of the character of UTF-8 that begins at s, or 0 if none does. At the end of s stands a 0.
static size_t utf8_bytes(const uint8_t *s) {
    if (s[0] < 0x80) return 1;
    if (within(s[0], 0xC2, 0xDF)) return within(s[1], 0x80, 0xBF) ? 2 : 0;
    if (within(s[0], 0xE0, 0xEF)) {
        bool second = within(s[1], s[0] == 0xE0 ? 0xA0 : 0x80, s[0] == 0xED ? 0x9F : 0xBF);
        return second && within(s[2], 0x80, 0xBF) ? 3 : 0;
    }
    bool second = within(s[1], s[0] == 0xF0 ? 0x90 : 0x80, s[0] == 0xF4 ? 0x8F : 0xBF);
    return within(s[0], 0xF0, 0xF4) && second && within(s[2], 0x80, 0xBF) && within(s[3], 0x80, 0xBF) ? 4 : 0;
}

// The same for each character set; of 3 and 4 any byte is taken.
static size_t character_bytes(int set, const uint8_t *s) {
    if (set == 2) return utf8_bytes(s);
    if (set > 2 || s[0] < 0x80) return 1;
    if (set == 0) return within(s[0], 0xA1, 0xF7) && within(s[1], 0xA1, 0xFE) ? 2 : 0;
    if (!within(s[0], 0x81, 0xFE)) return 0;
    if (within(s[1], 0x40, 0xFE)) return s[1] != 0x7F ? 2 : 0;
    return within(s[1], 0x30, 0x39) && within(s[2], 0x81, 0xFE) && within(s[3], 0x30, 0x39) ? 4 : 0;
}

// Whether a text is of its character set, without a tab.
static bool judge_text(struct drill *d, const struct line *l, int set) {
    const uint8_t *s = (const uint8_t *)l->value;
    while (*s != 0) {
        size_t n = character_bytes(set, s);
        if (n == 0) {
            fault(d, l, "\\x%02X begins no character of character set %d", *s, set);
            return false;
        }
        if (*s == '\t') {
            fault(d, l, "a tab (\\x09) can't stand inside a text");
            return false;
        }
        s += n;
    }
    return true;
}

static void take_text(struct drill *d, const struct line *l) {
    size_t n = strlen(l->value);
    if (d->language_count == 0) {
        fault(d, l, "a text has to come after its language");
        return;
    }
    struct language *mine = &d->languages[d->language_count - 1];
    if (!judge_text(d, l, mine->set)) return;
    if (TEXT - mine->bytes < n + 1) {
        fault(d, l, "with it the text of the language at line %u is longer than %d bytes", mine->line.number, TEXT);
        return;
    }
    memcpy(mine->text + mine->bytes, l->value, n);
    mine->text[mine->bytes + n] = '\n';
    mine->bytes += n + 1;
}

// ---- the lines

static void take(struct drill *d, const struct line *l, enum word w) {
    switch (w) {
    case IDENTIFIER: take_identifier(d, l); break;
    case OFFSET: take_number(d, l, -720, 840, &d->offset); break;
    case TYPE: take_type(d, l); break;
    case CLASS: take_number(d, l, 1, 4, &d->class_); break;
    case LEVEL: take_number(d, l, 1, 4, &d->level); break;
    case NETWORK: take_number(d, l, 0, 65535, &d->network); break;
    case VERSION: take_number(d, l, 0, 31, &d->version); break;
    case RESOURCE: take_resource(d, l); break;
    case LANGUAGE: take_language(d, l); break;
    case WORD_TEXT: take_text(d, l); break;
    default: break; // the times are read when the offset is known
    }
}

// The first nine words stand once.
static void take_line(struct drill *d, const struct line *l) {
    enum word w = IDENTIFIER;
    while (w < WORDS && strcmp(names[w], l->word) != 0) w++;
    unsigned before = w < RESOURCE ? d->first[w].number : 0;
    if (w == WORDS) fault(d, l, "there is no such word");
    else if (before != 0) fault(d, l, "%s stands at line %u already", names[w], before);
    else if (*l->value == '\0' && w != LANGUAGE) fault(d, l, "nothing stands after the word");
    else take(d, l, w);
    if (w < WORDS && d->first[w].number == 0) d->first[w] = *l;
}

// Whether a line of n bytes has a control character other than a tab.
static bool has_control(struct drill *d, unsigned number, const char *s, size_t n) {
    for (size_t i = 0; i < n; i++) {
        unsigned char c = (unsigned char)s[i];
        if ((c >= 0x20 && c != 0x7F) || c == '\t') continue;
        fprintf(stderr, "adapter: line %u, ", number);
        show_bytes(s, n);
        fprintf(stderr, ": the control character \\x%02X can't stand in a form\n", c);
        d->faults++;
        return true;
    }
    return false;
}

// Takes a line of n bytes, which a NUL may follow: without spaces, tabs and a CR at its end, and spaces and tabs before it.
static void split_line(struct drill *d, unsigned number, char *s, size_t n) {
    while (n > 0 && strchr(" \t\r", s[n - 1]) != NULL && s[n - 1] != '\0') n--;
    if (has_control(d, number, s, n)) return;
    s[n] = '\0';
    s += strspn(s, " \t");
    if (*s == '\0' || *s == '#') return;
    char *value = s + strcspn(s, " \t");
    if (*value != '\0') *value++ = '\0';
    value += strspn(value, " \t");
    take_line(d, &(struct line){number, s, value});
}

static void read_lines(struct drill *d) {
    bool marked = d->form_bytes >= 3 && memcmp(d->form, "\xEF\xBB\xBF", 3) == 0; // a byte order mark
    char *s = d->form + (marked ? 3 : 0), *end = d->form + d->form_bytes;
    for (unsigned number = 1; s < end; number++) {
        char *after = memchr(s, '\n', (size_t)(end - s));
        if (after == NULL) after = end;
        split_line(d, number, s, (size_t)(after - s));
        s = after + 1;
    }
}

// ---- the whole form

static unsigned days_of(unsigned month, unsigned year) {
    bool leap = year % 4 == 0 && (year % 100 != 0 || year % 400 == 0);
    if (month == 2) return leap ? 29 : 28;
    return month == 4 || month == 6 || month == 9 || month == 11 ? 30 : 31;
}

// Why the library refuses a time that is of the form, in words.
static const char *why_impossible(const char *text) {
    unsigned day, month, year, hour, minute, second;
    int got = sscanf(text, "%2u/%2u/%4u %2u:%2u:%2u", &day, &month, &year, &hour, &minute, &second);
    if (got != 6) return "it can't be read";
    if (month < 1 || month > 12) return "there is no such month (the day comes first, then the month)";
    if (day < 1 || day > days_of(month, year)) return "there is no such day in the calendar";
    if (hour > 23 || minute > 59 || second > 59) return "there is no such time of day";
    if (NW_REFUSAL(nw_day_of(year, month, day)) != NW_TAKEN) return "the day is out of the range 01/03/1900 to 22/04/2038";
    return "in UTC, less the offset, the day is out of the range 01/03/1900 to 22/04/2038";
}

static bool is_typed(const struct line *l) { return l->number != 0 && *l->value != '\0'; }
static bool is_live(const struct line *l) { return is_typed(l) && strcmp(l->value, "live") == 0; }

// Says what is wrong with one of the times, if it is typed and is.
static void judge_time(struct drill *d, enum word w) {
    const struct line *l = &d->first[w];
    if (!is_typed(l) || (w == END && is_live(l))) return;
    nw_answer answer = nw_time_read_text((const uint8_t *)l->value, strlen(l->value), d->offset);
    if (NW_REFUSAL(answer) == NW_TAKEN) return;
    const char *more = w == END ? ", or the word live" : "";
    if (NW_REFUSAL(answer) == NW_IMPOSSIBLE_DAY) fault(d, l, "%s", why_impossible(l->value));
    else fault(d, l, "it has to be dd/mm/yyyy hh:mm:ss, day first, 19 characters%s", more);
}

static void read_times(struct drill *d) {
    const struct line *start = &d->first[START], *end = &d->first[END];
    uint64_t fields[2];
    bool read = is_typed(start) && is_typed(end)
        && NW_REFUSAL(nw_times_read_text((const uint8_t *)start->value, strlen(start->value), (const uint8_t *)end->value,
                                         strlen(end->value), is_live(end), d->offset, fields)) == NW_TAKEN;
    if (!read) {
        judge_time(d, START);
        judge_time(d, END);
        return;
    }
    d->start = fields[0];
    d->end = fields[1];
    if (is_live(end)) return;
    if (d->end < d->start) fault(d, end, "it is before the start, %s", start->value);
    if (d->end == d->start) fault(d, end, "it is the start itself, so the message would never be shown");
}

static void judge_whole(struct drill *d) {
    for (enum word w = IDENTIFIER; w < WORDS; w++)
        if (d->first[w].number == 0) {
            complain("the form has no line that begins with %s", names[w]);
            d->faults++;
        }
    int offset; // a wrong one is a fault already, and the times can't be judged with it
    if (d->first[OFFSET].number != 0 && read_number(d->first[OFFSET].value, -720, 840, &offset)) read_times(d);
    for (const struct language *l = d->languages; l < d->languages + d->language_count; l++)
        if (l->bytes == 0) fault(d, &l->line, "no text that is taken comes after it");
}

static int read_drill(struct drill *d) {
    d->form_bytes = fread(d->form, 1, FORM + 1, stdin);
    if (ferror(stdin)) return complain("the form can't be read: %s", strerror(errno)), UNUSABLE;
    if (d->form_bytes > FORM) return complain("the form is longer than %d bytes", FORM), REFUSED;
    if (d->form_bytes == 0) return complain("the form is empty"), REFUSED;
    if (d->form_bytes >= 2 && (memcmp(d->form, "\xFF\xFE", 2) == 0 || memcmp(d->form, "\xFE\xFF", 2) == 0))
        return complain("the form is in UTF-16: it has to be saved as UTF-8 or plain text"), REFUSED;
    read_lines(d);
    judge_whole(d);
    if (d->faults != 0) return complain("%u fault%s: nothing is written", d->faults, d->faults == 1 ? "" : "s"), REFUSED;
    if (d->class_ == NW_CLASS_EMERGENCY) complain("line %u, class 4: this is an emergency and no drill", d->first[CLASS].number);
    return MADE;
}

// ---- the tables

// Each field was judged by its name, so that no writer should refuse one.
static bool refused(const char *what, unsigned number) {
    if (number != NW_TAKEN) complain("%s can't be made: %s (refusal %u)", what, nw_refusal_text(number), number);
    return number != NW_TAKEN;
}

static void index_form(const struct drill *d, nw_form *f) {
    nw_form_number(f, 1); // message
    nw_form_bytes(f, d->identifier, NW_IDENTIFIER_BYTES);
    nw_form_number(f, (uint64_t)d->network);
    nw_form_number(f, d->start);
    nw_form_number(f, d->end);
    nw_form_bytes(f, (const uint8_t *)d->first[TYPE].value, TYPE_BYTES);
    nw_form_number(f, (uint64_t)d->class_);
    nw_form_number(f, (uint64_t)d->level);
    nw_form_number(f, d->resource_count);
    for (size_t i = 0; i < d->resource_count; i++) nw_form_bytes(f, d->resources[i], NW_RESOURCE_BYTES);
    nw_form_number(f, 0); // no channel
    nw_form_bytes(f, NULL, 0); // no signature
}

static void content_form(const struct drill *d, nw_form *f) {
    nw_form_bytes(f, d->identifier, NW_IDENTIFIER_BYTES);
    nw_form_number(f, d->language_count);
    for (const struct language *l = d->languages; l < d->languages + d->language_count; l++) {
        nw_form_bytes(f, (const uint8_t *)l->letters, 3);
        nw_form_number(f, (uint64_t)l->set);
        nw_form_bytes(f, l->text, l->bytes);
        nw_form_bytes(f, NULL, 0); // no agency
        nw_form_number(f, 0); // no auxiliary files
    }
    nw_form_bytes(f, NULL, 0); // no signature
}

// Cuts the n bytes of the desk's body into sections, each right after the one before.
static bool cut(struct desk *k, size_t n, unsigned kind, unsigned extension, int version) {
    nw_answer count = nw_section_count(n), made;
    if (refused("the sections", NW_REFUSAL(count))) return false;
    for (uint32_t number = 0; number < nw_value(count); number++) {
        made = nw_section_cut(k->body, n, kind, extension, (uint32_t)version, number, k->sections + k->bytes,
                              sizeof k->sections - k->bytes);
        if (refused("a section", NW_REFUSAL(made))) return false;
        k->bytes += nw_value(made);
    }
    return true;
}

// Asks the index body of n bytes, as a box will, by which extension its message's content table is found.
static bool find_extension(struct desk *k, size_t n) {
    nw_part message = nw_index_message(k->body, n, 0);
    if (refused("the index table's message", NW_REFUSAL(message))) return false;
    nw_answer asked = nw_message_extension(k->body, n, nw_part_start(message), nw_part_length(message));
    if (refused("the message's extension", NW_REFUSAL(asked))) return false;
    k->extension = (unsigned)nw_value(asked);
    return true;
}

static bool write_index(const struct drill *d, struct desk *k) {
    nw_form f = nw_form_start(k->pool, POOL, k->tape, ENTRIES);
    index_form(d, &f);
    nw_answer made = nw_index_write(f.pool, f.pool_bytes, f.tape, f.entries, k->body, sizeof k->body);
    return !refused("the index table", NW_REFUSAL(made)) && find_extension(k, nw_value(made))
        && cut(k, nw_value(made), NW_INDEX, 0, d->version);
}

// The sections get the extension that a box looks for; nw_content_write answers the same of the same identifier.
static bool write_content(const struct drill *d, struct desk *k) {
    nw_form f = nw_form_start(k->pool, POOL, k->tape, ENTRIES);
    content_form(d, &f);
    nw_written made = nw_content_write(k->variant, f.pool, f.pool_bytes, f.tape, f.entries, k->body, sizeof k->body);
    return !refused("the content table", NW_REFUSAL(made))
        && cut(k, nw_written_length(made), NW_CONTENT, k->extension, d->version);
}

// Packs all sections, each from the counter after the last packet's.
static bool pack(struct desk *k) {
    for (size_t at = 0; at < k->bytes;) {
        size_t n = (size_t)nw_value(nw_section_length(k->sections + at, k->bytes - at));
        uint32_t counter = (uint32_t)(k->packet_bytes / NW_PACKET_BYTES % 16);
        size_t room = sizeof k->packets - k->packet_bytes;
        nw_answer made = nw_packet_pack(k->sections + at, n, counter, k->packets + k->packet_bytes, room);
        if (refused("a section's packets", NW_REFUSAL(made))) return false;
        k->packet_bytes += nw_value(made);
        at += n;
    }
    return true;
}

// Whether a file's name asks for a transport stream.
static bool is_stream(const char *name) {
    size_t n = strlen(name);
    return n >= 3 && strcmp(name + n - 3, ".ts") == 0;
}

static int write_file(struct desk *k, const char *name) {
    bool stream = is_stream(name);
    if (stream && !pack(k)) return REFUSED;
    const uint8_t *bytes = stream ? k->packets : k->sections;
    size_t n = stream ? k->packet_bytes : k->bytes;
    FILE *out = fopen(name, "wb");
    if (out == NULL) return complain("%s can't be opened: %s", name, strerror(errno)), UNUSABLE;
    bool good = fwrite(bytes, 1, n, out) == n;
    if (fclose(out) == 0 && good) return MADE;
    return complain("%s is not whole, it can't be written: %s", name, strerror(errno)), UNUSABLE;
}

static int run(struct drill *d, struct desk *k, uint32_t variant, const char *name) {
    if (d == NULL || k == NULL) return complain("there is no memory left"), UNUSABLE;
    k->variant = variant;
    int status = read_drill(d);
    if (status != MADE) return status;
    return write_index(d, k) && write_content(d, k) ? write_file(k, name) : REFUSED;
}

static const char usage[] = "usage: adapter [--auxiliary BITS] FILE, with the form on standard input";

// The word before FILE, if any, and its BITS. Answers where FILE stands, or 0 where they are wrong, which is said.
static int read_option(char **word, int *bits) {
    if (word[1] == NULL || strcmp(word[1], "--auxiliary") != 0) return 1;
    if (word[2] == NULL) return complain("--auxiliary: BITS have to follow, 24 or 32\n%s", usage), 0;
    if (read_number(word[2], 24, 32, bits) && (*bits == NW_AUXILIARY_24 || *bits == NW_AUXILIARY_32)) return 3;
    return complain("BITS %s: an auxiliary file's length has 24 or 32 of them\n%s", word[2], usage), 0;
}

int main(int words, char **word) {
    if (words == 2 && strcmp(word[1], "--help") == 0) {
        printf("%s\nIf its name ends with .ts, FILE is a transport stream, else it has the sections alone.\n"
               "Exit status: 0, FILE is written; 1, the form is refused and nothing is written;\n"
               "2, wrong usage, a form that can't be read or a FILE that can't be written.\n", usage);
        return fflush(stdout) == 0 ? MADE : UNUSABLE;
    }
    int bits = NW_AUXILIARY_24, at = read_option(word, &bits);
    if (at == 0) return UNUSABLE;
    if (words - at != 1) return complain("%d words are given, and one is wanted\n%s", words - at, usage), UNUSABLE;
    if (word[at][0] == '-' || word[at][0] == '\0')
        return complain("'%s' is taken for no file's name\n%s", word[at], usage), UNUSABLE;
    struct drill *d = calloc(1, sizeof *d);
    struct desk *k = calloc(1, sizeof *k);
    int status = run(d, k, (uint32_t)bits, word[at]);
    free(d);
    free(k);
    return status;
}
