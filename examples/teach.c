// teach [FILE]: a lesson in gathering. A stream of sections is fed to two gatherings at once, the quick one, which a box has, and the
// slow one, which keeps every string and works everything out from the beginning. After each string it is said in words what came,
// what each of the two answers and why, what is missing, and, once the table is whole, what is handed out.
//
// Without a FILE the stream is a small lesson of its own: a table of three short texts, of which the sections come in the wrong
// order, twice, damaged, of another table and of a newer version, and last one that contradicts another. With a FILE its good
// sections are taken as nw-salvage takes them, the first 40 of them.
//
// Exit status: 0, both gave the same answers to the end, or until the teaching buffer was full, which is said. 1, they did not: that
// would be a fault of the library. 2, wrong usage, or a file that can't be read.
// SPDX-License-Identifier: MIT
#include <errno.h>
#include <neapwillow.h>
#include <stdbool.h>
#include <stdio.h>
#include <stdlib.h>
#include <string.h>

enum { LESSON = 40, SHOWN = 60, TEACHING_BUFFER = LESSON * 4104, STORE = 256 * 4084 };
enum { SAME = 0, DIFFERENT = 1, UNUSABLE = 2 }; // exit statuses

// The quick one remembers what it needs: a state and a store. The slow one remembers what it heard.
struct lesson {
    nw_gathering quick;
    uint8_t store[STORE];
    uint8_t buffer[TEACHING_BUFFER];
    size_t used;
    unsigned step;
    bool same;
};

static struct lesson l = {.quick = NW_FRESH, .same = true};

// ---- what came

static const char *kind_name(unsigned kind) {
    static const char *const names[] = {"configuration", "certificate", "index", "content"};
    return names[kind - NW_CONFIGURATION];
}

// What a string is by itself, before any gathering has a say.
static void say_what_came(const uint8_t *s, size_t n) {
    nw_heading h = nw_section_read(s, n);
    printf("\n%u. Here come %zu bytes: ", ++l.step, n);
    if (NW_REFUSAL(h) != NW_TAKEN) {
        printf("no good section, for %s.\n", nw_refusal_text(NW_REFUSAL(h)));
        return;
    }
    printf("section %u of 0 to %u of the %s table, extension %04X, version %u%s.\n", nw_heading_number(h), nw_heading_last(h),
           kind_name(nw_heading_kind(h)), nw_heading_extension(h), nw_heading_version(h), nw_heading_current(h) ? "" : ", not current");
}

// ---- why: each answer is one of the rules, in their order

static const char *why_refused(unsigned refusal) {
    switch (refusal) {
    case NW_NOT_CURRENT: return "its current bit is 0, so it is only announced";
    case NW_OTHER_HEADING: return "another table is being gathered, and this one is not 1 to 15 versions ahead of it";
    case NW_STORE_TOO_SHORT: return "the store has no room for all the sections of its table";
    case NW_CONTRADICTION: return "under one number two payloads have come, so nobody can say which is right";
    case NW_IMPOSSIBLE_STATE: return "what is kept can't have come from feeding";
    case NW_TEACHING_BUFFER_FULL: return "the teaching buffer has no room left";
    default: return "it is no good section, whatever was heard before";
    }
}

static void say_answer(const char *who, nw_answer a) {
    if (NW_REFUSAL(a) != NW_TAKEN) printf("   %s refuses it, %u: %s.\n", who, NW_REFUSAL(a), why_refused(NW_REFUSAL(a)));
    else if (nw_value(a) == NW_FED_HELD_ALREADY) printf("   %s has it already, with the same payload.\n", who);
    else printf("   %s takes it.\n", who);
}

// A newer version starts over: the table before it and the one after it are not the same.
static void say_takeover(const nw_gathering *before) {
    if (before->kind != 0 && before->version != l.quick.version)
        printf("   It is %u ahead of version %u, so the gathering starts over with it: nothing of the old table counts any more.\n",
               (l.quick.version + 32u - before->version) % 32, before->version);
}

// ---- both side by side

static void differ(const char *what) {
    printf("   The two differ in %s: that is a fault of the library.\n", what);
    l.same = false;
}

// The slow one has no state: it reads all that it kept, from the beginning.
static void say_missing(void) {
    nw_heading h = nw_teaching_heading(l.buffer, sizeof l.buffer, l.used, sizeof l.store);
    nw_answer missing = nw_teaching_missing(l.buffer, sizeof l.buffer, l.used, sizeof l.store);
    if (NW_REFUSAL(h) != NW_TAKEN) {
        printf("   Nothing is begun yet.\n");
        if (l.quick.kind != 0 || NW_REFUSAL(missing) != NW_MISSING) differ("whether a table is begun");
        return;
    }
    printf("   The slow one has read its %zu bytes again: version %u, %u of %u sections missing. The quick one has that in its state.\n", l.used,
           nw_heading_version(h), (unsigned)nw_value(missing), nw_heading_last(h) + 1);
    if (nw_heading_version(h) != l.quick.version || nw_heading_last(h) != l.quick.last) differ("the heading");
    if (NW_REFUSAL(missing) != NW_TAKEN || nw_value(missing) != l.quick.missing) differ("what is missing");
}

// The first bytes of a body; those that are no printed ASCII as dots, so that none steers the terminal.
static const char *shown(const uint8_t *s, size_t n) {
    static char text[SHOWN + 3];
    size_t first = n > SHOWN ? SHOWN : n;
    for (size_t i = 0; i < first; i++) text[i] = s[i] >= 0x20 && s[i] < 0x7F ? (char)s[i] : '.';
    strcpy(text + first, n > SHOWN ? ".." : "");
    return text;
}

static void say_body(void) {
    static uint8_t quick[NW_MOST_BODY], slow[NW_MOST_BODY];
    nw_answer one = nw_gathering_hand_out(&l.quick, l.store, sizeof l.store, quick, sizeof quick);
    nw_answer other = nw_teaching_hand_out(l.buffer, sizeof l.buffer, l.used, sizeof l.store, slow, sizeof slow);
    if (one.packed != other.packed) differ("what they hand out");
    switch (NW_REFUSAL(one)) {
    case NW_TAKEN:
        if (memcmp(quick, slow, (size_t)nw_value(one)) != 0) differ("the body");
        printf("   The table is whole: both hand out %u bytes, \"%s\".\n", (unsigned)nw_value(one), shown(slow, (size_t)nw_value(one)));
        break;
    case NW_CONTRADICTION: printf("   Nothing is handed out, 11, until a newer version comes.\n"); break;
    default: printf("   Nothing is handed out, 13: the smallest missing number is %u.\n", (unsigned)NW_PLACE(one));
    }
}

// One string to both; whether the lesson goes on.
static bool step(const uint8_t *s, size_t n) {
    nw_gathering before = l.quick;
    say_what_came(s, n);
    nw_answer slow = nw_teaching_feed(l.buffer, sizeof l.buffer, &l.used, sizeof l.store, s, n);
    if (NW_REFUSAL(slow) == NW_TEACHING_BUFFER_FULL) {
        printf("   The teaching buffer has no room for %zu bytes more, 37: here the lesson ends.\n", NW_TAUGHT_BYTES(n));
        return false;
    }
    nw_answer quick = nw_gathering_feed(&l.quick, l.store, sizeof l.store, s, n);
    say_answer("The quick one", quick);
    say_answer("The slow one", slow);
    if (quick.packed != slow.packed) differ("the answer");
    say_takeover(&before);
    say_missing();
    say_body();
    return true;
}

// ---- the stream

static void put_check(uint8_t *s, size_t n) {
    uint32_t check = nw_crc32(s, n - 4);
    for (size_t i = 0; i < 4; i++) s[n - 4 + i] = (uint8_t)(check >> (24 - 8 * i));
}

// A section of the lesson's table, as the standard lays it out: eight bytes of heading, the payload, the check.
static size_t put_section(uint8_t *s, unsigned extension, unsigned version, unsigned number, unsigned last, const char *payload) {
    size_t n = strlen(payload);
    const uint8_t heading[] = {NW_CONTENT, 0xF0, (uint8_t)(n + 9), (uint8_t)(extension >> 8), (uint8_t)extension,
                               (uint8_t)(0xC1 | version << 1), (uint8_t)number, (uint8_t)last};
    memcpy(s, heading, sizeof heading);
    memcpy(s + 8, payload, n);
    put_check(s, n + 12);
    return n + 12;
}

static const struct {
    const char *words;
    unsigned extension, version, number, last;
    const char *payload;
    bool damaged;
} lesson[] = {
    {"Sections come in any order: the last one comes first.", 0x0C29, 3, 2, 2, "leave low ground.", false},
    {"The cable has turned a bit.", 0x0C29, 3, 0, 2, "The river is rising: ", true},
    {"The same section, whole this time.", 0x0C29, 3, 0, 2, "The river is rising: ", false},
    {"Networks repeat what they send.", 0x0C29, 3, 2, 2, "leave low ground.", false},
    {"A section of another message.", 0x1234, 3, 1, 2, "please ", false},
    {"The one that is missing.", 0x0C29, 3, 1, 2, "please ", false},
    {"An older version of the same message.", 0x0C29, 2, 1, 2, "don't ", false},
    {"The network has corrected its text: version 4.", 0x0C29, 4, 0, 1, "The river has fallen: ", false},
    {"The rest of the correction.", 0x0C29, 4, 1, 1, "come home.", false},
    {"Someone sends another text under the same number.", 0x0C29, 4, 1, 1, "go away.", false},
    {"And the right one once more.", 0x0C29, 4, 1, 1, "come home.", false},
    {"Only a newer version helps now.", 0x0C29, 5, 0, 0, "All is well.", false},
};

static void own_lesson(void) {
    uint8_t s[12 + 100];
    for (size_t i = 0; i < sizeof lesson / sizeof lesson[0]; i++) {
        size_t n = put_section(s, lesson[i].extension, lesson[i].version, lesson[i].number, lesson[i].last, lesson[i].payload);
        if (lesson[i].damaged) s[9] ^= 4;
        printf("\n-- %s", lesson[i].words);
        if (!step(s, n)) return;
    }
}

// A capture, as far as it is looked at.
struct capture {
    uint8_t s[NW_MOST_CAPTURE];
    size_t n;
    bool more;
};

// Reads a file, before anything is said of the lesson. False where it can't be read, which is said.
static bool read_file(const char *name, struct capture *c) {
    FILE *file = fopen(name, "rb");
    if (file == NULL) return fprintf(stderr, "teach: %s can't be opened: %s\n", name, strerror(errno)), false;
    c->n = fread(c->s, 1, sizeof c->s, file);
    c->more = fgetc(file) != EOF;
    bool failed = ferror(file) != 0;
    if (failed) fprintf(stderr, "teach: %s can't be read: %s\n", name, strerror(errno));
    fclose(file);
    return !failed;
}

static int of_file(const char *name, const struct capture *c) {
    static uint8_t sections[NW_MOST_CAPTURE];
    static uint32_t list[NW_SALVAGE_NUMBERS(NW_MOST_CAPTURE)];
    if (c->more) printf("Only the first %zu bytes of %s are looked at.\n", c->n, name);
    nw_salvaged a = nw_salvage(c->s, c->n, sections, sizeof sections, list, sizeof list / sizeof list[0]);
    if (NW_REFUSAL(a) != NW_TAKEN) return fprintf(stderr, "teach: %s: %s\n", name, nw_refusal_text(NW_REFUSAL(a))), UNUSABLE;
    const uint8_t *s = sections, *end = sections + nw_salvaged_bytes(a);
    for (unsigned i = 0; i < LESSON && s < end; i++) {
        size_t length = (size_t)nw_value(nw_section_length(s, (size_t)(end - s)));
        if (!step(s, length)) break;
        s += length;
    }
    if (s < end) printf("\nThe lesson is over, and %zu bytes of good sections are left.\n", (size_t)(end - s));
    return SAME;
}

int main(int count, char **words) {
    static struct capture c;
    if (count > 2) return fprintf(stderr, "usage: teach [FILE]\n"), UNUSABLE;
    if (count == 2 && !read_file(words[1], &c)) return UNUSABLE;
    printf("The quick gathering keeps a state of %zu bytes and a store. The slow one keeps what it hears, each string with eight bytes before it.\n",
           sizeof l.quick);
    int status = SAME;
    if (count == 2) status = of_file(words[1], &c);
    else own_lesson();
    if (status == SAME) printf("\nBoth answered %s.\n", l.same ? "the same, step by step" : "differently");
    if (fflush(stdout) != 0 || ferror(stdout)) return UNUSABLE;
    return status == SAME && !l.same ? DIFFERENT : status;
}
