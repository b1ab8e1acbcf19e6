// screen.c: `nw screen --code DIGITS --at TIME [--auxiliary BITS] [--offset OFFSET] CAPTURE`: what a box shows at a time, and why.
// SPDX-License-Identifier: MIT
#include "screen.h"
#include "body.h"
#include "facts.h"
#include "load.h"
#include "reasons.h"
#include "words.h"
#include <string.h>
#include <time.h>

const struct command screen_command = {
    "nw screen", "nw screen --code DIGITS --at TIME [--auxiliary BITS] [--offset OFFSET] CAPTURE",
    "Reads CAPTURE as nw show does, or a form by its name, and tells which message a\n"
    "box would show: of each index table the message that lists the box's code and\n"
    "is on at that time; of several the one with the smallest level number, of these\n"
    "the earliest start, of these the first in the table. Tells its texts, and of\n"
    "every other message why it is not the one. What is damaged is said too, and all\n"
    "of it by nw show.\n"
    "  --code DIGITS    the box's resource code, 23 digits\n"
    "  --at TIME        day first and in quotes, as '03/11/2024 07:50:00': local\n"
    "                   time with --offset, else UTC; or the word now, for this\n"
    "                   computer's clock\n"
    "  --auxiliary BITS the length of an auxiliary file has 24 bits, as without it,\n"
    "                   or 32\n"
    "  --offset OFFSET  TIME is local, so far east of UTC: minutes, -720 to 840, or\n"
    "                   hours and minutes with their sign, as +08:00; times are then\n"
    "                   told in local time too\n"
    "  --help           says this\n"
    "Exit status: 0, a message is shown, and everything is whole and accepted as nw\n"
    "show says it; 3, no message is shown, and everything is; 1, something is not,\n"
    "so that a box may show something else, or no index table came; 2, wrong usage,\n"
    "a CAPTURE that can't be read, a form with faults, or output that can't be\n"
    "written.\n"};

enum { NOTHING_SHOWN = 3 }; // an exit status

struct work {
    const char *name, *code, *at; // words, or NULL
    struct clock clock;
    unsigned variant; // 0 while it is not given
    uint64_t now;     // the time as a field
    struct box box;
    struct tables tables;
    struct sum sum;
    bool is_form;
    uint64_t chosen_from, shown;               // index tables: from which was chosen, and of which a message is shown
    char identifier[NW_IDENTIFIER_DIGITS + 1]; // of the message that is shown
    bool disagrees;                            // a reason with the choice: this program would have a fault
};

// ---- facts in lines

static void put_fact(void *own, const char *label, const char *value) {
    put_label(*(const unsigned *)own, label);
    puts(value);
}

static void put_time(const struct work *w, unsigned depth, const char *label, uint64_t field) {
    char text[160];
    put_fact(&depth, label, time_words(field, w->clock, text, sizeof text));
}

static void put_named(unsigned depth, const char *label, uint64_t number, const char *name) {
    put_label(depth, label);
    printf("%" PRIu64 ", %s\n", number, name);
}

static void put_line(void *own, const char *label, const char *value) {
    (void)own, (void)label;
    puts(value);
}

// ---- why

// What a message has that decides, below the reason.
static void put_reason(const struct work *w, const struct body *index, const nw_record *m, enum reason why, uint64_t shown) {
    uint64_t codes = nw_value(nw_message_resource_count(index->s, index->n, m->at, m->length));
    put_label(1, "not shown");
    switch (why) {
    case OTHER_CODES:
        if (codes == 0) puts("it lists no code");
        else printf("it does not list this code: it has %" PRIu64 " other%s\n", codes, codes == 1 ? "" : "s");
        break;
    case NEVER_ON: puts("its end is not after its start, so that it is never shown"); break;
    case NOT_BEGUN: puts("it has not begun"); break;
    case ENDED: puts("it has ended"); break;
    case SMALLER_LEVEL: printf("message %" PRIu64 " has a smaller level number\n", shown + 1); break;
    case EARLIER_START: printf("message %" PRIu64 " has the same level and an earlier start\n", shown + 1); break;
    default: printf("message %" PRIu64 " has the same level and start, and stands before it\n", shown + 1); break;
    }
    if (why == SMALLER_LEVEL) put_named(1, "level", m->level, nw_level_text(m->level));
    if (why == NOT_BEGUN || why == EARLIER_START || why == NEVER_ON) put_time(w, 1, "start", m->start);
    if (why == ENDED || why == NEVER_ON) put_time(w, 1, "end", m->end);
}

// Each message of an index table in its order, with why it is the one or is not.
static void put_messages(struct work *w, const struct body *index, const nw_record *list, uint64_t count, const nw_record *shown) {
    char identifier[NW_IDENTIFIER_DIGITS + 1];
    uint64_t on = count_on(&w->box, index, list, count);
    for (uint64_t i = 0; i < count; i++) {
        enum reason why = reason_of(&w->box, index, &list[i], shown);
        w->disagrees = w->disagrees || (why == SHOWN) != (&list[i] == shown);
        printf("  message %" PRIu64 " of %" PRIu64 ", %s\n", i + 1, count, nw_identifier_text(index->s + list[i].at, identifier));
        if (why != SHOWN) put_reason(w, index, &list[i], why, shown == NULL ? 0 : (uint64_t)(shown - list));
        else {
            put_label(1, "shown");
            if (on == 1) puts("it alone lists this code and is on");
            else printf("of the %" PRIu64 " that list this code and are on, it goes first\n", on);
        }
    }
}

// ---- the message that is shown

// The texts of a message, or why there are none.
static void put_content(const struct work *w, const struct table *index, uint64_t message) {
    const struct table *content = content_of(&w->tables, index, message);
    unsigned extension = 0;
    message_extension(index, message, &extension);
    put_label(0, "content");
    if (content == NULL) printf("none has come whole; it would be content table %04X\n", extension);
    else if (!is_good(content)) printf("content table %04X, version %u, is refused, as is said below\n", extension, content->state.version);
    else {
        printf("content table %04X, version %u\n", extension, content->state.version);
        texts_in_words(&content->body, w->clock);
    }
}

static void put_shown(struct work *w, const struct table *index, uint64_t message, const nw_record *m) {
    unsigned depth = 0;
    put_fact(&depth, "identifier", nw_identifier_text(index->body.s + m->at, w->identifier));
    put_named(0, "level", m->level, nw_level_text(m->level));
    put_named(0, "class", m->class_, nw_class_text(m->class_));
    put_time(w, 0, "start", m->start);
    put_time(w, 0, "end", m->end);
    put_content(w, index, message);
}

// ---- tables

static void tell_index(struct work *w, const struct table *t, struct teller teller) {
    static nw_record list[NW_MOST_MESSAGES];
    const struct body *b = &t->body;
    uint64_t count = nw_value(nw_index_records(NW_INDEX, b->s, b->n, list, NW_MOST_MESSAGES));
    nw_choice choice = nw_screen_choose(NW_INDEX, b->s, b->n, w->box.digits, NW_SCREEN_CODE_DIGITS, w->box.day, w->box.second);
    const nw_record *shown = nw_choice_shown(choice) ? &list[nw_choice_number(choice)] : NULL;
    w->disagrees = w->disagrees || NW_REFUSAL(choice) != NW_TAKEN;
    w->chosen_from++;
    if (shown != NULL) printf(": message %u of %" PRIu64 " is shown\n", nw_choice_number(choice) + 1, count);
    else puts(count == 0 ? ": it has no message" : ": no message is shown");
    facts_before(t, teller);
    if (shown != NULL) put_shown(w, t, nw_choice_number(choice), shown);
    put_messages(w, b, list, count, shown);
    w->shown += shown != NULL;
}

// An index table, or another one that is not as it should be.
static void tell_table(struct work *w, const struct table *t) {
    unsigned depth = 0;
    struct teller teller = {put_fact, &depth};
    char name[64];
    if (is_good(t) && t->state.kind != NW_INDEX) return;
    printf("\n%s", table_name(t, name, sizeof name));
    if (is_good(t)) tell_index(w, t, teller);
    else {
        puts(t->state.kind == NW_INDEX ? ": what is shown can't be told" : "");
        facts_before(t, teller);
        facts_verdict(t, teller);
    }
}

// ---- all of it

static void put_question(const struct work *w) {
    char text[160];
    unsigned depth = 0;
    const char *how = strcmp(w->at, "now") == 0 ? ", by this computer's clock" : w->clock.local ? "" : ", as TIME is without --offset";
    printf("%s %s\n", w->is_form ? "form" : "capture", called(w->name));
    put_fact(&depth, "code", w->code);
    put_label(0, "time");
    printf("%s%s\n", time_words(w->now, w->clock, text, sizeof text), how);
}

// The verdict, in a line or two.
static int put_verdict(const struct work *w) {
    bool faultless = is_faultless(&w->sum, &w->tables);
    if (w->chosen_from > 1) printf("index tables: %" PRIu64 "; which of them a box takes, the standard does not say\n", w->chosen_from);
    if (w->chosen_from == 0) puts("no index table is whole and accepted: what is shown can't be told");
    else if (w->shown == 0) puts("nothing is shown");
    else if (w->shown == 1) printf("message %s is shown\n", w->identifier);
    else printf("a message is shown of %" PRIu64 " index tables\n", w->shown);
    if (!faultless && w->is_form) puts("messages and content tables do not all belong together");
    else if (!faultless) puts(NOT_ALL_WELL ": a box may show something else");
    return !faultless || w->chosen_from == 0 ? REFUSED : w->shown == 0 ? NOTHING_SHOWN : TAKEN;
}

static int tell(struct work *w) {
    struct teller lines = {put_line, NULL};
    sum_tables(&w->sum, &w->tables);
    put_question(w);
    for (size_t i = 0; i < w->tables.count; i++) tell_table(w, &w->tables.list[i]);
    putchar('\n');
    if (w->is_form) facts_tables(&w->tables, &w->sum, lines);
    else facts_in_all(&w->tables, &w->sum, lines);
    int status = put_verdict(w);
    if (w->disagrees) {
        say(&screen_command, "the reasons do not agree with the choice: this program has a fault");
        status = UNUSABLE;
    }
    return finish_output(&screen_command, status);
}

static int run(struct work *w) {
    bool read = load_tables(&screen_command, w->name, w->variant, &w->tables, &w->sum, &w->is_form);
    int status = read ? tell(w) : UNUSABLE;
    tables_free(&w->tables);
    return status;
}

// ---- the words of the command

static bool take_once(const char **to, char **word, const char *missing) {
    if (*to != NULL) return misused(&screen_command, word[0], ": it is given already"), false;
    if (word[1] == NULL) return misused(&screen_command, word[0], missing), false;
    *to = word[1];
    return true;
}

static bool take_code(struct work *w, char **word) {
    if (!take_once(&w->code, word, ": DIGITS have to follow, the 23 of a resource code")) return false;
    char why[80] = ": a resource code is 23 digits and nothing else";
    size_t digits = strspn(w->code, "0123456789");
    if (nw_resource_bytes(w->code, w->box.resource)) {
        for (size_t i = 0; i < NW_SCREEN_CODE_DIGITS; i++) w->box.digits[i] = (uint8_t)(w->code[i] - '0');
        return true;
    }
    if (digits != 0 && w->code[digits] == '\0') snprintf(why, sizeof why, ": a resource code has 23 digits, and here are %zu", digits);
    return misused(&screen_command, w->code, why), false;
}

// The TIME's form is judged here, so that a time of day without quotes is not taken for the CAPTURE.
static bool take_at(struct work *w, char **word) {
    if (!take_once(&w->at, word, ": a TIME has to follow, in quotes, or now")) return false;
    nw_answer got = nw_time_read_text((const uint8_t *)w->at, strlen(w->at), 0);
    if (strcmp(w->at, "now") == 0 || NW_REFUSAL(got) != NW_NOT_OF_THE_FORM) return true;
    return misused(&screen_command, w->at, ": a TIME has to be 'dd/mm/yyyy hh:mm:ss', day first and in quotes, or now"), false;
}

// Takes a word, and perhaps the one after it. Answers how many were taken, or 0 where they are wrong, which is said.
static int take(void *own, char **word, bool option) {
    struct work *w = own;
    if (option && strcmp(word[0], "--code") == 0) return take_code(w, word) ? 2 : 0;
    if (option && strcmp(word[0], "--at") == 0) return take_at(w, word) ? 2 : 0;
    if (option && strcmp(word[0], "--offset") == 0) return take_offset(&screen_command, &w->clock, word[1]) ? 2 : 0;
    if (option && strcmp(word[0], "--auxiliary") == 0) return take_variant(&screen_command, &w->variant, word[1]) ? 2 : 0;
    if (option) return misused(&screen_command, word[0], ": there is no such word"), 0;
    if (w->name != NULL) return misused(&screen_command, word[0], ": there is a CAPTURE already, and one is read"), 0;
    w->name = word[0];
    return 1;
}

static nw_answer clock_now(void) {
    time_t now = time(NULL);
    const struct tm *t = gmtime(&now);
    if (t == NULL) return (nw_answer){NW_IMPOSSIBLE_DAY};
    return nw_time_pack((uint32_t)(t->tm_year + 1900), (uint32_t)(t->tm_mon + 1), (uint32_t)t->tm_mday, (uint32_t)t->tm_hour, (uint32_t)t->tm_min,
                        (uint32_t)t->tm_sec, 0);
}

// Finds the instant of the TIME. False where there is none, which is said.
static bool find_instant(struct work *w) {
    bool by_clock = strcmp(w->at, "now") == 0;
    nw_answer got = by_clock ? clock_now() : nw_time_read_text((const uint8_t *)w->at, strlen(w->at), w->clock.offset);
    char why[128];
    if (NW_REFUSAL(got) != NW_TAKEN) {
        snprintf(why, sizeof why, ": %s",
                 by_clock ? "this computer's clock is out of the range 01/03/1900 to 22/04/2038" : impossible_words(w->at));
        return misused(&screen_command, w->at, why), false;
    }
    w->now = nw_value(got);
    nw_time t = nw_time_unpack(w->now, 0);
    w->box.day = (uint32_t)nw_value(nw_day_of(nw_time_year(t), nw_time_month(t), nw_time_day(t)));
    w->box.second = nw_time_hour(t) * 3600 + nw_time_minute(t) * 60 + nw_time_second(t);
    return true;
}

int screen(const struct command *name, int words, char **word) {
    struct work w = {0};
    int status = each_word(name, words, word, take, &w);
    if (status != GO_ON) return status;
    if (w.code == NULL) return misused(name, "--code", " is wanted: the 23 digits of the box's resource code");
    if (w.at == NULL) return misused(name, "--at", " is wanted: a TIME in quotes, or now");
    if (w.name == NULL) return misused(name, "CAPTURE", " is wanted: a file's name, or - for standard input");
    if (!find_instant(&w)) return UNUSABLE;
    if (w.variant == 0) w.variant = NW_AUXILIARY_24;
    return run(&w);
}
