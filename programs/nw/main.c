// nw COMMAND ..: the bench volunteer's program: captures of emergency tables shown, compared, written down as forms and made from them, and the
// small programs under one roof.
// SPDX-License-Identifier: MIT
#include "../dates.h"
#include "../section.h"
#include "compare.h"
#include "form_command.h"
#include "make.h"
#include "salvage.h"
#include "screen.h"
#include "show.h"
#include "topics.h"
#include <locale.h>
#include <string.h>

static const struct command me = {
    "nw", "nw COMMAND ..",
    "The emergency tables of GD/J 086-2018 on the bench.\n"
    "  nw show CAPTURE      tells every table in a capture: sections, versions,\n"
    "                       refusals, fields\n"
    "  nw screen CAPTURE    tells which message a box shows at a time, and why\n"
    "  nw compare A B       tells in which tables and fields two captures or forms\n"
    "                       differ\n"
    "  nw form CAPTURE      writes the tables of a capture as a form, which can be\n"
    "                       changed\n"
    "  nw make FORM STREAM  makes a stream of a form\n"
    "  nw salvage IN OUT    takes the good sections out of a damaged capture\n"
    "  nw dates [FILE]      turns day-first times into time fields with their\n"
    "                       weekdays, and back\n"
    "  nw section FILE      judges one section\n"
    "  nw help TOPIC        says how a command is used, as nw COMMAND --help does;\n"
    "                       or what stands in a form: nw help form; or what each\n"
    "                       refusal's number means: nw help refusals\n"
    "  nw --help            says this\n"
    "  nw --version         says the version\n"
    "Exit status: 0, all is well; 1, something is refused, missing or skipped; 2,\n"
    "wrong usage, a file that can't be read, or output that can't be written; 3, of\n"
    "nw screen, no message is shown.\n"};

// The commands by their names.
static const struct {
    const char *name;
    const struct command *about;
    int (*run)(const struct command *about, int words, char **word);
} commands[] = {
    {"show", &show_command, show},       {"screen", &screen_command, screen},    {"compare", &compare_command, compare},
    {"form", &form_command, form},       {"make", &make_command, make},          {"salvage", &salvage_command, salvage},
    {"dates", &nw_dates, dates},         {"section", &nw_section, section},
};

enum { COMMANDS = sizeof commands / sizeof *commands };

// Which command has a name; COMMANDS for none.
static size_t named(const char *name) {
    size_t i = 0;
    while (i < COMMANDS && strcmp(commands[i].name, name) != 0) i++;
    return i;
}

// nw help, and what a word after it asks for.
static int help_on(int words, char **word) {
    if (words == 0) return help(&me);
    if (words > 1) return misused(&me, word[1], ": one TOPIC is told of at a time");
    if (strcmp(word[0], "refusals") == 0) return tell_refusals(&me);
    if (strcmp(word[0], "form") == 0) return tell_form(&me, &form_command);
    size_t i = named(word[0]);
    return i < COMMANDS ? help(commands[i].about)
                        : misused(&me, word[0], ": there is no such topic; there are show, screen, compare, form, make, salvage, dates, section and refusals");
}

int main(int words, char **word) {
    setlocale(LC_CTYPE, "");
    guard_output();
    if (words < 2) return misused(&me, "COMMAND", " is wanted");
    if (strcmp(word[1], "--help") == 0) return help(&me);
    if (strcmp(word[1], "--version") == 0) return version(&me);
    if (strcmp(word[1], "help") == 0) return help_on(words - 2, word + 2);
    size_t i = named(word[1]);
    return i < COMMANDS ? commands[i].run(commands[i].about, words - 2, word + 2) : misused(&me, word[1], ": there is no such command");
}
