// section.c: one section, all of FILE or of standard input, becomes the line of its number and its payload's length, or of its
// refusal. The line is made by the proved nw_section_line; this file reads, writes and says what is wrong.
// SPDX-License-Identifier: MIT
#include "section.h"
#include <neapwillow.h>
#include <string.h>

#define MORE \
    "Reads one section of GD/J 086-2018, all of FILE or else of standard input, and\n" \
    "writes its number and its payload's length in bytes; or the word refused and\n" \
    "the refusal's number, and on standard error what that means.\n" \
    "  --help     says this\n" \
    "  --version  says the version\n" \
    "Exit status: 0, the section is good; 1, it is refused; 2, wrong usage, a FILE\n" \
    "that can't be read, or output that can't be written.\n"

const struct command nw_dash_section = {"nw-section", "nw-section [FILE]", MORE}, nw_section = {"nw section", "nw section [FILE]", MORE};

static const struct command *me; // under which name it runs

static int judge(const char *name) {
    static struct input in;
    uint8_t line[NW_MOST_LINE];
    if (!read_input(me, name, &in)) return UNUSABLE;
    size_t n = nw_section_line(in.s, in.n, line);
    bool refused = line[0] == 'r';
    int status = write_output(me, line, n, refused ? REFUSED : TAKEN);
    if (status != REFUSED) return status;
    if (in.n > NW_MOST_INPUT)
        say(me, "the input has more than %u bytes, and a section has at most %u", NW_MOST_INPUT, NW_MOST_SECTION);
    else say(me, "%s", nw_refusal_text(NW_REFUSAL(nw_section_read(in.s, in.n))));
    return status;
}

int section(const struct command *its_name, int words, char **word) {
    const char *name = NULL;
    bool options = true;
    me = its_name;
    for (int i = 0; i < words; i++) {
        if (options && strcmp(word[i], "--help") == 0) return help(me);
        if (options && strcmp(word[i], "--version") == 0) return version(me);
        if (options && strcmp(word[i], "--") == 0) options = false;
        else if (options && word[i][0] == '-' && word[i][1] != '\0') return misused(me, word[i], ": there is no such word");
        else if (name != NULL) return misused(me, word[i], ": there is a FILE already, and one section is read");
        else name = word[i];
    }
    return judge(name);
}
