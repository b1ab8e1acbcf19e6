// screen: asks the screen box's package what to show, one request to a line, and prints a line of answer to each.
//
// A request is kind, body, code, day, second, one space between two: numbers in decimal, byte strings in hexadecimal, `-` for what is empty. An answer is
// the refusal's number and place; or `0 none`; or `0`, the message's number, where it begins and its length, which must be the part that
// nw_index_message tells, so that both archives are linked into one program.
// SPDX-License-Identifier: MIT
#include <inttypes.h>
#include <stdio.h>
#include <stdlib.h>
#include <string.h>

#include "neapwillow-screen.h"

struct bytes {
    uint8_t *at;
    size_t length;
};

static _Noreturn void stop(const char *why) {
    fprintf(stderr, "screen: %s\n", why);
    exit(2);
}

static unsigned digit(char c) {
    const char *digits = "0123456789abcdef", *found = c ? strchr(digits, c) : NULL;
    if (!found) stop("no byte string");
    return (unsigned)(found - digits);
}

// A block of exactly its size, so that a memory checker sees any byte read past it.
static struct bytes from_hexadecimal(const char *text) {
    size_t n = strcmp(text, "-") == 0 ? 0 : strlen(text) / 2;
    struct bytes b = {malloc(n ? n : 1), n};
    if (!b.at) stop("no memory");
    for (size_t i = 0; i < n; i++) b.at[i] = (uint8_t)(digit(text[2 * i]) * 16 + digit(text[2 * i + 1]));
    return b;
}

static void told(nw_choice a, struct bytes body) {
    if (NW_REFUSAL(a) != NW_TAKEN) {
        printf("%u %" PRIu64 "\n", NW_REFUSAL(a), NW_PLACE(a));
        return;
    }
    if (!nw_choice_shown(a)) {
        puts("0 none");
        return;
    }
    nw_part part = nw_index_message(body.at, body.length, nw_choice_number(a));
    if (NW_REFUSAL(part) != NW_TAKEN || nw_part_start(part) != nw_choice_start(a) || nw_part_length(part) != nw_choice_length(a))
        stop("the message is not where the library has it");
    printf("0 %u %zu %zu\n", nw_choice_number(a), nw_choice_start(a), nw_choice_length(a));
}

int main(void) {
    static char line[1 << 22];
    while (fgets(line, sizeof line, stdin)) {
        char *words[5];
        char *word = strtok(line, " \n");
        for (int i = 0; i < 5; i++, word = strtok(NULL, " \n")) {
            if (!word) stop("a request has five words");
            words[i] = word;
        }
        struct bytes body = from_hexadecimal(words[1]), code = from_hexadecimal(words[2]);
        told(nw_screen_choose((uint32_t)strtoul(words[0], NULL, 10), body.at, body.length, code.at, code.length,
                              (uint32_t)strtoul(words[3], NULL, 10), (uint32_t)strtoul(words[4], NULL, 10)),
             body);
        free(body.at);
        free(code.at);
    }
    return 0;
}
