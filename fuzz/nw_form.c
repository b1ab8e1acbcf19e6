// The target of nw's forms: any text is read as one. What is accepted is made, and the form of it is the same tables and its own form; what is
// not is told by its line, and nothing steers the terminal.
// SPDX-License-Identifier: MIT
#include "nw.h"

// Whether bytes have to be read from a file that the form names, which can be any of this machine's.
static bool names_file(const uint8_t *s, size_t n) {
    for (size_t i = 0; i + 5 < n; i++)
        if (memcmp(s + i, "from", 4) == 0 && (s[i + 4] == ' ' || s[i + 4] == '\t')) return true;
    return false;
}

int LLVMFuzzerTestOneInput(const uint8_t *data, size_t size) {
    struct input in = {data, size};
    const char *bits = now_and_then(&in, 2) ? "32" : "24", *offset = now_and_then(&in, 2) ? "-05:30" : "480";
    if (names_file(in.s, in.n)) return 0;
    struct file typed = file_of(in.s, in.n);
    int made = STATUS(make, "--auxiliary", bits, typed.name, "/dev/null");
    if (made == 0) {
        struct written first, again;
        must(CALL(form, &first, "--auxiliary", bits, "--offset", offset, typed.name) == 0);
        struct file printed = file_of(first.s, first.n);
        must(CALL(form, &again, "--auxiliary", bits, "--offset", offset, printed.name) == 0);
        must(again.n == first.n && memcmp(again.s, first.s, first.n) == 0);
        must(STATUS(compare, "--auxiliary", bits, typed.name, printed.name) == 0);
        must(STATUS(screen, "--auxiliary", bits, "--code", "36543200000000303010103", "--at", "03/11/2024 07:50:00", typed.name) != 2);
        close(printed.at);
        free(first.s);
        free(again.s);
    }
    close(typed.at);
    return 0;
}
