// driver COUNT: calls a fuzz target on so many inputs made by chance, always the same ones: for a sanitizer without libFuzzer.
// SPDX-License-Identifier: MIT
#include "trial.h"

// xorshift64: the next number of a run that never comes to zero.
static uint64_t chance(uint64_t *state) {
    *state ^= *state << 13;
    *state ^= *state >> 7;
    *state ^= *state << 17;
    return *state;
}

int main(int words, char **word) {
    enum { MOST = 1024 };
    uint8_t bytes[MOST];
    uint64_t state = 86;
    long count = words == 2 ? strtol(word[1], NULL, 10) : 0;
    for (long i = 0; i < count; i++) {
        size_t n = (size_t)(chance(&state) % MOST);
        uint8_t mask = chance(&state) % 4 == 0 ? 0x0F : 0xFF; // small numbers now and then
        for (size_t k = 0; k < n; k++) bytes[k] = (uint8_t)(chance(&state) >> 32) & mask;
        uint8_t *input = copy_of(bytes, n);
        LLVMFuzzerTestOneInput(input, n);
        free(input);
    }
    printf("%ld inputs: as they should be\n", count);
    return count <= 0;
}
