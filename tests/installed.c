/* installed: what a C or a C++ program sees of the installed library: its version, how a state lies, a call, and every number of a byte, and some larger ones, as a refusal in words. */
/* SPDX-License-Identifier: MIT */
#include <neapwillow.h>
#include <stddef.h>
#include <stdio.h>

/* A gathering's state lies as the library has it: 524 bytes, each field at its place, no padding. */
#define HOLDS(name, fact) typedef char name[(fact) ? 1 : -1]
#define LIES_AT(field, at) HOLDS(field##_lies_at_##at, offsetof(nw_gathering, field) == (at))
LIES_AT(bytes, 0);
LIES_AT(missing, 4);
LIES_AT(extension, 6);
LIES_AT(kind, 8);
LIES_AT(version, 9);
LIES_AT(last, 10);
LIES_AT(spoiled, 11);
LIES_AT(held, 12);
HOLDS(has_524_bytes, sizeof(nw_gathering) == 524);

int main(void) {
    static const unsigned large[] = {256, 257, 4294967295u};
    const uint8_t digits[] = {'1', '2', '3', '4', '5', '6', '7', '8', '9'};
    printf("%s\n%ld %lu\n", NW_VERSION, (long)NW_VERSION_NUMBER, (unsigned long)nw_version());
    printf("%08lX\n", (unsigned long)nw_crc32(digits, sizeof digits));
    for (unsigned number = 0; number < 256; number++) printf("%u %s\n", number, nw_refusal_text(number));
    for (unsigned i = 0; i < sizeof large / sizeof large[0]; i++) printf("%u %s\n", large[i], nw_refusal_text(large[i]));
    return 0;
}
