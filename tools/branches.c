// The table of branches that tools/coverage measures: one byte for each, which the library's code sets where it goes by. It lies over the
// file that NW_BRANCHES names, so that all programs of a run share it and no end of a program loses what was reached.
// SPDX-License-Identifier: MIT
#include <fcntl.h>
#include <stdint.h>
#include <stdio.h>
#include <stdlib.h>
#include <sys/mman.h>
#include <unistd.h>

enum { PAGE = 4096, BYTES = (BRANCHES + PAGE - 1) / PAGE * PAGE };
_Alignas(PAGE) uint8_t nw_branches[BYTES];

__attribute__((constructor)) static void lay_over(void) {
    const char *name = getenv("NW_BRANCHES");
    int file = name == NULL ? -1 : open(name, O_RDWR);
    if (file < 0 || ftruncate(file, BYTES) != 0 || mmap(nw_branches, BYTES, PROT_READ | PROT_WRITE, MAP_SHARED | MAP_FIXED, file, 0) == MAP_FAILED) {
        perror("NW_BRANCHES names no file for the branches that are reached");
        abort();
    }
    close(file);
}
