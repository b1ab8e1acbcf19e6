/* c_commands.h: what the commands call of libc_commands.a, each proved in crates/c_commands to do what is said here.
 * tests/check-header holds the declarations and the numbers to the source. */
/* SPDX-License-Identifier: MIT */
#ifndef COMMANDLINES_H
#define COMMANDLINES_H

#include <stddef.h>
#include <stdint.h>

#define NW_MOST_INPUT 65536u    /* bytes of input that are judged; of more, each says so */
#define NW_MOST_REPORT 1114131u /* bytes of the longest report */
#define NW_MOST_LINE 16u        /* bytes of room for the longest line */
#define NW_MOST_LIST 201677u    /* bytes of the longest list of runs */

/* Writes the date program's whole output for the n bytes of input at the start of out, and answers its length. */
size_t nw_dates_report(const uint8_t *input, size_t n, uint8_t out[NW_MOST_REPORT]);

/* Writes the section program's whole output for the n bytes of input at the start of out, and answers its length. */
size_t nw_section_line(const uint8_t *input, size_t n, uint8_t out[NW_MOST_LINE]);

/* Writes the salvage program's list of runs of the n bytes of a capture at the start of out, and answers its length. */
size_t nw_salvage_list(const uint8_t *capture, size_t n, uint8_t out[NW_MOST_LIST]);

#endif
