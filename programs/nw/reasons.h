/* reasons.h: why a message of an index table is the one that a box shows, or is not. */
/* SPDX-License-Identifier: MIT */
#ifndef REASONS_H
#define REASONS_H

#include "walk.h"
#include <neapwillow-screen.h>

/* A box at an instant. */
struct box {
    uint8_t digits[NW_SCREEN_CODE_DIGITS]; /* its resource code, one digit to a byte, */
    uint8_t resource[NW_RESOURCE_BYTES];   /* and as a table has it */
    uint32_t day, second;                  /* UTC */
};

/* SHOWN: nothing stands against it. */
enum reason { OTHER_CODES, NEVER_ON, NOT_BEGUN, ENDED, SMALLER_LEVEL, EARLIER_START, STANDS_BEFORE, SHOWN };

/* What stands against a message of an accepted index body, where another of the same list, or NULL for none, is the one that is shown. It makes
 * no choice: that is nw_screen_choose's, and agrees with it where just the chosen message is SHOWN. */
enum reason reason_of(const struct box *box, const struct body *index, const nw_record *message, const nw_record *shown);

/* How many messages of a list list the code and are on. */
uint64_t count_on(const struct box *box, const struct body *index, const nw_record *list, uint64_t count);

#endif
