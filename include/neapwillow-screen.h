/* neapwillow-screen.h: what a screen box shows, of an index table that neapwillow.h reads, in C99 and
 * later, and in C++11 and later.
 *
 * It is a package of its own above the library, and uses only what the library promises. All that
 * neapwillow.h says of its functions holds here too: every input of every length is taken, each call
 * finishes, nothing is kept between calls and nothing is allocated. The function is proved (in Rattle) to
 * do what the comment above it says; this file itself is not, nor are the few helpers that are written
 * out in it, which tests hold to the source.
 *
 * Link with libneapwillow-screen.a or libneapwillow-screen.so, and with the library after it:
 * -lneapwillow-screen -lneapwillow, or what pkg-config says of neapwillow-screen. */
/* SPDX-License-Identifier: MIT */
#ifndef NEAPWILLOW_SCREEN_H
#define NEAPWILLOW_SCREEN_H

#include "neapwillow.h"

#ifdef __cplusplus
extern "C" {
#endif

/* ---- What to show -----------------------------------------------------------------------------
 *
 * A box has a resource code of its own, and an index body names the codes that each message is for. */

/* The digits of a box's resource code. */
#define NW_SCREEN_CODE_DIGITS NW_RESOURCE_DIGITS

/* A choice: the message to show, or that there is none. NW_REFUSAL and NW_PLACE are for it too. */
typedef struct nw_choice { uint64_t packed; } nw_choice;

/* Of a choice that refuses nothing: 1 if there is a message to show, 0 if there is none. */
static inline unsigned nw_choice_shown(nw_choice a) { return (unsigned)(a.packed >> 56 & 0xFFu); }

/* Of a choice that shows a message: its number in the table, from 0, as nw_index_message counts them;
 * where it begins in the body and how many bytes it has, as the functions nw_message_.. take them, in the
 * body that the choice was made of and in no other. Asked of anything else, these tell nothing of use. */
static inline unsigned nw_choice_number(nw_choice a) { return (unsigned)(a.packed >> 48 & 0xFFu); }
static inline size_t nw_choice_start(nw_choice a) { return (size_t)(a.packed >> 24 & 0xFFFFFFu); }
static inline size_t nw_choice_length(nw_choice a) { return (size_t)(a.packed >> 8 & 0xFFFFu); }

/* The message of an index body, n bytes, that a box shows at a second of a day, both UTC, the day by its
 * number (MJD). The box's resource code is `digits` bytes, which have to be NW_SCREEN_CODE_DIGITS, 23, each
 * a digit by its value, 0 to 9, and not by its character.
 *
 * A message concerns the box if one of its resource codes equals the box's, digit for digit. Of those
 * that concern it and are on, as nw_time_showing says NW_ON of their start and end, the choice is the one
 * with the smallest level number; of these the one with the earliest start; of these the first in the
 * table. Class plays no part. There is none exactly if none concerns the box and is on.
 *
 * Refusals, in this order: 18, the code is not of 23 bytes, or one is above 9; 20, the day is outside its
 * range or the second above 86,399, both with place 0; then those of nw_index_read, with its places: 2,
 * 22, and 14 to 20 in the body. Never 21, for nothing is written. Body and code may overlap.
 *
 * The body is judged as nw_index_read does it, and then gone over once more, each message in its turn. No
 * list of messages is kept, and no digits are laid out. Stack: 528 bytes. */
nw_choice nw_screen_choose(uint32_t kind, const uint8_t *body, size_t n, const uint8_t *code, size_t digits,
                           uint32_t day, uint32_t second);

#ifdef __cplusplus
}
#endif

#endif
