// plain_screen.h: what a screen box shows in plain C, with the package's contract (see neapwillow-screen.h).
// SPDX-License-Identifier: MIT
#ifndef PLAIN_SCREEN_H
#define PLAIN_SCREEN_H

#include "neapwillow-screen.h"
#include "plain_answers.h"

plain_answer plain_screen_choose(uint32_t kind, const uint8_t *body, size_t n, const uint8_t *code, size_t digits, uint32_t day, uint32_t second);

#endif
