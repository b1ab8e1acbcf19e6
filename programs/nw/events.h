/* events.h: what was not simply taken of a capture, in a sentence each. */
/* SPDX-License-Identifier: MIT */
#ifndef EVENTS_H
#define EVENTS_H

#include "capture.h"
#include "tables.h"

enum { EVENT_ROOM = 512 };

/* The sentence of a stretch that is skipped, of a loss, and of a section that is neither taken nor held already. Each answers the text. */
char *skipped_words(const struct stretch *bad, char text[EVENT_ROOM]);
char *lost_words(const struct stream_loss *loss, char text[EVENT_ROOM]);
char *arrival_words(const struct arrival *a, char text[EVENT_ROOM]);

/* Whether a section is to be told of by itself. */
bool is_event(const struct arrival *a);

#endif
