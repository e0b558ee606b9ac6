/* What holds over whole runs, watched while a run is played: one holder, first come first served
 * (four-line), never stuck. */
#ifndef PROMISES_H
#define PROMISES_H

#include "schedule.h"

struct watch {
    number_set ahead[MAX_STATIONS]; /* who is ahead of each station */
    uint64_t grants;
};

void watch_begin(struct watch *w);

/* To be called after each event. Answers NULL, or which promise is broken. */
const char *watch_event(struct watch *w, const struct junction *j, struct event e, int answer);

#endif
