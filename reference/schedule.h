/* Schedules and reports (docs/RULES.md). */
#ifndef SCHEDULE_H
#define SCHEDULE_H

#include "junction.h"

enum { MAX_SCHEDULE = 60000, MAX_EVENTS = 16384, HEADER = 4 };

/* An event line is 12 bytes, the end line 20, a refusal line 11. */
enum { MAX_REPORT = 12 * MAX_EVENTS + 20 + 1 };

struct event {
    char letter;
    unsigned station;
    unsigned pick;
};

/* What one event does to a junction: the answer of its call. */
int play_event(struct junction *j, struct event e);

/* Plays a schedule and writes its report, with a closing 0; returns the report's length. */
size_t play_schedule(const uint8_t *bytes, size_t length, char report[MAX_REPORT]);

#endif
