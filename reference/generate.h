/* Random schedules that go deep: the generator plays along, so it knows which picks are good. */
#ifndef GENERATE_H
#define GENERATE_H

#include "schedule.h"

/* Writes schedule number index of a seed, the same each time; returns its length. Both disciplines
 * and all station numbers take turns with the index, and every 19th pair is of MAX_EVENTS events.
 * Ends the program where a promise over whole runs is seen broken. */
size_t generate_schedule(uint64_t seed, uint64_t index, uint8_t bytes[MAX_SCHEDULE + 1]);

#endif
