/* The merge unit by its rules (docs/RULES.md): a board of flag lines and a junction of stations.
 * Written apart from the product, to be compared with it. */
#ifndef JUNCTION_H
#define JUNCTION_H

#include <stdbool.h>
#include <stddef.h>
#include <stdint.h>

enum { MAX_STATIONS = 16, MAX_LINES = 64 };

#define CALL_LIMIT 4000000000u

/* Answers of a call: accepted, or one of these, or a refusal. */
enum { ACCEPTED = 0, WAITS = 50, ANSWERS_IDLE = 51 };

enum {
    REFUSED_STATION_COUNT = 1,
    REFUSED_STATION = 3,
    REFUSED_START = 4,
    REFUSED_PICK = 5,
    REFUSED_MERGING = 6,
    REFUSED_STIR = 7,
    REFUSED_FAIL = 8,
    REFUSED_TAKE = 9,
    REFUSED_LEAVE = 10,
    REFUSED_LIMIT = 12,
    REFUSED_SHORT = 20,
    REFUSED_DISCIPLINE = 21,
    REFUSED_EVENTS = 22,
    REFUSED_CUT = 23,
    REFUSED_LETTER = 24,
    REFUSED_LONG = 25
};

enum place {
    IDLE = 21, OPEN_DOOR, COPY_TURNS, RAISE_TURN, CLOSE_DOOR, PICK_TURN, AWAIT_TURN,
    RAISE_CLAIM, LOOK_BELOW, LOWER_CLAIM, AWAIT_LOWER, PICK_ABOVE, AWAIT_ABOVE,
    LOWER_TURN, PICK_DOOR, AWAIT_DOOR, MERGING, RELEASE, FAILED,
    CLEAR_CLAIM, CLEAR_TURN_0, CLEAR_TURN_1,
    RECHECK_DOOR, AWAIT_RECHECKED_DOOR, RECHECK_TURN, AWAIT_RECHECKED_TURN
};

/* A set of station or turn numbers below 32: bit k stands for the number k. */
typedef uint32_t number_set;

struct line {
    bool loose;
    bool value; /* the value last settled */
};

/* A hold board where tape_length is 0, else a tape board. */
struct board {
    struct line lines[MAX_LINES];
    const uint8_t *tape;
    size_t tape_length;
    size_t bits_used;
};

struct station {
    enum place place;
    unsigned side;
    unsigned kept;
    number_set left;
    number_set copy;
    uint64_t arrivals; /* how often it came to MERGING */
    uint64_t taken;    /* the arrival whose pass was taken last; 0 for none */
};

struct junction {
    bool four_line; /* else plain */
    unsigned stations;
    struct station station[MAX_STATIONS];
    struct board board;
    number_set seen;
    uint64_t accepted; /* starts, goes, stirs and fails */
    uint64_t grants;
    uint64_t ends;
    uint64_t rounds;
};

/* A pass; the name is left out, as only one junction is ever made here. */
struct pass {
    unsigned station;
    uint64_t arrival;
};

/* 1 to 16 stations; no tape (length 0) makes a hold board. The tape is borrowed. */
void junction_make(struct junction *j, bool four_line, unsigned stations,
                   const uint8_t *tape, size_t tape_length);

int junction_start(struct junction *j, unsigned p);
int junction_go(struct junction *j, unsigned p, unsigned pick);
int junction_stir(struct junction *j, unsigned p);
int junction_fail(struct junction *j, unsigned p);
int junction_take(struct junction *j, unsigned p, struct pass *pass);
int junction_leave(struct junction *j, struct pass pass);

/* The set that a go of station p picks from; empty where no pick is wanted. */
number_set junction_wanted(const struct junction *j, unsigned p);

/* The next go of station p settles a line, so that a stir is not refused. */
bool junction_settles(const struct junction *j, unsigned p);

bool junction_holds(const struct junction *j, unsigned p);

/* A go of p (at MERGING, a leave) would move it, whichever way a loose line reads. */
bool junction_can_move(const struct junction *j, unsigned p);

/* A go of p would wait, whichever way a loose line reads. */
bool junction_must_wait(const struct junction *j, unsigned p);

#endif
