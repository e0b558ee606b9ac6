#include "junction.h"

#include <string.h>

/* Sets. */

static number_set all_below(unsigned n)
{
    return n >= 32 ? ~(number_set)0 : ((number_set)1 << n) - 1;
}

static bool holds_number(number_set set, unsigned number)
{
    return number < 32 && (set >> number & 1u) != 0;
}

static void add(number_set *set, unsigned number)
{
    *set |= (number_set)1 << number;
}

static void drop(number_set *set, unsigned number)
{
    *set &= ~((number_set)1 << number);
}

/* The board. */

static bool next_bit(struct board *b)
{
    size_t at = b->bits_used % (8 * b->tape_length);
    b->bits_used = at + 1;
    return (b->tape[at / 8] >> (at % 8) & 1u) != 0;
}

static bool read_line(struct board *b, unsigned line)
{
    const struct line *l = &b->lines[line];
    if (l->loose && b->tape_length > 0)
        return next_bit(b);
    return l->value;
}

static void loosen(struct board *b, unsigned line)
{
    b->lines[line].loose = true;
}

static void settle(struct board *b, unsigned line, bool value)
{
    b->lines[line].loose = false;
    b->lines[line].value = value;
}

/* Line numbers. */

static unsigned lines_per_station(const struct junction *j)
{
    return j->four_line ? 4 : 1;
}

static unsigned door_of(unsigned p)
{
    return 4 * p;
}

static unsigned claim_of(const struct junction *j, unsigned p)
{
    return j->four_line ? 4 * p + 1 : p;
}

static unsigned turn_of(unsigned p, unsigned side)
{
    return 4 * p + 2 + side;
}

static unsigned turn_line(unsigned turn_number)
{
    return turn_of(turn_number / 2, turn_number % 2);
}

/* Making. */

void junction_make(struct junction *j, bool four_line, unsigned stations,
                   const uint8_t *tape, size_t tape_length)
{
    memset(j, 0, sizeof *j);
    j->four_line = four_line;
    j->stations = stations;
    j->board.tape = tape;
    j->board.tape_length = tape_length;
    for (unsigned p = 0; p < stations; p++)
        j->station[p].place = IDLE;
}

/* Questions. */

number_set junction_wanted(const struct junction *j, unsigned p)
{
    const struct station *s = &j->station[p];
    switch (s->place) {
    case COPY_TURNS:
    case LOOK_BELOW:
    case PICK_ABOVE:
    case PICK_DOOR:
    case RECHECK_DOOR:
    case RECHECK_TURN:
        return s->left;
    case PICK_TURN:
        return s->copy;
    default:
        return 0;
    }
}

/* The line that the next go of p settles; false where it settles none. */
static bool line_settled_next(const struct junction *j, unsigned p, unsigned *line)
{
    const struct station *s = &j->station[p];
    switch (s->place) {
    case OPEN_DOOR:
    case CLOSE_DOOR:
        *line = door_of(p);
        return true;
    case RAISE_TURN:
    case LOWER_TURN:
        *line = turn_of(p, s->side);
        return true;
    case RAISE_CLAIM:
    case LOWER_CLAIM:
    case RELEASE:
    case CLEAR_CLAIM:
        *line = claim_of(j, p);
        return true;
    case FAILED:
        *line = j->four_line ? door_of(p) : claim_of(j, p);
        return true;
    case CLEAR_TURN_0:
        *line = turn_of(p, 0);
        return true;
    case CLEAR_TURN_1:
        *line = turn_of(p, 1);
        return true;
    default:
        return false;
    }
}

bool junction_settles(const struct junction *j, unsigned p)
{
    unsigned line;
    return line_settled_next(j, p, &line);
}

bool junction_holds(const struct junction *j, unsigned p)
{
    enum place first = j->four_line ? LOWER_TURN : MERGING;
    return j->station[p].place >= first && j->station[p].place <= MERGING;
}

/* The line that a waiting place awaits; false elsewhere. */
static bool line_awaited(const struct junction *j, unsigned p, unsigned *line)
{
    const struct station *s = &j->station[p];
    switch (s->place) {
    case AWAIT_TURN:
    case AWAIT_RECHECKED_TURN:
        *line = turn_line(s->kept);
        return true;
    case AWAIT_LOWER:
    case AWAIT_ABOVE:
        *line = claim_of(j, s->kept);
        return true;
    case AWAIT_DOOR:
    case AWAIT_RECHECKED_DOOR:
        *line = door_of(s->kept);
        return true;
    default:
        return false;
    }
}

bool junction_can_move(const struct junction *j, unsigned p)
{
    unsigned line;
    if (j->station[p].place == IDLE)
        return false;
    if (line_awaited(j, p, &line))
        return !j->board.lines[line].loose && !j->board.lines[line].value;
    return true;
}

bool junction_must_wait(const struct junction *j, unsigned p)
{
    unsigned line;
    return line_awaited(j, p, &line) && !j->board.lines[line].loose && j->board.lines[line].value;
}

/* Counts. */

static void see(struct junction *j, unsigned p)
{
    add(&j->seen, p);
    if (j->seen == all_below(j->stations)) {
        j->seen = 0;
        j->rounds++;
    }
}

/* The number that every limited call tries first, or ACCEPTED. */
static int refused_anyhow(const struct junction *j, unsigned p)
{
    if (p >= j->stations)
        return REFUSED_STATION;
    if (j->accepted >= CALL_LIMIT)
        return REFUSED_LIMIT;
    return ACCEPTED;
}

/* Steps. */

static number_set stations_above(const struct junction *j, unsigned p)
{
    return all_below(j->stations) & ~all_below(p + 1);
}

/* One step of p, the pick having been found good. Answers ACCEPTED, WAITS or ANSWERS_IDLE. */
static int step(struct junction *j, unsigned p, unsigned pick)
{
    struct station *s = &j->station[p];
    struct board *b = &j->board;
    const number_set all_stations = all_below(j->stations);
    const number_set all_turns = all_below(2 * j->stations);

    switch (s->place) {
    case IDLE:
        return ANSWERS_IDLE;

    case OPEN_DOOR:
        settle(b, door_of(p), true);
        s->place = COPY_TURNS;
        return ACCEPTED;

    case COPY_TURNS:
        if (s->left == 0) {
            s->place = RAISE_TURN;
            return ACCEPTED;
        }
        if (read_line(b, turn_line(pick)))
            add(&s->copy, pick);
        drop(&s->left, pick);
        return ACCEPTED;

    case RAISE_TURN:
        settle(b, turn_of(p, s->side), true);
        s->place = CLOSE_DOOR;
        return ACCEPTED;

    case CLOSE_DOOR:
        settle(b, door_of(p), false);
        s->place = PICK_TURN;
        return ACCEPTED;

    case PICK_TURN:
        if (s->copy == 0) {
            s->place = RAISE_CLAIM;
            return ACCEPTED;
        }
        s->kept = pick;
        s->place = AWAIT_TURN;
        return ACCEPTED;

    case AWAIT_TURN:
        if (read_line(b, turn_line(s->kept)))
            return WAITS;
        drop(&s->copy, s->kept);
        s->place = PICK_TURN;
        return ACCEPTED;

    case RAISE_CLAIM:
        settle(b, claim_of(j, p), true);
        s->left = all_below(p);
        s->place = LOOK_BELOW;
        return ACCEPTED;

    case LOOK_BELOW:
        if (s->left == 0) {
            s->left = stations_above(j, p);
            s->place = PICK_ABOVE;
            return ACCEPTED;
        }
        if (read_line(b, claim_of(j, pick))) {
            s->kept = pick;
            s->place = LOWER_CLAIM;
            return ACCEPTED;
        }
        drop(&s->left, pick);
        return ACCEPTED;

    case LOWER_CLAIM:
        settle(b, claim_of(j, p), false);
        s->place = AWAIT_LOWER;
        return ACCEPTED;

    case AWAIT_LOWER:
        if (read_line(b, claim_of(j, s->kept)))
            return WAITS;
        s->left = 0;
        s->place = RAISE_CLAIM;
        return ACCEPTED;

    case PICK_ABOVE:
        if (s->left == 0) {
            s->place = j->four_line ? LOWER_TURN : MERGING;
            return ACCEPTED;
        }
        s->kept = pick;
        s->place = AWAIT_ABOVE;
        return ACCEPTED;

    case AWAIT_ABOVE:
        if (read_line(b, claim_of(j, s->kept)))
            return WAITS;
        drop(&s->left, s->kept);
        s->place = PICK_ABOVE;
        return ACCEPTED;

    case LOWER_TURN:
        settle(b, turn_of(p, s->side), false);
        s->side = 1 - s->side;
        s->left = all_stations;
        s->place = PICK_DOOR;
        return ACCEPTED;

    case PICK_DOOR:
        if (s->left == 0) {
            s->place = MERGING;
            return ACCEPTED;
        }
        s->kept = pick;
        s->place = AWAIT_DOOR;
        return ACCEPTED;

    case AWAIT_DOOR:
        if (read_line(b, door_of(s->kept)))
            return WAITS;
        drop(&s->left, s->kept);
        s->place = PICK_DOOR;
        return ACCEPTED;

    case MERGING:
        return REFUSED_MERGING;

    case RELEASE:
        settle(b, claim_of(j, p), false);
        s->place = IDLE;
        return ACCEPTED;

    case FAILED:
        if (j->four_line) {
            settle(b, door_of(p), false);
            s->place = CLEAR_CLAIM;
        } else {
            settle(b, claim_of(j, p), false);
            s->place = IDLE;
        }
        return ACCEPTED;

    case CLEAR_CLAIM:
        settle(b, claim_of(j, p), false);
        s->place = CLEAR_TURN_0;
        return ACCEPTED;

    case CLEAR_TURN_0:
        settle(b, turn_of(p, 0), false);
        s->place = CLEAR_TURN_1;
        return ACCEPTED;

    case CLEAR_TURN_1:
        settle(b, turn_of(p, 1), false);
        s->left = all_stations;
        s->place = RECHECK_DOOR;
        return ACCEPTED;

    case RECHECK_DOOR:
        if (s->left == 0) {
            s->left = all_turns;
            s->place = RECHECK_TURN;
            return ACCEPTED;
        }
        s->kept = pick;
        s->place = AWAIT_RECHECKED_DOOR;
        return ACCEPTED;

    case AWAIT_RECHECKED_DOOR:
        if (read_line(b, door_of(s->kept)))
            return WAITS;
        drop(&s->left, s->kept);
        s->place = RECHECK_DOOR;
        return ACCEPTED;

    case RECHECK_TURN:
        if (s->left == 0) {
            s->place = IDLE;
            return ACCEPTED;
        }
        s->kept = pick;
        s->place = AWAIT_RECHECKED_TURN;
        return ACCEPTED;

    case AWAIT_RECHECKED_TURN:
        if (read_line(b, turn_line(s->kept)))
            return WAITS;
        drop(&s->left, s->kept);
        s->place = RECHECK_TURN;
        return ACCEPTED;
    }
    return ACCEPTED;
}

/* Calls. */

int junction_start(struct junction *j, unsigned p)
{
    int refused = refused_anyhow(j, p);
    if (refused)
        return refused;
    struct station *s = &j->station[p];
    if (s->place != IDLE)
        return REFUSED_START;
    s->copy = 0;
    s->left = j->four_line ? all_below(2 * j->stations) : 0;
    s->place = j->four_line ? OPEN_DOOR : RAISE_CLAIM;
    j->accepted++;
    return ACCEPTED;
}

int junction_go(struct junction *j, unsigned p, unsigned pick)
{
    int refused = refused_anyhow(j, p);
    if (refused)
        return refused;
    struct station *s = &j->station[p];
    if (s->place == MERGING)
        return REFUSED_MERGING;
    number_set wanted = junction_wanted(j, p);
    if (wanted != 0 && !holds_number(wanted, pick))
        return REFUSED_PICK;

    bool held = junction_holds(j, p);
    int answer = step(j, p, pick);
    if (junction_holds(j, p) && !held)
        j->grants++;
    if (s->place == MERGING)
        s->arrivals++;
    j->accepted++;
    see(j, p);
    return answer;
}

int junction_stir(struct junction *j, unsigned p)
{
    int refused = refused_anyhow(j, p);
    if (refused)
        return refused;
    unsigned line;
    if (!line_settled_next(j, p, &line))
        return REFUSED_STIR;
    if (j->station[p].place == FAILED) {
        unsigned per_station = lines_per_station(j);
        for (unsigned i = 0; i < per_station; i++)
            loosen(&j->board, per_station * p + i);
    } else {
        loosen(&j->board, line);
    }
    j->accepted++;
    return ACCEPTED;
}

int junction_fail(struct junction *j, unsigned p)
{
    int refused = refused_anyhow(j, p);
    if (refused)
        return refused;
    struct station *s = &j->station[p];
    if (s->place == FAILED)
        return REFUSED_FAIL;
    if (junction_holds(j, p))
        j->ends++;
    s->place = FAILED;
    s->side = 0;
    s->kept = 0;
    s->left = 0;
    s->copy = 0;
    j->accepted++;
    return ACCEPTED;
}

int junction_take(struct junction *j, unsigned p, struct pass *pass)
{
    if (p >= j->stations)
        return REFUSED_STATION;
    struct station *s = &j->station[p];
    if (s->place != MERGING || s->taken == s->arrivals)
        return REFUSED_TAKE;
    s->taken = s->arrivals;
    pass->station = p;
    pass->arrival = s->arrivals;
    return ACCEPTED;
}

int junction_leave(struct junction *j, struct pass pass)
{
    if (pass.station >= j->stations)
        return REFUSED_STATION;
    struct station *s = &j->station[pass.station];
    if (s->place != MERGING || s->arrivals != pass.arrival)
        return REFUSED_LEAVE;
    s->place = RELEASE;
    j->ends++;
    see(j, pass.station);
    return ACCEPTED;
}
