#include "promises.h"

#include <string.h>

void watch_begin(struct watch *w)
{
    memset(w, 0, sizeof *w);
}

static bool stands_ahead(const struct junction *j, unsigned r)
{
    return j->station[r].place >= CLOSE_DOOR && j->station[r].place <= MERGING;
}

/* Keeps who is ahead of whom: set by an accepted start, ended by an accepted leave or fail. */
static void follow(struct watch *w, const struct junction *j, struct event e)
{
    number_set named = (number_set)1 << e.station;
    if (e.letter == 'S') {
        w->ahead[e.station] = 0;
        for (unsigned r = 0; r < j->stations; r++) {
            if (r != e.station && stands_ahead(j, r))
                w->ahead[e.station] |= (number_set)1 << r;
        }
    } else if (e.letter == 'L' || e.letter == 'F') {
        for (unsigned q = 0; q < j->stations; q++)
            w->ahead[q] &= ~named;
    }
}

const char *watch_event(struct watch *w, const struct junction *j, struct event e, int answer)
{
    bool granted = j->grants > w->grants;
    w->grants = j->grants;
    if (granted && j->four_line && w->ahead[e.station] != 0)
        return "a hold was granted past a station ahead";
    if (answer == ACCEPTED)
        follow(w, j, e);

    unsigned holders = 0;
    bool all_idle = true;
    bool some_moves = false;
    for (unsigned p = 0; p < j->stations; p++) {
        holders += junction_holds(j, p);
        all_idle = all_idle && j->station[p].place == IDLE;
        some_moves = some_moves || junction_can_move(j, p);
    }
    if (holders > 1)
        return "two stations hold the merge";
    if (holders != j->grants - j->ends)
        return "grants less ends are not the number of holders";
    if (!all_idle && !some_moves)
        return "no station can move";
    return NULL;
}
