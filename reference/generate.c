#include "generate.h"

#include "promises.h"

#include <stdio.h>
#include <stdlib.h>

/* Random numbers (splitmix64). */

static uint64_t next_random(uint64_t *state)
{
    uint64_t z = *state += 0x9e3779b97f4a7c15u;
    z = (z ^ z >> 30) * 0xbf58476d1ce4e5b9u;
    z = (z ^ z >> 27) * 0x94d049bb133111ebu;
    return z ^ z >> 31;
}

static unsigned below(uint64_t *state, unsigned bound)
{
    return (unsigned)(next_random(state) % bound);
}

/* True once in so many times; never for 0. */
static bool once_in(uint64_t *state, unsigned times)
{
    return times != 0 && below(state, times) == 0;
}

#define ONE_OF(state, table) ((table)[below((state), sizeof(table) / sizeof((table)[0]))])

/* The manner of one schedule: how often, once in so many events (0: never), a thing is done. */
struct manner {
    unsigned fail;
    unsigned stir;
    unsigned wrong_pick;
    unsigned wrong_call;    /* one that the place refuses */
    unsigned wrong_station;
    unsigned longest_burst; /* how long one station may go on alone */
    unsigned patience;      /* tries to find a station that does not wait */
    number_set active;      /* the stations that start */
    bool in_turn;           /* they go on one after the other, so that they meet */
};

static struct manner choose_manner(uint64_t *r, unsigned stations)
{
    static const unsigned fails[] = { 0, 0, 2000, 300, 60, 15 };
    static const unsigned stirs[] = { 0, 30, 5, 2 };
    static const unsigned slips[] = { 0, 500, 40 };
    static const unsigned mistakes[] = { 0, 100, 10 };
    static const unsigned bursts[] = { 1, 4, 60 };
    static const unsigned tries[] = { 2, 4, 20 };
    struct manner m = {
        .fail = ONE_OF(r, fails),
        .stir = ONE_OF(r, stirs),
        .wrong_pick = ONE_OF(r, slips),
        .wrong_call = ONE_OF(r, mistakes),
        .wrong_station = ONE_OF(r, slips),
        .longest_burst = ONE_OF(r, bursts),
        .patience = ONE_OF(r, tries),
        .active = 0,
        .in_turn = once_in(r, 4),
    };
    unsigned wished = 1 + below(r, stations);
    for (unsigned i = 0; i < wished; i++)
        m.active |= (number_set)1 << below(r, stations);
    return m;
}

static unsigned member_of(uint64_t *r, number_set set)
{
    unsigned k;
    do
        k = below(r, 32);
    while ((set >> k & 1u) == 0);
    return k;
}

static unsigned next_active(const struct manner *m, unsigned p)
{
    do
        p = (p + 1) % MAX_STATIONS;
    while ((m->active >> p & 1u) == 0);
    return p;
}

/* A stirred station is mostly passed over, so that others read its loose lines. */
static unsigned choose_station(uint64_t *r, const struct manner *m, const struct junction *j,
                               number_set stirred, unsigned before)
{
    if (m->in_turn)
        return next_active(m, before);
    unsigned p = 0;
    for (unsigned i = 0; i < m->patience; i++) {
        p = member_of(r, m->active);
        if ((stirred >> p & 1u) != 0 && !once_in(r, 6))
            continue;
        if (!junction_must_wait(j, p))
            return p;
    }
    return once_in(r, 30) ? below(r, j->stations) : p;
}

static unsigned choose_pick(uint64_t *r, const struct manner *m, number_set wanted)
{
    if (once_in(r, m->wrong_pick))
        return once_in(r, 2) ? below(r, 32) : below(r, 256);
    return wanted != 0 ? member_of(r, wanted) : below(r, 256);
}

/* What a station does next when all goes well. */
static char usual_letter(uint64_t *r, const struct junction *j, unsigned p)
{
    switch (j->station[p].place) {
    case IDLE:
        return once_in(r, 8) ? 'G' : 'S';
    case MERGING:
        return 'L';
    default:
        return 'G';
    }
}

static char choose_letter(uint64_t *r, const struct manner *m, const struct junction *j, unsigned p)
{
    /* LOWER_CLAIM is seldom reached in four-line, so mistakes are made more often there. */
    unsigned rare = j->station[p].place == LOWER_CLAIM ? 5 : 1;
    if (once_in(r, m->wrong_call / rare))
        return "SGWFL"[below(r, 5)];
    if (once_in(r, m->fail) && j->station[p].place != FAILED)
        return 'F';
    if (once_in(r, m->stir) && junction_settles(j, p))
        return 'W';
    return usual_letter(r, j, p);
}

static struct event choose_event(uint64_t *r, const struct manner *m, const struct junction *j,
                                 unsigned p)
{
    struct event e = { 'G', p, 0 };
    if (once_in(r, m->wrong_station)) {
        e.letter = "SGWFL"[below(r, 5)];
        e.station = j->stations + below(r, 256 - j->stations);
        e.pick = below(r, 256);
        return e;
    }
    e.letter = choose_letter(r, m, j, p);
    e.pick = choose_pick(r, m, junction_wanted(j, p));
    return e;
}

static size_t choose_events(uint64_t *r, uint64_t pair)
{
    if (pair % 19 == 3)
        return MAX_EVENTS;
    return pair % 5 == 0 ? 400 + below(r, 3600) : 1 + below(r, 400);
}

static size_t choose_noise(uint64_t *r, size_t room)
{
    static const unsigned most[] = { 0, 0, 1, 4, 100, 10844 };
    unsigned longest = ONE_OF(r, most);
    size_t length = longest == 0 ? 0 : 1 + below(r, longest);
    return length < room ? length : room;
}

static void check_promises(struct watch *w, const struct junction *j, struct event e, int answer,
                           uint64_t seed, uint64_t index)
{
    const char *broken = watch_event(w, j, e, answer);
    if (broken == NULL)
        return;
    fprintf(stderr, "reference: seed %llu, schedule %llu: %s\n", (unsigned long long)seed,
            (unsigned long long)index, broken);
    exit(3);
}

size_t generate_schedule(uint64_t seed, uint64_t index, uint8_t bytes[MAX_SCHEDULE + 1])
{
    uint64_t r = seed * 0x2545f4914f6cdd1du + index;
    uint64_t pair = index / 2;
    unsigned stations = 1 + (unsigned)(pair % MAX_STATIONS);
    size_t events = choose_events(&r, pair);
    size_t noise_length = choose_noise(&r, MAX_SCHEDULE - HEADER - 3 * events);
    uint8_t *letters = bytes + HEADER;
    uint8_t *operands = letters + events;
    uint8_t *noise = operands + 2 * events;

    bytes[0] = index % 2 == 0 ? 'A' : 'B';
    bytes[1] = (uint8_t)stations;
    bytes[2] = (uint8_t)(events >> 8);
    bytes[3] = (uint8_t)events;
    for (size_t i = 0; i < noise_length; i++)
        noise[i] = (uint8_t)below(&r, 256);

    struct manner m = choose_manner(&r, stations);
    struct junction j;
    struct watch w;
    junction_make(&j, bytes[0] == 'A', stations, noise, noise_length);
    watch_begin(&w);
    unsigned p = 0;
    unsigned burst = 0;
    number_set stirred = 0;
    for (size_t i = 0; i < events; i++) {
        if (burst == 0) {
            p = choose_station(&r, &m, &j, stirred, p);
            burst = m.in_turn ? 1 : 1 + below(&r, m.longest_burst);
        }
        burst--;
        struct event e = choose_event(&r, &m, &j, p);
        int answer = play_event(&j, e);
        check_promises(&w, &j, e, answer, seed, index);
        if (e.station == p)
            stirred &= ~((number_set)1 << p);
        if (e.letter == 'W' && answer == ACCEPTED)
            stirred |= (number_set)1 << p;
        if (e.letter == 'W' || answer == WAITS)
            burst = 0;
        letters[i] = (uint8_t)e.letter;
        operands[2 * i] = (uint8_t)e.station;
        operands[2 * i + 1] = (uint8_t)e.pick;
    }
    return HEADER + 3 * events + noise_length;
}
