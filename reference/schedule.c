#include "schedule.h"

#include <stdio.h>
#include <string.h>

/* A schedule's parts, lying in its bytes. */
struct schedule {
    bool four_line;
    unsigned stations;
    size_t events;
    const uint8_t *letters;
    const uint8_t *operands;
    const uint8_t *noise;
    size_t noise_length;
};

static bool letter_known(uint8_t letter)
{
    return letter != 0 && strchr("SGWFL", letter) != NULL;
}

/* Answers a refusal number or ACCEPTED; index is that of an unknown letter, else 0. */
static int read_schedule(const uint8_t *bytes, size_t length, struct schedule *s, size_t *index)
{
    *index = 0;
    if (length > MAX_SCHEDULE)
        return REFUSED_LONG;
    if (length < HEADER)
        return REFUSED_SHORT;
    if (bytes[0] != 'A' && bytes[0] != 'B')
        return REFUSED_DISCIPLINE;
    s->four_line = bytes[0] == 'A';
    s->stations = bytes[1];
    s->events = (size_t)bytes[2] << 8 | bytes[3];
    if (s->events > MAX_EVENTS)
        return REFUSED_EVENTS;
    if (length < HEADER + 3 * s->events)
        return REFUSED_CUT;
    if (s->stations < 1 || s->stations > MAX_STATIONS)
        return REFUSED_STATION_COUNT;
    s->letters = bytes + HEADER;
    s->operands = s->letters + s->events;
    s->noise = s->operands + 2 * s->events;
    s->noise_length = length - (HEADER + 3 * s->events);
    for (size_t i = 0; i < s->events; i++) {
        if (!letter_known(s->letters[i])) {
            *index = i;
            return REFUSED_LETTER;
        }
    }
    return ACCEPTED;
}

static struct event event_at(const struct schedule *s, size_t i)
{
    struct event e = {
        .letter = (char)s->letters[i],
        .station = s->operands[2 * i],
        .pick = s->operands[2 * i + 1],
    };
    return e;
}

static int take_then_leave(struct junction *j, unsigned p)
{
    struct pass pass;
    int answer = junction_take(j, p, &pass);
    return answer == ACCEPTED ? junction_leave(j, pass) : answer;
}

int play_event(struct junction *j, struct event e)
{
    switch (e.letter) {
    case 'S':
        return junction_start(j, e.station);
    case 'G':
        return junction_go(j, e.station, e.pick);
    case 'W':
        return junction_stir(j, e.station);
    case 'F':
        return junction_fail(j, e.station);
    default:
        return take_then_leave(j, e.station);
    }
}

static unsigned five_digits(uint64_t count)
{
    return (unsigned)(count % 100000);
}

size_t play_schedule(const uint8_t *bytes, size_t length, char report[MAX_REPORT])
{
    struct schedule s;
    size_t index;
    int refused = read_schedule(bytes, length, &s, &index);
    if (refused)
        return (size_t)snprintf(report, MAX_REPORT, "R %02d %05u\n", refused, five_digits(index));

    struct junction j;
    junction_make(&j, s.four_line, s.stations, s.noise, s.noise_length);
    size_t at = 0;
    for (size_t i = 0; i < s.events; i++) {
        struct event e = event_at(&s, i);
        int answer = play_event(&j, e);
        unsigned place = e.station < j.stations ? j.station[e.station].place : 0;
        at += (size_t)snprintf(report + at, MAX_REPORT - at, "%c %03u %02u %02d\n",
                               e.letter, e.station, place, answer);
    }
    at += (size_t)snprintf(report + at, MAX_REPORT - at, "E %05u %05u %05u\n",
                           five_digits(j.grants), five_digits(j.ends), five_digits(j.rounds));
    return at;
}
