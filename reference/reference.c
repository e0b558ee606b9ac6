/* The second program: plays schedules by the rules of docs/RULES.md.
 *
 *   reference                       one schedule on standard input, its report on standard output
 *   reference --many                a stream of schedules in, a stream of reports out
 *   reference --generate SEED COUNT a stream of random schedules out
 *
 * In a stream each item is its length in four bytes, high byte first, and then its bytes. */
#include "generate.h"
#include "schedule.h"

#include <stdio.h>
#include <stdlib.h>
#include <string.h>

static void fail_with(const char *why)
{
    fprintf(stderr, "reference: %s\n", why);
    exit(2);
}

static void write_item(const void *bytes, size_t length)
{
    uint8_t head[4] = {
        (uint8_t)(length >> 24), (uint8_t)(length >> 16), (uint8_t)(length >> 8), (uint8_t)length,
    };
    if (fwrite(head, 1, 4, stdout) != 4 || fwrite(bytes, 1, length, stdout) != length)
        fail_with("cannot write");
}

/* False at the end of the stream. What goes beyond the room is read and let go. */
static bool read_item(uint8_t *bytes, size_t room, size_t *length)
{
    uint8_t head[4];
    size_t got = fread(head, 1, 4, stdin);
    if (got == 0)
        return false;
    if (got != 4)
        fail_with("stream cut in a length");
    size_t whole = (size_t)head[0] << 24 | (size_t)head[1] << 16 | (size_t)head[2] << 8 | head[3];
    *length = whole < room ? whole : room;
    if (fread(bytes, 1, *length, stdin) != *length)
        fail_with("stream cut in an item");
    for (size_t i = *length; i < whole; i++) {
        if (getchar() == EOF)
            fail_with("stream cut in an item");
    }
    return true;
}

static uint8_t schedule[MAX_SCHEDULE + 1];
static char report[MAX_REPORT];

static void play_one(void)
{
    size_t length = fread(schedule, 1, sizeof schedule, stdin);
    size_t written = play_schedule(schedule, length, report);
    if (fwrite(report, 1, written, stdout) != written)
        fail_with("cannot write");
}

static void play_many(void)
{
    size_t length;
    while (read_item(schedule, sizeof schedule, &length))
        write_item(report, play_schedule(schedule, length, report));
}

static void generate_many(uint64_t seed, uint64_t count)
{
    for (uint64_t i = 0; i < count; i++)
        write_item(schedule, generate_schedule(seed, i, schedule));
}

int main(int argc, char **argv)
{
    if (argc == 1)
        play_one();
    else if (argc == 2 && strcmp(argv[1], "--many") == 0)
        play_many();
    else if (argc == 4 && strcmp(argv[1], "--generate") == 0)
        generate_many(strtoull(argv[2], NULL, 10), strtoull(argv[3], NULL, 10));
    else
        fail_with("usage: reference [--many | --generate SEED COUNT]");
    if (fflush(stdout) != 0)
        fail_with("cannot write");
    return 0;
}
