/*
 * The drawings that the words name: a file's, whose bytes reading.c reads, or a seed's practice floor.
 */
#include <errno.h>
#include <inttypes.h>
#include <stdlib.h>
#include <string.h>

#include "draw.h"

/* No drawing has as many bytes: a whole floor in numbers has a fortieth of them. */
enum { MOST = 1 << 20 };

const char *name_of(const char *file)
{
    return file == NULL ? "standard input" : file;
}

/* The bytes of a file, into a place that is kept. */
static size_t bytes_of(const char *name, char *bytes)
{
    FILE *file = name == NULL ? stdin : fopen(name, "rb");
    if (file == NULL)
        fail("%s cannot be opened: %s", name, strerror(errno));
    size_t length = fread(bytes, 1, MOST, file);
    if (ferror(file))
        fail("%s cannot be read: %s", name_of(name), strerror(errno));
    if (length == MOST)
        fail("%s: %d bytes or more, which is no drawing", name_of(name), MOST);
    if (file != stdin)
        fclose(file);
    return length;
}

/* Ends the program with what is wrong with a drawing. */
static _Noreturn void fail_at(const char *name, const struct fault *fault)
{
    if (fault->line > 0)
        fail("%s, line %d: %s", name_of(name), fault->line, fault->words);
    fail("%s: %s", name_of(name), fault->words);
}

void floor_in(const char *file, struct floor *floor)
{
    static char bytes[MOST];
    struct fault fault;
    if (!read_floor(bytes, bytes_of(file, bytes), floor, &fault))
        fail_at(file, &fault);
}

void sector_in(const char *file, struct sector_drawing *drawing)
{
    static char bytes[MOST];
    struct fault fault;
    if (!read_sector(bytes, bytes_of(file, bytes), drawing, &fault))
        fail_at(file, &fault);
}

/* The number that digits give, at most `most`; -1 for anything else. */
static int64_t number_of(const char *digits, int64_t most)
{
    int64_t number = 0;
    size_t length = strspn(digits, "0123456789");
    if (length == 0 || digits[length] != '\0')
        return -1;
    for (size_t i = 0; i < length; i++) {
        number = 10 * number + (digits[i] - '0');
        if (number > most)
            return -1;
    }
    return number;
}

/* A seed that is a number. */
static uint32_t seed_of(const char *seed)
{
    int64_t number = number_of(seed, UINT32_MAX);
    if (number < 0)
        fail("--practice takes a seed, a whole number from 0 to 4294967295");
    return (uint32_t)number;
}

const char *practice_name(const char *seed)
{
    static char name[40];
    snprintf(name, sizeof name, "practice floor %" PRIu32, seed_of(seed));
    return name;
}

void practice_floor(const char *seed, struct floor *floor)
{
    HanjolumPracticeFloor practice = hanjolum_practice_floor(seed_of(seed));
    *floor = (struct floor){.columns = SIDE, .rows = SIDE, .goal = practice.goal, .cart = -1};
    memset(floor->costs, HANJOLUM_WALL, sizeof floor->costs);
    memcpy(floor->costs, practice.costs, sizeof practice.costs);
}
