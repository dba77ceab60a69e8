/*
 * What the library answers of drawn floors, for page/test: it is linked with the archive. Reads questions from standard input until it
 * ends, and writes the answers to standard output, as bytes; numbers of more than one byte low byte first.
 *
 *     'L', sight (0 or 1), count, count steps of 8, 6,400 costs
 *         the leg's number; where it is 0, the sheet (6,400), of every place its outcome, where its way ends and how many moves
 *         that are (1, 2 and 2 bytes), and of each step its built field: 100 cells of 4 bytes, 100 positions, 100 corners
 *     'P', seed of 4 bytes
 *         the practice floor: 100 costs and the goal
 */
#include <stdio.h>
#include <stdlib.h>

#include "hanjolum.h"

static uint8_t costs[HANJOLUM_FLOOR], sheet[HANJOLUM_FLOOR], steps[HANJOLUM_STEPS * HANJOLUM_STEP];

static void put(uint32_t number, int bytes)
{
    for (int i = 0; i < bytes; i++)
        putchar((int)(number >> (8 * i) & 255));
}

/* Reads exactly so many bytes; a question that is cut off ends the program. */
static void take(uint8_t *to, size_t bytes)
{
    if (fread(to, 1, bytes, stdin) != bytes) {
        fputs("answers: a question is cut off\n", stderr);
        exit(1);
    }
}

static void answer_way(int place)
{
    HanjolumWay way = hanjolum_way(sheet, sizeof sheet, (uint8_t)(place / HANJOLUM_CELLS), (uint8_t)(place % HANJOLUM_CELLS));
    put(way.outcome, 1);
    put((uint32_t)way.sector * HANJOLUM_CELLS + way.cell, 2);
    put(way.moves, 2);
}

static void answer_field(int sight, size_t length, uint64_t step)
{
    HanjolumBuildAnswer built = sight ? hanjolum_leg_field(costs, sizeof costs, steps, length, step)
                                      : hanjolum_leg_field_without_sight(costs, sizeof costs, steps, length, step);
    for (int i = 0; i < HANJOLUM_CELLS; i++)
        put(built.field.field[i], 4);
    for (int i = 0; i < HANJOLUM_CELLS; i++)
        put(built.field.positions[i], 1);
    for (int i = 0; i < HANJOLUM_CELLS; i++)
        put((uint32_t)built.field.los_corners[i], 1);
}

static void answer_leg(void)
{
    uint8_t head[2];
    take(head, 2);
    size_t length = (size_t)head[1] * HANJOLUM_STEP;
    if (length > sizeof steps)
        exit(1);
    take(steps, length);
    take(costs, sizeof costs);
    for (int i = 0; i < HANJOLUM_FLOOR; i++)
        sheet[i] = 0;
    uint8_t number = head[0] ? hanjolum_leg(costs, sizeof costs, steps, length, sheet, sizeof sheet)
                             : hanjolum_leg_without_sight(costs, sizeof costs, steps, length, sheet, sizeof sheet);
    put(number, 1);
    if (number != HANJOLUM_ACCEPTED)
        return;
    fwrite(sheet, 1, sizeof sheet, stdout);
    for (int place = 0; place < HANJOLUM_FLOOR; place++)
        answer_way(place);
    for (uint64_t step = 0; step < head[1]; step++)
        answer_field(head[0], length, step);
}

static void answer_practice(void)
{
    uint8_t seed[4];
    take(seed, 4);
    HanjolumPracticeFloor floor = hanjolum_practice_floor(
        (uint32_t)seed[0] | (uint32_t)seed[1] << 8 | (uint32_t)seed[2] << 16 | (uint32_t)seed[3] << 24);
    fwrite(floor.costs, 1, sizeof floor.costs, stdout);
    put(floor.goal, 1);
}

int main(void)
{
    for (int kind = getchar(); kind != EOF; kind = getchar()) {
        if (kind == 'L')
            answer_leg();
        else if (kind == 'P')
            answer_practice();
        fflush(stdout);
    }
    return 0;
}
