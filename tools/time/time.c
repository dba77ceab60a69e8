/*
 * Times every call of the library, in the order of the header: for each the median of 21 rounds, a round being some calls over
 * different inputs, in nanoseconds of processor time a call. The calls take turns, a round each, so that what disturbs for a
 * moment disturbs few rounds of any. The inputs are practice floors, the same everywhere; the times belong to the machine, and
 * are for comparing only where nothing else runs on it. tools/time/header builds it and takes the median of several runs.
 */
#define _POSIX_C_SOURCE 200809L
#include <stdio.h>
#include <stdlib.h>
#include <string.h>
#include <time.h>

#include "hanjolum.h"

enum { INPUTS = 64, ROUNDS = 21, SMALL = 200 };

/* One input of each kind: a sector with a goal, a window, eight windows, a leg of sixteen steps, and what was made of them. */
struct input {
    uint8_t costs[HANJOLUM_CELLS];
    uint8_t high[HANJOLUM_CELLS];
    uint8_t goal[HANJOLUM_STEP];
    uint8_t window[HANJOLUM_STEP];
    uint8_t windows[HANJOLUM_STEP * HANJOLUM_WINDOWS];
    uint8_t floor[HANJOLUM_FLOOR];
    uint8_t steps[HANJOLUM_STEP * HANJOLUM_STEPS];
    uint8_t file[HANJOLUM_FILE];
    HanjolumIntegrationField started, built;
    uint8_t fresh[HANJOLUM_CELLS];      /* the built field's first flow bytes */
    uint8_t planned[HANJOLUM_CELLS];    /* all of them */
    uint8_t driven[HANJOLUM_FLOOR];     /* the leg's sheet, planned without sight */
    uint8_t from[2];                    /* sector and cell of the leg's last sector with the longest way */
};

static struct input inputs[INPUTS];
static uint8_t sheet[HANJOLUM_FLOOR];
static uint8_t snake[HANJOLUM_FLOOR];   /* row after row, to and fro, over the whole floor: 6,399 moves */
static uint32_t zeros[HANJOLUM_CELLS];
static volatile unsigned sink;

/* The longest run along a side without a wall, as a window. */
static void make_window(uint8_t *step, const uint8_t *costs, int sector, int side)
{
    static const int starts[] = {0, 9, 90, 0};
    int stride = side % 2 == 0 ? 1 : 10, best = 0, length = 0;
    memset(step, 0, HANJOLUM_STEP);
    for (int i = 0; i < 10; i++) {
        length = costs[starts[side] + i * stride] == HANJOLUM_WALL ? 0 : length + 1;
        if (length > best) {
            best = length;
            step[HANJOLUM_STEP_FIRST] = (uint8_t)(starts[side] + (i - length + 1) * stride);
            step[HANJOLUM_STEP_LAST] = (uint8_t)(starts[side] + i * stride);
        }
    }
    step[HANJOLUM_STEP_SECTOR] = (uint8_t)sector;
    step[HANJOLUM_STEP_MARK] = HANJOLUM_MARK_WINDOW;
    step[HANJOLUM_STEP_BOUNDARY] = (uint8_t)side;
}

/* Eight windows of one cell, two along each side: the first and the last cell that is no wall. */
static void make_windows(struct input *input)
{
    for (int i = 0; i < HANJOLUM_WINDOWS; i++) {
        uint8_t *step = input->windows + i * HANJOLUM_STEP;
        make_window(step, input->costs, 0, i % 4);
        step[i < 4 ? HANJOLUM_STEP_LAST : HANJOLUM_STEP_FIRST] = step[i < 4 ? HANJOLUM_STEP_FIRST : HANJOLUM_STEP_LAST];
    }
}

/* The step of a leg's place i, on a practice floor: over sectors 0 to 7, and back over 15 to 8; the goal is cell 0 of sector 0. */
static void make_leg_step(struct input *input, int i, uint32_t seed)
{
    int sector = i < 8 ? i : 23 - i;
    int side = i < 8 ? HANJOLUM_WEST : i == 8 ? HANJOLUM_NORTH : HANJOLUM_EAST;
    uint8_t *part = input->floor + sector * HANJOLUM_CELLS;
    memcpy(part, hanjolum_practice_floor(seed).costs, HANJOLUM_CELLS);
    if (i > 0)
        make_window(input->steps + i * HANJOLUM_STEP, part, sector, side);
    else
        part[0] = 1;
}

/* The next seed: practice floors of seeds that lie close are alike, so that seeds leap. */
static uint32_t leap(uint32_t seed)
{
    return seed * 1664525u + 1013904223u;
}

/* A leg of sixteen steps, each on a practice floor that the leg so far takes; where ten in turn are refused, it begins anew. */
static uint32_t make_leg(struct input *input, uint32_t seed)
{
    for (int i = 0, tries = 0; i < HANJOLUM_STEPS; tries++) {
        if (tries == 10)
            i = tries = 0;
        make_leg_step(input, i, seed = leap(seed));
        size_t length = (size_t)(i + 1) * HANJOLUM_STEP;
        if (hanjolum_leg(input->floor, HANJOLUM_FLOOR, input->steps, length, sheet, HANJOLUM_FLOOR) == HANJOLUM_ACCEPTED)
            i += 1, tries = -1;
    }
    return seed;
}

static void make_snake(void)
{
    for (int i = 0; i < HANJOLUM_FLOOR; i++) {
        int column = i % 80, row = i / 80, right = row % 2 == 0;
        uint8_t byte = column == (right ? 79 : 0) ? HANJOLUM_FLOW_SOUTH : right ? HANJOLUM_FLOW_EAST : HANJOLUM_FLOW_WEST;
        snake[100 * (row / 10 * 8 + column / 10) + row % 10 * 10 + column % 10] = byte;
    }
    if (hanjolum_way(snake, HANJOLUM_FLOOR, 0, 0).moves != 6399) {
        fprintf(stderr, "time: the longest way has another number of moves\n");
        exit(1);
    }
}

/* The leg's sheet without sight, and where its longest way begins in the last sector. */
static void make_driven(struct input *input)
{
    unsigned most = 0;
    hanjolum_leg_without_sight(input->floor, HANJOLUM_FLOOR, input->steps, sizeof input->steps, input->driven, HANJOLUM_FLOOR);
    input->from[0] = input->steps[(HANJOLUM_STEPS - 1) * HANJOLUM_STEP];
    for (uint8_t cell = 0; cell < HANJOLUM_CELLS; cell++) {
        HanjolumWay way = hanjolum_way(input->driven, HANJOLUM_FLOOR, input->from[0], cell);
        if (way.outcome == HANJOLUM_OUTCOME_ARRIVED && way.moves > most) {
            most = way.moves;
            input->from[1] = cell;
        }
    }
    if (most < HANJOLUM_STEPS) {
        fprintf(stderr, "time: no way leads through a leg\n");
        exit(1);
    }
}

static void make_inputs(void)
{
    uint32_t seed = 1;
    make_snake();
    for (int i = 0; i < INPUTS; i++) {
        struct input *input = &inputs[i];
        HanjolumPracticeFloor floor = hanjolum_practice_floor(seed = leap(seed));
        memcpy(input->costs, floor.costs, sizeof input->costs);
        for (int cell = 0; cell < HANJOLUM_CELLS; cell++)
            input->high[cell] = floor.costs[cell] == HANJOLUM_WALL ? HANJOLUM_WALL : (uint8_t)(floor.costs[cell] + 3);
        input->goal[HANJOLUM_STEP_GOAL] = floor.goal;
        make_window(input->window, input->costs, 0, HANJOLUM_EAST);
        make_windows(input);
        seed = make_leg(input, seed);
        hanjolum_leg_file_write(input->steps, sizeof input->steps, input->file, sizeof input->file);
        input->started = hanjolum_init(input->costs, HANJOLUM_CELLS, input->goal, HANJOLUM_STEP).field;
        input->built = hanjolum_build(input->costs, HANJOLUM_CELLS, input->started).field;
        hanjolum_flow_new(input->goal, HANJOLUM_STEP, input->built, false, NULL, 0, input->fresh, HANJOLUM_CELLS);
        memcpy(input->planned, input->fresh, HANJOLUM_CELLS);
        hanjolum_flow_build(input->built, input->planned, HANJOLUM_CELLS);
        make_driven(input);
    }
}

/* The calls, one for each line of the table. */
#define CALL(name, expression) \
    static unsigned name(struct input *in, unsigned i) { (void)in; (void)i; return expression; }
#define COSTS in->costs, HANJOLUM_CELLS
#define PART sheet, HANJOLUM_CELLS

CALL(sector_goal, hanjolum_sector(COSTS, in->goal, HANJOLUM_STEP, false, NULL, 0, PART).number)
CALL(sector_window, hanjolum_sector(COSTS, in->window, HANJOLUM_STEP, true, zeros, HANJOLUM_CELLS, PART).number)
CALL(sector_without_sight, hanjolum_sector_without_sight(COSTS, in->goal, HANJOLUM_STEP, false, NULL, 0, PART).number)
CALL(arrivals, hanjolum_arrivals(in->planned, HANJOLUM_CELLS).number)
CALL(leg, hanjolum_leg(in->floor, HANJOLUM_FLOOR, in->steps, sizeof in->steps, sheet, HANJOLUM_FLOOR))
CALL(leg_without_sight,
     hanjolum_leg_without_sight(in->floor, HANJOLUM_FLOOR, in->steps, sizeof in->steps, sheet, HANJOLUM_FLOOR))
CALL(leg_field,
     hanjolum_leg_field(in->floor, HANJOLUM_FLOOR, in->steps, sizeof in->steps, HANJOLUM_STEPS - 1).number)
CALL(leg_field_without_sight,
     hanjolum_leg_field_without_sight(in->floor, HANJOLUM_FLOOR, in->steps, sizeof in->steps, HANJOLUM_STEPS - 1).number)
CALL(move, hanjolum_move(in->driven, HANJOLUM_FLOOR, (uint8_t)(i % 64), (uint8_t)(i / 7 % 100)).number)
CALL(way, hanjolum_way(in->driven, HANJOLUM_FLOOR, in->from[0], in->from[1]).number)
CALL(longest_way, hanjolum_way(snake, HANJOLUM_FLOOR, 0, 0).number)
CALL(bounds, hanjolum_bounds(COSTS, in->high, HANJOLUM_CELLS, in->window, HANJOLUM_STEP).number)
CALL(window_costs, hanjolum_window_costs(COSTS, in->windows, sizeof in->windows).number)
CALL(window_tour, hanjolum_window_tour(COSTS, in->windows, sizeof in->windows, 65535).number)
CALL(leg_file_write, hanjolum_leg_file_write(in->steps, sizeof in->steps, in->file, sizeof in->file))
CALL(leg_file_read, hanjolum_leg_file_read(in->file, sizeof in->file).number)
CALL(practice_floor, hanjolum_practice_floor(i).goal * 0u)
CALL(init, hanjolum_init(COSTS, in->goal, HANJOLUM_STEP).number)
CALL(build, hanjolum_build(COSTS, in->started).number)
CALL(flow_new, hanjolum_flow_new(in->goal, HANJOLUM_STEP, in->built, false, NULL, 0, PART))
CALL(flow_build, (memcpy(sheet, in->fresh, HANJOLUM_CELLS), hanjolum_flow_build(in->built, PART)))
CALL(line, hanjolum_line(i % 10, i / 7 % 10, i / 3 % 10, i / 11 % 10).number)
CALL(walk_shallow, hanjolum_walk_bresenham_shallow(0, i % 10, 9, i / 7 % 10).number)
CALL(walk_steep, hanjolum_walk_bresenham_steep(i % 10, 0, i / 7 % 10, 9).number)
CALL(line_end, hanjolum_line_end(i % 10, i / 7 % 10, i / 3 % 10, i / 11 % 10).number)
CALL(reader, hanjolum_is_goal((uint8_t)i) * 0u)
CALL(version, hanjolum_version() * 0u)

static const struct { const char *name; unsigned (*call)(struct input *, unsigned); int times; } CALLS[] = {
    {"hanjolum_sector, a goal", sector_goal, 1},
    {"hanjolum_sector, a window", sector_window, 1},
    {"hanjolum_sector_without_sight, a goal", sector_without_sight, 1},
    {"hanjolum_arrivals", arrivals, 1},
    {"hanjolum_bounds", bounds, 1},
    {"hanjolum_window_costs, eight windows", window_costs, 1},
    {"hanjolum_window_tour, eight windows, all orders", window_tour, 1},
    {"hanjolum_leg, sixteen steps", leg, 1},
    {"hanjolum_leg_without_sight, sixteen steps", leg_without_sight, 1},
    {"hanjolum_leg_field, the last of sixteen steps", leg_field, 1},
    {"hanjolum_leg_field_without_sight, the same", leg_field_without_sight, 1},
    {"hanjolum_move", move, SMALL},
    {"hanjolum_way, over sixteen sectors", way, 1},
    {"hanjolum_way, the longest", longest_way, 1},
    {"hanjolum_leg_file_write, sixteen steps", leg_file_write, SMALL},
    {"hanjolum_leg_file_read, sixteen steps", leg_file_read, SMALL},
    {"hanjolum_practice_floor", practice_floor, 1},
    {"hanjolum_init, a goal", init, 1},
    {"hanjolum_build, a goal", build, 1},
    {"hanjolum_flow_new, a goal", flow_new, 1},
    {"hanjolum_flow_build, a goal", flow_build, 1},
    {"hanjolum_line", line, SMALL},
    {"hanjolum_walk_bresenham_shallow", walk_shallow, SMALL},
    {"hanjolum_walk_bresenham_steep", walk_steep, SMALL},
    {"hanjolum_line_end", line_end, SMALL},
    {"hanjolum_is_goal", reader, SMALL},
    {"hanjolum_version", version, SMALL},
};

static double now(void)
{
    struct timespec time;
    clock_gettime(CLOCK_PROCESS_CPUTIME_ID, &time);
    return (double)time.tv_sec * 1e9 + (double)time.tv_nsec;
}

static int by_size(const void *a, const void *b)
{
    double left = *(const double *)a, right = *(const double *)b;
    return (left > right) - (left < right);
}

/* The nanoseconds of one call, in a round of calls over all inputs. */
static double round_of(unsigned (*call)(struct input *, unsigned), int times)
{
    unsigned sum = 0;
    double begin = now();
    for (int i = 0; i < INPUTS * times; i++)
        sum += call(&inputs[i % INPUTS], (unsigned)i);
    double time = (now() - begin) / (INPUTS * times);
    sink = sum;
    if (sum != 0) {
        fprintf(stderr, "time: a call is refused\n");
        exit(1);
    }
    return time;
}

int main(int count, char **words)
{
    enum { ALL = sizeof CALLS / sizeof *CALLS };
    static double rounds[ALL][ROUNDS];
    if (count != 1) {
        fprintf(stderr, "usage: %s, which takes no words\n", words[0]);
        return 1;
    }
    make_inputs();
    for (int round = 0; round < ROUNDS; round++)
        for (int i = 0; i < ALL; i++)
            rounds[i][round] = round_of(CALLS[i].call, CALLS[i].times);
    for (int i = 0; i < ALL; i++) {
        qsort(rounds[i], ROUNDS, sizeof *rounds[i], by_size);
        printf("%s: %.0f\n", CALLS[i].name, rounds[i][ROUNDS / 2]);
    }
    return fflush(stdout) != 0 || ferror(stdout);
}
