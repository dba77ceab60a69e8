/*
 * The deepest stack of a leg, of the field of its last step and of a goal's sector, with sight and without, of `init` and `build`
 * by hand, of a call for bounds, of one for window costs, of one for a tour, of one for arrivals, and of a cart's move and way:
 * plans legs of sixteen steps and their goals' sectors, starts and builds those sectors by hand, asks for the bounds of a window,
 * for the costs of eight windows and the best of all their orders, for the arrivals of the leg's goal sector, and for a move and
 * a way from the leg's last sector, on a painted stack and looks how far down the paint is gone.
 * The floors are hard: sectors are changed cell by cell, and a change is kept where the waves do not become fewer and the
 * next step can still be planned. A leg without sight has floors of its own, hard for planning without sight. The windows are
 * those of a hard sector: its own and seven more cells of its edges.
 * What goes wrong, a refused call among it, is one line on standard error and exit status 1.
 *
 *     tools/proved/make hanjolum
 *     cc -pthread -Iinclude tools/stack/stack.c target/staticlib/libhanjolum.a -o target/stack && target/stack
 */
#define _XOPEN_SOURCE 700
#include <pthread.h>
#include <stdio.h>
#include <stdlib.h>
#include <string.h>

#include "hanjolum.h"

enum { STACK = 8 << 20, PAINT = 0xa5, CHANGES = 20000, LEGS = 30 };

static void fail(const char *what)
{
    fprintf(stderr, "stack: %s\n", what);
    exit(1);
}

static uint8_t floor_costs[HANJOLUM_FLOOR];
static uint8_t sheet[HANJOLUM_FLOOR];
static uint8_t steps[HANJOLUM_STEPS * HANJOLUM_STEP];
static uint8_t windows[HANJOLUM_WINDOWS * HANJOLUM_STEP];
static bool sight;
static uintptr_t before;

/* Where the stack of a function called now begins: below what its caller keeps, the answer that the caller has room for among it. */
__attribute__((noinline)) static uintptr_t called_here(void)
{
    return (uintptr_t)__builtin_frame_address(0);
}

static uint8_t number;
static HanjolumIntegrationField started;

/* A walk over the first two rows of sectors, out and back: each step leaves for the sector before it. */
static void make_steps(void)
{
    static const uint8_t EDGES[4][2] = {{0, 9}, {9, 99}, {90, 99}, {0, 90}};
    memset(steps, 0, sizeof steps);
    steps[1] = (uint8_t)(rand() % 100);
    for (int i = 0; i < HANJOLUM_STEPS; i++) {
        uint8_t *step = steps + i * HANJOLUM_STEP;
        uint8_t boundary = i < 8 ? 3 : i == 8 ? 0 : 1;
        int stride = boundary % 2 == 0 ? 1 : 10;
        int at = rand() % 10;
        step[0] = (uint8_t)(i < 8 ? i : 23 - i);
        if (i == 0)
            continue;
        step[2] = 1;
        step[3] = (uint8_t)(EDGES[boundary][0] + at * stride);
        step[4] = (uint8_t)(step[3] + rand() % (10 - at) * (rand() % 2) * stride);
        step[5] = boundary;
    }
}

/* Whether the next step's window has a cell that counts: one whose cell straight across is reached. */
static int counts(const uint32_t *field, const uint8_t *next)
{
    static const int ACROSS[4] = {90, -9, -90, 9};
    for (int cell = next[3]; cell <= next[4]; cell += next[5] % 2 == 0 ? 1 : 10)
        if ((field[cell + ACROSS[next[5]]] & 0xffff) != 0xffff)
            return 1;
    return 0;
}

/* The sector call, with sight or without. A window comes with a previous field of zeros, which plays no part in the waves. */
static HanjolumBuildAnswer sector(const uint8_t *costs, const uint8_t *step)
{
    static const uint32_t zeros[HANJOLUM_CELLS];
    uint8_t scratch[HANJOLUM_CELLS];
    bool window = step[HANJOLUM_STEP_MARK] == HANJOLUM_MARK_WINDOW;
    return sight ? hanjolum_sector(costs, HANJOLUM_CELLS, step, HANJOLUM_STEP, window, zeros, HANJOLUM_CELLS, scratch, sizeof scratch)
                 : hanjolum_sector_without_sight(costs, HANJOLUM_CELLS, step, HANJOLUM_STEP, window, zeros, HANJOLUM_CELLS,
                                                 scratch, sizeof scratch);
}

/* The waves of a sector, or -1 where it is refused, having a wall under its goal or its window, or where the next step, if
   there is one, could not be planned behind it. */
static long waves_of(const uint8_t *costs, const uint8_t *step, const uint8_t *next)
{
    HanjolumBuildAnswer built = sector(costs, step);
    return built.number == 0 && (next == NULL || counts(built.field.field, next)) ? (long)built.waves : -1;
}

/* Changes a sector's costs until its field takes many waves; answers how many. The sector before it in the list is open,
   so that every cell of the step's own window counts. */
static long harden(uint8_t *costs, const uint8_t *step, const uint8_t *next)
{
    static const uint8_t COSTS[4] = {1, HANJOLUM_WALL, 254, 2};
    long most = waves_of(costs, step, next);
    for (int i = 0; i < CHANGES; i++) {
        uint8_t *cell = costs + rand() % HANJOLUM_CELLS;
        uint8_t old = *cell;
        *cell = COSTS[rand() % 4];
        long waves = waves_of(costs, step, next);
        if (waves < most)
            *cell = old;
        else
            most = waves;
    }
    return most;
}

static void *plan(void *unused)
{
    before = called_here();
    number = sight ? hanjolum_leg(floor_costs, sizeof floor_costs, steps, sizeof steps, sheet, sizeof sheet)
                   : hanjolum_leg_without_sight(floor_costs, sizeof floor_costs, steps, sizeof steps, sheet, sizeof sheet);
    return unused;
}

static void *plan_goal(void *costs)
{
    before = called_here();
    number = sight ? hanjolum_sector(costs, HANJOLUM_CELLS, steps, HANJOLUM_STEP, false, NULL, 0, sheet, HANJOLUM_CELLS).number
                   : hanjolum_sector_without_sight(costs, HANJOLUM_CELLS, steps, HANJOLUM_STEP, false, NULL, 0, sheet,
                                                   HANJOLUM_CELLS).number;
    return costs;
}

static void *start_goal(void *costs)
{
    HanjolumInitAnswer answer;
    before = called_here();
    answer = hanjolum_init(costs, HANJOLUM_CELLS, steps, HANJOLUM_STEP);
    number = answer.number;
    started = answer.field;
    return costs;
}

static void *build_started(void *costs)
{
    before = called_here();
    number = hanjolum_build(costs, HANJOLUM_CELLS, started).number;
    return costs;
}

static void *field_of_last(void *unused)
{
    size_t last = HANJOLUM_STEPS - 1;
    before = called_here();
    number = sight ? hanjolum_leg_field(floor_costs, sizeof floor_costs, steps, sizeof steps, last).number
                   : hanjolum_leg_field_without_sight(floor_costs, sizeof floor_costs, steps, sizeof steps, last).number;
    return unused;
}

static void *bound_costs(void *sector)
{
    before = called_here();
    number = hanjolum_bounds(sector, HANJOLUM_CELLS, sector, HANJOLUM_CELLS, windows, HANJOLUM_STEP).number;
    return sector;
}

static void *cost_windows(void *sector)
{
    before = called_here();
    number = hanjolum_window_costs(sector, HANJOLUM_CELLS, windows, sizeof windows).number;
    return sector;
}

static void *tour_windows(void *sector)
{
    before = called_here();
    number = hanjolum_window_tour(sector, HANJOLUM_CELLS, windows, sizeof windows, UINT16_MAX).number;
    return sector;
}

static void *follow(void *planned)
{
    before = called_here();
    number = hanjolum_arrivals(planned, HANJOLUM_CELLS).number;
    return planned;
}

static void *move_on(void *sector)
{
    before = called_here();
    number = hanjolum_move(sheet, sizeof sheet, *(uint8_t *)sector, 44).number;
    return sector;
}

static void *move_to_end(void *sector)
{
    before = called_here();
    number = hanjolum_way(sheet, sizeof sheet, *(uint8_t *)sector, 44).number;
    return sector;
}

/* A window step and seven windows of one cell behind it, of cells on the edges that are no walls; whether there are as
   many. */
static int make_windows(const uint8_t *costs, const uint8_t *step)
{
    int found = 1;
    memcpy(windows, step, HANJOLUM_STEP);
    for (int i = 0; i < 40 && found < HANJOLUM_WINDOWS; i++) {
        int boundary = i % 4, at = i / 4;
        int cell = boundary == 0 ? at : boundary == 1 ? 10 * at + 9 : boundary == 2 ? 90 + at : 10 * at;
        uint8_t window[HANJOLUM_STEP] = {step[0], 0, 1, (uint8_t)cell, (uint8_t)cell, (uint8_t)boundary, 0, 0};
        if (costs[cell] != HANJOLUM_WALL)
            memcpy(windows + HANJOLUM_STEP * found++, window, HANJOLUM_STEP);
    }
    return found == HANJOLUM_WINDOWS;
}

/* How many bytes of its stack a call uses. */
static size_t depth(uint8_t *stack, void *(*call)(void *), void *lent)
{
    pthread_t thread;
    pthread_attr_t attributes;
    size_t paint = 0;
    memset(stack, PAINT, STACK);
    pthread_attr_init(&attributes);
    pthread_attr_setstack(&attributes, stack, STACK);
    if (pthread_create(&thread, &attributes, call, lent) != 0)
        fail("no thread on the painted stack");
    pthread_join(thread, NULL);
    pthread_attr_destroy(&attributes);
    if (number != 0)
        fail("the call was refused");
    while (paint < STACK && stack[paint] == PAINT)
        paint++;
    if (paint == STACK || before < (uintptr_t)(stack + paint))
        fail("the call did not run on the painted stack");
    return before - (uintptr_t)(stack + paint);
}

static void deeper(size_t *deepest, size_t used)
{
    *deepest = used > *deepest ? used : *deepest;
}

/* The deepest of each call, of all floors so far, and the most waves of a sector; the first of a pair is with sight. */
static size_t of_legs[2], of_fields[2], of_goals[2], of_starts, of_builds, of_bounds, of_windows, of_tours, of_arrivals, of_moves, of_ways;
static long most[2];

/* Makes a floor for a leg, every fourth of its sectors hard, and measures the calls for windows there. */
static void make_floor(uint8_t *stack, int first)
{
    memset(floor_costs, 1, sizeof floor_costs);
    for (int i = first; i < HANJOLUM_STEPS; i += 4) {
        const uint8_t *step = steps + i * HANJOLUM_STEP;
        const uint8_t *next = i + 1 < HANJOLUM_STEPS ? step + HANJOLUM_STEP : NULL;
        uint8_t *costs = floor_costs + step[0] * HANJOLUM_CELLS;
        long waves = harden(costs, step, next);
        most[!sight] = waves > most[!sight] ? waves : most[!sight];
        if (i > 0 && make_windows(costs, step)) {
            deeper(&of_bounds, depth(stack, bound_costs, costs));
            deeper(&of_windows, depth(stack, cost_windows, costs));
            deeper(&of_tours, depth(stack, tour_windows, costs));
        }
    }
}

static void measure(uint8_t *stack)
{
    for (int leg = 0; leg < LEGS; leg++) {
        uint8_t *goal_sector;
        make_steps();
        make_floor(stack, leg % 2);
        goal_sector = floor_costs + steps[0] * HANJOLUM_CELLS;
        deeper(&of_goals[!sight], depth(stack, plan_goal, goal_sector));
        deeper(&of_starts, depth(stack, start_goal, goal_sector));
        deeper(&of_builds, depth(stack, build_started, goal_sector));
        deeper(&of_legs[!sight], depth(stack, plan, NULL));
        deeper(&of_fields[!sight], depth(stack, field_of_last, NULL));
        deeper(&of_arrivals, depth(stack, follow, sheet + steps[0] * HANJOLUM_CELLS));
        deeper(&of_moves, depth(stack, move_on, steps + (HANJOLUM_STEPS - 1) * HANJOLUM_STEP));
        deeper(&of_ways, depth(stack, move_to_end, steps + (HANJOLUM_STEPS - 1) * HANJOLUM_STEP));
    }
}

int main(int argc, char **argv)
{
    uint8_t *stack = aligned_alloc(4096, STACK);
    (void)argv;
    if (argc > 1)
        fail("takes no words");
    if (stack == NULL)
        fail("no memory");
    srand(1);
    for (int i = 0; i < 2; i++) {
        sight = i == 0;
        measure(stack);
    }
    free(stack);
    if (of_windows == 0)
        fail("no call for window costs was made");
    printf("%zu bytes of stack at most for a leg, with %ld waves, %zu without sight, with %ld; %zu for a goal's sector, %zu without "
           "sight; %zu for the field of a leg's step, %zu without sight; %zu for init, %zu for build, %zu for bounds, %zu for window "
           "costs, %zu for a tour, %zu for arrivals, %zu for a move, %zu for a way\n",
           of_legs[0], most[0], of_legs[1], most[1], of_goals[0], of_goals[1], of_fields[0], of_fields[1], of_starts, of_builds,
           of_bounds, of_windows, of_tours, of_arrivals, of_moves, of_ways);
    if (fflush(stdout) != 0)
        fail("standard output cannot be written");
    return 0;
}
