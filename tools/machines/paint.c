/*
 * The stack of each call on a board, painted: below the caller each place is filled with a word of its own, the call is made, and the deepest
 * place where another word stands is how far the call went. tools/machines/board builds it, with the start-up of examples/board, and runs it.
 *
 * The calls are those of tools/portable/driver.c, on its drawn and damaged inputs, each painted; and behind them hard ones: legs of sixteen
 * steps over practice floors, with the field of their last step, bounds, eight windows with all their orders, and the longest way. Prints a
 * line for each call of the header, and for each function that the compiler's code asks for: its name and the most bytes that it used. What
 * the caller holds is not counted: arguments by value and the room for the answer.
 *
 * Compiled with -fno-shrink-wrap, so that no function moves its stack between the place where it is read and the call.
 */
#include <string.h>

#include "board.h"
#include "hanjolum.h"

extern uint32_t stack_bottom[];

/* ---- painting: all of it stands in line in the caller, since a call would run on what is painted */

#define IN_LINE static inline __attribute__((always_inline))

IN_LINE volatile uint32_t *paint(void)
{
    volatile uint32_t *top;
    __asm__ volatile("mov %0, sp" : "=r"(top) : : "memory");
    for (volatile uint32_t *at = stack_bottom; at < top; at++) {
        *at = STACK_PAINT(at);
    }
    return top;
}

IN_LINE void look(volatile uint32_t *top, uint32_t *deepest)
{
    volatile uint32_t *at = stack_bottom;
    while (at < top && *at == STACK_PAINT(at)) {
        at++;
    }
    uint32_t used = (uint32_t)((uintptr_t)top - (uintptr_t)at);
    *deepest = used > *deepest ? used : *deepest;
}

/* The value of a call that is made on painted stack. */
#define PAINTED(call, made) __extension__({ \
    volatile uint32_t *painted_top = paint(); \
    __auto_type painted_answer = made; \
    look(painted_top, &used_by[call]); \
    painted_answer; })

static uint32_t used_by[32];

/* From here on each call of the header is a painted one, also those in the driver. */
#define hanjolum_sector(...) PAINTED(SECTOR, hanjolum_sector(__VA_ARGS__))
#define hanjolum_sector_without_sight(...) PAINTED(SECTOR_WITHOUT_SIGHT, hanjolum_sector_without_sight(__VA_ARGS__))
#define hanjolum_arrivals(...) PAINTED(ARRIVALS, hanjolum_arrivals(__VA_ARGS__))
#define hanjolum_bounds(...) PAINTED(BOUNDS, hanjolum_bounds(__VA_ARGS__))
#define hanjolum_window_costs(...) PAINTED(WINDOW_COSTS, hanjolum_window_costs(__VA_ARGS__))
#define hanjolum_window_tour(...) PAINTED(WINDOW_TOUR, hanjolum_window_tour(__VA_ARGS__))
#define hanjolum_leg(...) PAINTED(LEG, hanjolum_leg(__VA_ARGS__))
#define hanjolum_leg_without_sight(...) PAINTED(LEG_WITHOUT_SIGHT, hanjolum_leg_without_sight(__VA_ARGS__))
#define hanjolum_leg_field(...) PAINTED(LEG_FIELD, hanjolum_leg_field(__VA_ARGS__))
#define hanjolum_leg_field_without_sight(...) PAINTED(LEG_FIELD_WITHOUT_SIGHT, hanjolum_leg_field_without_sight(__VA_ARGS__))
#define hanjolum_move(...) PAINTED(MOVE, hanjolum_move(__VA_ARGS__))
#define hanjolum_way(...) PAINTED(WAY, hanjolum_way(__VA_ARGS__))
#define hanjolum_leg_file_write(...) PAINTED(LEG_FILE_WRITE, hanjolum_leg_file_write(__VA_ARGS__))
#define hanjolum_leg_file_read(...) PAINTED(LEG_FILE_READ, hanjolum_leg_file_read(__VA_ARGS__))
#define hanjolum_init(...) PAINTED(INIT, hanjolum_init(__VA_ARGS__))
#define hanjolum_build(...) PAINTED(BUILD, hanjolum_build(__VA_ARGS__))
#define hanjolum_flow_new(...) PAINTED(FLOW_NEW, hanjolum_flow_new(__VA_ARGS__))
#define hanjolum_flow_build(...) PAINTED(FLOW_BUILD, hanjolum_flow_build(__VA_ARGS__))
#define hanjolum_line(...) PAINTED(LINE, hanjolum_line(__VA_ARGS__))
#define hanjolum_walk_bresenham_shallow(...) PAINTED(SHALLOW, hanjolum_walk_bresenham_shallow(__VA_ARGS__))
#define hanjolum_walk_bresenham_steep(...) PAINTED(STEEP, hanjolum_walk_bresenham_steep(__VA_ARGS__))
#define hanjolum_line_end(...) PAINTED(LINE_END, hanjolum_line_end(__VA_ARGS__))
#define hanjolum_practice_floor(...) PAINTED(PRACTICE_FLOOR, hanjolum_practice_floor(__VA_ARGS__))
#define hanjolum_is_pathable(...) PAINTED(IS_PATHABLE, hanjolum_is_pathable(__VA_ARGS__))
#define hanjolum_is_goal(...) PAINTED(IS_GOAL, hanjolum_is_goal(__VA_ARGS__))
#define hanjolum_is_portal_goal(...) PAINTED(IS_PORTAL_GOAL, hanjolum_is_portal_goal(__VA_ARGS__))
#define hanjolum_has_line_of_sight(...) PAINTED(HAS_LINE_OF_SIGHT, hanjolum_has_line_of_sight(__VA_ARGS__))
#define hanjolum_is_wall(...) PAINTED(IS_WALL, hanjolum_is_wall(__VA_ARGS__))
#define hanjolum_get_compass_dir_from_bits(...) PAINTED(GET_COMPASS_DIR, hanjolum_get_compass_dir_from_bits(__VA_ARGS__))
#define hanjolum_version(...) PAINTED(VERSION, hanjolum_version(__VA_ARGS__))

#define DRIVER_NO_MAIN
#include "driver.c"

_Static_assert(CALLS <= sizeof used_by / sizeof *used_by, "a place for each call");

static const char *const NAMES[CALLS] = {
    [SECTOR] = "hanjolum_sector", [SECTOR_WITHOUT_SIGHT] = "hanjolum_sector_without_sight", [ARRIVALS] = "hanjolum_arrivals",
    [BOUNDS] = "hanjolum_bounds", [WINDOW_COSTS] = "hanjolum_window_costs", [WINDOW_TOUR] = "hanjolum_window_tour",
    [LEG] = "hanjolum_leg", [LEG_WITHOUT_SIGHT] = "hanjolum_leg_without_sight", [LEG_FIELD] = "hanjolum_leg_field",
    [LEG_FIELD_WITHOUT_SIGHT] = "hanjolum_leg_field_without_sight", [MOVE] = "hanjolum_move", [WAY] = "hanjolum_way",
    [LEG_FILE_WRITE] = "hanjolum_leg_file_write", [LEG_FILE_READ] = "hanjolum_leg_file_read",
    [PRACTICE_FLOOR] = "hanjolum_practice_floor", [INIT] = "hanjolum_init", [BUILD] = "hanjolum_build",
    [FLOW_NEW] = "hanjolum_flow_new", [FLOW_BUILD] = "hanjolum_flow_build", [LINE] = "hanjolum_line",
    [SHALLOW] = "hanjolum_walk_bresenham_shallow", [STEEP] = "hanjolum_walk_bresenham_steep", [LINE_END] = "hanjolum_line_end",
    [IS_PATHABLE] = "hanjolum_is_pathable", [IS_GOAL] = "hanjolum_is_goal", [IS_PORTAL_GOAL] = "hanjolum_is_portal_goal",
    [HAS_LINE_OF_SIGHT] = "hanjolum_has_line_of_sight", [IS_WALL] = "hanjolum_is_wall",
    [GET_COMPASS_DIR] = "hanjolum_get_compass_dir_from_bits", [VERSION] = "hanjolum_version",
};

/* ---- hard inputs */

enum { ROUNDS = 100, HARD_ROUNDS = 60, SIDE = 10, FLOOR_SIDE = 80 };

/* How many hard calls of each kind were accepted: a leg without sight, bounds, and a tour that tried all orders. */
static uint32_t hard_legs, hard_bounds, hard_tours;

/* Practice floors, and from one sector in `some` on the walls of the others are dear floor, so that a long leg finds its way. */
static void draw_practice_floor(uint32_t some)
{
    for (uint32_t sector = 0; sector < HANJOLUM_SECTORS; sector++) {
        HanjolumPracticeFloor drawn = hanjolum_practice_floor(draw());
        uint8_t *to = floor_costs + sector * HANJOLUM_CELLS;
        for (int cell = 0; cell < HANJOLUM_CELLS; cell++) {
            to[cell] = drawn.costs[cell] == HANJOLUM_WALL && sector % some != 0 ? 254 : drawn.costs[cell];
        }
    }
}

/* Sixteen steps over the first two rows of sectors, out and back: each leaves for the sector before it. */
static void put_long_leg(void)
{
    put_goal(steps, 0, floor_costs, true);
    for (uint32_t i = 1; i < HANJOLUM_STEPS; i++) {
        uint32_t sector = i < 8 ? i : 23 - i, boundary = i < 8 ? HANJOLUM_WEST : i == 8 ? HANJOLUM_NORTH : HANJOLUM_EAST;
        put_window(steps + i * HANJOLUM_STEP, sector, boundary, floor_costs + sector * HANJOLUM_CELLS, true);
    }
}

static void call_hard_legs(void)
{
    enum { LENGTH = HANJOLUM_STEPS * HANJOLUM_STEP, LAST = HANJOLUM_STEPS - 1 };
    put_long_leg();
    tell(LEG, hanjolum_leg(floor_costs, HANJOLUM_FLOOR, steps, LENGTH, floor_sheet, HANJOLUM_FLOOR));
    HanjolumBuildAnswer field = hanjolum_leg_field(floor_costs, HANJOLUM_FLOOR, steps, LENGTH, LAST);
    mix_build(LEG_FIELD, &field);
    field = hanjolum_leg_field_without_sight(floor_costs, HANJOLUM_FLOOR, steps, LENGTH, LAST);
    mix_build(LEG_FIELD_WITHOUT_SIGHT, &field);
    hard_legs += hanjolum_leg_without_sight(floor_costs, HANJOLUM_FLOOR, steps, LENGTH, floor_sheet, HANJOLUM_FLOOR) == 0;
    mix_way(hanjolum_way(floor_sheet, HANJOLUM_FLOOR, steps[LAST * HANJOLUM_STEP], (uint8_t)below(HANJOLUM_CELLS)));
    tell(LEG_FILE_WRITE, hanjolum_leg_file_write(steps, LENGTH, file, HANJOLUM_FILE));
    tell(LEG_FILE_READ, hanjolum_leg_file_read(file, HANJOLUM_FILE).number);
}

/* Eight windows of the first sector, with all their orders, and the bounds of the first. */
static void call_hard_windows(void)
{
    for (uint32_t i = 0; i < HANJOLUM_WINDOWS; i++) {
        put_window(steps + i * HANJOLUM_STEP, 0, i % 4, floor_costs, true);
    }
    HanjolumBounds bounds = hanjolum_bounds(floor_costs, HANJOLUM_CELLS, floor_costs, HANJOLUM_CELLS, steps, HANJOLUM_STEP);
    hard_bounds += bounds.number == 0;
    HanjolumWindowTour tour =
        hanjolum_window_tour(floor_costs, HANJOLUM_CELLS, steps, HANJOLUM_WINDOWS * HANJOLUM_STEP, UINT16_MAX);
    hard_tours += tour.number == 0 && tour.tried == 5040;
}

/* A sheet whose arrows go over every place of the floor, row by row, to its last. Answers whether that many moves were told. */
static bool call_longest_way(void)
{
    for (uint32_t row = 0; row < FLOOR_SIDE; row++) {
        for (uint32_t at = 0; at < FLOOR_SIDE; at++) {
            uint32_t column = row % 2 == 0 ? at : FLOOR_SIDE - 1 - at;
            uint32_t place = (row / SIDE * 8 + column / SIDE) * HANJOLUM_CELLS + row % SIDE * SIDE + column % SIDE;
            uint32_t along = row % 2 == 0 ? HANJOLUM_FLOW_EAST : HANJOLUM_FLOW_WEST;
            floor_sheet[place] = (uint8_t)(HANJOLUM_FLOW_PATHABLE | (at < FLOOR_SIDE - 1 ? along : HANJOLUM_FLOW_SOUTH));
        }
    }
    HanjolumWay way = hanjolum_way(floor_sheet, HANJOLUM_FLOOR, 0, 0);
    return way.number == 0 && way.moves == HANJOLUM_FLOOR - 1;
}

/* ---- what the compiler's code asks for */

enum { COPY, SET, UNSIGNED_64, SIGNED_64, PRODUCT_64, UNSIGNED_32, CASES, HELPERS };

static const char *const HELPER_NAMES[HELPERS] = {
    [COPY] = "memcpy", [SET] = "memset", [UNSIGNED_64] = "__aeabi_uldivmod", [SIGNED_64] = "__aeabi_ldivmod",
    [PRODUCT_64] = "__aeabi_lmul", [UNSIGNED_32] = "__aeabi_uidivmod", [CASES] = "__gnu_thumb1_case_uqi",
};

static uint32_t helper_used[HELPERS];

#define PAINTED_HELPER(helper, made) do { volatile uint32_t *top = paint(); made; look(top, &helper_used[helper]); } while (0)

static volatile uint64_t long_result;
static volatile uint32_t result;

/* A switch that gcc makes a table of jumps for: a Cortex-M0 goes through it by a helper. */
static void go_by_case(uint32_t of, uint32_t c, uint32_t d)
{
    switch (of) {
    case 0: result = c + d; break;
    case 1: long_result = c; break;
    case 2: result = c - d; result = d; break;
    case 3: long_result = d; result = c; break;
    case 4: result = c & d; break;
    case 5: result = c | d; long_result = 1; break;
    case 6: result = c ^ d; break;
    default: long_result = c + 1; break;
    }
}

/* Each on numbers, lengths and places that are drawn. */
static void call_helpers(void)
{
    uint64_t a = (uint64_t)draw() << below(33) | draw(), b = (uint64_t)draw() << below(33) | 1;
    uint32_t c = draw(), d = 1 + below(70000), length = below(4000), from = below(8), to = below(8);
    PAINTED_HELPER(COPY, memcpy(floor_sheet + to, floor_costs + from, length));
    PAINTED_HELPER(SET, memset(floor_sheet + to, 0, length));
    PAINTED_HELPER(UNSIGNED_64, long_result = a / b);
    PAINTED_HELPER(UNSIGNED_64, long_result = a % b);
    PAINTED_HELPER(SIGNED_64, long_result = (uint64_t)((int64_t)a / (int64_t)b));
    PAINTED_HELPER(SIGNED_64, long_result = (uint64_t)((int64_t)a % (int64_t)b));
    PAINTED_HELPER(PRODUCT_64, long_result = a * b);
    PAINTED_HELPER(UNSIGNED_32, result = c / d);
    PAINTED_HELPER(UNSIGNED_32, result = c % d);
    PAINTED_HELPER(CASES, go_by_case(below(8), c, d));
}

/* ---- what is told */

static void tell_depth(const char *name, uint32_t bytes)
{
    say(name);
    say(" ");
    say_number(bytes);
    say("\n");
}

static void tell_all(void)
{
    for (int i = 0; i < CALLS; i++) {
        tell_depth(NAMES[i], used_by[i]);
    }
    for (int i = 0; i < HELPERS; i++) {
        tell_depth(HELPER_NAMES[i], helper_used[i]);
    }
}

int main(void)
{
    run_values(ROUNDS);
    for (uint32_t i = 0; i < HARD_ROUNDS; i++) {
        draw_practice_floor(1 + i % 4);
        call_hard_legs();
        call_hard_windows();
        call_helpers();
    }
    if (what_was_missed() != 0 || !call_longest_way() || hard_legs == 0 || hard_bounds == 0 || hard_tours == 0) {
        say("paint: a kind of call was never made, or never accepted\n");
        return 1;
    }
    tell_all();
    return 0;
}
