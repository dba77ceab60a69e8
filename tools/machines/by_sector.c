/*
 * Holds examples/board/sector.c, which goes by hand from sector to sector, to the library's own leg and moves, on drawn legs of one to
 * three steps with the driver's inputs:
 *     where each window of a leg is open, by the example's own look, the sheets that the sector call plans one after the other are those
 *     of hanjolum_leg_without_sight, byte for byte;
 *     and from every cell the example's next place is that of hanjolum_move, or its own place where the cart stands still.
 * Prints how many were compared. Exit status 1, with a line on standard error, where one differs, or where too few of a kind came.
 *
 *     cc -std=c11 -Iinclude -Iexamples/board -Itools/portable tools/machines/by_sector.c examples/board/host.c portable/hanjolum.c -o FILE
 */
#define main sector_main
#define previous sector_previous
#define file sector_file
#define drive sector_drive
#include "sector.c"
#undef main
#undef previous
#undef file
#undef drive
#undef o
#undef W
#define DRIVER_NO_MAIN
#include "driver.c"

#include <stdio.h>
#include <string.h>

enum { LEGS = 60000, ENOUGH = 1000 };

/* Legs with all windows open, and with one that is not, of which some are planned otherwise; and moves. */
static uint32_t open_legs, closed_legs, closed_otherwise, moves;

static int differs(const char *what)
{
    fprintf(stderr, "by_sector: %s\n", what);
    return 1;
}

/* Plans a leg sector by sector onto the example's sheets, and looks at each window; whether all were open. */
static bool plan_by_sector(uint32_t many)
{
    bool open = true;
    for (uint32_t place = 0; place < many; place++) {
        const uint8_t *step = steps + place * HANJOLUM_STEP;
        open = open && (place == 0 || window_is_open(step));
        HanjolumBuildAnswer built = hanjolum_sector_without_sight(floor_costs + step[0] * HANJOLUM_CELLS, HANJOLUM_CELLS, step, HANJOLUM_STEP,
            place > 0, sector_previous, HANJOLUM_CELLS, sheets[place], HANJOLUM_CELLS);
        memcpy(sector_previous, built.field.field, sizeof sector_previous);
    }
    return open;
}

static bool same_sheets(uint32_t many)
{
    bool same = true;
    for (uint32_t place = 0; place < many; place++) {
        same = same && memcmp(sheets[place], floor_sheet + steps[place * HANJOLUM_STEP] * HANJOLUM_CELLS, HANJOLUM_CELLS) == 0;
    }
    return same;
}

/* Whether the example goes from a place where the library goes. */
static bool same_move(Place at)
{
    HanjolumMove told = hanjolum_move(floor_sheet, HANJOLUM_FLOOR, steps[at.step * HANJOLUM_STEP], (uint8_t)at.cell);
    Place to = next(steps, at);
    moves += told.outcome == HANJOLUM_OUTCOME_MOVED;
    return told.number == 0 && told.cell == to.cell && told.sector == steps[to.step * HANJOLUM_STEP];
}

static bool same_moves(uint32_t many)
{
    bool same = true;
    for (int32_t i = 0; i < (int32_t)many * HANJOLUM_CELLS; i++) {
        same = same && same_move((Place){i / HANJOLUM_CELLS, i % HANJOLUM_CELLS});
    }
    return same;
}

/* One drawn leg of at most three steps, with no cost of 0. Answers what differs, or NULL. */
static const char *compare_leg(void)
{
    draw_costs(floor_costs, HANJOLUM_FLOOR);
    for (int i = 0; i < HANJOLUM_FLOOR; i++) {
        floor_costs[i] = floor_costs[i] == 0 ? 1 : floor_costs[i];
    }
    uint32_t drawn = put_leg(), many = drawn < LEG_STEPS ? drawn : LEG_STEPS;
    if (hanjolum_leg_without_sight(floor_costs, HANJOLUM_FLOOR, steps, many * HANJOLUM_STEP, floor_sheet, HANJOLUM_FLOOR) != 0) {
        return NULL;
    }
    bool open = plan_by_sector(many), same = same_sheets(many);
    open_legs += open && many > 1;
    closed_legs += !open;
    closed_otherwise += !open && !same;
    if (!open) {
        return NULL;
    }
    return !same ? "a leg with open windows is planned otherwise" : same_moves(many) ? NULL : "a cart moves otherwise";
}

int main(void)
{
    state = UINT64_C(88172645463325252);
    for (int i = 0; i < LEGS; i++) {
        const char *what = compare_leg();
        if (what != NULL) {
            return differs(what);
        }
    }
    if (open_legs < ENOUGH || closed_otherwise < ENOUGH) {
        return differs("too few legs were drawn with open windows, or with a window that changes the plan");
    }
    printf("%lu legs of two and three sectors with open windows: planned sector by sector as by the leg; %lu moves: as by hanjolum_move\n",
        (unsigned long)open_legs, (unsigned long)moves);
    printf("%lu legs with a window that is not open, which the example does not drive: %lu of them are planned otherwise\n",
        (unsigned long)closed_legs, (unsigned long)closed_otherwise);
    return fflush(stdout) == 0 ? 0 : 1;
}
