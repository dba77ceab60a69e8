/*
 * Drives a cart by arrows alone. A leg over two sectors is planned without sight, so that the arrows lead to the goal itself. Then
 * the cart asks where its way ends, and is driven there: its loop is the one that hanjolum.h and README.md show.
 *
 *     tools/proved/make hanjolum && cc -Iinclude examples/cart.c target/staticlib/libhanjolum.a -o target/cart && target/cart
 */
#include <stdio.h>
#include <string.h>

#include "hanjolum.h"

/* Where the cart stands. */
enum { SECTOR = 1, CELL = 55 };

/* What the cart has done: its moves, and whether it stands at the goal. */
static int moves;
static bool arrived;

/* A real cart's motors; here the place is printed. */
static void drive_to(uint8_t sector, uint8_t cell)
{
    printf("sector %d, cell %2d\n", sector, cell);
    moves += 1;
}

/* A real cart's brakes. Only an accepted call that says ARRIVED says that the cart is at the goal. */
static void stand_still(uint8_t number, uint8_t outcome)
{
    arrived = number == HANJOLUM_ACCEPTED && outcome == HANJOLUM_OUTCOME_ARRIVED;
}

static void drive(const uint8_t *sheet, uint8_t sector, uint8_t cell)
{
    HanjolumMove at = hanjolum_move(sheet, HANJOLUM_FLOOR, sector, cell);
    while (at.outcome == HANJOLUM_OUTCOME_MOVED) {
        drive_to(at.sector, at.cell);
        at = hanjolum_move(sheet, HANJOLUM_FLOOR, at.sector, at.cell);
    }
    stand_still(at.number, at.outcome);
}

/*
 * The goal is cell 10 of sector 9. Sector 1, north of it, is left by places 2 to 9 of its south edge. One wall beside the goal: with
 * sight, arrows would run in a circle behind it.
 */
static uint8_t plan(uint8_t *sheet)
{
    static uint8_t floor[HANJOLUM_FLOOR];
    uint8_t steps[2 * HANJOLUM_STEP];
    memset(floor, 1, sizeof floor);
    floor[9 * HANJOLUM_CELLS + 1] = HANJOLUM_WALL;
    hanjolum_step_goal(steps, 9, 10);
    hanjolum_step_window(steps + HANJOLUM_STEP, 1, HANJOLUM_SOUTH, 2, 9);
    return hanjolum_leg_without_sight(floor, sizeof floor, steps, sizeof steps, sheet, HANJOLUM_FLOOR);
}

int main(void)
{
    static uint8_t sheet[HANJOLUM_FLOOR];
    if (!HANJOLUM_SAME_VERSION()) {
        fprintf(stderr, "the header is of version %s, and the library is not\n", HANJOLUM_VERSION);
        return 1;
    }
    uint8_t number = plan(sheet);
    if (number != HANJOLUM_ACCEPTED) {
        fprintf(stderr, "refused with number %d: %s\n", number, hanjolum_refusal_text(number));
        return 1;
    }
    HanjolumWay way = hanjolum_way(sheet, sizeof sheet, SECTOR, CELL);
    if (way.outcome == HANJOLUM_OUTCOME_NEVER) {
        fprintf(stderr, "the cart would drive in a circle, and is not sent off\n");
        return 1;
    }
    printf("sector %d, cell %2d\n", SECTOR, CELL);
    drive(sheet, SECTOR, CELL);
    if (!arrived || moves != way.moves) {
        fprintf(stderr, "not at the goal after %d moves\n", moves);
        return 1;
    }
    printf("at the goal after %d moves\n", moves);
    return 0;
}
