/*
 * Plans a leg over three sectors with sight, as the tablet's Rust does, and prints the arrows of each, from the goal's sector
 * back to the cart's. Then it looks once at the goal's sector: from every reached cell of the other two the arrows lead there,
 * and the numbers of moves of its cells tell the rest of the way. Last it tells each cell of the cart's sector its door, so that
 * carts can queue by door. For a cart that follows arrows alone take the call without sight, and drive by hanjolum_move, as
 * examples/cart.c does.
 *
 *     tools/proved/make hanjolum && cc -Iinclude examples/leg.c target/staticlib/libhanjolum.a -o target/leg && target/leg
 */
#include <stdio.h>
#include <string.h>

#include "hanjolum.h"

enum { SECTORS = 3 };

/* The goal is in sector 9. Sector 10, east of it, is left by its west window; sector 18, south of 10, by its north. */
static uint8_t steps[SECTORS][HANJOLUM_STEP];

/* Their cells, a row a line: '#' a wall, '.' a cost of 1. */
static const char *const DRAWN[SECTORS] = {
    ".........."
    ".........."
    "..####...."
    ".....#...."
    ".....#...."
    ".....#...."
    ".........."
    ".........."
    "...####..."
    "..........",
    "#........."
    "#........."
    "#...##...."
    "....##...."
    "....##...."
    ".........."
    ".........."
    "#........."
    "#....###.."
    "#.........",
    "###....###"
    ".........."
    ".........."
    "..######.."
    ".......#.."
    ".......#.."
    "..######.."
    ".........."
    ".........."
    "..........",
};

static const char *const ARROWS[] = {"↑", "→", "↓", "←", "↗", "↘", "↙", "↖"};

static const char *shown(uint8_t byte)
{
    uint8_t direction = hanjolum_get_compass_dir_from_bits(byte);
    if (direction != HANJOLUM_ZERO)
        return ARROWS[direction];
    if (hanjolum_is_wall(byte))
        return "█";
    return hanjolum_is_goal(byte) ? "G" : "*";
}

static void print_sector(const uint8_t *sheet, int sector)
{
    printf("sector %d\n", sector);
    for (int cell = 0; cell < HANJOLUM_CELLS; cell++)
        printf("%s%s", shown(sheet[sector * HANJOLUM_CELLS + cell]), cell % 10 == 9 ? "\n" : " ");
    printf("\n");
}

/* The number of moves of each cell of a sector; "-" where the arrows never arrive, on a wall too. */
static void print_arrivals(const uint8_t *sheet, int sector)
{
    HanjolumArrivals arrivals = hanjolum_arrivals(sheet + sector * HANJOLUM_CELLS, HANJOLUM_CELLS);
    printf("moves to the goal or into its sight, sector %d\n", sector);
    for (int cell = 0; cell < HANJOLUM_CELLS; cell++) {
        if (arrivals.moves[cell] == HANJOLUM_NEVER)
            printf(" -");
        else
            printf("%2d", arrivals.moves[cell]);
        printf(cell % 10 == 9 ? "\n" : " ");
    }
}

/* The door of each cell of a step's sector: the cell of its window that it belongs to, among those that count in this leg; "-" where
   it has none, on a wall. A leg that was planned is not refused here. */
static void print_doors(const uint8_t *floor, size_t place)
{
    HanjolumBuildAnswer answer = hanjolum_leg_field(floor, HANJOLUM_FLOOR, &steps[0][0], sizeof steps, place);
    printf("\ndoors, sector %d\n", steps[place][HANJOLUM_STEP_SECTOR]);
    for (int cell = 0; cell < HANJOLUM_CELLS; cell++) {
        uint8_t position = answer.field.positions[cell];
        if (position < answer.field.count)
            printf("%2d", (int)answer.field.los_corners[position]);
        else
            printf(" -");
        printf(cell % 10 == 9 ? "\n" : " ");
    }
}

int main(void)
{
    static uint8_t floor[HANJOLUM_FLOOR];
    static uint8_t sheet[HANJOLUM_FLOOR];
    hanjolum_step_goal(steps[0], 9, 44);
    hanjolum_step_window(steps[1], 10, HANJOLUM_WEST, 3, 6);
    hanjolum_step_window(steps[2], 18, HANJOLUM_NORTH, 3, 6);
    memset(floor, 1, sizeof floor);
    for (int i = 0; i < SECTORS; i++)
        for (int cell = 0; cell < HANJOLUM_CELLS; cell++)
            if (DRAWN[i][cell] == '#')
                floor[steps[i][HANJOLUM_STEP_SECTOR] * HANJOLUM_CELLS + cell] = HANJOLUM_WALL;

    uint8_t number = hanjolum_leg(floor, sizeof floor, &steps[0][0], sizeof steps, sheet, sizeof sheet);
    if (number != HANJOLUM_ACCEPTED) {
        fprintf(stderr, "refused with number %d: %s\n", number, hanjolum_refusal_text(number));
        return 1;
    }
    for (int i = 0; i < SECTORS; i++)
        print_sector(sheet, steps[i][HANJOLUM_STEP_SECTOR]);
    print_arrivals(sheet, steps[0][HANJOLUM_STEP_SECTOR]);
    print_doors(floor, SECTORS - 1);
    return 0;
}
