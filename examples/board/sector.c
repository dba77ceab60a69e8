/*
 * The same cart on a part that is too small for a floor and its sheet: the leg is planned sector by sector, from the goal back, and of
 * each step only its sheet of 100 bytes is kept. examples/board/run builds it and runs it.
 *
 * What differs from cart.c, and what is promised here:
 *     A leg starts a sector's field from the window cells that count, those that face a reached cell of the sector before it. The sector
 *     call starts from the whole window. So each window is looked at first, and where one of its cells has no reached cell straight across
 *     the cart stays: with all of them reached both start from the same cells.
 *     Inside a sector the library's promise holds: with no cost of 0, arrows lead into the window or to the goal in at most 99 moves. That
 *     the way goes on behind the window is the look at the window and the moves below, which are this program's and not proved. They are
 *     tested: tools/machines/by_sector.c holds both to the library's leg and moves, and here the way is the one that cart.c goes.
 */
#include "board.h"
#include "cellar.h"

enum { SIDE = 10, FLOOR_SIDE = 8, NOT_REACHED = 65535, MOST_MOVES = LEG_STEPS * HANJOLUM_CELLS };

/* The costs of the leg's sectors, in the order of its steps. */
static const uint8_t COSTS[LEG_STEPS][HANJOLUM_CELLS] = {{COSTS_OF_SECTOR_9}, {COSTS_OF_SECTOR_10}, {COSTS_OF_SECTOR_18}};

static uint8_t sheets[LEG_STEPS][HANJOLUM_CELLS];
static uint32_t previous[HANJOLUM_CELLS];
static uint8_t file[HANJOLUM_FILE];

/* Where the cart is: the place of its sector's step in the leg, 0 the goal's, and its cell. */
typedef struct {
    int32_t step;
    int32_t cell;
} Place;

/* A real cart's radio, which fills the buffer; here the leg is a constant. Answers how many bytes came. */
static size_t receive(void)
{
    for (size_t i = 0; i < sizeof SENT; i++) {
        file[i] = SENT[i];
    }
    return sizeof SENT;
}

/* A real cart's motors; here the place is written. */
static void drive_to(uint8_t sector, int32_t cell)
{
    say("sector ");
    say_number(sector);
    say(", cell ");
    say_number((uint32_t)cell);
    say("\n");
}

/* Why the cart is not sent off, or did not come to its goal. */
static int stays(const char *why)
{
    say("the cart stays: ");
    say(why);
    say("\n");
    return 1;
}

/* Whether each cell of a step's window has a reached cell straight across, by the built field of the step before. */
static bool window_is_open(const uint8_t *step)
{
    static const int32_t ACROSS[4] = {90, -9, -90, 9};
    int32_t stride = step[HANJOLUM_STEP_BOUNDARY] % 2 == 0 ? 1 : SIDE;
    bool open = true;
    for (int32_t cell = step[HANJOLUM_STEP_FIRST]; cell <= step[HANJOLUM_STEP_LAST]; cell += stride) {
        int32_t across = cell + ACROSS[step[HANJOLUM_STEP_BOUNDARY] % 4];
        open = open && across >= 0 && across < HANJOLUM_CELLS && (previous[across] & HANJOLUM_FIELD_COST) != NOT_REACHED;
    }
    return open;
}

/* Plans one step onto its sheet and keeps its built field for the next. Answers the call's number. */
static uint8_t plan_step(const uint8_t *step, int32_t place)
{
    HanjolumBuildAnswer built = hanjolum_sector_without_sight(
        COSTS[place], HANJOLUM_CELLS, step, HANJOLUM_STEP, place > 0, previous, HANJOLUM_CELLS, sheets[place], HANJOLUM_CELLS);
    for (int cell = 0; cell < HANJOLUM_CELLS; cell++) {
        previous[cell] = built.field.field[cell];
    }
    return built.number;
}

/* Plans the leg from the goal back. Answers why it cannot be driven, or NULL. */
static const char *plan(const uint8_t *steps)
{
    for (int32_t place = 0; place < LEG_STEPS; place++) {
        const uint8_t *step = steps + place * HANJOLUM_STEP;
        if ((step[HANJOLUM_STEP_MARK] == HANJOLUM_MARK_WINDOW) != (place > 0)) {
            return "a leg has a goal in its first step, and a window in each later one";
        }
        uint8_t number = plan_step(step, place);
        if (number != HANJOLUM_ACCEPTED) {
            return hanjolum_refusal_text(number);
        }
        if (place + 1 < LEG_STEPS && !window_is_open(step + HANJOLUM_STEP)) {
            return "a cell of a window has no reached cell straight across";
        }
    }
    return NULL;
}

/* The place that the arrow of a place leads to, by the floor's columns and rows; the same place where it leads to none of the leg's. */
static Place next(const uint8_t *steps, Place at)
{
    static const int8_t EAST[9] = {0, 1, 0, -1, 1, 1, -1, -1, 0}, SOUTH[9] = {-1, 0, 1, 0, -1, 1, 1, -1, 0};
    uint8_t sector = steps[at.step * HANJOLUM_STEP], direction = hanjolum_get_compass_dir_from_bits(sheets[at.step][at.cell]);
    int32_t column = sector % FLOOR_SIDE * SIDE + at.cell % SIDE + EAST[direction];
    int32_t row = sector / FLOOR_SIDE * SIDE + at.cell / SIDE + SOUTH[direction];
    bool on_floor = column >= 0 && row >= 0 && column < FLOOR_SIDE * SIDE && row < FLOOR_SIDE * SIDE;
    int32_t to = row / SIDE * FLOOR_SIDE + column / SIDE, cell = row % SIDE * SIDE + column % SIDE;
    if (on_floor && to == sector) {
        return (Place){at.step, cell};
    }
    return on_floor && at.step > 0 && to == steps[(at.step - 1) * HANJOLUM_STEP] ? (Place){at.step - 1, cell} : at;
}

/* Moves the cart until its arrow leads nowhere. Answers how many moves it took, or that it does not stand at its goal: -1. */
static int32_t drive(const uint8_t *steps, Place at)
{
    int32_t moves = 0;
    Place to = next(steps, at);
    while (moves < MOST_MOVES && (to.step != at.step || to.cell != at.cell)) {
        at = to;
        drive_to(steps[at.step * HANJOLUM_STEP], at.cell);
        moves++;
        to = next(steps, at);
    }
    return at.step == 0 && hanjolum_is_goal(sheets[0][at.cell]) && !hanjolum_is_wall(sheets[0][at.cell]) ? moves : -1;
}

int main(void)
{
    if (!HANJOLUM_SAME_VERSION()) {
        return stays("the header and the library are of two versions");
    }
    HanjolumLegFile leg = hanjolum_leg_file_read(file, receive());
    if (leg.number != HANJOLUM_ACCEPTED || leg.length != LEG_STEPS * HANJOLUM_STEP) {
        return stays("the leg file is not that of a leg of three steps");
    }
    const char *why = plan(file + leg.start);
    if (why != NULL) {
        return stays(why);
    }
    drive_to(CART_SECTOR, CART_CELL);
    int32_t moves = drive(file + leg.start, (Place){LEG_STEPS - 1, CART_CELL});
    if (moves < 0) {
        return stays("it is not at its goal");
    }
    say("at the goal after ");
    say_number((uint32_t)moves);
    say(" moves\n");
    return 0;
}
