/*
 * A cart's loop on a board, without heap. A leg file has come into a buffer; its steps are planned without sight onto a floor's sheet;
 * the goal's sector is looked at, and the whole way is asked for; then the cart is moved from cell to cell to the goal, each move by the
 * library's own call. The way is written to the console. examples/board/run builds it and runs it.
 *
 * In RAM it keeps the sheet, 6,400 bytes, and the leg file's buffer, 134; the floor, 6,400 bytes, is constant and lies in flash. The stack
 * is the library's: docs/MACHINES.md has the figures of each call.
 */
#include "board.h"
#include "cellar.h"

/* The floor by its 64 sectors. Those that no step names are not read; here they are 0. */
static const uint8_t FLOOR[HANJOLUM_FLOOR] = {
    [9 * HANJOLUM_CELLS] = COSTS_OF_SECTOR_9,
    [10 * HANJOLUM_CELLS] = COSTS_OF_SECTOR_10,
    [18 * HANJOLUM_CELLS] = COSTS_OF_SECTOR_18,
};

static uint8_t sheet[HANJOLUM_FLOOR];
static uint8_t file[HANJOLUM_FILE];

/* A real cart's radio, which fills the buffer; here the leg is a constant. Answers how many bytes came. */
static size_t receive(void)
{
    for (size_t i = 0; i < sizeof SENT; i++) {
        file[i] = SENT[i];
    }
    return sizeof SENT;
}

/* A real cart's motors; here the place is written. */
static void drive_to(uint8_t sector, uint8_t cell)
{
    say("sector ");
    say_number(sector);
    say(", cell ");
    say_number(cell);
    say("\n");
}

/* Why the cart is not sent off, or did not come to its goal. */
static int stays(const char *why)
{
    say("the cart stays: ");
    say(why);
    say("\n");
    return 1;
}

/* Whether the arrows of every reached cell of a sector arrive. Of a planned leg, the goal's sector tells the whole way. */
static bool all_arrive(const uint8_t *sector_sheet)
{
    HanjolumArrivals arrivals = hanjolum_arrivals(sector_sheet, HANJOLUM_CELLS);
    bool all = arrivals.number == HANJOLUM_ACCEPTED;
    for (int cell = 0; cell < HANJOLUM_CELLS; cell++) {
        all = all && (hanjolum_is_wall(sector_sheet[cell]) || arrivals.moves[cell] != HANJOLUM_NEVER);
    }
    return all;
}

/* Reads the leg file and plans its steps without sight. Answers the number of the call that refused, or 0. */
static uint8_t plan(size_t length)
{
    HanjolumLegFile leg = hanjolum_leg_file_read(file, length);
    if (leg.number != HANJOLUM_ACCEPTED) {
        return leg.number;
    }
    return hanjolum_leg_without_sight(FLOOR, sizeof FLOOR, file + leg.start, (size_t)leg.length, sheet, sizeof sheet);
}

/* The loop that hanjolum.h shows. Answers how many moves it took, or that the cart does not stand at its goal: -1. */
static int32_t drive(uint8_t sector, uint8_t cell)
{
    int32_t moves = 0;
    HanjolumMove at = hanjolum_move(sheet, sizeof sheet, sector, cell);
    while (at.outcome == HANJOLUM_OUTCOME_MOVED) {
        drive_to(at.sector, at.cell);
        moves++;
        at = hanjolum_move(sheet, sizeof sheet, at.sector, at.cell);
    }
    bool arrived = at.outcome == HANJOLUM_OUTCOME_ARRIVED && at.sector == GOAL_SECTOR && at.cell == GOAL_CELL;
    return at.number == HANJOLUM_ACCEPTED && arrived ? moves : -1;
}

int main(void)
{
    if (!HANJOLUM_SAME_VERSION()) {
        return stays("the header and the library are of two versions");
    }
    uint8_t number = plan(receive());
    if (number != HANJOLUM_ACCEPTED) {
        return stays(hanjolum_refusal_text(number));
    }
    if (!all_arrive(sheet + GOAL_SECTOR * HANJOLUM_CELLS)) {
        return stays("from a cell of the goal's sector the arrows do not arrive");
    }
    HanjolumWay way = hanjolum_way(sheet, sizeof sheet, CART_SECTOR, CART_CELL);
    if (way.number != HANJOLUM_ACCEPTED || way.outcome != HANJOLUM_OUTCOME_ARRIVED) {
        return stays("its way does not end at the goal");
    }
    drive_to(CART_SECTOR, CART_CELL);
    if (drive(CART_SECTOR, CART_CELL) != way.moves) {
        return stays("it is not at its goal, or came there by another way than it was told");
    }
    say("at the goal after ");
    say_number(way.moves);
    say(" moves\n");
    return 0;
}
