/*
 * Plans the leg of a drawn floor and drives its cart. Every byte of the sheet comes from hanjolum_leg, or without sight from
 * hanjolum_leg_without_sight, where the way from each cell ends from hanjolum_way, and each of the cart's moves from hanjolum_move.
 */
#include <string.h>

#include "draw.h"

static uint8_t plan_first(struct plan *plan, int count)
{
    size_t length = (size_t)count * HANJOLUM_STEP;
    return plan->sight
        ? hanjolum_leg(plan->floor->costs, HANJOLUM_FLOOR, plan->steps, length, plan->sheet, HANJOLUM_FLOOR)
        : hanjolum_leg_without_sight(plan->floor->costs, HANJOLUM_FLOOR, plan->steps, length, plan->sheet, HANJOLUM_FLOOR);
}

/* The first cell of a step, of its window or its goal, that is a wall: its place, -1 for none. */
static int wall_in(const struct plan *plan, const uint8_t *step)
{
    int window = step[HANJOLUM_STEP_MARK] == HANJOLUM_MARK_WINDOW;
    int first = step[window ? HANJOLUM_STEP_FIRST : HANJOLUM_STEP_GOAL], last = step[window ? HANJOLUM_STEP_LAST : HANJOLUM_STEP_GOAL];
    int stride = step[HANJOLUM_STEP_BOUNDARY] % 2 == 0 ? 1 : SIDE, start = step[HANJOLUM_STEP_SECTOR] * HANJOLUM_CELLS;
    for (int cell = first; cell <= last; cell += stride)
        if (plan->floor->costs[start + cell] == HANJOLUM_WALL)
            return start + cell;
    return -1;
}

/* The sector across a side, -1 for none. */
static int across(const uint8_t *step)
{
    static const int east[] = {0, 1, 0, -1}, south[] = {-1, 0, 1, 0};
    int side = step[HANJOLUM_STEP_BOUNDARY];
    int column = step[HANJOLUM_STEP_SECTOR] % ACROSS + east[side], row = step[HANJOLUM_STEP_SECTOR] / ACROSS + south[side];
    return column < 0 || column >= ACROSS || row < 0 || row >= ACROSS ? -1 : row * ACROSS + column;
}

/* The step at a place of the leg, from 0, the goal's; the lines of the others. */
static const uint8_t *step_number(const struct plan *plan, int i)
{
    return plan->steps + i * HANJOLUM_STEP;
}

static int line_of_step(const struct plan *plan, int i)
{
    return plan->floor->leaves[plan->count - 1 - i].line;
}

/* In which other step the leg is in a sector. */
static void say_twice(const struct plan *plan, int at, char *words, size_t size)
{
    int other = 0;
    while (other < at && step_number(plan, other)[HANJOLUM_STEP_SECTOR] != step_number(plan, at)[HANJOLUM_STEP_SECTOR])
        other += 1;
    if (other == 0)
        snprintf(words, size, "the leg is in this sector twice: the goal is there");
    else
        snprintf(words, size, "the leg is in this sector twice: line %d leaves it too", line_of_step(plan, other));
}

static void say_not_across(const struct plan *plan, int at, char *words, size_t size)
{
    int into = across(step_number(plan, at)), next = step_number(plan, at - 1)[HANJOLUM_STEP_SECTOR];
    if (into < 0)
        snprintf(words, size, "that side leads off the floor, and not into sector %d, where the leg goes on", next);
    else
        snprintf(words, size, "that side leads into sector %d, and not into sector %d, where the leg goes on", into, next);
}

/* Why a step is refused, in the words of a drawing, whose leg is said in the order of driving. */
static void say_refusal(const struct plan *plan, int at, uint8_t number, char *words, size_t size)
{
    int wall = wall_in(plan, step_number(plan, at));
    if (number == HANJOLUM_REFUSED_LEG_ORDER && at > 0)
        say_twice(plan, at, words, size);
    else if (number == HANJOLUM_REFUSED_NOT_ACROSS && at > 0)
        say_not_across(plan, at, words, size);
    else if (number == HANJOLUM_REFUSED_NO_COUNTING_CELL && at > 0)
        snprintf(words, size, "no cell of its window faces a cell of sector %d from which the leg goes on",
                 step_number(plan, at - 1)[HANJOLUM_STEP_SECTOR]);
    else if (number == HANJOLUM_REFUSED_ON_WALL && wall >= 0)
        snprintf(words, size, "%s, sector %d, column %d, row %d, line %d of the drawing, is a wall", at > 0 ? "a cell of its window" : "its cell",
                 wall / HANJOLUM_CELLS, wall % SIDE, wall % HANJOLUM_CELLS / SIDE, line_of(plan->floor, wall));
    else
        snprintf(words, size, "%s", hanjolum_refusal_text(number));
}

/* Says which step a leg is refused for: the last of the fewest that are refused with its number. */
static _Noreturn void refuse(struct plan *plan, uint8_t number)
{
    char words[200];
    int count = 1;
    while (count < plan->count && plan_first(plan, count) != number)
        count += 1;
    say_refusal(plan, count - 1, number, words, sizeof words);
    if (count == 1)
        fail("%s, line %d: the goal is refused with number %d: %s", plan->name, line_of(plan->floor, plan->floor->goal), number, words);
    fail("%s, line %d: leaving sector %d is refused with number %d: %s", plan->name, line_of_step(plan, count - 1),
         step_number(plan, count - 1)[HANJOLUM_STEP_SECTOR], number, words);
}

static const uint8_t *step_at(const struct plan *plan, int place)
{
    int step = plan->step_of[place / HANJOLUM_CELLS];
    return step < 0 ? NULL : plan->steps + step * HANJOLUM_STEP;
}

int is_window(const struct plan *plan, int place)
{
    const uint8_t *step = step_at(plan, place);
    int cell = place % HANJOLUM_CELLS;
    if (step == NULL || step[HANJOLUM_STEP_MARK] != HANJOLUM_MARK_WINDOW)
        return 0;
    int stride = step[HANJOLUM_STEP_BOUNDARY] % 2 == 0 ? 1 : SIDE;
    return cell >= step[HANJOLUM_STEP_FIRST] && cell <= step[HANJOLUM_STEP_LAST] && (cell - step[HANJOLUM_STEP_FIRST]) % stride == 0;
}

int counts(const struct plan *plan, int place)
{
    return is_window(plan, place) && hanjolum_is_portal_goal(plan->sheet[place]);
}

enum look look_of(const struct plan *plan, int place)
{
    uint8_t byte = plan->sheet[place];
    if (plan->floor->costs[place] == HANJOLUM_WALL)
        return WALL_CELL;
    if (step_at(plan, place) == NULL)
        return UNPLANNED;
    if (hanjolum_get_compass_dir_from_bits(byte) != HANJOLUM_ZERO)
        return ARROW;
    if (hanjolum_is_wall(byte))
        return UNREACHED;
    return hanjolum_is_goal(byte) ? GOAL : IN_SIGHT;
}

/* Asks the library where the way from each place ends. Lost is a reached cell whose way ends neither at the goal nor in its sight. */
static void find_ways(struct plan *plan)
{
    for (int place = 0; place < HANJOLUM_FLOOR; place++) {
        HanjolumWay way = hanjolum_way(plan->sheet, HANJOLUM_FLOOR, (uint8_t)(place / HANJOLUM_CELLS), (uint8_t)(place % HANJOLUM_CELLS));
        int reached = step_at(plan, place) != NULL && !hanjolum_is_wall(plan->sheet[place]);
        plan->ways[place] = way;
        plan->lost[place] = (char)(reached && way.outcome != HANJOLUM_OUTCOME_ARRIVED && way.outcome != HANJOLUM_OUTCOME_IN_SIGHT);
    }
}

/* Where the cart's move leads from a place; -1 where it stands still. */
static int next_place(const struct plan *plan, int place)
{
    HanjolumMove move = hanjolum_move(plan->sheet, HANJOLUM_FLOOR, (uint8_t)(place / HANJOLUM_CELLS), (uint8_t)(place % HANJOLUM_CELLS));
    return move.outcome == HANJOLUM_OUTCOME_MOVED ? move.sector * HANJOLUM_CELLS + move.cell : -1;
}

/* Ends the program where the cart stands on a wall, or outside the leg. */
static void check_cart(const struct plan *plan)
{
    int place = plan->floor->cart, line = line_of(plan->floor, place), sector = place / HANJOLUM_CELLS;
    if (look_of(plan, place) == WALL_CELL)
        fail("%s, line %d: the cart stands on a wall, sector %d, column %d, row %d", plan->name, line, sector, place % SIDE,
             place % HANJOLUM_CELLS / SIDE);
    if (look_of(plan, place) == UNPLANNED)
        fail("%s, line %d: the cart stands in sector %d, which the leg does not name", plan->name, line, sector);
}

/* Drives the cart until it stands still, or comes a second time to a cell. */
static void drive_cart(struct plan *plan)
{
    char met[HANJOLUM_FLOOR] = {0};
    int place = plan->floor->cart;
    plan->moves = plan->crossing = -1;
    if (place < 0)
        return;
    check_cart(plan);
    plan->way[plan->moves = 0] = place;
    while (!met[place] && next_place(plan, place) >= 0) {
        met[place] = 1;
        place = next_place(plan, place);
        plan->way[++plan->moves] = place;
    }
    for (int i = plan->moves; i >= 0 && plan->way[i] / HANJOLUM_CELLS == plan->floor->goal / HANJOLUM_CELLS; i--)
        plan->crossing = i;
}

void plan_floor(struct plan *plan, const char *name, const struct floor *floor, int sight)
{
    memset(plan, 0, sizeof *plan);
    plan->name = name;
    plan->floor = floor;
    plan->sight = sight;
    plan->count = leg_of(floor, plan->steps);
    if (plan->count == 0)
        fail("%s: no goal; draw a G, or say it as: goal 9 at 4 5", name);
    uint8_t number = plan_first(plan, plan->count);
    if (number != HANJOLUM_ACCEPTED)
        refuse(plan, number);
    memset(plan->step_of, -1, sizeof plan->step_of);
    for (int i = 0; i < plan->count; i++)
        plan->step_of[plan->steps[i * HANJOLUM_STEP + HANJOLUM_STEP_SECTOR]] = i;
    find_ways(plan);
    drive_cart(plan);
}

/* Asks the library how many moves each cell of a sector alone is from its window. */
static void find_moves_out(struct plan *plan)
{
    HanjolumArrivals arrivals = hanjolum_arrivals(plan->sheet, HANJOLUM_CELLS);
    for (int cell = 0; cell < HANJOLUM_CELLS; cell++) {
        plan->moves_out[cell] = arrivals.moves[cell];
        plan->lost[cell] = (char)(arrivals.moves[cell] == HANJOLUM_NEVER && !hanjolum_is_wall(plan->sheet[cell]));
    }
}

int by_window(const struct plan *plan)
{
    return plan->alone && plan->steps[HANJOLUM_STEP_MARK] == HANJOLUM_MARK_WINDOW;
}

void plan_alone(struct plan *plan, const char *name, const struct floor *floor, const uint8_t *step, const uint8_t *sheet, int sight)
{
    *plan = (struct plan){.name = name, .floor = floor, .alone = 1, .sight = sight, .count = 1, .moves = -1, .crossing = -1};
    memcpy(plan->steps, step, HANJOLUM_STEP);
    memcpy(plan->sheet, sheet, HANJOLUM_CELLS);
    for (int sector = 1; sector < HANJOLUM_SECTORS; sector++)
        plan->step_of[sector] = -1;
    if (by_window(plan))
        find_moves_out(plan);
    else
        find_ways(plan);
}

void say_way(const struct plan *plan, char *line, size_t size)
{
    int cart = plan->floor->cart;
    if (cart < 0) {
        snprintf(line, size, "no cart is drawn");
        return;
    }
    int length = snprintf(line, size, "the cart, sector %d, column %d, row %d: ", cart / HANJOLUM_CELLS, cart % SIDE, cart % HANJOLUM_CELLS / SIDE);
    line += length, size -= (size_t)length;
    int inside = plan->moves - plan->crossing;
    if (look_of(plan, cart) == UNREACHED)
        snprintf(line, size, "nothing reaches it");
    else if (plan->crossing < 0)
        snprintf(line, size, "its arrows lead in a circle before the goal's sector");
    else if (plan->lost[cart])
        snprintf(line, size, "%d moves into the goal's sector, and there arrows that lead in a circle", plan->crossing);
    else
        snprintf(line, size, "%d moves into the goal's sector, %d more %s", plan->crossing, inside,
                 plan->ways[cart].outcome == HANJOLUM_OUTCOME_IN_SIGHT ? "until the goal is in sight" : "to the goal");
}
