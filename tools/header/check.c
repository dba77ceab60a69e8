/*
 * What the header adds to the library, held to it: the makers of a step, HANJOLUM_UNREACHED, the masks of a flow byte, and the step
 * that a refusal speaks of. tools/header/check builds and runs it, as C11, C17 and C++17; asked.h, made by that script, has the lines
 * of the header that say how a reader asks the masks.
 *
 *     check LEGS      with that many drawn legs
 */
#include <stdio.h>
#include <stdlib.h>
#include <string.h>

#include "hanjolum.h"

static void fail(const char *what)
{
    fprintf(stderr, "tools/header/check: %s\n", what);
    exit(1);
}

/* Drawn numbers, the same at every run. */
static uint32_t drawn = 2463534242u;

static uint32_t below(uint32_t bound)
{
    drawn ^= drawn << 13;
    drawn ^= drawn >> 17;
    drawn ^= drawn << 5;
    return drawn % bound;
}

/* A cost, of which so many in a hundred are walls. */
static uint8_t draw_cost(uint32_t walls)
{
    const uint32_t cost = 1 + below(9);
    return (uint8_t)(below(100) < walls ? 255 : cost);
}

/* ---- where things lie, told by columns and rows and not by the makers */

enum { SIDES = 4, PLACES = 10 };

/* The cell at a place of an edge: of the cells of that edge in the order of their indexes, the one at that place. */
static int edge_cell(int side, int place)
{
    int seen = 0;
    for (int cell = 0; cell < HANJOLUM_CELLS; cell++) {
        const int row = cell / 10, column = cell % 10;
        const int on[SIDES] = {row == 0, column == 9, row == 9, column == 0};
        if (on[side] && seen++ == place)
            return cell;
    }
    return -1;
}

/* The place of a cell on an edge, or -1. */
static int place_of(int side, int cell)
{
    for (int place = 0; place < PLACES; place++)
        if (edge_cell(side, place) == cell)
            return place;
    return -1;
}

/* The sector across a side, or -1. */
static int across(int sector, int side)
{
    static const int columns[SIDES] = {0, 1, 0, -1}, rows[SIDES] = {-1, 0, 1, 0};
    const int column = sector % 8 + columns[side], row = sector / 8 + rows[side];
    return column < 0 || column > 7 || row < 0 || row > 7 ? -1 : row * 8 + column;
}

/* ---- the makers */

/* The values that are tried: all that are right, their neighbours, and some that a byte, or 16 bits, would cut to a right one. */
static const uint32_t EDGES[] = {127, 128, 244, 245, 246, 247, 254, 255, 256, 257, 259, 265, 266, 319, 320, 511, 512, 521, 65535, 65536, 65545,
    16777216, 2147483647, 2147483648u, 4294967040u, 4294967286u, 4294967294u, 4294967295u};
enum { SMALL = 30, TRIED = SMALL + sizeof EDGES / sizeof EDGES[0] };

static uint32_t tried(int i)
{
    return i < SMALL ? (uint32_t)i : EDGES[i - SMALL];
}

/* A step's number on a sector without walls. */
static uint8_t number_of(const uint8_t *step)
{
    static const uint32_t zeros[HANJOLUM_CELLS] = {0};
    uint8_t costs[HANJOLUM_CELLS], sheet[HANJOLUM_CELLS];
    memset(costs, 1, sizeof costs);
    return hanjolum_sector(costs, sizeof costs, step, HANJOLUM_STEP, true, zeros, HANJOLUM_CELLS, sheet, sizeof sheet).number;
}

static void try_window(uint32_t sector, uint32_t side, uint32_t first, uint32_t last)
{
    uint8_t step[HANJOLUM_STEP + 1];
    memset(step, 0xa5, sizeof step);
    hanjolum_step_window(step, sector, side, first, last);
    const int number = sector > 63 ? 4 : side > 3 || first > 9 || last > 9 ? 6 : first > last ? 8 : 0;
    if (number_of(step) != number)
        fail("hanjolum_step_window: a step has another number than the header says");
    if (step[HANJOLUM_STEP] != 0xa5)
        fail("hanjolum_step_window: it writes behind the step");
    if (number != 0)
        return;
    const int due[HANJOLUM_STEP] = {(int)sector, 0, 1, edge_cell((int)side, (int)first), edge_cell((int)side, (int)last), (int)side, 0, 0};
    for (int i = 0; i < HANJOLUM_STEP; i++)
        if (step[i] != due[i])
            fail("hanjolum_step_window: a byte is another one");
}

static void try_goal(uint32_t sector, uint32_t cell)
{
    uint8_t step[HANJOLUM_STEP + 1];
    memset(step, 0xa5, sizeof step);
    hanjolum_step_goal(step, sector, cell);
    const int number = sector > 63 ? 4 : cell > 99 ? 5 : 0;
    if (number_of(step) != number)
        fail("hanjolum_step_goal: a step has another number than the header says");
    if (step[HANJOLUM_STEP] != 0xa5)
        fail("hanjolum_step_goal: it writes behind the step");
    for (int i = 0; number == 0 && i < HANJOLUM_STEP; i++)
        if (step[i] != (i == 0 ? sector : i == 1 ? cell : 0))
            fail("hanjolum_step_goal: a byte is another one");
}

static void try_makers(void)
{
    static const uint32_t sectors[] = {0, 9, 63, 64, 255, 256, 319, 4294967295u};
    const int count = sizeof sectors / sizeof sectors[0];
    for (int i = 0; i < count * TRIED * TRIED * TRIED; i++)
        try_window(sectors[i % count], tried(i / count % TRIED), tried(i / count / TRIED % TRIED), tried(i / count / TRIED / TRIED));
    for (uint32_t i = 0; i < 400 * 400; i++)
        try_goal(i / 400, i % 400);
    for (int i = 0; i < TRIED * TRIED; i++)
        try_goal(tried(i / TRIED), tried(i % TRIED));
    printf("makers: %d windows and %d goals\n", count * TRIED * TRIED * TRIED, 400 * 400 + TRIED * TRIED);
}

/* ---- the masks of a flow byte */

#define PATHABLE HANJOLUM_FLOW_PATHABLE
#define HAS_LOS HANJOLUM_FLOW_HAS_LOS
#define GOAL HANJOLUM_FLOW_GOAL
#define PORTAL_GOAL HANJOLUM_FLOW_PORTAL_GOAL
#define IMPASSABLE HANJOLUM_FLOW_IMPASSABLE

/* As the header's own lines have it, one ASKED(reader, what it is) for each. */
static int asked;
#define ASKED(reader, masks) \
    asked += 1; \
    if (reader(byte) != (masks)) \
        fail(#reader ": the header's masks ask otherwise");

static void try_byte(uint8_t byte)
{
#include "asked.h"
    static const unsigned bits[] = {HANJOLUM_FLOW_NORTH, HANJOLUM_FLOW_EAST, HANJOLUM_FLOW_SOUTH, HANJOLUM_FLOW_WEST,
        HANJOLUM_FLOW_NORTH | HANJOLUM_FLOW_EAST, HANJOLUM_FLOW_SOUTH | HANJOLUM_FLOW_EAST,
        HANJOLUM_FLOW_SOUTH | HANJOLUM_FLOW_WEST, HANJOLUM_FLOW_NORTH | HANJOLUM_FLOW_WEST};
    for (int direction = HANJOLUM_NORTH; direction < HANJOLUM_ZERO; direction++)
        if ((hanjolum_get_compass_dir_from_bits(byte) == direction) != ((byte & 15u) == bits[direction]))
            fail("hanjolum_get_compass_dir_from_bits: the bits of a direction are others");
}

static void try_masks(void)
{
    for (int byte = 0; byte < 256; byte++)
        try_byte((uint8_t)byte);
    if (asked != 5 * 256)
        fail("the header does not say of each of five readers how it asks the masks");
    const uint8_t wall = HANJOLUM_FLOW_IMPASSABLE;
    if (wall != 0xe0 || (wall & HANJOLUM_FLOW_GOAL) == 0 || hanjolum_is_goal(wall) || !hanjolum_is_wall(wall))
        fail("a wall is no longer the byte that the header warns of");
    printf("masks: %d answers of readers, and directions of 256 bytes\n", asked);
}

/* ---- HANJOLUM_UNREACHED, and the words of a field */

/* Marks what walks from the marked cells come to, over no wall. */
static void flood(const uint8_t *costs, bool *reached)
{
    int list[HANJOLUM_CELLS], count = 0;
    for (int cell = 0; cell < HANJOLUM_CELLS; cell++)
        if (reached[cell])
            list[count++] = cell;
    for (int i = 0; i < count; i++) {
        const int cell = list[i];
        const int beside[SIDES] = {cell >= 10 ? cell - 10 : cell, cell % 10 < 9 ? cell + 1 : cell, cell < 90 ? cell + 10 : cell,
            cell % 10 > 0 ? cell - 1 : cell};
        for (int side = 0; side < SIDES; side++)
            if (!reached[beside[side]] && costs[beside[side]] != HANJOLUM_WALL) {
                reached[beside[side]] = true;
                list[count++] = beside[side];
            }
    }
}

/* One planned sector: which words hold HANJOLUM_UNREACHED. */
static int unreached_of(const uint8_t *costs, const HanjolumBuildAnswer *built, const uint8_t *sheet, const bool *reached)
{
    int shut = 0;
    for (int cell = 0; cell < HANJOLUM_CELLS; cell++) {
        const uint32_t word = built->field.field[cell];
        const bool wall = costs[cell] == HANJOLUM_WALL, unreached = (word & HANJOLUM_FIELD_COST) == HANJOLUM_UNREACHED;
        if (unreached == reached[cell] || unreached != hanjolum_is_wall(sheet[cell]))
            fail("HANJOLUM_UNREACHED: a cell has it and is reached, or has it not and is not");
        if ((word == HANJOLUM_UNREACHED) != (unreached && !wall) || ((word & HANJOLUM_FIELD_IMPASSABLE) != 0) != wall)
            fail("HANJOLUM_UNREACHED: the word of a wall, or of a cell that nothing reaches, is another");
        shut += unreached && !wall;
    }
    return shut;
}

/* In a sector planned with sight, a cell in sight counts the columns and rows to the goal, whatever they cost. */
static int sights_of(const HanjolumBuildAnswer *built, int goal)
{
    int seen = 0;
    for (int cell = 0; cell < HANJOLUM_CELLS; cell++) {
        const uint32_t word = built->field.field[cell];
        if ((word & HANJOLUM_FIELD_LOS) == 0)
            continue;
        if ((word & HANJOLUM_FIELD_COST) != (uint32_t)(abs(cell / 10 - goal / 10) + abs(cell % 10 - goal % 10)))
            fail("a cell in sight has another cost than the header says");
        seen += 1;
    }
    return seen;
}

/* A drawn sector, and a step to a goal or across a window that is no wall; marks the cells where walks begin. */
static void draw_sector(uint8_t *costs, uint8_t *step, bool window, bool *starts)
{
    const uint32_t walls = below(45), side = below(SIDES), first = below(PLACES), last = first + below(PLACES - first);
    const uint32_t goal = below(HANJOLUM_CELLS);
    memset(starts, 0, HANJOLUM_CELLS * sizeof *starts);
    hanjolum_step_goal(step, 0, goal);
    starts[goal] = !window;
    if (window)
        hanjolum_step_window(step, 0, side, first, last);
    for (uint32_t place = first; window && place <= last; place++)
        starts[edge_cell((int)side, (int)place)] = true;
    for (int cell = 0; cell < HANJOLUM_CELLS; cell++)
        costs[cell] = draw_cost(starts[cell] ? 0 : walls);
}

static void try_fields(int rounds)
{
    static const uint32_t zeros[HANJOLUM_CELLS] = {0};
    int shut = 0, seen = 0;
    for (int round = 0; round < rounds; round++) {
        uint8_t costs[HANJOLUM_CELLS], sheet[HANJOLUM_CELLS], step[HANJOLUM_STEP];
        bool reached[HANJOLUM_CELLS];
        draw_sector(costs, step, round % 3 == 2, reached);
        flood(costs, reached);
        const HanjolumBuildAnswer built = round % 3 == 1
            ? hanjolum_sector_without_sight(costs, sizeof costs, step, sizeof step, false, NULL, 0, sheet, sizeof sheet)
            : hanjolum_sector(costs, sizeof costs, step, sizeof step, true, zeros, HANJOLUM_CELLS, sheet, sizeof sheet);
        if (built.number != HANJOLUM_ACCEPTED)
            fail("a drawn sector is refused");
        shut += unreached_of(costs, &built, sheet, reached);
        seen += round % 3 == 0 ? sights_of(&built, step[HANJOLUM_STEP_GOAL]) : 0;
    }
    if (shut == 0 || seen == 0)
        fail("no drawn sector has a cell that nothing reaches, or one in sight");
    printf("fields: %d drawn sectors, %d cells that nothing reaches, %d in sight\n", rounds, shut, seen);
}

/* ---- the step that a refusal speaks of: a second reading of the header's table */

/* What a leg's bytes are lent as. */
typedef struct {
    const uint8_t *floor;
    size_t floor_length;
    const uint8_t *steps;
    size_t steps_length;
    size_t sheet_length;
} Lent;

typedef struct {
    int number;
    size_t step;
} Judged;

static Judged judged(int number, size_t step)
{
    Judged answer;
    answer.number = number;
    answer.step = step;
    return answer;
}

/* 4 to 8 and 16 for one step. */
static int step_number(const uint8_t *floor, const uint8_t *step)
{
    if (step[0] > 63 || step[2] > 1 || step[6] != 0 || step[7] != 0)
        return 4;
    const uint8_t *costs = floor + step[0] * HANJOLUM_CELLS;
    if (step[2] == 0)
        return step[1] > 99 ? 5 : costs[step[1]] == 255 ? 16 : 0;
    if (step[3] > 99 || step[4] > 99 || step[5] > 3)
        return 6;
    const int first = place_of(step[5], step[3]), last = place_of(step[5], step[4]);
    if (first < 0 || last < 0)
        return 7;
    if (first > last)
        return 8;
    for (int place = first; place <= last; place++)
        if (costs[edge_cell(step[5], place)] == 255)
            return 16;
    return 0;
}

/* Whether 9 is due to a step, all before it given. */
static bool out_of_order(const uint8_t *steps, size_t k)
{
    bool named = false;
    for (size_t i = 0; i < k; i++)
        named = named || steps[8 * i] == steps[8 * k];
    return named || (steps[8 * k + 2] == 1) != (k > 0);
}

/* Marks what a step with a window reaches, with what the step before reached; false where no cell of its window counts. */
static bool window_reaches(const Lent *lent, size_t k, bool *reached)
{
    const uint8_t *step = lent->steps + 8 * k;
    const int side = step[5], first = place_of(side, step[3]), last = place_of(side, step[4]);
    bool starts[HANJOLUM_CELLS] = {false}, some = false;
    for (int place = first; place <= last; place++)
        for (int facing = place - 1; facing <= place + 1; facing++)
            if (facing >= first && facing <= last && reached[edge_cell((side + 2) % 4, facing)])
                starts[edge_cell(side, place)] = some = true;
    memcpy(reached, starts, sizeof starts);
    flood(lent->floor + step[0] * HANJOLUM_CELLS, reached);
    return some;
}

/* 15: the first step with no counting cell. */
static Judged judge_windows(const Lent *lent, size_t count)
{
    bool reached[HANJOLUM_CELLS] = {false};
    reached[lent->steps[1]] = true;
    flood(lent->floor + lent->steps[0] * HANJOLUM_CELLS, reached);
    for (size_t k = 1; k < count; k++)
        if (!window_reaches(lent, k, reached))
            return judged(15, k);
    return judged(0, HANJOLUM_STEPS);
}

/* A leg's number and its step. */
static Judged judge(const Lent *lent)
{
    const size_t count = lent->steps_length / 8;
    if (lent->floor_length != 6400 || lent->sheet_length != 6400)
        return judged(lent->floor_length != 6400 ? 1 : 2, HANJOLUM_STEPS);
    if (count < 1 || count > 16 || lent->steps_length % 8 != 0)
        return judged(3, HANJOLUM_STEPS);
    for (size_t k = 0; k < count; k++)
        if (step_number(lent->floor, lent->steps + 8 * k) != 0)
            return judged(step_number(lent->floor, lent->steps + 8 * k), k);
    for (size_t k = 0; k < count; k++)
        if (out_of_order(lent->steps, k))
            return judged(9, k);
    for (size_t k = 1; k < count; k++)
        if (across(lent->steps[8 * k], lent->steps[8 * k + 5]) != lent->steps[8 * k - 8])
            return judged(10, k);
    return judge_windows(lent, count);
}

/* ---- drawn legs */

enum { MOST = (HANJOLUM_STEPS + 1) * HANJOLUM_STEP };
static uint8_t floor_bytes[HANJOLUM_FLOOR], step_bytes[MOST];

static void put_walls(uint32_t sector, uint32_t chance)
{
    for (uint32_t cell = 0; cell < HANJOLUM_CELLS; cell++)
        floor_bytes[sector * HANJOLUM_CELLS + cell] = draw_cost(chance);
}

static void put_edge(int sector, int side, uint32_t first, uint32_t last, uint8_t cost)
{
    for (uint32_t place = first; place <= last; place++)
        floor_bytes[sector * HANJOLUM_CELLS + edge_cell(side, (int)place)] = cost;
}

/* A step that leads into the sector of the step before it, from a sector that is not named yet; false where none is left. */
static bool draw_step(size_t k, uint32_t chance)
{
    const int before = step_bytes[8 * k - 8];
    const uint32_t turn = below(SIDES), first = below(PLACES), last = first + below(PLACES - first);
    for (uint32_t i = 0; i < SIDES; i++) {
        const int side = (int)((turn + i) % SIDES), sector = across(before, (side + 2) % 4);
        bool named = sector < 0;
        for (size_t j = 0; j < k; j++)
            named = named || step_bytes[8 * j] == sector;
        if (named)
            continue;
        put_walls((uint32_t)sector, chance);
        put_edge(sector, side, first, last, 1);
        if (below(12) != 0)
            put_edge(before, (side + 2) % 4, first, last, 1);
        hanjolum_step_window(step_bytes + 8 * k, (uint32_t)sector, (uint32_t)side, first, last);
        return true;
    }
    return false;
}

/* A leg of up to `most` steps; answers how many there are. */
static size_t draw_leg(size_t most)
{
    static const uint32_t chances[] = {0, 5, 15, 25};
    const uint32_t sector = below(HANJOLUM_SECTORS), goal = below(HANJOLUM_CELLS), chance = chances[below(4)];
    size_t count = 1;
    memset(floor_bytes, 1, sizeof floor_bytes);
    memset(step_bytes, 0, sizeof step_bytes);
    put_walls(sector, chance);
    floor_bytes[sector * HANJOLUM_CELLS + goal] = 1;
    hanjolum_step_goal(step_bytes, sector, goal);
    while (count < most && draw_step(count, chance))
        count += 1;
    return count;
}

/* Something wrong with one step, or with the floor under it. */
static void spoil(size_t count)
{
    const size_t k = below((uint32_t)count);
    uint8_t *step = step_bytes + 8 * k, swapped = step[3];
    switch (below(9)) {
    case 0: step[below(8)] = (uint8_t)below(256); break;
    case 1: step[0] = step_bytes[8 * below((uint32_t)count)]; break;
    case 2: step[2] ^= 1; break;
    case 3: hanjolum_step_window(step, step[0], below(SIDES), below(PLACES), 9); break;
    case 4: floor_bytes[step[0] % 64 * HANJOLUM_CELLS + (step[2] == 1 ? step[3] : step[1]) % 100] = HANJOLUM_WALL; break;
    case 5: step[3] = step[4], step[4] = swapped; break;
    case 6:
        if (k > 0 && step[5] < SIDES)
            put_edge(step_bytes[8 * k - 8] % 64, (step[5] + 2) % 4, 0, 9, HANJOLUM_WALL);
        break;
    case 7: step[0] = (uint8_t)below(66); break;
    default: hanjolum_step_goal(step, step[0], below(102)); break;
    }
}

/* ---- the legs, judged and asked */

static long met[256][HANJOLUM_STEPS + 1], others, accepted_before;

/* Which of the three conditions of 9 were met: the first step with a window, a later one without, a sector named twice. */
static long orders[3];

/* The scratch sheet between two fences. */
enum { FENCE = 64 };
static uint8_t fenced[HANJOLUM_FLOOR + 2 * FENCE];

static void ask(HanjolumLegCall *leg, const Lent *lent, Judged due)
{
    uint8_t *scratch = fenced + FENCE;
    memset(fenced, 0x5a, sizeof fenced);
    if (leg(lent->floor, lent->floor_length, lent->steps, lent->steps_length, scratch, lent->sheet_length) != due.number)
        fail("a leg has another number than the header's table gives");
    const size_t step = hanjolum_refused_step(leg, lent->floor, lent->floor_length, lent->steps, lent->steps_length, scratch, lent->sheet_length);
    if (step != due.step)
        fail("hanjolum_refused_step: another step than the header's table gives");
    for (int i = 0; i < FENCE; i++)
        if (fenced[i] != 0x5a || fenced[FENCE + HANJOLUM_FLOOR + i] != 0x5a)
            fail("hanjolum_refused_step: it writes beside the scratch sheet");
}

static void try_leg(const Lent *lent)
{
    const Judged due = judge(lent);
    Lent beginning = *lent;
    beginning.steps_length = due.step * 8;
    met[due.number][due.step] += 1;
    if (due.number == 9)
        orders[due.step == 0 ? 0 : lent->steps[8 * due.step + 2] == 0 ? 1 : 2] += 1;
    if (due.step > 0 && due.step < HANJOLUM_STEPS) {
        others += judge(&beginning).number != 0;
        accepted_before += judge(&beginning).number == 0;
    }
    ask(hanjolum_leg, lent, due);
    ask(hanjolum_leg_without_sight, lent, due);
}

/* Each number that speaks of a step is met at the first step, where it can be, at the second, and at the ninth or later. */
static void hold_met(void)
{
    static const int numbers[] = {4, 5, 6, 7, 8, 9, 10, 15, 16};
    for (int number = 0; number <= 3; number++)
        if (met[number][HANJOLUM_STEPS] == 0)
            fail("too few legs: accepted, 1, 2 or 3 is not met");
    for (size_t i = 0; i < sizeof numbers / sizeof numbers[0]; i++) {
        const long *at = met[numbers[i]];
        long late = 0;
        for (int step = 8; step < HANJOLUM_STEPS; step++)
            late += at[step];
        if ((numbers[i] != 10 && numbers[i] != 15 && at[0] == 0) || at[1] == 0 || late == 0)
            fail("too few legs: a number is not met at an early and at a late step");
    }
    if (orders[0] == 0 || orders[1] == 0 || orders[2] == 0)
        fail("too few legs: a condition of 9 is not met");
    if (others == 0 || accepted_before == 0)
        fail("too few legs: no beginning is refused with another number, or none is accepted");
}

static void tell_met(long legs)
{
    printf("legs: %ld drawn, each with sight and without; beginnings refused with another number %ld, accepted %ld\n", legs, others, accepted_before);
    printf("legs by number:");
    for (int number = 0; number < 256; number++) {
        long sum = 0;
        for (int step = 0; step <= HANJOLUM_STEPS; step++)
            sum += met[number][step];
        if (sum > 0)
            printf(" %d: %ld", number, sum);
    }
    printf("\n");
}

static void try_legs(long legs)
{
    for (long i = 0; i < legs; i++) {
        size_t count = draw_leg(1 + below(HANJOLUM_STEPS + 1));
        Lent lent;
        for (uint32_t faults = below(4); faults > 0; faults--)
            spoil(count);
        lent.floor = floor_bytes, lent.steps = step_bytes;
        lent.floor_length = HANJOLUM_FLOOR - (below(100) == 0 ? 100u : 0u);
        lent.sheet_length = HANJOLUM_FLOOR - (below(100) == 0 ? 100u : 0u);
        lent.steps_length = below(60) != 0 ? count * 8 : below(2) != 0 ? 0 : count * 8 - below(8);
        try_leg(&lent);
    }
    tell_met(legs);
    hold_met();
}

int main(int argc, char **argv)
{
    const long legs = argc == 2 ? atol(argv[1]) : 0;
    if (legs < 1)
        fail("usage: check LEGS");
    if (!HANJOLUM_SAME_VERSION())
        fail("the library is not of the header's version");
    try_makers();
    try_masks();
    try_fields(3000);
    try_legs(legs);
    return fflush(stdout) == 0 && ferror(stdout) == 0 ? 0 : 1;
}
