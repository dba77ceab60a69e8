/*
 * Random calls through the C interface, with every lent buffer fenced by pages that no access is allowed to.
 * Lengths go from 0 past every limit, bytes are any or nearly good. A refused call must leave its sheet as it was and
 * answer zeros, and a leg must leave the sectors that it does not name. No step is accepted with a wall under its goal or a
 * window cell. No sector call is accepted with a window and without a previous field, and no other call answers 17. No arrow
 * of an accepted sector call or leg that leads to a cell of the sector passes a wall diagonally. The arrows of a planned
 * leg, followed from every reached cell of a later sector, come into the goal's sector in at most 1,500 moves, as far as
 * there is no cost 0 on the way. A practice floor has costs of 1, 10 and 255, its goal inside and on cost 1, is the same
 * when it is made again, and is planned for its goal. Bounds are accepted of from-to costs and a window alone; no least is
 * above its greatest, walls and window cells have theirs and no mark, and a sure cell is reached; on low, high and a floor
 * between, the sector call builds costs that lie between and meet the bounds, and gives each sure cell one and the same
 * arrow. init leaves every position at 255; of a built field, started or given with any positions, walls, cells in sight and
 * goals have none, lowered cells have one in the list, and building from that corner alone comes to the cell's cost, from an
 * earlier one not; the sector call has the same positions. A line's end is on the edge, and that of a corner and a goal in
 * unequal columns and rows is mirrored where these are, left to right and top to bottom. Window costs are accepted of two to
 * eight windows of one sector alone, and each is the least cost of a cell of the one window in the field that the sector call
 * builds for the other. A tour of the same windows has the same number; of the orders that it says were tried, each is tried
 * once more over the window costs. Arrivals of a sheet, drawn or planned, are told once more from the cells that have arrived
 * back along the arrows; in a sector left by a window, with no cost 0, every reached cell has one. Without sight, the sector
 * call and the leg have the numbers that they have with sight, and a sector left by a window has the same field and bytes; in a
 * sector with a goal each cell has the least cost of a walk from the goal, found once more in rounds, whose number is the wave
 * count, the position and the mark that it must have, and, with no cost 0, arrows that are followed to the goal in at most 99
 * moves, each to a lower cost, as many as arrivals say; the arrows of a planned leg are followed to the goal from every reached
 * cell of every sector, in at most 99 moves in each sector and one across each window. Over a sheet, drawn or planned, a cart's
 * move goes where the floor's columns and rows lead, and its way is that of moves one after the other, or never where they come
 * again to a place; each move that is followed is the one that the call answers, and the way from a reached cell of a leg without
 * sight arrives at the goal. The field of a leg's step has the leg's number, or 21 for a place beyond the list; the first is what
 * is built from the goal, and a later one from the window cells that count behind the field before. A fault, and a run in
 * which no call was accepted or none refused, no leg of several steps planned, none refused with 15, no arrow followed, no
 * diagonal one looked at, init, the sector call, a leg, bounds or window costs never refused with 16, the sector call never
 * with 17, bounds never with 18, window costs never with 19 or 20, no cell sure, no position looked at with and without an
 * earlier corner, no window reached or none cut off from another, no tour found or none with another order than the listed
 * one, no cell that arrives after a move, none that never does or none that has to in a sector left by a window, no window
 * planned without sight, no cell followed to the goal in a sector and in a leg without sight, none of them that never arrives
 * with sight, no move with one of the four outcomes, no way that ends after 1,600 moves or none that never does, no field
 * of a later step, with all cells of its window counting and with some, none refused with 15 or 21, or no practice floor with
 * all three costs, is one line on standard error and exit status 1.
 */
#define _DEFAULT_SOURCE
#include <stdio.h>
#include <stdlib.h>
#include <string.h>
#include <sys/mman.h>
#include <time.h>
#include <unistd.h>
#include "hanjolum.h"

static uint64_t state;

static uint32_t draw(void)
{
    state ^= state << 13;
    state ^= state >> 7;
    state ^= state << 17;
    return (uint32_t)(state >> 16);
}

static uint32_t below(uint32_t n) { return draw() % n; }

static const char USAGE[] = "usage: fuzz [SECONDS] [SEED], whole numbers, SECONDS from 1; without them 10 and 1";

static void fail(const char *what)
{
    fprintf(stderr, "fuzz: %s\n", what);
    exit(1);
}

/* A buffer of at most 16,384 bytes between two pages without access, at the end of its space or at its start. */
typedef struct {
    uint8_t *space;
    uint8_t *at;
    size_t length;
} Fenced;

enum { SPACE = 16384 };

static Fenced fence(void)
{
    size_t page = (size_t)sysconf(_SC_PAGESIZE);
    uint8_t *all = mmap(NULL, SPACE + 2 * page, PROT_READ | PROT_WRITE, MAP_PRIVATE | MAP_ANONYMOUS, -1, 0);
    if (all == MAP_FAILED || mprotect(all, page, PROT_NONE) || mprotect(all + page + SPACE, page, PROT_NONE))
        fail("no memory");
    return (Fenced){all + page, all + page, 0};
}

static void place(Fenced *f, size_t length)
{
    f->length = length;
    f->at = below(2) ? f->space + SPACE - length : f->space;
}

static void fill(Fenced *f)
{
    static const uint8_t costs[] = {0, 1, 1, 1, 2, 10, 200, 254, 255, 255};
    int kind = (int)below(3);
    for (size_t i = 0; i < f->length; i++)
        f->at[i] = kind == 0 ? (uint8_t)draw() : kind == 1 ? costs[below(10)] : (below(4) ? 1 : 255);
}

/* The length asked for, mostly; else one near it, or any up to twice as much. */
static size_t near(size_t length)
{
    uint32_t k = below(8);
    return k > 2 ? length : k == 0 ? below((uint32_t)length * 2 + 2) : length - 1 + below(3);
}

/* A good step, but for one in so many, of which a byte is any. */
static void step(uint8_t *s, int sector, uint8_t mark, uint8_t side, uint32_t spoiled)
{
    static const uint8_t first[] = {0, 9, 90, 0};
    uint8_t a = (uint8_t)below(10), b = (uint8_t)below(10), stride = side % 2 ? 10 : 1;
    uint8_t good[8] = {(uint8_t)sector, (uint8_t)below(100), mark, 0, 0, side, 0, 0};
    good[3] = (uint8_t)(first[side] + stride * (a < b ? a : b));
    good[4] = (uint8_t)(first[side] + stride * (a < b ? b : a));
    memcpy(s, good, 8);
    if (below(spoiled) == 0)
        s[below(8)] = (uint8_t)draw();
}

/* The sector on a side of another, or -1 off the floor. */
static int across(int sector, int side)
{
    static const int columns[] = {0, 1, 0, -1}, rows[] = {-1, 0, 1, 0};
    int column = sector % 8 + columns[side], row = sector / 8 + rows[side];
    return column < 0 || column > 7 || row < 0 || row > 7 ? -1 : 8 * row + column;
}

/* Steps from sector to sector, each left by its window for the one before; where the walk is stuck it stays. */
static void walk(Fenced *f)
{
    uint64_t named = 0;
    int sector = (int)below(64), side = 0;
    for (size_t i = 0; i + 8 <= f->length; i += 8) {
        for (uint32_t k = 0, turn = below(4); i > 0 && k < 4; k++) {
            int next = across(sector, (int)(turn + k) % 4);
            if (next >= 0 && (named >> next & 1) == 0) {
                side = ((int)(turn + k) + 2) % 4;
                sector = next;
                break;
            }
        }
        named |= (uint64_t)1 << sector;
        step(f->at + i, sector, i > 0, (uint8_t)side, 40);
    }
}

static void steps(Fenced *f, int leg)
{
    for (size_t i = 0; i < f->length; i++)
        f->at[i] = (uint8_t)draw();
    if (leg && below(4)) {
        walk(f);
        return;
    }
    for (size_t i = 0; i + 8 <= f->length; i += 8)
        step(f->at + i, (int)below(64), (uint8_t)below(2), (uint8_t)below(4), 4);
}

/* A field given by hand: any words, or most of them 65535 so that walks go far. */
static HanjolumIntegrationField field(void)
{
    HanjolumIntegrationField f;
    int wild = below(4) == 0, far = below(2);
    for (int i = 0; i < 100; i++) {
        f.field[i] = far && below(8) ? HANJOLUM_FIELD_COST : draw() ^ (draw() << 16);
        f.los_corners[i] = wild ? (size_t)draw() << below(40) : below(100);
        f.positions[i] = (uint8_t)draw();
    }
    f.count = wild ? below(300) : below(101);
    return f;
}

static int zeros(const void *part, size_t length)
{
    const uint8_t *bytes = part;
    for (size_t i = 0; i < length; i++)
        if (bytes[i])
            return 0;
    return 1;
}

/* How many calls answered 0, and how many a number; how many legs of several steps were planned, and how many had a window
   in which no cell counts; from how many cells arrows were followed; how many diagonal arrows were looked at; how many of
   init, sector calls, legs, bounds and window costs had a step on a wall; how many sector calls had a window without a
   previous field; how many practice floors had all three costs; how many bounds had no from-to or no window, and how many
   cells were sure; how many positions were looked at, and how many of them beside an earlier corner; how many lists of
   windows had other than two to eight, and how many a step without window or elsewhere; how many windows were reached from
   another, and how many were not; how many tours were found, and how many had another order than the listed one; how many
   cells arrive after a move, how many never do, and how many have to, in a sector left by a window; how many windows were
   planned without sight, from how many cells of a goal's sector arrows were followed to the goal there, how many of these
   never arrive with sight, and from how many cells of a leg. */
static unsigned long accepted, turned_away, planned, closed, followed, diagonal, on_wall[5], fieldless, practised, unranged, sure,
    positioned, earliest;
static unsigned long miscounted, misplaced, ways_met[2], toured, reordered, arriving, lost, led;
static unsigned long alike, home, saved, leg_home;
static unsigned long outcomes[4], long_ways, never_ways, later_fields[2], closed_fields, misplaced_fields;

static void tallied(uint8_t number)
{
    *(number == 0 ? &accepted : &turned_away) += 1;
}

/* The number of a call but the sector call. */
static void counted(uint8_t number)
{
    tallied(number);
    if (number == 17)
        fail("another call than the sector call answers 17");
}

static void refused(uint8_t number, HanjolumIntegrationField f, size_t waves)
{
    if (number != 0 && !(zeros(f.field, sizeof f.field) && zeros(f.los_corners, sizeof f.los_corners) && f.count == 0
                         && zeros(f.positions, sizeof f.positions) && waves == 0))
        fail("a refusal is not zero");
}

/* The position of a cell that has none. */
enum { NO_POSITION = 255 };

/* Flags of cells that have none. */
enum { UNPOSITIONED = HANJOLUM_FIELD_LOS | HANJOLUM_FIELD_GOAL | HANJOLUM_FIELD_IMPASSABLE };

/* What a cell comes to if the field is built from one of its corners alone; one more than any cost if no walk arrives. */
static uint32_t alone(const uint8_t *costs, HanjolumIntegrationField given, size_t place, size_t cell)
{
    size_t corner = given.los_corners[place];
    given.los_corners[0] = corner;
    given.count = 1;
    HanjolumBuildAnswer b = hanjolum_build(costs, 100, given);
    uint32_t was = given.field[cell] & HANJOLUM_FIELD_COST, is = b.field.field[cell] & HANJOLUM_FIELD_COST;
    if (b.number != 0)
        fail("a field is refused with one of its corners");
    return is < was || cell == corner ? is : HANJOLUM_FIELD_COST + 1;
}

/* Looks at every position of a field that was built, and at that of one cell by building from corners alone. */
static void positions(const uint8_t *costs, HanjolumIntegrationField given, HanjolumIntegrationField built)
{
    for (int i = 0; i < 100; i++) {
        uint8_t position = built.positions[i];
        int lowered = (built.field[i] & HANJOLUM_FIELD_COST) < (given.field[i] & HANJOLUM_FIELD_COST);
        if ((given.field[i] & UNPOSITIONED) != 0 && position != NO_POSITION)
            fail("a wall, a cell in sight or a goal has a position");
        if ((given.field[i] & UNPOSITIONED) == 0 && lowered && position == NO_POSITION)
            fail("a cell that building lowered has no position");
        if (position != NO_POSITION && position >= given.count)
            fail("a position is not in the list");
    }
    size_t cell = below(100);
    uint8_t position = built.positions[cell];
    uint32_t cost = built.field[cell] & HANJOLUM_FIELD_COST;
    if (position == NO_POSITION)
        return;
    if (alone(costs, given, position, cell) != cost)
        fail("a position's corner has no walk at the built cost");
    positioned += 1;
    if (position > 0 && alone(costs, given, below(position), cell) == cost)
        fail("an earlier corner has a walk at the built cost");
    earliest += position > 0;
}

/* A started field has no positions; built, it has those of the sector call. */
static void started(const uint8_t *costs, HanjolumIntegrationField given, const HanjolumBuildAnswer *sector)
{
    for (int i = 0; i < 100; i++)
        if (given.positions[i] != NO_POSITION)
            fail("a started field has a position");
    HanjolumBuildAnswer b = hanjolum_build(costs, 100, given);
    if (b.number != 0)
        fail("a started field is refused");
    positions(costs, given, b.field);
    if (sector->number == 0 && memcmp(sector->field.positions, b.field.positions, sizeof b.field.positions) != 0)
        fail("the sector call has other positions than init and build");
}

static void line(HanjolumLine l)
{
    if (l.number != 0 && !(zeros(l.cells, sizeof l.cells) && l.count == 0))
        fail("a refused line has cells");
    if (l.count > 10)
        fail("a line has more than ten cells");
}

/* The end of a corner's line, both cells mirrored left to right, or top to bottom, before and after. */
static HanjolumFieldCell end_of(const size_t at[4], bool columns, bool rows)
{
    size_t c = columns ? 9 : 0, r = rows ? 9 : 0;
    HanjolumLineEnd e = hanjolum_line_end(columns ? c - at[0] : at[0], rows ? r - at[1] : at[1], columns ? c - at[2] : at[2],
                                          rows ? r - at[3] : at[3]);
    if (e.number != 0)
        fail("a line end of two cells is refused");
    if (e.cell.column > 9 || e.cell.row > 9 || (e.cell.column % 9 != 0 && e.cell.row % 9 != 0))
        fail("a line ends off the edge");
    return (HanjolumFieldCell){columns ? c - e.cell.column : e.cell.column, rows ? r - e.cell.row : e.cell.row};
}

/* Ends of a slanted pair and of its mirror images. */
static void mirrored(void)
{
    size_t at[4] = {below(10), below(10), below(10), below(10)};
    HanjolumFieldCell e = end_of(at, false, false), turned[2] = {end_of(at, true, false), end_of(at, false, true)};
    for (int k = 0; k < 2; k++)
        if (at[0] != at[2] && at[1] != at[3] && (e.column != turned[k].column || e.row != turned[k].row))
            fail("a mirrored pair does not end mirrored");
}

/* A wall under the goal or a window cell of the step at a place, as far as there are costs, or NULL. The costs of a leg's
   step begin where its sector stands. */
static uint8_t *wall_under(const Fenced *costs, const Fenced *route, size_t at, int leg)
{
    const uint8_t *s = route->at + at;
    size_t first = s[2] ? s[3] : s[1], last = s[2] ? s[4] : s[1], own = leg ? 100 * (size_t)s[0] : 0;
    for (size_t cell = first; cell <= last && own + cell < costs->length; cell += s[2] && s[5] % 2 ? 10 : 1)
        if (costs->at[own + cell] == HANJOLUM_WALL)
            return costs->at + own + cell;
    return NULL;
}

/* Makes the walls under the steps of a leg floor. */
static void open_steps(const Fenced *costs, const Fenced *route)
{
    uint8_t *wall;
    for (size_t i = 0; i + 8 <= route->length; i += 8)
        while ((wall = wall_under(costs, route, i, 1)) != NULL)
            *wall = 1;
}

/* Looks at 16, which init (0), a sector call (1), a leg (2), bounds (3) and window costs (4) have: the steps of an accepted
   call stand on no wall. */
static void walls(int call, uint8_t number, const Fenced *costs, const Fenced *route)
{
    on_wall[call] += number == 16;
    for (size_t i = 0; number == 0 && i < route->length; i += 8)
        if (wall_under(costs, route, i, call == 2) != NULL)
            fail("a step on a wall is accepted");
}

/* Looks at 17, which a sector call has: a window comes with a previous field, and a goal needs none. */
static void fields(uint8_t number, bool has, const Fenced *route)
{
    fieldless += number == 17;
    if (number == 0 && !has && route->at[2] == 1)
        fail("a window without previous field is accepted");
    if (number == 17 && (has || route->at[2] != 1))
        fail("17 is answered to a goal, or where a previous field is lent");
}

static uint8_t before[SPACE];

static void unwritten(uint8_t number, const Fenced *sheet)
{
    if (number != 0 && memcmp(before, sheet->at, sheet->length) != 0)
        fail("a refusal wrote");
}

static void kept(uint8_t number, const Fenced *sheet)
{
    counted(number);
    unwritten(number, sheet);
}

/* A leg's file: steps written to a buffer of any length and read back, then the file with a byte spoiled read again. */
static void file_calls(Fenced *route, Fenced *file)
{
    place(route, near(8 * (1 + below(17))));
    steps(route, 0);
    place(file, near(HANJOLUM_FILE_HEAD + route->length));
    fill(file);
    memcpy(before, file->at, file->length);
    uint8_t number = hanjolum_leg_file_write(route->at, route->length, file->at, file->length);
    kept(number, file);
    HanjolumLegFile read = hanjolum_leg_file_read(file->at, file->length);
    if (number == 0 && (read.number != 0 || read.length != route->length || memcmp(file->at + read.start, route->at, read.length) != 0))
        fail("a file is not read back the same");
    if (file->length != 0)
        file->at[below((uint32_t)file->length)] = (uint8_t)draw();
    counted(read.number);
    read = hanjolum_leg_file_read(file->at, file->length);
    counted(read.number);
    if (read.number != 0 ? read.start != 0 || read.length != 0 : read.start + read.length != file->length)
        fail("the steps of a file are not where they must be");
}

/* Where a column and a row of the floor, of 80 each, have their byte in a floor and in a sheet. */
static int byte_of(int column, int row)
{
    return 100 * (row / 10 * 8 + column / 10) + row % 10 * 10 + column % 10;
}

/* A planned leg, and where a cart stands on it: a column and a row in the sector of step k, from 0. */
typedef struct {
    const Fenced *costs, *route, *sheet;
    size_t k;
    int column, row;
} Cart;

/* Moves a cart by its arrow, as the call for a move does. A byte with all of 0xE0 is a cell that is not reached. */
static void drive(Cart *cart)
{
    int from = byte_of(cart->column, cart->row);
    HanjolumMove move = hanjolum_move(cart->sheet->at, cart->sheet->length, (uint8_t)(from / 100), (uint8_t)(from % 100));
    uint8_t byte = cart->sheet->at[from];
    if ((byte & 0xE0) == 0xE0 || (byte & 0x0F) == 0)
        fail("an arrow leads to a cell that is not reached, or to one without an arrow");
    cart->column += (byte >> 1 & 1) - (byte >> 3 & 1);
    cart->row += (byte >> 2 & 1) - (byte & 1);
    if (cart->column < 0 || cart->column > 79 || cart->row < 0 || cart->row > 79
        || cart->costs->at[byte_of(cart->column, cart->row)] == HANJOLUM_WALL)
        fail("an arrow leads off the floor or into a wall");
    if (move.number != 0 || move.outcome != HANJOLUM_OUTCOME_MOVED || 100 * move.sector + move.cell != byte_of(cart->column, cart->row))
        fail("a move goes elsewhere than the arrow that is followed");
    int sector = byte_of(cart->column, cart->row) / 100;
    if (cart->k > 0 && sector == cart->route->at[8 * (cart->k - 1)])
        cart->k--;
    else if (sector != cart->route->at[8 * cart->k])
        fail("an arrow crosses into another sector than the one listed before");
}

/* Follows arrows into the sector of step 0. */
static void follow_in(Cart cart)
{
    for (int moves = 0; cart.k > 0; moves++) {
        if (moves == 1500)
            fail("arrows do not come into the goal's sector in 1,500 moves");
        drive(&cart);
    }
    followed++;
}

/* Follows arrows to the goal, in at most 99 moves in each sector and one across each window. */
static void follow_home(Cart cart)
{
    int goal = 100 * cart.route->at[0] + cart.route->at[1], from = byte_of(cart.column, cart.row);
    HanjolumWay way = hanjolum_way(cart.sheet->at, cart.sheet->length, (uint8_t)(from / 100), (uint8_t)(from % 100));
    size_t moves = 0;
    for (size_t left = 99 * (cart.k + 1) + cart.k; byte_of(cart.column, cart.row) != goal; left--, moves++) {
        if (left == 0)
            fail("arrows of a leg without sight do not come to the goal in 99 moves in each sector and one across each window");
        drive(&cart);
    }
    if (way.outcome != HANJOLUM_OUTCOME_ARRIVED || 100 * way.sector + way.cell != goal || way.moves != moves)
        fail("a way over a leg without sight does not arrive at the goal");
    leg_home++;
}

/* Follows the arrows of a planned leg from every reached cell from the sector of step `first` on, as far as there is no cost 0. */
static void journeys(const Fenced *costs, const Fenced *route, const Fenced *sheet, size_t first, void (*follow)(Cart))
{
    for (size_t k = first; 8 * k < route->length; k++) {
        int sector = route->at[8 * k];
        if (memchr(costs->at + 100 * sector, 0, 100) != NULL)
            return;
        for (int cell = 0; cell < 100; cell++)
            if ((sheet->at[100 * sector + cell] & 0xE0) != 0xE0)
                follow((Cart){costs, route, sheet, k, sector % 8 * 10 + cell % 10, sector / 8 * 10 + cell / 10});
    }
}

/* Looks at the arrows of a sector that lead diagonally to a cell of it: neither cell beside the move is a wall. */
static void clear(const uint8_t *costs, const uint8_t *sheet)
{
    for (int cell = 0; cell < 100; cell++) {
        int column = cell % 10 + (sheet[cell] >> 1 & 1) - (sheet[cell] >> 3 & 1);
        int row = cell / 10 + (sheet[cell] >> 2 & 1) - (sheet[cell] & 1);
        if (column == cell % 10 || row == cell / 10 || column < 0 || column > 9 || row < 0 || row > 9)
            continue;
        diagonal++;
        if (costs[cell / 10 * 10 + column] == HANJOLUM_WALL || costs[10 * row + cell % 10] == HANJOLUM_WALL)
            fail("an arrow passes a wall diagonally");
    }
}

/* Looks at the sheet of a planned leg, which leaves the sectors that it does not name. */
static void sectors_of(const Fenced *costs, const Fenced *route, const Fenced *sheet)
{
    uint64_t named = 0;
    for (size_t i = 0; i < route->length; i += 8) {
        named |= (uint64_t)1 << route->at[i];
        clear(costs->at + 100 * route->at[i], sheet->at + 100 * route->at[i]);
    }
    for (size_t i = 0; i < sheet->length; i++)
        if ((named >> i / 100 & 1) == 0 && before[i] != sheet->at[i])
            fail("a leg wrote a sector that it does not name");
}

/* Where a byte of a floor's sheet leads: the place's byte, or -1 for none. */
static int led_to(uint8_t byte, int from)
{
    int north = byte & 1, east = byte >> 1 & 1, south = byte >> 2 & 1, west = byte >> 3 & 1;
    int column = from / 100 % 8 * 10 + from % 10 + east - west, row = from / 800 * 10 + from % 100 / 10 + south - north;
    if ((byte & 15) == 0 || (north && south) || (east && west))
        return -1;
    return column < 0 || column > 79 || row < 0 || row > 79 ? -1 : byte_of(column, row);
}

/* What a byte that leads nowhere is answered with. */
static uint8_t still(uint8_t byte)
{
    return hanjolum_is_goal(byte)             ? HANJOLUM_OUTCOME_ARRIVED
           : hanjolum_has_line_of_sight(byte) ? HANJOLUM_OUTCOME_IN_SIGHT
                                              : HANJOLUM_OUTCOME_STOPPED;
}

/* The way that moves one after the other make from a place of a sheet of 6,400 bytes. */
static HanjolumWay told_way(const uint8_t *sheet, int from)
{
    uint8_t passed[HANJOLUM_FLOOR] = {0};
    int at = from, next;
    uint16_t moves = 0;
    for (; (next = led_to(sheet[at], at)) >= 0; at = next, moves++) {
        passed[at] = 1;
        if (passed[next])
            return (HanjolumWay){0, HANJOLUM_OUTCOME_NEVER, (uint8_t)(from / 100), (uint8_t)(from % 100), 0};
    }
    return (HanjolumWay){0, still(sheet[at]), (uint8_t)(at / 100), (uint8_t)(at % 100), moves};
}

/* A cart over a sheet of any length, at any sector and cell. */
static void a_cart(const Fenced *sheet)
{
    uint8_t sector = (uint8_t)(below(8) ? below(64) : 60 + below(196)), cell = (uint8_t)(below(8) ? below(100) : 96 + below(160));
    uint8_t due = sheet->length != HANJOLUM_FLOOR ? 2 : sector > 63 ? 4 : cell > 99 ? 5 : 0;
    HanjolumMove move = hanjolum_move(sheet->at, sheet->length, sector, cell);
    HanjolumWay way = hanjolum_way(sheet->at, sheet->length, sector, cell);
    counted(move.number);
    counted(way.number);
    if (move.number != due || way.number != due)
        fail("a cart's call has another number than its sheet and its place give");
    if (due != 0) {
        if (move.outcome || move.sector || move.cell || way.outcome || way.sector || way.cell || way.moves)
            fail("a refused cart is not zero");
        return;
    }
    int from = 100 * sector + cell, next = led_to(sheet->at[from], from), to = next < 0 ? from : next;
    if (move.outcome != (next < 0 ? still(sheet->at[from]) : HANJOLUM_OUTCOME_MOVED) || 100 * move.sector + move.cell != to)
        fail("a move goes elsewhere than the floor's columns and rows lead");
    HanjolumWay told = told_way(sheet->at, from);
    if (way.outcome != told.outcome || way.sector != told.sector || way.cell != told.cell || way.moves != told.moves)
        fail("a way is not that of moves one after the other");
    outcomes[move.outcome]++;
    long_ways += way.moves >= 1600;
    never_ways += way.outcome == HANJOLUM_OUTCOME_NEVER;
}

/* A sheet of arrows, one direction in each of four parts of the floor, or to and fro over all its rows, with few bytes made any;
   then a cart over it. */
static void a_cart_among_arrows(Fenced *sheet)
{
    static const uint8_t directions[] = {1, 2, 4, 8, 3, 6, 12, 9};
    int column = (int)below(80), row = (int)below(80), to_and_fro = below(4) == 0;
    uint8_t parts[4];
    for (int i = 0; i < 4; i++)
        parts[i] = (uint8_t)(0x10 + directions[below(8)]);
    for (int i = 0; i < HANJOLUM_FLOOR && sheet->length == HANJOLUM_FLOOR; i++) {
        int is_end = i % 80 == (i / 80 % 2 ? 0 : 79);
        uint8_t snake = is_end ? HANJOLUM_FLOW_SOUTH : i / 80 % 2 ? HANJOLUM_FLOW_WEST : HANJOLUM_FLOW_EAST;
        sheet->at[byte_of(i % 80, i / 80)] = to_and_fro ? snake : parts[(i % 80 < column) + 2 * (i / 80 < row)];
    }
    for (int i = (int)below(to_and_fro ? 2 : 8); i > 0 && sheet->length > 0; i--)
        sheet->at[below((uint32_t)sheet->length)] = (uint8_t)draw();
    a_cart(sheet);
}

static int same_built(const HanjolumBuildAnswer *a, const HanjolumBuildAnswer *b)
{
    return a->number == b->number && a->waves == b->waves && a->field.count == b->field.count
           && memcmp(a->field.field, b->field.field, sizeof a->field.field) == 0
           && memcmp(a->field.los_corners, b->field.los_corners, sizeof a->field.los_corners) == 0
           && memcmp(a->field.positions, b->field.positions, sizeof a->field.positions) == 0;
}

/* A sector started by hand from those cells of a step's window that count: some facing cell that it compares is reached in the
   field before. */
static HanjolumIntegrationField started_by_hand(const uint8_t *costs, const uint8_t *step, const uint32_t *facing)
{
    static const int ACROSS[4] = {90, -9, -90, 9};
    HanjolumIntegrationField f = {0};
    int stride = step[5] % 2 ? 10 : 1, across = ACROSS[step[5]];
    for (int i = 0; i < HANJOLUM_CELLS; i++) {
        f.field[i] = costs[i] == HANJOLUM_WALL ? HANJOLUM_FIELD_IMPASSABLE + 65535u : 65535u;
        f.positions[i] = NO_POSITION;
    }
    for (int cell = step[3]; cell <= step[4]; cell += stride) {
        int counts = 0;
        for (int beside = cell - stride; beside <= cell + stride; beside += stride)
            counts |= beside >= step[3] && beside <= step[4] && (facing[beside + across] & HANJOLUM_FIELD_COST) != 65535;
        if (counts) {
            f.field[cell] = HANJOLUM_FIELD_PORTAL;
            f.los_corners[f.count++] = (size_t)cell;
        }
    }
    return f;
}

static HanjolumBuildAnswer field_at(bool sight, const Fenced *costs, const Fenced *route, size_t place)
{
    return sight ? hanjolum_leg_field(costs->at, costs->length, route->at, route->length, place)
                 : hanjolum_leg_field_without_sight(costs->at, costs->length, route->at, route->length, place);
}

/* A goal's sector as init starts it, or without sight started by hand: the goal is the one listed corner. */
static HanjolumIntegrationField started_at_goal(bool sight, const uint8_t *costs, const uint8_t *step)
{
    static const uint32_t unreached[HANJOLUM_CELLS];
    static const uint8_t no_window[8] = {0, 0, 1, 1, 0, 0, 0, 0};   /* from cell 1 to cell 0: none */
    if (sight)
        return hanjolum_init(costs, 100, step, 8).field;
    HanjolumIntegrationField f = started_by_hand(costs, no_window, unreached);
    f.field[step[1]] = HANJOLUM_FIELD_GOAL;
    f.los_corners[f.count++] = step[1];
    return f;
}

/* What the field of a leg's step has to be that is taken. */
static HanjolumBuildAnswer due_field(bool sight, const Fenced *costs, const Fenced *route, size_t place)
{
    const uint8_t *step = route->at + 8 * place, *own = costs->at + 100 * step[0];
    if (place == 0)
        return hanjolum_build(own, 100, started_at_goal(sight, own, step));
    HanjolumBuildAnswer previous = field_at(sight, costs, route, place - 1);
    HanjolumIntegrationField given = started_by_hand(own, step, previous.field.field);
    size_t window = (size_t)(step[4] - step[3]) / (step[5] % 2 ? 10 : 1) + 1;
    later_fields[given.count < window]++;
    return hanjolum_build(own, 100, given);
}

/* The field of a leg's step at a place of the list or beyond it, and of every step where the leg is planned. */
static void leg_fields(bool sight, const Fenced *costs, const Fenced *route)
{
    static uint8_t whole[HANJOLUM_FLOOR];
    size_t steps = route->length / 8, place = below(4) ? below((uint32_t)steps + 1) : (size_t)draw() << below(40);
    uint8_t due = sight ? hanjolum_leg(costs->at, costs->length, route->at, route->length, whole, sizeof whole)
                        : hanjolum_leg_without_sight(costs->at, costs->length, route->at, route->length, whole, sizeof whole);
    bool is_planned = due == 0;
    if (place >= steps && due != 1 && due != 3)
        due = 21;
    HanjolumBuildAnswer a = field_at(sight, costs, route, place);
    counted(a.number);
    refused(a.number, a.field, a.waves);
    if (a.number != due)
        fail("the field of a leg's step has another number than the leg, or than its place gives");
    closed_fields += due == 15;
    misplaced_fields += due == 21;
    for (place = 0; is_planned && place < steps; place++) {
        HanjolumBuildAnswer b = due_field(sight, costs, route, place);
        a = field_at(sight, costs, route, place);
        counted(a.number);
        if (a.number != 0 || !same_built(&a, &b))
            fail("the field of a leg's step is not the one that is built from the window cells that count");
    }
}

/* The leg without sight, on what the leg with sight was lent, and with the number that it had. */
static void a_leg_without_sight(const Fenced *costs, const Fenced *route, Fenced *sheet, uint8_t with)
{
    uint8_t part[HANJOLUM_CELLS] = {0};
    memcpy(sheet->at, before, sheet->length);
    uint8_t number = hanjolum_leg_without_sight(costs->at, costs->length, route->at, route->length, sheet->at, sheet->length);
    kept(number, sheet);
    if (number != with)
        fail("a leg has another number without sight than with it");
    if (number != 0)
        return;
    size_t goal_sector = 100 * (size_t)route->at[0];
    hanjolum_sector_without_sight(costs->at + goal_sector, 100, route->at, 8, false, NULL, 0, part, sizeof part);
    if (memcmp(sheet->at + goal_sector, part, sizeof part) != 0)
        fail("a leg without sight has other bytes in the goal's sector than the sector call");
    sectors_of(costs, route, sheet);
    journeys(costs, route, sheet, 0, follow_home);
}

/* A leg, with sight and without. */
static void a_leg(const Fenced *costs, const Fenced *route, Fenced *sheet)
{
    uint8_t number = hanjolum_leg(costs->at, costs->length, route->at, route->length, sheet->at, sheet->length);
    kept(number, sheet);
    walls(2, number, costs, route);
    closed += number == 15;
    planned += number == 0 && route->length > 8;
    if (number == 0) {
        sectors_of(costs, route, sheet);
        journeys(costs, route, sheet, 1, follow_in);
    }
    a_cart(sheet);
    a_leg_without_sight(costs, route, sheet, number);
    a_cart(sheet);
    a_cart_among_arrows(sheet);
    if (number == 2)
        return;
    leg_fields(true, costs, route);
    leg_fields(false, costs, route);
}

/* A practice floor: every seed is taken, and a step to its goal too. */
static void a_practice_floor(Fenced *sheet)
{
    uint32_t seed = below(8) ? draw() : 0u - below(3);
    HanjolumPracticeFloor floor = hanjolum_practice_floor(seed), again = hanjolum_practice_floor(seed);
    uint8_t step[HANJOLUM_STEP] = {0, floor.goal, 0, 0, 0, 0, 0, 0};
    int ones = 0, tens = 0, walls = 0;
    for (int i = 0; i < HANJOLUM_CELLS; i++) {
        ones += floor.costs[i] == 1;
        tens += floor.costs[i] == 10;
        walls += floor.costs[i] == HANJOLUM_WALL;
    }
    if (ones + tens + walls != HANJOLUM_CELLS)
        fail("a practice floor has another cost than 1, 10 and 255");
    if (floor.goal >= HANJOLUM_CELLS || floor.costs[floor.goal] != 1)
        fail("the goal of a practice floor is not inside, or not on cost 1");
    if (memcmp(floor.costs, again.costs, sizeof floor.costs) != 0 || floor.goal != again.goal)
        fail("a practice floor is another when it is made again");
    practised += ones > 0 && tens > 0 && walls > 0;
    place(sheet, HANJOLUM_CELLS);
    if (hanjolum_sector(floor.costs, HANJOLUM_CELLS, step, HANJOLUM_STEP, false, NULL, 0, sheet->at, sheet->length).number != 0)
        fail("a practice floor is refused for its own goal");
}

/* Two floors of any costs, mostly from-to: the high one at least the low one, with the same walls, and mostly none under the
   step; now and then one cell is spoiled. */
static void two_floors(Fenced *low, Fenced *high, const Fenced *route)
{
    uint8_t *wall;
    place(low, near(100));
    place(high, below(8) ? low->length : near(100));
    fill(low);
    fill(high);
    while (route->length == 8 && below(8) && (wall = wall_under(low, route, 0, 0)) != NULL)
        *wall = 1;
    if (low->length != high->length || low->length == 0 || below(8) == 0)
        return;
    for (size_t i = 0, wide = 1 + below(255); i < low->length; i++)
        high->at[i] = (uint8_t)(low->at[i] + (low->at[i] == HANJOLUM_WALL ? 0 : below(255u - low->at[i]) % wide));
    if (below(4) == 0)
        (below(2) ? low : high)->at[below((uint32_t)low->length)] = below(2) ? HANJOLUM_WALL : (uint8_t)draw();
}

/* Whether some cell of two floors has costs that are no from-to. */
static int no_range(const Fenced *low, const Fenced *high)
{
    for (size_t i = 0; i < 100; i++)
        if (low->at[i] > high->at[i] || (low->at[i] == HANJOLUM_WALL) != (high->at[i] == HANJOLUM_WALL))
            return 1;
    return 0;
}

/* The cost of a wall, and of a cell that nothing reaches. */
enum { UNREACHED = 65535 };

/* Looks at each cell of accepted bounds. */
static void ranges(const HanjolumBounds *b, const Fenced *low)
{
    for (int i = 0; i < 100; i++) {
        if (b->least[i] > b->greatest[i] || b->greatest[i] > UNREACHED)
            fail("a least cost is above the greatest, or one is above 65535");
        if ((b->least[i] == UNREACHED) != (b->greatest[i] == UNREACHED))
            fail("a cell is reached by one of its bounds alone");
        if (low->at[i] == HANJOLUM_WALL && (b->least[i] != UNREACHED || b->sure[i]))
            fail("a wall has a cost or a mark");
        if (b->sure[i] && b->greatest[i] == UNREACHED)
            fail("a cell that is not reached is sure");
        sure += b->sure[i];
    }
}

/* Plans a floor between with a previous field of any numbers: the costs lie between the bounds, are those that low or high
   have to meet, and each sure cell has the arrow that it had before, 0 before the first floor. */
static void a_floor_between(const HanjolumBounds *b, const uint8_t *costs, const uint32_t *met, const Fenced *route, uint8_t *arrows)
{
    uint32_t previous[100];
    uint8_t sheet[100] = {0};
    for (int i = 0; i < 100; i++)
        previous[i] = draw();
    HanjolumBuildAnswer a = hanjolum_sector(costs, 100, route->at, 8, true, previous, 100, sheet, 100);
    if (a.number != 0)
        fail("a floor between is refused");
    for (int i = 0; i < 100; i++) {
        uint32_t cost = a.field.field[i] & HANJOLUM_FIELD_COST;
        uint8_t arrow = sheet[i] & 0x0F;
        if (cost < b->least[i] || cost > b->greatest[i])
            fail("a floor between has a cost that is out of bounds");
        if (met != NULL && cost != met[i])
            fail("a bound is not met by its floor");
        if ((a.field.field[i] & HANJOLUM_FIELD_PORTAL) != 0 && (b->greatest[i] != 0 || b->sure[i]))
            fail("a window cell has a cost or a mark");
        if (b->sure[i] && (arrow == 0 || (arrows[i] != 0 && arrows[i] != arrow)))
            fail("a sure cell has no arrow, or another on a floor between");
        arrows[i] = arrow;
    }
}

/* Bounds of two floors. */
static void bounds(Fenced *low, Fenced *high, Fenced *route)
{
    uint8_t between[100], arrows[100] = {0};
    place(route, near(8));
    steps(route, 0);
    two_floors(low, high, route);
    HanjolumBounds b = hanjolum_bounds(low->at, low->length, high->at, high->length, route->at, route->length);
    counted(b.number);
    walls(3, b.number, low, route);
    unranged += b.number == 18;
    if (b.number != 0) {
        if (!(zeros(b.least, sizeof b.least) && zeros(b.greatest, sizeof b.greatest) && zeros(b.sure, sizeof b.sure)))
            fail("refused bounds are not zero");
        if (b.number == 18 && route->at[2] == 1 && !no_range(low, high))
            fail("18 is answered to from-to costs and a window");
        return;
    }
    if (route->at[2] != 1 || no_range(low, high))
        fail("costs that are no from-to, or a goal, are accepted");
    if (wall_under(high, route, 0, 0) != NULL)
        fail("a step on a wall of the high floor is accepted");
    ranges(&b, low);
    for (int i = 0; i < 100; i++)
        between[i] = (uint8_t)(low->at[i] + below(high->at[i] - low->at[i] + 1u));
    a_floor_between(&b, low->at, b.least, route, arrows);
    a_floor_between(&b, high->at, b.greatest, route, arrows);
    a_floor_between(&b, between, NULL, route, arrows);
}

/* Windows of one sector, mostly two to eight, and costs with mostly no wall under them; now and then one of the steps is
   without window, in another sector, or spoiled. */
static void windows(Fenced *costs, Fenced *route)
{
    uint8_t *wall;
    int sector = (int)below(64);
    place(costs, near(100));
    fill(costs);
    place(route, below(8) ? 8 * (2 + below(7)) : below(8) ? near(8 * (1 + below(17))) : 0);
    for (size_t i = 0; i < route->length; i++)
        route->at[i] = (uint8_t)draw();
    for (size_t i = 0; i + 8 <= route->length; i += 8) {
        step(route->at + i, below(40) ? sector : (int)below(64), below(40) != 0, (uint8_t)below(4), 40);
        while (below(64) && (wall = wall_under(costs, route, i, 0)) != NULL)
            *wall = 1;
    }
}

/* Whether some step has no window, or is in another sector than the first. */
static int elsewhere(const Fenced *route)
{
    for (size_t i = 0; i < route->length; i += 8)
        if (route->at[i + 2] != 1 || route->at[i] != route->at[0])
            return 1;
    return 0;
}

/* The least cost of a window's cells in a built field. */
static uint32_t least_of(const HanjolumIntegrationField *built, const uint8_t *s)
{
    uint32_t least = UNREACHED;
    for (int cell = s[3]; cell <= s[4]; cell += s[5] % 2 ? 10 : 1)
        if ((built->field[cell] & HANJOLUM_FIELD_COST) < least)
            least = built->field[cell] & HANJOLUM_FIELD_COST;
    return least;
}

/* Looks at each of accepted window costs, building for one window after the other. */
static void ways(const HanjolumWindowCosts *w, const Fenced *costs, const Fenced *route)
{
    static const uint32_t none[100];
    uint8_t sheet[100];
    size_t listed = route->length / 8;
    for (size_t j = 0; j < HANJOLUM_WINDOWS; j++) {
        HanjolumBuildAnswer a = {0};
        if (j < listed)
            a = hanjolum_sector(costs->at, 100, route->at + 8 * j, 8, true, none, 100, sheet, 100);
        for (size_t i = 0; i < HANJOLUM_WINDOWS; i++) {
            int used = i < listed && j < listed;
            uint32_t cost = w->rows[i].costs[j], due = used ? least_of(&a.field, route->at + 8 * i) : UNREACHED;
            if (cost != due)
                fail("a cost from window to window is not the least that is built, or an unused one is not 65535");
            ways_met[cost == UNREACHED] += used && i != j;
        }
    }
}

static void swap(uint8_t *one, uint8_t *other)
{
    uint8_t held = *one;
    *one = *other;
    *other = held;
}

/* Makes an order of windows the next one in the dictionary, the first window staying; 0 where there is none. */
static int next_order(uint8_t *order, int listed)
{
    int at = listed - 2, other = listed - 1;
    while (at > 0 && order[at] > order[at + 1])
        at--;
    if (at < 1)
        return 0;
    while (order[other] < order[at])
        other--;
    swap(order + at, order + other);
    for (int low = at + 1, high = listed - 1; low < high; low++, high--)
        swap(order + low, order + high);
    return 1;
}

/* What an order comes to, or UINT32_MAX where it uses a 65535. */
static uint32_t order_sum(const HanjolumWindowCosts *w, const uint8_t *order, int listed)
{
    uint32_t sum = 0;
    for (int i = 1; i < listed; i++) {
        uint32_t cost = w->rows[order[i - 1]].costs[order[i]];
        if (cost == UNREACHED)
            return UINT32_MAX;
        sum += cost;
    }
    return sum;
}

/* Tries the orders of an accepted tour once more, as many as the limit allows. */
static void orders(const HanjolumWindowTour *t, const HanjolumWindowCosts *w, int listed, uint16_t limit)
{
    uint8_t order[HANJOLUM_WINDOWS] = {0}, best[HANJOLUM_WINDOWS] = {0};
    uint32_t tried = 0, least = UINT32_MAX;
    int more = 1;
    for (int i = 0; i < listed; i++)
        order[i] = (uint8_t)i;
    for (; more && tried < limit; more = next_order(order, listed)) {
        uint32_t sum = order_sum(w, order, listed);
        tried++;
        if (sum < least) {
            memcpy(best, order, sizeof best);
            least = sum;
        }
    }
    if (t->tried != tried)
        fail("a tour tried more or fewer orders than the limit allows");
    if (t->found != (least != UINT32_MAX) || t->sum != (t->found ? least : 0) || memcmp(t->order, best, sizeof best) != 0)
        fail("a tour is not the best of the orders tried, or not the first of them");
    for (int i = 0; i < listed; i++)
        order[i] = (uint8_t)i;
    toured += t->found;
    reordered += t->found && memcmp(t->order, order, sizeof order) != 0;
}

/* The sum of the cheapest entries into the windows but the first, each from another. */
static uint32_t entries(const HanjolumWindowCosts *w, int listed)
{
    uint32_t sum = 0;
    for (int b = 1; b < listed; b++) {
        uint32_t least = UNREACHED;
        for (int a = 0; a < listed; a++)
            if (a != b && w->rows[a].costs[b] < least)
                least = w->rows[a].costs[b];
        sum += least;
    }
    return sum;
}

/* A tour of the windows whose costs are these. */
static void a_tour(const HanjolumWindowCosts *w, const Fenced *costs, const Fenced *route)
{
    static const uint16_t limits[] = {0, 1, 2, 5, 6, 23, 24, 119, 120, 719, 720, 5039, 5040, 5041, 65535};
    uint16_t limit = below(2) ? limits[below(15)] : (uint16_t)below(below(2) ? 30 : 65536);
    int listed = (int)(route->length / 8);
    HanjolumWindowTour t = hanjolum_window_tour(costs->at, costs->length, route->at, route->length, limit);
    counted(t.number);
    if (t.number != w->number)
        fail("a tour has another number than its window costs");
    if (t.number != 0) {
        if (t.found || !zeros(t.order, sizeof t.order) || t.sum != 0 || t.tried != 0 || t.least != 0)
            fail("a refused tour is not zero");
        return;
    }
    orders(&t, w, listed, limit);
    if (t.least != entries(w, listed) || (t.found && t.sum < t.least))
        fail("the least figure is not that of the cheapest entries, or a sum goes under it");
}

/* Costs from window to window, and a tour. */
static void window_costs(Fenced *costs, Fenced *route)
{
    windows(costs, route);
    HanjolumWindowCosts w = hanjolum_window_costs(costs->at, costs->length, route->at, route->length);
    int few = route->length < 16 || route->length > 64;
    counted(w.number);
    walls(4, w.number, costs, route);
    miscounted += w.number == 19;
    misplaced += w.number == 20;
    if (w.number != 0 && !zeros(w.rows, sizeof w.rows))
        fail("refused window costs are not zero");
    if (w.number == 3 && route->length % 8 == 0)
        fail("3 is answered to whole steps");
    if (w.number == 19 ? !few || route->length % 8 != 0 : w.number != 1 && w.number != 3 && few)
        fail("19 is answered to two to eight windows, or another number to others");
    if (w.number == 20 && !elsewhere(route))
        fail("20 is answered to windows of one sector");
    if (w.number == 0 && elsewhere(route))
        fail("a step without window, or in another sector, is accepted");
    if (w.number == 0)
        ways(&w, costs, route);
    a_tour(&w, costs, route);
}

/* The cell of the sector that a byte points at from a cell, or -1. */
static int pointed_at(uint8_t byte, int cell)
{
    int north = byte & 1, east = byte >> 1 & 1, south = byte >> 2 & 1, west = byte >> 3 & 1;
    int row = cell / 10 + south - north, column = cell % 10 + east - west;
    if ((byte & 15) == 0 || (north && south) || (east && west))
        return -1;
    return row < 0 || row > 9 || column < 0 || column > 9 ? -1 : row * 10 + column;
}

/* What arrivals of a sheet have to be: round after round, the cells that point at one of the round before. */
static void told_back(const uint8_t *sheet, uint8_t *told)
{
    memset(told, HANJOLUM_NEVER, HANJOLUM_CELLS);
    for (int cell = 0; cell < HANJOLUM_CELLS; cell++)
        if (hanjolum_is_goal(sheet[cell]) || hanjolum_has_line_of_sight(sheet[cell]) || hanjolum_is_portal_goal(sheet[cell]))
            told[cell] = 0;
    for (int moves = 1; moves < HANJOLUM_NEVER; moves++)
        for (int cell = 0; cell < HANJOLUM_CELLS; cell++) {
            int next = pointed_at(sheet[cell], cell);
            if (told[cell] == HANJOLUM_NEVER && next >= 0 && told[next] == moves - 1)
                told[cell] = (uint8_t)moves;
        }
}

/* Arrivals of a sheet. */
static HanjolumArrivals arrivals(const Fenced *sheet)
{
    uint8_t told[HANJOLUM_CELLS];
    HanjolumArrivals a = hanjolum_arrivals(sheet->at, sheet->length);
    counted(a.number);
    if (a.number != (sheet->length == HANJOLUM_CELLS ? 0 : 2))
        fail("arrivals of a sheet have another number than its length gives");
    if (a.number != 0) {
        if (!zeros(a.moves, sizeof a.moves))
            fail("refused arrivals are not zero");
        return a;
    }
    told_back(sheet->at, told);
    if (memcmp(a.moves, told, sizeof told) != 0)
        fail("arrivals are not those that the arrows have, told back from where they arrive");
    for (int cell = 0; cell < HANJOLUM_CELLS; cell++) {
        arriving += told[cell] != 0 && told[cell] != HANJOLUM_NEVER;
        lost += told[cell] == HANJOLUM_NEVER;
    }
    return a;
}

/* In a sector left by a window, with no cost 0, every reached cell arrives. */
static void all_arrive(const Fenced *costs, const Fenced *route, const HanjolumBuildAnswer *built, const HanjolumArrivals *a)
{
    if (route->at[2] != 1 || memchr(costs->at, 0, costs->length) != NULL)
        return;
    for (int cell = 0; cell < HANJOLUM_CELLS; cell++) {
        if ((built->field.field[cell] & HANJOLUM_FIELD_COST) == UNREACHED)
            continue;
        if (a->moves[cell] == HANJOLUM_NEVER)
            fail("a reached cell of a sector left by a window never arrives");
        led += 1;
    }
}

/* The least cost of a walk from a goal to each cell, found in rounds: in each, a cell takes the least that a neighbour had in
   the round before, and its own cost on top, where that is less. Answers how many rounds changed a cell. */
static size_t walked(const uint8_t *costs, size_t goal, uint32_t *least)
{
    uint32_t had[HANJOLUM_CELLS];
    size_t rounds = 0;
    for (size_t cell = 0; cell < HANJOLUM_CELLS; cell++)
        least[cell] = cell == goal ? 0 : UNREACHED;
    for (size_t changed = 1; changed; rounds += changed) {
        changed = 0;
        memcpy(had, least, sizeof had);
        for (int cell = 0; cell < HANJOLUM_CELLS; cell++)
            for (int side = 0; side < 4 && costs[cell] != HANJOLUM_WALL; side++) {
                int from = pointed_at((uint8_t)(1 << side), cell);
                if (from >= 0 && had[from] + costs[cell] < least[cell]) {
                    least[cell] = had[from] + costs[cell];
                    changed = 1;
                }
            }
    }
    return rounds;
}

/* Looks at a cell of a goal's sector that was planned without sight: its word, its position and its byte. */
static void a_cell_alone(const HanjolumBuildAnswer *a, const uint8_t *sheet, const uint32_t *least, int cell, int wall, int goal)
{
    uint32_t flag = wall ? HANJOLUM_FIELD_IMPASSABLE : goal ? HANJOLUM_FIELD_GOAL : 0;
    int reached = least[cell] != UNREACHED;
    if (a->field.field[cell] != (least[cell] | flag))
        fail("without sight a cell has another cost than the least of a walk from the goal, or another flag");
    if (a->field.positions[cell] != (reached && !goal ? 0 : NO_POSITION))
        fail("without sight a position is not 0 in a reached cell but the goal, or not 255 elsewhere");
    if (goal ? sheet[cell] != 0x70 : reached ? sheet[cell] / 16 != 1 || pointed_at(sheet[cell], cell) < 0 : sheet[cell] != 0xE0)
        fail("without sight a reached cell has no arrow, the goal is not 0x70, or another cell is not 0xE0");
}

/* How many moves the arrows of a sector take from a cell to the goal, each to a cell of lower cost. */
static int moves_home(const uint8_t *sheet, const uint32_t *least, int cell, int goal)
{
    int moves = 0;
    for (; cell != goal; moves++) {
        int next = pointed_at(sheet[cell], cell);
        if (moves == 99 || next < 0 || least[next] >= least[cell])
            fail("without sight arrows do not lead to lower and lower costs, to the goal in 99 moves");
        cell = next;
    }
    return moves;
}

/* Looks at a goal's sector that was planned without sight; `sighted` are the arrivals of the same sector with sight. */
static void a_goal_alone(const uint8_t *costs, int goal, const HanjolumBuildAnswer *a, const uint8_t *sheet, const HanjolumArrivals *sighted)
{
    uint32_t least[HANJOLUM_CELLS];
    int no_zero = memchr(costs, 0, HANJOLUM_CELLS) == NULL;
    HanjolumArrivals told = hanjolum_arrivals(sheet, HANJOLUM_CELLS);
    if (a->waves != walked(costs, (size_t)goal, least))
        fail("without sight the waves are not as many as the rounds of walks from the goal");
    if (a->field.count != 1 || a->field.los_corners[0] != (size_t)goal
        || !zeros(a->field.los_corners + 1, sizeof a->field.los_corners - sizeof *a->field.los_corners))
        fail("without sight the goal is not the one listed corner");
    for (int cell = 0; cell < HANJOLUM_CELLS; cell++) {
        a_cell_alone(a, sheet, least, cell, costs[cell] == HANJOLUM_WALL, cell == goal);
        if (!no_zero || least[cell] == UNREACHED)
            continue;
        if (told.moves[cell] != moves_home(sheet, least, cell, goal))
            fail("without sight arrivals are not the moves to the goal");
        home += 1;
        saved += sighted->moves[cell] == HANJOLUM_NEVER;
    }
}

/* The sector call without sight, on what the call with sight was lent; `sighted` are the arrivals of what that call wrote. */
static void without_sight(const Fenced *costs, const Fenced *route, const Fenced *previous, bool has, Fenced *sheet,
                          const HanjolumBuildAnswer *with, const HanjolumArrivals *sighted)
{
    static uint8_t written[SPACE];
    memcpy(written, sheet->at, sheet->length);
    memcpy(sheet->at, before, sheet->length);
    HanjolumBuildAnswer a = hanjolum_sector_without_sight(costs->at, costs->length, route->at, route->length, has,
                                                          (const uint32_t *)(const void *)previous->at, previous->length / 4,
                                                          sheet->at, sheet->length);
    tallied(a.number);
    unwritten(a.number, sheet);
    refused(a.number, a.field, a.waves);
    if (a.number != with->number)
        fail("the sector call has another number without sight than with it");
    if (a.number != 0)
        return;
    clear(costs->at, sheet->at);
    if (route->at[2] == 0) {
        a_goal_alone(costs->at, route->at[1], &a, sheet->at, sighted);
        return;
    }
    if (!same_built(&a, with) || memcmp(sheet->at, written, HANJOLUM_CELLS) != 0)
        fail("a window is planned otherwise without sight than with it");
    alike += 1;
}

/* One call of each kind that writes a sheet, and one of each that does not. */
static void round_of_calls(Fenced *costs, Fenced *route, Fenced *previous, Fenced *sheet)
{
    file_calls(route, sheet);
    a_practice_floor(sheet);
    bounds(costs, previous, route);
    window_costs(costs, route);
    int leg = below(4) == 0;
    place(costs, near(leg ? 6400 : 100));
    place(route, near(leg ? 8 * (1 + below(17)) : 8));
    place(previous, 4 * near(100));
    place(sheet, near(leg ? 6400 : 100));
    fill(costs);
    steps(route, leg);
    if (leg && below(2))
        open_steps(costs, route);
    fill(previous);
    fill(sheet);
    memcpy(before, sheet->at, sheet->length);
    const uint32_t *numbers = (const uint32_t *)(const void *)previous->at;
    size_t count = previous->length / 4;
    if (leg) {
        a_leg(costs, route, sheet);
        return;
    }
    bool has = below(2);
    HanjolumBuildAnswer a = hanjolum_sector(costs->at, costs->length, route->at, route->length, has, numbers, count, sheet->at, sheet->length);
    tallied(a.number);
    unwritten(a.number, sheet);
    fields(a.number, has, route);
    walls(1, a.number, costs, route);
    refused(a.number, a.field, a.waves);
    HanjolumArrivals arrived = arrivals(sheet);
    if (a.number == 0) {
        clear(costs->at, sheet->at);
        all_arrive(costs, route, &a, &arrived);
    }
    without_sight(costs, route, previous, has, sheet, &a, &arrived);
    HanjolumInitAnswer i = hanjolum_init(costs->at, costs->length, route->at, route->length);
    counted(i.number);
    walls(0, i.number, costs, route);
    refused(i.number, i.field, 0);
    if (i.number == 0)
        started(costs->at, i.field, &a);
    HanjolumIntegrationField by_hand = field();
    HanjolumBuildAnswer b = hanjolum_build(costs->at, costs->length, by_hand);
    counted(b.number);
    refused(b.number, b.field, b.waves);
    if (b.number == 0)
        positions(costs->at, by_hand, b.field);
    memcpy(before, sheet->at, sheet->length);
    kept(hanjolum_flow_new(route->at, route->length, field(), has, numbers, count, sheet->at, sheet->length), sheet);
    memcpy(before, sheet->at, sheet->length);
    kept(hanjolum_flow_build(field(), sheet->at, sheet->length), sheet);
    line(hanjolum_line(below(12), below(12), below(12), (size_t)draw() << below(40)));
    line(hanjolum_walk_bresenham_shallow(below(12), below(12), (size_t)draw() << below(40), below(12)));
    line(hanjolum_walk_bresenham_steep(below(12), (size_t)draw() << below(40), below(12), below(12)));
    hanjolum_line_end(below(12), below(12), (size_t)draw() << below(40), below(12));
    mirrored();
}

/* A whole number of at most 18 digits, so that no seed makes the state 0, which would stay 0. */
static unsigned long long number_of(const char *word)
{
    size_t digits = strspn(word, "0123456789");
    if (digits == 0 || digits > 18 || word[digits] != '\0')
        fail(USAGE);
    return strtoull(word, NULL, 10);
}

static void written(void)
{
    if (fflush(stdout) != 0)
        fail("standard output cannot be written");
}

static void help(void)
{
    puts(USAGE);
    written();
    exit(0);
}

static void report(unsigned long rounds)
{
    if (accepted == 0 || turned_away == 0)
        fail("no call was accepted, or none was refused");
    if (planned == 0 || closed == 0)
        fail("no leg of several steps was planned, or none was refused with 15");
    if (followed == 0)
        fail("no arrow of a leg was followed");
    if (diagonal == 0)
        fail("no diagonal arrow was looked at");
    if (on_wall[0] == 0 || on_wall[1] == 0 || on_wall[2] == 0 || on_wall[3] == 0 || on_wall[4] == 0)
        fail("init, the sector call, a leg, bounds or window costs were never refused with 16");
    if (fieldless == 0)
        fail("the sector call was never refused with 17");
    if (practised == 0)
        fail("no practice floor had all three costs");
    if (unranged == 0 || sure == 0)
        fail("bounds were never refused with 18, or no cell was sure");
    if (positioned == 0 || earliest == 0)
        fail("no position was looked at, or none beside an earlier corner");
    if (miscounted == 0 || misplaced == 0)
        fail("window costs were never refused with 19, or never with 20");
    if (ways_met[0] == 0 || ways_met[1] == 0)
        fail("no window was reached from another, or none was cut off from one");
    if (toured == 0 || reordered == 0)
        fail("no tour was found, or none with another order than the listed one");
    if (arriving == 0 || lost == 0 || led == 0)
        fail("no cell arrives after a move, none never does, or none was looked at in a sector left by a window");
    if (alike == 0 || home == 0 || saved == 0 || leg_home == 0)
        fail("without sight no window was planned, no arrow was followed to the goal in a sector or a leg, or none that never arrives with sight");
    if (outcomes[0] == 0 || outcomes[1] == 0 || outcomes[2] == 0 || outcomes[3] == 0)
        fail("no cart moved, or none stood still with one of the three outcomes");
    if (long_ways == 0 || never_ways == 0)
        fail("no way ended after 1,600 moves or more, or none never did");
    if (later_fields[0] == 0 || later_fields[1] == 0 || closed_fields == 0 || misplaced_fields == 0)
        fail("no field of a later step was built, with all cells of its window or with some, or none was refused with 15 or 21");
    printf("%lu rounds of calls, %lu accepted and %lu refused, %lu legs of several steps planned and %lu refused with 15, "
           "arrows followed from %lu cells to the goal's sector, %lu diagonal arrows looked at, "
           "%lu init, %lu sector calls, %lu legs, %lu bounds and %lu window costs refused with 16, %lu sector calls with 17, "
           "%lu bounds with 18, %lu window costs with 19 and %lu with 20, %lu windows reached from another and %lu cut off, "
           "%lu tours, %lu of them in another order than listed, %lu cells that arrive after a move and %lu that never do, "
           "%lu that have to, in sectors left by a window, without sight %lu windows planned alike, %lu cells of goals' sectors "
           "followed to the goal, %lu of them cells that never arrive with sight, and %lu cells of legs, %lu sure cells, %lu practice floors, "
           "%lu positions looked at and %lu of them beside an earlier corner, carts moved %lu, arrived %lu, in sight %lu and stopped %lu, "
           "%lu ways of 1,600 moves or more and %lu that never end, fields of later steps %lu with all cells of the window and "
           "%lu with some, %lu refused with 15 and %lu with 21, nothing found\n",
           rounds, accepted, turned_away, planned, closed, followed, diagonal, on_wall[0], on_wall[1], on_wall[2],
           on_wall[3], on_wall[4], fieldless, unranged, miscounted, misplaced, ways_met[0], ways_met[1], toured,
           reordered, arriving, lost, led, alike, home, saved, leg_home, sure, practised, positioned, earliest, outcomes[1],
           outcomes[2], outcomes[3], outcomes[0], long_ways, never_ways, later_fields[0], later_fields[1], closed_fields, misplaced_fields);
    written();
}

int main(int argc, char **argv)
{
    if (argc == 2 && strcmp(argv[1], "--help") == 0)
        help();
    unsigned long long seconds = argc > 1 ? number_of(argv[1]) : 10;
    if (argc > 3 || seconds == 0)
        fail(USAGE);
    if (!HANJOLUM_SAME_VERSION())
        fail("the header and the library are of two versions");
    state = 0x9e3779b97f4a7c15u ^ (argc > 2 ? number_of(argv[2]) : 1);
    time_t end = time(NULL) + (time_t)seconds;
    Fenced costs = fence(), route = fence(), previous = fence(), sheet = fence();
    unsigned long rounds = 0;
    for (; time(NULL) <= end; rounds++)
        round_of_calls(&costs, &route, &previous, &sheet);
    report(rounds);
    return 0;
}
