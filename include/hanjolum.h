/*
 * Hanjolum in ten lines: a floor, a leg over two sectors, and a cart that drives it. The long comment below says the rest.
 *
 *     static uint8_t floor[HANJOLUM_FLOOR], sheet[HANJOLUM_FLOOR], steps[2 * HANJOLUM_STEP];
 *     memset(floor, 1, sizeof floor);                                           // every cell costs 1, and none is a wall
 *     hanjolum_step_goal(steps, 9, 44);                                         // to cell 44 of sector 9
 *     hanjolum_step_window(steps + HANJOLUM_STEP, 10, HANJOLUM_WEST, 3, 6);     // out of sector 10, west by places 3 to 6
 *     uint8_t number = hanjolum_leg_without_sight(floor, sizeof floor, steps, sizeof steps, sheet, sizeof sheet);
 *     if (number != HANJOLUM_ACCEPTED)
 *         return refused(number, hanjolum_refusal_text(number));
 *     HanjolumMove cart = hanjolum_move(sheet, sizeof sheet, 10, 55);           // from cell 55 of sector 10
 *     for (; cart.outcome == HANJOLUM_OUTCOME_MOVED; cart = hanjolum_move(sheet, sizeof sheet, cart.sector, cart.cell))
 *         drive_to(cart.sector, cart.cell);                                     // then it is at the goal: ARRIVED
 */

/*
 * Hanjolum: integration fields and flow fields of a sector, and legs over several sectors.
 *
 * There are two forms of it, and both go with this header.
 *     libhanjolum.a         the proved program, compiled by the kit that proves it: an ELF archive for x86-64 with System V
 *                           calls (Linux, the BSDs). It needs memcpy and memset, and nothing else.
 *     portable/hanjolum.c   the proved program printed as C11, one file for every machine: compile it with your own compiler.
 *                           It needs memcpy, memmove and memset where the compiler calls them, and the compiler's own helpers,
 *                           as for a division of 64 bits on a small machine. The printing and your compiler are not proved.
 *                           `make install` makes a libhanjolum.a of it, which is this form, unless LIBRARY names the other.
 * Steps, floors, sheets and leg files are bytes, the same everywhere; the structs below are not for carrying.
 *
 * Version.  This header, the archive, the C file and the crate in bindings/rust are of one commit, and HANJOLUM_VERSION is
 * theirs. Its first number rises where a caller has to be compiled anew or an accepted or refused call answers otherwise, the
 * second where something is added, the third where neither is so. hanjolum_version answers the library's own: a program that
 * asks at its start whether HANJOLUM_SAME_VERSION() knows that it was compiled with the header of the library that it runs.
 *
 * Memory.  All memory is the caller's and is lent for the time of the call: no pointer is kept, nothing is allocated,
 * there are no globals. Every function may be called from several threads at once, each with a sheet of its own.
 * Read-only memory (`const`) may be shared between arguments and between threads; it must not change during the call.
 * A sheet, and the buffer that a leg's file is written to, must not overlap any other argument.
 *
 * Slices.  A pointer and behind it its length, in elements. A length other than the one that a function asks for is
 * refused, never read past; that of previous is judged only with has_previous, and without it previous may be NULL. Where
 * a length is 0 its pointer may be anything, NULL too. Pointers are aligned as in C.
 *
 * Fields and answers pass by value: a field is 1,312 bytes, the answer with a started field 1,320 and that with a built
 * one 1,328 (where a number of 64 bits is aligned to 8 bytes, as on every machine but a few), and the compiler copies them to
 * the stack. Padding between and behind the parts of an answer is not set:
 * compare its parts, not its bytes.
 *
 * Cells.  A sector is ten by ten cells; the cell at a column and a row has the index row * 10 + column, row 0 is north.
 * A cost field is 100 cost bytes by index; 255 is a wall, and no goal and no window cell may stand on one (16). A sheet of
 * a sector is 100 flow bytes by index.
 * A floor is 64 sectors of 100 cost bytes one after the other, sector s at column s % 8 and row s / 8 of the floor;
 * a floor's sheet is laid out alike. A cart's place on it is a sector, 0 to 63, and a cell of that sector, 0 to 99.
 *
 * Steps.  A step is 8 bytes (HANJOLUM_STEP_SECTOR and so on name them):
 *     0      sector, 0 to 63
 *     1      goal cell, 0 to 99 (not read where the mark is 1)
 *     2      mark: 0 a goal, 1 a window
 *     3, 4   first and last cell of the window, on the edge that byte 5 names (not read where the mark is 0)
 *     5      boundary that the window leads across: 0 North, 1 East, 2 South, 3 West (not read where the mark is 0)
 *     6, 7   0
 * hanjolum_step_goal and hanjolum_step_window write them.
 *
 * Sight.  A sector with a goal, and a leg, can be planned in two ways:
 *     without sight   hanjolum_sector_without_sight, hanjolum_leg_without_sight: every reached cell but the goal has an arrow,
 *                     and where no cost is 0 the arrows lead to the goal itself. Take these where a cart follows arrows alone.
 *     with sight      hanjolum_sector, hanjolum_leg: the bytes match the tablet's Rust. Take these where they must. A cell with
 *                     the goal in sight (0x30) has no arrow and is left straight for the goal; the arrows of other cells of the
 *                     goal's sector may run in a circle, and hanjolum_arrivals tells which.
 * A sector left by a window has no sight, and both sector calls plan it alike.
 *
 * Driving.  hanjolum_move takes a cart from the place where it stands, by the byte of the sheet, to the next place, also from
 * one sector into the next. hanjolum_way tells beforehand where such moves end. A cart's loop:
 *     HanjolumMove at = hanjolum_move(sheet, HANJOLUM_FLOOR, sector, cell);
 *     while (at.outcome == HANJOLUM_OUTCOME_MOVED) {
 *         drive_to(at.sector, at.cell);
 *         at = hanjolum_move(sheet, HANJOLUM_FLOOR, at.sector, at.cell);
 *     }
 *     stand_still(at.number, at.outcome);
 * It ends at the goal (ARRIVED) on every sheet of a leg planned without sight, from a reached cell and with no cost of 0. With
 * sight it may end where the goal is in sight (IN_SIGHT), or not at all: ask hanjolum_way first.
 *
 * Leg files.  A leg's steps as a file, for carrying: the mark `LEG`, a 16-bit version 1 (low byte first), a byte for the
 * step count 1 to 16, the steps, and nothing after; 14 to 134 bytes. No byte of a step is judged where a file is written
 * or read: that is done when the leg is planned.
 *
 * Practice floors.  From a seed of 32 bits, the costs of a sector and a goal, the same wherever they are made: 1, 10 and
 * 255 are the costs, and the goal's cell costs 1. A step to that goal is never 16.
 *
 * Refusals.  An accepted call's number is 0. A refused one answers the number of the first line below that holds, of
 * those that its function names, writes not one byte of what it is lent, and has every other part of its answer zero.
 * HANJOLUM_REFUSED_* name the numbers, hanjolum_refusal_text says them in words, and hanjolum_refused_step tells which step of a
 * leg is meant.
 *     1   cost bytes not 100 (leg: 6,400)
 *     2   sheet not 100 bytes (leg, move and way: 6,400)
 *     3   step not 8 bytes (leg: none, over 128, or no multiple of 8; window costs and tour: no multiple of 8)
 *     19  window costs and tour: fewer than 2 or more than 8 steps, none among them; after 3
 *     21  field of a leg's step: a place beyond the last step; after 3
 *     4   sector over 63, mark over 1, or byte 6 or 7 not 0 (move and way: sector over 63)
 *     5   mark 0: goal over 99 (move and way: cell over 99)
 *     6   mark 1: a window cell over 99, or boundary over 3
 *     7   mark 1: a window cell off the named edge (North row 0, East column 9, South row 9, West column 0)
 *     8   mark 1: first cell after last
 *     16  mark 0: goal of cost 255; mark 1: a cell of the window of cost 255
 *     17  sector: mark 1, and no previous field
 *     9   leg: first step with a window, later one without, or a sector named twice
 *     10  leg: the sector across the boundary is not that of the step before, or is off the floor
 *     11  building by hand: corner count over 100, or a listed corner over 99
 *     12  a previous field lent as other than 100 numbers
 *     13  a column or row outside 0 to 9
 *     14  leg file: mark, version, count or length wrong
 *     15  leg: a window with no counting cell, found when its step is planned, after 10
 *     18  bounds: a step without window, low above high somewhere, or 255 in only one of the two; after 16
 *     20  window costs and tour: a step without window, or in another sector than the first's; after 16 for the same step
 * In a leg 4 to 8 and 16 are judged for one step before the next, 16 on the costs of the step's own sector, and for every
 * cell of a window, also for one that would not count. The calls for the field of a leg's step judge all that the leg does but
 * 2, since they take no sheet, and 21 besides. The calls without sight judge what those with sight do, in the same order. The
 * writer of a leg file judges 3 as a leg does, and then 2 for a buffer that is not exactly as long as the file. The call for
 * bounds judges 1 for either floor, and 16 on both. The calls for window costs and tours judge 4 to 8, 16 and 20 for one step
 * before the next.
 *
 * Stack and time.  Every call ends, on all input. In the program each wave of a field is a call of its own; the compiler makes
 * a loop of them, so that no function of the archive calls itself. Before sight spreads from a goal (init, sector, leg and
 * field of a leg's step, with sight), the table of line ends lies on the stack, 10,000 bytes; beside it no call needs more than
 * 12,056 bytes. Give a thread that makes those four calls 32 KB, and one that makes only others 16 KB, beside what the thread
 * itself needs. That is the compiler's doing and not proved.
 * The C file has that table as a constant, and what it needs depends on your compiler: docs/MACHINES.md has figures.
 * The figures below are of an archive that the toolchain before today's made; with today's the greatest is the one above.
 * Below, for each call of the archive, its bytes of stack in all, beside what memcpy and memset need, read off the archive
 * (tools/stack/frames); and its nanoseconds, the median on practice floors (tools/time/header) on one core of an Intel Xeon that
 * did nothing else. Neither is proved, and times belong to the machine. Readers of a byte are alike.
 *     hanjolum_sector, a goal                             19296      4529
 *     hanjolum_sector, a window                           19296      2833
 *     hanjolum_sector_without_sight, a goal                9200      2922
 *     hanjolum_arrivals                                     640       945
 *     hanjolum_bounds                                      7616      7608
 *     hanjolum_window_costs, eight windows                 5264     11484
 *     hanjolum_window_tour, eight windows, all orders      4800     46645
 *     hanjolum_leg, sixteen steps                         19056     55185
 *     hanjolum_leg_without_sight, sixteen steps            8840     53062
 *     hanjolum_leg_field, the last of sixteen steps       20096     42262
 *     hanjolum_leg_field_without_sight, the same          10000     40073
 *     hanjolum_move                                           8        11
 *     hanjolum_way, over sixteen sectors                     56      1937
 *     hanjolum_way, the longest                              56     67025
 *     hanjolum_leg_file_write, sixteen steps                  8         5
 *     hanjolum_leg_file_read, sixteen steps                   8         4
 *     hanjolum_practice_floor                               752       190
 *     hanjolum_init, a goal                               16272      1828
 *     hanjolum_build, a goal                               7376      1886
 *     hanjolum_flow_new, a goal                            1088       140
 *     hanjolum_flow_build, a goal                          1344       692
 *     hanjolum_line                                         664        39
 *     hanjolum_walk_bresenham_shallow                       848        54
 *     hanjolum_walk_bresenham_steep                         848        52
 *     hanjolum_line_end                                      56        12
 *     hanjolum_is_goal                                        8         3
 *     hanjolum_version                                        8         3
 */
#ifndef HANJOLUM_H
#define HANJOLUM_H

#include <stdbool.h>
#include <stddef.h>
#include <stdint.h>

#ifdef __cplusplus
extern "C" {
#endif

#define HANJOLUM_VERSION_MAJOR 1
#define HANJOLUM_VERSION_MINOR 3
#define HANJOLUM_VERSION_PATCH 0
#define HANJOLUM_VERSION "1.3.0"
#define HANJOLUM_VERSION_NUMBER \
    (HANJOLUM_VERSION_MAJOR * UINT32_C(1000000) + HANJOLUM_VERSION_MINOR * UINT32_C(1000) + HANJOLUM_VERSION_PATCH)

enum {
    HANJOLUM_CELLS = 100,      /* cells of a sector: its cost bytes, and the bytes of its sheet */
    HANJOLUM_STEP = 8,         /* bytes of a step */
    HANJOLUM_STEPS = 16,       /* steps of a leg, at most */
    HANJOLUM_WINDOWS = 8,      /* windows of a square and of a tour, at most */
    HANJOLUM_SECTORS = 64,     /* sectors of a floor */
    HANJOLUM_FLOOR = 6400,     /* bytes of a floor, and of its sheet */
    HANJOLUM_FILE_HEAD = 6,    /* bytes of a leg file before its steps */
    HANJOLUM_FILE = 134,       /* bytes of a leg file, at most */
    HANJOLUM_WALL = 255,       /* the cost byte of a wall */
    HANJOLUM_NEVER = 255       /* the number of moves of arrows that never arrive */
};

/* The bytes of a step; the last two are 0. */
enum {
    HANJOLUM_STEP_SECTOR = 0,
    HANJOLUM_STEP_GOAL = 1,
    HANJOLUM_STEP_MARK = 2,
    HANJOLUM_STEP_FIRST = 3,
    HANJOLUM_STEP_LAST = 4,
    HANJOLUM_STEP_BOUNDARY = 5
};

/* A step's mark. Its boundary is HANJOLUM_NORTH, EAST, SOUTH or WEST. */
enum {
    HANJOLUM_MARK_GOAL = 0,
    HANJOLUM_MARK_WINDOW = 1
};

/* What a call's number says; the table above has their order. */
enum {
    HANJOLUM_ACCEPTED = 0,
    HANJOLUM_REFUSED_COST_BYTES = 1,
    HANJOLUM_REFUSED_SHEET = 2,
    HANJOLUM_REFUSED_STEP_LIST = 3,
    HANJOLUM_REFUSED_STEP_BYTES = 4,
    HANJOLUM_REFUSED_GOAL = 5,
    HANJOLUM_REFUSED_WINDOW = 6,
    HANJOLUM_REFUSED_OFF_EDGE = 7,
    HANJOLUM_REFUSED_FIRST_AFTER_LAST = 8,
    HANJOLUM_REFUSED_LEG_ORDER = 9,
    HANJOLUM_REFUSED_NOT_ACROSS = 10,
    HANJOLUM_REFUSED_CORNERS = 11,
    HANJOLUM_REFUSED_PREVIOUS_LENGTH = 12,
    HANJOLUM_REFUSED_OUTSIDE = 13,
    HANJOLUM_REFUSED_LEG_FILE = 14,
    HANJOLUM_REFUSED_NO_COUNTING_CELL = 15,
    HANJOLUM_REFUSED_ON_WALL = 16,
    HANJOLUM_REFUSED_NO_PREVIOUS = 17,
    HANJOLUM_REFUSED_BOUNDS_INPUT = 18,
    HANJOLUM_REFUSED_WINDOW_COUNT = 19,
    HANJOLUM_REFUSED_OTHER_SECTOR = 20,
    HANJOLUM_REFUSED_PLACE = 21
};

/* What a move or a way comes to. A refused call has 0 too, so that it never reads as moved: its number tells the two apart. */
enum {
    HANJOLUM_OUTCOME_STOPPED = 0,       /* no arrow leads on, and the byte is neither the goal's nor in sight, as a wall's */
    HANJOLUM_OUTCOME_MOVED = 1,         /* of a move alone: the arrow leads to the place that is answered */
    HANJOLUM_OUTCOME_ARRIVED = 2,       /* no arrow leads on, and the byte reads as goal */
    HANJOLUM_OUTCOME_IN_SIGHT = 3,      /* no arrow leads on, and the goal is in sight: drive straight for it */
    HANJOLUM_OUTCOME_NEVER = 4          /* of a way alone: the cart never stands still, it drives in a circle */
};

/* The cost of what nothing reaches: of a cell in a field or in bounds, walls too, and from window to window. */
#define HANJOLUM_UNREACHED 65535u

/*
 * A cell of an integration field: its cost in the low 16 bits, flags above, each a bit that counts by itself. Mask before you
 * compare: (word & HANJOLUM_FIELD_COST) == HANJOLUM_UNREACHED is true of walls and of cells that nothing reaches, and
 * word == HANJOLUM_UNREACHED of no wall, since a wall has IMPASSABLE above. In a sector planned with sight the cost of a cell in
 * sight counts columns and rows to the goal, whatever they cost (tested, tools/header/check).
 */
#define HANJOLUM_FIELD_COST 0xffffu
#define HANJOLUM_FIELD_LOS 0x10000u         /* the goal is in sight */
#define HANJOLUM_FIELD_GOAL 0x20000u
#define HANJOLUM_FIELD_BLOCKED 0x40000u     /* sight does not pass */
#define HANJOLUM_FIELD_PORTAL 0x80000u      /* a window cell */
#define HANJOLUM_FIELD_IMPASSABLE 0x2000000u
#define HANJOLUM_FIELD_CORNER 0x4000000u

/*
 * A flow byte: the direction to walk in below, flags above. Diagonals are sums: north-east is 3.
 * HAS_LOS, GOAL and PORTAL_GOAL count only beside PATHABLE: byte & HANJOLUM_FLOW_GOAL is true of a wall, whose byte is 0xE0.
 * Ask the readers below, or the masks as the readers do; for each of the 256 bytes, HANJOLUM_FLOW_ left out:
 *     hanjolum_is_pathable(byte)           is  (byte & PATHABLE) != 0
 *     hanjolum_has_line_of_sight(byte)     is  (byte & PATHABLE) != 0 && (byte & HAS_LOS) != 0
 *     hanjolum_is_goal(byte)               is  (byte & PATHABLE) != 0 && (byte & GOAL) != 0
 *     hanjolum_is_portal_goal(byte)        is  (byte & PATHABLE) != 0 && (byte & PORTAL_GOAL) != 0
 *     hanjolum_is_wall(byte)               is  (byte & PATHABLE) == 0 && (byte & IMPASSABLE) == IMPASSABLE
 * A direction is the low half as a whole, and PATHABLE has no part in it: byte & HANJOLUM_FLOW_NORTH is true of north-east and
 * north-west too, and of 5, which is no direction. HANJOLUM_NORTH and so on, below, are other numbers than these bits.
 */
#define HANJOLUM_FLOW_NORTH 0x01u
#define HANJOLUM_FLOW_EAST 0x02u
#define HANJOLUM_FLOW_SOUTH 0x04u
#define HANJOLUM_FLOW_WEST 0x08u
#define HANJOLUM_FLOW_PATHABLE 0x10u
#define HANJOLUM_FLOW_HAS_LOS 0x20u
#define HANJOLUM_FLOW_GOAL 0x40u
#define HANJOLUM_FLOW_PORTAL_GOAL 0x80u
#define HANJOLUM_FLOW_IMPASSABLE 0xe0u      /* all three, and no PATHABLE: a wall, or a cell that nothing reaches */

/* What hanjolum_get_compass_dir_from_bits answers. */
enum {
    HANJOLUM_NORTH = 0,
    HANJOLUM_EAST = 1,
    HANJOLUM_SOUTH = 2,
    HANJOLUM_WEST = 3,
    HANJOLUM_NORTH_EAST = 4,
    HANJOLUM_SOUTH_EAST = 5,
    HANJOLUM_SOUTH_WEST = 6,
    HANJOLUM_NORTH_WEST = 7,
    HANJOLUM_ZERO = 8
};

/*
 * 100 cells by index, and the indexes of the corners that building starts from: `count` of them, 0 beyond. Once built, the
 * position of a cell is the place in that list, from 0, of the corner that it belongs to: the earliest with a walk that
 * arrives at the cell's built cost, where a corner that building left alone stays put. Before building it is 255, and so it
 * stays in a cell that was wall, in sight or flagged GOAL before, and in one whose cost no corner's walk gives. A leg starts
 * from the window cells that count alone, so that there a cell may belong to another one: hanjolum_leg_field answers the fields
 * of a leg's steps.
 */
typedef struct {
    uint32_t field[100];
    uint64_t los_corners[100];
    uint64_t count;
    uint8_t positions[100];
} HanjolumIntegrationField;

typedef struct {
    uint8_t number;
    HanjolumIntegrationField field;     /* the started field */
} HanjolumInitAnswer;

typedef struct {
    uint8_t number;
    HanjolumIntegrationField field;     /* the built field */
    uint64_t waves;                       /* how many waves changed a cell */
} HanjolumBuildAnswer;

typedef struct {
    uint64_t column;
    uint64_t row;
} HanjolumFieldCell;

typedef struct {
    uint8_t number;
    HanjolumFieldCell cells[10];        /* `count` cells from source to target, 0 in the places beyond */
    uint64_t count;
} HanjolumLine;

typedef struct {
    uint8_t number;
    HanjolumFieldCell cell;
} HanjolumLineEnd;

/* The steps of a leg file: its `length` bytes from byte `start` on. */
typedef struct {
    uint8_t number;
    uint64_t start;
    uint64_t length;
} HanjolumLegFile;

/* A practice floor: a cost for each cell by index, and the goal's index, 0 to 99. */
typedef struct {
    uint8_t costs[100];
    uint8_t goal;
} HanjolumPracticeFloor;

/* Bounds of the built costs of each cell, by index, and whether the cell is sure. */
typedef struct {
    uint8_t number;
    uint32_t least[100];
    uint32_t greatest[100];
    bool sure[100];
} HanjolumBounds;

/* For each cell of a sheet, by index, the number of moves after which its arrows arrive; 255 where they never do. */
typedef struct {
    uint8_t number;
    uint8_t moves[100];
} HanjolumArrivals;

/* From one window to each of eight, in their places. */
typedef struct {
    uint32_t costs[8];
} HanjolumWindowRow;

/* A square of costs: from window i to window j in rows[i].costs[j]. */
typedef struct {
    uint8_t number;
    HanjolumWindowRow rows[8];
} HanjolumWindowCosts;

/* A tour of windows: the best order tried, if one counts, and a figure that no order's sum goes under. */
typedef struct {
    uint8_t number;
    bool found;                         /* an order counts */
    uint8_t order[8];                   /* all window numbers, 0 leading; 0 in the places behind them */
    uint32_t sum;                       /* its sum */
    uint32_t tried;                     /* how many orders were tried */
    uint32_t least;                     /* the least figure */
} HanjolumWindowTour;

/* What a cart's move comes to, and the place where the cart is then: its sector, and its cell there. 4 bytes. */
typedef struct {
    uint8_t number;
    uint8_t outcome;                    /* HANJOLUM_OUTCOME_*, all but NEVER */
    uint8_t sector;
    uint8_t cell;
} HanjolumMove;

/* What a cart's way comes to, the place where it ends, and after how many moves. 6 bytes. */
typedef struct {
    uint8_t number;
    uint8_t outcome;                    /* HANJOLUM_OUTCOME_*, all but MOVED */
    uint8_t sector;
    uint8_t cell;
    uint16_t moves;                     /* at most 6,399 */
} HanjolumWay;

/*
 * Where the language can say so (C11, C++11 and later) and a number of 64 bits is aligned to 8 bytes: the places of members and
 * the sizes that the archive goes by.
 */
#if defined(__cplusplus)
#if __cplusplus >= 201103L
#define HANJOLUM_HOLDS(test) static_assert(test, #test)
#endif
#elif defined(__STDC_VERSION__)
#if __STDC_VERSION__ >= 201112L
#define HANJOLUM_HOLDS(test) _Static_assert(test, #test)
#endif
#endif
#ifdef HANJOLUM_HOLDS
struct HanjolumAligned {
    uint8_t byte;
    uint64_t number;
};
#define HANJOLUM_LAID_OUT(type, member, place, size) \
    HANJOLUM_HOLDS(offsetof(struct HanjolumAligned, number) != 8 || (offsetof(type, member) == (place) && sizeof(type) == (size)))
HANJOLUM_LAID_OUT(HanjolumIntegrationField, los_corners, 400, 1312);
HANJOLUM_LAID_OUT(HanjolumIntegrationField, count, 1200, 1312);
HANJOLUM_LAID_OUT(HanjolumIntegrationField, positions, 1208, 1312);
HANJOLUM_LAID_OUT(HanjolumInitAnswer, field, 8, 1320);
HANJOLUM_LAID_OUT(HanjolumBuildAnswer, field, 8, 1328);
HANJOLUM_LAID_OUT(HanjolumBuildAnswer, waves, 1320, 1328);
HANJOLUM_LAID_OUT(HanjolumFieldCell, row, 8, 16);
HANJOLUM_LAID_OUT(HanjolumLine, cells, 8, 176);
HANJOLUM_LAID_OUT(HanjolumLine, count, 168, 176);
HANJOLUM_LAID_OUT(HanjolumLineEnd, cell, 8, 24);
HANJOLUM_LAID_OUT(HanjolumLegFile, start, 8, 24);
HANJOLUM_LAID_OUT(HanjolumLegFile, length, 16, 24);
HANJOLUM_LAID_OUT(HanjolumPracticeFloor, goal, 100, 101);
HANJOLUM_LAID_OUT(HanjolumBounds, least, 4, 904);
HANJOLUM_LAID_OUT(HanjolumBounds, greatest, 404, 904);
HANJOLUM_LAID_OUT(HanjolumBounds, sure, 804, 904);
HANJOLUM_LAID_OUT(HanjolumArrivals, moves, 1, 101);
HANJOLUM_LAID_OUT(HanjolumWindowRow, costs, 0, 32);
HANJOLUM_LAID_OUT(HanjolumWindowCosts, rows, 4, 260);
HANJOLUM_LAID_OUT(HanjolumWindowTour, found, 1, 24);
HANJOLUM_LAID_OUT(HanjolumWindowTour, order, 2, 24);
HANJOLUM_LAID_OUT(HanjolumWindowTour, sum, 12, 24);
HANJOLUM_LAID_OUT(HanjolumWindowTour, tried, 16, 24);
HANJOLUM_LAID_OUT(HanjolumWindowTour, least, 20, 24);
HANJOLUM_LAID_OUT(HanjolumMove, cell, 3, 4);
HANJOLUM_LAID_OUT(HanjolumWay, moves, 4, 6);
#undef HANJOLUM_LAID_OUT
#undef HANJOLUM_HOLDS
#endif

/*
 * Plans one sector: starts the field of a step on 100 cost bytes, builds it, and writes its 100 flow bytes to the sheet,
 * whatever they were before. Answers the built field, with each cell's position, and its wave count.
 * With has_previous, previous is the 100 cells of the built field of the sector across the window, of which only the low
 * 16 bits count; each cell of a window of two or more then points at the cheapest of the two or three cells that it
 * faces, straight across where that is no dearer. A window of one cell always points straight across. A step with a
 * window, of one cell too, must come with a previous field (17). Who has none lends 100 zeros: then each window cell
 * points straight across. A step with a goal needs none. Without has_previous, previous is not read, and what it holds is
 * no previous field.
 * With a window, and no cost of 0, the arrows lead from every reached cell into the window in at most 99 moves, over no
 * wall and between no two walls. With a goal that is not promised: two arrows may point at each other, for ever, and on
 * floors with walls often do (those of hanjolum_sector_without_sight lead to the goal). With a goal or a window, whatever the
 * costs: no arrow that leads to a cell of the sector leads onto a wall, or diagonally past one (neither of the two cells
 * beside a diagonal move is a wall).
 * Numbers 1, 2, 3, 4 to 8, 16, 17, 12.
 */
HanjolumBuildAnswer hanjolum_sector(
    const uint8_t *costs, size_t costs_length,
    const uint8_t *step, size_t step_length,
    bool has_previous,
    const uint32_t *previous, size_t previous_length,
    uint8_t *sheet, size_t sheet_length);

/*
 * Plans one sector without sight, so that with a goal too every arrow leads there. It takes what hanjolum_sector takes and
 * has the same number; a step with a window is planned exactly as there, the same field and the same bytes.
 * A step with a goal starts from the goal alone: the goal is the one listed corner, at cost 0, and no cell is in sight. Built,
 * each cell that is no wall holds the least cost of a walk from the goal, where each move goes to an orthogonal neighbour that
 * is no wall and pays that neighbour's cost; the goal's own cost is never paid. 65535 says that no walk leads there. The
 * position is 0 in each reached cell but the goal, and 255 elsewhere. Whatever the costs, 0xE0 stands exactly on walls and
 * cells that nothing reaches; every other cell but the goal, which has 0x70, has an arrow.
 * With no cost of 0, the arrows lead from every reached cell to the goal itself in at most 99 moves, each to a cell of
 * strictly lower built cost. Whatever the costs, no arrow leads onto a wall, or diagonally past one.
 * Numbers 1, 2, 3, 4 to 8, 16, 17, 12.
 */
HanjolumBuildAnswer hanjolum_sector_without_sight(
    const uint8_t *costs, size_t costs_length,
    const uint8_t *step, size_t step_length,
    bool has_previous,
    const uint32_t *previous, size_t previous_length,
    uint8_t *sheet, size_t sheet_length);

/*
 * Which arrows of a sector's sheet arrive, told before a cart is driven: 100 flow bytes, whatever they are.
 * moves[x] is the number of moves after which the arrows, followed from cell x, first come to a cell whose byte reads as
 * goal, in sight or portal goal, and 0 where x has such a byte itself. 255 says that they never come to one, however far
 * they are followed: they run in a circle, lead out of the sector, or end at a byte with no direction, as a wall's is. No
 * other number is above 99.
 * In a sector left by a window, with no cost of 0, no reached cell has 255. Nor has one in a goal's sector that was planned
 * without sight, with no cost of 0: there the number is that of the moves to the goal itself. In a goal's sector that was
 * planned with sight reached cells may have 255: a cart set there never comes to the goal by the arrows. And for a planned leg
 * with no cost of 0, one look at the goal's sector (the sheet from sector * 100 on) tells the whole way: from every reached
 * cell of the other sectors the arrows come into a reached cell of it, and that cell's number says how many moves are left, or,
 * with sight, that they never arrive. From one place of a floor, hanjolum_way tells the whole way at once.
 * Writes nothing. Number 2.
 */
HanjolumArrivals hanjolum_arrivals(const uint8_t *sheet, size_t sheet_length);

/*
 * Bounds where costs are known only as from-to: two cost fields of 100 bytes, low and high, and a step with a window. A
 * floor between them costs, in each cell, at least what low and at most what high says; a cell is a wall (255) on both or
 * on neither. Costs of 0 are taken.
 * Answers for each cell the least and the greatest built cost over all floors between: no floor between has a lower or a
 * higher one, and low itself has the least, high itself the greatest. 65535 is a wall, or a cell that nothing reaches; a
 * cell that is reached on one floor between is reached on all. A window cell has 0.
 * A neighbour of a cell is permitted if the look for arrows does not pass it over: it lies in the sector, is no wall, and
 * the move to it passes no wall diagonally. A cell is sure exactly if a permitted neighbour is a window cell, or if the greatest
 * cost of one reached, permitted neighbour is strictly below the least cost of all other permitted ones; walls and window
 * cells are not marked. On every floor between, and with any previous field or none, the arrow of a sure cell is the same.
 * A cell that is not marked may have one arrow on all floors as well.
 * All of this speaks of the step's whole window. In a leg a sector starts from the window cells that count alone: where some
 * do not, its costs may lie outside these bounds, and a sure cell may have another arrow.
 * Writes nothing. Numbers 1, 3, 4 to 8, 16, 18.
 */
HanjolumBounds hanjolum_bounds(
    const uint8_t *low, size_t low_length,
    const uint8_t *high, size_t high_length,
    const uint8_t *step, size_t step_length);

/*
 * Costs from window to window inside one sector: 100 cost bytes, and 2 to 8 steps with a window, one after the other, all
 * of the same sector. Windows are numbered from 0 as listed.
 * rows[i].costs[j] is the cost from window i to window j: the least cost of a cell of window i after building for window j
 * alone, from all of j's cells. Some walk that begins in a cell of window j at 0 and ends in a cell of window i, each move to
 * an orthogonal neighbour that is no wall and at that cell's cost, comes to it, and none comes to less. The cell of i is
 * paid, and that of j is not: so i to j need not cost what j to i does. A window to itself costs 0, and so do windows that
 * share a cell. 65535 says that no walk leads there, and stands in the rows and places beyond the last window.
 * Writes nothing. Numbers 1, 3, 19, and of one step before the next 4 to 8, 16, 20.
 */
HanjolumWindowCosts hanjolum_window_costs(
    const uint8_t *costs, size_t costs_length,
    const uint8_t *steps, size_t steps_length);

/*
 * A tour of the same windows: from the first, each other once, no way back, with the smallest sum of hanjolum_window_costs'
 * costs; a move from window a to window b costs rows[a].costs[b]. Input and numbers are those of hanjolum_window_costs.
 * Orders are tried in dictionary order of the window numbers: 0 1 2 3, 0 1 3 2, 0 2 1 3, .. There are (n - 1)! of n
 * windows, 5,040 of eight; tried is the limit or that many, the smaller. An order with a move of 65535 is tried and does
 * not count. The best order tried has the smallest sum of those that count, and of equals it is the earlier. found is
 * false exactly when none of those tried counts: order and sum are then all 0, and tried and least are told all the same.
 * With a limit of (n - 1)! or more it is the best there is.
 * least is the sum, over the windows but the first, of the cheapest entry into each from another, a 65535 taken as 65535:
 * no order's sum goes under it, whether it is tried or not and whether it counts or not.
 * Writes nothing. Numbers 1, 3, 19, and of one step before the next 4 to 8, 16, 20.
 */
HanjolumWindowTour hanjolum_window_tour(
    const uint8_t *costs, size_t costs_length,
    const uint8_t *steps, size_t steps_length,
    uint16_t limit);

/*
 * Plans a leg of 1 to 16 steps over a floor, from the goal back: the first step has the goal, each later one a window
 * that faces the sector of the step before it in the list. Each step's built field serves as previous field of the next.
 * A window cell counts only if a cell that it faces was reached in the sector of the step before: the one straight across,
 * or one that faces its neighbour in the window. A cell that does not count is as any floor of its sector: the field does
 * not start from it, and its arrow is that of any floor. With no cost of 0 the arrows of a sector left by a window lead
 * into one of the cells that count. A window of which no cell counts is 15. (hanjolum_sector, called by itself, starts
 * from the whole window.)
 * The arrows of a planned leg lead all the way: from every reached cell of every named sector but the first step's, with no
 * cost of 0 in the sectors on the way, they cross each window into a reached cell of the sector listed before, until they
 * are in the goal's sector, in at most 1,500 moves, crossings counted. A move goes by the floor's columns and rows, also
 * from one sector into the next. Where the arrows within the goal's sector lead, hanjolum_arrivals tells; those of
 * hanjolum_leg_without_sight lead to the goal. Within each sector, the goal's too, no arrow passes a wall diagonally, whatever
 * the costs; one that crosses a window may pass one of the sector that it leads into.
 * All steps are planned before the sheet is written: a refusal, 15 too, leaves every byte of it. Writes the 100 bytes of
 * each named sector to the sheet, at sector * 100; all other bytes of the sheet stay as they were.
 * Answers its number: 0, 1 to 10, 15 or 16.
 */
uint8_t hanjolum_leg(
    const uint8_t *floor, size_t floor_length,
    const uint8_t *steps, size_t steps_length,
    uint8_t *sheet, size_t sheet_length);

/*
 * Plans a leg without sight, so that its arrows lead to the goal itself. It takes what hanjolum_leg takes, and refuses by the
 * same table. The first step, the goal's, is planned as hanjolum_sector_without_sight plans it; each later one goes by the
 * built field of the step before, as in hanjolum_leg, so that the arrows across the window into the goal's sector go by true
 * walking costs and may be others than hanjolum_leg's.
 * From every reached cell of every named sector, the goal's too, with no cost of 0 in that sector and in those that the way
 * goes on through, the arrows come to the goal: from the sector of step k, counted from 0, in at most 99 (k + 1) + k moves,
 * crossings counted, and so never in more than 1,599. Inside a sector each move goes to a cell of strictly lower built cost;
 * across a window, into a reached cell of the sector listed before. Within each sector no arrow passes a wall diagonally,
 * whatever the costs; one that crosses a window may pass one of the sector that it leads into.
 * Of the numbers only 15 goes by a field, that of the step before; that it is due to the same legs as in hanjolum_leg was
 * compared, and is not proved.
 * A refusal leaves every byte of the sheet; all bytes of sectors that are not named stay as they were.
 * Answers its number: 0, 1 to 10, 15 or 16.
 */
uint8_t hanjolum_leg_without_sight(
    const uint8_t *floor, size_t floor_length,
    const uint8_t *steps, size_t steps_length,
    uint8_t *sheet, size_t sheet_length);

/*
 * The built field of one step of a leg, as hanjolum_leg plans it, for who asks which door is a cell's own. It takes the floor
 * and the steps of the leg, and the step's place in the list: 0 is the goal's, and one less than the number of steps the last.
 * It answers what a sector call answers, the built field with each cell's position and the wave count. A step with a window has
 * its field over the window cells that count: los_corners lists those, and los_corners[positions[x]] is the door of cell x,
 * where its position is not 255. A door goes by walks from cell to neighbour, and arrows may be diagonal: a cart that drives
 * by them may leave by another window cell.
 * The whole leg is planned, and refused exactly as hanjolum_leg refuses it, whichever step is at fault, also one behind the
 * place: but for 2, since there is no sheet, and with 21 besides for a place beyond the last step.
 * Writes nothing. Numbers 1, 3, 21, 4 to 8, 16, 9, 10, 15.
 */
HanjolumBuildAnswer hanjolum_leg_field(
    const uint8_t *floor, size_t floor_length,
    const uint8_t *steps, size_t steps_length,
    uint64_t place);

/*
 * The same of the leg that hanjolum_leg_without_sight plans.
 * Writes nothing. Numbers 1, 3, 21, 4 to 8, 16, 9, 10, 15.
 */
HanjolumBuildAnswer hanjolum_leg_field_without_sight(
    const uint8_t *floor, size_t floor_length,
    const uint8_t *steps, size_t steps_length,
    uint64_t place);

/*
 * One move of a cart, from a sector and a cell, by the byte of that place in a floor's sheet of 6,400 bytes, whatever they are.
 * It goes by the floor's columns and rows, also from one sector into the next ("Driving" above has a cart's loop).
 * MOVED is answered exactly where the byte's direction leads to a place of the floor, whatever the byte's flags, and with that
 * place. Otherwise the cart stands still, and is answered with its own place: ARRIVED if the byte reads as goal, also where it
 * has a direction that leads off the floor; else IN_SIGHT if it reads so, and the cart drives straight for the goal; else
 * STOPPED, as on a wall, on a cell that nothing reaches, and where an arrow leads off the floor.
 * On the sheet of a planned leg, from a reached cell, with no cost of 0 in the cart's sector and in those on its way, moves one
 * after the other lead on. Planned with sight, at most 1,500 of them come into the goal's sector, whatever the costs are there.
 * Planned without sight, and with no cost of 0 in the goal's sector either, at most 1,599 come to the goal, and there the call
 * answers ARRIVED. A leg leaves the bytes of sectors that it does not name as they were, and a cart that is set down there goes
 * by those: on zeros it is STOPPED.
 * Writes nothing. Numbers 2, 4, 5.
 */
HanjolumMove hanjolum_move(const uint8_t *sheet, size_t sheet_length, uint8_t sector, uint8_t cell);

/*
 * Where a cart's moves end, told before it is driven: hanjolum_move's arguments, and its moves one after the other until the
 * cart stands still. The answer is the outcome there, the place, and the number of moves, 0 where the cart does not move at all.
 * NEVER says that it stands still after no number of moves, however large: it comes again to a place where it was. The place is
 * then its own, and moves is 0. The places on a way that ends all differ, so that it has at most 6,399 moves.
 * On the sheet of a leg planned without sight, from a reached cell, with no cost of 0 in the cart's sector and in those on its
 * way, the goal's too, the outcome is ARRIVED, and the place the goal.
 * Writes nothing. Numbers 2, 4, 5.
 */
HanjolumWay hanjolum_way(const uint8_t *sheet, size_t sheet_length, uint8_t sector, uint8_t cell);

/*
 * Writes the file of a list of 1 to 16 steps to a buffer of HANJOLUM_FILE_HEAD + steps_length bytes. What is written is
 * read back the same.
 * Answers its number: 0, or 3, or 2 for a buffer that is shorter or longer.
 */
uint8_t hanjolum_leg_file_write(
    const uint8_t *steps, size_t steps_length,
    uint8_t *file, size_t file_length);

/*
 * Finds the steps in a leg file: they are the bytes of the file itself, from start on. A file that is read is what
 * hanjolum_leg_file_write gives for its steps.
 * Number 14.
 */
HanjolumLegFile hanjolum_leg_file_read(const uint8_t *file, size_t file_length);

/*
 * The practice floor of a seed, of which every one is taken: there is no number. A generator's first value is the seed,
 * each of the next 54 adds 2654435769 to the one before it, and each later one is the sum of those 24 and 55 places before
 * it, all modulo 4294967296. From the 56th on each value gives a cell by its top byte: under 128 cost 1, 128 to 191 cost
 * 10, else 255. The value behind those of the 100 cells, modulo 100, is the goal, and its cell becomes cost 1.
 * Nothing is lent, and less than 1,000 bytes of stack are needed (read off the archive, not proved).
 */
HanjolumPracticeFloor hanjolum_practice_floor(uint32_t seed);

/*
 * The field that a step starts on 100 cost bytes: walls, and the goal with what is in its sight, or the window cells. No
 * cell has a position yet: each is 255.
 * Numbers 1, 3, 4 to 8, 16.
 */
HanjolumInitAnswer hanjolum_init(
    const uint8_t *costs, size_t costs_length,
    const uint8_t *step, size_t step_length);

/*
 * A field, started by hanjolum_init or given by hand, built on 100 cost bytes. Walls are the cells with IMPASSABLE,
 * whatever they cost. Places of the corner list beyond the count are not read, and the positions given are not either.
 * Numbers 1, 11.
 */
HanjolumBuildAnswer hanjolum_build(
    const uint8_t *costs, size_t costs_length,
    HanjolumIntegrationField field);

/*
 * Writes the first flow bytes of a built field to a sheet of 100, whatever it held: each cell's flags, and the
 * directions of the step's window cells. previous is as in hanjolum_sector, but here a window too may come without it:
 * then each window cell points straight across. The field's corner list is not read.
 * Answers its number: 0, or 2, 3, 4 to 8, 12.
 */
uint8_t hanjolum_flow_new(
    const uint8_t *step, size_t step_length,
    HanjolumIntegrationField field,
    bool has_previous,
    const uint32_t *previous, size_t previous_length,
    uint8_t *sheet, size_t sheet_length);

/*
 * Gives each cell of a sheet of 100 that has neither PATHABLE nor all of IMPASSABLE its direction in a built field.
 * Other bytes stay: the sheet is read, so let hanjolum_flow_new write it first. The field's corner list is not read.
 * Answers its number: 0, or 2.
 */
uint8_t hanjolum_flow_build(
    HanjolumIntegrationField field,
    uint8_t *sheet, size_t sheet_length);

/*
 * The cells of the line from a source to a target, both among them: 1 to 10 cells.
 * Number 13.
 */
HanjolumLine hanjolum_line(uint64_t source_column, uint64_t source_row, uint64_t target_column, uint64_t target_row);

/*
 * One of the reference's two walks that lines are made of: from (col_0, row_0) toward (col_1, row_1), one column on at
 * each step and at most one row aside. No cells, with number 0, where col_1 is below col_0. Where the columns lie as far
 * apart as the rows, or farther, it ends at the target; otherwise it goes one row aside at each step, and ends in column
 * col_1 before it reaches the target's row.
 * Number 13.
 */
HanjolumLine hanjolum_walk_bresenham_shallow(uint64_t col_0, uint64_t row_0, uint64_t col_1, uint64_t row_1);

/*
 * The other walk: the same with columns and rows changed over, one row on at each step.
 * Number 13.
 */
HanjolumLine hanjolum_walk_bresenham_steep(uint64_t col_0, uint64_t row_0, uint64_t col_1, uint64_t row_1);

/*
 * The cell at the edge of the sector in which the line of a corner, away from the goal, ends. A pair with unequal columns
 * and unequal rows, mirrored left to right or top to bottom, ends mirrored.
 * Number 13.
 */
HanjolumLineEnd hanjolum_line_end(uint64_t corner_column, uint64_t corner_row, uint64_t goal_column, uint64_t goal_row);

/*
 * The readers of a flow byte, for any byte. In a sheet built from a field given by hand a cell beside one that nothing
 * reaches may hold 0xF0 plus a direction: it reads as goal, portal goal and in sight, as it does in the reference. No
 * started sector has such a byte. Read the direction first: a goal and a cell in sight have none.
 */

/* The cell can be walked. */
bool hanjolum_is_pathable(uint8_t byte);

/* The cell is the goal. */
bool hanjolum_is_goal(uint8_t byte);

/* The cell leads into the next sector. */
bool hanjolum_is_portal_goal(uint8_t byte);

/* The goal is in sight: a cart heads straight for it. In a sector planned without sight no byte but the goal's says so. */
bool hanjolum_has_line_of_sight(uint8_t byte);

/* The cell is a wall, or nothing reaches it. */
bool hanjolum_is_wall(uint8_t byte);

/* The direction to walk in, HANJOLUM_NORTH to HANJOLUM_NORTH_WEST; HANJOLUM_ZERO where the byte has none. */
uint8_t hanjolum_get_compass_dir_from_bits(uint8_t byte);

/*
 * The version of the library: major times 1,000,000, plus minor times 1,000, plus patch. HANJOLUM_VERSION_NUMBER is the header's;
 * HANJOLUM_SAME_VERSION() says whether both are the same.
 */
uint32_t hanjolum_version(void);
#define HANJOLUM_SAME_VERSION() (hanjolum_version() == HANJOLUM_VERSION_NUMBER)

/*
 * Makers of a step's 8 bytes. They stand here and not in the archive: they are tested (tools/header/check) and not proved.
 * They refuse nothing themselves, and no wrong value becomes a right step, also none above 255: the call that takes the step
 * refuses it. hanjolum_step_goal makes the step to a cell, 0 to 99, of a sector. A sector over 63 is then refused with 4, a cell
 * over 99 with 5.
 */
static inline void hanjolum_step_goal(uint8_t step[HANJOLUM_STEP], uint32_t sector, uint32_t cell)
{
    for (int byte = 0; byte < HANJOLUM_STEP; byte++)
        step[byte] = 0;
    step[HANJOLUM_STEP_SECTOR] = (uint8_t)(sector < 255 ? sector : 255);
    step[HANJOLUM_STEP_GOAL] = (uint8_t)(cell < 255 ? cell : 255);
}

/*
 * Makes the step that leaves a sector by a window across a boundary, HANJOLUM_NORTH, EAST, SOUTH or WEST. first and last are
 * places along that edge, 0 to 9, from west to east or from north to south, both of the window; they may be the same.
 * A sector over 63 is then refused with 4, a boundary over 3 or a place over 9 with 6, and a first place after the last with 8.
 */
static inline void hanjolum_step_window(
    uint8_t step[HANJOLUM_STEP], uint32_t sector, uint32_t boundary, uint32_t first, uint32_t last)
{
    const uint32_t start = boundary == HANJOLUM_EAST ? 9 : boundary == HANJOLUM_SOUTH ? 90 : 0;
    const uint32_t apart = boundary == HANJOLUM_EAST || boundary == HANJOLUM_WEST ? 10 : 1;
    step[HANJOLUM_STEP_SECTOR] = (uint8_t)(sector < 255 ? sector : 255);
    step[HANJOLUM_STEP_GOAL] = 0;
    step[HANJOLUM_STEP_MARK] = HANJOLUM_MARK_WINDOW;
    step[HANJOLUM_STEP_FIRST] = (uint8_t)(first <= 9 ? start + first * apart : 255);
    step[HANJOLUM_STEP_LAST] = (uint8_t)(last <= 9 ? start + last * apart : 255);
    step[HANJOLUM_STEP_BOUNDARY] = (uint8_t)(boundary < 255 ? boundary : 255);
    step[6] = 0;
    step[7] = 0;
}

/* A call that plans a leg: hanjolum_leg or hanjolum_leg_without_sight. */
typedef uint8_t HanjolumLegCall(
    const uint8_t *floor, size_t floor_length,
    const uint8_t *steps, size_t steps_length,
    uint8_t *sheet, size_t sheet_length);

/*
 * Which step of a leg a refusal speaks of, counted from 0. It takes the call that refused, and what that call took, but for the
 * sheet: in its place a scratch sheet of 6,400 bytes, which must not overlap anything else either. It answers the last step of
 * the shortest beginning of the list that is refused with the same number as the whole list:
 *     4 to 8, 16   the first step that is refused so
 *     9            the first step, if it has a window; else the first later one that has none, or whose sector is named before it
 *     10           the first step that does not lead into the sector of the step before it
 *     15           the first step with no counting cell
 * HANJOLUM_STEPS is answered, which is no step, where the leg is accepted, and for 1, 2 and 3, which speak of lengths.
 * A beginning may be refused with another number than the whole (a leg of two steps with 9, and with a third that is at fault by
 * itself with 4), and may be accepted: then it is planned onto the scratch sheet. So lend no sheet that a cart drives by. It
 * makes at most 17 calls. It stands here and not in the archive: it is tested (tools/header/check) and not proved.
 */
static inline size_t hanjolum_refused_step(
    HanjolumLegCall *leg,
    const uint8_t *floor, size_t floor_length,
    const uint8_t *steps, size_t steps_length,
    uint8_t *scratch, size_t scratch_length)
{
    const uint8_t number = leg(floor, floor_length, steps, steps_length, scratch, scratch_length);
    if (number <= HANJOLUM_REFUSED_STEP_LIST)
        return HANJOLUM_STEPS;
    for (size_t step = 0; (step + 1) * HANJOLUM_STEP <= steps_length; step++)
        if (leg(floor, floor_length, steps, (step + 1) * HANJOLUM_STEP, scratch, scratch_length) == number)
            return step;
    return HANJOLUM_STEPS;
}

/*
 * What a number says, in words, for a message; of a number that no call answers, that it is none. It stands here and not in
 * the archive: it is tested (bindings/rust) and not proved.
 */
static inline const char *hanjolum_refusal_text(uint8_t number)
{
    switch (number) {
    case HANJOLUM_ACCEPTED: return "accepted";
    case HANJOLUM_REFUSED_COST_BYTES: return "the cost bytes are not 100 (a leg's floor: 6,400)";
    case HANJOLUM_REFUSED_SHEET:
        return "the sheet is not 100 bytes (a floor's: 6,400), or the buffer is not as long as the leg file";
    case HANJOLUM_REFUSED_STEP_LIST:
        return "the step is not 8 bytes (a leg's steps: none, over 128 bytes, or no multiple of 8; several windows: "
               "no multiple of 8)";
    case HANJOLUM_REFUSED_STEP_BYTES:
        return "a sector is over 63, a step's mark over 1, or one of its last two bytes not 0";
    case HANJOLUM_REFUSED_GOAL: return "a goal, or a cart's cell, is over 99";
    case HANJOLUM_REFUSED_WINDOW: return "a window cell is over 99, or a boundary over 3";
    case HANJOLUM_REFUSED_OFF_EDGE:
        return "a window cell is off the named edge (North row 0, East column 9, South row 9, West column 0)";
    case HANJOLUM_REFUSED_FIRST_AFTER_LAST: return "a window's first cell comes after its last";
    case HANJOLUM_REFUSED_LEG_ORDER:
        return "the leg's first step has a window, a later one has none, or a sector is named twice";
    case HANJOLUM_REFUSED_NOT_ACROSS:
        return "the sector across a boundary is not that of the step before, or is off the floor";
    case HANJOLUM_REFUSED_CORNERS: return "the field to build lists over 100 corners, or a corner over 99";
    case HANJOLUM_REFUSED_PREVIOUS_LENGTH: return "the previous field is not 100 numbers";
    case HANJOLUM_REFUSED_OUTSIDE: return "a column or row is outside 0 to 9";
    case HANJOLUM_REFUSED_LEG_FILE: return "the leg file's mark, version, count or length is wrong";
    case HANJOLUM_REFUSED_NO_COUNTING_CELL:
        return "a window has no cell that faces a cell reached in the sector of the step before";
    case HANJOLUM_REFUSED_ON_WALL: return "a goal, or a cell of a window, is a wall (cost 255)";
    case HANJOLUM_REFUSED_NO_PREVIOUS: return "the step has a window, and no previous field is lent";
    case HANJOLUM_REFUSED_BOUNDS_INPUT:
        return "the step has no window, low is above high somewhere, or 255 is in only one of the two";
    case HANJOLUM_REFUSED_WINDOW_COUNT: return "there are fewer than 2 steps or more than 8";
    case HANJOLUM_REFUSED_OTHER_SECTOR: return "a step has no window, or another sector than the first";
    case HANJOLUM_REFUSED_PLACE: return "the place is beyond the leg's last step";
    default: return "no number of this version";
    }
}

#ifdef __cplusplus
}
#endif

#endif
