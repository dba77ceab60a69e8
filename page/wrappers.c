/*
 * What the page calls. A page cannot lend memory of its own, and takes no answer by value: so the floor, the steps and the sheet lie
 * here, and what a call answers is put where the page reads it, as bytes and as numbers of 32 bits. Nothing is decided here: each
 * function hands on to one call of hanjolum.h.
 * A place is an index of the floor's bytes: sector * 100 + row * 10 + column.
 */
#include "hanjolum.h"
#include "reading.h"

enum { TEXT = 65536 };      /* bytes of the longest drawing that is read */

/* Keeps a function in the module for the page to call. */
#define FOR_THE_PAGE(name) __attribute__((export_name(#name)))

static uint8_t the_floor[HANJOLUM_FLOOR];
static uint8_t the_sheet[HANJOLUM_FLOOR];
static uint8_t the_steps[(HANJOLUM_STEPS + 1) * HANJOLUM_STEP];     /* room for one too many, which is refused */

/* A floor without walls and a sheet that nobody reads: what a list of steps is judged on by itself. */
static uint8_t open_floor[HANJOLUM_FLOOR];
static uint8_t spare_sheet[HANJOLUM_FLOOR];

/* An answered way or move, an answered field and an answered practice floor. */
static uint32_t the_way[4];
static uint32_t the_field[HANJOLUM_CELLS];
static uint8_t the_corners[HANJOLUM_CELLS], the_positions[HANJOLUM_CELLS];
static HanjolumPracticeFloor the_practice;

/* A drawing as text, what was read from it, and what is wrong with it. */
static char the_text[TEXT];
static struct floor the_drawn;
static struct fault the_fault;

uint8_t *page_floor(void);
uint8_t *page_sheet(void);
uint8_t *page_steps(void);
uint8_t page_leg(uint32_t count, bool sight);
uint8_t page_list(uint32_t count);
const uint32_t *page_way(uint32_t place);
const uint32_t *page_move(uint32_t place);
uint8_t page_field(uint32_t count, uint32_t step, bool sight);
const uint32_t *page_field_cells(void);
const uint8_t *page_field_corners(void);
const uint8_t *page_field_positions(void);
const uint8_t *page_practice(uint32_t seed);
const char *page_refusal(uint8_t number);
char *page_text(void);
uint32_t page_text_size(void);
bool page_read(uint32_t length);
const uint8_t *page_drawn_costs(void);
int page_drawn_steps(void);
int page_drawn_cart(void);
int page_fault_line(void);
const char *page_fault_words(void);
uint32_t page_write(uint32_t count, int cart);
uint32_t page_version(void);
uint32_t page_header_version(void);

FOR_THE_PAGE(floor) uint8_t *page_floor(void)
{
    return the_floor;
}

FOR_THE_PAGE(sheet) uint8_t *page_sheet(void)
{
    return the_sheet;
}

FOR_THE_PAGE(steps) uint8_t *page_steps(void)
{
    return the_steps;
}

/* Plans the first steps of the list onto the sheet. */
FOR_THE_PAGE(leg) uint8_t page_leg(uint32_t count, bool sight)
{
    size_t length = (size_t)count * HANJOLUM_STEP;
    return sight ? hanjolum_leg(the_floor, HANJOLUM_FLOOR, the_steps, length, the_sheet, HANJOLUM_FLOOR)
                 : hanjolum_leg_without_sight(the_floor, HANJOLUM_FLOOR, the_steps, length, the_sheet, HANJOLUM_FLOOR);
}

/* The number of a list of steps by itself, whatever is drawn: it is planned on a floor where each cell costs 1. */
FOR_THE_PAGE(list) uint8_t page_list(uint32_t count)
{
    for (size_t i = 0; i < HANJOLUM_FLOOR; i++)
        open_floor[i] = 1;
    return hanjolum_leg(open_floor, HANJOLUM_FLOOR, the_steps, (size_t)count * HANJOLUM_STEP, spare_sheet, HANJOLUM_FLOOR);
}

/* Where the moves from a place end: the number, the outcome, the place and how many moves. */
FOR_THE_PAGE(way) const uint32_t *page_way(uint32_t place)
{
    HanjolumWay way = hanjolum_way(the_sheet, HANJOLUM_FLOOR, (uint8_t)(place / HANJOLUM_CELLS), (uint8_t)(place % HANJOLUM_CELLS));
    the_way[0] = way.number;
    the_way[1] = way.outcome;
    the_way[2] = (uint32_t)way.sector * HANJOLUM_CELLS + way.cell;
    the_way[3] = way.moves;
    return the_way;
}

/* One move from a place: the number, the outcome and the place. */
FOR_THE_PAGE(move) const uint32_t *page_move(uint32_t place)
{
    HanjolumMove move = hanjolum_move(the_sheet, HANJOLUM_FLOOR, (uint8_t)(place / HANJOLUM_CELLS), (uint8_t)(place % HANJOLUM_CELLS));
    the_way[0] = move.number;
    the_way[1] = move.outcome;
    the_way[2] = (uint32_t)move.sector * HANJOLUM_CELLS + move.cell;
    the_way[3] = move.outcome == HANJOLUM_OUTCOME_MOVED ? 1 : 0;
    return the_way;
}

/* The built field of a step of the leg that the first steps of the list are: its cells, its corners and each cell's position. */
FOR_THE_PAGE(field) uint8_t page_field(uint32_t count, uint32_t step, bool sight)
{
    size_t length = (size_t)count * HANJOLUM_STEP;
    HanjolumBuildAnswer built = sight ? hanjolum_leg_field(the_floor, HANJOLUM_FLOOR, the_steps, length, step)
                                      : hanjolum_leg_field_without_sight(the_floor, HANJOLUM_FLOOR, the_steps, length, step);
    for (size_t i = 0; i < HANJOLUM_CELLS; i++) {
        the_field[i] = built.field.field[i];
        the_corners[i] = (uint8_t)built.field.los_corners[i];
        the_positions[i] = built.field.positions[i];
    }
    return built.number;
}

FOR_THE_PAGE(field_cells) const uint32_t *page_field_cells(void)
{
    return the_field;
}

FOR_THE_PAGE(field_corners) const uint8_t *page_field_corners(void)
{
    return the_corners;
}

FOR_THE_PAGE(field_positions) const uint8_t *page_field_positions(void)
{
    return the_positions;
}

/* The practice floor of a seed: 100 costs, and behind them the goal's cell. */
FOR_THE_PAGE(practice) const uint8_t *page_practice(uint32_t seed)
{
    the_practice = hanjolum_practice_floor(seed);
    return the_practice.costs;
}

/* What a number says, as bytes that end with a zero. */
FOR_THE_PAGE(refusal) const char *page_refusal(uint8_t number)
{
    return hanjolum_refusal_text(number);
}

/* Where a drawing's text lies, and how long it may be. */
FOR_THE_PAGE(text) char *page_text(void)
{
    return the_text;
}

FOR_THE_PAGE(text_size) uint32_t page_text_size(void)
{
    return TEXT;
}

/* Reads the text as the drawing tool does. Its leg is then the list of steps; the floor stays as it is. */
FOR_THE_PAGE(read) bool page_read(uint32_t length)
{
    return length <= TEXT && read_floor(the_text, length, &the_drawn, &the_fault);
}

FOR_THE_PAGE(drawn_costs) const uint8_t *page_drawn_costs(void)
{
    return the_drawn.costs;
}

/* Puts the leg that was read into the list of steps, and answers how many there are. */
FOR_THE_PAGE(drawn_steps) int page_drawn_steps(void)
{
    return leg_of(&the_drawn, the_steps);
}

FOR_THE_PAGE(drawn_cart) int page_drawn_cart(void)
{
    return the_drawn.cart;
}

FOR_THE_PAGE(fault_line) int page_fault_line(void)
{
    return the_fault.line;
}

FOR_THE_PAGE(fault_words) const char *page_fault_words(void)
{
    return the_fault.words;
}

/* The leg in the order of driving, as a drawing says it: the list of steps backwards, without the goal's. */
static void leave_by(const uint8_t *step, struct leave *leave)
{
    leave->line = 0;
    for (size_t i = 0; i < HANJOLUM_STEP; i++)
        leave->step[i] = step[i];
}

/* Writes the floor, the first steps of the list and the cart, -1 for none, as text; answers its length. */
FOR_THE_PAGE(write) uint32_t page_write(uint32_t count, int cart)
{
    for (size_t i = 0; i < HANJOLUM_FLOOR; i++)
        the_drawn.costs[i] = the_floor[i];
    the_drawn.goal = count == 0 ? -1 : the_steps[HANJOLUM_STEP_SECTOR] * HANJOLUM_CELLS + the_steps[HANJOLUM_STEP_GOAL];
    the_drawn.cart = cart;
    the_drawn.leave_count = count == 0 ? 0 : (int)count - 1;
    for (uint32_t i = 1; i < count; i++)
        leave_by(the_steps + i * HANJOLUM_STEP, &the_drawn.leaves[count - 1 - i]);
    return (uint32_t)write_floor(&the_drawn, the_text, TEXT);
}

FOR_THE_PAGE(version) uint32_t page_version(void)
{
    return hanjolum_version();
}

FOR_THE_PAGE(header_version) uint32_t page_header_version(void)
{
    return HANJOLUM_VERSION_NUMBER;
}
