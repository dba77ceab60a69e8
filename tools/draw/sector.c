/*
 * Plans one sector, drawn or of a practice floor, and shows the drawing, its arrows and its flow bytes side by side; a drawn one can
 * also be a picture.
 * Every practice floor comes from hanjolum_practice_floor, every arrow from hanjolum_sector or hanjolum_sector_without_sight, and
 * which arrows of a sector never arrive from hanjolum_arrivals. A window wants the field of the sector across it, which is not drawn:
 * it gets one of zeros, so that each of its cells points straight across.
 */
#include <string.h>

#include "draw.h"

/* How a cell is shown: its arrow where its byte has one. */
static const char *shown(uint8_t byte, uint8_t cost, int ascii)
{
    uint8_t direction = hanjolum_get_compass_dir_from_bits(byte);
    if (direction != HANJOLUM_ZERO)
        return ascii ? LETTERS[direction] : ARROWS[direction];
    if (hanjolum_is_wall(byte))
        return cost == HANJOLUM_WALL ? (ascii ? "##" : "█") : (ascii ? "x " : "x");
    if (hanjolum_is_goal(byte))
        return ascii ? "G " : "G";
    return ascii ? "* " : "*";
}

/* A row of a sector: its drawing, its arrows and its flow bytes. */
static void show_row(const struct sector_drawing *drawing, const uint8_t *sheet, const char *lost, int row, int ascii)
{
    printf("%.*s   ", SIDE, drawing->letters + row * SIDE);
    for (int column = 0; column < SIDE; column++) {
        int cell = row * SIDE + column;
        printf("%s%c", shown(sheet[cell], drawing->costs[cell], ascii), lost[cell] ? '!' : ' ');
    }
    printf("  ");
    for (int column = 0; column < SIDE; column++)
        printf("%02x", sheet[row * SIDE + column]);
    printf("\n");
}

/* Asks the library which reached cells of a sector have arrows that never arrive. A sector's sheet is no floor's, so that it is the call
   for arrivals that tells it here, and a window is arrived at. */
static void find_lost(const uint8_t *sheet, char *lost)
{
    HanjolumArrivals arrivals = hanjolum_arrivals(sheet, HANJOLUM_CELLS);
    for (int cell = 0; cell < HANJOLUM_CELLS; cell++)
        lost[cell] = (char)(arrivals.moves[cell] == HANJOLUM_NEVER && !hanjolum_is_wall(sheet[cell]));
}

static void show(const struct sector_drawing *drawing, const uint8_t *sheet, int practice, int ascii, int sight)
{
    char lost[HANJOLUM_CELLS];
    find_lost(sheet, lost);
    for (int row = 0; row < SIDE; row++)
        show_row(drawing, sheet, lost, row, ascii);
    printf("\n%s wall   x not reached   G goal%s\n", ascii ? "##" : "█", sight ? "   * goal in sight, no arrow needed" : "");
    if (!sight)
        printf("%s\n", SIGHTLESS);
    if (name_lost("! followed, the arrows never arrive: cells", lost) > 0)
        printf("\n");
    if (practice)
        printf("on the left, the floor: . cost 1   : cost 10   # wall   G goal, cell %d, cost 1\n", drawing->first);
}

static void practice_drawing(const char *seed, struct sector_drawing *drawing)
{
    static struct floor floor;
    practice_floor(seed, &floor);
    *drawing = (struct sector_drawing){.mark = 'G', .marked = 1, .first = floor.goal, .last = floor.goal};
    memcpy(drawing->costs, floor.costs, sizeof drawing->costs);
    for (int cell = 0; cell < HANJOLUM_CELLS; cell++)
        drawing->letters[cell] = cell == floor.goal ? 'G' : floor.costs[cell] == 1 ? '.' : floor.costs[cell] == 10 ? ':' : '#';
}

/* A drawn sector as a floor of one sector; one that is left by a window has no goal. */
static void floor_of(const struct sector_drawing *drawing, struct floor *floor)
{
    *floor = (struct floor){.columns = SIDE, .rows = SIDE, .goal = drawing->mark == 'G' ? drawing->first : -1, .cart = -1};
    memset(floor->costs, HANJOLUM_WALL, sizeof floor->costs);
    memcpy(floor->costs, drawing->costs, sizeof drawing->costs);
    memcpy(floor->lines, drawing->lines, sizeof drawing->lines);
}

/* Plans a drawn sector onto a sheet, and answers its number. */
static uint8_t plan_sector(const struct sector_drawing *drawing, int sight, uint8_t *sheet)
{
    static const uint32_t zeros[HANJOLUM_CELLS];
    uint8_t step[HANJOLUM_STEP];
    bool window = drawing->mark != 'G';
    sector_step(drawing, step);
    HanjolumBuildAnswer answer = sight ? hanjolum_sector(drawing->costs, HANJOLUM_CELLS, step, HANJOLUM_STEP, window, zeros, HANJOLUM_CELLS,
                                                         sheet, HANJOLUM_CELLS)
                                       : hanjolum_sector_without_sight(drawing->costs, HANJOLUM_CELLS, step, HANJOLUM_STEP, window, zeros,
                                                                       HANJOLUM_CELLS, sheet, HANJOLUM_CELLS);
    return answer.number;
}

/* The picture of a drawn sector that is planned. */
static void put_sector(const struct asked *asked, const struct sector_drawing *drawing, const struct floor *floor, const uint8_t *sheet)
{
    static struct plan plan;
    uint8_t step[HANJOLUM_STEP];
    sector_step(drawing, step);
    plan_alone(&plan, name_of(asked->file), floor, step, sheet, !asked->without_sight);
    put_picture(&plan, asked->picture);
}

void draw_sector(const struct asked *asked)
{
    static struct floor floor;
    struct sector_drawing drawing;
    uint8_t sheet[HANJOLUM_CELLS] = {0};
    if (asked->seed != NULL)
        practice_drawing(asked->seed, &drawing);
    else
        sector_in(asked->file, &drawing);
    uint8_t number = plan_sector(&drawing, !asked->without_sight, sheet);
    if (number != HANJOLUM_ACCEPTED)
        fail("%s: refused with number %d: %s", name_of(asked->file), number, hanjolum_refusal_text(number));
    floor_of(&drawing, &floor);
    warn_of_zeros(name_of(asked->file), &floor, 1);
    if (asked->picture != NULL)
        put_sector(asked, &drawing, &floor, sheet);
    else
        show(&drawing, sheet, asked->seed != NULL, asked->ascii, !asked->without_sight);
}
