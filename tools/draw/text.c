/*
 * Shows a planned floor as text: a row of sectors below the other, each cell its arrow and behind it a sign.
 */
#include "draw.h"

/* How a cell is shown, in two columns: its arrow, or what it has in place of one. */
static const char *glyph(const struct plan *plan, int place, int ascii)
{
    uint8_t direction = hanjolum_get_compass_dir_from_bits(plan->sheet[place]);
    switch (look_of(plan, place)) {
    case WALL_CELL: return ascii ? "##" : "█";
    case UNPLANNED: return ascii ? ". " : "·";
    case UNREACHED: return ascii ? "x " : "x";
    case GOAL: return ascii ? "G " : "G";
    case IN_SIGHT: return ascii ? "* " : "*";
    default: return ascii ? LETTERS[direction] : ARROWS[direction];
    }
}

/* The sign behind a cell: the cart, that its arrows never arrive, the cart's way, or a window's cell. */
static char sign(const struct plan *plan, const char *on_way, int place)
{
    if (place == plan->floor->cart)
        return 'C';
    if (plan->lost[place])
        return '!';
    if (on_way[place])
        return 'o';
    return !is_window(plan, place) ? ' ' : counts(plan, place) ? '+' : '-';
}

/* The heads of a row of sectors. */
static void show_heads(const struct plan *plan, int row, int width)
{
    const struct floor *floor = plan->floor;
    for (int column = 0; column < floor->columns; column += SIDE) {
        char head[64];
        int sector = place_at(floor->corner % ACROSS * SIDE + column, row) / HANJOLUM_CELLS;
        int step = plan->step_of[sector];
        if (step < 0)
            snprintf(head, sizeof head, "sector %d", sector);
        else if (step == 0)
            snprintf(head, sizeof head, "sector %d, the goal's", sector);
        else
            snprintf(head, sizeof head, "sector %d, %d of %d", sector, plan->count - step, plan->count);
        printf("%-*s", column + SIDE < floor->columns ? width * SIDE + 2 : 0, head);
    }
    printf("\n");
}

static void show_row(const struct plan *plan, const char *on_way, int row, int ascii)
{
    const struct floor *floor = plan->floor;
    for (int column = 0; column < floor->columns; column++) {
        int place = place_at(floor->corner % ACROSS * SIDE + column, row);
        printf("%s%c%s", glyph(plan, place, ascii), sign(plan, on_way, place), (column + 1) % SIDE == 0 && column + 1 < floor->columns ? "| " : "");
    }
    printf("\n");
}

static void show_costs(const struct plan *plan, int row)
{
    const struct floor *floor = plan->floor;
    for (int column = 0; column < floor->columns; column++) {
        uint8_t cost = floor->costs[place_at(floor->corner % ACROSS * SIDE + column, row)];
        if (cost == HANJOLUM_WALL)
            printf(" ###");
        else
            printf(" %3d", cost);
        printf("%s", (column + 1) % SIDE == 0 && column + 1 < floor->columns ? " |" : "");
    }
    printf("\n");
}

int name_lost(const char *before, const char *lost)
{
    int count = 0;
    for (int cell = 0; cell < HANJOLUM_CELLS; cell++) {
        if (!lost[cell])
            continue;
        printf("%s %d", count == 0 ? before : "", cell);
        count += 1;
    }
    return count;
}

/* One line that says from which cells the arrows never arrive, where there are any: the goal's sector first. */
static void show_lost(const struct plan *plan)
{
    char before[80];
    int count = 0;
    for (int i = 0; i < plan->count; i++) {
        int sector = plan->steps[i * HANJOLUM_STEP + HANJOLUM_STEP_SECTOR];
        snprintf(before, sizeof before, "%s sector %d, cells", count == 0 ? "! followed, the arrows never arrive:" : ";", sector);
        count += name_lost(before, plan->lost + sector * HANJOLUM_CELLS);
    }
    if (count > 0)
        printf("\n");
}

/* The floor's rows, its arrows or its costs, with a gap below each row of sectors. */
static void show_rows(const struct plan *plan, int ascii, int costs)
{
    char on_way[HANJOLUM_FLOOR] = {0};
    int first = plan->floor->corner / ACROSS * SIDE;
    for (int i = 0; i <= plan->moves; i++)
        on_way[plan->way[i]] = 1;
    for (int row = first; row < first + plan->floor->rows; row++) {
        if (row % SIDE == 0)
            show_heads(plan, row, costs ? 4 : ascii ? 3 : 2);
        if (costs)
            show_costs(plan, row);
        else
            show_row(plan, on_way, row, ascii);
        if (row % SIDE == SIDE - 1)
            printf("\n");
    }
}

void show_floor(const struct plan *plan, int ascii, int with_costs)
{
    char line[200];
    show_rows(plan, ascii, 0);
    if (with_costs)
        show_rows(plan, ascii, 1);
    printf("%s wall   x not reached   G goal%s   %s not planned\n", ascii ? "##" : "█", plan->sight ? "   * goal in sight" : "",
           ascii ? "." : "·");
    if (!plan->sight)
        printf("%s\n", SIGHTLESS);
    printf("behind a cell: + window   - window cell that does not count   ! never arrives   C cart   o its way\n");
    show_lost(plan);
    say_way(plan, line, sizeof line);
    printf("%s\n", line);
}
