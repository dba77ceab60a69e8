/*
 * Writes a planned floor, or a sector alone, as one picture that needs nothing else: SVG, which a browser opens. Above each sector
 * stands its number and its place in the leg, round it its columns and rows. A cell tells its cost, its flow byte and its moves to the
 * goal, into its sight, or to the window of a sector alone, when it is pointed at.
 */
#include "draw.h"

/* In the picture's units: a cell, what lies round the floor, the strip above a sector and beside it, the least width. */
enum { CELL = 26, LEFT = 34, TOP = 92, FOOT = 116, HEAD = 34, GAP = 18, LEAST = 900 };

static const char *const STYLE =
    "<style>\n"
    "*{pointer-events:none}\n"
    ".c{stroke:#d5d5d5;stroke-width:.6;pointer-events:all}\n"
    ".w{fill:#3d4450;stroke:#3d4450}\n"
    "text{font-family:sans-serif;fill:#222}\n"
    ".n{font-size:8px;fill:#5a3a10}\n"
    ".e{font-size:8px;fill:#777;text-anchor:middle}\n"
    ".e,.s{paint-order:stroke;stroke:#fff;stroke-width:3;stroke-linejoin:round}\n"
    ".s{font-size:12px}\n"
    ".v{font-size:12px;fill:#777}\n"
    ".u{fill:#fff;fill-opacity:.62}\n"
    ".k{fill:none;stroke:#1f3f77;stroke-width:1.7;stroke-linecap:round;stroke-linejoin:round}\n"
    ".r{fill:none;stroke:#c00f0f;stroke-width:2.4;stroke-linecap:round;stroke-linejoin:round}\n"
    ".d{fill:#e02020;fill-opacity:.2}\n"
    ".x{stroke:#999;stroke-width:1.5}\n"
    ".i,.h{fill:#2e8b45}\n"
    ".l{font-size:13px;font-weight:bold;fill:#fff;text-anchor:middle}\n"
    ".p{fill:none;stroke:#0a6ed1;stroke-width:2.5}\n"
    ".q{fill:none;stroke:#a03fc9;stroke-width:2.2;stroke-dasharray:4 2.5}\n"
    ".f{fill:none;stroke:#aaa;stroke-width:1}\n"
    ".g{fill:none;stroke:#1f3f77;stroke-width:2.5}\n"
    ".z{fill:none;stroke:#2e8b45;stroke-width:4}\n"
    ".t{fill:none;stroke:#ff9100;stroke-width:7;stroke-opacity:.55;stroke-linecap:round;stroke-linejoin:round}\n"
    ".o{fill:#ff9100;stroke:#7a4500;stroke-width:2}\n"
    "</style>\n"
    "<defs><path id=\"a\" d=\"M-6.5 0H6M1.5-4.5L6.5 0L1.5 4.5\"/><path id=\"b\" d=\"M-4-4L4 4M4-4L-4 4\"/></defs>\n";

static int left_of(const struct plan *plan, int place)
{
    int column = column_of(place) - plan->floor->corner % ACROSS * SIDE;
    return LEFT + column * CELL + column / SIDE * GAP;
}

static int top_of(const struct plan *plan, int place)
{
    int row = row_of(place) - plan->floor->corner / ACROSS * SIDE;
    return TOP + row * CELL + (row / SIDE + 1) * HEAD;
}

/* The middle of a cell's arrow; above it is room for a cost. */
static int middle_x(const struct plan *plan, int place)
{
    return left_of(plan, place) + CELL / 2;
}

static int middle_y(const struct plan *plan, int place)
{
    return top_of(plan, place) + CELL / 2 + 2;
}

/* The colour of a cost: 0 green, 1 white, and from there to brown, each doubling as much darker. */
static void write_colour(FILE *out, int cost)
{
    int bits = 0;
    if (cost == 0) {
        fprintf(out, "#c8ecc8");
        return;
    }
    while (cost >> (bits + 1) != 0)
        bits += 1;
    int depth = bits * 16 + (cost - (1 << bits)) * 16 / (1 << bits);
    fprintf(out, "#%02x%02x%02x", 255 - depth * 45 / 127, 255 - depth * 120 / 127, 255 - depth * 190 / 127);
}

/* Whether a cell shows its cost as a number: a cost of 1 is left out, and a wall. Its arrow is a little smaller and lower. */
static int has_number(const struct plan *plan, int place)
{
    return plan->floor->costs[place] != 1 && plan->floor->costs[place] != HANJOLUM_WALL;
}

/* Where a cell lies. */
static void write_place(const struct plan *plan, FILE *out, int place)
{
    if (!plan->alone)
        fprintf(out, "sector %d, ", place / HANJOLUM_CELLS);
    fprintf(out, "column %d, row %d", place % SIDE, place % HANJOLUM_CELLS / SIDE);
}

/* What a cell tells when it is pointed at. */
static void write_told(const struct plan *plan, FILE *out, int place)
{
    const HanjolumWay *way = &plan->ways[place];
    int named = plan->step_of[place / HANJOLUM_CELLS] >= 0;
    fprintf(out, "<title>");
    write_place(plan, out, place);
    fprintf(out, ": cost %d", plan->floor->costs[place]);
    if (named)
        fprintf(out, ", byte 0x%02x", plan->sheet[place]);
    if (named && way->outcome == HANJOLUM_OUTCOME_ARRIVED)
        fprintf(out, ", %d moves to the goal", way->moves);
    if (named && way->outcome == HANJOLUM_OUTCOME_IN_SIGHT)
        fprintf(out, ", %d moves into sight of the goal", way->moves);
    if (by_window(plan) && plan->moves_out[place] != HANJOLUM_NEVER)
        fprintf(out, ", %d moves to the window", plan->moves_out[place]);
    fprintf(out, "%s</title>", plan->lost[place] ? ", never arrives" : "");
}

/* A cell's ground, by its cost, and the cost itself where it is not 1. */
static void write_ground(const struct plan *plan, FILE *out, int place)
{
    int cost = plan->floor->costs[place];
    int x = left_of(plan, place), y = top_of(plan, place);
    fprintf(out, "<rect class=\"c%s\" x=\"%d\" y=\"%d\" width=\"%d\" height=\"%d\"", cost == HANJOLUM_WALL ? " w" : "", x, y, CELL, CELL);
    if (cost != HANJOLUM_WALL) {
        fprintf(out, " fill=\"");
        write_colour(out, cost);
        fprintf(out, "\"");
    }
    fprintf(out, ">");
    write_told(plan, out, place);
    fprintf(out, "</rect>\n");
    if (plan->lost[place])
        fprintf(out, "<rect class=\"d\" x=\"%d\" y=\"%d\" width=\"%d\" height=\"%d\"/>\n", x, y, CELL, CELL);
    if (has_number(plan, place))
        fprintf(out, "<text class=\"n\" x=\"%d\" y=\"%d\">%d</text>\n", x + 3, y + 9, cost);
}

/* What a cell has besides its cost: its arrow, its goal, and whether it is a window's. */
static void write_sign(const struct plan *plan, FILE *out, int place)
{
    static const int turns[] = {-90, 0, 90, 180, -45, 45, 135, -135};
    int x = middle_x(plan, place), y = middle_y(plan, place);
    enum look look = look_of(plan, place);
    if (is_window(plan, place))
        fprintf(out, "<rect class=\"%c\" x=\"%d\" y=\"%d\" width=\"%d\" height=\"%d\"/>\n", counts(plan, place) ? 'p' : 'q',
                left_of(plan, place) + 1, top_of(plan, place) + 1, CELL - 2, CELL - 2);
    if (look == ARROW)
        fprintf(out, "<use href=\"#a\" class=\"%c\" transform=\"translate(%d %d) rotate(%d)%s\"/>\n", plan->lost[place] ? 'r' : 'k', x,
                y + has_number(plan, place), turns[hanjolum_get_compass_dir_from_bits(plan->sheet[place])],
                has_number(plan, place) ? " scale(.85)" : "");
    else if (look == UNREACHED)
        fprintf(out, "<use href=\"#b\" class=\"x\" transform=\"translate(%d %d)\"/>\n", x, y);
    else if (look == IN_SIGHT)
        fprintf(out, "<circle class=\"i\" cx=\"%d\" cy=\"%d\" r=\"3\"/>\n", x, y);
    else if (look == GOAL)
        fprintf(out, "<circle class=\"h\" cx=\"%d\" cy=\"%d\" r=\"10\"/><text class=\"l\" x=\"%d\" y=\"%d\">G</text>\n", x, y - 1, x, y + 4);
}

/* The first and the last of the cart's moves after which it is in a sector; 0 where it never is. */
static int moves_in(const struct plan *plan, int sector, int *first, int *last)
{
    *first = -1;
    for (int i = 0; i <= plan->moves; i++) {
        if (plan->way[i] / HANJOLUM_CELLS != sector)
            continue;
        *first = *first < 0 ? i : *first;
        *last = i;
    }
    return *first >= 0;
}

/* The sides of a sector, in words. */
static const char *const SIDES[] = {"north", "east", "south", "west"};

/* Above a sector: its number, its place in the leg, and the cart's moves there. */
static void write_name(const struct plan *plan, FILE *out, int sector)
{
    int place = sector * HANJOLUM_CELLS, step = plan->step_of[sector], first, last;
    fprintf(out, "<text class=\"s\" x=\"%d\" y=\"%d\"><tspan font-weight=\"bold\">", left_of(plan, place), top_of(plan, place) - 15);
    if (plan->alone)
        fprintf(out, "the sector</tspan>");
    else
        fprintf(out, "sector %d</tspan>", sector);
    if (step > 0)
        fprintf(out, ", %d of %d", plan->count - step, plan->count);
    if (step == 0 && !plan->alone)
        fprintf(out, ", the goal's");
    if (by_window(plan))
        fprintf(out, ", left %s", SIDES[plan->steps[HANJOLUM_STEP_BOUNDARY]]);
    if (moves_in(plan, sector, &first, &last))
        fprintf(out, ", moves %d to %d", first, last);
    fprintf(out, "</text>\n");
}

/* Round a sector: its columns and rows, its frame, and a veil where no step names it. */
static void write_frame(const struct plan *plan, FILE *out, int sector)
{
    int place = sector * HANJOLUM_CELLS;
    int x = left_of(plan, place), y = top_of(plan, place), side = SIDE * CELL;
    if (plan->step_of[sector] < 0)
        fprintf(out, "<rect class=\"u\" x=\"%d\" y=\"%d\" width=\"%d\" height=\"%d\"/>\n", x, y, side, side);
    fprintf(out, "<rect class=\"%c\" x=\"%d\" y=\"%d\" width=\"%d\" height=\"%d\"/>\n",
            plan->step_of[sector] < 0 ? 'f' : plan->step_of[sector] == 0 && !by_window(plan) ? 'z' : 'g', x, y, side, side);
    for (int i = 0; i < SIDE; i++) {
        fprintf(out, "<text class=\"e\" x=\"%d\" y=\"%d\">%d</text>", x + i * CELL + CELL / 2, y - 4, i);
        fprintf(out, "<text class=\"e\" x=\"%d\" y=\"%d\">%d</text>\n", x - 8, y + i * CELL + CELL / 2 + 3, i);
    }
}

/* The cart's way, and the cart at its beginning. */
static void write_way(const struct plan *plan, FILE *out)
{
    if (plan->moves < 0)
        return;
    fprintf(out, "<polyline class=\"t\" points=\"");
    for (int i = 0; i <= plan->moves; i++)
        fprintf(out, "%s%d,%d", i == 0 ? "" : " ", middle_x(plan, plan->way[i]), middle_y(plan, plan->way[i]));
    fprintf(out, "\"/>\n<circle class=\"o\" cx=\"%d\" cy=\"%d\" r=\"9\"/>\n", middle_x(plan, plan->way[0]), middle_y(plan, plan->way[0]));
}

/* Text with the letters that XML takes otherwise written out. */
static void write_text(FILE *out, const char *text)
{
    for (; *text != '\0'; text++) {
        if (*text == '&')
            fputs("&amp;", out);
        else if (*text == '<')
            fputs("&lt;", out);
        else if ((unsigned char)*text >= ' ')
            fputc(*text, out);
    }
}

/* How many cells are lost, in the goal's sector and in others. */
static void write_lost(const struct plan *plan, FILE *out)
{
    int inside = 0, outside = 0;
    for (int place = 0; place < HANJOLUM_FLOOR; place++)
        *(plan->step_of[place / HANJOLUM_CELLS] == 0 ? &inside : &outside) += plan->lost[place];
    if (inside + outside == 0)
        return;
    fprintf(out, "<text x=\"%d\" y=\"76\" font-size=\"14\">Followed, the red arrows never arrive: %d cells", LEFT, inside);
    if (!plan->alone)
        fprintf(out, " of the goal's sector, %d of others", outside);
    fprintf(out, "</text>\n");
}

/* What the picture is of. */
static void write_title(const struct plan *plan, FILE *out)
{
    fprintf(out, "<text x=\"%d\" y=\"30\" font-size=\"20\" font-weight=\"bold\">", LEFT);
    write_text(out, plan->name);
    if (by_window(plan))
        fprintf(out, ": a sector left %s by a window", SIDES[plan->steps[HANJOLUM_STEP_BOUNDARY]]);
    else if (plan->alone)
        fprintf(out, ": a sector with a goal");
    else
        fprintf(out, ": a leg of %d sector%s", plan->count, plan->count == 1 ? "" : "s");
    fprintf(out, "%s</text>\n", plan->sight ? "" : ", planned without sight");
}

static void write_head(const struct plan *plan, FILE *out)
{
    char line[200];
    say_way(plan, line, sizeof line);
    write_title(plan, out);
    if (!plan->alone)
        fprintf(out, "<text x=\"%d\" y=\"54\" font-size=\"14\">%c%s</text>\n", LEFT, line[0] - 'a' + 'A', line + 1);
    write_lost(plan, out);
}

/* The leg's steps, for those who read the file and not the picture. */
static void write_steps(const struct plan *plan, FILE *out)
{
    fprintf(out, "<desc>%s%s", plan->sight ? "" : "planned without sight; ", plan->alone ? "the step:" : "steps, from the goal back:");
    for (int i = 0; i < plan->count * HANJOLUM_STEP; i++)
        fprintf(out, "%s%02x", i % HANJOLUM_STEP == 0 ? " " : "", plan->steps[i]);
    fprintf(out, "</desc>\n");
}

/* What the colours of costs mean. */
static void write_costs(FILE *out, int x, int y)
{
    static const int costs[] = {0, 1, 2, 5, 10, 25, 50, 100, 200, 254};
    fprintf(out, "<text x=\"%d\" y=\"%d\" font-size=\"12\">costs</text>\n", x, y + 4);
    for (int i = 0; i < 10; i++) {
        fprintf(out, "<rect class=\"f\" x=\"%d\" y=\"%d\" width=\"36\" height=\"20\" style=\"fill:", x + 40 + i * 38, y - 10);
        write_colour(out, costs[i]);
        fprintf(out, "\"/><text x=\"%d\" y=\"%d\" font-size=\"11\" text-anchor=\"middle\">%d</text>\n", x + 58 + i * 38, y + 4, costs[i]);
    }
}

/* What the signs mean, in three rows; that of a cell in sight is left out where the floor is planned without sight. */
static void write_legend(const struct plan *plan, FILE *out, int y)
{
    static const struct { const char *sign, *text; int of_sight; } signs[] = {
        {"<use href=\"#a\" class=\"k\"/>", "arrow", 0},
        {"<rect class=\"d\" x=\"-10\" y=\"-10\" width=\"20\" height=\"20\"/><use href=\"#a\" class=\"r\"/>", "never arrives", 0},
        {"<path class=\"t\" d=\"M-4 0H9\"/><circle class=\"o\" cx=\"-4\" r=\"6\"/>", "the cart and its way", 0},
        {"<circle class=\"h\" r=\"9\"/><text class=\"l\" y=\"5\">G</text>", "goal", 0},
        {"<circle class=\"i\" r=\"3\"/>", "goal in sight, no arrow needed", 1},
        {"<rect class=\"w\" x=\"-9\" y=\"-9\" width=\"18\" height=\"18\"/>", "wall", 0},
        {"<use href=\"#b\" class=\"x\"/>", "not reached", 0},
        {"<rect class=\"f\" x=\"-9\" y=\"-9\" width=\"18\" height=\"18\"/>", "not in the leg", 0},
        {"<rect class=\"p\" x=\"-9\" y=\"-9\" width=\"18\" height=\"18\"/>", "window cell", 0},
        {"<rect class=\"q\" x=\"-9\" y=\"-9\" width=\"18\" height=\"18\"/>", "window cell, does not count", 0},
    };
    for (int i = 0, place = 0; i < 10; i++) {
        if (signs[i].of_sight && !plan->sight)
            continue;
        fprintf(out, "<g transform=\"translate(%d %d)\">%s<text x=\"17\" y=\"4\" font-size=\"12\">%s</text></g>\n", LEFT + 12 + place % 5 * 160,
                y + 26 + place / 5 * 30, signs[i].sign, signs[i].text);
        place += 1;
    }
    write_costs(out, LEFT, y + 88);
}

/* Each drawn place, or each drawn sector, handed to a part of the picture. */
static void each_place(const struct plan *plan, FILE *out, void (*write)(const struct plan *, FILE *, int))
{
    for (int place = 0; place < HANJOLUM_FLOOR; place++)
        if (is_drawn(plan->floor, place / HANJOLUM_CELLS))
            write(plan, out, place);
}

static void each_sector(const struct plan *plan, FILE *out, void (*write)(const struct plan *, FILE *, int))
{
    for (int sector = 0; sector < HANJOLUM_SECTORS; sector++)
        if (is_drawn(plan->floor, sector))
            write(plan, out, sector);
}

/* The floor between its head and its legend; what is written later lies above. */
static void write_sectors(const struct plan *plan, FILE *out)
{
    each_place(plan, out, write_ground);
    write_way(plan, out);
    each_sector(plan, out, write_frame);
    each_sector(plan, out, write_name);
    each_place(plan, out, write_sign);
}

/* As wide as the window where that is narrower, down to two thirds; from there on the browser scrolls. */
static void write_root(FILE *out, int width, int height)
{
    fprintf(out, "<svg xmlns=\"http://www.w3.org/2000/svg\" viewBox=\"0 0 %d %d\" width=\"%d\" height=\"%d\" ", width, height, width, height);
    fprintf(out, "style=\"max-width:100%%;min-width:%dpx;height:auto\">\n", width * 2 / 3);
    fprintf(out, "<rect width=\"%d\" height=\"%d\" fill=\"#fff\"/>\n%s", width, height, STYLE);
}

void write_picture(const struct plan *plan, FILE *out)
{
    int columns = plan->floor->columns, rows = plan->floor->rows;
    int wide = LEFT + columns * CELL + columns / SIDE * GAP, high = TOP + rows * CELL + rows / SIDE * HEAD;
    write_root(out, wide < LEAST ? LEAST : wide, high + FOOT);
    write_steps(plan, out);
    write_head(plan, out);
    write_sectors(plan, out);
    write_legend(plan, out, high);
    fprintf(out, "</svg>\n");
}
