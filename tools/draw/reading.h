/*
 * The one reading of drawings: a drawn floor with its leg, and a drawn sector, from bytes; and a floor written as such a
 * drawing. It needs no C library, keeps nothing between two calls and allocates nothing, so that the drawing tool, a page in
 * a browser and the comparison with the Rust all compile it in.
 *
 * A floor's drawing has rows of cells, with or without `|` between sectors and rules of `-` and `+` between their rows, and
 * lines that begin with a word:
 *
 *     ; a remark
 *     corner SECTOR                  the sector at the north-west of what is drawn, 0 where it is not said
 *     cost LETTER NUMBER             what a small letter stands for, 0 to 254
 *     leave SECTOR SIDE FROM TO      the leg, in the order of driving: by which window a sector is left
 *     goal SECTOR COLUMN ROW         where no G is drawn
 *     cart SECTOR COLUMN ROW         where no C is drawn
 *
 * A cell is `#` a wall, `.` a cost of 1, a digit or a small letter its cost, `G` the goal and `C` the cart, both of cost 1. A
 * row may also be numbers from 0 to 255 with spaces between.
 *
 * A sector's drawing is ten rows of ten cells: `#`, `.` and digits as above, and `G` the goal, or along one edge an unbroken
 * window of `N`, `E`, `S` or `W`, the side that it leads across.
 *
 * In both a mark of UTF-8 at the head, spaces at both ends of a line, a return at its end, empty lines, remarks, `|` and
 * rules say nothing. Sectors, columns, rows and cells are counted as in hanjolum.h: columns and rows of a sector 0 to 9 from
 * the north-west, cells 0 to 99, FROM and TO 0 to 9 along a side. A line of the text is counted from 1.
 */
#ifndef READING_H
#define READING_H

#include <stdbool.h>
#include <stddef.h>
#include <stdint.h>

#include "hanjolum.h"

enum {
    SIDE = 10,                       /* cells along a sector */
    ACROSS = 8,                      /* sectors along a floor */
    FLOOR_SIDE = SIDE * ACROSS,      /* cells along a floor */
    FLOOR_TEXT = 32768               /* bytes that are enough for every floor that is written */
};

/* What is wrong with a drawing: the line, from 1, 0 for the whole; and the words, which end with a NUL. */
struct fault {
    int line;
    char words[240];
};

/* A window by which a sector is left, and the line of the drawing that says so. */
struct leave {
    int line;
    uint8_t step[HANJOLUM_STEP];
};

/* A floor as it is drawn: a rectangle of sectors; what lies outside it is wall. Places are indexes of the floor's bytes. */
struct floor {
    int corner;                      /* the sector at the rectangle's north-west */
    int columns, rows;               /* its cells across and down */
    uint8_t costs[HANJOLUM_FLOOR];
    int goal, cart;                  /* their places, -1 for none */
    struct leave leaves[HANJOLUM_STEPS];
    int leave_count;                 /* in the order of driving */
    int lines[FLOOR_SIDE];           /* the line of each row of the rectangle */
};

/* A sector as it is drawn. A window is from cell `first` to cell `last`; a goal is both. */
struct sector_drawing {
    uint8_t costs[HANJOLUM_CELLS];
    char letters[HANJOLUM_CELLS];    /* the cells as they were drawn */
    char mark;                       /* 'G', or the window's 'N', 'E', 'S' or 'W' */
    int marked;                      /* how many cells have it */
    int first, last;
    int lines[SIDE];                 /* the line of each row */
};

/* Reads a floor's drawing. A floor may come without a goal: it is -1 then, and the floor has no leg. False where the drawing is
   at fault; what the floor holds then is nothing to go by. */
bool read_floor(const char *text, size_t length, struct floor *floor, struct fault *fault);

/* Reads a sector's drawing, alike. It has a goal or a window. */
bool read_sector(const char *text, size_t length, struct sector_drawing *drawing, struct fault *fault);

/* Writes a floor and its leg as a drawing, without a NUL behind it, and answers how many bytes it has; 0 where `size` bytes do
   not hold it. What is drawn is the smallest rectangle of sectors with all cells that are no wall, all sectors of the leg, the goal
   and the cart: read back, costs, leg, goal and cart are the same. */
size_t write_floor(const struct floor *floor, char *text, size_t size);

/* The steps of a floor's leg as a leg wants them, the goal's first, into HANJOLUM_STEPS times HANJOLUM_STEP bytes. Answers how
   many steps there are; 0 where there is no goal. */
int leg_of(const struct floor *floor, uint8_t *steps);

/* The step of a drawn sector, as sector 0, into HANJOLUM_STEP bytes. */
void sector_step(const struct sector_drawing *drawing, uint8_t *step);

/* The place at a column and a row of the floor, 0 to 79, and back. */
int place_at(int column, int row);
int column_of(int place);
int row_of(int place);

/* Whether a sector lies in the drawn rectangle. */
bool is_drawn(const struct floor *floor, int sector);

/* The line of the drawing that a place of its rectangle stands in. */
int line_of(const struct floor *floor, int place);

#endif
