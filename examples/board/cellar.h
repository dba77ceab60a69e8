/*
 * A small cellar for a board: three sectors with racks, and the leg over them as the tablet sends it. All of it is constant, and lies in
 * flash. W is a wall, o a cost of 1, and a 4 the cost of a bad floor.
 */
#ifndef CELLAR_H
#define CELLAR_H

#include "hanjolum.h"

enum { LEG_STEPS = 3, GOAL_SECTOR = 9, GOAL_CELL = 44, CART_SECTOR = 18, CART_CELL = 94 };

#define W HANJOLUM_WALL
#define o 1

#define COSTS_OF_SECTOR_9 \
    o, o, o, o, o, o, o, o, o, o, \
    o, o, o, o, o, o, o, o, o, o, \
    o, o, W, W, W, W, o, o, o, o, \
    o, o, o, o, o, W, o, o, o, o, \
    o, o, o, o, o, W, o, o, o, o, \
    o, o, o, o, o, W, o, o, o, o, \
    o, o, o, 4, 4, 4, o, o, o, o, \
    o, o, o, 4, 4, 4, o, o, o, o, \
    o, o, o, W, W, W, W, o, o, o, \
    o, o, o, o, o, o, o, o, o, o

#define COSTS_OF_SECTOR_10 \
    W, o, o, o, o, o, o, o, o, o, \
    W, o, o, o, o, o, o, o, o, o, \
    W, o, o, o, W, W, o, o, o, o, \
    o, o, o, o, W, W, o, o, o, o, \
    o, o, o, o, W, W, o, o, o, o, \
    o, o, o, o, o, o, o, o, o, o, \
    o, o, o, o, o, o, o, o, o, o, \
    W, o, o, o, o, o, o, o, o, o, \
    W, o, o, W, W, W, W, W, o, o, \
    W, o, o, o, o, o, o, o, o, o

#define COSTS_OF_SECTOR_18 \
    W, W, W, o, o, o, o, W, W, W, \
    o, o, o, o, o, o, o, o, o, o, \
    o, o, o, o, o, o, o, o, o, o, \
    o, o, W, W, W, W, W, W, o, o, \
    o, o, o, o, o, o, o, W, o, o, \
    o, o, o, o, o, o, o, W, o, o, \
    o, o, W, W, W, W, W, W, o, o, \
    o, o, o, o, o, o, o, o, o, o, \
    o, o, o, o, o, o, o, o, o, o, \
    o, o, o, o, o, o, o, o, o, o

/* The leg file: LEG, version 1, three steps. From the goal back: cell 44 of sector 9; sector 10, east of it, left by its west window
   from cell 30 to 60; sector 18, south of 10, left by its north window from cell 3 to 6. */
static const uint8_t SENT[HANJOLUM_FILE_HEAD + LEG_STEPS * HANJOLUM_STEP] = {
    'L', 'E', 'G', 1, 0, LEG_STEPS,
    GOAL_SECTOR, GOAL_CELL, HANJOLUM_MARK_GOAL, 0, 0, 0, 0, 0,
    10, 0, HANJOLUM_MARK_WINDOW, 30, 60, HANJOLUM_WEST, 0, 0,
    CART_SECTOR, 0, HANJOLUM_MARK_WINDOW, 3, 6, HANJOLUM_NORTH, 0, 0,
};

#endif
