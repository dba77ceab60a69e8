/*
 * What the parts of the drawing tool share. Drawings are read in reading.c, their files and practice floors in floor.c; a floor's
 * leg is planned and followed in plan.c, and shown as text in text.c and as a picture in picture.c; sector.c draws one sector,
 * output.c writes pictures to files, and draw.c reads the words.
 */
#ifndef DRAW_H
#define DRAW_H

#include <stdio.h>

#include "reading.h"

/* What the words ask for: the file, NULL for standard input, a floor or a sector, or the seed of a practice floor. */
struct asked {
    const char *file;
    const char *seed;
    const char *picture;
    int floor;
    int costs;
    int ascii;
    int without_sight;
};

/* A planned leg over a floor, followed; or a sector that is drawn alone, as sector 0 of a floor. */
struct plan {
    const char *name;                /* what it was drawn in */
    const struct floor *floor;
    int alone;                       /* a sector that is drawn alone, with a goal or left by a window */
    int sight;                       /* planned with sight, or without */
    uint8_t steps[HANJOLUM_STEP * HANJOLUM_STEPS];
    int count;                       /* steps, from the goal back */
    int step_of[HANJOLUM_SECTORS];   /* the step that names a sector, from 0; -1 for none */
    uint8_t sheet[HANJOLUM_FLOOR];
    HanjolumWay ways[HANJOLUM_FLOOR]; /* where the moves from each place end */
    uint8_t moves_out[HANJOLUM_CELLS]; /* of a sector alone, left by a window: the moves to it, HANJOLUM_NEVER for none */
    char lost[HANJOLUM_FLOOR];       /* whether a reached cell's way ends neither at the goal nor in its sight, nor in the window */
    int way[HANJOLUM_FLOOR + 1];     /* the cart's places, `moves` + 1 of them; -1 moves where there is no cart */
    int moves;
    int crossing;                    /* the moves after which it is in the goal's sector; -1 if it never is */
};

/* What a cell of a planned floor is to be shown as. */
enum look { WALL_CELL, UNPLANNED, UNREACHED, GOAL, IN_SIGHT, ARROW };

/* Ends the program with a line on standard error. */
_Noreturn void fail(const char *format, ...);

/* What a drawing is called in messages, NULL for standard input. */
const char *name_of(const char *file);

/* Read a drawing from a file, NULL for standard input. They end the program where it is at fault. */
void floor_in(const char *file, struct floor *floor);
void sector_in(const char *file, struct sector_drawing *drawing);

/* The practice floor of a seed, as a floor of one sector, and what it is called. */
void practice_floor(const char *seed, struct floor *floor);
const char *practice_name(const char *seed);

/* Plans a floor's leg, with sight or without, asks for the way from every cell, and drives its cart. Ends the program where it is
   refused. */
void plan_floor(struct plan *plan, const char *name, const struct floor *floor, int sight);

/* Takes a sector that is drawn alone, its step and its planned sheet for a plan, and asks for the way from every cell. */
void plan_alone(struct plan *plan, const char *name, const struct floor *floor, const uint8_t *step, const uint8_t *sheet, int sight);

/* Whether a plan is of a sector alone that is left by a window. */
int by_window(const struct plan *plan);
enum look look_of(const struct plan *plan, int place);

/* Whether a place is a cell of its sector's window, and whether it counts. */
int is_window(const struct plan *plan, int place);
int counts(const struct plan *plan, int place);

/* What is said of a sector or a floor that was planned without sight. */
extern const char SIGHTLESS[];

/* What the cart does, as a sentence. */
void say_way(const struct plan *plan, char *line, size_t size);

/* Names the lost cells of a sector behind some words, where there are any, and answers how many there are. */
int name_lost(const char *before, const char *lost);

/* Plans a sector, or a practice floor, and shows it as text, or a sector as a picture. */
void draw_sector(const struct asked *asked);
void show_floor(const struct plan *plan, int ascii, int with_costs);
void write_picture(const struct plan *plan, FILE *out);

/* Writes the picture of a plan to a file, - for standard output, and says so. Ends the program where it cannot be written. */
void put_picture(const struct plan *plan, const char *name);

/* Ends the program where a picture would be written onto the drawing itself, by whatever name; a drawing of NULL is standard input. */
void keep_drawing(const char *file, const char *picture);

/* Warns, on standard error, of planned cells that cost 0; a sector that is drawn alone is not named. */
void warn_of_zeros(const char *name, const struct floor *floor, int alone);

/* Ends the program where what was printed did not arrive. */
void written(void);

extern const char *const ARROWS[];
extern const char *const LETTERS[];

#endif
