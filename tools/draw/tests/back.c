/*
 * Writes floors that are drawn at random, COUNT of them, and reads them back: costs, leg, goal and cart must be the same, what is
 * drawn must be the smallest rectangle of sectors, a place that is a byte too small must be refused, and one that is as large as
 * the text must do. Then damages the texts a byte or more at a time, and reads those: each is read, or refused with words.
 * tools/draw/check builds and runs it. Prints how many floors were read back, or what is wrong and exits with 1.
 */
#include <stdio.h>
#include <stdlib.h>
#include <string.h>

#include "../reading.h"

static uint32_t state = 2463534242u;

/* A number below a bound. */
static int below(int bound)
{
    state ^= state << 13;
    state ^= state >> 17;
    state ^= state << 5;
    return (int)(state % (uint32_t)bound);
}

static void expect(int good, int at, const char *what)
{
    if (good)
        return;
    printf("floor %d: %s\n", at, what);
    exit(1);
}

/* A cost, of few kinds or of many. */
static uint8_t cost_of(int kinds)
{
    int kind = below(kinds);
    return (uint8_t)(kind == 0 ? HANJOLUM_WALL : kind == 1 ? 1 : kind * 37 % 255);
}

/* A window of any side of a sector. */
static void draw_leave(struct leave *leave, int sector)
{
    static const int starts[] = {0, SIDE - 1, HANJOLUM_CELLS - SIDE, 0};
    int side = below(4), first = below(SIDE), last = first + below(SIDE - first), stride = side % 2 == 0 ? 1 : SIDE;
    uint8_t step[HANJOLUM_STEP] = {(uint8_t)sector, 0, HANJOLUM_MARK_WINDOW, (uint8_t)(starts[side] + first * stride),
                                   (uint8_t)(starts[side] + last * stride), (uint8_t)side, 0, 0};
    memcpy(leave->step, step, sizeof step);
}

/* A sector of a rectangle: its west and north, and how many sectors it is wide and high. */
static int draw_sector(const int *part)
{
    return (part[1] + below(part[3])) * ACROSS + part[0] + below(part[2]);
}

/* A floor with costs in a rectangle of its sectors, and there a leg, a goal and a cart, or none. */
static void draw_floor(struct floor *floor)
{
    int kinds = (int[]){1, 2, 12, 20 + below(20), 256}[below(5)];
    int west = below(ACROSS), north = below(ACROSS), part[] = {west, north, 1 + below(ACROSS - west), 1 + below(ACROSS - north)};
    memset(floor->costs, HANJOLUM_WALL, sizeof floor->costs);
    for (int i = below(6000); i > 0; i--)
        floor->costs[draw_sector(part) * HANJOLUM_CELLS + below(HANJOLUM_CELLS)] = cost_of(kinds);
    floor->goal = below(4) == 0 ? -1 : draw_sector(part) * HANJOLUM_CELLS + below(HANJOLUM_CELLS);
    floor->cart = below(3) == 0 ? -1 : below(5) == 0 ? floor->goal : draw_sector(part) * HANJOLUM_CELLS + below(HANJOLUM_CELLS);
    floor->leave_count = below(2) * below(HANJOLUM_STEPS);
    for (int i = 0; i < floor->leave_count; i++)
        draw_leave(&floor->leaves[i], draw_sector(part));
}

/* Whether a row of sectors, or a column, has anything that must be drawn. */
static int is_held(const struct floor *floor, int line, int down)
{
    for (int place = 0; place < HANJOLUM_FLOOR; place++) {
        int sector = place / HANJOLUM_CELLS, held = floor->costs[place] != HANJOLUM_WALL || place == floor->goal || place == floor->cart;
        if ((down ? sector / ACROSS : sector % ACROSS) == line && held)
            return 1;
    }
    for (int i = 0; i < floor->leave_count; i++) {
        int sector = floor->leaves[i].step[HANJOLUM_STEP_SECTOR];
        if ((down ? sector / ACROSS : sector % ACROSS) == line)
            return 1;
    }
    return 0;
}

/* Whether the rectangle that was read has nothing to spare at any of its sides. */
static int is_smallest(const struct floor *drawn, const struct floor *read)
{
    int west = read->corner % ACROSS, north = read->corner / ACROSS;
    int east = west + read->columns / SIDE - 1, south = north + read->rows / SIDE - 1;
    if (west == 0 && north == 0 && east == 0 && south == 0)
        return 1;
    return is_held(drawn, west, 0) && is_held(drawn, east, 0) && is_held(drawn, north, 1) && is_held(drawn, south, 1);
}

static int same_leg(const struct floor *one, const struct floor *other)
{
    uint8_t steps[2][HANJOLUM_STEPS * HANJOLUM_STEP] = {{0}};
    int same = one->leave_count == other->leave_count && leg_of(one, steps[0]) == leg_of(other, steps[1]);
    for (int i = 0; same && i < one->leave_count; i++)
        same = memcmp(one->leaves[i].step, other->leaves[i].step, HANJOLUM_STEP) == 0;
    return same && memcmp(steps[0], steps[1], sizeof steps[0]) == 0;
}

/* What is said of a text has words, an end, and a line of the text. */
static void expect_fault(int at, const struct fault *fault, int lines)
{
    expect(memchr(fault->words, 0, sizeof fault->words) != NULL && strlen(fault->words) > 5, at, "no words for its fault");
    expect(fault->line >= 0 && fault->line <= lines, at, "a fault in no line of it");
}

/* Reads a damaged text. */
static void damage(int at, const char *text, size_t length)
{
    static char damaged[FLOOR_TEXT];
    static struct floor floor;
    struct sector_drawing sector;
    struct fault fault;
    int lines = 1;
    memcpy(damaged, text, length);
    for (int i = below(4); i >= 0; i--)
        damaged[below((int)length)] = "\n #.GCNa9;|-,\0\xffz0123456789abcdefgl"[below(35)];
    length -= (size_t)below(below(2) == 0 ? 2 : (int)length);
    for (size_t i = 0; i < length; i++)
        lines += damaged[i] == '\n';
    memset(&fault, -1, sizeof fault);
    if (!read_floor(damaged, length, &floor, &fault))
        expect_fault(at, &fault, lines);
    memset(&fault, -1, sizeof fault);
    if (!read_sector(damaged, length, &sector, &fault))
        expect_fault(at, &fault, lines);
}

static void hold(int at)
{
    static struct floor drawn, read;
    static char text[FLOOR_TEXT];
    struct fault fault = {0};
    draw_floor(&drawn);
    size_t length = write_floor(&drawn, text, sizeof text);
    expect(length > 0, at, "no room for its text");
    expect(write_floor(&drawn, text, length - 1) == 0, at, "written into a place that is too small");
    expect(write_floor(&drawn, text, length) == length, at, "not written into a place that is as large as its text");
    if (!read_floor(text, length, &read, &fault))
        expect(0, at, fault.words);
    expect(memcmp(drawn.costs, read.costs, sizeof read.costs) == 0, at, "other costs");
    expect(drawn.goal == read.goal && drawn.cart == read.cart, at, "another goal or cart");
    expect(same_leg(&drawn, &read), at, "another leg");
    expect(is_smallest(&drawn, &read), at, "not the smallest rectangle");
    damage(at, text, length);
}

int main(int count, char **words)
{
    int floors = count > 1 ? atoi(words[1]) : 0;
    for (int at = 0; at < floors; at++)
        hold(at);
    printf("%d floors read back\n", floors);
    return floors > 0 ? 0 : 1;
}
