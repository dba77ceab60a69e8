/*
 * The board's console on a computer, to try a cart's loop at the desk: examples/board/run host.
 */
#include <stdio.h>

#include "board.h"

void say(const char *text) { fputs(text, stdout); }

void say_number(uint32_t number) { printf("%lu", (unsigned long)number); }
