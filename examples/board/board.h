/*
 * What a program on a board has in place of stdio. board.c gives it for the boards that qemu emulates; on a real part it is yours.
 */
#ifndef BOARD_H
#define BOARD_H

#include <stdint.h>

/* Writes a text to the console. */
void say(const char *text);

/* Writes a number in decimal. */
void say_number(uint32_t number);

/* A request to the debugger's host, by number, with what it takes (Arm's semihosting). A real board has none. */
uint32_t ask_host(uint32_t request, const void *with);

/* Each word of the stack is painted with a word of its own before main: where it still stands the stack was never used. With one word for
   all places, a register that holds it and is pushed would look like paint. */
#define STACK_PAINT(at) ((uint32_t)(uintptr_t)(at) ^ 0xa5a5a5a5u)

/* The program. It returns 0 where all went well; board.c ends the emulator with that status. */
int main(void);

#endif
