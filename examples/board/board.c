/*
 * The board: the vector table, what runs between reset and main, and a console. No interrupt is used and no heap is made.
 *
 * The memory is laid out by sections.ld, and each board's sizes stand in m0.ld, m3.ld and m4.ld. The stack lies at the bottom of RAM,
 * below all variables: one that is too deep leaves RAM and is a fault, and does not write over the sheet that a cart drives by.
 *
 * For a real part, replace
 *     ask_host, write_text   by your UART: semihosting stops a part that no debugger is attached to
 *     leave                  by what a cart does when it is done, or when something is wrong: brakes on, motors off
 *     the vector table       by your part's, with its interrupts; and clocks are yours to start, before main
 * and keep the rest.
 */
#include "board.h"

/* ---- the debugger's host, which qemu plays: Arm's "Semihosting for AArch32 and AArch64" has the numbers */

enum { HOST_OPEN = 1, HOST_WRITE = 5, HOST_EXIT = 0x18, OPEN_TO_WRITE = 4, ENDED_WELL = 0x20026, ENDED_BADLY = 0x20023 };

uint32_t ask_host(uint32_t request, const void *with)
{
    register uint32_t r0 __asm__("r0") = request;
    register const void *r1 __asm__("r1") = with;
    __asm__ volatile("bkpt 0xab" : "+r"(r0) : "r"(r1) : "memory");
    return r0;
}

/* The console is the file `:tt`. */
static void write_text(const char *text, uint32_t length)
{
    static uint32_t console;
    if (console == 0) {
        const uint32_t open[3] = {(uint32_t)(uintptr_t)":tt", OPEN_TO_WRITE, 3};
        console = ask_host(HOST_OPEN, open);
    }
    const uint32_t write[3] = {console, (uint32_t)(uintptr_t)text, length};
    ask_host(HOST_WRITE, write);
}

__attribute__((noreturn)) static void leave(int status)
{
    uint32_t reason = status == 0 ? ENDED_WELL : ENDED_BADLY;
    for (;;) {
        ask_host(HOST_EXIT, (const void *)(uintptr_t)reason);
    }
}

/* ---- the console */

void say(const char *text)
{
    uint32_t length = 0;
    while (text[length] != 0) {
        length++;
    }
    write_text(text, length);
}

void say_number(uint32_t number)
{
    char digits[11];
    uint32_t at = sizeof digits - 1;
    digits[at] = 0;
    do {
        digits[--at] = (char)('0' + number % 10);
        number /= 10;
    } while (number != 0);
    say(digits + at);
}

/* ---- memory, as sections.ld lays it out */

extern uint32_t stack_bottom[], stack_top[];
extern uint32_t data_start[], data_end[], bss_start[], bss_end[];
extern const uint32_t data_in_flash[];

/* What is kept between calls gets its first values: from flash, or 0. */
static void fill_memory(void)
{
    for (uint32_t i = 0; data_start + i < data_end; i++) {
        data_start[i] = data_in_flash[i];
    }
    for (uint32_t *at = bss_start; at < bss_end; at++) {
        *at = 0;
    }
}

/* Paints the stack below the place where it is now. Written word by word: a call of memset would run on what it paints. */
__attribute__((noinline)) static void paint_stack(void)
{
    volatile uint32_t *now;
    __asm__ volatile("mov %0, sp" : "=r"(now));
    for (volatile uint32_t *at = stack_bottom; at < now; at++) {
        *at = STACK_PAINT(at);
    }
}

/* How many bytes of the stack were in use at the deepest place: the paint is gone there. */
static uint32_t stack_used(void)
{
    const volatile uint32_t *at = stack_bottom;
    while (at < stack_top && *at == STACK_PAINT(at)) {
        at++;
    }
    return (uint32_t)((uintptr_t)stack_top - (uintptr_t)at);
}

/* Says how much of the stack was used. Where that is all of it, it may have been too small: some emulated boards take an access below
   RAM for none at all, where a part has a fault. Answers the status. */
static int tell_stack(void)
{
    uint32_t given = (uint32_t)((uintptr_t)stack_top - (uintptr_t)stack_bottom), used = stack_used();
    say("stack: ");
    say_number(used);
    say(" of ");
    say_number(given);
    say(" bytes used\n");
    return used < given ? 0 : 1;
}

/* ---- reset and faults */

__attribute__((noreturn)) void reset(void);
__attribute__((noreturn)) void fault(void);
__attribute__((noreturn)) void stand_still(void);

void reset(void)
{
#ifdef __ARM_FP
    /* Coprocessors 10 and 11, the floating-point unit, are off at reset. The library works with whole numbers, but compilers may keep
       some of them in the unit's registers. */
    *(volatile uint32_t *)0xe000ed88u |= 0xfu << 20;
    __asm__ volatile("dsb\n isb");
#endif
    paint_stack();
    fill_memory();
    int status = main();
    leave(status == 0 ? tell_stack() : status);
}

/* A fault may come from a stack that has left RAM, so that its handler takes the whole stack anew before it says a word. */
__attribute__((naked)) void fault(void)
{
    __asm__ volatile("ldr r0, =stack_top\n mov sp, r0\n bl stand_still\n");
}

void stand_still(void)
{
    say("a fault: memory that is not there, an access that is not aligned, or a stack that is too deep\n");
    leave(1);
}

/* The first word is where the stack begins; behind it are the system's handlers. Every one that is not used is a fault. */
typedef void (*Handler)(void);
typedef struct {
    uint32_t *stack;
    Handler handlers[15];
} Vectors;

extern const Vectors VECTORS;
__attribute__((section(".vectors"), used)) const Vectors VECTORS = {
    stack_top,
    {reset, fault, fault, fault, fault, fault, fault, fault, fault, fault, fault, fault, fault, fault, fault},
};
