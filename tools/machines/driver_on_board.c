/*
 * tools/portable/driver.c on a board of examples/board: the digest goes to its console, and the rounds come as the last word of the
 * command line that qemu gives (-append). Links with driver.c, compiled with DRIVER_NO_MAIN, and with board.c.
 */
#include "board.h"

uint64_t run_values(uint32_t rounds);
const char *what_was_missed(void);

enum { HOST_COMMAND_LINE = 0x15 };

/* The number at the end of the command line, or 0 where it ends with none. */
static uint32_t rounds_asked_for(void)
{
    static char line[1024];
    uint32_t block[2] = {(uint32_t)(uintptr_t)line, sizeof line};
    if (ask_host(HOST_COMMAND_LINE, block) != 0) {
        return 0;
    }
    uint32_t rounds = 0;
    for (const char *at = line; *at != 0; at++) {
        rounds = *at < '0' || *at > '9' ? 0 : 10 * rounds + (uint32_t)(*at - '0');
    }
    return rounds;
}

static void say_digest(uint64_t digest)
{
    char digits[17];
    for (int i = 0; i < 16; i++) {
        digits[i] = "0123456789abcdef"[digest >> (60 - 4 * i) & 15];
    }
    digits[16] = 0;
    say("values ");
    say(digits);
    say("\n");
}

int main(void)
{
    uint32_t rounds = rounds_asked_for();
    if (rounds == 0) {
        say("driver: the board was told no number of rounds\n");
        return 1;
    }
    say_digest(run_values(rounds));
    const char *missed = what_was_missed();
    if (missed != 0) {
        say("driver: ");
        say(missed);
        say("\n");
        return 1;
    }
    return 0;
}
