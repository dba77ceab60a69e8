/*
 * Carries a leg in a file: the tablet writes its steps, the cart reads them back and plans the leg over its floor.
 *
 *     tools/proved/make hanjolum && cc -Iinclude examples/leg_file.c target/staticlib/libhanjolum.a -o target/leg_file
 *     target/leg_file target/two-sectors.leg
 */
#include <stdio.h>
#include <string.h>

#include "hanjolum.h"

static int refused(const char *what, uint8_t number)
{
    fprintf(stderr, "%s: refused with number %d: %s\n", what, number, hanjolum_refusal_text(number));
    return 1;
}

/* The tablet: the steps as a file. The goal is in sector 9; sector 10, east of it, is left by places 3 to 6 of its west edge. */
static int write_leg(const char *path)
{
    uint8_t steps[2 * HANJOLUM_STEP], bytes[HANJOLUM_FILE_HEAD + sizeof steps];
    hanjolum_step_goal(steps, 9, 44);
    hanjolum_step_window(steps + HANJOLUM_STEP, 10, HANJOLUM_WEST, 3, 6);
    uint8_t number = hanjolum_leg_file_write(steps, sizeof steps, bytes, sizeof bytes);
    if (number != 0)
        return refused("write", number);
    FILE *file = fopen(path, "wb");
    if (!file || fwrite(bytes, 1, sizeof bytes, file) != sizeof bytes || fclose(file) != 0) {
        perror(path);
        return 1;
    }
    printf("%s: %zu bytes\n", path, sizeof bytes);
    return 0;
}

/* The cart: the steps of the file, planned. One byte more than a file can have is read, so that a longer one is refused. */
static int plan_leg(const char *path)
{
    static uint8_t floor[HANJOLUM_FLOOR], sheet[HANJOLUM_FLOOR];
    uint8_t bytes[HANJOLUM_FILE + 1];
    FILE *file = fopen(path, "rb");
    if (!file) {
        perror(path);
        return 1;
    }
    size_t length = fread(bytes, 1, sizeof bytes, file);
    fclose(file);
    HanjolumLegFile found = hanjolum_leg_file_read(bytes, length);
    if (found.number != 0)
        return refused(path, found.number);
    memset(floor, 1, sizeof floor);
    const uint8_t *steps = bytes + found.start;
    uint8_t number = hanjolum_leg(floor, sizeof floor, steps, found.length, sheet, sizeof sheet);
    if (number != 0)
        return refused("leg", number);
    for (size_t at = 0; at < found.length; at += HANJOLUM_STEP) {
        printf("sector %d\n", steps[at]);
        for (int cell = 0; cell < HANJOLUM_CELLS; cell++)
            printf("%02x%s", sheet[steps[at] * HANJOLUM_CELLS + cell], cell % 10 == 9 ? "\n" : "");
    }
    return 0;
}

int main(int argc, char **argv)
{
    if (argc != 2) {
        fprintf(stderr, "usage: %s FILE\n", argv[0]);
        return 1;
    }
    return write_leg(argv[1]) || plan_leg(argv[1]);
}
