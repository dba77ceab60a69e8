/*
 * What leaves the tool beside its text: pictures, and the warning of costs of 0. A picture never takes the place of the drawing that it
 * is of, and a file has either what it had or the whole picture: it is written beside, and renamed.
 */
#define _XOPEN_SOURCE 700
#include <errno.h>
#include <stdlib.h>
#include <string.h>
#include <sys/stat.h>
#include <unistd.h>

#include "draw.h"

void written(void)
{
    if (fflush(stdout) != 0 || ferror(stdout))
        fail("standard output cannot be written: %s", strerror(errno));
}

void keep_drawing(const char *file, const char *picture)
{
    struct stat in, out;
    int known = file == NULL ? fstat(STDIN_FILENO, &in) : stat(file, &in);
    if (strcmp(picture, "-") == 0 || known != 0 || stat(picture, &out) != 0 || !S_ISREG(out.st_mode))
        return;
    if (in.st_dev == out.st_dev && in.st_ino == out.st_ino)
        fail("%s is the drawing itself; --picture writes another file", picture);
}

/* Ends the program since a picture cannot be written; what was written beside goes. */
static _Noreturn void give_up(const char *name, const char *beside, int why)
{
    if (beside != NULL)
        remove(beside);
    fail("%s cannot be written: %s", name, strerror(why));
}

/* Writes the picture into a file that is open, and closes it. Answers 0, or why it failed. */
static int fill(const struct plan *plan, FILE *out)
{
    errno = 0;
    write_picture(plan, out);
    int failed = fflush(out) != 0 || ferror(out), why = errno;
    int closed = fclose(out) == 0;
    return failed ? (why != 0 ? why : EIO) : closed ? 0 : errno;
}

/* Writes onto what is no file, as a device or a pipe: nothing can be renamed there. */
static void write_onto(const struct plan *plan, const char *name)
{
    FILE *out = fopen(name, "w");
    int why = out == NULL ? errno : fill(plan, out);
    if (why != 0)
        give_up(name, NULL, why);
}

/* Writes a file beside, under a name with the number of this process, and renames it. One that was there keeps who may read it. */
static void write_beside(const struct plan *plan, const char *name, const char *path, const struct stat *old)
{
    size_t size = strlen(path) + 24;
    char *beside = malloc(size);
    if (beside == NULL)
        give_up(name, NULL, ENOMEM);
    snprintf(beside, size, "%s.%ld", path, (long)getpid());
    if (old != NULL && access(path, W_OK) != 0)
        give_up(name, NULL, errno);
    FILE *out = fopen(beside, "wx");
    if (out == NULL)
        give_up(name, NULL, errno);
    if (old != NULL && fchmod(fileno(out), old->st_mode & 0777) != 0)
        give_up(name, beside, errno);
    int why = fill(plan, out);
    if (why == 0 && rename(beside, path) != 0)
        why = errno;
    if (why != 0)
        give_up(name, beside, why);
    free(beside);
}

/* Says what was written. */
static void say_written(const struct plan *plan, const char *name)
{
    int sectors = plan->floor->columns / SIDE * (plan->floor->rows / SIDE);
    if (sectors == 1)
        printf("%s written: 1 sector, planned\n", name);
    else
        printf("%s written: %d sectors, %d of them planned\n", name, sectors, plan->count);
}

void put_picture(const struct plan *plan, const char *name)
{
    struct stat old;
    if (strcmp(name, "-") == 0) {
        write_picture(plan, stdout);
        return;
    }
    /* Where the name is a link, the file that it leads to. */
    char *real = realpath(name, NULL);
    int there = stat(name, &old) == 0;
    if (there && !S_ISREG(old.st_mode))
        write_onto(plan, name);
    else
        write_beside(plan, name, real != NULL ? real : name, there ? &old : NULL);
    free(real);
    say_written(plan, name);
}

/* The sectors that are planned: those of the leg, or the one that is drawn alone. */
static void find_planned(const struct floor *floor, char *planned)
{
    uint8_t steps[HANJOLUM_STEPS * HANJOLUM_STEP];
    int count = leg_of(floor, steps);
    memset(planned, 0, HANJOLUM_SECTORS);
    planned[0] = count == 0;
    for (int i = 0; i < count; i++)
        planned[steps[i * HANJOLUM_STEP + HANJOLUM_STEP_SECTOR]] = 1;
}

/* The planned places that cost 0: how many, and the first of them by the rows of the drawing. */
static int count_zeros(const struct floor *floor, int *first)
{
    char planned[HANJOLUM_SECTORS];
    int count = 0;
    find_planned(floor, planned);
    for (int i = FLOOR_SIDE * FLOOR_SIDE - 1; i >= 0; i--) {
        int place = place_at(i % FLOOR_SIDE, i / FLOOR_SIDE);
        if (floor->costs[place] != 0 || !planned[place / HANJOLUM_CELLS])
            continue;
        *first = place;
        count += 1;
    }
    return count;
}

void warn_of_zeros(const char *name, const struct floor *floor, int alone)
{
    char sector[32] = "";
    int first = 0, count = count_zeros(floor, &first);
    if (count == 0)
        return;
    if (!alone)
        snprintf(sector, sizeof sector, "sector %d, ", first / HANJOLUM_CELLS);
    fprintf(stderr, "draw: %s, line %d: warning: %d cell%s 0, the first at %scolumn %d, row %d; ", name, line_of(floor, first), count,
            count == 1 ? " costs" : "s cost", sector, first % SIDE, first % HANJOLUM_CELLS / SIDE);
    fprintf(stderr, "nothing is promised of following where a cost is 0\n");
}
