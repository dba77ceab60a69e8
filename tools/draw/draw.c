/*
 * The drawing tool: reads the words, and draws a sector (sector.c), a practice floor, or a floor with a leg (plan.c, text.c), as
 * text or as a picture (picture.c, output.c). Each is planned with sight, or without where that is asked for.
 * What is wrong with the words, the drawing or the output is one line on standard error and exit status 1.
 */
#include <stdarg.h>
#include <stdio.h>
#include <stdlib.h>
#include <string.h>

#include "draw.h"

/* Which form of the library is linked, in words. */
#ifndef LIBRARY_WORDS
#define LIBRARY_WORDS "linked by hand"
#endif

static const char USAGE[] = "usage: draw [--ascii] [--without-sight] [FILE | --practice SEED | --floor FILE [--costs]] [--picture OUT], "
                            "FILE - or none for standard input; tools/draw/run --help says what a drawing is";

const char *const ARROWS[] = {"↑", "→", "↓", "←", "↗", "↘", "↙", "↖"};
const char SIGHTLESS[] = "planned without sight: every reached cell but the goal has an arrow";
const char *const LETTERS[] = {"N ", "E ", "S ", "W ", "NE", "SE", "SW", "NW"};

_Noreturn void fail(const char *format, ...)
{
    va_list words;
    va_start(words, format);
    fputs("draw: ", stderr);
    vfprintf(stderr, format, words);
    fputc('\n', stderr);
    va_end(words);
    exit(1);
}

static void help(void)
{
    puts(USAGE);
    written();
    exit(0);
}

/* The library's version, as the header writes its own. */
static const char *library_version(void)
{
    static char version[40];
    unsigned long number = hanjolum_version();
    snprintf(version, sizeof version, "%lu.%lu.%lu", number / 1000000, number / 1000 % 1000, number % 1000);
    return version;
}

static void check_version(void)
{
    if (!HANJOLUM_SAME_VERSION())
        fail("the header is of version %s, and the library (%s) of version %s", HANJOLUM_VERSION, LIBRARY_WORDS, library_version());
}

static void say_version(void)
{
    printf("draw: header %s, library %s (%s)\n", HANJOLUM_VERSION, library_version(), LIBRARY_WORDS);
    written();
    exit(0);
}

/* The word behind an option, which may be said once. */
static const char *behind(int count, char **words, int *i, const char *before)
{
    const char *option = words[*i];
    if (before != NULL)
        fail("%s twice; %s", option, USAGE);
    if (*i + 1 == count)
        fail("%s is the last word; %s", option, USAGE);
    *i += 1;
    return words[*i];
}

/* Ends the program where words do not go together. */
static void check_words(const struct asked *asked)
{
    if (asked->seed != NULL && asked->file != NULL)
        fail("%s beside --practice; %s", asked->file, USAGE);
    if (asked->seed != NULL && asked->floor)
        fail("--floor beside --practice; %s", USAGE);
    if (asked->costs && !asked->floor)
        fail("--costs goes with --floor; %s", USAGE);
}

/* An option that says yes; NULL for any other word. */
static int *switch_of(struct asked *asked, const char *word)
{
    return strcmp(word, "--ascii") == 0         ? &asked->ascii
        : strcmp(word, "--without-sight") == 0 ? &asked->without_sight
        : strcmp(word, "--floor") == 0         ? &asked->floor
        : strcmp(word, "--costs") == 0         ? &asked->costs
                                               : NULL;
}

/* The words taken apart. Options may stand before the file and behind it. */
static struct asked asked_for(int count, char **words)
{
    struct asked asked = {0};
    for (int i = 1; i < count; i++) {
        int *yes = switch_of(&asked, words[i]);
        if (yes != NULL)
            *yes = 1;
        else if (strcmp(words[i], "--help") == 0 || strcmp(words[i], "-h") == 0)
            help();
        else if (strcmp(words[i], "--version") == 0)
            say_version();
        else if (strcmp(words[i], "--picture") == 0)
            asked.picture = behind(count, words, &i, asked.picture);
        else if (strcmp(words[i], "--practice") == 0 && asked.seed != NULL)
            fail("--practice twice; %s", USAGE);
        else if (strcmp(words[i], "--practice") == 0)
            asked.seed = ++i < count ? words[i] : "";
        else if (words[i][0] == '-' && words[i][1] != '\0')
            fail("%s is not understood; %s", words[i], USAGE);
        else if (asked.file != NULL)
            fail("%s beside %s; %s", words[i], asked.file, USAGE);
        else
            asked.file = words[i];
    }
    check_words(&asked);
    if (asked.file != NULL && strcmp(asked.file, "-") == 0)
        asked.file = NULL;
    return asked;
}

static void draw_floor(const struct asked *asked)
{
    static struct floor floor;
    static struct plan plan;
    floor_in(asked->file, &floor);
    plan_floor(&plan, name_of(asked->file), &floor, !asked->without_sight);
    warn_of_zeros(plan.name, &floor, 0);
    if (asked->picture != NULL)
        put_picture(&plan, asked->picture);
    else
        show_floor(&plan, asked->ascii, asked->costs);
}

/* A practice floor as a picture. */
static void draw_practice(const struct asked *asked)
{
    static struct floor floor;
    static struct plan plan;
    practice_floor(asked->seed, &floor);
    plan_floor(&plan, practice_name(asked->seed), &floor, !asked->without_sight);
    put_picture(&plan, asked->picture);
}

int main(int count, char **words)
{
    check_version();
    struct asked asked = asked_for(count, words);
    if (asked.picture != NULL && asked.seed == NULL)
        keep_drawing(asked.file, asked.picture);
    if (asked.floor)
        draw_floor(&asked);
    else if (asked.picture != NULL && asked.seed != NULL)
        draw_practice(&asked);
    else
        draw_sector(&asked);
    written();
    return 0;
}
