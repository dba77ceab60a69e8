/*
 * The reading of drawings, tools/draw/reading.c, for drawing.rs: the floor and the leg in arrays of fixed size, so that the layout
 * of the drawing tool's own structs stays its own.
 */
#include "reading.h"

struct answer {
    uint8_t costs[HANJOLUM_FLOOR];
    uint8_t steps[HANJOLUM_STEPS * HANJOLUM_STEP];
    int32_t lines[HANJOLUM_STEPS];   /* where each step is said; 0 for the goal's */
    int32_t count;
    int32_t line;                    /* of a fault; 0 for the whole */
    char words[256];
};

_Static_assert(sizeof ((struct fault *)0)->words <= sizeof ((struct answer *)0)->words, "the words of a fault fit");

/* A drawing's floor and leg, or what is wrong with it. `size` is the answer's, as its caller has it. */
bool oracle_read_drawing(const char *text, size_t length, struct answer *answer, size_t size);
const char *oracle_refusal_text(uint8_t number);

static void put_fault(struct answer *answer, const struct fault *fault)
{
    answer->line = fault->line;
    for (size_t i = 0; i < sizeof fault->words; i++)
        answer->words[i] = fault->words[i];
}

static void put_floor(struct answer *answer, const struct floor *floor)
{
    answer->count = leg_of(floor, answer->steps);
    for (size_t i = 0; i < HANJOLUM_FLOOR; i++)
        answer->costs[i] = floor->costs[i];
    for (int i = 1; i < answer->count; i++)
        answer->lines[i] = floor->leaves[floor->leave_count - i].line;
}

bool oracle_read_drawing(const char *text, size_t length, struct answer *answer, size_t size)
{
    struct floor floor;
    struct fault fault;
    if (size != sizeof *answer)
        return false;
    bool is_read = read_floor(text, length, &floor, &fault);
    if (is_read)
        put_floor(answer, &floor);
    else
        put_fault(answer, &fault);
    return is_read;
}

const char *oracle_refusal_text(uint8_t number)
{
    return hanjolum_refusal_text(number);
}
