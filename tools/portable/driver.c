/*
 * Calls every function of hanjolum.h on drawn and damaged inputs and digests what comes back: numbers, members and lent bytes,
 * each by its value, so that neither padding nor the order of a machine's bytes plays a part. The same program, linked with the
 * archive and with portable/hanjolum.c, must print the same lines: tools/portable/digest runs both.
 *
 *     driver [ROUNDS]    prints `values`, a digest of so many rounds (200 without a number), and where a length may have more than
 *                        32 bits `lengths`, one of lengths and places beyond them, each as 16 hexadecimal digits
 *
 * A slice of length 0 is lent as NULL. A damaged input is a good one with a byte or a length changed. A run in which a function was
 * never called, never accepted or, where it has numbers, never refused, or in which a number, an outcome, or one of the answers of
 * a tour never came, says so on standard error and ends with status 1.
 *
 * run_values and run_lengths need nothing but the header; with DRIVER_NO_MAIN there is no main, for machines without stdio.
 */
#include "hanjolum.h"

uint64_t run_values(uint32_t rounds);
uint64_t run_lengths(void);
const char *what_was_missed(void);

/* ---- what is drawn, and what is digested */

static uint64_t state, digest;

static uint32_t draw(void)
{
    state ^= state << 13;
    state ^= state >> 7;
    state ^= state << 17;
    return (uint32_t)(state >> 24);
}

static uint32_t below(uint32_t n) { return draw() % n; }

static void mix(uint64_t value, unsigned bytes)
{
    for (unsigned i = 0; i < bytes; i++) {
        digest = (digest ^ (value >> (8 * i) & 255)) * 1099511628211u;
    }
}

static void mix_bytes(const uint8_t *bytes, uint32_t count)
{
    for (uint32_t i = 0; i < count; i++) {
        mix(bytes[i], 1);
    }
}

/* ---- what was met */

enum {
    SECTOR, SECTOR_WITHOUT_SIGHT, ARRIVALS, BOUNDS, WINDOW_COSTS, WINDOW_TOUR, LEG, LEG_WITHOUT_SIGHT, LEG_FIELD,
    LEG_FIELD_WITHOUT_SIGHT, MOVE, WAY, LEG_FILE_WRITE, LEG_FILE_READ, INIT, BUILD, FLOW_NEW, FLOW_BUILD, LINE, SHALLOW, STEEP,
    LINE_END, PRACTICE_FLOOR, IS_PATHABLE, IS_GOAL, IS_PORTAL_GOAL, HAS_LINE_OF_SIGHT, IS_WALL, GET_COMPASS_DIR, VERSION, CALLS
};

/* Those before this one have a number in their answer. */
enum { NUMBERED = PRACTICE_FLOOR, NUMBERS = 22, OUTCOMES = 5 };

static uint32_t accepted[CALLS], refused[CALLS], numbers[NUMBERS], outcomes[OUTCOMES], found[2], nulls;

static void tell(int call, uint8_t number)
{
    mix(number, 1);
    if (number < NUMBERS) {
        numbers[number]++;
    }
    if (number == 0) {
        accepted[call]++;
    } else {
        refused[call]++;
    }
}

const char *what_was_missed(void)
{
    for (int i = 0; i < CALLS; i++) {
        if (accepted[i] == 0 || (i < NUMBERED && refused[i] == 0)) {
            return "a function was never accepted, or never refused";
        }
    }
    for (int i = 0; i < NUMBERS; i++) {
        if (numbers[i] == 0) {
            return "a number never came";
        }
    }
    for (int i = 0; i < OUTCOMES; i++) {
        if (outcomes[i] == 0) {
            return "an outcome never came";
        }
    }
    return found[0] == 0 || found[1] == 0 ? "no tour was found, or one each time" : nulls == 0 ? "NULL was never lent" : 0;
}

/* ---- answers */

static void mix_field(const HanjolumIntegrationField *field)
{
    for (int i = 0; i < HANJOLUM_CELLS; i++) {
        mix(field->field[i], 4);
        mix(field->los_corners[i], 8);
    }
    mix(field->count, 8);
    mix_bytes(field->positions, HANJOLUM_CELLS);
}

static void mix_build(int call, const HanjolumBuildAnswer *a)
{
    tell(call, a->number);
    mix_field(&a->field);
    mix(a->waves, 8);
}

static void mix_line(int call, HanjolumLine a)
{
    tell(call, a.number);
    for (int i = 0; i < 10; i++) {
        mix(a.cells[i].column, 8);
        mix(a.cells[i].row, 8);
    }
    mix(a.count, 8);
}

static void mix_line_end(HanjolumLineEnd a)
{
    tell(LINE_END, a.number);
    mix(a.cell.column, 8);
    mix(a.cell.row, 8);
}

static void mix_bounds(const HanjolumBounds *a)
{
    tell(BOUNDS, a->number);
    for (int i = 0; i < HANJOLUM_CELLS; i++) {
        mix(a->least[i], 4);
        mix(a->greatest[i], 4);
        mix(a->sure[i], 1);
    }
}

static void mix_arrivals(const HanjolumArrivals *a)
{
    tell(ARRIVALS, a->number);
    mix_bytes(a->moves, HANJOLUM_CELLS);
}

static void mix_costs(const HanjolumWindowCosts *a)
{
    tell(WINDOW_COSTS, a->number);
    for (int i = 0; i < HANJOLUM_WINDOWS; i++) {
        for (int j = 0; j < HANJOLUM_WINDOWS; j++) {
            mix(a->rows[i].costs[j], 4);
        }
    }
}

static void mix_tour(HanjolumWindowTour a)
{
    tell(WINDOW_TOUR, a.number);
    mix(a.found, 1);
    mix_bytes(a.order, HANJOLUM_WINDOWS);
    mix(a.sum, 4);
    mix(a.tried, 4);
    mix(a.least, 4);
    found[a.number == 0 && a.found]++;
}

static void mix_move(HanjolumMove a)
{
    tell(MOVE, a.number);
    mix(a.outcome, 1);
    mix(a.sector, 1);
    mix(a.cell, 1);
    outcomes[a.outcome % OUTCOMES]++;
}

static void mix_way(HanjolumWay a)
{
    tell(WAY, a.number);
    mix(a.outcome, 1);
    mix(a.sector, 1);
    mix(a.cell, 1);
    mix(a.moves, 2);
    outcomes[a.outcome % OUTCOMES]++;
}

/* ---- inputs */

enum { ROOM = HANJOLUM_FLOOR + 16 };

static uint8_t costs[HANJOLUM_CELLS + 16], high[HANJOLUM_CELLS + 16], floor_costs[ROOM], sheet[HANJOLUM_CELLS + 16], floor_sheet[ROOM];
static uint8_t steps[HANJOLUM_STEP * (HANJOLUM_STEPS + 2)], file[HANJOLUM_FILE + 16];
static uint32_t previous[HANJOLUM_CELLS + 16];

/* One time in `often` the length is another one, at most 8 more, and 0 as often as all of those. */
static size_t length(size_t good, uint32_t often)
{
    if (below(often) != 0) {
        return good;
    }
    return below(2) == 0 ? 0 : (size_t)below((uint32_t)good + 8);
}

static const uint8_t *lent(const uint8_t *at, size_t n)
{
    nulls += n == 0;
    return n == 0 ? 0 : at;
}

static uint8_t *lent_sheet(uint8_t *at, size_t n)
{
    nulls += n == 0;
    return n == 0 ? 0 : at;
}

static const uint32_t *lent_numbers(const uint32_t *at, size_t n)
{
    nulls += n == 0;
    return n == 0 ? 0 : at;
}

static uint8_t draw_cost(uint32_t kind)
{
    switch (kind) {
    case 0: return 1;
    case 1: return below(4) == 0 ? 255 : (uint8_t)(1 + below(9));
    case 2: return below(3) == 0 ? 255 : 1;
    case 3: return below(8) == 0 ? 255 : below(6) == 0 ? 0 : (uint8_t)(1 + below(254));
    default: return (uint8_t)draw();
    }
}

static void draw_costs(uint8_t *at, uint32_t count)
{
    for (uint32_t s = 0; s < count; s += HANJOLUM_CELLS) {
        uint32_t kind = below(5);
        for (uint32_t i = s; i < s + HANJOLUM_CELLS && i < count; i++) {
            at[i] = draw_cost(kind);
        }
    }
}

/* A window along an edge of a sector; `open`: its cells are no walls. */
static void put_window(uint8_t *step, uint32_t sector, uint32_t boundary, uint8_t *costs_of_sector, bool open)
{
    uint32_t a = below(10), b = below(10), first = a < b ? a : b, last = a < b ? b : a;
    uint32_t stride = boundary % 2 == 0 ? 1 : 10, start = boundary == 1 ? 9 : boundary == 2 ? 90 : 0;
    step[HANJOLUM_STEP_SECTOR] = (uint8_t)sector;
    step[HANJOLUM_STEP_GOAL] = (uint8_t)below(200);
    step[HANJOLUM_STEP_MARK] = HANJOLUM_MARK_WINDOW;
    step[HANJOLUM_STEP_FIRST] = (uint8_t)(start + first * stride);
    step[HANJOLUM_STEP_LAST] = (uint8_t)(start + last * stride);
    step[HANJOLUM_STEP_BOUNDARY] = (uint8_t)boundary;
    step[6] = step[7] = 0;
    for (uint32_t i = first; open && i <= last; i++) {
        costs_of_sector[start + i * stride] = (uint8_t)(1 + below(20));
    }
}

static void put_goal(uint8_t *step, uint32_t sector, uint8_t *costs_of_sector, bool open)
{
    uint32_t goal = below(100);
    for (int i = 0; i < HANJOLUM_STEP; i++) {
        step[i] = 0;
    }
    step[HANJOLUM_STEP_SECTOR] = (uint8_t)sector;
    step[HANJOLUM_STEP_GOAL] = (uint8_t)goal;
    if (open) {
        costs_of_sector[goal] = 1;
    }
}

static void put_step(uint8_t *step)
{
    uint32_t sector = below(64), boundary = below(4);
    bool open = below(6) != 0;
    if (below(2) == 0) {
        put_goal(step, sector, costs, open);
    } else {
        put_window(step, sector, boundary, costs, open);
        if (below(12) == 0) {
            uint8_t first = step[HANJOLUM_STEP_FIRST];
            step[HANJOLUM_STEP_FIRST] = step[HANJOLUM_STEP_LAST];
            step[HANJOLUM_STEP_LAST] = first;
        }
    }
}

/* One time in `often` one byte is another one. */
static void damage(uint8_t *at, uint32_t count, uint32_t often)
{
    if (count != 0 && below(often) == 0) {
        uint32_t place = below(count);
        at[place] = (uint8_t)(below(2) == 0 ? draw() : below(12));
    }
}

/* A leg from sector to sector; answers how many steps it has. */
static uint32_t put_leg(void)
{
    uint32_t many = 1 + below(HANJOLUM_STEPS), sector = below(64), k = 1;
    uint8_t named[HANJOLUM_SECTORS] = { 0 };
    bool open = below(8) != 0;
    put_goal(steps, sector, floor_costs + 100 * sector, open);
    named[sector] = 1;
    for (uint32_t tries = 0; k < many && tries < 200; tries++) {
        uint32_t boundary = below(4), column = sector % 8, row = sector / 8;
        /* the boundary is the one of the new sector that leads back into the last */
        uint32_t next = boundary == 0 && row < 7 ? sector + 8 : boundary == 1 && column > 0 ? sector - 1
            : boundary == 2 && row > 0 ? sector - 8 : boundary == 3 && column < 7 ? sector + 1 : 64;
        if (next < 64 && !named[next]) {
            put_window(steps + HANJOLUM_STEP * k++, next, boundary, floor_costs + 100 * next, open);
            named[sector = next] = 1;
        }
    }
    return k;
}

/* One time in four the steps are no leg: one has another kind or another boundary, or a sector is named twice. */
static void break_leg(uint32_t many)
{
    uint32_t place = below(many), other = below(many), boundary = below(4);
    uint8_t *step = steps + HANJOLUM_STEP * place;
    uint32_t sector = step[HANJOLUM_STEP_SECTOR];
    switch (below(12)) {
    case 0: put_goal(step, sector, floor_costs + 100 * sector, true); break;
    case 1: put_window(step, sector, boundary, floor_costs + 100 * sector, true); break;
    case 2: step[HANJOLUM_STEP_SECTOR] = steps[HANJOLUM_STEP * other + HANJOLUM_STEP_SECTOR]; break;
    default: break;
    }
}

/* ---- calls */

static void call_sectors(void)
{
    for (int k = 0; k < 6; k++) {
        draw_costs(costs, HANJOLUM_CELLS);
        put_step(steps);
        damage(steps, HANJOLUM_STEP, 6);
        for (int i = 0; i < HANJOLUM_CELLS; i++) {
            uint32_t most = 1 + below(100000);
            previous[i] = below(3) == 0 ? 65535 : below(most);
        }
        size_t c = length(100, 24), s = length(8, 24), p = length(100, 16), o = length(100, 24);
        bool has = steps[HANJOLUM_STEP_MARK] == 1 ? below(8) != 0 : below(2) != 0;
        HanjolumBuildAnswer a = hanjolum_sector(lent(costs, c), c, lent(steps, s), s, has, lent_numbers(previous, p), p, lent_sheet(sheet, o), o);
        mix_build(SECTOR, &a);
        mix_bytes(sheet, sizeof sheet);
        HanjolumArrivals told = hanjolum_arrivals(lent(sheet, o), o);
        mix_arrivals(&told);
        a = hanjolum_sector_without_sight(lent(costs, c), c, lent(steps, s), s, has, lent_numbers(previous, p), p, lent_sheet(sheet, o), o);
        mix_build(SECTOR_WITHOUT_SIGHT, &a);
        mix_bytes(sheet, sizeof sheet);
        told = hanjolum_arrivals(lent(sheet, o), o);
        mix_arrivals(&told);
        damage(sheet, HANJOLUM_CELLS, 2);
    }
}

static void call_by_hand(void)
{
    for (int k = 0; k < 4; k++) {
        draw_costs(costs, HANJOLUM_CELLS);
        put_step(steps);
        damage(steps, HANJOLUM_STEP, 8);
        size_t c = length(100, 16), s = length(8, 16), p = length(100, 8), o = length(100, 8);
        HanjolumInitAnswer started = hanjolum_init(lent(costs, c), c, lent(steps, s), s);
        tell(INIT, started.number);
        mix_field(&started.field);
        if (below(3) == 0) {
            for (int i = 0; i < HANJOLUM_CELLS; i++) {
                started.field.field[i] = below(4) == 0 ? draw() : below(70000);
                started.field.positions[i] = (uint8_t)draw();
            }
            started.field.count = below(20);
            for (uint32_t i = 0; i < 20; i++) {
                started.field.los_corners[i] = below(100);
            }
        }
        if (below(6) == 0) {
            static const uint64_t many[] = { 100, 101, 255, UINT64_C(4294967296), UINT64_C(4294967299), UINT64_MAX };
            started.field.count = many[below(6)];
        }
        if (below(6) == 0) {
            static const uint64_t cells[] = { 100, 255, UINT64_C(4294967296), UINT64_C(4294967301), UINT64_MAX };
            uint32_t place = below(4);
            started.field.los_corners[place] = cells[below(5)];
        }
        HanjolumBuildAnswer built = hanjolum_build(lent(costs, c), c, started.field);
        mix_build(BUILD, &built);
        bool has = below(2) == 0;
        tell(FLOW_NEW, hanjolum_flow_new(lent(steps, s), s, built.field, has, lent_numbers(previous, p), p, lent_sheet(sheet, o), o));
        mix_bytes(sheet, sizeof sheet);
        damage(sheet, HANJOLUM_CELLS, 2);
        tell(FLOW_BUILD, hanjolum_flow_build(built.field, lent_sheet(sheet, o), o));
        mix_bytes(sheet, sizeof sheet);
    }
}

static void call_bounds(void)
{
    for (int k = 0; k < 3; k++) {
        draw_costs(costs, HANJOLUM_CELLS);
        uint32_t sector = below(64), boundary = below(4);
        bool open = below(6) != 0;
        put_window(steps, sector, boundary, costs, open);
        for (int i = 0; i < HANJOLUM_CELLS; i++) {
            uint32_t more = costs[i] + below(30);
            high[i] = costs[i] == 255 ? 255 : more > 254 ? 254 : (uint8_t)more;
        }
        damage(high, HANJOLUM_CELLS, 3);
        damage(steps, HANJOLUM_STEP, 8);
        size_t l = length(100, 16), h = length(100, 16), s = length(8, 16);
        HanjolumBounds a = hanjolum_bounds(lent(costs, l), l, lent(high, h), h, lent(steps, s), s);
        mix_bounds(&a);
        a = hanjolum_bounds(lent(costs, l), l, lent(costs, l), l, lent(steps, s), s);
        mix_bounds(&a);
    }
}

static void call_windows(void)
{
    static const uint16_t limits[] = { 0, 1, 2, 7, 100, 719, 5040, 65535 };
    for (int k = 0; k < 2; k++) {
        uint32_t many = 1 + below(9), sector = below(64);
        draw_costs(costs, HANJOLUM_CELLS);
        for (uint32_t i = 0; i < many; i++) {
            uint32_t boundary = below(4);
            bool open = below(24) != 0;
            put_window(steps + HANJOLUM_STEP * i, sector, boundary, costs, open);
        }
        damage(steps, HANJOLUM_STEP * many, 4);
        size_t c = length(100, 16), s = length(HANJOLUM_STEP * many, 16);
        HanjolumWindowCosts a = hanjolum_window_costs(lent(costs, c), c, lent(steps, s), s);
        mix_costs(&a);
        mix_tour(hanjolum_window_tour(lent(costs, c), c, lent(steps, s), s, limits[below(8)]));
    }
}

static void drive(void)
{
    size_t o = length(HANJOLUM_FLOOR, 16);
    for (int k = 0; k < 12; k++) {
        uint8_t sector = k % 3 == 0 ? (uint8_t)below(66) : steps[HANJOLUM_STEP_SECTOR];
        uint8_t cell = (uint8_t)below(102);
        mix_way(hanjolum_way(lent(floor_sheet, o), o, sector, cell));
        mix_move(hanjolum_move(lent(floor_sheet, o), o, sector, cell));
    }
}

/* A number below `many`, and now and then one that is not, of which the low 32 bits may be. */
static uint64_t draw_place(uint32_t many)
{
    static const uint64_t far[] = { 10, 255, UINT64_C(4294967296), UINT64_C(4294967305), UINT64_C(9223372036854775808), UINT64_MAX };
    return below(12) == 0 ? far[below(6)] : below(many);
}

static void call_legs(void)
{
    draw_costs(floor_costs, HANJOLUM_FLOOR);
    uint32_t many = put_leg();
    break_leg(many);
    damage(steps, HANJOLUM_STEP * many, 4);
    size_t f = length(HANJOLUM_FLOOR, 16), s = length(HANJOLUM_STEP * many, 10), o = length(HANJOLUM_FLOOR, 16);
    if (below(12) == 0) {
        s = HANJOLUM_STEP * (HANJOLUM_STEPS + 1);
    }
    tell(LEG, hanjolum_leg(lent(floor_costs, f), f, lent(steps, s), s, lent_sheet(floor_sheet, o), o));
    mix_bytes(floor_sheet, ROOM);
    drive();
    tell(LEG_WITHOUT_SIGHT, hanjolum_leg_without_sight(lent(floor_costs, f), f, lent(steps, s), s, lent_sheet(floor_sheet, o), o));
    mix_bytes(floor_sheet, ROOM);
    drive();
    uint64_t place = draw_place(many + 1);
    HanjolumBuildAnswer a = hanjolum_leg_field(lent(floor_costs, f), f, lent(steps, s), s, place);
    mix_build(LEG_FIELD, &a);
    a = hanjolum_leg_field_without_sight(lent(floor_costs, f), f, lent(steps, s), s, place);
    mix_build(LEG_FIELD_WITHOUT_SIGHT, &a);
    size_t w = s + HANJOLUM_FILE_HEAD + (below(6) == 0);
    size_t r = below(8) == 0 ? length(w, 2) : w;
    w = w > sizeof file ? 0 : w;
    r = r > sizeof file ? 0 : r;
    tell(LEG_FILE_WRITE, hanjolum_leg_file_write(lent(steps, s), s, lent_sheet(file, w), w));
    mix_bytes(file, sizeof file);
    damage(file, HANJOLUM_FILE_HEAD, 4);
    HanjolumLegFile read = hanjolum_leg_file_read(lent(file, r), r);
    tell(LEG_FILE_READ, read.number);
    mix(read.start, 8);
    mix(read.length, 8);
    for (uint32_t i = 0; i < HANJOLUM_FLOOR; i += 1 + below(200)) {
        floor_sheet[i] = (uint8_t)draw();
    }
    drive();
}

static void call_lines(void)
{
    for (int k = 0; k < 20; k++) {
        uint64_t a = draw_place(10), b = draw_place(10), c = draw_place(10), d = draw_place(10);
        mix_line(LINE, hanjolum_line(a, b, c, d));
        mix_line(SHALLOW, hanjolum_walk_bresenham_shallow(a, b, c, d));
        mix_line(STEEP, hanjolum_walk_bresenham_steep(a, b, c, d));
        mix_line_end(hanjolum_line_end(a, b, c, d));
    }
}

static void call_readers(void)
{
    for (uint32_t i = 0; i < 256; i++) {
        uint8_t byte = (uint8_t)i;
        mix(hanjolum_is_pathable(byte), 1);
        mix(hanjolum_is_goal(byte), 1);
        mix(hanjolum_is_portal_goal(byte), 1);
        mix(hanjolum_has_line_of_sight(byte), 1);
        mix(hanjolum_is_wall(byte), 1);
        mix(hanjolum_get_compass_dir_from_bits(byte), 1);
    }
    for (int call = IS_PATHABLE; call <= GET_COMPASS_DIR; call++) {
        accepted[call] += 256;
    }
}

/* Of the version only whether it is the header's, so that a new version does not change the digest. */
static void call_version(void)
{
    mix(hanjolum_version() == HANJOLUM_VERSION_NUMBER, 1);
    accepted[VERSION]++;
}

static void call_practice(uint32_t seed)
{
    HanjolumPracticeFloor a = hanjolum_practice_floor(seed);
    mix_bytes(a.costs, HANJOLUM_CELLS);
    mix(a.goal, 1);
    accepted[PRACTICE_FLOOR]++;
}

uint64_t run_values(uint32_t rounds)
{
    state = UINT64_C(88172645463325252);
    digest = UINT64_C(14695981039346656037);
    call_readers();
    call_version();
    for (uint32_t i = 0; i < rounds; i++) {
        call_practice(i == 0 ? 0 : i == 1 ? 4294967295u : draw());
        call_sectors();
        call_by_hand();
        call_bounds();
        call_windows();
        call_legs();
        call_lines();
    }
    return digest;
}

/* ---- lengths beyond 32 bits: none is a good one, though its low 32 bits are, and none is read */

#if SIZE_MAX > 4294967295u
static void call_with(size_t over)
{
    HanjolumBuildAnswer a;
    HanjolumArrivals told = hanjolum_arrivals(sheet, over + 100);
    mix_arrivals(&told);
    for (int k = 0; k < 4; k++) {
        size_t c = 100 + (k == 0 ? over : 0), s = 8 + (k == 1 ? over : 0), p = 100 + (k == 2 ? over : 0), o = 100 + (k == 3 ? over : 0);
        a = hanjolum_sector(costs, c, steps, s, true, previous, p, sheet, o);
        mix_build(SECTOR, &a);
        a = hanjolum_sector_without_sight(costs, c, steps, s, true, previous, p, sheet, o);
        mix_build(SECTOR_WITHOUT_SIGHT, &a);
        HanjolumInitAnswer started = hanjolum_init(costs, c, steps, s);
        tell(INIT, started.number);
        a = hanjolum_build(costs, c, started.field);
        mix_build(BUILD, &a);
        tell(FLOW_NEW, hanjolum_flow_new(steps, s, started.field, true, previous, p, sheet, o));
        tell(FLOW_BUILD, hanjolum_flow_build(started.field, sheet, o));
        HanjolumBounds b = hanjolum_bounds(costs, c, costs, o, steps, s);
        mix_bounds(&b);
        mix_bytes(sheet, sizeof sheet);
    }
    for (int k = 0; k < 4; k++) {
        size_t f = 6400 + (k == 0 ? over : 0), s = 8 + (k == 1 ? over : 0), o = 6400 + (k == 2 ? over : 0), place = k == 3 ? over : 0;
        tell(LEG, hanjolum_leg(floor_costs, f, steps, s, floor_sheet, o));
        tell(LEG_WITHOUT_SIGHT, hanjolum_leg_without_sight(floor_costs, f, steps, s, floor_sheet, o));
        a = hanjolum_leg_field(floor_costs, f, steps, s, place);
        mix_build(LEG_FIELD, &a);
        a = hanjolum_leg_field_without_sight(floor_costs, f, steps, s, place);
        mix_build(LEG_FIELD_WITHOUT_SIGHT, &a);
        mix_move(hanjolum_move(floor_sheet, o, 3, 4));
        mix_way(hanjolum_way(floor_sheet, o, 3, 4));
        tell(LEG_FILE_WRITE, hanjolum_leg_file_write(steps, s, file, 14 + (k == 2 ? over : 0)));
        HanjolumLegFile read = hanjolum_leg_file_read(file, 14 + (k == 2 ? over : 0));
        tell(LEG_FILE_READ, read.number);
        HanjolumWindowCosts w = hanjolum_window_costs(costs, 100 + (k == 0 ? over : 0), steps, 16 + (k == 1 ? over : 0));
        mix_costs(&w);
        mix_tour(hanjolum_window_tour(costs, 100 + (k == 0 ? over : 0), steps, 16 + (k == 1 ? over : 0), 100));
        mix_bytes(floor_sheet, ROOM);
        mix_bytes(file, sizeof file);
    }
}

uint64_t run_lengths(void)
{
    static const size_t overs[] = { (size_t)1 << 32, (size_t)3 << 40, (size_t)1 << 63, SIZE_MAX - 6400 };
    state = UINT64_C(88172645463325252);
    digest = UINT64_C(14695981039346656037);
    for (int k = 0; k < 8; k++) {
        draw_costs(costs, HANJOLUM_CELLS);
        draw_costs(floor_costs, HANJOLUM_FLOOR);
        if (k % 2 == 0) {
            put_goal(steps, below(64), costs, true);
            floor_costs[100 * steps[HANJOLUM_STEP_SECTOR] + steps[HANJOLUM_STEP_GOAL]] = 1;
        } else {
            uint32_t sector = below(64);
            uint32_t boundary = below(4);
            put_window(steps, sector, boundary, costs, true);
            put_window(steps + HANJOLUM_STEP, sector, (boundary + 1) % 4, costs, true);
        }
        call_with(overs[k / 2]);
    }
    return digest;
}
#endif

#ifndef DRIVER_NO_MAIN
#include <inttypes.h>
#include <stdio.h>
#include <stdlib.h>

int main(int argc, char **argv)
{
    long rounds = argc > 1 ? strtol(argv[1], 0, 10) : 200;
    if (argc > 2 || rounds < 1 || rounds > 100000000) {
        fputs("driver: usage: driver [ROUNDS], a whole number from 1\n", stderr);
        return 1;
    }
    printf("values %016" PRIx64 "\n", run_values((uint32_t)rounds));
    const char *missed = what_was_missed();
    if (missed) {
        fprintf(stderr, "driver: %s\n", missed);
        return 1;
    }
#if SIZE_MAX > 4294967295u
    printf("lengths %016" PRIx64 "\n", run_lengths());
#endif
    return fflush(stdout) == 0 ? 0 : 1;
}
#endif
