/*
 * Reads drawings, and writes a floor as one (reading.h says what a drawing is). The lines that begin with a word are read
 * first, then the rows, so that a row knows where its cells lie and what its letters cost.
 */
#include "reading.h"

enum { LINE = 1023, WORDS = 128, QUOTED = 40 };

static const char *const SIDES[] = {"north", "east", "south", "west"};

/* The words that a porter may put in between. */
static const char *const FILLERS[] = {"sector", "side", "from", "to", "at", "column", "row", "by", "the"};

/* A part of the text: a line or a word. */
struct word {
    const char *bytes;
    size_t length;
};

/* A text as it is read line by line, and what is wrong with it. */
struct reading {
    const char *bytes;
    size_t length, at;
    int line;
    struct fault *fault;
};

/* A floor's drawing as it is read. */
struct drawn {
    struct reading reading;
    struct floor *floor;
    bool corner_said;
    int letters[26];                     /* the cost of each small letter, -1 for none */
    int said_goal, said_cart;            /* the places that lines say, -1 for none */
    int said_goal_line, said_cart_line;  /* and those lines */
};

/* Bytes that are written one behind the other; what finds no room is counted and not written. */
struct writing {
    char *bytes;
    size_t size, length;
};

static void put_byte(struct writing *out, char byte)
{
    if (out->length < out->size)
        out->bytes[out->length] = byte;
    out->length += 1;
}

static void put_text(struct writing *out, const char *text)
{
    for (; *text != '\0'; text++)
        put_byte(out, *text);
}

static void put_number(struct writing *out, int number)
{
    if (number >= 10)
        put_number(out, number / 10);
    put_byte(out, (char)('0' + number % 10));
}

/* A word of the text in a message: its beginning, no letter of UTF-8 cut apart, and what cannot be printed as '?'. */
static void put_word(struct writing *out, struct word word)
{
    size_t length = word.length;
    if (length > QUOTED)
        for (length = QUOTED; length > 0 && ((unsigned char)word.bytes[length] & 0xc0) == 0x80;)
            length -= 1;
    for (size_t i = 0; i < length; i++)
        put_byte(out, (unsigned char)word.bytes[i] < ' ' || word.bytes[i] == 0x7f ? '?' : word.bytes[i]);
    if (length < word.length)
        put_text(out, "...");
}

/* A byte of a drawing in words. */
static void put_byte_words(struct writing *out, int byte)
{
    put_text(out, "the byte 0x");
    put_byte(out, "0123456789abcdef"[byte / 16]);
    put_byte(out, "0123456789abcdef"[byte % 16]);
    if (byte < ' ' || byte > '~')
        return;
    put_text(out, " ('");
    put_byte(out, (char)byte);
    put_text(out, "')");
}

/* Where a cell lies; a sector of -1 is left out. */
static void put_place(struct writing *out, const int *at)
{
    if (at[0] >= 0) {
        put_text(out, "sector ");
        put_number(out, at[0]);
        put_text(out, ", ");
    }
    put_text(out, "column ");
    put_number(out, at[1]);
    put_text(out, ", row ");
    put_number(out, at[2]);
}

/* What a message is made of: its format, where %s is the word and %t the text; and of the numbers, one after the other, %d is a
   number, %c a letter, %b a byte in words, and %p a place of three numbers. */
struct parts {
    const char *format;
    struct word word;
    const char *text;
    int numbers[6];
};

/* Puts down what is wrong with the line that is read. It answers false, as reading does then. */
#define FAULT(reading, ...) say((reading)->fault, (reading)->line, (struct parts){.format = __VA_ARGS__})

/* Puts one part of a message, and answers how many numbers it took. */
static int put_part(struct writing *out, char kind, const struct parts *parts, const int *numbers)
{
    switch (kind) {
    case 's': return put_word(out, parts->word), 0;
    case 't': return put_text(out, parts->text), 0;
    case 'd': return put_number(out, *numbers), 1;
    case 'c': return put_byte(out, (char)*numbers), 1;
    case 'b': return put_byte_words(out, *numbers), 1;
    default: return put_place(out, numbers), 3;
    }
}

static bool say(struct fault *fault, int line, struct parts parts)
{
    struct writing out = {fault->words, sizeof fault->words - 1, 0};
    const int *numbers = parts.numbers;
    for (const char *at = parts.format; *at != '\0'; at++) {
        if (*at == '%')
            numbers += put_part(&out, *++at, &parts, numbers);
        else
            put_byte(&out, *at);
    }
    fault->words[out.length < out.size ? out.length : out.size] = '\0';
    fault->line = line;
    return false;
}

int place_at(int column, int row)
{
    return (row / SIDE * ACROSS + column / SIDE) * HANJOLUM_CELLS + row % SIDE * SIDE + column % SIDE;
}

int column_of(int place)
{
    return place / HANJOLUM_CELLS % ACROSS * SIDE + place % SIDE;
}

int row_of(int place)
{
    return place / HANJOLUM_CELLS / ACROSS * SIDE + place % HANJOLUM_CELLS / SIDE;
}

bool is_drawn(const struct floor *floor, int sector)
{
    int column = sector % ACROSS - floor->corner % ACROSS;
    int row = sector / ACROSS - floor->corner / ACROSS;
    return column >= 0 && row >= 0 && column < floor->columns / SIDE && row < floor->rows / SIDE;
}

int line_of(const struct floor *floor, int place)
{
    return floor->lines[row_of(place) - floor->corner / ACROSS * SIDE];
}

static bool is_space(char byte)
{
    return byte == ' ' || (byte >= '\t' && byte <= '\r');
}

static bool is_digit(char byte)
{
    return byte >= '0' && byte <= '9';
}

static bool is_small(char byte)
{
    return byte >= 'a' && byte <= 'z';
}

static char small(char byte)
{
    return (char)(byte >= 'A' && byte <= 'Z' ? byte - 'A' + 'a' : byte);
}

/* Whether a byte is one of a text's. */
static bool among(char byte, const char *bytes)
{
    while (*bytes != '\0' && *bytes != byte)
        bytes++;
    return *bytes != '\0';
}

static bool only(struct word word, const char *bytes)
{
    for (size_t i = 0; i < word.length; i++)
        if (!among(word.bytes[i], bytes))
            return false;
    return true;
}

/* Whether a word is another, capitals or not. */
static bool same(struct word word, const char *other)
{
    size_t i = 0;
    while (i < word.length && other[i] != '\0' && small(word.bytes[i]) == other[i])
        i += 1;
    return i == word.length && other[i] == '\0';
}

/* Goes back to the head of the text, behind its mark of UTF-8 where it has one. */
static void rewind_text(struct reading *reading)
{
    const char *head = reading->bytes;
    bool marked = reading->length >= 3 && head[0] == '\xef' && head[1] == '\xbb' && head[2] == '\xbf';
    reading->at = marked ? 3 : 0;
    reading->line = 0;
}

/* Looks for bytes that no drawing has. */
static bool check_bytes(struct reading *reading)
{
    size_t length = 0;
    rewind_text(reading);
    reading->line = 1;
    if (reading->length >= 2 && (unsigned char)(reading->bytes[0] ^ reading->bytes[1]) == 1 && (unsigned char)reading->bytes[0] >= 0xfe)
        return FAULT(reading, "the text is UTF-16; save it as UTF-8");
    for (size_t i = reading->at; i < reading->length; i++) {
        char byte = reading->bytes[i];
        if (byte == '\0')
            return FAULT(reading, "a NUL byte");
        length = byte == '\n' ? 0 : length + 1;
        reading->line += byte == '\n';
        if (length > LINE)
            return FAULT(reading, "more than %d bytes", .numbers = {LINE});
    }
    return true;
}

/* The next line of the text, spaces at both its ends cut off; false where the text has ended. */
static bool next_line(struct reading *reading, struct word *line)
{
    size_t first = reading->at, last = reading->at;
    if (first == reading->length)
        return false;
    while (last < reading->length && reading->bytes[last] != '\n')
        last += 1;
    reading->at = last < reading->length ? last + 1 : last;
    reading->line += 1;
    while (first < last && is_space(reading->bytes[first]))
        first += 1;
    while (first < last && is_space(reading->bytes[last - 1]))
        last -= 1;
    *line = (struct word){reading->bytes + first, last - first};
    return true;
}

/* Whether a line says nothing: it is empty, a remark, or a rule. */
static bool is_silent(struct word line)
{
    return line.length == 0 || line.bytes[0] == ';' || only(line, "-+|= \t");
}

/* The next word of a line, from a byte on: the words lie between spaces and commas. One of no length where the line has ended. */
static struct word next_word(struct word line, size_t *at)
{
    while (*at < line.length && among(line.bytes[*at], " ,\t"))
        *at += 1;
    struct word word = {line.bytes + *at, 0};
    while (*at < line.length && !among(line.bytes[*at], " ,\t"))
        *at += 1, word.length += 1;
    return word;
}

static bool is_filler(struct word word)
{
    for (size_t i = 0; i < sizeof FILLERS / sizeof *FILLERS; i++)
        if (same(word, FILLERS[i]))
            return true;
    return false;
}

/* Takes a line apart, leaves a porter's small words out, and answers how many words there are. */
static int words_of(struct word line, struct word *words)
{
    size_t at = 0;
    int count = 0;
    for (struct word word = next_word(line, &at); word.length > 0 && count < WORDS; word = next_word(line, &at))
        if (!is_filler(word))
            words[count++] = word;
    return count;
}

/* A word as a number, for what it is. */
static bool number_in(struct reading *reading, struct word word, int most, const char *what, int *number)
{
    bool good = word.length > 0;
    *number = 0;
    for (size_t i = 0; i < word.length && good; i++) {
        good = is_digit(word.bytes[i]);
        *number = 10 * *number + (word.bytes[i] - '0');
        good = good && *number <= most;
    }
    return good || FAULT(reading, "'%s' is no %t, a whole number from 0 to %d", .word = word, .text = what, .numbers = {most});
}

static bool read_corner(struct drawn *drawn, const struct word *words, int count)
{
    if (count != 2)
        return FAULT(&drawn->reading, "say it as: corner 9, the sector at the north-west of the drawing");
    if (drawn->corner_said)
        return FAULT(&drawn->reading, "a second corner");
    drawn->corner_said = true;
    return number_in(&drawn->reading, words[1], HANJOLUM_SECTORS - 1, "sector", &drawn->floor->corner);
}

static bool read_cost(struct drawn *drawn, const struct word *words, int count)
{
    if (count != 3 || words[1].length != 1 || !is_small(words[1].bytes[0]))
        return FAULT(&drawn->reading, "say it as: cost a 25, a small letter and what it costs");
    int *cost = &drawn->letters[words[1].bytes[0] - 'a'];
    if (*cost >= 0)
        return FAULT(&drawn->reading, "the cost of '%s' is said a second time", .word = words[1]);
    return number_in(&drawn->reading, words[2], HANJOLUM_WALL - 1, "cost", cost);
}

/* A place said as sector, column, row. */
static bool read_place(struct drawn *drawn, const struct word *words, int count, int *said)
{
    struct reading *reading = &drawn->reading;
    int sector, column, row;
    if (count != 4)
        return FAULT(reading, "say it as: %s 9 at 4 5, a sector, a column and a row", .word = words[0]);
    if (*said >= 0)
        return FAULT(reading, "a second %s", .word = words[0]);
    if (!number_in(reading, words[1], HANJOLUM_SECTORS - 1, "sector", &sector) || !number_in(reading, words[2], SIDE - 1, "column", &column)
        || !number_in(reading, words[3], SIDE - 1, "row", &row))
        return false;
    *said = sector * HANJOLUM_CELLS + row * SIDE + column;
    return true;
}

static bool read_goal(struct drawn *drawn, const struct word *words, int count)
{
    drawn->said_goal_line = drawn->reading.line;
    return read_place(drawn, words, count, &drawn->said_goal);
}

static bool read_cart(struct drawn *drawn, const struct word *words, int count)
{
    drawn->said_cart_line = drawn->reading.line;
    return read_place(drawn, words, count, &drawn->said_cart);
}

/* The side that a word names, whole or by its first letter. */
static bool side_in(struct reading *reading, struct word word, int *side)
{
    for (*side = 0; *side < 4; *side += 1)
        if (same(word, SIDES[*side]) || (word.length == 1 && small(word.bytes[0]) == SIDES[*side][0]))
            return true;
    return FAULT(reading, "'%s' is no side: north, east, south or west", .word = word);
}

/* The cell at the beginning of a side, and how far its cells lie apart. */
static int side_start(int side)
{
    static const int starts[] = {0, SIDE - 1, HANJOLUM_CELLS - SIDE, 0};
    return starts[side];
}

static int side_stride(int side)
{
    return side % 2 == 0 ? 1 : SIDE;
}

static void make_window(uint8_t *step, int sector, int side, int first, int last)
{
    for (int i = 0; i < HANJOLUM_STEP; i++)
        step[i] = 0;
    step[HANJOLUM_STEP_SECTOR] = (uint8_t)sector;
    step[HANJOLUM_STEP_MARK] = HANJOLUM_MARK_WINDOW;
    step[HANJOLUM_STEP_FIRST] = (uint8_t)first;
    step[HANJOLUM_STEP_LAST] = (uint8_t)last;
    step[HANJOLUM_STEP_BOUNDARY] = (uint8_t)side;
}

static bool read_leave(struct drawn *drawn, const struct word *words, int count)
{
    struct reading *reading = &drawn->reading;
    int sector, side, first, last;
    if (count != 5)
        return FAULT(reading, "say it as: leave 10 west 3 to 6, a sector, a side, and the window's first and last cell along it");
    if (drawn->floor->leave_count == HANJOLUM_STEPS - 1)
        return FAULT(reading, "a leg has at most %d sectors, the goal's among them", .numbers = {HANJOLUM_STEPS});
    if (!number_in(reading, words[1], HANJOLUM_SECTORS - 1, "sector", &sector) || !side_in(reading, words[2], &side)
        || !number_in(reading, words[3], SIDE - 1, "cell along a side", &first)
        || !number_in(reading, words[4], SIDE - 1, "cell along a side", &last))
        return false;
    if (first > last)
        return FAULT(reading, "the window from %d to %d ends before it begins; count from the north or from the west", .numbers = {first, last});
    struct leave *leave = &drawn->floor->leaves[drawn->floor->leave_count++];
    leave->line = reading->line;
    make_window(leave->step, sector, side, side_start(side) + first * side_stride(side), side_start(side) + last * side_stride(side));
    return true;
}

/* The words that a floor's line may begin with, and how such a line is read. */
static const struct command {
    const char *word;
    bool (*read)(struct drawn *drawn, const struct word *words, int count);
} COMMANDS[] = {{"leave", read_leave}, {"cost", read_cost}, {"goal", read_goal}, {"cart", read_cart}, {"corner", read_corner}};

/* The command that a line's first word is; NULL for none. */
static const struct command *command_of(struct word line)
{
    struct word words[WORDS];
    int count = words_of(line, words);
    for (size_t i = 0; i < sizeof COMMANDS / sizeof *COMMANDS; i++)
        if (count > 0 && same(words[0], COMMANDS[i].word))
            return &COMMANDS[i];
    return NULL;
}

/* Whether a line has a space in it: a row of letters has none. */
static bool has_space(struct word line)
{
    for (size_t i = 0; i < line.length; i++)
        if (line.bytes[i] == ' ' || line.bytes[i] == '\t')
            return true;
    return false;
}

/* Reads the lines that begin with a word. */
static bool read_said(struct drawn *drawn)
{
    struct word line, words[WORDS];
    rewind_text(&drawn->reading);
    while (next_line(&drawn->reading, &line)) {
        const struct command *command = is_silent(line) ? NULL : command_of(line);
        if (command != NULL && !command->read(drawn, words, words_of(line, words)))
            return false;
    }
    return true;
}

/* The place of a cell of the row that is read; -1 where it is off the floor. */
static int place_of(const struct floor *floor, int column)
{
    int across = floor->corner % ACROSS * SIDE + column;
    int down = floor->corner / ACROSS * SIDE + floor->rows;
    return across < FLOOR_SIDE && down < FLOOR_SIDE ? place_at(across, down) : -1;
}

/* A cell of the row that is read, for a message. */
#define CELL_OF(floor, column) place_of(floor, column) < 0 ? -1 : place_of(floor, column) / HANJOLUM_CELLS, (column) % SIDE, (floor)->rows % SIDE

/* Room for one more cell of a row. */
static bool room(struct drawn *drawn, int columns)
{
    if (drawn->floor->rows == FLOOR_SIDE)
        return FAULT(&drawn->reading, "more than %d rows, which is a whole floor", .numbers = {FLOOR_SIDE});
    if (columns == FLOOR_SIDE)
        return FAULT(&drawn->reading, "a row of more than %d cells, which is a whole floor", .numbers = {FLOOR_SIDE});
    return true;
}

/* Whether a row can have so many cells. */
static bool check_columns(struct drawn *drawn, int columns)
{
    const struct floor *floor = drawn->floor;
    if (columns % SIDE != 0 || columns == 0)
        return FAULT(&drawn->reading, "a row of %d cells; sectors are %d cells wide", .numbers = {columns, SIDE});
    if (floor->rows > 0 && columns != floor->columns)
        return FAULT(&drawn->reading, "a row of %d cells, where the rows above have %d", .numbers = {columns, floor->columns});
    return true;
}

/* Puts a cost down; what lies off the floor is left out, and found at the end. */
static void put_cost(struct floor *floor, int column, int cost)
{
    int place = place_of(floor, column);
    if (place >= 0)
        floor->costs[place] = (uint8_t)cost;
}

/* Ends a row of so many cells. */
static void end_row(struct drawn *drawn, int columns)
{
    drawn->floor->columns = columns;
    drawn->floor->lines[drawn->floor->rows] = drawn->reading.line;
    drawn->floor->rows += 1;
}

/* The letters of a row, without the `|` between sectors; answers how many there are, -1 where they are at fault. */
static int letters_of(struct drawn *drawn, struct word line, char *letters)
{
    int columns = 0;
    for (size_t i = 0; i < line.length; i++) {
        char letter = line.bytes[i];
        if (letter == '|')
            continue;
        if (!room(drawn, columns))
            return -1;
        if (!is_digit(letter) && !is_small(letter) && !among(letter, "#.GC")) {
            FAULT(&drawn->reading, "%p: %b is none of '#', '.', a digit, a small letter, 'G', 'C'%t",
                  .text = among(letter, "NESW") ? "; a window of letters is a sector's, which is drawn without --floor" : "",
                  .numbers = {CELL_OF(drawn->floor, columns), (unsigned char)letter});
            return -1;
        }
        letters[columns++] = letter;
    }
    return columns;
}

/* Puts a mark's place down, once. */
static bool mark_place(struct drawn *drawn, char letter, int column)
{
    int *mark = letter == 'G' ? &drawn->floor->goal : &drawn->floor->cart;
    int place = place_of(drawn->floor, column);
    if (*mark >= 0)
        return FAULT(&drawn->reading, "a second '%c'", .numbers = {letter});
    *mark = place < 0 ? 0 : place;
    return true;
}

/* Puts the cell of a letter down. */
static bool put_letter(struct drawn *drawn, int column, char letter)
{
    int cost = letter == '#' ? HANJOLUM_WALL : is_digit(letter) ? letter - '0' : is_small(letter) ? drawn->letters[letter - 'a'] : 1;
    if (cost < 0)
        return FAULT(&drawn->reading, "%p: '%c' has no cost; say it as: cost %c 25", .numbers = {CELL_OF(drawn->floor, column), letter, letter});
    put_cost(drawn->floor, column, cost);
    return (letter != 'G' && letter != 'C') || mark_place(drawn, letter, column);
}

static bool read_letters(struct drawn *drawn, struct word line)
{
    char letters[FLOOR_SIDE];
    int columns = letters_of(drawn, line, letters);
    if (columns < 0 || !check_columns(drawn, columns))
        return false;
    for (int column = 0; column < columns; column++)
        if (!put_letter(drawn, column, letters[column]))
            return false;
    end_row(drawn, columns);
    return true;
}

/* A row of numbers. */
static bool read_numbers(struct drawn *drawn, const struct word *words, int count)
{
    int columns = 0;
    for (int i = 0; i < count; i++) {
        int cost = HANJOLUM_WALL;
        if (same(words[i], "|"))
            continue;
        if (!room(drawn, columns) || (!same(words[i], "#") && !number_in(&drawn->reading, words[i], HANJOLUM_WALL, "cost", &cost)))
            return false;
        put_cost(drawn->floor, columns, cost);
        columns += 1;
    }
    if (!check_columns(drawn, columns))
        return false;
    end_row(drawn, columns);
    return true;
}

/* A row, of letters or of numbers. */
static bool read_row(struct drawn *drawn, struct word line)
{
    struct word words[WORDS];
    int count = words_of(line, words);
    if (!has_space(line))
        return read_letters(drawn, line);
    if (count > 0 && (is_digit(words[0].bytes[0]) || among(words[0].bytes[0], "#|")))
        return read_numbers(drawn, words, count);
    return FAULT(&drawn->reading, "'%s' begins no line that is understood: corner, cost, leave, goal, cart, or a row of cells",
                 .word = count > 0 ? words[0] : line);
}

static bool read_rows(struct drawn *drawn)
{
    struct word line;
    rewind_text(&drawn->reading);
    while (next_line(&drawn->reading, &line))
        if (!is_silent(line) && command_of(line) == NULL && !read_row(drawn, line))
            return false;
    return true;
}

/* Takes the place that a line says, where there is one, for the goal or the cart; not besides one that is drawn. */
static bool take_said(struct drawn *drawn, int *place, int said, int line, const char *what)
{
    drawn->reading.line = line;
    if (said < 0)
        return true;
    if (*place >= 0)
        return FAULT(&drawn->reading, "the %t is drawn, and said besides", .text = what);
    if (!is_drawn(drawn->floor, said / HANJOLUM_CELLS))
        return FAULT(&drawn->reading, "the %t's sector %d is not drawn", .text = what, .numbers = {said / HANJOLUM_CELLS});
    *place = said;
    return true;
}

/* Whether what is drawn is whole sectors, on the floor. */
static bool check_rectangle(struct drawn *drawn)
{
    const struct floor *floor = drawn->floor;
    int across = floor->columns / SIDE, down = floor->rows / SIDE;
    drawn->reading.line = 0;
    if (floor->rows == 0)
        return FAULT(&drawn->reading, "no row of cells");
    if (floor->rows % SIDE != 0)
        return FAULT(&drawn->reading, "%d rows of cells; sectors are %d rows high", .numbers = {floor->rows, SIDE});
    if (floor->corner % ACROSS + across > ACROSS || floor->corner / ACROSS + down > ACROSS)
        return FAULT(&drawn->reading, "%d by %d sectors from sector %d on do not fit on a floor of %d by %d",
                     .numbers = {across, down, floor->corner, ACROSS, ACROSS});
    return true;
}

/* What can only be judged once all lines are read. */
static bool finish(struct drawn *drawn)
{
    const struct floor *floor = drawn->floor;
    if (!check_rectangle(drawn) || !take_said(drawn, &drawn->floor->goal, drawn->said_goal, drawn->said_goal_line, "goal")
        || !take_said(drawn, &drawn->floor->cart, drawn->said_cart, drawn->said_cart_line, "cart"))
        return false;
    for (int i = 0; i < floor->leave_count; i++) {
        int sector = floor->leaves[i].step[HANJOLUM_STEP_SECTOR];
        drawn->reading.line = floor->leaves[i].line;
        if (!is_drawn(floor, sector))
            return FAULT(&drawn->reading, "sector %d is not drawn", .numbers = {sector});
    }
    return true;
}

/* A floor of walls, with nothing said of it yet. */
static void clear_floor(struct floor *floor)
{
    floor->corner = floor->columns = floor->rows = floor->leave_count = 0;
    floor->goal = floor->cart = -1;
    for (int place = 0; place < HANJOLUM_FLOOR; place++)
        floor->costs[place] = HANJOLUM_WALL;
}

bool read_floor(const char *text, size_t length, struct floor *floor, struct fault *fault)
{
    struct drawn drawn = {.reading = {text, length, 0, 0, fault}, .floor = floor, .said_goal = -1, .said_cart = -1};
    for (int letter = 0; letter < 26; letter++)
        drawn.letters[letter] = -1;
    clear_floor(floor);
    return check_bytes(&drawn.reading) && read_said(&drawn) && read_rows(&drawn) && finish(&drawn);
}

int leg_of(const struct floor *floor, uint8_t *steps)
{
    int count = floor->leave_count;
    if (floor->goal < 0)
        return 0;
    for (int i = 0; i < HANJOLUM_STEP; i++)
        steps[i] = 0;
    steps[HANJOLUM_STEP_SECTOR] = (uint8_t)(floor->goal / HANJOLUM_CELLS);
    steps[HANJOLUM_STEP_GOAL] = (uint8_t)(floor->goal % HANJOLUM_CELLS);
    for (int i = 0; i < count * HANJOLUM_STEP; i++)
        steps[HANJOLUM_STEP + i] = floor->leaves[count - 1 - i / HANJOLUM_STEP].step[i % HANJOLUM_STEP];
    return count + 1;
}

/* The letters of windows, by their sides, and the name of each side's edge. */
static const char WINDOWS[] = "NESW";
static const char *const EDGES[] = {"north edge (row 0)", "east edge (column 9)", "south edge (row 9)", "west edge (column 0)"};

static int side_of(char letter)
{
    int side = 0;
    while (WINDOWS[side] != letter)
        side += 1;
    return side;
}

/* Whether a cell lies on the edge that a side names. */
static bool on_edge(int side, int cell)
{
    return side % 2 == 0 ? cell / SIDE == side_start(side) / SIDE : cell % SIDE == side_start(side) % SIDE;
}

/* Puts a goal or a window's cell down. */
static bool mark(struct reading *reading, struct sector_drawing *drawing, char letter, int cell)
{
    int column = cell % SIDE, row = cell / SIDE;
    if (letter != 'G' && !on_edge(side_of(letter), cell))
        return FAULT(reading, "%p: '%c' stands off its edge, the %t", .text = EDGES[side_of(letter)], .numbers = {-1, column, row, letter});
    if (drawing->marked > 0 && drawing->mark != letter)
        return FAULT(reading, "%p: '%c' beside '%c'; draw a goal or one window", .numbers = {-1, column, row, letter, drawing->mark});
    if (drawing->marked > 0 && letter == 'G')
        return FAULT(reading, "%p: a second goal", .numbers = {-1, column, row});
    if (drawing->marked == 0)
        drawing->first = cell;
    drawing->mark = letter;
    drawing->last = cell;
    drawing->marked += 1;
    return true;
}

/* Puts a cell of a sector down. */
static bool put_cell(struct reading *reading, struct sector_drawing *drawing, char letter, int cell)
{
    bool marks = letter == 'G' || among(letter, WINDOWS);
    drawing->letters[cell] = letter;
    drawing->costs[cell] = (uint8_t)(letter == '#' ? HANJOLUM_WALL : is_digit(letter) ? letter - '0' : 1);
    if (letter == '#' || letter == '.' || is_digit(letter))
        return true;
    if (!marks)
        return FAULT(reading, "%p: %b is none of '#', '.', a digit, 'G', 'N', 'E', 'S', 'W'%t",
                     .text = is_small(letter) || letter == 'C' ? "; a whole floor is drawn with --floor" : "",
                     .numbers = {-1, cell % SIDE, cell / SIDE, (unsigned char)letter});
    return mark(reading, drawing, letter, cell);
}

/* The letters of a line, without `|`, as far as a row goes; answers how many there are. */
static int cells_of(struct word line, char *letters)
{
    int count = 0;
    for (size_t i = 0; i < line.length; i++) {
        if (line.bytes[i] == '|')
            continue;
        if (count < SIDE)
            letters[count] = line.bytes[i];
        count += 1;
    }
    return count;
}

/* Whether a line can be the next row of a sector. */
static bool check_sector_row(struct reading *reading, struct word line, int row, int cells)
{
    struct word words[WORDS];
    const char *more = cells > SIDE && cells % SIDE == 0 ? "; a whole floor is drawn with --floor" : "";
    int count = words_of(line, words);
    if (command_of(line) != NULL)
        return FAULT(reading, "'%s' begins a line of a floor's drawing; a whole floor is drawn with --floor", .word = words[0]);
    if (has_space(line) && count > 0 && is_digit(words[0].bytes[0]))
        return FAULT(reading, "a row of numbers, which is a floor's; a whole floor is drawn with --floor");
    if (row == SIDE)
        return FAULT(reading, "more than %d rows; a whole floor is drawn with --floor", .numbers = {SIDE});
    if (cells != SIDE)
        return FAULT(reading, "row %d has %d cells, not %d%t", .text = more, .numbers = {row, cells, SIDE});
    return true;
}

static bool read_sector_row(struct reading *reading, struct sector_drawing *drawing, struct word line, int row)
{
    char letters[SIDE];
    if (!check_sector_row(reading, line, row, cells_of(line, letters)))
        return false;
    for (int column = 0; column < SIDE; column++)
        if (!put_cell(reading, drawing, letters[column], row * SIDE + column))
            return false;
    drawing->lines[row] = reading->line;
    return true;
}

static bool check_marks(struct reading *reading, const struct sector_drawing *drawing)
{
    reading->line = 0;
    if (drawing->marked == 0)
        return FAULT(reading, "no goal 'G', and no window of 'N', 'E', 'S' or 'W' along an edge");
    if (drawing->mark != 'G' && drawing->first + (drawing->marked - 1) * side_stride(side_of(drawing->mark)) != drawing->last)
        return FAULT(reading, "the window of '%c' along the %t has a gap", .text = EDGES[side_of(drawing->mark)], .numbers = {drawing->mark});
    return true;
}

bool read_sector(const char *text, size_t length, struct sector_drawing *drawing, struct fault *fault)
{
    struct reading reading = {text, length, 0, 0, fault};
    struct word line;
    int row = 0;
    if (!check_bytes(&reading))
        return false;
    drawing->marked = 0;
    rewind_text(&reading);
    while (next_line(&reading, &line)) {
        if (is_silent(line))
            continue;
        if (!read_sector_row(&reading, drawing, line, row))
            return false;
        row += 1;
    }
    reading.line = 0;
    if (row < SIDE)
        return FAULT(&reading, "%d rows, not %d", .numbers = {row, SIDE});
    return check_marks(&reading, drawing);
}

void sector_step(const struct sector_drawing *drawing, uint8_t *step)
{
    make_window(step, 0, 0, 0, 0);
    if (drawing->mark != 'G')
        make_window(step, 0, side_of(drawing->mark), drawing->first, drawing->last);
    else
        step[HANJOLUM_STEP_MARK] = HANJOLUM_MARK_GOAL, step[HANJOLUM_STEP_GOAL] = (uint8_t)drawing->first;
}

/* A floor as it is to be written: the smallest rectangle, and the letter of each cost. */
struct written {
    const struct floor *floor;
    int west, north, east, south;        /* its first and last columns and rows of sectors */
    char letters[HANJOLUM_WALL + 1];     /* the letter of each cost, 0 for none */
    bool numbers;                        /* rows of numbers, since letters are not enough */
};

/* Makes the rectangle hold a sector. */
static void hold_sector(struct written *written, int sector)
{
    int column = sector % ACROSS, row = sector / ACROSS;
    written->west = column < written->west ? column : written->west;
    written->east = column > written->east ? column : written->east;
    written->north = row < written->north ? row : written->north;
    written->south = row > written->south ? row : written->south;
}

static void hold_all(struct written *written)
{
    const struct floor *floor = written->floor;
    for (int place = 0; place < HANJOLUM_FLOOR; place++)
        if (floor->costs[place] != HANJOLUM_WALL || place == floor->goal || place == floor->cart)
            hold_sector(written, place / HANJOLUM_CELLS);
    for (int i = 0; i < floor->leave_count; i++)
        hold_sector(written, floor->leaves[i].step[HANJOLUM_STEP_SECTOR]);
    if (written->east < 0)
        hold_sector(written, 0);
}

/* Chooses the letters: small ones for costs over 9, in their order, as long as there are enough. */
static void choose_letters(struct written *written)
{
    bool met[HANJOLUM_WALL + 1] = {false};
    char letter = 'a';
    for (int place = 0; place < HANJOLUM_FLOOR; place++)
        met[written->floor->costs[place]] = true;
    for (int cost = 0; cost < HANJOLUM_WALL; cost++) {
        if (cost < SIDE)
            written->letters[cost] = (char)('0' + cost);
        else if (met[cost] && letter <= 'z')
            written->letters[cost] = letter++;
        else
            written->numbers |= met[cost];
    }
    written->letters[1] = '.';
    written->letters[HANJOLUM_WALL] = '#';
}

/* Whether a place is drawn as a letter: it costs 1, and is not the goal's and the cart's at once. */
static bool as_letter(const struct written *written, int place)
{
    const struct floor *floor = written->floor;
    return !written->numbers && place >= 0 && floor->costs[place] == 1 && floor->goal != floor->cart;
}

/* A line that says the goal or the cart, where it is not drawn. */
static void put_said(struct writing *out, const struct written *written, int place, const char *word)
{
    if (place < 0 || as_letter(written, place))
        return;
    put_text(out, word);
    put_number(out, place / HANJOLUM_CELLS);
    put_text(out, " at ");
    put_number(out, place % SIDE);
    put_text(out, " ");
    put_number(out, place % HANJOLUM_CELLS / SIDE);
    put_text(out, "\n");
}

static void put_leave(struct writing *out, const uint8_t *step)
{
    int side = step[HANJOLUM_STEP_BOUNDARY] % 4;
    put_text(out, "leave sector ");
    put_number(out, step[HANJOLUM_STEP_SECTOR]);
    put_text(out, " ");
    put_text(out, SIDES[side]);
    put_text(out, " from ");
    put_number(out, (step[HANJOLUM_STEP_FIRST] - side_start(side)) / side_stride(side));
    put_text(out, " to ");
    put_number(out, (step[HANJOLUM_STEP_LAST] - side_start(side)) / side_stride(side));
    put_text(out, "\n");
}

/* What a small letter stands for. */
static void put_letter_cost(struct writing *out, const struct written *written, int cost)
{
    if (!is_small(written->letters[cost]))
        return;
    put_text(out, "cost ");
    put_byte(out, written->letters[cost]);
    put_text(out, " ");
    put_number(out, cost);
    put_text(out, "\n");
}

/* The lines that begin with a word. */
static void put_lines(struct writing *out, const struct written *written)
{
    const struct floor *floor = written->floor;
    put_text(out, "corner ");
    put_number(out, written->north * ACROSS + written->west);
    put_text(out, "\n");
    for (int cost = 0; cost < HANJOLUM_WALL && !written->numbers; cost++)
        put_letter_cost(out, written, cost);
    for (int i = 0; i < floor->leave_count; i++)
        put_leave(out, floor->leaves[i].step);
    put_said(out, written, floor->goal, "goal ");
    put_said(out, written, floor->cart, "cart ");
}

static void put_drawn(struct writing *out, const struct written *written, int place)
{
    const struct floor *floor = written->floor;
    int cost = floor->costs[place];
    if (written->numbers) {
        put_text(out, cost < 10 ? "  " : cost < 100 ? " " : "");
        put_number(out, cost);
        put_text(out, " ");
    } else if (as_letter(written, place) && (place == floor->goal || place == floor->cart)) {
        put_byte(out, place == floor->goal ? 'G' : 'C');
    } else {
        put_byte(out, written->letters[cost]);
    }
}

/* A row of cells, with `|` between sectors. */
static void put_row(struct writing *out, const struct written *written, int row)
{
    int first = written->west * SIDE, last = written->east * SIDE + SIDE - 1;
    for (int column = first; column <= last; column++) {
        if (column % SIDE == 0 && column > first)
            put_text(out, written->numbers ? "| " : "|");
        put_drawn(out, written, place_at(column, row));
    }
    put_text(out, "\n");
}

/* A rule between two rows of sectors. */
static void put_rule(struct writing *out, const struct written *written)
{
    for (int sector = written->west; sector <= written->east; sector++) {
        put_text(out, sector > written->west ? "+" : "");
        put_text(out, "----------");
    }
    put_text(out, "\n");
}

size_t write_floor(const struct floor *floor, char *text, size_t size)
{
    struct written written = {.floor = floor, .west = ACROSS, .north = ACROSS, .east = -1, .south = -1};
    struct writing out = {text, size, 0};
    hold_all(&written);
    choose_letters(&written);
    put_lines(&out, &written);
    for (int row = written.north * SIDE; row < (written.south + 1) * SIDE; row++) {
        if (row % SIDE == 0 && row > written.north * SIDE)
            put_rule(&out, &written);
        put_row(&out, &written, row);
    }
    return out.length <= size ? out.length : 0;
}
