"""The archive's answers, and what a page must show and say by them: worked out here, apart from the page's scripts. page/test uses it."""
import pathlib
import random
import struct
import subprocess

HERE = pathlib.Path(__file__).resolve().parent
ROOT = HERE.parents[1]
WARNINGS = ["-std=c11", "-Wall", "-Wextra", "-Wpedantic", "-Wconversion", "-Wcast-qual", "-Werror"]
WALL, FLOOR, CELLS, NOT_REACHED, NONE = 255, 6400, 100, 65535, 255
STOPPED, ARRIVED, IN_SIGHT, NEVER = 0, 2, 3, 4
SIDES = ["north", "east", "south", "west"]
# By the low four bits of a flow byte: its direction's place in the page's list, and its name.
DIRECTIONS = {1: (0, "north"), 2: (1, "east"), 4: (2, "south"), 8: (3, "west"), 3: (4, "north-east"), 6: (5, "south-east"), 12: (6, "south-west"),
              9: (7, "north-west")}
# What a page's layers hold for a cell.
UNPLANNED, WALL_CELL, UNREACHED, GOAL, SIGHT, ARROW, LOST = 0, 1, 2, 3, 4, 8, 16
COUNTS, DOES_NOT_COUNT, NOT_PLANNED_YET = 1, 2, 3


class Failed(Exception):
    """What went wrong with the archive, in words."""


class Archive:
    """answers.c with the archive, running; it ends with the `with`."""

    def __init__(self, library, folder):
        self.made = pathlib.Path(folder) / "answers"
        words = ["cc", *WARNINGS, "-O1", f"-I{ROOT / 'include'}", HERE / "answers.c", library, "-o", self.made]
        ran = subprocess.run([str(word) for word in words], capture_output=True, text=True, check=False)
        if ran.returncode != 0:
            raise Failed(f"answers.c cannot be built with {library}: {(ran.stderr.splitlines() or ['cc said nothing'])[0][:200]}")

    def __enter__(self):
        self.process = subprocess.Popen([str(self.made)], stdin=subprocess.PIPE, stdout=subprocess.PIPE)
        return self

    def __exit__(self, *_):
        self.process.stdin.close()
        self.process.wait()
        self.process.stdout.close()

    def ask(self, question):
        self.process.stdin.write(question)
        self.process.stdin.flush()

    def take(self, length):
        answer = self.process.stdout.read(length)
        if len(answer) != length:
            raise Failed("the archive's answer is cut off")
        return answer

    def practice(self, seed):
        """The costs and the goal of a seed."""
        self.ask(b"P" + struct.pack("<I", seed))
        answer = self.take(CELLS + 1)
        return answer[:CELLS], answer[CELLS]

    def leg(self, costs, steps, sight):
        """The number of a leg, and its answers where it is 0."""
        self.ask(b"L" + bytes([sight, len(steps) // 8]) + bytes(steps) + bytes(costs))
        number = self.take(1)[0]
        return number, None if number else Planned(self, bytes(costs), bytes(steps), sight)


class Planned:
    """A planned leg: what must be shown of every cell, and said of it."""

    def __init__(self, archive, costs, steps, sight):
        self.costs, self.steps, self.sight = costs, steps, sight
        self.sheet = archive.take(FLOOR)
        self.ways = list(struct.iter_unpack("<BHH", archive.take(FLOOR * 5)))
        self.fields = []
        for _ in range(0, len(steps), 8):
            cells = struct.unpack("<100I", archive.take(400))
            self.fields.append((cells, archive.take(CELLS), archive.take(CELLS)))
        self.step_of = {steps[i]: i // 8 for i in range(0, len(steps), 8)}

    def sign(self, place):
        """The sign of a cell, as a page's layer has it."""
        if self.costs[place] == WALL:
            return WALL_CELL
        if place // CELLS not in self.step_of:
            return UNPLANNED
        byte = self.sheet[place]
        if byte % 16 in DIRECTIONS:
            lost = self.ways[place][0] not in (ARRIVED, IN_SIGHT)
            return (LOST if lost else ARROW) + DIRECTIONS[byte % 16][0]
        if byte & 0xF0 == 0xE0:
            return UNREACHED
        return GOAL if byte & 0x40 else SIGHT

    def signs(self):
        return [self.sign(place) for place in range(FLOOR)]

    def lost(self):
        return [place for place in range(FLOOR) if self.sign(place) >= LOST]

    def windows(self):
        """What each cell is to its sector's window."""
        found = [0] * FLOOR
        for i in range(8, len(self.steps), 8):
            for place in window_places(self.steps[i : i + 8]):
                found[place] = COUNTS if self.sheet[place] & 0x90 == 0x90 else DOES_NOT_COUNT
        return found

    def told(self, place):
        """The words for a tapped cell."""
        cost = self.costs[place]
        words = [sentence(place_words(place)), f"Drawn cost {cost_words(cost)}"]
        step = self.step_of.get(place // CELLS)
        if step is None:
            return ". ".join([*words, "Leg does not name this sector"]) + "."
        words += [f"Byte {byte_words(self.sheet[place])}", f"Moves {self.moves_words(place)}", f"Built cost {self.built_words(step, place)}"]
        if step > 0:
            _, positions, corners = self.fields[step]
            position = positions[place % CELLS]
            words.append("Door " + ("none" if position == NONE else place_words(place // CELLS * CELLS + corners[position])))
        window = self.windows()[place]
        if window:
            words.append("Window this cell counts" if window == COUNTS else
                         "Window this cell does not count: it faces no cell from which the leg goes on")
        return ". ".join(words) + "."

    def moves_words(self, place):
        outcome, end, moves = self.ways[place]
        if outcome == ARRIVED:
            return f"{moves} to the goal" if moves else "0, it is the goal"
        if outcome == IN_SIGHT:
            return f"{moves} into sight of the goal" if moves else "0, the goal is in sight: drive straight for it"
        if outcome == NEVER:
            return "the arrows never arrive: they lead in a circle"
        return "none" if self.sheet[place] == 0xE0 else f"the arrows never arrive: they stop at {place_words(end)}"

    def built_words(self, step, place):
        word = self.fields[step][0][place % CELLS]
        if self.costs[place] == WALL:
            return "none, a wall"
        if word % 65536 == NOT_REACHED:
            return "not reached"
        return f"{word % 65536}, in waves of sight" if word & 0x10000 else str(word % 65536)


def window_places(step):
    sector, _, _, first, last, side = step[:6]
    return [sector * CELLS + cell for cell in range(first, last + 1, 1 if side % 2 == 0 else 10)]


def place_words(place):
    return f"sector {place // CELLS}, column {place % 10}, row {place % CELLS // 10}"


def sentence(words):
    return words[0].upper() + words[1:]


def cost_words(cost):
    return {WALL: "255, a wall", 0: "0; nothing is promised of following here"}.get(cost, str(cost))


def byte_words(byte):
    """A flow byte in words, by the header's flags."""
    words = []
    if byte & 0xF0 == 0xE0:
        words.append("a wall, or not reached")
    if byte & 0x10:
        words.append("can be walked")
    if byte & 0x50 == 0x50:
        words.append("the goal")
    elif byte & 0x30 == 0x30:
        words.append("goal in sight")
    if byte & 0x90 == 0x90:
        words.append("leads into the next sector")
    words.append(f"arrow {DIRECTIONS[byte % 16][1]}" if byte % 16 in DIRECTIONS else "no arrow")
    return f"0x{byte:02x}: {', '.join(words)}"


def along(side, at):
    return (0, 9, 90, 0)[side] + at * (1 if side % 2 == 0 else 10)


def step_of(sector, side, first, last):
    return bytes([sector, 0, 1, along(side, first), along(side, last), side, 0, 0])


def goal_step(place):
    return bytes([place // CELLS, place % CELLS, 0, 0, 0, 0, 0, 0])


def beside(sector, side):
    """The sector on a side of another, none where the floor ends."""
    column, row = sector % 8 + (0, 1, 0, -1)[side], sector // 8 + (-1, 0, 1, 0)[side]
    return row * 8 + column if 0 <= column < 8 and 0 <= row < 8 else None


def drawn_floor(chance, walls, dear):
    """A floor with so many walls and dearer cells in a hundred."""
    return bytearray(WALL if chance.random() * 100 < walls else chance.choice([2, 5, 9, 12, 25, 60, 150, 254]) if chance.random() * 100 < dear else 1
                     for _ in range(FLOOR))


def drawn_leg(chance, archive, costs, length):
    """The steps of a leg of some sectors from the goal back, each kept where the archive accepts the list; as long as it comes."""
    goal = chance.choice([place for place in range(FLOOR) if costs[place] != WALL])
    steps, last = goal_step(goal), goal // CELLS
    for _ in range(length * 40):
        if len(steps) == 8 * length:
            break
        side = chance.randrange(4)
        sector = beside(last, (side + 2) % 4)
        first, other = sorted(chance.randrange(10) for _ in range(2))
        if sector is None:
            continue
        tried = steps + step_of(sector, side, first, other)
        if archive.leg(costs, tried, False)[0] == 0 and archive.leg(costs, tried, True)[0] == 0:
            steps, last = tried, sector
    return steps


def drawn(archive, seed, length):
    """A drawn floor and a leg of exactly so many sectors, from a seed."""
    chance = random.Random(seed)
    while True:
        costs = drawn_floor(chance, chance.choice([0, 8, 15, 22]), chance.choice([0, 20, 60]))
        steps = drawn_leg(chance, archive, costs, length)
        if len(steps) == 8 * length:
            return bytes(costs), steps


def text_of(costs, steps):
    """A floor and a leg as the drawing tool's text, with rows of numbers."""
    lines = [f"goal {steps[0]} at {steps[1] % 10} {steps[1] // 10}"] if steps else []
    for i in range(len(steps) - 8, 0, -8):
        sector, _, _, first, last, side = steps[i : i + 6]
        lines.append(f"leave {sector} {SIDES[side]} from {place_along(side, first)} to {place_along(side, last)}")
    for row in range(80):
        lines.append(" ".join(str(costs[place_at(column, row)]) for column in range(80)))
    return "\n".join(lines) + "\n"


def place_along(side, cell):
    return cell % 10 if side % 2 == 0 else cell // 10


def place_at(column, row):
    return (row // 10 * 8 + column // 10) * CELLS + row % 10 * 10 + column % 10
