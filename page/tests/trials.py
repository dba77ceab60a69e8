"""The trials of the page: each uses it as a person would, and holds what is then seen and read to the archive's answers."""
import random

import archive
import person

WALL, CELLS = archive.WALL, archive.CELLS
FRAME = 16              # milliseconds
# The eight directions as differences of columns and rows, in the page's order.
LEADS = [(0, -1), (1, 0), (0, 1), (-1, 0), (1, -1), (1, 1), (-1, 1), (-1, -1)]
CELLAR = archive.ROOT / "examples/cellar.txt"


class Wrong(Exception):
    """What is otherwise than it must be, in words."""


def hold(what, found, wanted):
    if found != wanted:
        raise Wrong(f"{what} is {found!r}"[:300] + f", and not {wanted!r}"[:300])


def holds(what, test):
    if not test:
        raise Wrong(what)


def hold_arrows(somebody, answers):
    """Signs and windows of the whole floor are those that the archive answers of what is drawn."""
    seen = somebody.layers()
    number, planned = answers.leg(seen["costs"], somebody.steps(), seen["sight"])
    hold("the archive's number", number, 0)
    hold("the number of planned steps", seen["plan"]["accepted"], len(planned.steps) // 8)
    hold_layer("sign", seen["signs"], planned.signs())
    hold_layer("window", seen["windows"], planned.windows())
    return planned


def hold_layer(what, found, wanted):
    for place in range(archive.FLOOR):
        hold(f"the {what} of {archive.place_words(place)}", found[place], wanted[place])


def hold_pixels(somebody, planned, sector):
    """The signs of a sector, as they are on the screen: which sign by its colour, and an arrow's direction by its shape."""
    somebody.look_at(sector)
    somebody.script("hanjolumPage.page.tapped = -1; hanjolumPage.page.redraw();")
    somebody.settle()
    for cell, found in enumerate(somebody.pixels(sector)):
        place = sector * CELLS + cell
        if found is None:
            raise Wrong(f"{archive.place_words(place)} is not on the screen")
        hold_sign(archive.place_words(place), found, planned.sign(place))


def hold_sign(where, found, sign):
    kind = {archive.UNREACHED: "unreached", archive.GOAL: "goal", archive.SIGHT: "sight"}.get(sign)
    if sign >= archive.ARROW:
        kind = "lost" if sign >= archive.LOST else "arrow"
    signs = [name for name in ("arrow", "lost", "unreached") if name in found]
    signs += ["sight" if sign == archive.SIGHT else "goal"] if "goal" in found else []
    hold(f"the sign on the screen at {where}", signs, [kind] if kind else [])
    if sign >= archive.ARROW:
        _, east, south = found[kind]
        wanted = LEADS[(sign - archive.ARROW) % 8]
        best = max(range(8), key=lambda i: (LEADS[i][0] * east + LEADS[i][1] * south) / (abs(LEADS[i][0]) + abs(LEADS[i][1])) ** 0.5)
        hold(f"the arrow's direction on the screen at {where}", LEADS[best], wanted)


def hold_told(somebody, planned, place):
    """A cell is tapped, and told as the archive answers it."""
    somebody.tap_place(place)
    somebody.settle()
    hold(f"what is told of {archive.place_words(place)}", somebody.told(), planned.told(place))


# Trials: each takes a person and the archive. Its first line is what it tries.


def opens(somebody, _):
    """the page opens, fetches nothing, and shows the example with one line of what to do"""
    somebody.come()
    hold("what went wrong in the browser", somebody.browser.log(), [])
    hold("what was fetched", somebody.script("return performance.getEntriesByType('resource').map((entry) => entry.name)"), [])
    holds(f"the first line is '{somebody.told()}'", somebody.told().startswith("This is an example. Draw walls"))
    seen = somebody.layers()
    hold("planned without sight", (seen["sight"], somebody.script("return document.getElementById('sight').checked")), (False, False))
    hold("the sectors of the leg", [seen["goal"] // CELLS] + [window["sector"] for window in seen["leg"]], [3, 11, 10, 2, 1, 9, 17, 16])
    hold("the leg's refusals", seen["plan"]["refusals"], [])


def fits(somebody, _):
    """all that can be pressed is on the screen, large enough, and nothing is cut off"""
    somebody.come()
    wide, high = somebody.script("return [document.documentElement.scrollWidth, document.documentElement.scrollHeight]")
    hold("the page's width and height", (wide <= somebody.width, high <= somebody.height), (True, True))
    for opened in ([False, True] if somebody.width < 1000 else [False]):
        somebody.panel(opened)
        small = somebody.script("""
            const least = innerWidth < 1000 ? 44 : 34;
            return [...document.querySelectorAll('button, input, .switch, .choice span')].filter((it) => it.checkVisibility())
                .filter((it) => it.type !== 'radio' && it.type !== 'checkbox')
                .map((it) => [it.id || it.textContent.trim(), it.getBoundingClientRect()])
                .filter(([, box]) => box.height < least || box.width < least || box.left < 0 || box.right > innerWidth)
                .map(([name, box]) => `${name} ${box.width}x${box.height} from ${box.left}`);""")
        hold("what is too small or beside the screen", small, [])
        cut = somebody.script("""
            return [...document.querySelectorAll('button, #leg li, #signs li, #options > *')].filter((it) => it.checkVisibility())
                .filter((it) => it.scrollWidth > it.clientWidth + 1).map((it) => it.id || it.textContent.trim());""")
        hold("what is cut off", cut, [])


def looks(somebody, answers):
    """a tapped cell is told: cost, byte, moves, built cost and door; a drag moves the floor"""
    somebody.come()
    planned = hold_arrows(somebody, answers)
    chance = random.Random(somebody.width)
    for sector in (3, 11, 17, 0):
        somebody.look_at(sector)
        for _ in range(3):
            hold_told(somebody, planned, sector * CELLS + chance.randrange(CELLS))
    before = somebody.layers()
    somebody.drag((5, 5), (7, 6), (8, 8))
    after = somebody.layers()
    hold("the zoom", after["cell"], before["cell"])
    holds("a drag does not move the floor", (after["left"], after["top"]) != (before["left"], before["top"]))
    hold("the costs", after["costs"], before["costs"])


def looks_with_sight(somebody, answers):
    """with sight as a switch: rings, and the cells whose arrows never arrive in red and named"""
    somebody.come()
    somebody.press(".switch")
    planned = hold_arrows(somebody, answers)
    holds("the example has cells that never arrive", len(planned.lost()) > 0 and archive.SIGHT in planned.signs())
    somebody.panel(True)
    named = []
    for sector in planned.steps[::8]:
        cells = [str(place % CELLS) for place in planned.lost() if place // CELLS == sector]
        named += [f"sector {sector}, cells {' '.join(cells)}"] if cells else []
    hold("the cells named", somebody.text("#lost"), f"The arrows of {len(planned.lost())} cells never arrive: {'; '.join(named)}.")
    somebody.panel(False)
    hold_pixels(somebody, planned, 3)
    lost = next(place for place in planned.lost() if place // CELLS == 3)
    hold_told(somebody, planned, lost)
    hold_told(somebody, planned, planned.signs().index(archive.SIGHT))
    somebody.press(".switch")
    hold("planned with sight", somebody.layers()["sight"], False)
    hold("the cells that never arrive", hold_arrows(somebody, answers).lost(), [])


def paints(somebody, answers):
    """walls, floor and costs as cells, strokes and rectangles; each stroke shows its arrows"""
    somebody.come()
    somebody.look_at(3)
    wanted = somebody.layers()["costs"]

    def painted(cells, cost, words):
        for column, row in cells:
            wanted[archive.place_at(column, row)] = cost
        hold(f"the costs after {words}", somebody.layers()["costs"], wanted)
        hold("what is said", somebody.told(), words)
        hold_arrows(somebody, answers)

    somebody.choose("wall")
    somebody.tap(34, 5)
    painted([(34, 5)], WALL, "Wall on 1 cell.")
    somebody.drag((31, 0), (31, 2), (33, 4))
    painted([(31, 0), (31, 1), (31, 2), (32, 3), (33, 4)], WALL, "Wall on 5 cells.")
    somebody.choose("cost")
    somebody.write("#cost", 25)
    somebody.press("input[value=rectangle] + span")
    somebody.drag((36, 8), (37, 6), (38, 7))
    painted([(column, row) for column in (36, 37, 38) for row in (7, 8)], 25, "Cost 25 on 6 cells.")
    somebody.choose("floor")
    somebody.drag((38, 8), (36, 7))
    painted([(column, row) for column in (36, 37, 38) for row in (7, 8)], 1, "Floor on 6 cells.")
    somebody.press("input[value=stroke] + span")
    somebody.drag((34, 5), (31, 5))
    painted([(column, 5) for column in (31, 32, 33, 34)], 1, "Floor on 4 cells.")


def warns_of_zero(somebody, _):
    """a cost of 0 is painted with a warning that nothing is promised of following there"""
    somebody.come()
    somebody.look_at(3)
    somebody.choose("cost")
    somebody.write("#cost", 0)
    hold("the warning beside the field", somebody.script("return document.getElementById('zero').checkVisibility()"), True)
    somebody.tap(35, 8)
    hold("the cost", somebody.layers()["costs"][archive.place_at(35, 8)], 0)
    hold("what is said", somebody.told(), "Cost 0 on 1 cell. Nothing is promised of following where a cost is 0.")
    somebody.panel(True)
    hold("the warning in the panel", somebody.text("#zeros"), "1 cell of cost 0: nothing is promised of following there.")
    somebody.panel(False)
    for typed, kept in (("999", 254), ("-3", 0), ("7.9", 7)):
        somebody.write("#cost", typed)
        somebody.tap(34, 8)
        hold(f"the cost after {typed} is typed", somebody.layers()["costs"][archive.place_at(34, 8)], kept)


def undoes(somebody, answers):
    """undo and redo, of strokes and of the leg, back to the beginning and forth again"""
    somebody.come()
    somebody.look_at(3)
    states = [somebody.layers()]
    somebody.choose("wall")
    for column, row in [(column, row) for row in (5, 8) for column in range(31, 37)]:
        somebody.tap(column, row)
        states.append(somebody.layers())
    somebody.choose("goal")
    somebody.tap(38, 5)
    states.append(somebody.layers())
    parts = ("costs", "goal", "leg", "signs")
    distinct = [state for i, state in enumerate(states) if i == 0 or any(state[part] != states[i - 1][part] for part in parts)]
    for state in reversed(distinct[:-1]):
        somebody.press("#undo")
        seen = somebody.layers()
        hold("what is undone", [seen[part] == state[part] for part in parts], [True] * 4)
    hold("more to undo", somebody.script("return document.getElementById('undo').disabled"), True)
    for state in distinct[1:]:
        somebody.press("#redo")
        seen = somebody.layers()
        hold("what is done again", [seen[part] == state[part] for part in parts], [True] * 4)
    hold("more to do again", somebody.script("return document.getElementById('redo').disabled"), True)
    hold_arrows(somebody, answers)


def chooses_leg(somebody, answers):
    """a goal by a tap, a leg by tapping from sector to sector, a window dragged along its edge, and the same in the list"""
    somebody.come()
    somebody.panel(True)
    somebody.press("#new")
    somebody.panel(False)
    somebody.look_at(9, 18)
    somebody.choose("goal")
    somebody.tap(13, 14)
    hold("the goal", somebody.layers()["goal"], archive.place_at(13, 14))
    hold_arrows(somebody, answers)
    somebody.choose("leg")
    for column, row, sectors in ((25, 15, [10]), (26, 24, [10, 18]), (15, 25, [10, 18, 17])):
        somebody.tap(column, row)
        hold("the leg's sectors", [window["sector"] for window in somebody.layers()["leg"]], sectors)
        hold_arrows(somebody, answers)
    drags_windows(somebody, answers)
    somebody.panel(True)
    changes_list(somebody, answers)
    somebody.panel(False)


def drags_windows(somebody, answers):
    """A window's end is dragged, and a window anew along its edge."""
    hold("the first window", somebody.layers()["leg"][0], {"sector": 10, "side": 3, "first": 0, "last": 9})
    handle = next(handle for handle in somebody.handles() if handle["index"] == 0 and handle["anchor"] == 9)
    somebody.browser.drag(somebody.kind, (handle["x"], handle["y"]), somebody.at(20, 12), somebody.at(20, 14))
    hold("the window after its end is dragged", somebody.layers()["leg"][0], {"sector": 10, "side": 3, "first": 4, "last": 9})
    hold_arrows(somebody, answers)
    somebody.drag((22, 20), (24, 20), (25, 20))
    hold("the window after it is dragged anew", somebody.layers()["leg"][1], {"sector": 18, "side": 0, "first": 2, "last": 5})
    hold_arrows(somebody, answers)


def changes_list(somebody, answers):
    """The leg in its list: a window's ends typed and by arrow keys, a sector added by its number, the last one taken out."""
    somebody.write("#leg li:nth-child(3) input:last-of-type", 6)
    somebody.browser.keys("Tab")
    hold("the window after its line is changed", somebody.layers()["leg"][0], {"sector": 10, "side": 3, "first": 4, "last": 6})
    somebody.script("document.querySelector('#leg li:nth-child(3) input').focus();")
    somebody.browser.keys("Up", "Up", "Down")
    hold("the window after its line is changed by arrow keys", somebody.layers()["leg"][0], {"sector": 10, "side": 3, "first": 5, "last": 6})
    somebody.write("#sector", 25)
    somebody.press("#add")
    hold("the leg after a sector is added by its number", [window["sector"] for window in somebody.layers()["leg"]], [10, 18, 17, 25])
    hold_arrows(somebody, answers)
    somebody.press("#out")
    hold("the leg after its last is taken out", [window["sector"] for window in somebody.layers()["leg"]], [10, 18, 17])
    lines = somebody.script("return [...document.querySelectorAll('#leg li')].map((line) => line.textContent)")
    hold("the list", lines, ["Sector 17east, fromto", "Sector 18north, fromto", "Sector 10west, fromto", "Sector 9the goal, column 3, row 4"])


def practises(somebody, answers):
    """a sector's practice floor by its seed, with its goal"""
    somebody.come()
    somebody.panel(True)
    somebody.press("#new")
    somebody.panel(False)
    somebody.look_at(9)
    somebody.choose("practice")
    for seed in (2026, 4294967295, 0):
        somebody.write("#seed", seed)
        somebody.tap(14, 14)
        costs, goal = answers.practice(seed)
        seen = somebody.layers()
        hold(f"the costs of {seed}", bytes(seen["costs"][900:1000]), costs)
        hold(f"the goal of {seed}", seen["goal"], 900 + goal)
        hold("what is said", somebody.told(), f"Practice floor {seed} in sector 9, and its goal, cell {goal}.")
        hold_arrows(somebody, answers)
    before = somebody.text("#seed")
    somebody.press("#dice")
    holds("another seed is none", somebody.script("return document.getElementById('seed').value") != before)


def hold_refusal(somebody, number, words, place, kept):
    """A refusal is said, listed and shown at its place, and the drawing is as it was."""
    seen = somebody.layers()
    listed = somebody.refusals()
    holds(f"{number} is not listed: {listed}", any(line.startswith(f"{number}{words}") and f"Number {number}: " in line for line in listed))
    marks = [mark for mark in somebody.marks() if mark["words"].startswith(f"{number}{words}")]
    holds(f"{number} is not shown on the floor: {somebody.marks()}", len(marks) == 1)
    box = marks[0]["box"]
    holds(f"the label of {number} is beside the screen: {box}", box["left"] >= 0 and box["top"] >= 0 and box["right"] <= somebody.width)
    if place is not None:
        x, y = somebody.place(place)
        origin = somebody.script("const box = document.getElementById('canvas').getBoundingClientRect(); return [box.left, box.top];")
        hold("the pin's place", (round(marks[0]["x"] + origin[0]), round(marks[0]["y"] + origin[1])), (round(x), round(y)))
    if kept is not None:
        hold("what the refusal leaves", [seen[part] == kept[part] for part in ("costs", "goal", "leg", "signs")], [True] * 4)


def refuses_list(somebody, answers):
    """3, 9 and 10: no goal, a sector twice, one that is no neighbour, one too many; each is said, and the leg stays"""
    somebody.come()
    somebody.panel(True)
    somebody.press("#new")
    somebody.panel(False)
    hold_refusal(somebody, 3, "There is no goal yet.", None, None)
    somebody.look_at(9, 18)
    somebody.choose("leg")
    kept = somebody.layers()
    somebody.tap(15, 15)
    hold_refusal_told(somebody, 3, "There is no goal yet.")
    hold("the leg", somebody.layers()["leg"], kept["leg"])
    somebody.choose("goal")
    somebody.tap(13, 14)
    hold("what is refused", somebody.refusals(), [])
    somebody.choose("leg")
    somebody.tap(25, 15)
    kept = somebody.layers()
    somebody.tap(25, 15)
    hold_refusal(somebody, 9, "Sector 10 is in the leg already.", 1044, kept)
    hold_refusal_told(somebody, 9, "Sector 10 is in the leg already.")
    somebody.tap(15, 25)
    hold_refusal(somebody, 10, "Sector 17 is not beside sector 10", 1744, kept)
    hold_refusal_told(somebody, 10, "Sector 17 is not beside sector 10")
    hold_arrows(somebody, answers)
    refuses_goal(somebody, kept)
    refuses_seventeen(somebody, answers)


def hold_refusal_told(somebody, number, words):
    holds(f"{number} is said as: {somebody.told()}", somebody.told().startswith(words) and f"Refused with number {number}: " in somebody.told())


def refuses_goal(somebody, kept):
    """A goal where the leg does not come: the leg stays, and a new one is offered. What is told of a tapped cell stays true."""
    somebody.choose("look")
    somebody.tap(12, 17)
    facts = somebody.text("#facts")
    somebody.choose("goal")
    somebody.tap(25, 25)
    hold("what is told of the tapped cell", somebody.text("#facts"), facts)
    somebody.choose("leg")
    hold("what is refused once another tool is chosen", somebody.refusals(), [])
    somebody.choose("goal")
    somebody.tap(25, 25)
    hold_refusal(somebody, 10, "The leg does not come into sector 18.", archive.place_at(25, 25), kept)
    somebody.press("#refused button")
    hold("the new leg", somebody.steps(), archive.goal_step(archive.place_at(25, 25)))
    somebody.press("#undo")
    hold("the leg after undo", somebody.layers()["leg"], kept["leg"])


def refuses_seventeen(somebody, answers):
    """The seventeenth sector."""
    somebody.panel(True)
    for sector in [11, 12, 13, 14, 15, 7, 6, 5, 4, 3, 2, 1, 0, 8]:
        somebody.write("#sector", sector)
        somebody.press("#add")
    kept = somebody.layers()
    hold("the number of windows", len(kept["leg"]), 15)
    hold_arrows(somebody, answers)
    somebody.write("#sector", 16)
    somebody.press("#add")
    somebody.panel(False)
    hold_refusal(somebody, 3, "A leg has at most sixteen sectors", None, kept)


def refuses_floor(somebody, answers):
    """15 and 16: a window or a goal on a wall, a window that nothing is reached behind; what comes before still has its arrows"""
    somebody.come()
    somebody.look_at(11, 3)
    before = somebody.layers()
    somebody.choose("wall")
    somebody.tap(36, 10)
    hold_refusal(somebody, 16, "Sector 11, north window: cell 6 of it is a wall.", archive.place_at(36, 10), None)
    hold("what is spoken", somebody.told(), "Wall on 1 cell. Sector 11, north window: cell 6 of it is a wall. Refused with number 16.")
    seen = somebody.layers()
    hold("the steps that are planned", (seen["plan"]["accepted"], seen["plan"]["count"]), (1, 8))
    number, planned = answers.leg(seen["costs"], somebody.steps()[:8], False)
    hold("the number of the beginning", number, 0)
    hold_layer("sign", seen["signs"], planned.signs())
    somebody.choose("look")
    somebody.tap(33, 15)
    holds(f"a cell behind the refusal is told as: {somebody.told()}", somebody.told().endswith("Leg is refused before it comes here."))
    somebody.press("#undo")
    hold("the signs after undo", somebody.layers()["signs"], before["signs"])
    hold("what is refused", (somebody.refusals(), somebody.marks()), ([], []))
    refuses_goal_and_door(somebody, answers, before)


def refuses_goal_and_door(somebody, answers, before):
    """A wall onto the goal, and walls in front of all of a window."""
    somebody.choose("wall")
    goal = before["goal"]
    somebody.tap_place(goal)
    hold_refusal(somebody, 16, "The goal is on a wall", goal, None)
    hold("the steps that are planned", somebody.layers()["plan"]["accepted"], 0)
    somebody.press("#undo")
    somebody.press("input[value=rectangle] + span")
    somebody.drag((30, 9), (39, 9))
    hold_refusal(somebody, 15, "Sector 11, north window: none of its cells faces", archive.place_at(35, 10), None)
    somebody.press("#undo")
    hold("the signs after undo", somebody.layers()["signs"], before["signs"])
    hold_arrows(somebody, answers)


def zooms(somebody, _):
    """buttons, wheel and two fingers zoom; the middle button moves; a second finger takes a begun stroke back"""
    somebody.come()
    sizes = [somebody.layers()["cell"]]
    for button, nearer in (("#nearer", True), ("#nearer", True), ("#farther", False)):
        somebody.press(button)
        sizes.append(somebody.layers()["cell"])
        holds(f"{button} does not zoom", (sizes[-1] > sizes[-2]) == nearer)
    somebody.press("#fit")
    hold("the zoom that shows all", round(somebody.layers()["cell"], 6), round(sizes[0], 6))
    at = somebody.at(22, 14)
    somebody.browser.wheel(at, -300)
    seen = somebody.layers()
    holds("the wheel does not zoom", seen["cell"] > sizes[0])
    under = somebody.at(22, 14)
    holds("what is under the wheel does not stay there", abs(under[0] - at[0]) < seen["cell"] and abs(under[1] - at[1]) < seen["cell"])
    if somebody.kind == "mouse":
        somebody.choose("wall")
        before = somebody.layers()
        somebody.browser.drag("mouse", somebody.at(22, 14), somebody.at(24, 15), button=1)
        after = somebody.layers()
        hold("the costs", after["costs"], before["costs"])
        holds("the middle button does not move the floor", after["left"] != before["left"])
    else:
        pinches(somebody)


def pinches(somebody):
    somebody.press("#fit")
    somebody.choose("wall")
    before = somebody.layers()
    (x, y), far = somebody.at(20, 14), 60
    one = somebody.browser.pointer("touch", [(x - 30, y), (x - 30, y), (x - 30 - far, y)], "one", 40)
    other = somebody.browser.pointer("touch", [(x + 30, y), (x + 30, y), (x + 30 + far, y)], "other", 40)
    other["actions"].insert(0, {"type": "pause", "duration": 0})
    somebody.browser.actions(one, other)
    after = somebody.layers()
    hold("the costs", after["costs"], before["costs"])
    holds(f"two fingers do not zoom: {before['cell']} to {after['cell']}", after["cell"] > before["cell"] * 1.5)


def by_keyboard(somebody, answers):
    """all of it by the keyboard: the cell's cursor, tools by letters, rectangles, the leg, undo"""
    somebody.come()
    keys = somebody.browser.keys
    somebody.look_at(3)
    somebody.script("document.getElementById('canvas').focus();")
    keys("Right")
    cursor = somebody.layers()["cursor"]
    holds("there is no cursor", cursor >= 0)
    keys("Left", "Shift+Up", "Shift+Up", "Shift+Up", *["Left"] * 9)
    at = somebody.layers()["cursor"]
    while at % 10 != 4:
        keys("Left" if at % 10 > 4 else "Right")
        at = somebody.layers()["cursor"]
    hold("the cell of the cursor is said", somebody.told().startswith(archive.sentence(archive.place_words(at))), True)
    keys("w", "Enter")
    hold("the wall", somebody.layers()["costs"][at], WALL)
    keys("Ctrl+z")
    hold("the cost after undo", somebody.layers()["costs"][at] == WALL, False)
    keys("Ctrl+y", "f", "Space")
    hold("the floor", somebody.layers()["costs"][at], 1)
    keys("g", "Down", "Down", "Enter")
    seen = somebody.layers()
    number = seen["plan"]["refusals"][0]["number"] if seen["plan"]["refusals"] else 0
    holds("the goal is neither put nor refused", seen["goal"] == seen["cursor"] or len(somebody.refusals()) > 0 or number > 0)
    keys("Escape", "Enter")
    hold("what is told", somebody.told().startswith(archive.sentence(archive.place_words(seen["cursor"]))), True)
    by_keyboard_alone(somebody, answers, keys)


def by_keyboard_alone(somebody, answers, keys):
    """A new floor, a rectangle of walls, a goal and a leg of three."""
    somebody.panel(True)
    somebody.script("document.getElementById('new').focus();")
    keys("Enter")
    somebody.panel(False)
    somebody.script("document.getElementById('canvas').focus(); hanjolumPage.page.cursor = 944;")
    keys("g", "Enter", "l", "Shift+Right", "Enter", "Shift+Down", "Enter")
    seen = somebody.layers()
    hold("the goal and the leg", (seen["goal"], [window["sector"] for window in seen["leg"]]), (944, [10, 18]))
    keys("w")
    somebody.script("document.querySelector('input[value=rectangle]').focus();")
    keys("Space")
    somebody.script("document.getElementById('canvas').focus();")
    keys("Enter", "Right", "Down", "Enter")
    hold("the rectangle", [somebody.layers()["costs"][place] for place in (1844, 1845, 1854, 1855, 1843, 1856)], [WALL] * 4 + [1, 1])
    hold_arrows(somebody, answers)


def keeps(somebody, answers):
    """a drawing is kept between two visits, by the drawing tool's reading; one that cannot be read is said, and lost to nobody"""
    somebody.come()
    somebody.look_at(3)
    somebody.choose("cost")
    somebody.write("#cost", 77)
    somebody.tap(35, 8)
    somebody.choose("goal")
    somebody.tap(36, 5)
    before = somebody.layers()
    somebody.again()
    after = somebody.layers()
    hold("what is kept", [after[part] == before[part] for part in ("costs", "goal", "leg", "signs")], [True] * 4)
    hold("what is said", somebody.told().startswith("Your drawing of the last visit. A leg of 8 sectors"), True)
    hold("what can be undone", after["past"], 0)
    somebody.come("..........\n")
    holds(f"a drawing that cannot be read is told as: {somebody.told()}", somebody.told().startswith("The kept drawing cannot be read ("))
    hold("the sectors of the leg", len(somebody.layers()["leg"]), 7)
    somebody.panel(True)
    somebody.press("#new")
    somebody.panel(False)
    somebody.script("hanjolumPage.page.keep();")
    somebody.again()
    hold("a floor without a goal", (somebody.layers()["goal"], set(somebody.layers()["costs"])), (-1, {1}))
    hold_refusal(somebody, 3, "There is no goal yet.", None, None)


def speaks(somebody, _):
    """a screen reader finds a name for all that can be used, and is told what is done"""
    somebody.come()
    somebody.panel(True)
    tree = somebody.browser.cdp("Accessibility.getFullAXTree")["nodes"]
    roles = {"button", "radio", "switch", "spinbutton", "application", "textbox"}
    used = [(node["role"]["value"], node.get("name", {}).get("value", "")) for node in tree if not node["ignored"] and node["role"]["value"] in roles]
    hold("what has no name", [role for role, name in used if not name.strip()], [])
    counted = {role: sum(1 for other, _ in used if other == role) for role in roles}
    holds(f"fewer are found than there are: {counted}", counted["radio"] >= 7 and counted["switch"] == 1 and counted["application"] == 1)
    live = [node for node in tree if node["role"]["value"] == "status"]
    hold("what speaks by itself", len(live), 1)
    hold("how", [part["value"]["value"] for part in live[0]["properties"] if part["name"] == "live"], ["polite"])
    somebody.panel(False)


def by_pen(somebody, answers):
    """a pen draws and taps as a finger does, and a dense screen has sharp signs"""
    kind, somebody.kind, somebody.dense = somebody.kind, "pen", 2
    try:
        somebody.come()
        somebody.look_at(3)
        own, wide = somebody.script("const it = document.getElementById('canvas'); return [it.width, it.clientWidth];")
        hold("the canvas's own pixels", abs(own - 2 * wide) < 2, True)
        somebody.choose("wall")
        somebody.drag((31, 5), (34, 5))
        hold("what is said", somebody.told(), "Wall on 4 cells.")
        planned = hold_arrows(somebody, answers)
        hold_pixels(somebody, planned, 3)
        somebody.choose("look")
        hold_told(somebody, planned, archive.place_at(33, 8))
    finally:
        somebody.kind, somebody.dense = kind, 1


def readable(somebody, _):
    """words have a contrast of 4.5 and signs of 3, in light and in dark, on every ground; dark where the system is"""
    for theme in ("dark", "light"):
        somebody.browser.cdp("Emulation.setEmulatedMedia", features=[{"name": "prefers-color-scheme", "value": theme}])
        somebody.come()
        hold("the theme at first", somebody.script("return document.documentElement.dataset.theme"), theme)
    for theme in ("light", "dark"):
        if somebody.script("return document.documentElement.dataset.theme") != theme:
            somebody.press("#theme")
        hold("the theme", somebody.script("return document.documentElement.dataset.theme"), theme)
        colours = somebody.script("return { ...hanjolumPage.page.painter.colours, costs: hanjolumPage.page.painter.tiles.grounds };")
        style = dict(somebody.script("""
            const style = getComputedStyle(document.documentElement);
            return ['card', 'words', 'quiet', 'chosen', 'chosen-words', 'warning', 'lost', 'beside', 'focus']
                .map((name) => [name, style.getPropertyValue('--' + name).trim()]);"""))
        grounds = [parsed(colours["costs"][cost]) for cost in range(255)]
        lost = [mixed(ground, colours["lostGround"]) for ground in grounds]
        hold_contrasts(theme, colours, style, grounds, lost)
    somebody.press("#theme")


def hold_contrasts(theme, colours, style, grounds, lost):
    pairs = [("words", "card"), ("quiet", "card"), ("quiet", "beside"), ("words", "beside"), ("chosen-words", "chosen"), ("warning", "card"),
             ("lost", "card")]
    for name, ground in pairs:
        hold_contrast(f"{theme}, {name} on {ground}", parsed(style[name]), parsed(style[ground]), 4.5)
    hold_contrast(f"{theme}, focus on card", parsed(style["focus"]), parsed(style["card"]), 3)
    for ground in grounds:
        hold_contrast(f"{theme}, a number on {ground}", parsed(colours["number"]), ground, 4.5)
        for name in ("arrow", "sight", "unreached", "window", "idle", "goal"):
            hold_contrast(f"{theme}, {name} on {ground}", parsed(colours[name]), ground, 3)
    for ground in lost:
        hold_contrast(f"{theme}, lost on {ground}", parsed(colours["lost"]), ground, 3)
    hold_contrast(f"{theme}, the goal's letter", parsed(colours["goalSign"]), parsed(colours["goal"]), 4.5)
    for name in ("frame", "named", "goal"):
        hold_contrast(f"{theme}, a sector's number on {name}", parsed(colours["tag"]), parsed(colours[name]), 4.5)
        hold_contrast(f"{theme}, the frame {name} beside the floor", parsed(colours[name]), parsed(colours["beside"]), 3)


def parsed(colour):
    """Red, green and blue of a colour as CSS has it."""
    if colour.startswith("#"):
        return [int(colour[at : at + 2], 16) for at in (1, 3, 5)]
    return [float(part) for part in colour[colour.index("(") + 1 : -1].split(",")[:3]]


def mixed(ground, veil):
    share = float(veil[veil.index("(") + 1 : -1].split(",")[3])
    return [below * (1 - share) + above * share for below, above in zip(ground, parsed(veil))]


def hold_contrast(what, one, other, least):
    light, dark = sorted((luminance(one), luminance(other)), reverse=True)
    contrast = (light + 0.05) / (dark + 0.05)
    holds(f"{what}: a contrast of {contrast:.2f}, and {least} is asked for", contrast >= least)


def luminance(colour):
    """As the Web Content Accessibility Guidelines have it."""
    parts = [part / 255 for part in colour]
    parts = [part / 12.92 if part <= 0.04045 else ((part + 0.055) / 1.055) ** 2.4 for part in parts]
    return 0.2126 * parts[0] + 0.7152 * parts[1] + 0.0722 * parts[2]


TRIALS = [opens, fits, looks, looks_with_sight, paints, warns_of_zero, undoes, chooses_leg, practises, refuses_list, refuses_floor, zooms,
          by_keyboard, by_pen, keeps, speaks, readable]


# Those that need nothing but what every browser has.
ANYWHERE = [trial for trial in TRIALS if trial not in (by_pen, speaks, readable)]


def drawn_floor(somebody, answers, seed):
    """A drawn floor: layers, pixels and told words, with sight and without, by the archive's answers."""
    chance = random.Random(seed)
    costs, steps = archive.drawn(answers, seed, chance.choice([1, 3, 6, 16]))
    somebody.come(archive.text_of(costs, steps))
    hold("the costs that were read", bytes(somebody.layers()["costs"]), costs)
    hold("the leg that was read", somebody.steps(), steps)
    for sight in (False, True):
        if sight:
            somebody.press(".switch")
        planned = hold_arrows(somebody, answers)
        sectors = list(planned.steps[::8])
        for sector in [sectors[0], *chance.sample(sectors[1:], min(2, len(sectors) - 1))]:
            hold_pixels(somebody, planned, sector)
            for _ in range(4):
                hold_told(somebody, planned, sector * CELLS + chance.randrange(CELLS))


def frames(somebody, answers, seed):
    """The milliseconds from a stroke to the end of drawing, pixels and all, on a leg of sixteen."""
    costs, steps = archive.drawn(answers, seed, 16)
    somebody.come(archive.text_of(costs, steps))
    sectors = list(steps[::8])
    somebody.look_at(*sectors)
    somebody.choose("cost")
    # Its buttons lie over a part of the floor that is drawn on here.
    somebody.script("document.querySelector('.zoom').hidden = true;")
    # To read one pixel back waits until all that was drawn before is drawn: the time then has all of it.
    somebody.script("""
        const { page } = hanjolumPage;
        page.on('drawn', () => page.painter.context.getImageData(0, 0, 1, 1));
        page.frames.length = 0;""")
    for i, sector in enumerate(sectors):
        column, row = sector % 8 * 10, sector // 8 * 10
        points = [somebody.at(column + (i * 7 + k) % 10, row + (i * 3 + k // 10) % 10) for k in range(20)]
        somebody.browser.drag("mouse", *points, pause=17)
    somebody.settle()
    drawn = somebody.script("""
        const frames = hanjolumPage.page.frames.filter((frame) => frame.planned);
        return frames.map(({ since, start, end }) => [end - start, end - since]);""")
    holds(f"{len(drawn)} strokes were drawn", len(drawn) >= 100)
    work, whole = (sorted(times) for times in zip(*drawn))
    print(f"{somebody.width} by {somebody.height} pixels, a leg of sixteen, cells of {somebody.layers()['cell']:.1f} pixels, {len(drawn)} frames "
          f"with a stroke: planned and drawn in {work[len(work) // 2]:.1f} ms (median), {work[-1]:.1f} ms (worst); "
          f"from the pointer's event on {whole[len(whole) // 2]:.1f} ms, {whole[-1]:.1f} ms", flush=True)
    holds(f"the median is {work[len(work) // 2]:.1f} ms, and {FRAME} are a frame", work[len(work) // 2] <= FRAME)


def pictures(chromium, file, folder):
    """What the page should look like: on a desk, on a tablet in the dark and with sight, and on a telephone where something is refused."""
    desk = person.Person(chromium, file, 1920, 1080, "mouse")
    desk.come()
    desk.tap(33, 18)
    shoot(desk, folder / "desk.png")
    tablet = person.Person(chromium, file, 768, 1024, "touch")
    tablet.come()
    tablet.press(".switch")
    tablet.press("#theme")
    shoot(tablet, folder / "tablet.png")
    telephone = person.Person(chromium, file, 360, 640, "touch")
    telephone.come()
    telephone.look_at(11, 3)
    telephone.choose("wall")
    telephone.tap(36, 10)
    shoot(telephone, folder / "telephone.png")


def shoot(somebody, file):
    somebody.settle()
    file.write_bytes(somebody.browser.picture())
