"""A person in front of the page: what can be pressed, dragged and typed, and what can be seen and read. page/test uses it."""
import json

import archive
import browser

SETTLED = """
const done = arguments[arguments.length - 1];
(function look() {
    const page = globalThis.hanjolumPage?.page;
    if (page && page.waiting === undefined && !page.stale && page.asked) done(true);
    else setTimeout(look, 4);
})();"""
LAYERS = """
const { page } = hanjolumPage;
return JSON.stringify({
    costs: [...page.drawing.costs], signs: [...page.shown.signs], windows: [...page.shown.windows], sight: page.sight,
    goal: page.drawing.leg.goal, leg: page.drawing.leg.windows, plan: { ...page.plan, stepOf: null }, cell: page.view.cell,
    left: page.view.left, top: page.view.top, past: page.drawing.past.length, future: page.drawing.future.length, cursor: page.cursor,
});"""
# Of each planned cell that is whole on the canvas, how many pixels have a sign's colour, and how far, in cells, their middle lies from the
# middle of the box that holds them.
PIXELS = """
const { page } = hanjolumPage;
const canvas = document.getElementById("canvas");
const { data, width, height } = canvas.getContext("2d").getImageData(0, 0, canvas.width, canvas.height);
const parse = (text) => [1, 3, 5].map((at) => parseInt(text.slice(at, at + 2), 16));
const names = ["arrow", "lost", "sight", "unreached", "goal", "window", "idle"];
const colours = Object.fromEntries(names.map((name) => [name, parse(page.painter.colours[name])]));
const dense = page.view.dense;
const read = (place) => {
    const { x, y } = hanjolumPage.middleOf(place);
    const half = page.view.cell / 2;
    const [left, top, right, bottom] = [x - half, y - half, x + half, y + half].map((end) => Math.round(end * dense));
    if (left < 0 || top < 0 || right > width || bottom > height) return null;
    const edge = Math.max(2 * dense, Math.ceil(0.13 * (right - left)));
    const found = {};
    for (const [name, [red, green, blue]] of Object.entries(colours)) {
        let [count, all, sumX, sumY, box] = [0, 0, 0, 0, [1e9, 1e9, -1, -1]];
        for (let row = top + edge; row < bottom - edge; row++) for (let column = left + edge; column < right - edge; column++) {
            const at = (row * width + column) * 4;
            const share = 1 - (Math.abs(data[at] - red) + Math.abs(data[at + 1] - green) + Math.abs(data[at + 2] - blue)) / 60;
            if (share > 0.5) count += 1;
            if (share > 0) {
                all += share; sumX += share * column; sumY += share * row;
                box = [Math.min(box[0], column), Math.min(box[1], row), Math.max(box[2], column), Math.max(box[3], row)];
            }
        }
        const apart = (sum, from, to) => (sum / all - (from + to) / 2) / (right - left);
        if (count > 3) found[name] = [count, apart(sumX, box[0], box[2]), apart(sumY, box[1], box[3])];
    }
    return found;
};
const sector = arguments[0];
return JSON.stringify(Array.from({ length: 100 }, (_, cell) => read(sector * 100 + cell)));"""


class Person:
    def __init__(self, chromium, file, width, height, kind):
        self.browser, self.file, self.kind = chromium, file, kind
        self.width, self.height, self.dense = width, height, 1

    def come(self, drawing=None):
        """A visit, the first where no drawing was kept; the drawing is a text that an earlier visit kept."""
        self.browser.size(self.width, self.height, self.dense)
        self.browser.open(self.file)
        self.settle()
        self.script("localStorage.clear(); hanjolumPage.page.keep = () => {};")
        if drawing is not None:
            self.script("localStorage.setItem('hanjolum drawing', arguments[0]);", drawing)
        self.again()

    def again(self):
        """The page is opened anew."""
        self.browser.open(self.file)
        self.settle()

    def script(self, text, *words):
        return self.browser.script(text, *words)

    def settle(self):
        self.browser.later(SETTLED)

    # What is seen and read.

    def layers(self):
        self.settle()
        return json.loads(self.script(LAYERS))

    def steps(self):
        """The leg as it is drawn, as a leg's bytes."""
        seen = self.layers()
        if seen["goal"] < 0:
            return b""
        windows = [archive.step_of(w["sector"], w["side"], w["first"], w["last"]) for w in seen["leg"]]
        return archive.goal_step(seen["goal"]) + b"".join(windows)

    def told(self):
        self.settle()
        return self.script("return document.getElementById('told').textContent")

    def refusals(self):
        """The refusals in words, as they are listed."""
        self.settle()
        return self.script("return [...document.querySelectorAll('#refused li')].map((line) => line.textContent)")

    def marks(self):
        """The labels on the floor: words, and the middle of the pin that each has, from the canvas's corner."""
        self.settle()
        return self.script("""
            const pins = [...document.querySelectorAll('#marks .pin')];
            return [...document.querySelectorAll('#marks .mark')].map((mark, i) => ({ words: mark.textContent, hidden: pins[i].hidden,
                x: parseFloat(pins[i].style.left), y: parseFloat(pins[i].style.top), box: mark.getBoundingClientRect().toJSON() }));""")

    def pixels(self, sector):
        return json.loads(self.script(PIXELS, sector))

    def text(self, selector):
        self.settle()
        return self.script("return document.querySelector(arguments[0])?.textContent", selector)

    # Where things are.

    def at(self, column, row):
        """The middle of a cell, by the floor's columns and rows."""
        box, middle = self.script("""
            const box = document.getElementById('canvas').getBoundingClientRect();
            return [box.toJSON(), hanjolumPage.middle(arguments[0], arguments[1])];""", column, row)
        return box["left"] + middle["x"], box["top"] + middle["y"]

    def place(self, place):
        sector, cell = divmod(place, 100)
        return self.at(sector % 8 * 10 + cell % 10, sector // 8 * 10 + cell // 10)

    def spot(self, selector):
        """The middle of something that can be pressed; it has to be on the screen."""
        self.settle()
        box = self.script("""
            const it = document.querySelector(arguments[0]);
            it.scrollIntoView({ block: 'nearest' });
            return it.getBoundingClientRect().toJSON();""", selector)
        x, y = box["left"] + box["width"] / 2, box["top"] + box["height"] / 2
        hit = self.script("const hit = document.elementFromPoint(arguments[1], arguments[2]); const it = document.querySelector(arguments[0]);"
                          "return Boolean(hit) && (it.contains(hit) || hit.closest('label')?.contains(it) === true);", selector, x, y)
        if box["width"] == 0 or not hit:
            raise browser.Failed(f"{selector} cannot be pressed at {x:.0f}, {y:.0f}")
        return x, y

    def handles(self):
        """The ends of windows that can be dragged."""
        return self.script("""
            const box = document.getElementById('canvas').getBoundingClientRect();
            return hanjolumPage.page.handles().map(({ x, y, index, anchor }) => ({ x: x + box.left, y: y + box.top, index, anchor }));""")

    # What is done.

    def press(self, selector):
        self.browser.tap(self.kind, self.spot(selector))

    def choose(self, tool):
        self.press(f"[data-tool={tool}]")

    def tap(self, column, row):
        self.browser.tap(self.kind, self.at(column, row))

    def tap_place(self, place):
        """A tap on a place. Where a button lies over it the floor is moved first, as one would."""
        at = self.place(place)
        if self.script("return document.elementFromPoint(arguments[0], arguments[1])?.id", *at) != "canvas":
            self.script("hanjolumPage.page.view.moveBy(0, -120); hanjolumPage.page.redraw();")
            self.settle()
            at = self.place(place)
        self.browser.tap(self.kind, at)

    def drag(self, *cells):
        self.browser.drag(self.kind, *[self.at(*cell) for cell in cells])

    def write(self, selector, words):
        """Words into a field, in place of what is there."""
        self.press(selector)
        self.script("document.querySelector(arguments[0]).select();", selector)
        self.browser.keys(*str(words))

    def look_at(self, *sectors):
        """The view over a rectangle of sectors, as zooming and moving would bring it."""
        columns = [sector % 8 * 10 for sector in sectors]
        rows = [sector // 8 * 10 for sector in sectors]
        self.script("const { page } = hanjolumPage; page.view.fit(arguments[0], arguments[1]); page.redraw();",
                    {"column": min(columns), "row": min(rows)}, {"column": max(columns) + 9, "row": max(rows) + 9})
        self.settle()

    def panel(self, wanted):
        """Opens or closes the panel where it lies over the floor."""
        if self.width < 1000 and (self.script("return document.getElementById('panel').classList.contains('open')")) != wanted:
            self.press("#more")
