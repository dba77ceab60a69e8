// Tools by finger, pen, mouse and keyboard. One finger uses the tool, two zoom and move; the wheel zooms; the middle button, or the
// space bar held, moves.

import { CELLS, SIDE, WALL, placesBetween, placesWithin, sectorOf } from "./drawing.js";
import { cellAlong, withWindow } from "./leg.js";
import { cursorSentence, placeWords } from "./told.js";

const KEYS = { v: "look", w: "wall", f: "floor", c: "cost", g: "goal", l: "leg", p: "practice" };
const ARROWS = { ArrowUp: [0, -1], ArrowRight: [1, 0], ArrowDown: [0, 1], ArrowLeft: [-1, 0] };
const STILL = 6;            // pixels that a tap may move
const EDGE = 20;            // pixels from a sector's edge that still are on it

export class Tools {
    constructor(page, canvas, choices) {
        Object.assign(this, { page, canvas, choices });
        this.tool = "look";
        this.pointers = new Map();
        this.act = null;
        this.spaceHeld = false;
        page.handles = () => (this.tool === "leg" ? this.#handles() : []);
        canvas.addEventListener("pointerdown", (event) => this.#down(event));
        canvas.addEventListener("pointermove", (event) => this.#move(event));
        canvas.addEventListener("pointerup", (event) => this.#up(event));
        canvas.addEventListener("pointercancel", (event) => this.#cancel(event));
        canvas.addEventListener("wheel", (event) => this.#wheel(event), { passive: false });
        // A quick stroke is no flick: else the browser takes the next tap for the end of one.
        canvas.addEventListener("touchstart", (event) => event.preventDefault(), { passive: false });
        canvas.addEventListener("contextmenu", (event) => event.preventDefault());
        canvas.addEventListener("keydown", (event) => this.#key(event));
        canvas.addEventListener("keyup", (event) => this.#keyUp(event));
        canvas.addEventListener("blur", () => this.#blur());
    }

    choose(tool) {
        this.tool = tool;
        this.page.corner = -1;
        this.choices.chosen(tool);
        if (this.page.refused.length > 0) {
            this.page.forget();
            this.page.tell("");
        }
        this.page.redraw();
    }

    /** The cost that the tool paints. */
    get cost() {
        return { wall: WALL, floor: 1 }[this.tool] ?? this.choices.cost();
    }

    #point(event) {
        const box = this.canvas.getBoundingClientRect();
        return { x: event.clientX - box.left, y: event.clientY - box.top, coarse: event.pointerType !== "mouse" };
    }

    #down(event) {
        event.preventDefault();
        this.canvas.focus({ preventScroll: true, focusVisible: false });
        this.canvas.setPointerCapture(event.pointerId);
        const point = this.#point(event);
        this.pointers.set(event.pointerId, point);
        this.page.cursor = -1;
        if (this.pointers.size === 2) {
            this.act?.cancel();
            this.act = this.#pinching();
        } else if (this.pointers.size === 1 && event.button !== 2) {
            this.act = event.button === 1 || this.spaceHeld ? this.#moving(point, null) : this.#begin(point);
        }
    }

    #move(event) {
        if (!this.pointers.has(event.pointerId)) {
            return;
        }
        const point = this.#point(event);
        this.pointers.set(event.pointerId, point);
        this.act?.move(point);
    }

    #up(event) {
        if (this.pointers.delete(event.pointerId) && this.act) {
            this.act.end(this.#point(event));
            this.act = null;
        }
    }

    #cancel(event) {
        if (this.pointers.delete(event.pointerId) && this.act) {
            this.act.cancel();
            this.act = null;
        }
    }

    #wheel(event) {
        event.preventDefault();
        const { x, y } = this.#point(event);
        const pixels = event.deltaY * [1, 30, 300][event.deltaMode];
        this.page.view.zoomAt(Math.exp(-pixels * 0.0015), x, y);
        this.page.redraw();
    }

    /** What a tool does from here on. */
    #begin(point) {
        const { page } = this;
        switch (this.tool) {
        case "look": return this.#moving(point, (place) => page.ask(place));
        case "goal": return this.#tapping((place) => page.putGoal(place));
        case "practice": return this.#tapping((place) => page.practise(sectorOf(place), this.choices.seed()));
        case "leg": return this.#dragging(point) ?? this.#tapping((place) => page.addSector(sectorOf(place)));
        default: return this.#painting(point);
        }
    }

    /** Two fingers: what is under each stays under it. */
    #pinching() {
        const { page } = this;
        const look = () => {
            const [one, other] = [...this.pointers.values()];
            return { x: (one.x + other.x) / 2, y: (one.y + other.y) / 2, wide: Math.max(20, Math.hypot(one.x - other.x, one.y - other.y)) };
        };
        let before = look();
        const move = () => {
            if (this.pointers.size !== 2) {
                return;
            }
            const now = look();
            page.view.moveBy(now.x - before.x, now.y - before.y);
            page.view.zoomAt(now.wide / before.wide, now.x, now.y);
            page.redraw();
            before = now;
        };
        return { move, end() {}, cancel() {} };
    }

    /** Moves the floor; where the pointer stays still, it is a tap. */
    #moving(start, tap) {
        const { page } = this;
        let last = start;
        let moved = tap === null;
        const move = (point) => {
            moved ||= Math.hypot(point.x - start.x, point.y - start.y) > STILL;
            if (moved) {
                page.view.moveBy(point.x - last.x, point.y - last.y);
                page.redraw();
                last = point;
            }
        };
        const end = (point) => {
            if (!moved) {
                this.#at(point, tap);
            }
        };
        return { move, end, cancel() {} };
    }

    #tapping(tap) {
        return { move() {}, end: (point) => this.#at(point, tap), cancel() {} };
    }

    /** Hands on the place under a point, if there is one. */
    #at(point, act) {
        const place = this.page.view.placeUnder(point.x, point.y);
        if (place >= 0) {
            act(place);
        }
    }

    /** A stroke or a rectangle. */
    #painting(start) {
        const { page, cost } = this;
        const stroke = page.drawing.stroke();
        const from = page.view.nearest(start.x, start.y);
        const rectangle = this.choices.rectangle();
        let last = from;
        const move = (point) => {
            const place = page.view.nearest(point.x, point.y);
            if (rectangle) {
                stroke.takeBack();
                stroke.paint(placesWithin(from, place), cost);
            } else {
                stroke.paint(placesBetween(last, place), cost);
            }
            last = place;
            page.changed();
        };
        if (page.view.placeUnder(start.x, start.y) >= 0) {
            move(start);
        }
        const cancel = () => {
            stroke.takeBack();
            page.changed();
        };
        return { move, end: () => page.strokeDone(stroke, page.paintedWords(cost, stroke.before.size)), cancel };
    }

    /** The ends of the leg's windows, on the edge that each leads across. */
    #handles() {
        const { view, drawing } = this.page;
        return drawing.leg.windows.flatMap(({ sector, side, first, last }, index) => {
            const ends = first === last ? [[first, first]] : [[first, last], [last, first]];
            return ends.map(([at, anchor]) => {
                const { x, y } = view.middle(sector * CELLS + cellAlong(side, at));
                const out = view.cell / 2 + view.gap / 2;
                return { index, anchor, x: x + [0, out, 0, -out][side], y: y + [-out, 0, out, 0][side] };
            });
        });
    }

    /** Dragging a window along its edge: by an end, or anew from a cell of the edge. None where the point is on no such edge. */
    #dragging(point) {
        const handle = this.#handleAt(point);
        const edge = handle ? null : this.#edgeAt(point);
        if (!handle && !edge) {
            return null;
        }
        return this.#draggingWindow(point, handle ?? edge);
    }

    /** Dragging a window from a point on: its one end stays. A pointer that does not leave its cell is a tap on the sector. */
    #draggingWindow(point, { index, anchor }) {
        const { page } = this;
        const stroke = page.drawing.stroke();
        const leg = page.drawing.leg;
        const window = leg.windows[index];
        let moved = false;
        const move = (at) => {
            const along = this.#along(window, at);
            moved ||= along !== this.#along(window, point);
            if (moved) {
                page.drawing.leg = withWindow(leg, index, anchor, along);
                page.changed();
            }
        };
        const end = (at) => {
            if (!moved) {
                this.#at(at, (place) => page.addSector(sectorOf(place)));
                return;
            }
            const { first, last } = page.drawing.leg.windows[index];
            page.strokeDone(stroke, `Sector ${window.sector}: its window is from ${first} to ${last}.`);
        };
        const cancel = () => {
            stroke.takeBack();
            page.changed();
        };
        return { move, end, cancel };
    }

    /** Where a point is along a window's edge, 0 to 9. */
    #along({ sector, side }, point) {
        const { view } = this.page;
        const corner = view.middle(sector * CELLS);
        const distance = side % 2 === 0 ? point.x - corner.x : point.y - corner.y;
        return Math.max(0, Math.min(SIDE - 1, Math.round(distance / view.cell)));
    }

    #handleAt(point) {
        const reach = point.coarse ? 24 : 14;
        const near = this.#handles()
            .map((handle) => ({ ...handle, far: Math.hypot(handle.x - point.x, handle.y - point.y) }))
            .filter(({ far }) => far < reach)
            .sort((a, b) => a.far - b.far);
        return near[0];
    }

    /** The window whose edge a point of its sector is on. */
    #edgeAt(point) {
        const { view, drawing } = this.page;
        const place = view.placeUnder(point.x, point.y);
        const index = drawing.leg.windows.findIndex(({ sector }) => place >= 0 && sector === sectorOf(place));
        if (index < 0) {
            return null;
        }
        const window = drawing.leg.windows[index];
        const cell = place % CELLS;
        const rows = [Math.floor(cell / SIDE), SIDE - 1 - (cell % SIDE), SIDE - 1 - Math.floor(cell / SIDE), cell % SIDE][window.side];
        const near = rows * view.cell < Math.max(1, EDGE - view.cell);
        return near ? { index, anchor: this.#along(window, point) } : null;
    }

    #key(event) {
        const { page } = this;
        const step = ARROWS[event.key];
        if (event.ctrlKey || event.metaKey || event.altKey) {
            return;
        }
        if (step) {
            const far = event.shiftKey ? SIDE : 1;
            page.moveCursor(step[0] * far, step[1] * far);
            page.tell(cursorSentence(page, page.cursor));
        } else if (event.key === "Enter") {
            this.#useAtCursor();
        } else if (event.key === " ") {
            this.spaceHeld = true;
        } else if (!this.#zoomKey(event.key)) {
            return;
        }
        event.preventDefault();
    }

    #keyUp(event) {
        if (event.key === " ") {
            this.spaceHeld = false;
            if (!this.act) {
                this.#useAtCursor();
            }
            event.preventDefault();
        }
    }

    #zoomKey(key) {
        const { view } = this.page;
        const factor = { "+": 1.25, "=": 1.25, "-": 0.8 }[key];
        if (factor) {
            const { x, y } = this.page.cursor < 0 ? { x: view.width / 2, y: view.height / 2 } : view.middle(this.page.cursor);
            view.zoomAt(factor, x, y);
            this.page.redraw();
        } else if (key === "0") {
            this.page.fit();
        }
        return factor || key === "0";
    }

    /** Uses the tool on the keyboard's cell. */
    #useAtCursor() {
        const { page } = this;
        const place = page.cursor;
        if (place < 0) {
            page.moveCursor(0, 0);
            page.tell(cursorSentence(page, page.cursor));
            return;
        }
        switch (this.tool) {
        case "look": page.ask(place); break;
        case "goal": page.putGoal(place); break;
        case "leg": page.addSector(sectorOf(place)); break;
        case "practice": page.practise(sectorOf(place), this.choices.seed()); break;
        default: this.#paintAtCursor(place);
        }
    }

    /** A cell; or a rectangle's first corner, and then its other one. */
    #paintAtCursor(place) {
        const { page, cost } = this;
        if (this.choices.rectangle() && page.corner < 0) {
            page.corner = place;
            page.tell(`A rectangle from ${placeWords(place)}: go to its other corner and press Enter.`);
            page.redraw();
            return;
        }
        const stroke = page.drawing.stroke();
        stroke.paint(placesWithin(page.corner < 0 ? place : page.corner, place), cost);
        page.corner = -1;
        page.strokeDone(stroke, page.paintedWords(cost, stroke.before.size));
    }

    #blur() {
        this.spaceHeld = false;
        this.page.redraw();
    }
}

/** Keys that hold wherever the focus is, but for fields that take letters: tools, undo and redo. */
export function pageKeys(event, tools) {
    const { page } = tools;
    const letter = event.key.toLowerCase();
    const typing = event.target.matches?.("input:not([type=checkbox]):not([type=radio]), textarea, select");
    if (event.ctrlKey || event.metaKey) {
        if (!typing && letter === "z") {
            event.shiftKey ? page.redo() : page.undo();
        } else if (!typing && letter === "y") {
            page.redo();
        } else {
            return;
        }
    } else if (!typing && !event.altKey && KEYS[letter]) {
        tools.choose(KEYS[letter]);
    } else if (event.key === "Escape") {
        page.corner = -1;
        tools.choose("look");
    } else {
        return;
    }
    event.preventDefault();
}

