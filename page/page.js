// The page's state and what can be done to it. Each act changes the drawing, or says why not, and asks for one frame; in that frame the
// leg is planned and drawn.

import { CELLS, NO_LEG, WALL, Drawing, placeAt, columnOf, rowOf, sectorOf } from "./drawing.js";
import { keepDrawing } from "./keep.js";
import { listNumber, planLeg, readSteps, sectorsOf, shortened, withGoal, withSector, writeSteps } from "./leg.js";
import { drawnPart } from "./paint.js";
import { Shown } from "./shown.js";
import { cellFacts, cellSentence, many, placeWords, refusalOf } from "./told.js";

// Milliseconds of a frame that are spent on asking for ways before it is drawn, and in a frame that only asks.
const ASK_FIRST = 3;
const ASK_ON = 6;
const KEEP_AFTER = 250;

export class Page {
    constructor(library, view, painter) {
        Object.assign(this, { library, view, painter });
        this.drawing = new Drawing(library.floor);
        this.drawing.costs.fill(1);
        this.shown = new Shown(library);
        this.sight = false;
        this.plan = planLeg(library, this.drawing.leg, false);
        this.tapped = this.cursor = this.corner = -1;
        this.refused = [];
        this.frames = [];
        this.stale = true;
        this.canKeep = true;
        this.listeners = { told: [], planned: [], drawn: [], asked: [] };
        this.handles = null;
    }

    /** Calls a function with each news of a kind: told (words), planned, drawn, asked (about all ways). */
    on(kind, listener) {
        this.listeners[kind].push(listener);
    }

    #news(kind, what) {
        this.listeners[kind].forEach((listener) => listener(what));
    }

    tell(words) {
        this.#news("told", words);
    }

    /** The drawing, or how it is planned, is another: plans and draws in the next frame. */
    changed() {
        this.stale = true;
        this.redraw();
    }

    /** Draws in the next frame. */
    redraw() {
        this.since ??= performance.now();
        this.waiting ??= requestAnimationFrame(() => this.#frame());
    }

    #frame() {
        const start = performance.now();
        const since = this.since;
        const planned = this.stale;
        this.waiting = this.since = undefined;
        if (planned) {
            this.#plan();
        }
        const asked = this.shown.ask(start + (planned ? ASK_FIRST : ASK_ON));
        this.painter.draw(this);
        this.#news("drawn");
        this.frames.push({ since, start, end: performance.now(), planned });
        this.frames.splice(0, this.frames.length - 500);
        if (asked) {
            this.#allAsked();
        } else {
            this.redraw();
        }
    }

    #plan() {
        this.stale = false;
        this.plan = planLeg(this.library, this.drawing.leg, this.sight);
        this.shown.take(this.drawing, this.plan);
        this.asked = false;
        this.#news("planned");
        this.#keepSoon();
    }

    /** Tells once that all ways are known. */
    #allAsked() {
        if (!this.asked) {
            this.asked = true;
            this.#news("asked");
        }
    }

    #keepSoon() {
        clearTimeout(this.keeping);
        this.keeping = setTimeout(() => this.keep(), KEEP_AFTER);
    }

    /** Keeps the drawing in the browser. */
    keep() {
        clearTimeout(this.keeping);
        const kept = keepDrawing(this.asText());
        if (this.canKeep && !kept) {
            this.tell("This browser keeps nothing between two visits: the drawing is lost when the page is closed.");
        }
        this.canKeep = kept;
    }

    /** The drawing as the drawing tool's text. */
    asText() {
        return this.library.write(writeSteps(this.drawing.leg, this.library.steps), this.drawing.leg.cart);
    }

    /** Takes a drawing's text in place of all; what is wrong with it, in words, or nothing. */
    takeText(text, words) {
        const read = this.library.read(text);
        if (read.fault) {
            return read.fault;
        }
        this.#replace(read.costs, readSteps(read.steps, read.cart), words);
        return undefined;
    }

    newFloor() {
        this.#replace(new Uint8Array(this.drawing.costs.length).fill(1), NO_LEG, "A new floor, each cell of cost 1.");
        this.tell("A new floor. Draw walls, then choose Goal and tap its cell.");
    }

    #replace(costs, leg, words) {
        this.drawing.replace(costs, leg, words);
        this.tapped = -1;
        this.forget();
        this.fit();
        this.changed();
    }

    /** Shows the drawn part of the floor. */
    fit() {
        this.view.fit(...drawnPart(this.drawing.costs, sectorsOf(this.drawing.leg)));
        this.redraw();
    }

    /** What was refused at a tap is no longer shown. */
    forget() {
        const shown = this.refused.length > 0;
        this.refused = [];
        if (shown && !this.stale) {
            this.#news("planned");
        }
    }

    /** Says why something was not done; the drawing stays as it was. */
    refuse(number, refusal, actions = []) {
        if (this.stale) {
            this.#plan();
        }
        this.refused = [{ number, ...refusal, actions }];
        this.tell(`${refusal.words} Refused with number ${number}: ${this.library.refusal(number)}.`);
        this.redraw();
        this.#news("planned");
    }

    /** Sets the leg and says what was done. */
    setLeg(leg, words) {
        this.forget();
        if (this.drawing.setLeg(leg, words)) {
            this.tell(words);
        }
        this.changed();
    }

    /** Ends a stroke and says what was done. */
    strokeDone(stroke, words) {
        this.forget();
        if (stroke.done(words)) {
            this.tell(words);
        }
        this.changed();
    }

    undo() {
        this.#turned(this.drawing.undo(), "Undone: ", "There is nothing to undo.");
    }

    redo() {
        this.#turned(this.drawing.redo(), "Done again: ", "There is nothing to do again.");
    }

    #turned(change, before, none) {
        this.forget();
        this.tell(change ? before + change.words : none);
        this.changed();
    }

    setSight(sight) {
        this.sight = sight;
        this.tell(sight ? "Planned with sight, as the tablet has it." : "Planned without sight: where no cost is 0, every arrow leads to the goal.");
        this.changed();
    }

    /** Tells of a cell. */
    ask(place) {
        this.tapped = place;
        this.forget();
        if (this.stale) {
            this.#plan();
        }
        this.tell(cellSentence(cellFacts(this, place)));
        this.#news("planned");
        this.redraw();
    }

    /** The goal onto a cell. Where the leg does not come into that sector, the leg stays, and it is said what can be done. */
    putGoal(place) {
        const { leg } = this.drawing;
        const moved = withGoal(leg, place);
        const number = listNumber(this.library, moved);
        if (number === 0) {
            this.setLeg(moved, `The goal is at ${placeWords(place)}.`);
            return;
        }
        const sector = sectorOf(place);
        const at = sectorsOf(leg).indexOf(sector);
        const take = (windows, done) => () => this.setLeg({ ...moved, windows }, `${done}: the goal is at ${placeWords(place)}.`);
        const begin = { words: "Begin a new leg here", act: take([], "A new leg") };
        const end = { words: "End the leg here", act: take(leg.windows.slice(at), `The leg ends in sector ${sector}`) };
        const words = at > 0 ? `Sector ${sector} is in the leg already, before its end.` : `The leg does not come into sector ${sector}.`;
        this.refuse(number, { place, words }, at > 0 ? [end, begin] : [begin]);
    }

    /** One more sector at the leg's far end. */
    addSector(sector) {
        const leg = withSector(this.drawing.leg, sector, this.drawing.costs);
        const number = listNumber(this.library, leg);
        if (number === 0) {
            const { first, last } = leg.windows[leg.windows.length - 1];
            this.setLeg(leg, `Sector ${sector} is in the leg: its window is from ${first} to ${last}.`);
            return;
        }
        this.refuse(number, refusalOf({ number, step: leg.windows.length }, leg, this.drawing.costs), number === 9 ? this.#cuts(sector) : []);
    }

    /** What can be done where a sector is tapped that is in the leg. */
    #cuts(sector) {
        const { leg } = this.drawing;
        const at = sectorsOf(leg).indexOf(sector);
        if (at === leg.windows.length) {
            return at === 0 ? [] : [{ words: `Take sector ${sector} out`, act: () => this.takeOut() }];
        }
        return [{ words: `Begin the leg in sector ${sector}`, act: () => this.setLeg(shortened(leg, at), `The leg begins in sector ${sector}.`) }];
    }

    /** Takes the sector at the leg's far end out. */
    takeOut() {
        const { leg } = this.drawing;
        if (leg.windows.length > 0) {
            this.setLeg(shortened(leg, leg.windows.length - 1), `Sector ${leg.windows[leg.windows.length - 1].sector} is out of the leg.`);
        }
    }

    /** A seed's practice floor into a sector; its goal too where the leg ends there, or has no window. */
    practise(sector, seed) {
        const { costs, goal } = this.library.practice(seed);
        const { leg } = this.drawing;
        const stroke = this.drawing.stroke();
        const place = sector * CELLS + goal;
        const taken = leg.windows.length === 0 || sectorOf(leg.goal) === sector;
        stroke.paint(Array.from({ length: CELLS }, (_, cell) => sector * CELLS + cell), costs);
        this.drawing.leg = taken ? withGoal(leg, place) : leg;
        const words = `Practice floor ${seed} in sector ${sector}`;
        this.strokeDone(stroke, taken ? `${words}, and its goal, cell ${goal}.` : `${words}. Its goal is cell ${goal}; the leg's stays where it is.`);
    }

    /** What was painted, in words. */
    paintedWords(cost, count) {
        const warned = cost === 0 ? " Nothing is promised of following where a cost is 0." : "";
        return `${cost === WALL ? "Wall" : cost === 1 ? "Floor" : `Cost ${cost}`} on ${many(count, "cell")}.${warned}`;
    }

    /** Moves the keyboard's cell. */
    moveCursor(east, south) {
        const from = this.cursor < 0 ? this.view.nearest(this.view.width / 2, this.view.height / 2) : this.cursor;
        const inside = (number) => Math.max(0, Math.min(79, number));
        this.cursor = this.cursor < 0 ? from : placeAt(inside(columnOf(from) + east), inside(rowOf(from) + south));
        this.view.show(this.cursor);
        this.redraw();
    }
}
