// The drawing as data: a cost byte for each cell of the floor, and the leg. Every change can be undone, without limit. Nothing here
// knows of the screen.
// A place is an index of the floor's bytes: sector * 100 + row * 10 + column. A leg is a goal's place, -1 for none, a cart's place
// alike, and windows from the goal back, each the sector that is left by it, the side (0 north, 1 east, 2 south, 3 west), and its
// first and last cell, 0 to 9, along that side.

export const SIDE = 10;
export const ACROSS = 8;
export const CELLS = 100;
export const SECTORS = 64;
export const FLOOR = 6400;
export const FLOOR_SIDE = 80;
export const STEPS = 16;
export const WALL = 255;
export const NO_LEG = Object.freeze({ goal: -1, cart: -1, windows: Object.freeze([]) });

export function placeAt(column, row) {
    const sector = Math.floor(row / SIDE) * ACROSS + Math.floor(column / SIDE);
    return sector * CELLS + (row % SIDE) * SIDE + (column % SIDE);
}

export function columnOf(place) {
    return (sectorOf(place) % ACROSS) * SIDE + (place % SIDE);
}

export function rowOf(place) {
    return Math.floor(sectorOf(place) / ACROSS) * SIDE + Math.floor((place % CELLS) / SIDE);
}

export function sectorOf(place) {
    return Math.floor(place / CELLS);
}

/** The places of a straight stroke between two cells, both among them, so that a quick finger leaves no gaps. */
export function placesBetween(from, to) {
    const east = columnOf(to) - columnOf(from);
    const south = rowOf(to) - rowOf(from);
    const most = Math.max(Math.abs(east), Math.abs(south), 1);
    const places = [];
    for (let i = 0; i <= most; i++) {
        places.push(placeAt(columnOf(from) + Math.round((east * i) / most), rowOf(from) + Math.round((south * i) / most)));
    }
    return places;
}

/** The places of the rectangle that has two cells as its corners. */
export function placesWithin(from, to) {
    const [left, right] = [columnOf(from), columnOf(to)].sort((a, b) => a - b);
    const [top, bottom] = [rowOf(from), rowOf(to)].sort((a, b) => a - b);
    const places = [];
    for (let i = 0; i < (right - left + 1) * (bottom - top + 1); i++) {
        places.push(placeAt(left + (i % (right - left + 1)), top + Math.floor(i / (right - left + 1))));
    }
    return places;
}

/** A stroke under way: the cells that it changed, with what they cost before. It is one change once it is done. */
class Stroke {
    constructor(drawing) {
        this.drawing = drawing;
        this.before = new Map();
        this.leg = drawing.leg;
    }

    paint(places, costs) {
        places.forEach((place, i) => {
            if (!this.before.has(place)) {
                this.before.set(place, this.drawing.costs[place]);
            }
            this.drawing.costs[place] = typeof costs === "number" ? costs : costs[i];
        });
    }

    /** Takes all cells back to what they were. */
    takeBack() {
        this.before.forEach((cost, place) => {
            this.drawing.costs[place] = cost;
        });
        this.before.clear();
        this.drawing.leg = this.leg;
    }

    /** Ends the stroke; whether it changed anything. */
    done(words) {
        const { drawing } = this;
        const changed = [...this.before].filter(([place, cost]) => drawing.costs[place] !== cost);
        if (changed.length === 0 && drawing.leg === this.leg) {
            return false;
        }
        drawing.past.push({
            places: Uint16Array.from(changed, ([place]) => place),
            before: Uint8Array.from(changed, ([, cost]) => cost),
            after: Uint8Array.from(changed, ([place]) => drawing.costs[place]),
            legBefore: this.leg,
            legAfter: drawing.leg,
            words,
        });
        drawing.future.length = 0;
        return true;
    }
}

export class Drawing {
    /** A drawing on memory that is lent to it. */
    constructor(costs) {
        this.costs = costs;
        this.leg = NO_LEG;
        this.past = [];
        this.future = [];
    }

    stroke() {
        return new Stroke(this);
    }

    /** Sets the leg, as one change. */
    setLeg(leg, words) {
        const stroke = this.stroke();
        this.leg = leg;
        return stroke.done(words);
    }

    /** Puts another floor and leg in place of all, as one change. */
    replace(costs, leg, words) {
        const stroke = this.stroke();
        stroke.paint([...costs.keys()], costs);
        this.leg = leg;
        return stroke.done(words);
    }

    /** Takes the last change back; answers it, or undefined where there is none. */
    undo() {
        return this.#turn(this.past, this.future, "before", "legBefore");
    }

    redo() {
        return this.#turn(this.future, this.past, "after", "legAfter");
    }

    #turn(from, to, costs, leg) {
        const change = from.pop();
        if (change) {
            change.places.forEach((place, i) => {
                this.costs[place] = change[costs][i];
            });
            this.leg = change[leg];
            to.push(change);
        }
        return change;
    }
}
