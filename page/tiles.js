// Draws one sector's cells onto a canvas of its own: grounds by cost, walls, lines and signs. It is drawn anew only where something in it
// is another, or the floor is looked at from nearer or farther; else it is copied. It draws what `Shown` says of each cell.

import { CELLS, FLOOR, SIDE, WALL } from "./drawing.js";
import { ARROW, LOST, SIGHT, UNREACHED } from "./shown.js";
import { costColour, traceArrow, traceBar, traceCross, traceDot, traceRing, wallPattern } from "./signs.js";

// The cell sizes, in the page's pixels, from which on signs, lines between cells and costs as numbers are drawn.
const SIGNS_FROM = 4;
const LINES_FROM = 6;
const NUMBERS_FROM = 20;

export function makeCanvas(width, height) {
    return Object.assign(document.createElement("canvas"), { width: Math.max(1, width), height: Math.max(1, height) });
}

export class Tiles {
    constructor() {
        this.kept = new Map();
        this.costs = new Uint8Array(FLOOR);
        this.signs = new Uint8Array(FLOOR);
    }

    /** Takes other colours. */
    setColours(colours) {
        this.colours = colours;
        this.grounds = Array.from({ length: 256 }, (_, cost) => costColour(cost, colours));
        this.size = 0;
    }

    /** Takes the size of cells, and where each of ten ends, in the canvas's own pixels. Where it is another, no tile holds. */
    setSize(cell, dense, ends) {
        if (this.size !== cell * dense) {
            Object.assign(this, { cell, size: cell * dense, ends });
            this.side = ends[SIDE];
            this.kept.clear();
            this.stamps = new Map();
            this.hatch = null;
        }
    }

    /** Forgets the tiles of sectors that are not in a list. */
    keepOnly(sectors) {
        [...this.kept.keys()].filter((sector) => !sectors.includes(sector)).forEach((sector) => this.kept.delete(sector));
    }

    /** A sector's tile. */
    tile(page, sector) {
        const from = sector * CELLS;
        const costs = page.drawing.costs.subarray(from, from + CELLS);
        const signs = page.shown.signs.subarray(from, from + CELLS);
        const same = (now, before) => now.every((value, cell) => value === before[from + cell]);
        let canvas = this.kept.get(sector);
        if (!canvas || !same(costs, this.costs) || !same(signs, this.signs)) {
            canvas ??= makeCanvas(this.side, this.side);
            this.kept.set(sector, canvas);
            this.costs.set(costs, from);
            this.signs.set(signs, from);
            this.#draw(canvas.getContext("2d", { alpha: false }), costs, signs);
        }
        return canvas;
    }

    #draw(context, costs, signs) {
        context.fillStyle = this.grounds[1];
        context.fillRect(0, 0, this.side, this.side);
        if (costs.every((cost) => cost === WALL) && !signs.some((sign) => sign >= ARROW)) {
            this.#drawSolid(context);
            return;
        }
        costs.forEach((cost, cell) => this.#ground(context, cost, cell));
        if (this.cell >= LINES_FROM) {
            this.#lines(context);
        }
        if (this.cell >= SIGNS_FROM) {
            signs.forEach((sign, cell) => this.#sign(context, sign, costs[cell], cell));
        }
        if (this.cell >= NUMBERS_FROM) {
            costs.forEach((cost, cell) => this.#number(context, cost, cell));
        }
    }

    #box(cell) {
        const [column, row] = [cell % SIDE, Math.floor(cell / SIDE)];
        const [left, top] = [this.ends[column], this.ends[row]];
        return { left, top, width: this.ends[column + 1] - left, height: this.ends[row + 1] - top };
    }

    /** A sector that is wall all over: nothing is drawn there, and it is shown paler. */
    #drawSolid(context) {
        context.globalAlpha = 0.45;
        context.fillStyle = this.#hatch(context);
        context.fillRect(0, 0, this.side, this.side);
        context.globalAlpha = 1;
    }

    #hatch(context) {
        this.hatch ??= wallPattern(context, this.size, this.colours);
        return this.hatch;
    }

    #ground(context, cost, cell) {
        if (cost !== 1) {
            const { left, top, width, height } = this.#box(cell);
            context.fillStyle = cost === WALL ? this.#hatch(context) : this.grounds[cost];
            context.fillRect(left, top, width, height);
        }
    }

    /** The lines between cells. */
    #lines(context) {
        context.fillStyle = this.colours.line;
        for (let i = 1; i < SIDE; i++) {
            context.fillRect(this.ends[i], 0, 1, this.side);
            context.fillRect(0, this.ends[i], this.side, 1);
        }
    }

    /** A cell's sign. Each is drawn once for a size, and then stamped. */
    #sign(context, sign, cost, cell) {
        if (sign < ARROW && sign !== SIGHT && sign !== UNREACHED) {
            return;
        }
        const { left, top, width, height } = this.#box(cell);
        const low = this.cell >= NUMBERS_FROM && cost !== 1;
        if (sign >= LOST) {
            context.fillStyle = this.colours.lostGround;
            context.fillRect(left, top, width, height);
        }
        const key = sign * 2 + (low ? 1 : 0);
        if (!this.stamps.has(key)) {
            this.stamps.set(key, this.#stamp(sign, low));
        }
        context.drawImage(this.stamps.get(key), left, top);
    }

    /** A sign by itself; a little smaller and lower where a number stands above it. */
    #stamp(sign, low) {
        const canvas = makeCanvas(Math.ceil(this.size), Math.ceil(this.size));
        const context = canvas.getContext("2d");
        const at = [this.size / 2, this.size * (low ? 0.64 : 0.5), this.size * (low ? 0.72 : 1)];
        const line = Math.max(1, this.size * 0.075);
        context.beginPath();
        Object.assign(context, { lineCap: "round", lineJoin: "round", lineWidth: sign >= LOST ? line * 1.3 : line });
        this.#trace(context, sign, at);
        context.stroke();
        return canvas;
    }

    #trace(context, sign, at) {
        if (sign >= LOST) {
            context.strokeStyle = this.colours.lost;
            traceArrow(context, ...at, sign - LOST);
            traceBar(context, ...at, sign - LOST);
        } else if (sign >= ARROW) {
            context.strokeStyle = this.colours.arrow;
            traceArrow(context, ...at, sign - ARROW);
        } else if (sign === SIGHT) {
            context.strokeStyle = this.colours.sight;
            traceRing(context, ...at);
            traceDot(context, ...at);
        } else {
            context.strokeStyle = this.colours.unreached;
            traceCross(context, ...at);
        }
    }

    /** A cost as a number in a cell's corner. Each is drawn once for a size, and then stamped. */
    #number(context, cost, cell) {
        if (cost === 1 || cost === WALL) {
            return;
        }
        const key = -1 - cost;
        if (!this.stamps.has(key)) {
            this.stamps.set(key, this.#numberStamp(cost));
        }
        const { left, top } = this.#box(cell);
        context.drawImage(this.stamps.get(key), left + Math.round(this.size * 0.12), top + Math.round(this.size * 0.1));
    }

    #numberStamp(cost) {
        const height = Math.round(this.size * 0.33);
        const canvas = makeCanvas(height * 2, Math.ceil(height * 1.2));
        const context = canvas.getContext("2d");
        Object.assign(context, { font: `600 ${height}px system-ui, sans-serif`, textBaseline: "top", fillStyle: this.colours.number });
        context.fillText(cost, 0, 0);
        return canvas;
    }
}
