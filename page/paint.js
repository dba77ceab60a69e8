// Draws the floor onto its canvas: the sectors' tiles, and above them frames, windows, the goal, and what is tapped. Only what is visible
// is drawn.

import { ACROSS, CELLS, SECTORS, SIDE, WALL, columnOf, rowOf } from "./drawing.js";
import { windowPlaces } from "./leg.js";
import { COUNTS, DOES_NOT_COUNT } from "./shown.js";
import { drawGoal, frameWindow } from "./signs.js";
import { Tiles } from "./tiles.js";

export class Painter {
    constructor(canvas, view) {
        this.canvas = canvas;
        this.context = canvas.getContext("2d", { alpha: false });
        this.view = view;
        this.tiles = new Tiles();
    }

    /** Takes other colours. */
    setColours(colours) {
        this.colours = colours;
        this.tiles.setColours(colours);
    }

    /** Draws all of it. `page` has the drawing, what is shown, the plan, and what is tapped. */
    draw(page) {
        const { view, context } = this;
        this.size = view.cell * view.dense;
        this.ends = view.ends();
        this.tiles.setSize(view.cell, view.dense, this.ends);
        context.fillStyle = this.colours.beside;
        context.fillRect(0, 0, this.canvas.width, this.canvas.height);
        this.sectors = this.#visible();
        this.tiles.keepOnly(this.sectors);
        this.sectors.forEach((sector) => {
            const box = this.#box(sector);
            context.drawImage(this.tiles.tile(page, sector), box.left, box.top);
        });
        this.#frames(page);
        this.#windows(page);
        this.#goal(page);
        this.#heads(page);
        this.#tapped(page);
    }

    /** The sectors of which something is on the canvas. */
    #visible() {
        const found = [];
        for (let sector = 0; sector < SECTORS; sector++) {
            const box = this.#box(sector);
            if (box.left < this.canvas.width && box.top < this.canvas.height && box.right > 0 && box.bottom > 0) {
                found.push(sector);
            }
        }
        return found;
    }

    /** A sector's rectangle. */
    #box(sector) {
        const left = this.view.edge(this.view.left, sector % ACROSS);
        const top = this.view.edge(this.view.top, Math.floor(sector / ACROSS));
        return { left, top, right: left + this.ends[SIDE], bottom: top + this.ends[SIDE] };
    }

    /** A cell's rectangle. */
    #cell(place) {
        const box = this.#box(Math.floor(place / CELLS));
        const [column, row] = [place % SIDE, Math.floor((place % CELLS) / SIDE)];
        const [left, top] = [this.ends[column], this.ends[row]];
        return { left: box.left + left, top: box.top + top, width: this.ends[column + 1] - left, height: this.ends[row + 1] - top };
    }

    /** Round each sector a frame: of the leg, of the goal, of none. */
    #frames(page) {
        const { context } = this;
        const line = Math.max(1, Math.round(this.view.dense * Math.min(3, this.view.gap / 3)));
        this.sectors.forEach((sector) => {
            const box = this.#box(sector);
            const step = page.plan.stepOf[sector];
            const width = step < 0 ? Math.max(1, Math.round(line / 3)) : line;
            context.lineWidth = width;
            context.strokeStyle = step < 0 ? this.colours.frame : step === 0 ? this.colours.goal : this.colours.named;
            context.strokeRect(box.left - width / 2, box.top - width / 2, box.right - box.left + width, box.bottom - box.top + width);
        });
    }

    /** The windows: each cell's frame, and the way through the gap. */
    #windows(page) {
        page.drawing.leg.windows.forEach((window) => {
            windowPlaces(window).forEach((place) => {
                const kind = { [COUNTS]: "counts", [DOES_NOT_COUNT]: "idle" }[page.shown.windows[place]] ?? "waiting";
                const cell = this.#cell(place);
                this.#doorway(cell, window.side, kind === "counts");
                frameWindow(this.context, cell.left, cell.top, cell.width, cell.height, kind, this.colours);
            });
        });
    }

    /** The part of the gap in front of a window's cell: filled where the cell counts, hollow where it does not. */
    #doorway(cell, side, counts) {
        const gap = Math.round(this.view.gap * this.view.dense);
        const deep = side % 2 === 0 ? { width: cell.width, height: gap } : { width: gap, height: cell.height };
        const left = side === 1 ? cell.left + cell.width : side === 3 ? cell.left - gap : cell.left;
        const top = side === 2 ? cell.top + cell.height : side === 0 ? cell.top - gap : cell.top;
        this.context.fillStyle = counts ? this.colours.doorway : this.colours.beside;
        this.context.fillRect(left, top, deep.width, deep.height);
    }

    #goal(page) {
        const { goal } = page.drawing.leg;
        if (goal >= 0) {
            const cell = this.#cell(goal);
            drawGoal(this.context, cell.left + cell.width / 2, cell.top + cell.height / 2, Math.max(this.size, 9 * this.view.dense), this.colours);
        }
    }

    /** Above each sector its number and its place in the leg, in the order of driving; its number alone where there is little room. */
    #heads(page) {
        const { context, view } = this;
        const small = view.gap < 13;
        const height = Math.round((small ? 10 : Math.min(13, view.gap * 0.78)) * view.dense);
        context.font = `600 ${height}px system-ui, sans-serif`;
        context.textAlign = "left";
        context.textBaseline = "alphabetic";
        this.sectors.forEach((sector) => {
            const box = this.#box(sector);
            const step = page.plan.stepOf[sector];
            context.fillStyle = step < 0 ? this.colours.quiet : this.colours.words;
            if (!small) {
                context.fillText(headOf(sector, step, page.plan.count, box.right - box.left > height * 13), box.left, box.top - 4 * view.dense);
            } else if (box.right - box.left > height * 2.2) {
                this.#tag(String(sector), box, height, step);
            }
        });
    }

    /** A sector's number in its corner, on a ground of its own. */
    #tag(text, box, height, step) {
        const { context } = this;
        const width = context.measureText(text).width + height * 0.6;
        context.fillStyle = step < 0 ? this.colours.frame : step === 0 ? this.colours.goal : this.colours.named;
        context.fillRect(box.left, box.top, width, height * 1.25);
        context.fillStyle = this.colours.tag;
        context.fillText(text, box.left + height * 0.3, box.top + height * 0.98);
    }

    /** What is tapped, the keyboard's cell, a rectangle's corner, and the ends of windows that can be dragged. */
    #tapped(page) {
        if (page.tapped >= 0) {
            this.#ring(page.tapped, []);
        }
        if (page.cursor >= 0) {
            this.#ring(page.cursor, [3 * this.view.dense, 3 * this.view.dense]);
        }
        if (page.corner >= 0) {
            this.#ring(page.corner, []);
        }
        if (page.handles) {
            page.handles().forEach(({ x, y }) => this.#handle(x * this.view.dense, y * this.view.dense));
        }
    }

    #ring(place, dash) {
        const { context } = this;
        const cell = this.#cell(place);
        const line = 2 * this.view.dense;
        context.lineWidth = line * 2;
        context.strokeStyle = this.colours.tag;
        context.strokeRect(cell.left, cell.top, cell.width, cell.height);
        context.setLineDash(dash);
        context.lineWidth = line;
        context.strokeStyle = this.colours.words;
        context.strokeRect(cell.left, cell.top, cell.width, cell.height);
        context.setLineDash([]);
    }

    #handle(x, y) {
        const { context, view } = this;
        context.beginPath();
        context.arc(x, y, Math.max(6, Math.min(11, view.cell * 0.4)) * view.dense, 0, 2 * Math.PI);
        context.fillStyle = this.colours.tag;
        context.fill();
        context.lineWidth = 2.5 * view.dense;
        context.strokeStyle = this.colours.window;
        context.stroke();
    }
}

/** What stands above a sector. */
function headOf(sector, step, count, roomy) {
    if (step < 0) {
        return roomy ? `Sector ${sector}` : String(sector);
    }
    if (step === 0) {
        return roomy ? `Sector ${sector}, the goal's` : `${sector} goal`;
    }
    return roomy ? `Sector ${sector}, ${count - step} of ${count}` : `${sector} · ${count - step}/${count}`;
}

/** The corners of the part of a floor that has anything but walls, the goal's and the leg's sectors among it; by whole sectors. */
export function drawnPart(costs, sectors) {
    const used = Array.from({ length: SECTORS }, (_, sector) => sector).filter(
        (sector) => sectors.includes(sector) || costs.subarray(sector * CELLS, (sector + 1) * CELLS).some((cost) => cost !== WALL),
    );
    const all = used.length > 0 ? used : Array.from({ length: SECTORS }, (_, sector) => sector);
    const columns = all.map((sector) => columnOf(sector * CELLS));
    const rows = all.map((sector) => rowOf(sector * CELLS));
    return [
        { column: Math.min(...columns), row: Math.min(...rows) },
        { column: Math.max(...columns) + SIDE - 1, row: Math.max(...rows) + SIDE - 1 },
    ];
}
