// Where the floor lies on the screen: zoom, place, and which cell is under a point. Between sectors is a gap, wider the nearer one
// looks. Lengths are pixels of the page, and on a canvas times `dense`, what a dense screen has of its own for one of the page's.

import { ACROSS, SIDE, columnOf, placeAt, rowOf } from "./drawing.js";

const NEAREST = 72;
const FARTHEST = 3;

export class View {
    constructor() {
        this.cell = 20;
        this.left = 0;
        this.top = 0;
        this.width = 1;
        this.height = 1;
        this.dense = 1;
    }

    get gap() {
        return Math.max(2, Math.min(20, this.cell * 0.8));
    }

    get pitch() {
        return SIDE * this.cell + this.gap;
    }

    /** The left end of a column, or the top of a row, from the floor's own corner. */
    offset(number) {
        return Math.floor(number / SIDE) * this.pitch + (number % SIDE) * this.cell;
    }

    /** The middle of a place on the page, from the canvas's corner. */
    middle(place) {
        return {
            x: this.left + this.offset(columnOf(place)) + this.cell / 2,
            y: this.top + this.offset(rowOf(place)) + this.cell / 2,
        };
    }

    /** The column or row at a distance from the floor's corner; in a gap, the nearer one. */
    #numberAt(distance) {
        const sector = Math.max(0, Math.min(ACROSS - 1, Math.floor((distance + this.gap / 2) / this.pitch)));
        const inside = Math.max(0, Math.min(SIDE - 1, Math.floor((distance - sector * this.pitch) / this.cell)));
        return sector * SIDE + inside;
    }

    /** The place under a point, the nearest where it is in a gap; -1 beside the floor. */
    placeUnder(x, y) {
        const whole = ACROSS * this.pitch - this.gap;
        const slack = this.gap / 2;
        const [east, south] = [x - this.left, y - this.top];
        if (east < -slack || south < -slack || east > whole + slack || south > whole + slack) {
            return -1;
        }
        return this.nearest(x, y);
    }

    /** The place nearest to a point. */
    nearest(x, y) {
        return placeAt(this.#numberAt(x - this.left), this.#numberAt(y - this.top));
    }

    moveBy(x, y) {
        this.left += x;
        this.top += y;
        this.#keepInside();
    }

    /** Zooms so that what is under a point stays there. */
    zoomAt(factor, x, y) {
        const cell = Math.max(FARTHEST, Math.min(NEAREST, this.cell * factor));
        const before = [x, y].map((point, i) => this.#share(point - (i === 0 ? this.left : this.top)));
        this.cell = cell;
        this.left = x - this.#distance(before[0]);
        this.top = y - this.#distance(before[1]);
        this.#keepInside();
    }

    /** A distance as sectors and a part of one, which zooming does not change; and back. */
    #share(distance) {
        return distance / this.pitch;
    }

    #distance(share) {
        return share * this.pitch;
    }

    /** Shows a rectangle of columns and rows as large as it fits. */
    fit(first, last) {
        const [columns, rows] = [last.column - first.column + 1, last.row - first.row + 1];
        const cellsIn = (length, cells) => (length - 16) / (cells + Math.ceil(cells / SIDE + 1) * 0.8);
        this.cell = Math.max(FARTHEST, Math.min(NEAREST, cellsIn(this.width, columns), cellsIn(this.height, rows)));
        const middleOf = (from, to) => (this.offset(from) + this.offset(to) + this.cell) / 2;
        this.left = this.width / 2 - middleOf(first.column, last.column);
        this.top = this.height / 2 - middleOf(first.row, last.row) + this.gap / 2;
    }

    /** Whether a place's middle is inside the canvas. */
    has(place) {
        const { x, y } = this.middle(place);
        return x >= 0 && y >= 0 && x < this.width && y < this.height;
    }

    /** Moves as little as is needed to have a place inside the canvas. */
    show(place) {
        const { x, y } = this.middle(place);
        const edge = Math.min(this.cell, this.width / 4, this.height / 4);
        const needed = (at, length) => Math.max(0, edge - at) - Math.max(0, at - (length - edge));
        this.moveBy(needed(x, this.width), needed(y, this.height));
    }

    /** Some of the floor stays on the screen, wherever it is moved to. */
    #keepInside() {
        const whole = ACROSS * this.pitch - this.gap;
        const kept = (at, length) => {
            const rest = Math.min(length, whole) * 0.3;
            return Math.max(rest - whole, Math.min(length - rest, at));
        };
        this.left = kept(this.left, this.width);
        this.top = kept(this.top, this.height);
    }

    /** Where the cells of a sector end, from its own corner, and where a sector begins: in the canvas's own pixels, so that lines are sharp. */
    ends() {
        return Int32Array.from({ length: SIDE + 1 }, (_, number) => Math.round(number * this.cell * this.dense));
    }

    edge(start, sector) {
        return Math.round((start + sector * this.pitch) * this.dense);
    }
}
