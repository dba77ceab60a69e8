// What is shown of each cell, as data: the floor is drawn from these layers and from nothing else. Signs come from the sheet's bytes
// by the library's readers, and which arrows never arrive from hanjolum_way.

import { CELLS, FLOOR, WALL } from "./drawing.js";
import { sectorsOf, windowPlaces } from "./leg.js";
import { ARRIVED, IN_SIGHT, NO_DIRECTION } from "./library.js";

// Signs of a cell. An arrow is ARROW plus its direction, 0 to 7, as hanjolum_get_compass_dir_from_bits answers it; LOST likewise.
export const UNPLANNED = 0;
export const WALL_CELL = 1;
export const UNREACHED = 2;
export const GOAL = 3;
export const SIGHT = 4;
export const ARROW = 8;
export const LOST = 16;

// What a cell is to its sector's window.
export const COUNTS = 1;
export const DOES_NOT_COUNT = 2;
export const NOT_PLANNED_YET = 3;

export class Shown {
    constructor(library) {
        this.library = library;
        this.signs = new Uint8Array(FLOOR);
        this.windows = new Uint8Array(FLOOR);
        this.lost = [];
        this.asked = 0;             // how many of the places to ask about were asked about
        this.toAsk = [];
    }

    /** Takes a plan whose sheet lies in the library. */
    take(drawing, plan) {
        this.signs.fill(UNPLANNED);
        this.windows.fill(0);
        this.lost = [];
        this.asked = 0;
        this.toAsk = [];
        sectorsOf(drawing.leg).slice(0, plan.accepted).forEach((sector) => this.#takeSector(sector));
        drawing.costs.forEach((cost, place) => {
            if (cost === WALL) {
                this.signs[place] = WALL_CELL;
            }
        });
        drawing.leg.windows.forEach((window, i) => this.#takeWindow(window, i + 1 < plan.accepted));
    }

    #takeSector(sector) {
        for (let place = sector * CELLS; place < (sector + 1) * CELLS; place++) {
            this.signs[place] = this.#signOf(this.library.sheet[place]);
            if (this.signs[place] >= ARROW) {
                this.toAsk.push(place);
            }
        }
    }

    #signOf(byte) {
        const { direction, wall, goal } = this.library.readers;
        if (direction[byte] !== NO_DIRECTION) {
            return ARROW + direction[byte];
        }
        if (wall[byte]) {
            return UNREACHED;
        }
        return goal[byte] ? GOAL : SIGHT;
    }

    #takeWindow(window, planned) {
        windowPlaces(window).forEach((place) => {
            const counts = this.library.readers.portal[this.library.sheet[place]];
            this.windows[place] = !planned ? NOT_PLANNED_YET : counts ? COUNTS : DOES_NOT_COUNT;
        });
    }

    /** Asks for the way from further cells until a time of the clock; whether all were asked about. */
    ask(until) {
        while (this.asked < this.toAsk.length && performance.now() < until) {
            const upTo = Math.min(this.asked + 16, this.toAsk.length);
            for (; this.asked < upTo; this.asked++) {
                this.#askOf(this.toAsk[this.asked]);
            }
        }
        return this.asked === this.toAsk.length;
    }

    #askOf(place) {
        const outcome = this.library.outcome(place);
        if (outcome !== ARRIVED && outcome !== IN_SIGHT) {
            this.signs[place] += LOST - ARROW;
            this.lost.push(place);
        }
    }
}
