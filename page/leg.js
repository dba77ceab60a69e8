// The leg: how it is chosen by taps, its bytes, and its planning. What is accepted, and what a number speaks of, the library says.

import { ACROSS, CELLS, NO_LEG, SECTORS, SIDE, STEPS, WALL, sectorOf } from "./drawing.js";

export const SIDES = ["north", "east", "south", "west"];
const STARTS = [0, SIDE - 1, CELLS - SIDE, 0];

/** The cell of a sector at a place, 0 to 9, along a side. */
export function cellAlong(side, at) {
    return STARTS[side] + at * (side % 2 === 0 ? 1 : SIDE);
}

/** The cells of a window, as places of the floor. */
export function windowPlaces(window) {
    const places = [];
    for (let at = window.first; at <= window.last; at++) {
        places.push(window.sector * CELLS + cellAlong(window.side, at));
    }
    return places;
}

/** The sectors that a leg names, the goal's first; none without a goal. */
export function sectorsOf(leg) {
    return leg.goal < 0 ? [] : [sectorOf(leg.goal), ...leg.windows.map((window) => window.sector)];
}

/** Writes a leg's steps as bytes; answers how many there are. */
export function writeSteps(leg, bytes) {
    bytes.fill(0);
    if (leg.goal < 0) {
        return 0;
    }
    bytes.set([sectorOf(leg.goal), leg.goal % CELLS]);
    leg.windows.forEach(({ sector, side, first, last }, i) => {
        bytes.set([sector, 0, 1, cellAlong(side, first), cellAlong(side, last), side], (i + 1) * 8);
    });
    return leg.windows.length + 1;
}

/** The leg that steps are, as bytes: the other way round. */
export function readSteps(bytes, cart) {
    if (bytes.length === 0) {
        return { ...NO_LEG, cart };
    }
    const along = (cell, side) => (side % 2 === 0 ? cell % SIDE : Math.floor(cell / SIDE));
    const windows = [];
    for (let at = 8; at < bytes.length; at += 8) {
        const [sector, , , first, last, side] = bytes.subarray(at, at + 8);
        windows.push({ sector, side, first: along(first, side), last: along(last, side) });
    }
    return { goal: bytes[0] * CELLS + bytes[1], cart, windows };
}

/** The side of a sector that looks towards another one most; for neighbours, the side between them. */
function sideTowards(sector, other) {
    const east = (other % ACROSS) - (sector % ACROSS);
    const south = Math.floor(other / ACROSS) - Math.floor(sector / ACROSS);
    if (Math.abs(east) > Math.abs(south)) {
        return east > 0 ? 1 : 3;
    }
    return south > 0 ? 2 : 0;
}

/** The longest unbroken run of cells along a side that a test holds for: its first and last; undefined where it holds for none. */
function longestRun(test) {
    let best;
    for (let first = 0; first < SIDE; first++) {
        let last = first;
        while (last < SIDE && test(last)) {
            last += 1;
        }
        if (last > first && (!best || last - first > best.last - best.first + 1)) {
            best = { first, last: last - 1 };
        }
    }
    return best;
}

/** The window that a tapped sector begins with: the longest run of its edge that is free on both sides, else on its own, else all. */
function windowTowards(sector, other, costs) {
    const side = sideTowards(sector, other);
    const own = (at) => costs[sector * CELLS + cellAlong(side, at)] !== WALL;
    const across = (at) => costs[other * CELLS + cellAlong((side + 2) % 4, at)] !== WALL;
    const run = longestRun((at) => own(at) && across(at)) ?? longestRun(own) ?? { first: 0, last: SIDE - 1 };
    return { sector, side, ...run };
}

/** The leg with one more sector at its far end. */
export function withSector(leg, sector, costs) {
    const sectors = sectorsOf(leg);
    if (sectors.length === 0) {
        return leg;
    }
    return { ...leg, windows: [...leg.windows, windowTowards(sector, sectors[sectors.length - 1], costs)] };
}

/** The leg with other ends of one window, in either order. */
export function withWindow(leg, index, one, other) {
    const windows = leg.windows.slice();
    windows[index] = { ...windows[index], first: Math.min(one, other), last: Math.max(one, other) };
    return { ...leg, windows };
}

export function withGoal(leg, goal) {
    return { ...leg, goal };
}

/** The leg with its first windows alone, counted from the goal back. */
export function shortened(leg, windows) {
    return { ...leg, windows: leg.windows.slice(0, windows) };
}

/** The library's number for a list of steps by itself, on a floor without walls: 0, 3, 9 or 10. */
export function listNumber(library, leg) {
    return library.list(writeSteps(leg, library.steps));
}

/**
 * Plans a leg onto the library's sheet. Answers how many steps there are, how many of them are planned, the refusals (a number, and
 * the step that it speaks of: the last of the shortest beginning of the list that is refused with it), and each sector's step.
 */
export function planLeg(library, leg, sight) {
    const count = writeSteps(leg, library.steps);
    library.sheet.fill(0);
    const plan = { count, accepted: count, sight, refusals: [], stepOf: new Int8Array(SECTORS).fill(-1) };
    const number = library.leg(count, sight);
    if (number !== 0) {
        refuse(library, plan, number);
    }
    sectorsOf(leg).forEach((sector, step) => {
        plan.stepOf[sector] = step;
    });
    return plan;
}

/** Plans beginning after beginning: the sheet is then that of the longest one that is accepted. */
function refuse(library, plan, number) {
    let found = 0;
    plan.accepted = 0;
    for (let count = 1; count <= Math.min(plan.count, STEPS) && found !== number; count++) {
        const answered = library.leg(count, plan.sight);
        plan.accepted += answered === 0 ? 1 : 0;
        if (answered !== 0 && answered !== found) {
            plan.refusals.push({ number: answered, step: count - 1 });
            found = answered;
        }
    }
    if (found !== number) {
        plan.refusals.push({ number, step: plan.count - 1 });
    }
}
