// What is said in words: of a tapped cell, of a refusal, of what was done. Words come from here, facts from the library.

import { CELLS, SIDE, WALL, sectorOf } from "./drawing.js";
import { SIDES, sectorsOf, windowPlaces, writeSteps } from "./leg.js";
import { ARRIVED, IN_SIGHT, NEVER, NO_DIRECTION } from "./library.js";
import { COUNTS, DOES_NOT_COUNT } from "./shown.js";

const DIRECTIONS = ["north", "east", "south", "west", "north-east", "south-east", "south-west", "north-west"];
const NOT_REACHED = 65535;

export function placeWords(place) {
    return `sector ${sectorOf(place)}, column ${place % SIDE}, row ${Math.floor((place % CELLS) / SIDE)}`;
}

export function many(count, word) {
    return `${count} ${word}${count === 1 ? "" : "s"}`;
}

export function sentence(text) {
    return text.charAt(0).toUpperCase() + text.slice(1);
}

/** A flow byte in words. */
export function byteWords(byte, readers) {
    const words = [];
    if (readers.wall[byte]) {
        words.push("a wall, or not reached");
    }
    if (readers.pathable[byte]) {
        words.push("can be walked");
    }
    if (readers.goal[byte]) {
        words.push("the goal");
    } else if (readers.sight[byte]) {
        words.push("goal in sight");
    }
    if (readers.portal[byte]) {
        words.push("leads into the next sector");
    }
    words.push(readers.direction[byte] === NO_DIRECTION ? "no arrow" : `arrow ${DIRECTIONS[readers.direction[byte]]}`);
    return `0x${byte.toString(16).padStart(2, "0")}: ${words.join(", ")}`;
}

function costWords(cost) {
    if (cost === WALL) {
        return "255, a wall";
    }
    return cost === 0 ? "0; nothing is promised of following here" : String(cost);
}

/** Where the moves from a cell end. */
function movesWords(way, readers, byte) {
    switch (way.outcome) {
    case ARRIVED: return way.moves === 0 ? "0, it is the goal" : `${way.moves} to the goal`;
    case IN_SIGHT: return way.moves === 0 ? "0, the goal is in sight: drive straight for it" : `${way.moves} into sight of the goal`;
    case NEVER: return "the arrows never arrive: they lead in a circle";
    default: return readers.wall[byte] ? "none" : `the arrows never arrive: they stop at ${placeWords(way.end)}`;
    }
}

function builtWords(field, cost) {
    if (cost === WALL) {
        return "none, a wall";
    }
    if (field.cost === NOT_REACHED) {
        return "not reached";
    }
    return field.inSight ? `${field.cost}, in waves of sight` : String(field.cost);
}

/** All that is told of a cell, as names and values. */
export function cellFacts(page, place) {
    const { library, drawing, plan, shown } = page;
    const sector = sectorOf(place);
    const step = plan.stepOf[sector];
    const facts = [["Cell", `${placeWords(place)}`], ["Drawn cost", costWords(drawing.costs[place])]];
    if (step < 0) {
        return [...facts, ["Leg", "does not name this sector"]];
    }
    if (step >= plan.accepted) {
        return [...facts, ["Leg", "is refused before it comes here"]];
    }
    const byte = library.sheet[place];
    writeSteps(drawing.leg, library.steps);
    const field = library.field(plan.accepted, step, plan.sight, place % CELLS);
    facts.push(["Byte", byteWords(byte, library.readers)], ["Moves", movesWords(library.way(place), library.readers, byte)]);
    facts.push(["Built cost", builtWords(field, drawing.costs[place])]);
    if (step > 0) {
        facts.push(["Door", field.door < 0 ? "none" : placeWords(sector * CELLS + field.door)]);
    }
    return shown.windows[place] === 0 ? facts : [...facts, ["Window", windowWords(shown.windows[place])]];
}

function windowWords(mark) {
    switch (mark) {
    case COUNTS: return "this cell counts";
    case DOES_NOT_COUNT: return "this cell does not count: it faces no cell from which the leg goes on";
    default: return "not planned yet";
    }
}

/** A cell's facts as one line. */
export function cellSentence(facts) {
    return facts.map(([name, value], i) => (i === 0 ? sentence(value) : `${name} ${value}`)).join(". ") + ".";
}

/** What the keyboard's cell is, shortly. */
export function cursorSentence(page, place) {
    const { library, drawing, plan, shown } = page;
    const cost = drawing.costs[place] === WALL ? "wall" : `cost ${drawing.costs[place]}`;
    const step = plan.stepOf[sectorOf(place)];
    const byte = library.sheet[place];
    const planned = step >= 0 && step < plan.accepted && drawing.costs[place] !== WALL;
    const window = shown.windows[place] === 0 ? "" : ", window";
    return `${sentence(placeWords(place))}: ${cost}${planned ? `, ${byteWords(byte, library.readers).slice(6)}` : ""}${window}.`;
}

/** The wall cells among a step's goal or window. */
export function wallsOf(leg, step, costs) {
    const places = step === 0 ? [leg.goal] : windowPlaces(leg.windows[step - 1]);
    return places.filter((place) => costs[place] === WALL);
}

/** Where a refusal is shown, and what is said there. `leg` is the one that was refused, which need not be the drawing's. */
export function refusalOf({ number, step }, leg, costs) {
    const sectors = sectorsOf(leg);
    const window = leg.windows[step - 1];
    switch (number) {
    case 3:
        return leg.goal < 0
            ? { place: -1, words: "There is no goal yet. Choose Goal and tap its cell." }
            : { place: middleOfSector(sectors[step]), words: "A leg has at most sixteen sectors, the goal's among them." };
    case 9: return { place: middleOfSector(sectors[step]), words: `Sector ${sectors[step]} is in the leg already.` };
    case 10:
        return {
            place: middleOfSector(sectors[step]),
            words: `Sector ${sectors[step]} is not beside sector ${sectors[step - 1]}, where the leg goes on.`,
        };
    case 15:
        return {
            place: windowPlaces(window)[0],
            words: `Sector ${window.sector}, ${SIDES[window.side]} window: none of its cells faces a cell from which the leg goes on.`,
        };
    case 16: return onWall(leg, step, wallsOf(leg, step, costs));
    default: return { place: middleOfSector(sectors[step] ?? 0), words: "The leg is refused." };
    }
}

function onWall(leg, step, walls) {
    const place = walls[0] ?? leg.goal;
    if (step === 0) {
        return { place, words: `The goal is on a wall: ${placeWords(place)}.` };
    }
    const { sector, side } = leg.windows[step - 1];
    const cells = walls.map((wall) => wall % CELLS).join(", ");
    const words = walls.length === 1 ? `cell ${cells} of it is a wall` : `cells ${cells} of it are walls`;
    return { place, words: `Sector ${sector}, ${SIDES[side]} window: ${words}.` };
}

function middleOfSector(sector) {
    return sector * CELLS + 44;
}

/** The cells whose arrows never arrive, sector by sector, the goal's first. */
export function lostSentence(leg, lost) {
    const parts = sectorsOf(leg)
        .map((sector) => [sector, lost.filter((place) => sectorOf(place) === sector).map((place) => place % CELLS)])
        .filter(([, cells]) => cells.length > 0)
        .map(([sector, cells]) => `sector ${sector}, cells ${cells.join(" ")}`);
    return parts.join("; ");
}

/** A warning of costs of 0; empty where there is none. */
export function zeroSentence(costs) {
    const zeros = costs.reduce((count, cost) => count + (cost === 0 ? 1 : 0), 0);
    return zeros === 0 ? "" : `${many(zeros, "cell")} of cost 0: nothing is promised of following there.`;
}
