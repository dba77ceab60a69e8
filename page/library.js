// The library as WebAssembly: its memory, and its calls with plain numbers. What the module asks for it brings along.

import { CELLS, FLOOR } from "./drawing.js";

export const STOPPED = 0;
export const MOVED = 1;
export const ARRIVED = 2;
export const IN_SIGHT = 3;
export const NEVER = 4;
export const NO_DIRECTION = 8;

/** Starts the module. */
export async function startLibrary(bytes) {
    const { instance } = await WebAssembly.instantiate(bytes, {});
    return new Library(instance.exports);
}

class Library {
    constructor(calls) {
        const bytes = (at, length) => new Uint8Array(calls.memory.buffer, at, length);
        this.calls = calls;
        this.bytes = bytes;
        this.floor = bytes(calls.floor(), FLOOR);
        this.sheet = bytes(calls.sheet(), FLOOR);
        this.steps = bytes(calls.steps(), 17 * 8);
        this.fieldCells = new Uint32Array(calls.memory.buffer, calls.field_cells(), CELLS);
        this.fieldCorners = bytes(calls.field_corners(), CELLS);
        this.fieldPositions = bytes(calls.field_positions(), CELLS);
        this.wayWords = new Uint32Array(calls.memory.buffer, calls.way(0), 4);
        this.readers = readersOf(calls);
    }

    /** Plans the first steps of the list onto the sheet; the number. */
    leg(count, sight) {
        return this.calls.leg(count, sight ? 1 : 0);
    }

    /** The number of the list by itself, on a floor where each cell costs 1. */
    list(count) {
        return this.calls.list(count);
    }

    /** Where the moves from a place end. */
    way(place) {
        this.calls.way(place);
        const [number, outcome, end, moves] = this.wayWords;
        return { number, outcome, end, moves };
    }

    /** What the moves from a place come to, alone: quicker, for all cells of a leg. */
    outcome(place) {
        this.calls.way(place);
        return this.wayWords[1];
    }

    /** Where one move leads from a place; -1 where a cart stands still. */
    move(place) {
        this.calls.move(place);
        return this.wayWords[1] === MOVED ? this.wayWords[2] : -1;
    }

    /** One cell of a step's built field: its cost, whether it is in sight, and its door, -1 for none. */
    field(count, step, sight, cell) {
        const number = this.calls.field(count, step, sight ? 1 : 0);
        const word = this.fieldCells[cell];
        const position = this.fieldPositions[cell];
        return {
            number,
            cost: word % 65536,
            inSight: (word & 0x10000) !== 0,
            door: position === 255 ? -1 : this.fieldCorners[position],
        };
    }

    /** The costs and the goal's cell of a seed's practice floor. */
    practice(seed) {
        const bytes = this.bytes(this.calls.practice(seed), CELLS + 1).slice();
        return { costs: bytes.subarray(0, CELLS), goal: bytes[CELLS] };
    }

    /** What a number says, in the header's words. */
    refusal(number) {
        return this.text(this.calls.refusal(number));
    }

    /** Reads a drawing's text as the drawing tool does: costs, steps as bytes and cart; or what is wrong, in words, with its line. */
    read(text) {
        const bytes = new TextEncoder().encode(text);
        if (bytes.length > this.calls.text_size()) {
            return { fault: "the text is longer than any drawing" };
        }
        this.bytes(this.calls.text(), bytes.length).set(bytes);
        if (!this.calls.read(bytes.length)) {
            const line = this.calls.fault_line();
            return { fault: (line > 0 ? `line ${line}: ` : "") + this.text(this.calls.fault_words()) };
        }
        const count = this.calls.drawn_steps();
        return {
            costs: this.bytes(this.calls.drawn_costs(), FLOOR).slice(),
            steps: this.steps.slice(0, count * 8),
            cart: this.calls.drawn_cart(),
        };
    }

    /** The floor, the first steps of the list and a cart as the drawing tool's text. */
    write(count, cart) {
        const length = this.calls.write(count, cart);
        return new TextDecoder().decode(this.bytes(this.calls.text(), length));
    }

    version() {
        const [library, header] = [this.calls.version(), this.calls.header_version()];
        if (library !== header) {
            throw new Error("the library and its header are of two versions");
        }
        return [Math.floor(library / 1000000), Math.floor(library / 1000) % 1000, library % 1000].join(".");
    }

    /** The bytes from an address on, up to a zero, as text. */
    text(at) {
        const rest = new Uint8Array(this.calls.memory.buffer, at);
        return new TextDecoder().decode(rest.subarray(0, rest.indexOf(0)));
    }
}

/** What each of the 256 flow bytes says, asked of the library's readers once. */
function readersOf(calls) {
    const table = (reader) => Uint8Array.from({ length: 256 }, (_, byte) => reader(byte));
    return {
        direction: table(calls.hanjolum_get_compass_dir_from_bits),
        pathable: table(calls.hanjolum_is_pathable),
        goal: table(calls.hanjolum_is_goal),
        portal: table(calls.hanjolum_is_portal_goal),
        sight: table(calls.hanjolum_has_line_of_sight),
        wall: table(calls.hanjolum_is_wall),
    };
}
