// node answers.cjs MODULE DRAWING: asks a page's module questions on drawn floors, and prints a digest of its answers and how many
// questions there were. page/check holds two modules to one digest. Exit status 1 where some refusal, or an accepted leg, never came.
"use strict";
const fs = require("fs");
const crypto = require("crypto");

const FLOORS = 300;
const [file, drawing] = process.argv.slice(2);
const calls = new WebAssembly.Instance(new WebAssembly.Module(fs.readFileSync(file))).exports;
const bytes = (at, length) => new Uint8Array(calls.memory.buffer, at, length);
const digest = crypto.createHash("sha256");
const met = new Map();
let questions = 0;
let state = 2463534242;

/** A number below another one, the same on every run. */
function below(limit) {
    state ^= state << 13;
    state ^= state >>> 17;
    state ^= state << 5;
    return (state >>> 0) % limit;
}

function note(...parts) {
    questions += 1;
    parts.forEach((part) => digest.update(typeof part === "number" ? String(part) + ";" : part));
}

function drawFloor() {
    const walls = [0, 10, 25, 45][below(4)];
    const zeros = below(4) === 0 ? 3 : 0;
    bytes(calls.floor(), 6400).forEach((_, place, floor) => {
        const draw = below(100);
        floor[place] = draw < walls ? 255 : draw < walls + zeros ? 0 : draw < 75 ? 1 : 1 + below(254);
    });
}

/** A leg of one to seventeen steps that goes from neighbour to neighbour, now and then to none. */
function drawLeg() {
    const steps = bytes(calls.steps(), 17 * 8);
    const count = below(12) === 0 ? 17 : below(17);
    let sector = below(64);
    steps.fill(0);
    steps.set([sector, below(100)]);
    for (let step = 1; step < count; step++) {
        const side = below(4);
        const next = sector + [8, -1, -8, 1][side];
        const one = below(10);
        const ends = [one, below(2) === 0 ? one : below(10)].sort((a, b) => a - b);
        const [first, last] = ends.map((at) => [0, 9, 90, 0][side] + at * (side % 2 === 0 ? 1 : 10));
        sector = next >= 0 && next < 64 ? next : below(64);
        steps.set([sector, 0, 1, first, last, side], step * 8);
    }
    return count;
}

function askLeg(count, sight) {
    bytes(calls.sheet(), 6400).fill(0);
    const number = calls.leg(count, sight);
    met.set(number, true);
    note(number, calls.list(count), bytes(calls.sheet(), 6400));
    if (number === 0) {
        for (let i = 0; i < 60; i++) {
            const place = below(6400);
            note(bytes(calls.way(place), 16), bytes(calls.move(place), 16));
        }
        note(calls.field(count, below(count), sight), bytes(calls.field_cells(), 400));
        note(bytes(calls.field_corners(), 100), bytes(calls.field_positions(), 100));
    }
}

/** A floor is written as text and read back. */
function askText(count) {
    const length = calls.write(Math.min(count, 16), -1);
    note(length, bytes(calls.text(), length));
    note(calls.read(length), calls.drawn_steps(), calls.drawn_cart(), bytes(calls.drawn_costs(), 6400));
}

const text = fs.readFileSync(drawing);
bytes(calls.text(), text.length).set(text);
note(calls.read(text.length), calls.drawn_steps(), calls.drawn_cart(), bytes(calls.drawn_costs(), 6400));
note(calls.read(text.length - 5), calls.fault_line(), bytes(calls.fault_words(), 60));
for (let i = 0; i < FLOORS; i++) {
    drawFloor();
    let count = drawLeg();
    askLeg(count, 0);
    askLeg(count, 1);
    while (count > 1 && calls.leg(count, 0) !== 0) {
        met.set(calls.leg(count, 0), true);
        count -= 1;
    }
    askLeg(count, 0);
    askLeg(count, 1);
    askText(count);
    note(bytes(calls.practice(below(4294967295)), 101));
}
for (let byte = 0; byte < 256; byte++) {
    ["get_compass_dir_from_bits", "is_pathable", "is_goal", "is_portal_goal", "has_line_of_sight", "is_wall"]
        .forEach((name) => note(Number(calls[`hanjolum_${name}`](byte))));
}
note(calls.version(), calls.header_version());
const missing = [0, 3, 9, 10, 15, 16].filter((number) => !met.has(number));
if (missing.length > 0) {
    console.error(`Error: no leg was answered with ${missing.join(", ")}`);
    process.exit(1);
}
console.log(digest.digest("hex"), questions);
