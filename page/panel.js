// The words beside the floor: refusals, the tapped cell, the leg as a list that can be changed, and the list of signs.

import { CELLS, SIDE, sectorOf } from "./drawing.js";
import { SIDES, sectorsOf, withWindow } from "./leg.js";
import { costColour, drawGoal, frameWindow, traceArrow, traceBar, traceCross, traceDot, traceRing, wallPattern } from "./signs.js";
import { cellFacts, lostSentence, many, refusalOf, zeroSentence } from "./told.js";

const MARKS = 2;        // refusals that are shown on the floor at once

function element(name, words, properties = {}) {
    const made = Object.assign(document.createElement(name), properties);
    made.append(...[words].flat());
    return made;
}

export class Panel {
    constructor(page, parts) {
        Object.assign(this, { page, parts });
        page.on("told", (words) => this.#tell(words));
        page.on("planned", () => this.#planned());
        page.on("asked", () => this.#asked());
        page.on("drawn", () => this.#place());
        parts.add.addEventListener("click", () => this.#add());
        parts.out.addEventListener("click", () => page.takeOut());
    }

    #tell(words) {
        this.saidNow = true;
        this.parts.told.textContent = words;
        this.parts.told.classList.toggle("unseen", this.page.refused.length > 0);
    }

    /** All refusals: that of the last tap, and those of the leg. */
    refusals() {
        const { page } = this;
        const { leg, costs } = page.drawing;
        const ofLeg = page.plan.refusals.map((refusal) => ({ number: refusal.number, ...refusalOf(refusal, leg, costs), actions: [] }));
        return [...page.refused, ...ofLeg.filter(({ words }) => !page.refused.some((refused) => refused.words === words))];
    }

    #planned() {
        const { page } = this;
        this.now = this.refusals();
        const key = JSON.stringify(this.now.map(({ number, words, place }) => [number, words, place]));
        if (key !== this.refusalKey) {
            this.refusalKey = key;
            this.#listRefusals();
        }
        this.#speakRefusals();
        this.parts.told.classList.toggle("unseen", page.refused.length > 0);
        this.#listFacts();
        if (this.leg !== page.drawing.leg || this.accepted !== page.plan.accepted) {
            this.leg = page.drawing.leg;
            this.accepted = page.plan.accepted;
            this.#listLeg();
        }
        this.parts.undo.disabled = page.drawing.past.length === 0;
        this.parts.redo.disabled = page.drawing.future.length === 0;
    }

    /** The refusals in the list of words, and on the floor, where each speaks of. */
    #listRefusals() {
        this.parts.refused.replaceChildren(...this.now.map((refusal) => this.#refusalLine(refusal)));
        this.marks = this.now.slice(0, MARKS).map((refusal) => ({
            place: refusal.place,
            pin: element("div", [], { className: "pin", hidden: refusal.place < 0 }),
            label: element("div", [element("b", String(refusal.number)), refusal.words], { className: "mark" }),
        }));
        this.parts.marks.replaceChildren(...this.marks.flatMap(({ pin, label }) => [pin, label]));
    }

    /** What the leg is newly refused for is spoken behind what was done, once that is said; it is seen in the list. */
    #speakRefusals() {
        if (!this.saidNow || this.spokenKey === this.refusalKey) {
            this.saidNow = false;
            return;
        }
        this.saidNow = false;
        this.spokenKey = this.refusalKey;
        const said = this.now.filter(({ words }) => !this.parts.told.textContent.includes(words));
        if (said.length > 0) {
            const words = said.map((refusal) => ` ${refusal.words} Refused with number ${refusal.number}.`);
            this.parts.told.append(element("span", words, { className: "unseen" }));
        }
    }

    #refusalLine({ number, words, actions, place }) {
        const { page } = this;
        const buttons = actions.map((action) => element("button", action.words, { type: "button", onclick: action.act }));
        const show = () => {
            page.view.show(place);
            page.redraw();
        };
        if (place >= 0 && actions.length === 0 && !page.view.has(place)) {
            buttons.push(element("button", "Show it", { type: "button", onclick: show }));
        }
        return element("li", [
            element("b", String(number)), `${words} `, ...buttons,
            element("span", `Number ${number}: ${page.library.refusal(number)}.`, { className: "small" }),
        ]);
    }

    /** Puts each label beside its place, inside the floor's part of the screen, and none onto another. */
    #place() {
        const { view } = this.page;
        let free = 6;
        (this.marks ?? []).forEach(({ place, pin, label }) => {
            const { x, y } = place < 0 ? { x: view.width / 2, y: 0 } : view.middle(place);
            pin.style.left = `${x}px`;
            pin.style.top = `${y}px`;
            const [width, height] = [label.offsetWidth, label.offsetHeight];
            const above = y - height - 16;
            const top = above > 4 ? above : y + 16;
            label.style.left = `${Math.max(6, Math.min(view.width - width - 60, x - width / 2))}px`;
            const wished = Math.max(6, Math.min(view.height - height - 6, top));
            const taken = free > 6 && wished < free && wished + height > free - height - 8;
            label.style.top = `${taken ? free : wished}px`;
            free = (taken ? free : wished) + height + 4;
        });
    }

    #listFacts() {
        const { page, parts } = this;
        parts.cell.hidden = page.tapped < 0;
        if (page.tapped >= 0) {
            parts.facts.replaceChildren(...cellFacts(page, page.tapped).flatMap(([name, value]) => [element("dt", name), element("dd", value)]));
        }
    }

    /** The leg as a list. Where only ends of windows are others, their fields stay, and who is in one of them stays there. */
    #listLeg() {
        const { page, parts } = this;
        const { leg } = page.drawing;
        const key = JSON.stringify([leg.goal, page.plan.accepted, leg.windows.map(({ sector, side }) => [sector, side])]);
        if (key === this.legKey) {
            this.#listEnds(leg);
            return;
        }
        this.legKey = key;
        const lines = leg.windows.map((window, i) => this.#windowLine(window, i)).reverse();
        if (leg.goal >= 0) {
            const wrong = page.plan.accepted === 0;
            const cell = leg.goal % CELLS;
            const words = `the goal, column ${cell % SIDE}, row ${Math.floor(cell / SIDE)}`;
            lines.push(element("li", [element("span", `Sector ${sectorOf(leg.goal)}`), words], { className: wrong ? "wrong" : "" }));
        } else {
            lines.push(element("li", "No goal yet."));
        }
        parts.leg.replaceChildren(...lines);
        parts.out.disabled = leg.windows.length === 0;
    }

    #listEnds(leg) {
        const fields = [...this.parts.leg.querySelectorAll("input")];
        [...leg.windows].reverse().forEach(({ first, last }, i) => {
            fields[i * 2].value = first;
            fields[i * 2 + 1].value = last;
        });
    }

    /** A window's line: its first and last cell can be changed there. */
    #windowLine({ sector, side, first, last }, index) {
        const { page } = this;
        const field = (value, name) => element("input", [], {
            type: "number", min: 0, max: SIDE - 1, value, ariaLabel: `Sector ${sector}, window's ${name} cell, 0 to 9`,
        });
        const from = field(first, "first");
        const to = field(last, "last");
        const change = () => {
            const [one, other] = [from, to].map((input) => Math.max(0, Math.min(SIDE - 1, Math.trunc(Number(input.value) || 0))));
            const words = `Sector ${sector}: its window is from ${Math.min(one, other)} to ${Math.max(one, other)}.`;
            page.setLeg(withWindow(page.drawing.leg, index, one, other), words);
        };
        from.addEventListener("change", change);
        to.addEventListener("change", change);
        const planned = index + 1 < page.plan.accepted;
        const parts = [element("span", `Sector ${sector}`), element("em", `${SIDES[side]}, from`), from, "to", to, planned ? "" : "not planned"];
        return element("li", parts, { className: planned ? "" : "wrong" });
    }

    #add() {
        const sector = Number(this.parts.sector.value);
        if (this.parts.sector.value !== "" && Number.isInteger(sector) && sector >= 0 && sector <= 63) {
            this.page.addSector(sector);
        } else {
            this.page.tell("A sector is a whole number from 0 to 63.");
        }
    }

    /** Once all ways are known: which cells never arrive, and how many cost 0. */
    #asked() {
        const { page, parts } = this;
        const { lost } = page.shown;
        if (lost.length > 0 && lost.length !== this.lostBefore) {
            parts.told.textContent += ` The arrows of ${many(lost.length, "cell")} never arrive.`;
        }
        this.lostBefore = lost.length;
        parts.lost.hidden = lost.length === 0;
        parts.lost.textContent = `The arrows of ${many(lost.length, "cell")} never arrive: ${lostSentence(page.drawing.leg, lost)}.`;
        parts.zeros.textContent = zeroSentence(page.drawing.costs);
        parts.zeros.hidden = parts.zeros.textContent === "";
    }

    /** The list of signs, drawn as the floor is. */
    listSigns(colours, dense) {
        const lines = SIGNS.map(([words, draw]) => {
            const canvas = element("canvas", [], { width: 30 * dense, height: 30 * dense, ariaHidden: "true" });
            const context = canvas.getContext("2d");
            context.scale(dense, dense);
            context.fillStyle = costColour(1, colours);
            context.fillRect(0, 0, 30, 30);
            draw(context, colours);
            return element("li", [canvas, words]);
        });
        this.parts.signs.replaceChildren(...lines);
    }

    /** The leg as one line, for what is said at the beginning. */
    legSentence() {
        const sectors = sectorsOf(this.page.drawing.leg).reverse();
        return sectors.length === 0 ? "No leg yet." : `A leg of ${many(sectors.length, "sector")}: ${sectors.join(", ")}.`;
    }
}

function stroked(colour, trace) {
    return (context, colours) => {
        context.beginPath();
        trace(context);
        Object.assign(context, { strokeStyle: colours[colour], lineWidth: 2.2, lineCap: "round", lineJoin: "round" });
        context.stroke();
    };
}

function ground(context, colour) {
    context.fillStyle = colour;
    context.fillRect(0, 0, 30, 30);
}

const SIGNS = [
    ["arrow", stroked("arrow", (context) => traceArrow(context, 15, 15, 30, 4))],
    ["goal", (context, colours) => drawGoal(context, 15, 15, 30, colours)],
    ["wall", (context, colours) => ground(context, wallPattern(context, 30, colours))],
    ["cost, deeper is dearer", (context, colours) => {
        ground(context, costColour(60, colours));
        Object.assign(context, { fillStyle: colours.number, font: "600 13px system-ui, sans-serif", textBaseline: "middle", textAlign: "center" });
        context.fillText("60", 15, 16);
    }],
    ["never arrives", (context, colours) => {
        ground(context, colours.lostGround);
        stroked("lost", (it) => {
            traceArrow(it, 15, 15, 30, 1);
            traceBar(it, 15, 15, 30, 1);
        })(context, colours);
    }],
    ["goal in sight, no arrow", stroked("sight", (context) => {
        traceRing(context, 15, 15, 30);
        traceDot(context, 15, 15, 30);
    })],
    ["not reached", stroked("unreached", (context) => traceCross(context, 15, 15, 30))],
    ["window cell", (context, colours) => frameWindow(context, 3, 3, 24, 24, "counts", colours)],
    ["window cell, does not count", (context, colours) => frameWindow(context, 3, 3, 24, 24, "idle", colours)],
    ["window cell, not planned", (context, colours) => frameWindow(context, 3, 3, 24, 24, "waiting", colours)],
];
