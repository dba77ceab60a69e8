// Puts the page together.

import { placeAt } from "./drawing.js";
import { keepTheme, keptDrawing, keptTheme } from "./keep.js";
import { startLibrary } from "./library.js";
import { Page } from "./page.js";
import { Painter } from "./paint.js";
import { Panel } from "./panel.js";
import { Tools, pageKeys } from "./tools.js";
import { View } from "./view.js";

const COMPILER = "/* COMPILER */";
const find = (id) => document.getElementById(id);

/** The page's colours, as the style sheet has them. */
function coloursOf() {
    const style = getComputedStyle(document.documentElement);
    const named = (name) => style.getPropertyValue(`--${name}`).trim();
    const parts = (name) => [1, 3, 5].map((at) => parseInt(named(name).slice(at, at + 2), 16));
    return {
        beside: named("beside"), words: named("words"), quiet: named("quiet"), line: named("line"), frame: named("frame"), named: named("named"),
        goal: named("goal"), goalSign: named("goal-sign"), arrow: named("arrow"), lost: named("lost"), lostGround: named("lost-ground"),
        sight: named("sight"), unreached: named("unreached"), window: named("window"), idle: named("idle"), doorway: named("doorway"),
        wall: named("wall"), hatch: named("hatch"), number: named("number"), zero: named("zero"), tag: named("tag"),
        floorEnds: [parts("floor-near"), parts("floor-far")],
    };
}

/** A whole number out of a field, within its bounds. */
function numberIn(input) {
    const number = Math.trunc(Number(input.value) || 0);
    return Math.max(Number(input.min), Math.min(Number(input.max), number));
}

const choices = {
    rectangle: () => document.querySelector("input[name=shape]:checked").value === "rectangle",
    cost: () => numberIn(find("cost")),
    seed: () => numberIn(find("seed")),
    chosen(tool) {
        document.querySelectorAll("#chosen button").forEach((button) => {
            button.setAttribute("aria-checked", String(button.dataset.tool === tool));
            button.tabIndex = button.dataset.tool === tool ? 0 : -1;
        });
        document.querySelectorAll("#options > *").forEach((part) => {
            part.hidden = !part.dataset.for.split(" ").includes(tool);
        });
        find("zero").hidden = tool !== "cost" || choices.cost() !== 0;
        find("canvas").style.cursor = tool === "look" ? "grab" : "crosshair";
    },
};

/** Light or dark: as chosen here, else as the system has it. */
function setTheme(page, panel, theme) {
    document.documentElement.dataset.theme = theme;
    find("theme").querySelector("span").textContent = theme === "dark" ? "Light" : "Dark";
    find("theme").setAttribute("aria-label", theme === "dark" ? "Light colours" : "Dark colours");
    page.painter.setColours(coloursOf());
    panel.listSigns(page.painter.colours, devicePixelRatio);
    page.redraw();
}

function themes(page, panel) {
    const system = matchMedia("(prefers-color-scheme: dark)");
    const wished = () => keptTheme() ?? (system.matches ? "dark" : "light");
    system.addEventListener("change", () => setTheme(page, panel, wished()));
    find("theme").addEventListener("click", () => {
        keepTheme(document.documentElement.dataset.theme === "dark" ? "light" : "dark");
        setTheme(page, panel, wished());
    });
    setTheme(page, panel, wished());
}

/** The canvas has as many pixels as the screen shows of it. */
function fitCanvas(page, canvas) {
    const box = canvas.getBoundingClientRect();
    const first = page.view.width === 1;
    Object.assign(page.view, { width: box.width, height: box.height, dense: devicePixelRatio });
    canvas.width = Math.max(1, Math.round(box.width * devicePixelRatio));
    canvas.height = Math.max(1, Math.round(box.height * devicePixelRatio));
    if (first) {
        page.fit();
    }
    page.view.moveBy(0, 0);
    page.redraw();
}

/** Buttons beside the floor. */
function buttons(page, tools) {
    const zoom = (factor) => () => {
        page.view.zoomAt(factor, page.view.width / 2, page.view.height / 2);
        page.redraw();
    };
    const acts = {
        undo: () => page.undo(), redo: () => page.redo(), nearer: zoom(1.4), farther: zoom(1 / 1.4), fit: () => page.fit(),
        new: () => page.newFloor(), example: () => example(page),
        more: () => openPanel(!find("panel").classList.contains("open")), close: () => openPanel(false),
        dice: () => { find("seed").value = Math.floor(Math.random() * 4294967296); },
    };
    Object.entries(acts).forEach(([id, act]) => find(id).addEventListener("click", act));
    find("sight").addEventListener("change", (event) => page.setSight(event.target.checked));
    find("cost").addEventListener("input", () => choices.chosen(tools.tool));
    document.querySelectorAll("#chosen button").forEach((button) => button.addEventListener("click", () => tools.choose(button.dataset.tool)));
    find("panel").addEventListener("keydown", (event) => event.key === "Escape" && openPanel(false));
    find("chosen").addEventListener("keydown", (event) => chooseByArrow(event, tools));
    document.addEventListener("keydown", (event) => pageKeys(event, tools));
}

/** Arrow keys go from tool to tool, as in any group of which one is chosen. */
function chooseByArrow(event, tools) {
    const step = { ArrowRight: 1, ArrowDown: 1, ArrowLeft: -1, ArrowUp: -1 }[event.key];
    const all = [...document.querySelectorAll("#chosen button")];
    const at = all.findIndex((button) => button.dataset.tool === tools.tool);
    if (step) {
        const next = all[(at + step + all.length) % all.length];
        tools.choose(next.dataset.tool);
        next.focus();
        event.preventDefault();
    }
}

/** The panel, where it lies over the floor. */
function openPanel(open) {
    find("panel").classList.toggle("open", open);
    find("more").setAttribute("aria-expanded", String(open));
    find(open ? "close" : "more").focus({ focusVisible: false });
}

function example(page) {
    page.takeText(find("example-text").textContent, "The example cellar.");
    page.tell("The example cellar: a leg of eight sectors.");
}

/** What is drawn at first: what was kept, else the example. */
function begin(page, panel) {
    const kept = keptDrawing();
    const fault = kept ? page.takeText(kept, "The kept drawing.") : "none";
    if (fault) {
        example(page);
    }
    page.drawing.past.length = 0;
    if (kept && fault) {
        page.tell(`The kept drawing cannot be read (${fault}); this is the example cellar.`);
    } else if (kept) {
        page.tell(`Your drawing of the last visit. ${panel.legSentence()}`);
    } else {
        page.tell("This is an example. Draw walls with Wall, tap the goal with Goal and the sectors with Leg: the arrows follow at once.");
    }
}

async function start() {
    const library = await startLibrary(Uint8Array.from(atob(find("module").textContent), (letter) => letter.charCodeAt(0)));
    const canvas = find("canvas");
    const view = new View();
    const page = new Page(library, view, new Painter(canvas, view));
    const ids = ["told", "refused", "marks", "cell", "facts", "leg", "add", "out", "sector", "zeros", "lost", "signs", "undo", "redo"];
    const panel = new Panel(page, Object.fromEntries(ids.map((id) => [id, find(id)])));
    const tools = new Tools(page, canvas, choices);
    find("about").textContent = `Hanjolum ${library.version()}. Arrows, moves and costs come from its proved program, printed as C and compiled `
        + `by ${COMPILER}; printing and compiling are tested, not proved.`;
    begin(page, panel);
    themes(page, panel);
    buttons(page, tools);
    tools.choose("look");
    new ResizeObserver(() => fitCanvas(page, canvas)).observe(canvas);
    addEventListener("pagehide", () => page.keep());
    // What is drawn from, for page/test: the layers themselves, and where a cell lies on the screen.
    globalThis.hanjolumPage = { page, middleOf: (place) => view.middle(place), middle: (column, row) => view.middle(placeAt(column, row)) };
}

start().catch((error) => {
    find("told").textContent = `The page cannot start: ${error.message}`;
});
