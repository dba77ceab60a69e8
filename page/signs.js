// The signs of cells as drawn shapes, one definition for the floor and for the list of signs. Each differs by its shape from all
// others, so that it is read in grey as well. A tracing function adds to the canvas's path; sizes are in pixels of the canvas.

// Where the eight directions lead, in the library's order: north, east, south, west, north-east, south-east, south-west, north-west.
const SLANT = Math.SQRT1_2;
const EAST = [0, 1, 0, -1, SLANT, SLANT, -SLANT, -SLANT];
const SOUTH = [-1, 0, 1, 0, -SLANT, SLANT, SLANT, -SLANT];

/** An arrow round a middle. */
export function traceArrow(canvas, x, y, size, direction) {
    const east = EAST[direction] * size;
    const south = SOUTH[direction] * size;
    const tipX = x + east * 0.32;
    const tipY = y + south * 0.32;
    canvas.moveTo(x - east * 0.32, y - south * 0.32);
    canvas.lineTo(tipX, tipY);
    canvas.moveTo(x + east * 0.06 + south * 0.24, y + south * 0.06 - east * 0.24);
    canvas.lineTo(tipX, tipY);
    canvas.lineTo(x + east * 0.06 - south * 0.24, y + south * 0.06 + east * 0.24);
}

/** The bar across an arrow that never arrives. */
export function traceBar(canvas, x, y, size, direction) {
    const east = EAST[direction] * size;
    const south = SOUTH[direction] * size;
    canvas.moveTo(x - east * 0.08 + south * 0.2, y - south * 0.08 - east * 0.2);
    canvas.lineTo(x - east * 0.08 - south * 0.2, y - south * 0.08 + east * 0.2);
}

/** A ring: the goal is in sight. */
export function traceRing(canvas, x, y, size) {
    canvas.moveTo(x + size * 0.2, y);
    canvas.arc(x, y, size * 0.2, 0, 2 * Math.PI);
}

/** The dot inside the ring. */
export function traceDot(canvas, x, y, size) {
    canvas.moveTo(x + size * 0.07, y);
    canvas.arc(x, y, size * 0.07, 0, 2 * Math.PI);
}

/** A cross: nothing reaches the cell. */
export function traceCross(canvas, x, y, size) {
    const arm = size * 0.15;
    canvas.moveTo(x - arm, y - arm);
    canvas.lineTo(x + arm, y + arm);
    canvas.moveTo(x + arm, y - arm);
    canvas.lineTo(x - arm, y + arm);
}

/** The goal: a disc with a ring round it and its letter. */
export function drawGoal(canvas, x, y, size, colours) {
    canvas.beginPath();
    canvas.arc(x, y, size * 0.46, 0, 2 * Math.PI);
    canvas.fillStyle = colours.goal;
    canvas.fill();
    canvas.beginPath();
    canvas.arc(x, y, size * 0.37, 0, 2 * Math.PI);
    canvas.strokeStyle = colours.goalSign;
    canvas.lineWidth = Math.max(1, size * 0.05);
    canvas.stroke();
    canvas.fillStyle = colours.goalSign;
    canvas.font = `700 ${size * 0.52}px system-ui, sans-serif`;
    canvas.textAlign = "center";
    canvas.textBaseline = "middle";
    canvas.fillText("G", x, y + size * 0.03);
}

/** What walls are filled with: slanted lines. `size` is a cell's. */
export function wallPattern(canvas, size, colours) {
    const side = Math.max(4, Math.min(24, Math.round(size / 3)));
    const tile = Object.assign(document.createElement("canvas"), { width: side, height: side });
    const paint = tile.getContext("2d");
    paint.fillStyle = colours.wall;
    paint.fillRect(0, 0, side, side);
    paint.strokeStyle = colours.hatch;
    paint.lineWidth = Math.max(0.8, side / 8);
    paint.beginPath();
    for (const shift of [-side, 0, side]) {
        paint.moveTo(shift - 1, side + 1);
        paint.lineTo(shift + side + 1, -1);
    }
    paint.stroke();
    return canvas.createPattern(tile, "repeat");
}

/** The colour of a cost: 1 is the plain floor, and each doubling is as much deeper. `colours` has both ends, as red, green, blue. */
export function costColour(cost, colours) {
    if (cost === 0) {
        return colours.zero;
    }
    const depth = Math.log2(cost) / Math.log2(254);
    const mixed = colours.floorEnds[0].map((from, i) => Math.round(from + (colours.floorEnds[1][i] - from) * depth));
    return `rgb(${mixed.join(", ")})`;
}

/** The frame of a window's cell: "counts" whole, "idle" broken, and "waiting", where it is not planned, thin and dotted. */
export function frameWindow(canvas, left, top, width, height, kind, colours) {
    const line = Math.max(1.5, Math.min(width, height) * (kind === "waiting" ? 0.05 : 0.1));
    canvas.lineWidth = line;
    canvas.strokeStyle = { counts: colours.window, idle: colours.idle, waiting: colours.unreached }[kind];
    canvas.setLineDash({ counts: [], idle: [line * 1.6, line * 1.6], waiting: [line, line * 2] }[kind]);
    canvas.strokeRect(left + line / 2, top + line / 2, width - line, height - line);
    canvas.setLineDash([]);
}
