//! Inputs: floors of every kind, steps, fields given by hand, previous fields.

use crate::oracle::rust_built;
use crate::refusals::{across, named_cells};
use crate::subject::*;

/// Numbers from a seed (xorshift64*).
#[derive(Clone)]
pub struct Rng(u64);

impl Rng {
    pub fn new(seed: u64) -> Self {
        Rng(seed.wrapping_mul(0x9E37_79B9_7F4A_7C15) | 1)
    }

    pub fn draw(&mut self) -> u64 {
        self.0 ^= self.0 >> 12;
        self.0 ^= self.0 << 25;
        self.0 ^= self.0 >> 27;
        self.0.wrapping_mul(0x2545_F491_4F6C_DD1D)
    }

    pub fn below(&mut self, bound: usize) -> usize {
        ((self.draw() >> 32) as usize) % bound
    }

    pub fn one_in(&mut self, n: usize) -> bool {
        self.below(n) == 0
    }

    pub fn pick<T: Copy>(&mut self, among: &[T]) -> T {
        among[self.below(among.len())]
    }
}

pub type Costs = [u8; CELLS];

/// The costs that a floor is drawn with.
pub const COSTS: [u8; 7] = [0, 1, 2, 10, 200, 254, 255];

/// All of one cost.
pub fn uniform(cost: u8) -> Costs {
    [cost; CELLS]
}

pub fn one_wall(cell: usize) -> Costs {
    let mut costs = uniform(1);
    costs[cell] = 255;
    costs
}

/// Walls on so many of a hundred cells, the others drawn from `others`.
pub fn walls(rng: &mut Rng, percent: usize, others: &[u8]) -> Costs {
    std::array::from_fn(|_| if rng.below(100) < percent { 255 } else { rng.pick(others) })
}

/// Racks: straight blocks of walls with aisles between them, now and then a gap.
pub fn racks(rng: &mut Rng) -> Costs {
    let (pitch, start, upright) = (2 + rng.below(3), rng.below(3), rng.one_in(2));
    let gaps = rng.below(4);
    let mut costs = uniform(1);
    for (index, cost) in costs.iter_mut().enumerate() {
        let (along, over) = if upright { (index / 10, index % 10) } else { (index % 10, index / 10) };
        let rack = over >= start && (over - start).is_multiple_of(pitch) && (1..9).contains(&along);
        if rack && rng.below(10) >= gaps {
            *cost = 255;
        }
    }
    costs
}

/// A snake: rows of walls, open at alternate ends, perhaps mirrored or upright.
pub fn snake(cost: u8, mirrored: bool, upright: bool) -> Costs {
    std::array::from_fn(|index| {
        let (along, over) = if upright { (index / 10, index % 10) } else { (index % 10, index / 10) };
        let open = if (over / 2).is_multiple_of(2) == mirrored { 0 } else { 9 };
        if over % 2 == 1 && along != open { 255 } else { cost }
    })
}

/// Rooms: walls around a block of cells, with or without a door.
pub fn rooms(rng: &mut Rng) -> Costs {
    let mut costs = uniform(rng.pick(&[1, 1, 2, 10]));
    for _ in 0..1 + rng.below(2) {
        let (left, top) = (rng.below(7), rng.below(7));
        let (right, bottom) = (left + 2 + rng.below(8 - left), top + 2 + rng.below(8 - top));
        let door = rng.below(16);
        let mut placed = 0;
        for (index, cost) in costs.iter_mut().enumerate() {
            let (column, row) = (index % 10, index / 10);
            let within = (left..=right).contains(&column) && (top..=bottom).contains(&row);
            let ring = column == left || column == right || row == top || row == bottom;
            if within && ring {
                placed += 1;
                *cost = if placed == door { 1 } else { 255 };
            }
        }
    }
    costs
}

/// A few walls on an open floor: line stops and corners meet here.
pub fn few_walls(rng: &mut Rng) -> Costs {
    let mut costs = uniform(1);
    for _ in 0..1 + rng.below(6) {
        costs[rng.below(CELLS)] = 255;
    }
    costs
}

/// Walls around a corner of the sector, so that what they close off is floor and is not reached.
fn close_corner(rng: &mut Rng, costs: &mut Costs) {
    let (columns, rows) = (1 + rng.below(5), 1 + rng.below(5));
    let (mirrored, upturned) = (rng.one_in(2), rng.one_in(2));
    for (index, cost) in costs.iter_mut().enumerate() {
        let column = if mirrored { 9 - index % 10 } else { index % 10 };
        let row = if upturned { 9 - index / 10 } else { index / 10 };
        if (column == columns && row <= rows) || (row == rows && column <= columns) {
            *cost = 255;
        }
    }
}

/// Walls on at most so many of a hundred cells, perhaps a corner closed off, perhaps walls along an edge.
pub fn with_closed_parts(rng: &mut Rng, most: usize) -> Costs {
    let percent = rng.below(most + 1);
    let others = rng.pick(&[&[1][..], &[1, 2, 10], &[1, 254], &COSTS[..6]]);
    let mut costs = walls(rng, percent, others);
    if rng.one_in(3) {
        close_corner(rng, &mut costs);
    }
    if rng.one_in(3) {
        let (boundary, a, b) = (rng.below(4), rng.below(10), rng.below(10));
        (a.min(b)..=a.max(b)).for_each(|along| costs[edge_cell(boundary, along)] = 255);
    }
    costs
}

/// A floor of any kind.
pub fn any(rng: &mut Rng) -> Costs {
    let percent = rng.below(71);
    match rng.below(10) {
        0 => uniform(rng.pick(&COSTS)),
        1 => few_walls(rng),
        2 | 3 => walls(rng, percent, &[1]),
        4 => walls(rng, percent, &COSTS),
        5 => walls(rng, percent, &[0, 1, 2]),
        6 => racks(rng),
        7 => rooms(rng),
        8 => {
            let mut costs = snake(rng.pick(&COSTS[..6]), rng.one_in(2), rng.one_in(2));
            if rng.one_in(2) {
                costs[rng.below(CELLS)] = rng.pick(&COSTS);
            }
            costs
        }
        _ => std::array::from_fn(|_| rng.below(256) as u8),
    }
}

pub type Step = [u8; 8];

pub fn goal_step(sector: usize, goal: usize) -> Step {
    [sector as u8, goal as u8, 0, 0, 0, 0, 0, 0]
}

/// The cell of an edge at a place along it.
pub fn edge_cell(boundary: usize, along: usize) -> usize {
    match boundary {
        0 => along,
        1 => along * 10 + 9,
        2 => 90 + along,
        _ => along * 10,
    }
}

/// A window on a boundary, from one place along the edge to another.
pub fn window_step(sector: usize, boundary: usize, first: usize, last: usize) -> Step {
    let cell = |along: usize| edge_cell(boundary, along) as u8;
    [sector as u8, 0, 1, cell(first), cell(last), boundary as u8, 0, 0]
}

/// All 220 windows.
pub fn all_windows() -> Vec<Step> {
    let ends = (0..10).flat_map(|first| (first..10).map(move |last| (first, last)));
    let ends: Vec<(usize, usize)> = ends.collect();
    (0..4).flat_map(|side| ends.iter().map(move |(first, last)| window_step(0, side, *first, *last))).collect()
}

pub fn all_goals() -> Vec<Step> {
    (0..CELLS).map(|goal| goal_step(0, goal)).collect()
}

pub fn any_window(rng: &mut Rng, sector: usize, boundary: usize) -> Step {
    let (a, b) = (rng.below(10), rng.below(10));
    window_step(sector, boundary, a.min(b), a.max(b))
}

/// A goal or a window; what is not read is drawn too.
pub fn any_step(rng: &mut Rng) -> Step {
    let (sector, side) = (rng.below(64), rng.below(4));
    let mut step = if rng.one_in(2) { goal_step(sector, rng.below(CELLS)) } else { any_window(rng, sector, side) };
    if rng.one_in(4) {
        let unread: &[usize] = if step[2] == 0 { &[3, 4, 5] } else { &[1] };
        unread.iter().for_each(|i| step[*i] = rng.draw() as u8);
    }
    step
}

/// Walls under the goal or the window cells of a good step made floor: 16 is not due then.
pub fn open(rng: &mut Rng, costs: &mut [u8], step: &[u8]) {
    for cell in named_cells(step) {
        if costs[cell] == 255 {
            costs[cell] = rng.pick(&[1, 1, 2, 10, 254]);
        }
    }
}

/// A floor and a step of any kind that the table takes.
pub fn any_open(rng: &mut Rng) -> (Costs, Step) {
    let (mut costs, step) = (any(rng), any_step(rng));
    open(rng, &mut costs, &step);
    (costs, step)
}

/// The same, where a wall under the goal or a window cell is left one time in four.
pub fn any_with_step(rng: &mut Rng) -> (Costs, Step) {
    if rng.one_in(4) { (any(rng), any_step(rng)) } else { any_open(rng) }
}

/// Walls under the goals and window cells of good steps made floor, each in its own sector of a whole floor.
pub fn open_leg(rng: &mut Rng, floor: &mut [u8], steps: &[u8]) {
    for step in steps.chunks(8) {
        let at = usize::from(step[0]) * CELLS;
        open(rng, &mut floor[at..at + CELLS], step);
    }
}

/// A sector beside the last of these that is none of them, and the boundary by which it is left for that one.
fn next_sector(rng: &mut Rng, sectors: &[usize]) -> Option<(usize, usize)> {
    let before = *sectors.last().expect("a leg has a first step");
    let sides: Vec<(usize, usize)> = (0..4)
        .filter_map(|toward| across(before as u8, toward as u8).map(|sector| (usize::from(sector), (toward + 2) % 4)))
        .filter(|(sector, _)| !sectors.contains(sector))
        .collect();
    if sides.is_empty() { None } else { Some(rng.pick(&sides)) }
}

/// A leg that the table takes, of at most `most` steps.
pub fn any_leg(rng: &mut Rng, most: usize) -> Vec<u8> {
    let mut sectors = vec![rng.below(64)];
    let mut steps = goal_step(sectors[0], rng.below(CELLS)).to_vec();
    for _ in 1..1 + rng.below(most) {
        let Some((sector, boundary)) = next_sector(rng, &sectors) else { break };
        steps.extend(any_window(rng, sector, boundary));
        sectors.push(sector);
    }
    steps
}

/// A window of a leg: one time in three the whole edge, one in four one cell.
pub fn drawn_window(rng: &mut Rng, sector: usize, boundary: usize) -> Step {
    let along = rng.below(10);
    match rng.below(12) {
        0..4 => window_step(sector, boundary, 0, 9),
        4..7 => window_step(sector, boundary, along, along),
        _ => any_window(rng, sector, boundary),
    }
}

/// A leg that the table takes, of exactly so many steps.
pub fn leg_of(rng: &mut Rng, steps: usize) -> Vec<u8> {
    loop {
        let mut sectors = vec![rng.below(64)];
        let mut leg = goal_step(sectors[0], rng.below(CELLS)).to_vec();
        while sectors.len() < steps {
            let Some((sector, boundary)) = next_sector(rng, &sectors) else { break };
            leg.extend(drawn_window(rng, sector, boundary));
            sectors.push(sector);
        }
        if sectors.len() == steps {
            return leg;
        }
    }
}

/// A leg of so many steps, along row 0 and back along row 1; a step more goes on in row 2.
pub fn straight_leg(steps: usize) -> Vec<u8> {
    let sector = |k: usize| if (k / 8).is_multiple_of(2) { k } else { k / 8 * 8 + 7 - k % 8 };
    let mut leg = goal_step(0, 0).to_vec();
    for k in 1..steps {
        let (before, now) = (sector(k - 1), sector(k));
        let boundary = match now as i32 - before as i32 {
            1 => 3,
            -1 => 1,
            _ => 0,
        };
        leg.extend(window_step(now, boundary, 0, 9));
    }
    leg
}

/// A floor and a leg from sector 1, by its whole west edge, to cell 44 of sector 0. Sector 0 is open but for its east edge,
/// where only rows 3 and 9 are floor.
pub fn leg_with_a_gap() -> (Vec<u8>, Vec<u8>) {
    let mut floor = vec![1; 64 * CELLS];
    (0..10).filter(|row| ![3, 9].contains(row)).for_each(|row| floor[edge_cell(1, row)] = 255);
    (floor, [goal_step(0, 44), window_step(1, 3, 0, 9)].concat())
}

/// A floor and a leg from sector 1, by its whole west edge, to cell 40 of sector 0, at the west end of a row whose other cells
/// cost 100. In sight of the goal cell 49 is the nearest of the east edge; on foot it costs 110, and 39 and 59 cost 10.
pub fn leg_past_a_dear_row() -> (Vec<u8>, Vec<u8>) {
    let mut floor = vec![1; 64 * CELLS];
    floor[41..50].fill(100);
    (floor, [goal_step(0, 40), window_step(1, 3, 0, 9)].concat())
}

/// Two rows of three cells, the goal at 0, and cell 99 that nothing reaches. Cell 1 costs 200, so that 2 is cheapest by 10, 11
/// and 12: four moves, where two would do. The goal's own cost, 9, is paid by none.
pub fn round_a_dear_cell() -> (Costs, Step) {
    let mut costs = uniform(255);
    let floor = [(0, 9), (1, 200), (2, 1), (10, 1), (11, 1), (12, 1), (99, 1)];
    floor.into_iter().for_each(|(cell, cost): (usize, u8)| costs[cell] = cost);
    (costs, goal_step(0, 0))
}

/// A floor and a step to a window of two cells, 93 and 94, on which the waves come to cell 64 first from 94, and one wave
/// later from 93, at the same cost. So cells 64 and 65 are walked to from both, and 93 is listed first.
pub fn two_ways() -> (Costs, Step) {
    let mut costs = uniform(255);
    let floor = [(93, 1), (94, 1), (83, 1), (84, 3), (73, 3), (74, 3), (63, 2), (64, 2), (65, 2)];
    floor.into_iter().for_each(|(cell, cost): (usize, u8)| costs[cell] = cost);
    (costs, window_step(0, 2, 3, 4))
}

/// A floor of 64 sectors.
pub fn any_whole_floor(rng: &mut Rng) -> Vec<u8> {
    (0..64).flat_map(|_| any(rng)).collect()
}

const FLAGS: [u32; 6] = [LOS, GOAL, BLOCKED, PORTAL, IMPASSABLE, CORNER];

/// A cell value of a field given by hand.
fn any_value(rng: &mut Rng, flagged: usize, lows: usize) -> u32 {
    let low = match lows {
        0 => rng.below(65536),
        1 => rng.pick(&[0, 1, 2, 3, 4, 5]),
        2 => 65535 - rng.below(300),
        3 if rng.one_in(3) => rng.below(200),
        3 => 65535,
        _ => rng.pick(&[0, 65535, 65534, 65280, 7, 300]),
    } as u32;
    if rng.below(100) >= flagged {
        return low;
    }
    let flags = if rng.one_in(8) { rng.draw() as u32 & 0xFFFF_0000 } else { FLAGS[rng.below(6)] };
    flags | if rng.one_in(3) { FLAGS[rng.below(6)] } else { 0 } | low
}

/// A field given by hand: any flags, any low bits, any list, repeats, walls and sight cells listed.
pub fn any_field(rng: &mut Rng) -> IntegrationField {
    let (flagged, lows) = (rng.pick(&[0, 10, 30, 60, 100]), rng.below(5));
    let mut field = IntegrationField::ZERO;
    field.field = std::array::from_fn(|_| any_value(rng, flagged, lows));
    field.count = rng.pick(&[0, 1, 2, 5, 20, 99, 100]);
    let span = rng.pick(&[3, 20, 100, 100]);
    for corner in &mut field.los_corners[..field.count] {
        *corner = rng.below(span);
    }
    if field.count < CELLS && rng.one_in(3) {
        // Places beyond the count hold anything; they are not listed.
        let beyond = [0, 1, 99, 100, 1 << 40];
        field.los_corners[field.count..].iter_mut().for_each(|place| *place = rng.pick(&beyond));
    }
    // Drawn aside, so that what is drawn after a field is what it was.
    field.with_positions(any_positions(&mut rng.clone()))
}

/// Positions of a field that is given, which no call reads.
pub fn any_positions(rng: &mut Rng) -> [u8; CELLS] {
    match rng.below(4) {
        0 => [0; CELLS],
        1 => [NO_POSITION; CELLS],
        2 => std::array::from_fn(|_| rng.below(CELLS) as u8),
        _ => std::array::from_fn(|_| rng.draw() as u8),
    }
}

/// Old bytes of a sheet.
pub fn any_sheet(rng: &mut Rng) -> Vec<u8> {
    match rng.below(3) {
        0 => vec![0; CELLS],
        1 => vec![rng.draw() as u8; CELLS],
        _ => (0..CELLS).map(|_| rng.draw() as u8).collect(),
    }
}

/// A previous field, or none.
pub fn any_previous(rng: &mut Rng) -> (bool, Vec<u32>) {
    if rng.one_in(6) { (false, Vec::new()) } else { (true, lent_previous(rng)) }
}

/// What the sector call wants beside a step: a previous field with a window, perhaps none with a goal.
pub fn previous_for(rng: &mut Rng, step: &[u8]) -> (bool, Vec<u32>) {
    if step[2] == 1 { (true, lent_previous(rng)) } else { any_previous(rng) }
}

/// A previous field: constant, of few values, any, or one that the Rust built.
fn lent_previous(rng: &mut Rng) -> Vec<u32> {
    let drawn: [u32; CELLS] = match rng.below(5) {
        0 => [rng.pick(&[0, 7, 65535]); CELLS],
        1 => std::array::from_fn(|_| rng.below(3) as u32),
        2 => std::array::from_fn(|_| rng.below(3) as u32 | rng.pick(&[0, LOS, CORNER, 0xFFFF_0000])),
        3 => std::array::from_fn(|_| rng.draw() as u32),
        _ => {
            let (costs, step) = (any(rng), any_step(rng));
            rust_built(&costs, &step).field
        }
    };
    drawn.to_vec()
}
