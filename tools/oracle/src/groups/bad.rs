//! Inputs of which the table refuses many: good ones with something spoiled, one thing or several.

use super::Cases;
use super::bounds::{any_window, two_floors};
use super::good::{drawn, leg_case};
use super::legs::closed_leg;
use super::tours::{any_limit, with_limit};
use super::windows;
use crate::cases::Case;
use crate::floors::{self, Costs, Rng, Step};
use crate::refusals::{Given, NO_RANGE, NO_WINDOW_THERE, ON_WALL, named_cells, number};
use crate::subject::*;

/// Coordinates on either side of the edge and far off.
const COORDINATES: [usize; 8] = [0, 3, 9, 10, 11, 255, 1 << 32, usize::MAX];

fn bad_pair(rng: &mut Rng, call: Call) -> Case {
    let cell = |rng: &mut Rng| FieldCell { column: rng.pick(&COORDINATES), row: rng.pick(&COORDINATES) };
    let mut cells = [cell(rng), FieldCell::from_index(rng.below(CELLS))];
    if rng.one_in(2) {
        cells.swap(0, 1);
    }
    Case { cells, ..Case::of(call) }
}

pub fn lines(rng: Rng, inputs: usize) -> Cases {
    Box::new(drawn(rng, inputs / 10, |rng| bad_pair(rng, Call::Line)))
}

pub fn shallow_walks(rng: Rng, inputs: usize) -> Cases {
    Box::new(drawn(rng, inputs / 10, |rng| bad_pair(rng, Call::WalkShallow)))
}

pub fn steep_walks(rng: Rng, inputs: usize) -> Cases {
    Box::new(drawn(rng, inputs / 10, |rng| bad_pair(rng, Call::WalkSteep)))
}

pub fn line_ends(rng: Rng, inputs: usize) -> Cases {
    Box::new(drawn(rng, inputs / 10, |rng| bad_pair(rng, Call::LineEnd)))
}

/// One length in `often` made another.
fn spoil_length<T: Clone + Default>(rng: &mut Rng, values: &mut Vec<T>, often: usize) {
    if rng.one_in(often) {
        let length = match rng.below(4) {
            0 => values.len() + 1,
            1 => values.len().saturating_sub(1),
            2 => 0,
            _ => rng.below(2 * values.len() + 2),
        };
        values.resize(length, T::default());
    }
}

/// A byte of a step made another, near the limits or any.
fn spoil_step(rng: &mut Rng, step: &mut [u8]) {
    if step.is_empty() {
        return;
    }
    let at = rng.below(step.len());
    let near = match at % 8 {
        0 => [63, 64, 255, 0],
        1 => [99, 100, 255, 0],
        2 => [0, 1, 2, 255],
        3 | 4 => [99, 100, 9, 90],
        5 => [3, 4, 0, 1],
        _ => [0, 1, 128, 255],
    };
    step[at] = if rng.one_in(3) { rng.draw() as u8 } else { rng.pick(&near) };
}

fn bad_step(rng: &mut Rng, step: Step) -> Vec<u8> {
    let mut step = step.to_vec();
    for _ in 0..rng.below(3) {
        spoil_step(rng, &mut step);
    }
    if step[2] == 1 && rng.one_in(8) {
        step.swap(3, 4);
    }
    spoil_length(rng, &mut step, 12);
    step
}

fn bad_costs(rng: &mut Rng, costs: Costs) -> Vec<u8> {
    let mut costs = costs.to_vec();
    spoil_length(rng, &mut costs, 12);
    costs
}

/// Costs and a step, each perhaps spoiled.
fn bad_input(rng: &mut Rng) -> (Vec<u8>, Vec<u8>) {
    let (costs, step) = floors::any_with_step(rng);
    (bad_costs(rng, costs), bad_step(rng, step))
}

fn bad_sheet(rng: &mut Rng) -> Vec<u8> {
    let mut sheet = floors::any_sheet(rng);
    spoil_length(rng, &mut sheet, 12);
    sheet
}

/// A previous field, lent or not, of any length.
fn bad_previous(rng: &mut Rng) -> (bool, Vec<u32>) {
    let (lent, mut numbers) = floors::any_previous(rng);
    spoil_length(rng, &mut numbers, 3);
    (if rng.one_in(6) { !lent } else { lent }, numbers)
}

pub fn inits(rng: Rng, inputs: usize) -> Cases {
    Box::new(drawn(rng, inputs, |rng| {
        let (costs, steps) = bad_input(rng);
        Case { costs, steps, ..Case::of(Call::Init) }
    }))
}

pub fn builds(rng: Rng, inputs: usize) -> Cases {
    Box::new(drawn(rng, inputs, |rng| {
        let mut field = floors::any_field(rng);
        if rng.one_in(3) {
            field.count = rng.pick(&[99, 100, 101, 102, 1 << 32, usize::MAX]);
        }
        if rng.one_in(3) {
            field.los_corners[rng.below(CELLS)] = rng.pick(&[99, 100, 101, 1 << 32, usize::MAX]);
        }
        let costs = floors::any(rng);
        Case { costs: bad_costs(rng, costs), field, ..Case::of(Call::Build) }
    }))
}

pub fn flows_new(rng: Rng, inputs: usize) -> Cases {
    Box::new(drawn(rng, inputs, |rng| {
        let (previous_lent, previous) = bad_previous(rng);
        let step = floors::any_step(rng);
        let (steps, field, sheet) = (bad_step(rng, step), floors::any_field(rng), bad_sheet(rng));
        Case { steps, field, previous_lent, previous, sheet, ..Case::of(Call::FlowNew) }
    }))
}

pub fn flows_build(rng: Rng, inputs: usize) -> Cases {
    Box::new(drawn(rng, inputs / 4, |rng| Case {
        field: floors::any_field(rng),
        sheet: bad_sheet(rng),
        ..Case::of(Call::FlowBuild)
    }))
}

pub fn sectors(rng: Rng, inputs: usize) -> Cases {
    Box::new(drawn(rng, inputs, |rng| {
        let (previous_lent, previous) = bad_previous(rng);
        let ((costs, steps), sheet) = (bad_input(rng), bad_sheet(rng));
        Case { costs, steps, previous_lent, previous, sheet, ..Case::of(Call::Sector) }
    }))
}

/// A leg with steps spoiled, repeated, swapped, marked otherwise, or too many; now and then one with a window in which no
/// cell counts besides.
pub(super) fn bad_leg(rng: &mut Rng) -> Case {
    let mut case = if rng.one_in(3) { closed_leg(rng, 3, 2) } else { leg_case(rng) };
    for _ in 0..rng.below(3) {
        spoil_step(rng, &mut case.steps);
    }
    match rng.below(8) {
        0 => case.steps = floors::any_leg(rng, 1).into_iter().cycle().take(8 * rng.pick(&[2, 16, 17, 32])).collect(),
        1 => case.steps.extend(floors::any_step(rng)),
        2 => case.steps.rotate_left(8),
        3 => case.steps = wrapping_leg(rng),
        4 => case.steps = floors::straight_leg(rng.pick(&[15, 16, 17])),
        _ => {}
    }
    spoil_length(rng, &mut case.steps, 12);
    spoil_length(rng, &mut case.costs, 12);
    spoil_length(rng, &mut case.sheet, 12);
    case
}

/// Two sectors whose numbers follow one another but whose rows do not.
fn wrapping_leg(rng: &mut Rng) -> Vec<u8> {
    let edge = 8 * (1 + rng.below(7));
    let (before, sector, boundary) = if rng.one_in(2) { (edge - 1, edge, 3) } else { (edge, edge - 1, 1) };
    let mut steps = floors::goal_step(before, 44).to_vec();
    steps.extend(floors::window_step(sector, boundary, 2, 5));
    steps
}

pub fn legs(rng: Rng, inputs: usize) -> Cases {
    Box::new(drawn(rng, inputs / 10, bad_leg))
}

/// Costs of a cell made no from-to, or a wall on one floor or on both: an end of the sector or of the window, or any cell.
fn spoil_range(rng: &mut Rng, case: &mut Case) {
    let named = named_cells(&case.steps);
    let any = rng.below(CELLS);
    let cell = rng.pick(&[0, CELLS - 1, any, any, any, named[0], named[named.len() - 1]]);
    let (low, high) = (&mut case.costs[cell], &mut case.high[cell]);
    match rng.below(6) {
        0 => *low = 255,
        1 => *high = 255,
        2 => (*low, *high) = (255, 255),
        3 => *high = low.saturating_sub(1),
        4 => (*low, *high) = (*high, *low),
        _ => *low = high.saturating_add(1),
    }
}

/// Two floors and a step with costs, bytes and lengths spoiled; one step in four has a goal.
fn bad_floors(rng: &mut Rng) -> Case {
    let step = if rng.one_in(4) { floors::any_step(rng) } else { any_window(rng) };
    let mut case = two_floors(rng, step);
    for _ in 0..rng.below(3) {
        spoil_range(rng, &mut case);
    }
    if rng.one_in(2) {
        case.steps = bad_step(rng, step);
    }
    spoil_length(rng, &mut case.costs, 20);
    spoil_length(rng, &mut case.high, 20);
    case
}

/// Such floors of a length that a record has room for, refused for what they cost.
pub fn refused_floors(rng: &mut Rng) -> Case {
    loop {
        let case = bad_floors(rng);
        let given =
            Given { costs: Some(&case.costs), high: Some(&case.high), steps: Some(&case.steps), ..Given::default() };
        if [ON_WALL, NO_RANGE].contains(&number(&given)) {
            return case;
        }
    }
}

pub fn bounds(rng: Rng, inputs: usize) -> Cases {
    Box::new(drawn(rng, inputs / 5, bad_floors))
}

/// A list of windows with a step made a goal or put into another sector, with a wall under a window cell, with bytes and
/// lengths spoiled; of any number of steps up to 17.
fn bad_windows(rng: &mut Rng) -> Case {
    let count = rng.pick(&[2, 2, 3, 3, 4, 5, 6, 7, 8, 8, 0, 1, 9, 10, 16, 17]);
    let (costs, mut steps) = (floors::any(rng), windows::windows(rng, count));
    let mut case = windows::on_floor(rng, costs, &steps);
    for _ in 0..rng.below(3) {
        spoil_window(rng, &mut case.costs, &mut steps);
    }
    case.steps = steps.concat();
    for _ in 0..rng.below(4) / 2 {
        spoil_step(rng, &mut case.steps);
    }
    spoil_length(rng, &mut case.costs, 20);
    spoil_length(rng, &mut case.steps, 20);
    case
}

/// One of the steps with a goal, on a wall or not; in another sector; turned about; or with a wall under a cell of it.
fn spoil_window(rng: &mut Rng, costs: &mut [u8], steps: &mut [Step]) {
    if steps.is_empty() {
        return;
    }
    let at = rng.below(steps.len());
    let step = &mut steps[at];
    let named = named_cells(step);
    let wall = if named.is_empty() { usize::from(step[3]) } else { rng.pick(&named) };
    match rng.below(5) {
        0 => (step[1], step[2]) = (rng.below(CELLS) as u8, 0),
        1 => step[0] = rng.below(64) as u8,
        2 => step.swap(3, 4),
        3 => costs[wall] = 255,
        _ => {
            (step[1], step[2]) = (wall as u8, 0);
            costs[wall] = 255;
        }
    }
}

/// Such a list of a length that a record has room for, refused for its walls or for a step without window or elsewhere.
pub fn refused_windows(rng: &mut Rng) -> Case {
    loop {
        let case = bad_windows(rng);
        let given = Given { windows: true, costs: Some(&case.costs), steps: Some(&case.steps), ..Given::default() };
        if [ON_WALL, NO_WINDOW_THERE].contains(&number(&given)) {
            return case;
        }
    }
}

pub fn windows(rng: Rng, inputs: usize) -> Cases {
    Box::new(drawn(rng, inputs, bad_windows))
}

/// Such a list, taken or not, asked for a tour.
fn bad_tour(rng: &mut Rng) -> Case {
    let (case, all) = (bad_windows(rng), rng.pick(&[1, 24, 5040]));
    let limit = any_limit(rng, all);
    with_limit(case, limit)
}

/// The same where it is refused for its walls or for a step without window or elsewhere.
pub fn refused_tour(rng: &mut Rng) -> Case {
    let (case, limit) = (refused_windows(rng), any_limit(rng, 24));
    with_limit(case, limit)
}

pub fn tours(rng: Rng, inputs: usize) -> Cases {
    Box::new(drawn(rng, inputs, bad_tour))
}

/// A sheet of any length, near the right one or not.
fn bad_arrivals(rng: &mut Rng) -> Case {
    let sheet = if rng.one_in(2) { bad_sheet(rng) } else { floors::any_sheet(rng) };
    Case { sheet, ..Case::of(Call::Arrivals) }
}

pub fn arrivals(rng: Rng, inputs: usize) -> Cases {
    Box::new(drawn(rng, inputs, bad_arrivals))
}
