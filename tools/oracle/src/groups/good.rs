//! Inputs that the table takes, but for goals and window cells of cost 255, and for windows without a previous field.

use std::iter;

use super::Cases;
use crate::cases::{Ask, Case};
use crate::floors::{self, Costs, Rng, Step};
use crate::oracle::{rust_built, rust_started};
use crate::subject::*;

/// So many drawn cases.
pub(super) fn drawn(mut rng: Rng, inputs: usize, case: fn(&mut Rng) -> Case) -> impl Iterator<Item = Case> {
    iter::repeat_with(move || case(&mut rng)).take(inputs)
}

/// All pairs of cells.
fn pairs(call: Call) -> Cases {
    Box::new((0..CELLS * CELLS).map(move |pair| Case {
        cells: [FieldCell::from_index(pair / CELLS), FieldCell::from_index(pair % CELLS)],
        ..Case::of(call)
    }))
}

pub fn lines(_rng: Rng, _inputs: usize) -> Cases {
    pairs(Call::Line)
}

pub fn shallow_walks(_rng: Rng, _inputs: usize) -> Cases {
    pairs(Call::WalkShallow)
}

pub fn steep_walks(_rng: Rng, _inputs: usize) -> Cases {
    pairs(Call::WalkSteep)
}

pub fn line_ends(_rng: Rng, _inputs: usize) -> Cases {
    pairs(Call::LineEnd)
}

pub fn readers(_rng: Rng, _inputs: usize) -> Cases {
    Box::new((0..=255).map(|byte| Case { byte, ..Case::of(Call::Readers) }))
}

/// Floors to be tried with every goal and every window: each cost alone, the snakes.
fn plain_floors() -> Vec<Costs> {
    let alone = floors::COSTS.into_iter().map(floors::uniform);
    let snakes = (0..4).map(|kind| floors::snake(1, kind % 2 == 0, kind / 2 == 0));
    alone.chain(snakes).collect()
}

/// Every goal and every window on the plain floors and on every floor of one wall.
fn in_full() -> impl Iterator<Item = (Costs, Step)> {
    let steps: Vec<Step> = floors::all_goals().into_iter().chain(floors::all_windows()).collect();
    let floors = plain_floors().into_iter().chain((0..CELLS).map(floors::one_wall));
    floors.flat_map(move |costs| steps.clone().into_iter().map(move |step| (costs, step)))
}

fn init_case(costs: Costs, step: Step) -> Case {
    Case { costs: costs.to_vec(), steps: step.to_vec(), ..Case::of(Call::Init) }
}

pub fn inits(rng: Rng, inputs: usize) -> Cases {
    let full = in_full().map(|(costs, step)| init_case(costs, step));
    Box::new(full.chain(drawn(rng, inputs, |rng| {
        let (costs, step) = floors::any_with_step(rng);
        init_case(costs, step)
    })))
}

/// What the Rust starts, also where `init` refuses with 16: the field is then one given by hand.
fn started_case(costs: Costs, step: Step) -> Case {
    let field = rust_started(&costs, &step);
    Case { costs: costs.to_vec(), field, ..Case::of(Call::Build) }
}

pub fn builds_started(rng: Rng, inputs: usize) -> Cases {
    let full = in_full().map(|(costs, step)| started_case(costs, step));
    Box::new(full.chain(drawn(rng, inputs, |rng| {
        let mut case = started_case(floors::any(rng), floors::any_step(rng));
        // Positions that `init` did not leave are not read either.
        case.field.positions = floors::any_positions(&mut rng.clone());
        case
    })))
}

pub fn builds_by_hand(rng: Rng, inputs: usize) -> Cases {
    Box::new(drawn(rng, inputs, |rng| {
        let costs = floors::any(rng);
        // Now and then a started field built on other costs.
        let field = if rng.one_in(8) {
            rust_started(&floors::any(rng), &floors::any_step(rng))
        } else {
            floors::any_field(rng)
        };
        Case { costs: costs.to_vec(), field, ..Case::of(Call::Build) }
    }))
}

/// A field to make bytes from: built by the Rust for the step, started only, or any.
fn field_for_flow(rng: &mut Rng, step: &Step) -> IntegrationField {
    let costs = floors::any(rng);
    match rng.below(4) {
        0 => floors::any_field(rng),
        1 => rust_started(&costs, step),
        _ => rust_built(&costs, step),
    }
}

fn flow_case(rng: &mut Rng, step: Step, field: IntegrationField) -> Case {
    let (previous_lent, previous) = floors::any_previous(rng);
    let sheet = floors::any_sheet(rng);
    Case { steps: step.to_vec(), field, previous_lent, previous, sheet, ..Case::of(Call::FlowNew) }
}

fn any_flow_case(rng: &mut Rng) -> Case {
    let step = floors::any_step(rng);
    let field = field_for_flow(rng, &step);
    flow_case(rng, step, field)
}

pub fn flows_new(rng: Rng, inputs: usize) -> Cases {
    let mut first = rng.clone();
    // Every window with each of twenty previous fields.
    let windows = floors::all_windows().into_iter().flat_map(|step| iter::repeat_n(step, 20));
    let full = windows.map(move |step| {
        let field = rust_built(&floors::uniform(1), &step);
        flow_case(&mut first, step, field)
    });
    Box::new(full.chain(drawn(rng, inputs, any_flow_case)))
}

pub fn flows_build(rng: Rng, inputs: usize) -> Cases {
    let mut first = rng.clone();
    // Every old byte in every cell, on four fields.
    let full = (0..4 * 256).map(move |k| {
        let field = field_for_flow(&mut first, &floors::window_step(0, k / 256, 2, 7));
        Case { field, sheet: vec![(k % 256) as u8; CELLS], ..Case::of(Call::FlowBuild) }
    });
    Box::new(full.chain(drawn(rng, inputs, |rng| {
        let step = floors::any_step(rng);
        Case { field: field_for_flow(rng, &step), sheet: floors::any_sheet(rng), ..Case::of(Call::FlowBuild) }
    })))
}

pub fn flows_both(rng: Rng, inputs: usize) -> Cases {
    Box::new(drawn(rng, inputs, |rng| Case { ask: Ask::FlowBoth, ..any_flow_case(rng) }))
}

/// A sector call. Of windows one in sixteen comes without a previous field, which is 17, half of those with numbers that are
/// not lent.
fn sector_case(rng: &mut Rng, costs: Costs, step: Step) -> Case {
    let (previous_lent, previous) = match step[2] {
        1 if rng.one_in(16) => (false, if rng.one_in(2) { vec![0; CELLS] } else { Vec::new() }),
        _ => floors::previous_for(rng, &step),
    };
    Case {
        costs: costs.to_vec(),
        steps: step.to_vec(),
        previous_lent,
        previous,
        sheet: floors::any_sheet(rng),
        ..Case::of(Call::Sector)
    }
}

pub fn sectors(rng: Rng, inputs: usize) -> Cases {
    let mut first = rng.clone();
    let full = in_full().map(move |(costs, step)| sector_case(&mut first, costs, step));
    Box::new(full.chain(drawn(rng, inputs, |rng| {
        let (costs, step) = floors::any_with_step(rng);
        sector_case(rng, costs, step)
    })))
}

/// Every floor of two walls with every goal, or every n-th of them where fewer inputs are asked for.
pub fn two_walls(mut rng: Rng, inputs: usize) -> Cases {
    let walls = (0..CELLS).flat_map(|first| (0..first).map(move |second| (first, second)));
    let all = walls.flat_map(|walls| floors::all_goals().into_iter().map(move |step| (walls, step)));
    let every = (CELLS * CELLS * (CELLS - 1) / 2 / inputs.max(1)).max(1);
    Box::new(all.step_by(every).map(move |((first, second), step)| {
        let mut costs = floors::one_wall(first);
        costs[second] = 255;
        sector_case(&mut rng, costs, step)
    }))
}

/// Old bytes of a leg's sheet.
pub(super) fn leg_sheet(rng: &mut Rng) -> Vec<u8> {
    let old = rng.draw() as u8;
    (0..64 * CELLS).map(|i| old.wrapping_add(i as u8)).collect()
}

/// Walls under goals and window cells are left one time in four.
pub(super) fn leg_case(rng: &mut Rng) -> Case {
    let sheet = leg_sheet(rng);
    let most = rng.pick(&[1, 2, 3, 5, 16]);
    let (mut costs, steps) = (floors::any_whole_floor(rng), floors::any_leg(rng, most));
    if !rng.one_in(4) {
        floors::open_leg(rng, &mut costs, &steps);
    }
    Case { costs, steps, sheet, ..Case::of(Call::Leg) }
}

/// A leg holds as much as many sectors, so a twentieth of the inputs.
pub fn legs(rng: Rng, inputs: usize) -> Cases {
    Box::new(drawn(rng, inputs / 20, leg_case))
}
