//! Fields whose positions are looked for (02, Job 10): what is drawn for them, and what such inputs have to meet.

use super::good::drawn;
use super::{Cases, Met};
use crate::cases::Case;
use crate::floors::{self, Costs, Rng, Step};
use crate::model::{Model, Slip};
use crate::oracle::{rust_built, rust_started};
use crate::subject::*;

/// The flags of cells that hold no position.
const UNPOSITIONED: [u32; 3] = [IMPASSABLE, LOS, GOAL];

fn case(costs: Costs, field: IntegrationField) -> Case {
    Case { costs: costs.to_vec(), field, ..Case::of(Call::Build) }
}

/// A field that the Rust starts, with any positions.
fn started(rng: &mut Rng, costs: Costs, step: Step) -> Case {
    case(costs, rust_started(&costs, &step).with_positions(floors::any_positions(rng)))
}

/// Costs of which sums are often equal, few walls among them.
fn alike(rng: &mut Rng) -> Costs {
    let (percent, costs) = (rng.below(30), rng.pick(&[&[1][..], &[1, 2], &[1, 2, 3], &[0, 1], &[2, 3, 5]]));
    floors::walls(rng, percent, costs)
}

/// A cell of a field given by hand through which walks go far: mostly 65535, now and then a value that some walks arrive
/// below, a wall, a cell in sight or a goal.
fn far_value(rng: &mut Rng) -> u32 {
    let low = rng.pick(&[65535, 65535, 65535, 65535, 1, 5, 8, 12]);
    let flag = match rng.below(12) {
        0 => rng.pick(&UNPOSITIONED),
        1 => GOAL,
        2 => rng.pick(&[BLOCKED, PORTAL, CORNER, BLOCKED | CORNER]),
        _ => 0,
    };
    flag | low
}

/// Such a field: corners at small values or left as they are, each any cell, one that is listed already, or one that holds no
/// position.
fn far_field(rng: &mut Rng) -> IntegrationField {
    let mut cells = std::array::from_fn(|_| far_value(rng));
    let flagged: Vec<usize> =
        (0..CELLS).filter(|cell| UNPOSITIONED.iter().any(|flag| cells[*cell] & flag != 0)).collect();
    let mut corners: Vec<usize> = Vec::new();
    for _ in 0..rng.pick(&[1, 2, 3, 5, 10, 30, 100]) {
        let corner = match rng.below(8) {
            0 if !corners.is_empty() => rng.pick(&corners),
            1 | 2 if !flagged.is_empty() => rng.pick(&flagged),
            _ => rng.below(CELLS),
        };
        if !rng.one_in(6) {
            cells[corner] = (cells[corner] & 0xffff_0000) | rng.below(6) as u32;
        }
        corners.push(corner);
    }
    IntegrationField::new(cells, &corners).with_positions(floors::any_positions(rng))
}

/// Windows and goals on floors of equal sums, fields given by hand, now and then a field that is built already.
fn any_positioned(rng: &mut Rng) -> Case {
    let (costs, other, step) = (alike(rng), floors::any(rng), floors::any_step(rng));
    match rng.below(8) {
        0 | 1 => started(rng, costs, step),
        2 => started(rng, other, step),
        3 => case(costs, rust_built(&alike(rng), &step).with_positions(floors::any_positions(rng))),
        _ => case(costs, far_field(rng)),
    }
}

/// The floor on which carrying is wrong, all windows on an open floor, then a quarter of the inputs.
pub fn builds(rng: Rng, inputs: usize) -> Cases {
    let mut first = rng.clone();
    let (costs, step) = floors::two_ways();
    let windows = floors::all_windows().into_iter().map(|step| (floors::uniform(1), step));
    let full = [(costs, step)].into_iter().chain(windows).map(move |(costs, step)| started(&mut first, costs, step));
    Box::new(full.chain(drawn(rng, inputs / 4, any_positioned)))
}

/// A field that meets a kind.
pub fn field_that_meets(rng: &mut Rng, kind: Met) -> (Costs, IntegrationField) {
    loop {
        let case = any_positioned(rng);
        if met(&case).contains(&kind) {
            return (case.costs.try_into().expect("a hundred costs"), case.field);
        }
    }
}

/// The kinds of cells and corners.
pub fn position_kinds() -> [Met; 12] {
    [
        Met::EqualWalks,
        Met::CarriedOtherwise,
        Met::FarPosition,
        Met::LoweredCorner,
        Met::RepeatedCorner,
        Met::UnreachedCorner,
        Met::FromWall,
        Met::FromSight,
        Met::FromGoal,
        Met::PastGoal,
        Met::ArrivesAtValue,
        Met::NoWalk,
    ]
}

/// What a field meets that `build` takes.
pub(super) fn met(case: &Case) -> Vec<Met> {
    let (costs, before) = (&case.costs, &case.field);
    let built = Model::PLAIN.build(costs, *before).field;
    let by = |slip: Slip| Model { slip }.positions(costs, before, &built.field);
    let other = |slip: Slip| by(slip) != built.positions;
    let low = |value: u32| value & 0xffff;
    let lowered = |cell: usize| low(built.field[cell]) < low(before.field[cell]);
    let had = |cell: usize, flag: u32| before.field[cell] & flag != 0;
    let corner_of = |position: u8| before.corners().get(usize::from(position)).copied();
    let latest = by(Slip::PositionLatest);
    let equal = |cell: usize| corner_of(built.positions[cell]) != corner_of(latest[cell]);
    let from = |flag: u32| built.positions.iter().any(|place| corner_of(*place).is_some_and(|cell| had(cell, flag)));
    let stays =
        |cell: usize| before.corners().contains(&cell) && built.positions[cell] != NO_POSITION && !lowered(cell);
    let twice = |cell: usize| before.corners().iter().filter(|corner| **corner == cell).count() > 1;
    let unset = |cell: usize| built.positions[cell] == NO_POSITION && !UNPOSITIONED.iter().any(|flag| had(cell, *flag));
    let kinds = [
        (Met::EqualWalks, (0..CELLS).any(equal)),
        (Met::CarriedOtherwise, other(Slip::PositionsCarried)),
        (Met::FarPosition, built.positions.iter().any(|place| (10..NO_POSITION).contains(place))),
        (Met::LoweredCorner, before.corners().iter().any(|corner| lowered(*corner))),
        (Met::RepeatedCorner, (0..CELLS).any(|cell| stays(cell) && twice(cell))),
        (Met::UnreachedCorner, (0..CELLS).any(|cell| stays(cell) && low(before.field[cell]) == 65535)),
        (Met::FromWall, from(IMPASSABLE)),
        (Met::FromSight, from(LOS)),
        (Met::FromGoal, from(GOAL)),
        (Met::PastGoal, other(Slip::PositionNotPastGoal)),
        (Met::ArrivesAtValue, other(Slip::PositionAtEqual)),
        (Met::NoWalk, (0..CELLS).any(unset)),
    ];
    kinds.into_iter().filter(|(_, holds)| *holds).map(|(kind, _)| kind).collect()
}
