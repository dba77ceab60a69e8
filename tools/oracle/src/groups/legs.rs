//! Legs whose windows face cells that were not reached (02, Job 2), legs with walls under goals and windows (02, Job 3), and
//! what such legs have to meet.

use std::fmt;

use super::Cases;
use super::carts::Cart;
use super::good::{drawn, leg_sheet};
use super::leg_fields::Field;
use crate::cases::Case;
use crate::floors::{self, Rng, edge_cell};
use crate::model::{CLOSED, Model, Plan, PlannedStep};
use crate::refusals::{Given, ON_WALL, Table, each, first, named_cells};
use crate::subject::*;

/// What an input meets: a leg, but for the practice floors, the two floors, the fields with positions and the
/// windows at the end. All before `OneCellClosed` are of legs that are planned, since only those are written.
#[derive(Clone, Copy, PartialEq, Eq, PartialOrd, Ord, Debug)]
pub enum Met {
    /// Windows, and every cell of them counts.
    EveryCellCounts,
    /// A window in which some cells count.
    SomeCount,
    /// A cell that does not count between two that do.
    GapBetween,
    /// A cell that counts though the cell straight across is not reached.
    BySideAlone,
    /// A window of one cell, which counts.
    OneCell,
    /// A window of one cell, which does not.
    OneCellClosed,
    /// No cell counts at this step, from 1, of a leg of so many.
    Closed {
        steps: usize,
        at: usize,
    },
    /// A wall under the goal or a window cell of this step, from 1, of a leg of so many.
    OnWall {
        steps: usize,
        at: usize,
    },
    /// 16 where another number, or none, would be due without it.
    InsteadOf(u8),
    /// 16 by one wall alone.
    OneWall(Place),
    /// 8 at a step that has a wall at an end of its window.
    OrderFirst,
    /// A leg that is taken, with a wall under the goal byte of a window step.
    UnreadWall,
    /// A practice floor whose goal's cell was drawn with this cost.
    GoalDrawnAs(u8),
    /// A practice floor whose goal has so many digits.
    GoalDigits(u8),
    /// Two floors for this window, or a list of windows with it.
    Window {
        boundary: u8,
        first: u8,
        last: u8,
    },
    /// A cell that is sure by a window cell straight ahead, or by a diagonal one alone.
    SureByWindow,
    SureByDiagonalWindow,
    /// One that is sure by the costs of several neighbours, or by its only permitted one.
    SureByCosts,
    SureByOne,
    /// One whose arrow is diagonal.
    SureDiagonal,
    /// A reached cell that is not sure because two costs are equal.
    EqualNotSure,
    /// One that is not, though low and high have the same arrow; one whose arrows there differ.
    OneArrowNotSure,
    OtherArrow,
    /// One that is not, beside a window cell that walls bar.
    WindowBarred,
    /// A cell with a permitted neighbour that nothing reaches.
    ClosedOff,
    /// A cost 0.
    CostZero,
    /// A cell at whose built cost walks of two corners arrive.
    EqualWalks,
    /// A field in which positions carried along the waves are others.
    CarriedOtherwise,
    /// A position of two digits.
    FarPosition,
    /// A corner that building lowered.
    LoweredCorner,
    /// A corner that is listed twice and holds its place, and one of 65535 that does.
    RepeatedCorner,
    UnreachedCorner,
    /// A cell whose position is that of a wall, of a cell in sight, of a goal.
    FromWall,
    FromSight,
    FromGoal,
    /// One whose walk passes a goal.
    PastGoal,
    /// A walk that comes to a cell at the cell's value before building, and is none of its walks.
    ArrivesAtValue,
    /// A cell, neither wall nor in sight nor goal, that no walk arrives in.
    NoWalk,
    /// So many windows of one sector.
    Windows(usize),
    /// Two that share a cell and are not the same; one that is listed twice; one on each edge.
    Overlap,
    SameWindow,
    FourEdges,
    /// A window that another does not reach.
    CutOff,
    /// Two windows with another cost there than back.
    Asymmetric,
    /// Two that share no cell, with cost 0.
    FreeWay,
    /// Two with a cost of 10,000 or more.
    DearWay,
    /// A way that is cheapest from a cell between the ends of its window.
    LeastBetween,
    /// A way that is cheapest through a cell of another window.
    PastAnother,
    /// A tour with limit 0; with limit 1, of several orders; with one less than there are orders; with as many; with more.
    LimitNone,
    LimitOne,
    LimitShort,
    LimitAll,
    LimitOver,
    /// Two orders tried have the best sum.
    Tie,
    /// Orders are tried, and none counts; a later one than those tried is better.
    NoTour,
    BetterBehind,
    /// The best sum is the least figure, and not 0; it is above it.
    AtLeastFigure,
    AboveLeastFigure,
    /// The best sum, or the least figure, is above 65535.
    DearTour,
    DearFigure,
    /// The best order is not the listed one.
    TourNotListed,
    /// A cell that arrives after no move, after one, after 50 or more, after 99.
    ArrivesAtOnce,
    ArrivesNext,
    ArrivesLate,
    ArrivesLast,
    /// A cell that never arrives: in a circle of two cells or of more, or on the way into one; out of the sector; onto a byte
    /// with no direction, 0 or not; onto one with opposite bits.
    InPair,
    InRing,
    IntoCircle,
    LeavesSector,
    NoDirection,
    OppositeBits,
    /// A byte with all of 0xE0 that is arrived at.
    ImpassableArrived,
    /// A goal's sector of which a reached cell never arrives, and one of which every reached cell does.
    SectorLost,
    SectorWhole,
    /// What a cart's move or way meets.
    Cart(Cart),
    /// What the field of a leg's step meets.
    Field(Field),
}

/// Where a step has its wall.
#[derive(Clone, Copy, PartialEq, Eq, PartialOrd, Ord, Debug)]
pub enum Place {
    Goal,
    First,
    Between,
    Last,
}

impl fmt::Display for Met {
    fn fmt(&self, f: &mut fmt::Formatter) -> fmt::Result {
        match self {
            Met::EveryCellCounts => write!(f, "every cell counts"),
            Met::SomeCount => write!(f, "some cells count"),
            Met::GapBetween => write!(f, "a gap between counting cells"),
            Met::BySideAlone => write!(f, "a cell counts by a side alone"),
            Met::OneCell => write!(f, "a window of one cell"),
            Met::OneCellClosed => write!(f, "a window of one cell that does not count"),
            Met::Closed { steps, at } => write!(f, "15 at step {at} of {steps}"),
            Met::OnWall { steps, at } => write!(f, "16 at step {at} of {steps}"),
            Met::InsteadOf(0) => write!(f, "16 alone"),
            Met::InsteadOf(number) => write!(f, "16 before {number}"),
            Met::OneWall(Place::Goal) => write!(f, "a wall under the goal"),
            Met::OneWall(Place::First) => write!(f, "one under the first window cell"),
            Met::OneWall(Place::Between) => write!(f, "one between"),
            Met::OneWall(Place::Last) => write!(f, "one under the last"),
            Met::OrderFirst => write!(f, "8 before 16"),
            Met::UnreadWall => write!(f, "a wall under a goal byte that is not read"),
            Met::GoalDrawnAs(cost) => write!(f, "the goal's cell drawn with cost {cost}"),
            Met::GoalDigits(digits) => write!(f, "a goal of {digits} digits"),
            Met::Window { boundary, first, last } => write!(f, "the window {first} to {last} on boundary {boundary}"),
            Met::SureByWindow => write!(f, "sure by a window cell straight ahead"),
            Met::SureByDiagonalWindow => write!(f, "by a diagonal one"),
            Met::SureByCosts => write!(f, "by costs"),
            Met::SureByOne => write!(f, "by the one permitted neighbour"),
            Met::SureDiagonal => write!(f, "sure with a diagonal arrow"),
            Met::EqualNotSure => write!(f, "not sure by equal costs"),
            Met::OneArrowNotSure => write!(f, "not sure with one arrow on low and high"),
            Met::OtherArrow => write!(f, "with two"),
            Met::WindowBarred => write!(f, "not sure beside a window cell that walls bar"),
            Met::ClosedOff => write!(f, "a floor cell that nothing reaches"),
            Met::CostZero => write!(f, "a cost 0"),
            Met::EqualWalks => write!(f, "equal walks of two corners"),
            Met::CarriedOtherwise => write!(f, "other positions if carried along the waves"),
            Met::FarPosition => write!(f, "a position of two digits"),
            Met::LoweredCorner => write!(f, "a lowered corner"),
            Met::RepeatedCorner => write!(f, "a repeated corner that stays"),
            Met::UnreachedCorner => write!(f, "a corner of 65535 that stays"),
            Met::FromWall => write!(f, "a position of a wall"),
            Met::FromSight => write!(f, "of a cell in sight"),
            Met::FromGoal => write!(f, "of a goal"),
            Met::PastGoal => write!(f, "a walk past a goal"),
            Met::ArrivesAtValue => write!(f, "a walk that comes to a cell's value before building"),
            Met::NoWalk => write!(f, "a cell that no walk arrives in"),
            Met::Windows(count) => write!(f, "{count} windows"),
            Met::Overlap => write!(f, "windows that overlap"),
            Met::SameWindow => write!(f, "a window listed twice"),
            Met::FourEdges => write!(f, "windows on four edges"),
            Met::CutOff => write!(f, "windows cut off from each other"),
            Met::Asymmetric => write!(f, "another cost there than back"),
            Met::FreeWay => write!(f, "cost 0 between windows apart"),
            Met::DearWay => write!(f, "a cost of 10,000 or more"),
            Met::LeastBetween => write!(f, "the least between the ends of a window"),
            Met::PastAnother => write!(f, "the least through another window"),
            Met::LimitNone => write!(f, "limit 0"),
            Met::LimitOne => write!(f, "limit 1"),
            Met::LimitShort => write!(f, "a limit of all orders but one"),
            Met::LimitAll => write!(f, "of all orders"),
            Met::LimitOver => write!(f, "of more"),
            Met::Tie => write!(f, "a tie"),
            Met::NoTour => write!(f, "no order that counts"),
            Met::BetterBehind => write!(f, "a better one behind those tried"),
            Met::AtLeastFigure => write!(f, "a sum at the least figure"),
            Met::AboveLeastFigure => write!(f, "one above it"),
            Met::DearTour => write!(f, "a sum above 65535"),
            Met::DearFigure => write!(f, "a least figure above 65535"),
            Met::TourNotListed => write!(f, "another order than the listed one"),
            Met::ArrivesAtOnce => write!(f, "a cell that has arrived"),
            Met::ArrivesNext => write!(f, "a cell that arrives after one move"),
            Met::ArrivesLate => write!(f, "a cell that arrives after 50 to 98 moves"),
            Met::ArrivesLast => write!(f, "a cell that arrives after 99 moves"),
            Met::InPair => write!(f, "two cells that point at each other"),
            Met::InRing => write!(f, "a circle of more than two cells"),
            Met::IntoCircle => write!(f, "a cell that leads into a circle"),
            Met::LeavesSector => write!(f, "arrows out of the sector"),
            Met::NoDirection => write!(f, "arrows onto a byte with no direction"),
            Met::OppositeBits => write!(f, "arrows onto a byte with opposite bits"),
            Met::ImpassableArrived => write!(f, "a byte with all of 0xE0 that is arrived at"),
            Met::SectorLost => write!(f, "a sector with a cell that never arrives"),
            Met::SectorWhole => write!(f, "a sector of which every cell arrives"),
            Met::Cart(cart) => write!(f, "{cart}"),
            Met::Field(field) => write!(f, "{field}"),
        }
    }
}

/// Each step of each number of steps at which 15 may be found.
fn places() -> impl Iterator<Item = (usize, usize)> {
    (2..=16).flat_map(|steps| (2..=steps).map(move |at| (steps, at)))
}

/// What a leg with some cell that does not count may meet, but for the place of 15.
pub fn leg_kinds() -> [Met; 5] {
    [Met::SomeCount, Met::GapBetween, Met::BySideAlone, Met::OneCell, Met::OneCellClosed]
}

/// What planned legs may meet.
pub(super) fn planned_kinds() -> Vec<Met> {
    vec![Met::EveryCellCounts, Met::SomeCount, Met::GapBetween, Met::BySideAlone, Met::OneCell]
}

/// All that legs with gaps must meet.
pub(super) fn all() -> Vec<Met> {
    let closed = places().map(|(steps, at)| Met::Closed { steps, at });
    [Met::EveryCellCounts].into_iter().chain(leg_kinds()).chain(closed).collect()
}

/// A leg that the table takes, planned with the sight of its goal or without.
fn planned(case: &Case) -> Plan {
    let sight = ![Call::LegWithoutSight, Call::LegFieldWithoutSight].contains(&case.call());
    Model::PLAIN.plan_by(sight, &case.costs, &case.steps)
}

/// What a leg meets that the table takes.
pub(super) fn met(case: &Case) -> Vec<Met> {
    let steps = case.steps.len() / 8;
    let plan = planned(case);
    if plan.closed {
        let at = plan.steps.len() + 1;
        let step = &case.steps[8 * (at - 1)..8 * at];
        let one_cell = (step[3] == step[4]).then_some(Met::OneCellClosed);
        return one_cell.into_iter().chain([Met::Closed { steps, at }]).collect();
    }
    let mut found: Vec<Met> = (1..steps).flat_map(|k| met_at(case, &plan, k)).collect();
    let whole = |step: &PlannedStep| step.counting == step.window;
    if steps > 1 && plan.steps.iter().all(whole) {
        found.push(Met::EveryCellCounts);
    }
    found.sort();
    found.dedup();
    found
}

/// What the k-th step of a planned leg meets, from 0.
fn met_at(case: &Case, plan: &Plan, k: usize) -> Vec<Met> {
    let (window, counting) = (&plan.steps[k].window, &plan.steps[k].counting);
    let before = &plan.steps[k - 1].field.field;
    let boundary = usize::from(case.steps[8 * k + 5]);
    let along = |cell: usize| if boundary.is_multiple_of(2) { cell % 10 } else { cell / 10 };
    let straight = |cell: usize| before[edge_cell((boundary + 2) % 4, along(cell))] % 65536;
    let left_out: Vec<usize> = window.iter().copied().filter(|cell| !counting.contains(cell)).collect();
    let inside = |cell: &usize| counting.first() < Some(cell) && Some(cell) < counting.last();
    let kinds = [
        (Met::SomeCount, !left_out.is_empty()),
        (Met::GapBetween, left_out.iter().any(inside)),
        (Met::BySideAlone, counting.iter().any(|cell| straight(*cell) == 65535)),
        (Met::OneCell, window.len() == 1),
    ];
    kinds.into_iter().filter(|(_, holds)| *holds).map(|(kind, _)| kind).collect()
}

/// A leg of so many steps on sectors with at most so many walls in a hundred cells, none under a goal or a window cell.
fn leg_with_walls(rng: &mut Rng, steps: usize, most: usize) -> Case {
    let mut costs: Vec<u8> = (0..64).flat_map(|_| floors::with_closed_parts(rng, most)).collect();
    let steps = floors::leg_of(rng, steps);
    floors::open_leg(rng, &mut costs, &steps);
    Case { costs, steps, sheet: leg_sheet(rng), ..Case::of(Call::Leg) }
}

/// What the table is given of a leg.
fn given(case: &Case) -> Given<'_> {
    let (costs, sheet, steps) = (Some(&case.costs[..]), Some(case.sheet.len()), Some(&case.steps[..]));
    Given { leg: true, costs, sheet, steps, ..Given::default() }
}

/// Walls in front of the window of step `at`, from 1: on the cells that face it, or around them.
fn close_window(rng: &mut Rng, case: &mut Case, at: usize) {
    let step = &case.steps[8 * (at - 1)..8 * at];
    let (facing, before) = ((usize::from(step[5]) + 2) % 4, usize::from(case.steps[8 * (at - 2)]) * CELLS);
    let along = |cell: u8| usize::from(if step[5] % 2 == 0 { cell % 10 } else { cell / 10 });
    let (first, last) = (along(step[3]), along(step[4]));
    let inward = |cell: usize| [cell + 10, cell.wrapping_sub(1), cell.wrapping_sub(10), cell + 1][facing];
    let around = rng.one_in(2);
    for place in first..=last {
        let cell = edge_cell(facing, place);
        case.costs[before + if around { inward(cell) } else { cell }] = 255;
    }
    for end in [first.checked_sub(1), Some(last + 1)].into_iter().flatten().filter(|end| around && *end < 10) {
        case.costs[before + edge_cell(facing, end)] = 255;
    }
}

/// A leg of so many steps in which 15 is found at step `at`, from 1.
pub fn closed_leg(rng: &mut Rng, steps: usize, at: usize) -> Case {
    loop {
        let mut case = leg_with_walls(rng, steps, 12);
        close_window(rng, &mut case, at);
        // The walls may have come under a window cell or the goal of the step before.
        if Table::documents().number(&given(&case)) != 0 {
            continue;
        }
        let plan = planned(&case);
        if plan.closed && plan.steps.len() + 1 == at {
            return case;
        }
    }
}

/// A leg of so many steps in which every window cell counts.
pub fn leg_that_counts(rng: &mut Rng, steps: usize) -> Case {
    loop {
        let case = leg_with_walls(rng, steps, 12);
        if met(&case).contains(&Met::EveryCellCounts) {
            return case;
        }
    }
}

/// A leg that meets a kind, and in which some window cell does not count.
pub fn leg_that_meets(rng: &mut Rng, kind: Met) -> Case {
    loop {
        let case = gap_leg(rng);
        let found = met(&case);
        if found.contains(&kind) && !found.contains(&Met::EveryCellCounts) {
            return case;
        }
    }
}

/// A leg of any length, with few walls or many.
pub(super) fn gap_leg(rng: &mut Rng) -> Case {
    let most = if rng.one_in(2) { rng.below(61) } else { rng.below(21) };
    let steps = if rng.one_in(2) { 2 + rng.below(4) } else { 2 + rng.below(15) };
    leg_with_walls(rng, steps, most)
}

/// 15 at each step of each number of steps, then a twentieth of the inputs, as of legs.
pub fn gaps(rng: Rng, inputs: usize) -> Cases {
    let mut first = rng.clone();
    let full = places().map(move |(steps, at)| closed_leg(&mut first, steps, at));
    Box::new(full.chain(drawn(rng, inputs / 20, gap_leg)))
}

/// Each step of each number of steps.
fn every_step() -> impl Iterator<Item = (usize, usize)> {
    (1..=16).flat_map(|steps| (1..=steps).map(move |at| (steps, at)))
}

/// All that legs with walls under goals and windows must meet.
pub(super) fn all_on_walls() -> Vec<Met> {
    let places = every_step().map(|(steps, at)| Met::OnWall { steps, at });
    let instead = [0, 4, 5, 6, 7, 8, 9, 10, CLOSED].map(Met::InsteadOf);
    let walls = [Place::Goal, Place::First, Place::Between, Place::Last].map(Met::OneWall);
    places.chain(instead).chain(walls).chain([Met::OrderFirst, Met::UnreadWall]).collect()
}

/// Kinds of legs with walls under goals and windows, and some of the steps at which they may be.
pub fn wall_kinds() -> impl Iterator<Item = Met> {
    let places = [(1, 1), (16, 1), (12, 7), (16, 16)].map(|(steps, at)| Met::OnWall { steps, at });
    places.into_iter().chain(all_on_walls().into_iter().filter(|met| !matches!(met, Met::OnWall { .. })))
}

/// What a leg meets that may have walls under its goal and its window cells.
pub(super) fn met_on_walls(case: &Case) -> Vec<Met> {
    let (given, table) = (given(case), Table::documents());
    let wall = |step: &[u8], cell: usize| case.costs.get(usize::from(step[0]) * CELLS + cell) == Some(&255);
    let at = each(&given).position(|step| first(&table.each_step, &step).is_some());
    let step = at.map(|at| &case.steps[8 * at..8 * (at + 1)]);
    match (table.number(&given), at, step) {
        (ON_WALL, Some(at), Some(step)) => {
            let walls: Vec<usize> = named_cells(step).into_iter().filter(|cell| wall(step, *cell)).collect();
            let alone = (walls.len() == 1).then(|| Met::OneWall(place_of(step, walls[0])));
            let found = [Met::OnWall { steps: case.steps.len() / 8, at: at + 1 }, Met::InsteadOf(without_walls(case))];
            found.into_iter().chain(alone).collect()
        }
        (8, _, Some(step)) if wall(step, step[3].into()) || wall(step, step[4].into()) => vec![Met::OrderFirst],
        (0, ..) if case.steps.chunks(8).any(|step| step[2] == 1 && wall(step, step[1].into())) => vec![Met::UnreadWall],
        _ => Vec::new(),
    }
}

fn place_of(step: &[u8], cell: usize) -> Place {
    match step[2] {
        0 => Place::Goal,
        _ if cell == usize::from(step[3]) => Place::First,
        _ if cell == usize::from(step[4]) => Place::Last,
        _ => Place::Between,
    }
}

/// The number of a leg if walls were not looked at.
fn without_walls(case: &Case) -> u8 {
    let mut table = Table::documents();
    table.each_step[5].holds = |_| false;
    match table.number(&given(case)) {
        0 if planned(case).closed => CLOSED,
        number => number,
    }
}

/// A wall under the goal or a window cell of step `at`, from 1, or under the same cell so many sectors on.
fn put_wall(rng: &mut Rng, case: &mut Case, at: usize, on: usize) {
    let step = &case.steps[8 * (at - 1)..8 * at];
    let (sector, cell) = ((usize::from(step[0]) + on) % 64, rng.pick(&named_cells(step)));
    case.costs[sector * CELLS + cell] = 255;
}

/// The goal bytes of window steps, which are not read, made to name walls.
fn name_walls(rng: &mut Rng, case: &mut Case) {
    for step in case.steps.chunks_mut(8).filter(|step| step[2] == 1) {
        let at = usize::from(step[0]) * CELLS;
        let walls: Vec<u8> = (0..100).filter(|cell| case.costs[at + usize::from(*cell)] == 255).collect();
        if !walls.is_empty() {
            step[1] = rng.pick(&walls);
        }
    }
}

/// Two bytes of a window step made others, so that one of 4 to 8 is due.
fn spoil(rng: &mut Rng, step: &mut [u8]) {
    let (first, last) = (step[3], step[4]);
    let changes = [
        [(2, 2), (6, 0)],
        [(6, 1), (7, 255)],
        [(2, 0), (1, 100)],
        [(3, 100), (4, 99)],
        [(5, 4), (5, 255)],
        [(3, 44), (4, 55)],
        [(3, last), (4, first)],
    ];
    rng.pick(&changes).into_iter().for_each(|(byte, value)| step[byte] = value);
}

/// A leg of so many steps with a wall under the goal or a window cell of step `at`, from 1, and now and then something
/// else that is refused, before it or behind it, or the wall where it is not looked at.
fn leg_on_walls(rng: &mut Rng, steps: usize, at: usize, kind: usize) -> Case {
    let closed = 2 + rng.below(steps.max(2) - 1);
    let mut case = match kind {
        1 if steps > 1 => closed_leg(rng, steps, closed),
        _ => leg_with_walls(rng, steps, 12),
    };
    let (byte, other) = (8 * (at - 1), 8 * rng.below(steps));
    let on = if kind == 7 { rng.pick(&[1, 63]) } else { 0 };
    if kind != 6 {
        put_wall(rng, &mut case, at, on);
    }
    match kind {
        2 | 3 if at < steps => spoil(rng, &mut case.steps[8 * at..8 * (at + 1)]),
        4 if other != byte => case.steps[other] = case.steps[byte],
        5 if other != byte => case.steps[other] = (case.steps[other] + 27) % 64,
        6 => name_walls(rng, &mut case),
        8 => case.steps[byte..].swap(3, 4),
        _ => {}
    }
    case
}

/// Any such leg.
fn any_leg_on_walls(rng: &mut Rng) -> Case {
    let steps = if rng.one_in(2) { 1 + rng.below(4) } else { 1 + rng.below(16) };
    let (at, kind) = (1 + rng.below(steps), rng.below(9));
    leg_on_walls(rng, steps, at, kind)
}

/// Such a leg that meets a kind.
pub fn leg_on_walls_that_meets(rng: &mut Rng, kind: Met) -> Case {
    loop {
        let case = match kind {
            Met::OnWall { steps, at } => leg_on_walls(rng, steps, at, 0),
            _ => any_leg_on_walls(rng),
        };
        if met_on_walls(&case).contains(&kind) {
            return case;
        }
    }
}

/// 16 at each step of each number of steps, then a twentieth of the inputs, as of legs.
pub fn on_walls(rng: Rng, inputs: usize) -> Cases {
    let mut first = rng.clone();
    let full = every_step().map(move |(steps, at)| leg_on_walls(&mut first, steps, at, 0));
    Box::new(full.chain(drawn(rng, inputs / 20, any_leg_on_walls)))
}
