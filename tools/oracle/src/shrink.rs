//! The smallest input that still differs: walls cleared, costs set to 1, lists shortened, as long as
//! the difference stays.

use crate::cases::Case;
use crate::subject::{CELLS, Call, NO_POSITION};

/// A change that makes an input simpler.
#[derive(Clone, Copy)]
enum Change {
    DropStep,
    DropWindow(usize),
    WindowCell(usize),
    StepByteZero(usize),
    NoPrevious,
    PreviousZero(usize),
    SheetZero,
    SheetByteZero(usize),
    SheetSectorZero(usize),
    PlaceZero,
    SectorOpen(usize),
    CostOne(usize),
    BothOne(usize),
    HighAsLow(usize),
    CellTo(usize, u32),
    CellLow(usize),
    CellFlags(usize),
    DropCorner(usize),
    PositionsUnset,
    PositionUnset(usize),
    NarrowFirst,
    NarrowLast,
    SeedBit(usize),
    LimitBit(usize),
}

/// The smallest case found that `differs` still says yes to.
pub fn smallest(case: &Case, differs: &dyn Fn(&Case) -> bool) -> Case {
    let mut best = case.clone();
    loop {
        let before = best.clone();
        for change in changes(&best) {
            let mut simpler = best.clone();
            apply(change, &mut simpler);
            if simpler != best && differs(&simpler) {
                best = simpler;
            }
        }
        if best == before {
            return best;
        }
    }
}

/// Every change that a case may take, the boldest first.
fn changes(case: &Case) -> Vec<Change> {
    let mut list =
        vec![Change::DropStep, Change::NoPrevious, Change::SheetZero, Change::PositionsUnset, Change::PlaceZero];
    list.extend((0..case.sheet.len() / CELLS).map(Change::SheetSectorZero));
    let listed = [Call::WindowCosts, Call::WindowTour].contains(&case.call());
    let windows = if listed { case.steps.len() / 8 } else { 0 };
    list.extend((0..windows).rev().flat_map(|k| [Change::DropWindow(k), Change::WindowCell(k)]));
    list.extend([Change::NarrowFirst, Change::NarrowLast]);
    list.extend([0, 1, 3, 4, 5].map(Change::StepByteZero));
    list.extend((0..32).rev().map(Change::SeedBit));
    list.extend((0..16).rev().map(Change::LimitBit));
    list.extend((0..case.costs.len() / CELLS).map(Change::SectorOpen));
    list.extend((0..case.field.count.min(CELLS)).rev().map(Change::DropCorner));
    list.extend((0..CELLS).flat_map(|i| [Change::CellTo(i, 65535), Change::CellTo(i, 0)]));
    list.extend((0..CELLS).flat_map(|i| [Change::CellLow(i), Change::CellFlags(i)]));
    list.extend((0..CELLS).map(Change::PositionUnset));
    list.extend((0..case.costs.len()).filter(|i| case.costs[*i] != 1).map(Change::CostOne));
    list.extend((0..case.high.len().min(case.costs.len())).flat_map(|i| [Change::BothOne(i), Change::HighAsLow(i)]));
    list.extend((0..case.previous.len()).map(Change::PreviousZero));
    list.extend((0..case.sheet.len()).filter(|i| case.sheet[*i] != 0).map(Change::SheetByteZero));
    list
}

/// The sector, and what a goal or a window leaves unread.
fn unread(case: &Case, byte: usize) -> bool {
    match byte {
        0 => true,
        1 => case.steps[2] == 1,
        _ => case.steps[2] == 0,
    }
}

fn apply(change: Change, case: &mut Case) {
    let window = case.steps.len() == 8 && case.steps[2] == 1 && case.steps[3] < case.steps[4];
    let between = if case.steps.len() == 8 && case.steps[5] % 2 == 1 { 10 } else { 1 };
    let is_field = case.field.field != [0; CELLS];
    match change {
        Change::DropStep if case.steps.len() > 8 => case.steps.truncate(case.steps.len() - 8),
        Change::DropWindow(k) if 8 * (k + 1) <= case.steps.len() => drop(case.steps.drain(8 * k..8 * (k + 1))),
        Change::WindowCell(k) if 8 * (k + 1) <= case.steps.len() => case.steps[8 * k + 4] = case.steps[8 * k + 3],
        Change::StepByteZero(i) if case.steps.len() == 8 && unread(case, i) => case.steps[i] = 0,
        Change::NarrowFirst if window => case.steps[3] = case.steps[3].saturating_add(between),
        Change::NarrowLast if window => case.steps[4] = case.steps[4].saturating_sub(between),
        Change::NoPrevious if case.previous_lent => (case.previous_lent, case.previous) = (false, Vec::new()),
        Change::PreviousZero(i) => case.previous.iter_mut().skip(i).take(1).for_each(|x| *x = 0),
        Change::SheetZero => case.sheet.fill(0),
        Change::SheetByteZero(i) => case.sheet[i] = 0,
        Change::SheetSectorZero(sector) => case.sheet[sector * CELLS..(sector + 1) * CELLS].fill(0),
        Change::PlaceZero => case.place = 0,
        Change::SectorOpen(sector) => {
            case.costs[sector * CELLS..(sector + 1) * CELLS].fill(1);
            case.high.fill(1);
        }
        Change::CostOne(i) => case.costs[i] = 1,
        Change::BothOne(i) => (case.costs[i], case.high[i]) = (1, 1),
        Change::HighAsLow(i) => case.high[i] = case.costs[i],
        // 65535 is simpler than 0, and 0 than the rest, so the changes come to an end.
        Change::CellTo(i, 65535) if is_field => case.field.field[i] = 65535,
        Change::CellTo(i, value) if is_field && case.field.field[i] != 65535 => case.field.field[i] = value,
        Change::SeedBit(k) => case.seed &= !(1 << k),
        Change::PositionsUnset if is_field => case.field.positions = [NO_POSITION; CELLS],
        Change::PositionUnset(i) if is_field => case.field.positions[i] = NO_POSITION,
        Change::LimitBit(k) => case.limit &= !(1 << k),
        Change::CellLow(i) => case.field.field[i] &= 0xffff,
        Change::CellFlags(i) if case.field.field[i] != 65535 => case.field.field[i] &= 0xffff_0000,
        Change::DropCorner(k) if case.field.count <= CELLS && k < case.field.count => {
            case.field.los_corners.copy_within(k + 1.., k);
            case.field.los_corners[CELLS - 1] = 0;
            case.field.count -= 1;
        }
        _ => {}
    }
}
