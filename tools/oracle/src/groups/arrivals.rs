//! Sheets whose arrows are followed (our own addition): what is tried in full, what is drawn, and what such sheets have to meet.

use super::good::drawn;
use super::{Cases, Met};
use crate::cases::Case;
use crate::floors::{self, Costs, Rng, Step};
use crate::model::{Lost, Model, lost_by};
use crate::subject::*;

fn case(sheet: Vec<u8>) -> Case {
    Case { sheet, ..Case::of(Call::Arrivals) }
}

/// Low halves toward N, E, S, W, NE, SE, SW, NW.
const BITS: [u8; 8] = [1, 2, 4, 8, 3, 6, 12, 9];

/// The sheet of a sector with a goal.
fn planned(costs: Costs, step: Step) -> Vec<u8> {
    Model::PLAIN.planned(&costs, &step, None).2.to_vec()
}

/// Row after row, to and fro, from a cell that has arrived to the last: 99 moves. Turned round, upright, or both.
fn snake(turned: bool, upright: bool, arrived: u8) -> Vec<u8> {
    let place = |at: usize| {
        let (row, column) = (at / 10, if at / 10 % 2 == 0 { at % 10 } else { 9 - at % 10 });
        let cell = if upright { column * 10 + row } else { row * 10 + column };
        if turned { 99 - cell } else { cell }
    };
    let mut sheet = vec![arrived; CELLS];
    for at in 1..CELLS {
        let (from, to) = (place(at), place(at - 1));
        let bits = match to as i32 - from as i32 {
            -10 => 1,
            1 => 2,
            10 => 4,
            _ => 8,
        };
        sheet[from] = 0x10 + bits;
    }
    sheet
}

/// A byte of a sheet that is not planned: mostly an arrow, few that have arrived.
pub(super) fn any_byte(rng: &mut Rng) -> u8 {
    match rng.below(40) {
        0 => rng.pick(&[0x70, 0x30, 0x90, 0xF3, 0xB0, 0x50]),
        1 => rng.below(256) as u8,
        2 => rng.pick(&[0, 0xE0, 0x10, 0x15, 0x1A, 0x17, 0x1F]),
        _ => rng.pick(&[0x10, 0x10, 0]) + rng.pick(&BITS),
    }
}

/// Arrows mostly toward one side or the other, so that some lead far.
fn long_ways(rng: &mut Rng) -> Vec<u8> {
    let mut sheet = snake(rng.one_in(2), rng.one_in(2), rng.pick(&[0x70, 0x30, 0x90, 0xF3]));
    for _ in 0..rng.below(6) {
        sheet[rng.below(CELLS)] = any_byte(rng);
    }
    sheet
}

/// A drawn sheet.
pub fn drawn_sheet(rng: &mut Rng) -> Case {
    match rng.below(4) {
        0 => case((0..CELLS).map(|_| rng.below(256) as u8).collect()),
        1 => case((0..CELLS).map(|_| any_byte(rng)).collect()),
        2 => case(long_ways(rng)),
        _ => {
            let (costs, step) = floors::any_open(rng);
            case(planned(costs, step))
        }
    }
}

/// Every floor of one wall with every goal that is not on it, the rest at cost 1.
pub fn one_wall_sheets() -> impl Iterator<Item = Vec<u8>> {
    let steps = floors::all_goals();
    (0..CELLS).flat_map(move |wall| {
        let goals: Vec<Step> = steps.iter().copied().filter(|step| usize::from(step[1]) != wall).collect();
        goals.into_iter().map(move |step| planned(floors::one_wall(wall), step))
    })
}

/// The longest ways there are.
pub fn snakes() -> impl Iterator<Item = Vec<u8>> {
    (0..8).map(|kind| snake(kind % 2 == 0, kind / 2 % 2 == 0, if kind < 4 { 0x70 } else { 0xF3 }))
}

/// Every byte alone among goals, every byte all over, the snakes, every floor of one wall with every goal; then drawn sheets.
pub fn sheets(rng: Rng, inputs: usize) -> Cases {
    let alone = (0..=255).map(|byte| {
        let mut sheet = vec![0x70; CELLS];
        sheet[44] = byte;
        sheet
    });
    let all_over = (0..=255).map(|byte| vec![byte; CELLS]);
    let full = alone.chain(all_over).chain(snakes()).chain(one_wall_sheets()).map(case);
    Box::new(full.chain(drawn(rng, inputs, drawn_sheet)))
}

/// A few of those tried in full: every byte once, 25 to a sheet, in the odd rows and columns among goals; the snakes; floors of
/// one wall, the first with a cell that never arrives among them.
pub fn some_sheets() -> Vec<Case> {
    let among_goals = (0..=255u8).collect::<Vec<u8>>();
    let among_goals = among_goals.chunks(25).map(|bytes| {
        let mut sheet = vec![0x70; CELLS];
        bytes.iter().enumerate().for_each(|(at, byte)| sheet[at / 5 * 20 + at % 5 * 2 + 11] = *byte);
        sheet
    });
    let walled = [(1, 10), (55, 44), (44, 45), (0, 99), (90, 9)];
    let walled = walled.map(|(wall, goal)| planned(floors::one_wall(wall), floors::goal_step(0, goal)));
    among_goals.chain(snakes()).chain(walled).map(case).collect()
}

/// A drawn floor with a goal: the sheet as `new` starts it, and as `build` leaves it.
pub fn goal_sheets(rng: &mut Rng) -> [Vec<u8>; 2] {
    let (costs, step) = loop {
        let (costs, step) = floors::any_open(rng);
        if step[2] == 0 {
            break (costs, step);
        }
    };
    let (field, _, built) = Model::PLAIN.planned(&costs, &step, None);
    let mut started = vec![0; CELLS];
    Model::PLAIN.flow_new(&step, field, Previous { lent: false, numbers: &[] }, &mut started);
    [started, built.to_vec()]
}

/// How many cells of some sheets never arrive.
#[derive(Clone, Copy, PartialEq, Eq, Debug, Default)]
pub struct Counted {
    pub sheets: usize,
    /// Those with a cell that never arrives.
    pub lost_sheets: usize,
    /// Cells that have not arrived themselves.
    pub cells: usize,
    /// Those that never do, and the most of them on one sheet.
    pub lost: usize,
    pub most_lost: usize,
    /// The most moves that one takes.
    pub most_moves: u8,
}

/// Looks at every cell that has not arrived and that `counts` by its byte.
pub fn counted(sheets: impl Iterator<Item = Vec<u8>>, counts: fn(u8) -> bool) -> Counted {
    sheets.fold(Counted::default(), |sum, sheet| {
        let moves = Model::PLAIN.arrivals(&sheet).moves;
        let told = (0..CELLS).filter(|cell| moves[*cell] > 0 && counts(sheet[*cell])).map(|cell| moves[cell]);
        let (lost, found): (Vec<u8>, Vec<u8>) = told.partition(|moves| *moves == NEVER);
        Counted {
            sheets: sum.sheets + 1,
            lost_sheets: sum.lost_sheets + usize::from(!lost.is_empty()),
            cells: sum.cells + lost.len() + found.len(),
            lost: sum.lost + lost.len(),
            most_lost: sum.most_lost.max(lost.len()),
            most_moves: found.iter().copied().fold(sum.most_moves, u8::max),
        }
    })
}

/// Whether a byte can be walked: 0x10.
pub fn is_walked(byte: u8) -> bool {
    byte & 0x10 != 0
}

pub fn arrival_kinds() -> Vec<Met> {
    vec![
        Met::ArrivesAtOnce,
        Met::ArrivesNext,
        Met::ArrivesLate,
        Met::ArrivesLast,
        Met::InPair,
        Met::InRing,
        Met::IntoCircle,
        Met::LeavesSector,
        Met::NoDirection,
        Met::OppositeBits,
        Met::ImpassableArrived,
        Met::SectorLost,
        Met::SectorWhole,
    ]
}

pub(super) fn all() -> Vec<Met> {
    arrival_kinds()
}

/// What one cell of a sheet meets.
fn met_by(sheet: &[u8], cell: usize, moves: u8) -> Option<Met> {
    match moves {
        0 if sheet[cell] >= 0xE0 => Some(Met::ImpassableArrived),
        0 => Some(Met::ArrivesAtOnce),
        1 => Some(Met::ArrivesNext),
        50..=98 => Some(Met::ArrivesLate),
        99 => Some(Met::ArrivesLast),
        NEVER => Some(match lost_by(sheet, cell) {
            Lost::Circle { before: 0, cells: 2 } => Met::InPair,
            Lost::Circle { before: 0, .. } => Met::InRing,
            Lost::Circle { .. } => Met::IntoCircle,
            Lost::Leaving => Met::LeavesSector,
            Lost::Standing(byte) if byte % 16 == 0 => Met::NoDirection,
            Lost::Standing(_) => Met::OppositeBits,
        }),
        _ => None,
    }
}

pub(super) fn met(case: &Case) -> Vec<Met> {
    let (sheet, moves) = (&case.sheet, Model::PLAIN.arrivals_of(&case.sheet).moves);
    let mut found: Vec<Met> = (0..CELLS).filter_map(|cell| met_by(sheet, cell, moves[cell])).collect();
    if sheet.iter().filter(|byte| **byte == 0x70).count() == 1 {
        let lost = counted(std::iter::once(sheet.clone()), is_walked).lost > 0;
        found.push(if lost { Met::SectorLost } else { Met::SectorWhole });
    }
    found.sort();
    found.dedup();
    found
}

/// A drawn sheet that meets a kind.
pub fn sheet_that_meets(rng: &mut Rng, kind: Met) -> Case {
    loop {
        let case = drawn_sheet(rng);
        if met(&case).contains(&kind) {
            return case;
        }
    }
}
