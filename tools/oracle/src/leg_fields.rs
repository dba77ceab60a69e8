//! The field of a leg's step (our own addition), held to the words of that addition by a side's own other calls: its number is
//! the leg's; the field of a step with a goal is the sector call's; the field of a step with a window is built from the window
//! cells that count, which are read off the field of the step before, and where all of them count it is the sector call's. The
//! model plays no part here.

use std::fmt;

use crate::cases::{Case, Outcome};
use crate::refusals::named_cells;
use crate::subject::*;

/// What was held.
#[derive(Clone, Copy, Default, PartialEq, Eq, Debug)]
pub struct Held {
    /// Calls whose number is the leg's.
    pub numbers: usize,
    /// Fields that are those of the sector call, with a goal and with a window.
    pub goals: usize,
    pub windows: usize,
    /// Fields built from those window cells that count, where some do not.
    pub some_count: usize,
}

impl Held {
    pub fn add(&mut self, other: &Held) {
        self.numbers += other.numbers;
        self.goals += other.goals;
        self.windows += other.windows;
        self.some_count += other.some_count;
    }

    /// What has to have been held, and was not.
    pub fn lacks(&self) -> Option<&'static str> {
        let needed = [
            (self.numbers, "a number of a leg"),
            (self.goals, "a step with a goal"),
            (self.windows, "a step with a window whose cells all count"),
            (self.some_count, "one with a cell that does not count"),
        ];
        needed.into_iter().find(|(count, _)| *count == 0).map(|(_, what)| what)
    }
}

impl fmt::Display for Held {
    fn fmt(&self, f: &mut fmt::Formatter) -> fmt::Result {
        write!(f, "{} numbers as the leg's; ", self.numbers)?;
        write!(f, "{} fields with a goal and {} with a window as the sector call's, ", self.goals, self.windows)?;
        write!(f, "{} built from the window cells that count, where some do not", self.some_count)
    }
}

/// The field of a step of the case's leg, by a side.
fn field_at(case: &Case, side: &dyn Subject, place: usize) -> BuildAnswer {
    match case.call() {
        Call::LegField => side.leg_field(&case.costs, &case.steps, place),
        _ => side.leg_field_without_sight(&case.costs, &case.steps, place),
    }
}

/// The cell across a boundary that faces a cell of the window.
fn facing(cell: usize, boundary: u8) -> usize {
    match boundary {
        0 => cell + 90,
        1 => cell - 9,
        2 => cell - 90,
        _ => cell + 9,
    }
}

/// The window cells that count: each faces a cell below 65535, or has a cell beside it in the window that does.
fn counting(step: &[u8], before: &[u32; CELLS]) -> Vec<usize> {
    let window = named_cells(step);
    let reached: Vec<bool> = window.iter().map(|cell| before[facing(*cell, step[5])] % 65536 < 65535).collect();
    let counts = |k: &usize| reached[k.saturating_sub(1)..(k + 2).min(reached.len())].contains(&true);
    (0..window.len()).filter(counts).map(|k| window[k]).collect()
}

/// A sector started by hand from these window cells.
fn started(costs: &[u8], cells: &[usize]) -> IntegrationField {
    let field = std::array::from_fn(|cell| match costs[cell] {
        _ if cells.contains(&cell) => PORTAL,
        255 => IMPASSABLE + 65535,
        _ => 65535,
    });
    IntegrationField::new(field, cells)
}

/// The number of the leg, with a sheet as long as it has to be.
fn leg_number(case: &Case, side: &dyn Subject) -> u8 {
    let mut sheet = vec![0; 64 * CELLS];
    match case.call() {
        Call::LegField => side.leg(&case.costs, &case.steps, &mut sheet),
        _ => side.leg_without_sight(&case.costs, &case.steps, &mut sheet),
    }
}

/// Holds what a side answers of a leg's step to its own other calls.
pub fn held(case: &Case, outcome: &Outcome, side: &dyn Subject) -> Result<Held, String> {
    let mut held = Held::default();
    if case.place < case.steps.len() / 8 {
        let number = leg_number(case, side);
        if number != outcome.number {
            return Err(format!("the number is {}, and the leg's {number}", outcome.number));
        }
        held.numbers = 1;
    }
    if outcome.number != 0 || case.place >= case.steps.len() / 8 {
        return Ok(held);
    }
    let step = &case.steps[8 * case.place..8 * (case.place + 1)];
    let costs = &case.costs[CELLS * usize::from(step[0])..][..CELLS];
    let answer = BuildAnswer { number: 0, field: outcome.field, waves: outcome.waves };
    let sector = |previous: Previous| {
        let mut sheet = [0; CELLS];
        match case.call() {
            Call::LegField => side.sector(costs, step, previous, &mut sheet),
            _ => side.sector_without_sight(costs, step, previous, &mut sheet),
        }
    };
    if case.place == 0 {
        held.goals = 1;
        let due = sector(Previous { lent: false, numbers: &[] });
        return if answer == due { Ok(held) } else { Err("the field is not the sector call's".to_string()) };
    }
    let before = field_at(case, side, case.place - 1).field.field;
    let cells = counting(step, &before);
    if answer != side.build(costs, started(costs, &cells)) {
        return Err(format!("the field is not built from the window cells that count, {cells:?}"));
    }
    if cells != named_cells(step) {
        return Ok(Held { some_count: 1, ..held });
    }
    held.windows = 1;
    let due = sector(Previous { lent: true, numbers: &before });
    if answer == due { Ok(held) } else { Err("the field is not the sector call's".to_string()) }
}
