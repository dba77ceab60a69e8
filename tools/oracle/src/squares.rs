//! Costs from window to window held to built fields, from the words of document 02, Job 13: for each window j the sector is
//! built for j alone, and in row i at place j stands the least cost of a cell of window i. The altered Rust builds for every
//! answer; for one in eight the side's own sector call does so too. No walk is searched here.

use std::fmt;

use crate::copies::altered;
use crate::floors::Rng;
use crate::oracle::rust_built;
use crate::subject::*;

/// What was seen of squares that are what fields give.
#[derive(Clone, Copy, Default, PartialEq, Eq, Debug)]
pub struct Squared {
    pub inputs: usize,
    /// Costs from a window to another.
    pub entries: usize,
    /// Those of them that are below 65535.
    pub reached: usize,
    /// Inputs whose fields were also built by the side's sector call.
    pub planned: usize,
}

impl Squared {
    pub fn add(&mut self, other: &Squared) {
        self.inputs += other.inputs;
        self.entries += other.entries;
        self.reached += other.reached;
        self.planned += other.planned;
    }

    /// What has to have been seen, and was not.
    pub fn lacks(&self) -> Option<&'static str> {
        let needed = [
            (self.reached, "a window that is reached from another"),
            (self.entries - self.reached, "one that is not"),
            (self.planned, "fields built by the side's own sector call"),
        ];
        needed.into_iter().find(|(count, _)| *count == 0).map(|(_, what)| what)
    }
}

impl fmt::Display for Squared {
    fn fmt(&self, f: &mut fmt::Formatter) -> fmt::Result {
        write!(f, "{} costs from a window to another, {} of them below 65535, ", self.entries, self.reached)?;
        write!(f, "of {} inputs; {} inputs by the sector call too", self.inputs, self.planned)
    }
}

/// The square of windows, each of which has a field that was built for it alone.
fn square_of(steps: &[u8], built: impl Fn(&[u8]) -> [u32; CELLS]) -> [[u32; WINDOWS]; WINDOWS] {
    let mut square = [[65535; WINDOWS]; WINDOWS];
    for (j, to) in steps.chunks(8).enumerate() {
        let cells = built(to);
        for (i, from) in steps.chunks(8).enumerate() {
            let costs = altered::window_cells(from).into_iter().map(|cell| cells[cell] % 65536);
            square[i][j] = costs.min().expect("a window has a cell");
        }
    }
    square
}

/// The square of windows as the altered Rust builds for them.
pub fn rust_square(costs: &[u8], steps: &[u8]) -> [[u32; WINDOWS]; WINDOWS] {
    square_of(steps, |step| rust_built(costs, step).field)
}

/// The same by a side's sector call, which wants a previous field.
fn square_by_sectors(side: &dyn Subject, costs: &[u8], steps: &[u8]) -> [[u32; WINDOWS]; WINDOWS] {
    let previous = Previous { lent: true, numbers: &[0; CELLS] };
    square_of(steps, |step| side.sector(costs, step, previous, &mut [0; CELLS]).field.field)
}

/// Where a square is not the one that fields give.
fn same(found: &[[u32; WINDOWS]; WINDOWS], due: &[[u32; WINDOWS]; WINDOWS], by: &str) -> Result<(), String> {
    for (i, j) in (0..WINDOWS).flat_map(|i| (0..WINDOWS).map(move |j| (i, j))) {
        let (found, due) = (found[i][j], due[i][j]);
        if found != due {
            return Err(format!("built by {by} for window {j} alone, window {i} costs {due}, and {found} is answered"));
        }
    }
    Ok(())
}

/// Holds the answer of an accepted call to the fields that its windows have.
pub fn held(costs: &[u8], steps: &[u8], answer: &WindowCosts, side: &dyn Subject) -> Result<Squared, String> {
    let square = answer.square();
    same(&square, &rust_square(costs, steps), "the Rust")?;
    let bytes = costs.iter().chain(steps);
    let sum = bytes.fold(1, |sum: u64, byte| sum.wrapping_mul(1_099_511_628_211) ^ u64::from(*byte));
    let by_side = Rng::new(sum).one_in(8) && side.offers(Call::Sector);
    if by_side {
        same(&square, &square_by_sectors(side, costs, steps), "the sector call")?;
    }
    let windows = steps.len() / 8;
    let others = (0..windows).flat_map(|i| (0..windows).filter(move |j| *j != i).map(move |j| square[i][j]));
    let (entries, reached) = others.fold((0, 0), |(all, reached), cost| (all + 1, reached + usize::from(cost < 65535)));
    Ok(Squared { inputs: 1, entries, reached, planned: usize::from(by_side) })
}
