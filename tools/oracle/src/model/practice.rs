//! Practice floors, written from document 02, Job 6: 55 values from a seed, each later one a sum of two before it; a cell
//! from the top byte of each value from the 56th on, and the goal from the one behind them.

use std::collections::VecDeque;
use std::iter;

use super::{Model, Slip};
use crate::subject::{CELLS, PracticeFloor};

const MODULUS: u64 = 4_294_967_296;
const ADDED: u64 = 2_654_435_769;
/// The values that a seed gives without looking back.
const SEEDED: usize = 55;

impl Model {
    fn modulus(&self) -> u64 {
        if self.slips(Slip::PracticeModulusLess) { MODULUS - 1 } else { MODULUS }
    }

    /// The first 55 values, the oldest first.
    fn seeded(&self, seed: u32) -> VecDeque<u64> {
        let modulus = self.modulus();
        let first = if self.slips(Slip::PracticeSeedLeftOut) { u64::from(seed) + ADDED } else { u64::from(seed) };
        let first = if self.slips(Slip::PracticeSeedNotRead) { 0 } else { first };
        let added = if self.slips(Slip::PracticeAddedGrows) { |k: u64| k * ADDED } else { |_| ADDED };
        let mut k = 0;
        let values = iter::successors(Some(first % modulus), |value| {
            k += 1;
            Some((value + added(k)) % modulus)
        });
        values.take(SEEDED).collect()
    }

    /// The value behind the last 55.
    fn summed(&self, last: &VecDeque<u64>) -> u64 {
        let before = |places: usize| last[last.len() - places];
        let (near, far) = match self.slip {
            Slip::PracticeTwentyThree => (before(23), before(55)),
            Slip::PracticeFiftyFour => (before(24), before(54)),
            Slip::PracticeFromTheOldest => (last[23], last[54]),
            Slip::PracticeOnlyNear => (before(24), 0),
            _ => (before(24), before(55)),
        };
        if self.slips(Slip::PracticeBitsInSum) { near ^ far } else { (near + far) % self.modulus() }
    }

    /// Every value of a seed, in order.
    fn values(&self, seed: u32) -> impl Iterator<Item = u64> + '_ {
        let mut last = self.seeded(seed);
        let first = last.clone();
        first.into_iter().chain(iter::from_fn(move || {
            let next = self.summed(&last);
            last.pop_front();
            last.push_back(next);
            Some(next)
        }))
    }

    /// The cost that a value gives a cell.
    fn cost_of(&self, value: u64) -> u8 {
        let byte = if self.slips(Slip::PracticeLowByte) { value % 256 } else { value / 16_777_216 };
        let (cheap, dear) = match self.slip {
            Slip::PracticeCheapTo126 => (127, 192),
            Slip::PracticeCheapTo128 => (129, 192),
            Slip::PracticeDearTo190 => (128, 191),
            Slip::PracticeDearTo192 => (128, 193),
            Slip::PracticeSignedByte => (256, 256),
            _ => (128, 192),
        };
        match byte {
            byte if byte < cheap => 1,
            byte if byte < dear => 10,
            _ => 255,
        }
    }

    /// Where a cell's cost is put.
    fn place_of(&self, cell: usize) -> usize {
        if self.slips(Slip::PracticeByColumns) { cell % 10 * 10 + cell / 10 } else { cell }
    }

    /// The goal that the value behind the cells gives.
    fn goal_of(&self, value: u64) -> u8 {
        let whole = if self.slips(Slip::PracticeGoalTopByte) { value / 16_777_216 } else { value };
        let cells = if self.slips(Slip::PracticeGoalBelow99) { 99 } else { 100 };
        (whole % cells) as u8
    }

    /// The costs of the cells before the goal's is changed, and the goal.
    pub fn drawn(&self, seed: u32) -> PracticeFloor {
        let first = match self.slip {
            Slip::PracticeCellsEarly => SEEDED - 1,
            Slip::PracticeCellsLate => SEEDED + 1,
            _ => SEEDED,
        };
        let values: Vec<u64> = self.values(seed).skip(first).take(CELLS + 1).collect();
        let mut costs = [0; CELLS];
        for (cell, value) in values[..CELLS].iter().enumerate() {
            costs[self.place_of(cell)] = self.cost_of(*value);
        }
        let last = if self.slips(Slip::PracticeGoalOfLastCell) { CELLS - 1 } else { CELLS };
        PracticeFloor { costs, goal: self.goal_of(values[last]) }
    }

    pub(crate) fn practice(&self, seed: u32) -> PracticeFloor {
        let mut floor = self.drawn(seed);
        let cell = &mut floor.costs[usize::from(floor.goal)];
        match self.slip {
            Slip::PracticeGoalAsDrawn => {}
            Slip::PracticeGoalWallOnly if *cell != 255 => {}
            _ => *cell = 1,
        }
        floor
    }

    /// What the practice printer has to print for its input.
    pub fn practice_text(&self, input: &[u8]) -> String {
        let Ok(seed) = <[u8; 4]>::try_from(input) else {
            return "no\n".to_string();
        };
        let floor = self.practice(u32::from_le_bytes(seed));
        let row = |costs: &[u8]| costs.iter().map(|cost| format!("{cost:02x}")).collect::<String>() + "\n";
        floor.costs.chunks(10).map(row).collect::<String>() + &format!("{}\n", floor.goal)
    }
}
