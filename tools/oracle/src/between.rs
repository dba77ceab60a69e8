//! Floors between two, built one by one, from the words of document 02, Job 9: each built cost lies between the least and
//! the greatest that a side answered, low meets the least and high the greatest, what is reached on one floor is reached on
//! all, and a cell that the side marks as sure has an arrow, the same on every floor, with any previous field or none. How
//! a cell comes to be sure plays no part here.

use std::fmt;

use crate::copies::altered;
use crate::floors::{self, Costs, Rng};
use crate::model::Model;
use crate::subject::*;

/// How many floors are drawn between two, which are built besides.
pub const DRAWN: usize = 40;

/// What was seen on floors between two that met what an answer says.
#[derive(Clone, Copy, Default, PartialEq, Eq, Debug)]
pub struct Between {
    pub inputs: usize,
    /// Floors built, low and high among them.
    pub floors: usize,
    /// Inputs whose floors were also planned by the side's sector call and by the altered Rust.
    pub planned: usize,
    pub sure: usize,
    /// Sure cells by the floors on which the arrow was looked at.
    pub arrows: usize,
    /// Reached cells, neither wall nor window cell, that are not sure.
    pub unsure: usize,
}

impl Between {
    pub fn add(&mut self, other: &Between) {
        self.inputs += other.inputs;
        self.floors += other.floors;
        self.planned += other.planned;
        self.sure += other.sure;
        self.arrows += other.arrows;
        self.unsure += other.unsure;
    }

    /// What has to have been seen, and was not.
    pub fn lacks(&self) -> Option<&'static str> {
        let needed = [
            (self.sure, "a sure cell"),
            (self.unsure, "a reached cell that is not sure"),
            (self.planned, "floors planned by the side's own sector call"),
        ];
        needed.into_iter().find(|(count, _)| *count == 0).map(|(_, what)| what)
    }
}

impl fmt::Display for Between {
    fn fmt(&self, f: &mut fmt::Formatter) -> fmt::Result {
        write!(f, "{} floors of {} inputs, {} sure cells ", self.floors, self.inputs, self.sure)?;
        write!(f, "and {} reached ones that are not, one and the same arrow ", self.unsure)?;
        write!(f, "{} times; {} inputs by the sector call and the Rust too", self.arrows, self.planned)
    }
}

/// An accepted call for bounds and its answer.
pub struct Bounded<'a> {
    pub low: &'a [u8],
    pub high: &'a [u8],
    pub step: &'a [u8],
    pub answer: &'a Bounds,
}

/// A floor as it was planned: built cells and flow bytes.
type Planned = ([u32; CELLS], [u8; CELLS]);

impl Bounded<'_> {
    /// Numbers that depend on the input alone.
    fn rng(&self) -> Rng {
        let bytes = self.low.iter().chain(self.high).chain(self.step);
        Rng::new(bytes.fold(1, |sum: u64, byte| sum.wrapping_mul(1_099_511_628_211) ^ u64::from(*byte)))
    }

    /// A floor between the two: each cell any cost of its range; low or high; high in a part of the sector and low
    /// elsewhere; or high in a few cells, low elsewhere, or the other way round.
    fn drawn(&self, rng: &mut Rng, kind: usize) -> Costs {
        let range = |cell: usize| (self.low[cell], self.high[cell]);
        let (part, turned, few) = (rng.below(10), rng.one_in(2), 1 + rng.below(12));
        let upright = rng.one_in(2);
        std::array::from_fn(|cell| {
            let (low, high) = range(cell);
            let along = if upright { cell % 10 } else { cell / 10 };
            let dear = match kind % 4 {
                0 => return low + rng.below(usize::from(high - low) + 1) as u8,
                1 => rng.one_in(2),
                2 => (along < part) != turned,
                _ => (rng.below(CELLS) < few) != turned,
            };
            if dear { high } else { low }
        })
    }

    /// The floors: low, high, and those drawn between.
    fn floors(&self, rng: &mut Rng) -> Vec<Costs> {
        let whole = |costs: &[u8]| Costs::try_from(costs).expect("a hundred costs");
        let mut floors = vec![whole(self.low), whole(self.high)];
        floors.extend((0..DRAWN).map(|kind| self.drawn(rng, kind)));
        floors
    }

    /// Builds floors between, and holds the answer to them. One input in eight is planned by the side and by the Rust too.
    pub fn held(&self, side: &dyn Subject) -> Result<Between, String> {
        let mut rng = self.rng();
        let by_others = rng.one_in(8) && side.offers(Call::Sector);
        let mut arrows = [0; CELLS];
        let floors = self.floors(&mut rng);
        for (k, floor) in floors.iter().enumerate() {
            let (lent, numbers) = floors::any_previous(&mut rng);
            let previous = lent.then_some(&numbers[..]);
            let (field, _, bytes) = Model::PLAIN.planned(floor, self.step, previous);
            self.floor_held(k, &(field.field, bytes), &mut arrows)?;
            if by_others {
                let (field, bytes) = altered::planned(floor, self.step, previous);
                self.floor_held(k, &(field.field, bytes), &mut arrows)
                    .map_err(|fault| format!("by the Rust {fault}"))?;
                let planned = by_sector_call(side, floor, self.step, &mut rng);
                self.floor_held(k, &planned, &mut arrows).map_err(|fault| format!("by the sector call {fault}"))?;
            }
        }
        Ok(self.seen(floors.len(), by_others))
    }

    /// Holds the answer to the k-th floor, given the arrows of the sure cells on the floors before it, 0 before the first.
    fn floor_held(&self, k: usize, (cells, bytes): &Planned, arrows: &mut [u8; CELLS]) -> Result<(), String> {
        let Bounds { least, greatest, sure, .. } = self.answer;
        for cell in 0..CELLS {
            let (built, from, to) = (cells[cell] % 65536, least[cell], greatest[cell]);
            if built < from || to < built {
                return Err(format!("floor {k} builds cell {cell} as {built}, which is not in {from} to {to}"));
            }
            if (k == 0 && built != from) || (k == 1 && built != to) {
                return Err(format!("floor {k} builds cell {cell} as {built}, which does not meet {from} to {to}"));
            }
            if (from == 65535) != (to == 65535) || (built == 65535) != (from == 65535) {
                return Err(format!("floor {k}, cell {cell}: reached on one floor and not on another"));
            }
            if sure[cell] {
                let before = &mut arrows[cell];
                *before =
                    arrow(bytes[cell], *before).map_err(|fault| format!("floor {k}, sure cell {cell}: {fault}"))?;
            }
        }
        Ok(())
    }

    fn seen(&self, floors: usize, by_others: bool) -> Between {
        let Bounds { least, sure, .. } = self.answer;
        let marked = sure.iter().filter(|sure| **sure).count();
        let ground = |cell: &usize| least[*cell] < 65535 && !sure[*cell];
        let window = altered::window_cells(self.step);
        Between {
            inputs: 1,
            floors,
            planned: usize::from(by_others),
            sure: marked,
            arrows: marked * floors,
            unsure: (0..CELLS).filter(ground).filter(|cell| !window.contains(cell)).count(),
        }
    }
}

/// A floor planned by a side's sector call, which wants a previous field.
fn by_sector_call(side: &dyn Subject, floor: &Costs, step: &[u8], rng: &mut Rng) -> Planned {
    let (_, numbers) = floors::previous_for(rng, step);
    let mut sheet = [0; CELLS];
    let answer = side.sector(floor, step, Previous { lent: true, numbers: &numbers }, &mut sheet);
    (answer.field.field, sheet)
}

/// The arrow of a flow byte, which must be one of eight, of a byte that no wall has, and the same as before.
fn arrow(byte: u8, before: u8) -> Result<u8, String> {
    match byte % 16 {
        _ if byte / 16 != 1 => Err(format!("{byte:#04x} is not the byte of a floor with an arrow")),
        0 | 5 | 7 | 10 | 11 | 13 | 14 | 15 => Err(format!("{byte:#04x} has no arrow")),
        arrow if before != 0 && before != arrow => Err(format!("arrow {arrow:#x} where it was {before:#x}")),
        arrow => Ok(arrow),
    }
}
