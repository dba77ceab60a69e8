//! Which arrows of a sheet arrive, and after how many moves (our own addition, docs/DECISIONS.md): told from the cells that have
//! arrived back along the arrows, ring by ring, and not by following any.

use super::{Model, Slip, shifted};
use crate::subject::*;

/// Why a cell never arrives.
#[derive(Clone, Copy, PartialEq, Eq, Debug)]
pub enum Lost {
    /// Its arrows run in a circle of so many cells, after so many moves into it.
    Circle { cells: usize, before: usize },
    /// They lead out of the sector.
    Leaving,
    /// They come to this byte, which has no direction.
    Standing(u8),
}

/// The bits of a low half toward N, E, S and W, each 0 or 1.
fn bits(byte: u8) -> [i32; 4] {
    [0, 1, 2, 3].map(|bit| i32::from(byte >> bit & 1))
}

fn is_direction(byte: u8) -> bool {
    let [north, east, south, west] = bits(byte);
    byte % 16 != 0 && north + south < 2 && east + west < 2
}

/// The cell that a byte points at: a row up for N, a column right for E, a row down for S, a column left for W.
fn pointed_at(byte: u8, cell: usize) -> Option<usize> {
    let [north, east, south, west] = bits(byte);
    if is_direction(byte) { shifted(cell, east - west, south - north) } else { None }
}

/// What becomes of a cell of a sheet that never arrives.
pub fn lost_by(sheet: &[u8], cell: usize) -> Lost {
    let mut passed = vec![cell];
    loop {
        let at = passed[passed.len() - 1];
        if !is_direction(sheet[at]) {
            return Lost::Standing(sheet[at]);
        }
        let Some(next) = pointed_at(sheet[at], at) else { return Lost::Leaving };
        if let Some(before) = passed.iter().position(|cell| *cell == next) {
            return Lost::Circle { cells: passed.len() - before, before };
        }
        passed.push(next);
    }
}

impl Model {
    /// "a cell whose byte reads as goal, in sight or portal goal"
    fn has_arrived(&self, byte: u8) -> bool {
        let read = |flag: u8, slip: Slip| byte & flag != 0 && !self.slips(slip);
        let flagged = read(0x40, Slip::ArrivalsGoalPassed)
            || read(0x20, Slip::ArrivalsSightPassed)
            || read(0x80, Slip::ArrivalsPortalPassed);
        match self.slip {
            Slip::ArrivalsWallsArrive => flagged,
            Slip::ArrivalsImpassablePassed => flagged && byte & 0x10 != 0 && byte < 0xE0,
            _ => flagged && byte & 0x10 != 0,
        }
    }

    /// The cell that is pointed at, or with a slip another.
    fn move_from(&self, byte: u8, cell: usize) -> Option<usize> {
        let [north, east, south, west] = bits(byte);
        match self.slip {
            Slip::ArrivalsWrapped if is_direction(byte) => {
                let next = cell as i32 + 10 * (south - north) + east - west;
                (0..CELLS as i32).contains(&next).then_some(next as usize)
            }
            Slip::ArrivalsOppositeCancel if byte % 16 != 0 => {
                shifted(cell, east - west, south - north).filter(|next| *next != cell)
            }
            Slip::ArrivalsDiagonalsRead if is_direction(byte) && north + south == 1 => shifted(cell, 0, south - north),
            _ => pointed_at(byte, cell),
        }
    }

    /// For each cell the ring that it is in: "the number of moves after which its arrows, followed, first come" there.
    pub fn arrivals_of(&self, sheet: &[u8]) -> Arrivals {
        let most = match self.slip {
            Slip::ArrivalsGivenUp => 98,
            Slip::ArrivalsHalfway => 50,
            _ => u8::MAX,
        };
        let next: Vec<Option<usize>> =
            sheet.iter().enumerate().map(|(cell, byte)| self.move_from(*byte, cell)).collect();
        let mut answer = Arrivals { number: 0, moves: [NEVER; CELLS] };
        let mut ring: Vec<usize> = (0..CELLS).filter(|cell| self.has_arrived(sheet[*cell])).collect();
        let mut moves = 0;
        while !ring.is_empty() && moves <= most {
            ring.iter().for_each(|cell| answer.moves[*cell] = moves);
            let points_there = |cell: &usize| next[*cell].is_some_and(|next| ring.contains(&next));
            ring = (0..CELLS).filter(|cell| answer.moves[*cell] == NEVER).filter(points_there).collect();
            moves += 1;
        }
        answer.moves = std::array::from_fn(|cell| self.told_moves(sheet, cell, answer.moves[cell]));
        answer
    }

    /// The number that is answered of a cell, or with a slip another.
    fn told_moves(&self, sheet: &[u8], cell: usize, moves: u8) -> u8 {
        let lost = (moves == NEVER).then(|| lost_by(sheet, cell));
        match (self.slip, lost) {
            (Slip::ArrivalsCircle, Some(Lost::Circle { .. })) => 100,
            (Slip::ArrivalsLeaving, Some(Lost::Leaving)) => 0,
            (Slip::ArrivalsStanding, Some(Lost::Standing(_))) => 0,
            (Slip::ArrivalsNeverZero, Some(_)) => 0,
            (Slip::ArrivalsHundred, None) => 100,
            (Slip::ArrivalsFromOne, None) => moves + 1,
            _ => moves,
        }
    }

    pub(super) fn refused_arrivals(&self, number: u8) -> Arrivals {
        match self.slip {
            Slip::ArrivalsOfRefusal if number != 0 => Arrivals { number, moves: [NEVER; CELLS] },
            _ => refused::arrivals(number),
        }
    }
}
