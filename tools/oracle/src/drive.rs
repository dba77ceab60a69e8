//! A cart driven by a side's own calls (our own addition), held to the words of that addition: a way is moves one after the
//! other; over the sheet of a planned leg moves from a reached cell come into the goal's sector, in at most 1,500, and where
//! it was planned without sight to the goal cell, in at most 1,599, where the call says arrived. The model plays no part here.

use std::fmt;

use crate::cases::Case;
use crate::oracle::Oracle;
use crate::subject::*;

/// In so many moves a cart must be in the goal's sector, and at the goal where the leg was planned without sight.
const INTO_SECTOR: usize = 1_500;
const TO_GOAL: usize = 1_599;

/// No way that ends has more moves.
const MOST_MOVES: usize = 6_399;

/// What was driven.
#[derive(Clone, Copy, Default, PartialEq, Eq, Debug)]
pub struct Driven {
    /// Ways that were held to moves one after the other; those of them that never end; the most moves of one that does.
    pub ways: usize,
    pub never: usize,
    pub longest: usize,
    /// Reached cells of planned legs from which moves came into the goal's sector, and the most moves of one.
    pub into: usize,
    pub longest_into: usize,
    /// The same to the goal, with arrived there.
    pub to_goal: usize,
    pub longest_to_goal: usize,
}

impl Driven {
    pub fn add(&mut self, other: &Driven) {
        self.ways += other.ways;
        self.never += other.never;
        self.longest = self.longest.max(other.longest);
        self.into += other.into;
        self.longest_into = self.longest_into.max(other.longest_into);
        self.to_goal += other.to_goal;
        self.longest_to_goal = self.longest_to_goal.max(other.longest_to_goal);
    }

    /// What has to have been driven over the sheets of planned legs, and was not.
    pub fn lacks_of_legs(&self, sight: bool) -> Option<&'static str> {
        match sight {
            _ if self.into == 0 => Some("a cell to drive into the goal's sector"),
            true if self.never == 0 => Some("a reached cell from which a way never ends"),
            true if self.never == self.ways => Some("a reached cell from which a way ends"),
            false if self.to_goal == 0 => Some("a cell to drive to the goal"),
            _ => None,
        }
    }

    /// The same over any sheets.
    pub fn lacks_of_ways(&self) -> Option<&'static str> {
        match self {
            Driven { never: 0, .. } => Some("a way that never ends"),
            driven if driven.longest < MOST_MOVES => Some("a way of 6,399 moves"),
            _ => None,
        }
    }
}

impl fmt::Display for Driven {
    fn fmt(&self, f: &mut fmt::Formatter) -> fmt::Result {
        let Driven { ways, never, longest, into, longest_into, to_goal, longest_to_goal } = self;
        write!(f, "{ways} ways as moves one after the other, {never} never end, longest {longest} moves")?;
        if *into > 0 {
            write!(f, "; {into} reached cells into the goal's sector, longest {longest_into} moves")?;
        }
        if *to_goal > 0 {
            write!(f, "; {to_goal} to the goal, longest {longest_to_goal} moves")?;
        }
        Ok(())
    }
}

/// A sector and a cell.
type At = [u8; 2];

/// Where a byte stands in a sheet.
fn index([sector, cell]: At) -> usize {
    CELLS * usize::from(sector) + usize::from(cell)
}

/// What is known of the way from a place.
#[derive(Clone, Copy)]
enum Way {
    Unknown,
    /// It is being followed, from this place.
    Begun,
    /// It comes again to a place.
    Never,
    Ends {
        outcome: u8,
        at: At,
        moves: u16,
    },
}

/// A side's moves over a sheet, each asked for once, and the ways that they make.
struct Moves<'a> {
    side: &'a dyn Subject,
    sheet: &'a [u8],
    known: Vec<Option<CartMove>>,
    ways: Vec<Way>,
}

impl<'a> Moves<'a> {
    fn new(side: &'a dyn Subject, sheet: &'a [u8]) -> Self {
        Moves { side, sheet, known: vec![None; sheet.len()], ways: vec![Way::Unknown; sheet.len()] }
    }

    /// The move from a place, which is taken and, where the cart stands still, answers that place.
    fn from(&mut self, [sector, cell]: At) -> Result<CartMove, String> {
        let known = self.known.get_mut(index([sector, cell]));
        let known = known.ok_or_else(|| format!("moved to sector {sector}, cell {cell}"))?;
        let answer = *known.get_or_insert_with(|| self.side.next_move(self.sheet, sector, cell));
        let stays = [answer.sector, answer.cell] == [sector, cell];
        if answer.number != 0 || (answer.outcome == outcome::MOVED) == stays || answer.outcome > outcome::IN_SIGHT {
            return Err(format!("the move from sector {sector}, cell {cell} is {answer:?}"));
        }
        Ok(answer)
    }

    /// Follows moves one after the other to where they stand still, come again to a place, or go on as known.
    fn follow(&mut self, first: At) -> Result<Way, String> {
        let (mut at, mut passed) = (first, Vec::new());
        let mut found = loop {
            match self.ways[index(at)] {
                Way::Begun | Way::Never => break Way::Never,
                known @ Way::Ends { .. } => break known,
                Way::Unknown => {}
            }
            let made = self.from(at)?;
            if made.outcome != outcome::MOVED {
                self.ways[index(at)] = Way::Ends { outcome: made.outcome, at, moves: 0 };
                continue;
            }
            self.ways[index(at)] = Way::Begun;
            passed.push(at);
            at = [made.sector, made.cell];
        };
        for place in passed.into_iter().rev() {
            if let Way::Ends { moves, .. } = &mut found {
                *moves += 1;
            }
            self.ways[index(place)] = found;
        }
        Ok(found)
    }

    /// The way that moves one after the other make.
    fn way(&mut self, first: At) -> Result<CartWay, String> {
        Ok(match self.follow(first)? {
            Way::Ends { outcome, at, moves } => CartWay { number: 0, outcome, sector: at[0], cell: at[1], moves },
            _ => CartWay { number: 0, outcome: outcome::NEVER, sector: first[0], cell: first[1], moves: 0 },
        })
    }

    /// The moves from a place until `there`, all of them moved.
    fn until(&mut self, first: At, most: usize, there: impl Fn(At) -> bool) -> Result<usize, String> {
        let (mut at, mut moves) = (first, 0);
        while !there(at) {
            let made = self.from(at)?;
            if made.outcome != outcome::MOVED || moves == most {
                return Err(format!("from {first:?}, sector and cell, move {} is {made:?}", moves + 1));
            }
            at = [made.sector, made.cell];
            moves += 1;
        }
        Ok(moves)
    }

    /// Holds a way to the moves.
    fn held(&mut self, from: At, answer: CartWay) -> Result<Driven, String> {
        let due = self.way(from)?;
        if answer != due {
            return Err(format!("the way from {from:?}, sector and cell, is {answer:?}, and by moves {due:?}"));
        }
        let never = usize::from(answer.outcome == outcome::NEVER);
        Ok(Driven { ways: 1, never, longest: answer.moves.into(), ..Driven::default() })
    }
}

/// Holds the way that a side answers to its own moves.
pub fn way_held(case: &Case, answer: CartWay, side: &dyn Subject) -> Result<Driven, String> {
    Moves::new(side, &case.sheet).held(case.cart, answer)
}

/// Of ways that never end over the sheet of a leg, each of which takes as many moves as there are places, one in so many is
/// asked for.
const ONE_IN: usize = 16;

/// Drives over the sheet that a side wrote of a leg from every reached cell.
pub fn leg_held(case: &Case, sheet: &[u8], side: &dyn Subject) -> Result<Driven, String> {
    let sight = case.call() == Call::Leg;
    let built = Oracle.built_steps(sight, &case.costs, &case.steps);
    let (mut moves, mut driven) = (Moves::new(side, sheet), Driven::default());
    let (mut zero_behind_first, mut zero) = (false, false);
    let goal = [case.steps[0], case.steps[1]];
    for (k, cells) in built.iter().enumerate() {
        let sector = case.steps[8 * k];
        let is_zero = case.costs[CELLS * usize::from(sector)..][..CELLS].contains(&0);
        (zero, zero_behind_first) = (zero || is_zero, zero_behind_first || (is_zero && k > 0));
        for cell in (0..CELLS).filter(|cell| cells[*cell] % 65536 < 65535) {
            let from = [sector, cell as u8];
            let due = moves.way(from)?;
            if due.outcome != outcome::NEVER || (cell + k).is_multiple_of(ONE_IN) {
                driven.add(&moves.held(from, side.way(sheet, from[0], from[1]))?);
            }
            if !zero_behind_first && k > 0 {
                let made = moves.until(from, INTO_SECTOR, |at| at[0] == goal[0])?;
                driven.add(&Driven { into: 1, longest_into: made, ..Driven::default() });
            }
            if !zero && !sight {
                let made = moves.until(from, TO_GOAL, |at| at == goal)?;
                let at_goal = CartWay {
                    number: 0,
                    outcome: outcome::ARRIVED,
                    sector: goal[0],
                    cell: goal[1],
                    moves: made as u16,
                };
                if due != at_goal {
                    return Err(format!(
                        "the way from {from:?}, sector and cell, is {due:?}, and the goal is {goal:?}"
                    ));
                }
                driven.add(&Driven { to_goal: 1, longest_to_goal: made, ..Driven::default() });
            }
        }
    }
    Ok(driven)
}
