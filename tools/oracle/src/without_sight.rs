//! What is promised of sectors and legs planned without sight (our own addition), held to what a side answered and wrote,
//! from the words of that addition. The number is that of the call with sight, and so are the cells that are reached; a
//! step with a window has the same field and the same bytes; 0xE0 stands exactly on walls and on cells that nothing reaches;
//! positions are 0 in each reached cell but the goal, else 255; and where no cost is 0, the arrows of every reached cell,
//! followed (`journey`), come to the goal, and the side's own call for arrivals has a number for it.

use std::fmt;

use crate::cases::{Case, Outcome};
use crate::journey::{End, Followed, PlannedLeg};
use crate::oracle::Oracle;
use crate::subject::*;

/// What was seen of calls without sight that hold what is promised.
#[derive(Clone, Copy, Default, PartialEq, Eq, Debug)]
pub struct Held {
    /// Calls of which the number was that of the call with sight, refused ones too.
    pub numbers: usize,
    /// Goal's sectors, of sector calls and of legs, and sector calls with a window.
    pub goals: usize,
    pub windows: usize,
    /// Goal's sectors with a cost 0, of whose arrows nothing is promised when they are followed; those with a floor cell that
    /// nothing reaches.
    pub with_zero: usize,
    pub closed_off: usize,
    /// Of those without a cost 0, the ones in which some reached cell never arrives with sight; these cells.
    pub lost: usize,
    pub lost_cells: usize,
    /// Sector calls with a goal of which a cell costs otherwise than with sight, and legs of which a window's cell crosses
    /// otherwise.
    pub other_costs: usize,
    pub other_crossings: usize,
    pub followed: Followed,
}

impl Held {
    pub fn add(&mut self, other: &Held) {
        self.numbers += other.numbers;
        self.goals += other.goals;
        self.windows += other.windows;
        self.with_zero += other.with_zero;
        self.closed_off += other.closed_off;
        self.lost += other.lost;
        self.lost_cells += other.lost_cells;
        self.other_costs += other.other_costs;
        self.other_crossings += other.other_crossings;
        self.followed.add(&other.followed);
    }

    /// What every group must have seen: a sector that sight leads astray, and one that it does not.
    fn needed(&self) -> [(usize, &'static str); 3] {
        [
            (self.followed.cells, "a cell to follow to the goal"),
            (self.lost, "a goal's sector with a cell that never arrives with sight"),
            ((self.goals - self.with_zero).saturating_sub(self.lost), "one of which every cell arrives with sight too"),
        ]
    }

    /// What has to have been seen of sectors and legs of any kind, and was not.
    pub fn lacks(&self) -> Option<&'static str> {
        lacking(&self.needed())
    }

    /// The same of sector calls.
    pub fn lacks_of_sectors(&self) -> Option<&'static str> {
        let more = [
            (self.windows, "a window"),
            (self.with_zero, "a goal's sector with a cost 0"),
            (self.closed_off, "one with a floor cell that nothing reaches"),
            (self.other_costs, "one with other costs than with sight"),
        ];
        lacking(&[&self.needed()[..], &more].concat())
    }

    /// The same of legs.
    pub fn lacks_of_legs(&self) -> Option<&'static str> {
        let more = [
            (self.with_zero, "a goal's sector with a cost 0"),
            (self.followed.of_sixteen, "a leg of 16 steps"),
            (self.followed.straight, "a straight crossing"),
            (self.followed.diagonal, "a diagonal crossing"),
            (self.other_crossings, "another crossing than with sight"),
        ];
        lacking(&[&self.needed()[..], &more].concat())
    }
}

fn lacking(needed: &[(usize, &'static str)]) -> Option<&'static str> {
    needed.iter().find(|(count, _)| *count == 0).map(|(_, what)| *what)
}

impl fmt::Display for Held {
    fn fmt(&self, f: &mut fmt::Formatter) -> fmt::Result {
        let Followed { cells, of_sixteen, straight, diagonal, longest, .. } = self.followed;
        write!(f, "{} numbers and {} windows as with sight; ", self.numbers, self.windows)?;
        write!(f, "{} goal's sectors, {} with a cost 0, ", self.goals, self.with_zero)?;
        write!(f, "{} with a floor cell that nothing reaches; ", self.closed_off)?;
        write!(f, "{cells} cells followed to the goal, longest way {longest} moves; ")?;
        if straight + diagonal > 0 {
            write!(f, "{of_sixteen} legs of 16 steps, crossings straight {straight}, diagonal {diagonal}, ")?;
            write!(f, "{} legs with others than with sight; ", self.other_crossings)?;
        }
        write!(f, "with sight {} of these cells, in {} sectors, never arrive", self.lost_cells, self.lost)
    }
}

/// A call without sight that is taken and has a goal: its input, its steps with the fields that its judge builds, and the
/// sheets that a side wrote, without sight and with. A sector call is a step in sector 0.
struct Taken<'a> {
    case: &'a Case,
    steps: Vec<u8>,
    built: Vec<[u32; CELLS]>,
    sheet: &'a [u8],
    with_sight: &'a [u8],
}

impl<'a> Taken<'a> {
    fn new(case: &'a Case, due: &Outcome, sheet: &'a [u8], with_sight: &'a [u8]) -> Self {
        let (steps, built) = match case.call() {
            Call::LegWithoutSight => (case.steps.clone(), Oracle.built_steps(false, &case.costs, &case.steps)),
            _ => ([&[0], &case.steps[1..]].concat(), vec![due.field.field]),
        };
        Taken { case, steps, built, sheet, with_sight }
    }

    fn planned(&self) -> PlannedLeg<'_> {
        let (floor, steps, built, sheet) = (&self.case.costs, &self.steps, &self.built, self.sheet);
        PlannedLeg { floor, steps, built, sheet, end: End::Goal }
    }

    /// What of a floor or a sheet is the sector's that step k names, from 0.
    fn part<'b>(&self, k: usize, whole: &'b [u8]) -> &'b [u8] {
        let at = usize::from(self.steps[8 * k]) * CELLS;
        &whole[at..at + CELLS]
    }

    fn costs(&self, k: usize) -> &[u8] {
        self.part(k, &self.case.costs)
    }

    /// The cells of a sector that are reached.
    fn reached(&self, k: usize) -> impl Iterator<Item = usize> {
        (0..CELLS).filter(move |cell| is_reached(self.built[k][*cell]))
    }

    /// 0xE0 stands exactly on walls and on cells that nothing reaches, and with sight on the same cells.
    fn marked(&self, k: usize) -> Result<(), String> {
        let [bytes, with_sight] = [self.sheet, self.with_sight].map(|sheet| self.part(k, sheet));
        for cell in 0..CELLS {
            let due = self.costs(k)[cell] == 255 || !is_reached(self.built[k][cell]);
            if (bytes[cell] == 0xE0) != due {
                return Err(format!("step {k}: cell {cell} has {:#04x}, and is reached: {}", bytes[cell], !due));
            }
            if (with_sight[cell] == 0xE0) != due {
                return Err(format!("step {k}: cell {cell} has {:#04x} with sight", with_sight[cell]));
            }
        }
        Ok(())
    }

    /// The side's call for arrivals has a number for each reached cell of a sector without a cost 0; in the goal's sector it is
    /// that of the moves that are followed.
    fn arrives(&self, k: usize, side: &dyn Subject) -> Result<(), String> {
        if self.costs(k).contains(&0) {
            return Ok(());
        }
        let moves = side.arrivals(self.part(k, self.sheet)).moves;
        for cell in self.reached(k) {
            let wrong = match k {
                0 => self.planned().journey(0, cell)?.longest != usize::from(moves[cell]),
                _ => moves[cell] == NEVER,
            };
            if wrong {
                return Err(format!("step {k}: cell {cell} arrives after {} moves, by arrivals", moves[cell]));
            }
        }
        Ok(())
    }

    /// How many reached cells of the goal's sector never arrive with sight.
    fn lost(&self, side: &dyn Subject) -> usize {
        let moves = side.arrivals(self.part(0, self.with_sight)).moves;
        self.reached(0).filter(|cell| moves[*cell] == NEVER).count()
    }

    /// Whether a window's cell crosses otherwise than with sight.
    fn crosses_otherwise(&self) -> bool {
        let is_portal = |byte: u8| byte & 0x90 == 0x90;
        (1..self.built.len()).any(|k| {
            let [bytes, others] = [self.sheet, self.with_sight].map(|sheet| self.part(k, sheet));
            bytes.iter().zip(others).any(|(byte, other)| is_portal(*byte) && byte != other)
        })
    }

    /// Holds the sheet to what is promised.
    fn held(&self, side: &dyn Subject) -> Result<Held, String> {
        for k in 0..self.built.len() {
            self.marked(k)?;
            self.arrives(k, side)?;
        }
        let is_zero = self.costs(0).contains(&0);
        let lost = if is_zero { 0 } else { self.lost(side) };
        let floor = self.costs(0).iter().filter(|cost| **cost != 255).count();
        Ok(Held {
            goals: 1,
            with_zero: usize::from(is_zero),
            closed_off: usize::from(self.reached(0).count() < floor),
            lost: usize::from(lost > 0),
            lost_cells: lost,
            other_crossings: usize::from(self.crosses_otherwise()),
            followed: self.planned().journeys()?,
            ..Held::default()
        })
    }
}

fn is_reached(value: u32) -> bool {
    value % 65536 < 65535
}

/// Whether a call that is taken has a goal, as every leg has.
fn has_goal(case: &Case) -> bool {
    case.call() == Call::LegWithoutSight || case.steps[2] == 0
}

/// Follows the arrows that a side wrote of a call that is taken from every reached cell to the goal, and nothing else.
pub fn followed(case: &Case, due: &Outcome, outcome: &Outcome) -> Result<Followed, String> {
    if !has_goal(case) {
        return Ok(Followed::default());
    }
    Taken::new(case, due, &outcome.sheet, &[]).planned().journeys()
}

/// Holds the field that a sector call with a goal answers to its words, beside the field with sight: the goal at 0, the same
/// cells reached, positions. Answers whether some cell costs otherwise than with sight.
fn field_held(goal: usize, field: &IntegrationField, with_sight: &IntegrationField) -> Result<bool, String> {
    for cell in 0..CELLS {
        let [value, other] = [field, with_sight].map(|field| field.field[cell]);
        if is_reached(value) != is_reached(other) || (cell == goal && value % 65536 != 0) {
            return Err(format!("cell {cell} holds {value:#x}, and with sight {other:#x}"));
        }
        let due = if is_reached(value) && cell != goal { 0 } else { NO_POSITION };
        if field.positions[cell] != due {
            return Err(format!("the position of cell {cell} is {}", field.positions[cell]));
        }
    }
    Ok((0..CELLS).any(|cell| field.field[cell] % 65536 != with_sight.field[cell] % 65536))
}

/// Holds what a side answered and wrote of a call without sight to what is promised of it.
pub fn held(case: &Case, due: &Outcome, outcome: &Outcome, side: &dyn Subject) -> Result<Held, String> {
    let with_sight = case.clone().with_sight().run(side);
    if with_sight.number != outcome.number {
        return Err(format!("the number is {}, and with sight {}", outcome.number, with_sight.number));
    }
    let alone = Held { numbers: 1, ..Held::default() };
    if due.number != 0 || outcome.number != 0 {
        return Ok(alone);
    }
    if !has_goal(case) {
        let same = with_sight == *outcome;
        return if same { Ok(Held { windows: 1, ..alone }) } else { Err("a window is planned otherwise".to_string()) };
    }
    let mut held = Taken::new(case, due, &outcome.sheet, &with_sight.sheet).held(side)?;
    if case.call() == Call::SectorWithoutSight {
        held.other_costs = field_held(case.steps[1].into(), &outcome.field, &with_sight.field)?.into();
    }
    Ok(Held { numbers: 1, ..held })
}
