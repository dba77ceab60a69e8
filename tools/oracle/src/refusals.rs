//! The table of document 01 ("A leg, the added entry") with 16 to 20 of document 02, Jobs 3, 8, 9 and 13, read from those
//! pages alone: each row a number and a condition, in the pages' order. 15 (02, Job 2) comes after 10 and is found by planning:
//! the model has it. The numbers of a cart's calls and of a leg's field, 21 among them, are our own addition.

use std::ops::Index;

use crate::subject::{IntegrationField, Previous};

/// The number of a step whose goal, or some window cell, is of cost 255.
pub const ON_WALL: u8 = 16;

/// The number of a window step in the sector call that comes without a previous field.
pub const FIELDLESS: u8 = 17;

/// The number of two floors that are no from-to, or of a step without window beside them.
pub const NO_RANGE: u8 = 18;

/// The number of a list of windows that has fewer than 2 or more than 8 steps.
pub const NOT_2_TO_8: u8 = 19;

/// The number of a list of windows with a step without window, or in another sector than the first's.
pub const NO_WINDOW_THERE: u8 = 20;

/// The number of a place beyond the steps of a leg (our own addition).
pub const NO_STEP_THERE: u8 = 21;

/// What a call was lent or given. What a call does not have stands as `None` or empty, and no row
/// that speaks of it can hold.
#[derive(Clone, Copy, Default)]
pub struct Given<'a> {
    /// The call is a leg: its floor and sheet hold 6,400 bytes, its steps are a list.
    pub leg: bool,
    /// The call is one of windows in one sector: its steps are a list, and its costs those of that sector.
    pub windows: bool,
    /// The cost bytes, of a sector or of a floor.
    pub costs: Option<&'a [u8]>,
    /// The cost bytes of the high one of two floors, whose low one is `costs`.
    pub high: Option<&'a [u8]>,
    /// The length of the sheet: what it holds is never judged.
    pub sheet: Option<usize>,
    pub steps: Option<&'a [u8]>,
    pub by_hand: Option<&'a IntegrationField>,
    pub previous: Option<Previous<'a>>,
    pub coordinates: &'a [usize],
    /// A cart's sector and cell: its sheet holds 6,400 bytes.
    pub cart: Option<[u8; 2]>,
    /// The place of a step in a leg's list.
    pub place: Option<usize>,
}

impl Given<'_> {
    /// Whether the call is the sector call, the one that has both costs and a place for a previous field.
    pub fn is_sector_call(&self) -> bool {
        self.costs.is_some() && self.previous.is_some()
    }

    /// Whether the call is the one for bounds, which has two floors.
    pub fn is_bounds_call(&self) -> bool {
        self.high.is_some()
    }

    /// The costs of each cell on the two floors; none where the call has one floor.
    pub fn from_to(&self) -> impl Iterator<Item = (u8, u8)> {
        let [low, high] = [self.costs, self.high].map(|floor| floor.unwrap_or(&[]));
        low.iter().copied().zip(high.iter().copied())
    }

    /// Whether a previous field could be lent, and none is.
    pub fn is_fieldless(&self) -> bool {
        self.previous.is_some_and(|previous| !previous.lent)
    }

    /// How many whole steps there are.
    pub fn step_count(&self) -> usize {
        self.steps.map_or(0, |steps| steps.len() / 8)
    }

    /// Whether the first of the steps, if there is one, has a window.
    pub fn has_window(&self) -> bool {
        self.steps.and_then(|steps| steps.get(2)) == Some(&1)
    }
}

/// A step as it is judged: its 8 bytes, and the cost bytes of the sector that it names, none where the call has none
/// or the sector is not on the floor; those of the high floor, where there are two; and in a list of windows the first step.
#[derive(Clone, Copy)]
pub struct Judged<'a> {
    pub step: &'a [u8],
    pub costs: &'a [u8],
    pub high: &'a [u8],
    pub first: Option<&'a [u8]>,
}

impl Judged<'_> {
    /// Whether a cell of the step's sector is of cost 255, on either of two floors; none is where the call has no costs.
    pub fn is_wall(&self, cell: usize) -> bool {
        [self.costs, self.high].iter().any(|costs| costs.get(cell) == Some(&255))
    }

    /// Whether the goal or some window cell is.
    pub fn on_wall(&self) -> bool {
        named_cells(self.step).iter().any(|cell| self.is_wall(*cell))
    }

    /// Whether a list of windows has the step without window, or in another sector than the first's.
    pub fn no_window_there(&self) -> bool {
        self.first.is_some_and(|first| self[2] != 1 || self[0] != first[0])
    }
}

/// A byte of the step.
impl Index<usize> for Judged<'_> {
    type Output = u8;

    fn index(&self, byte: usize) -> &u8 {
        &self.step[byte]
    }
}

/// A row of the table: its number, and whether its condition holds.
pub struct Row<T: ?Sized> {
    pub number: u8,
    pub holds: fn(&T) -> bool,
}

/// The table, a field for each of its places.
pub struct Table<'a> {
    /// "lent memory" and "step list"
    pub lent: [Row<Given<'a>>; 4],
    /// A leg's field, behind 3.
    pub leg_field: [Row<Given<'a>>; 1],
    /// A cart's calls.
    pub cart: [Row<Given<'a>>; 2],
    /// "each step"
    pub each_step: [Row<Judged<'a>>; 7],
    /// "in the sector call alone, after 16" (02, Job 8)
    pub sector_call: [Row<Given<'a>>; 1],
    /// "after 16, which looks at both floors" (02, Job 9)
    pub bounds_call: [Row<Given<'a>>; 1],
    /// "whole leg"
    pub whole_leg: [Row<[u8]>; 2],
    /// "building by hand", "flow by hand, sector call" and "line calls"
    pub others: [Row<Given<'a>>; 3],
}

impl<'a> Table<'a> {
    /// The table as the documents have it.
    pub fn documents() -> Self {
        Table {
            lent: [
                Row { number: 1, holds: |g| [g.costs, g.high].iter().flatten().any(|costs| costs.len() != size(g)) },
                Row { number: 2, holds: |g| g.sheet.is_some_and(|length| length != size(g)) },
                Row { number: 3, holds: |g| g.steps.is_some_and(|steps| !step_list_fits(g, steps.len())) },
                Row { number: NOT_2_TO_8, holds: |g| g.windows && !(2..=8).contains(&g.step_count()) },
            ],
            leg_field: [Row { number: NO_STEP_THERE, holds: |g| g.place.is_some_and(|place| place >= g.step_count()) }],
            cart: [
                Row { number: 4, holds: |g| g.cart.is_some_and(|[sector, _]| sector > 63) },
                Row { number: 5, holds: |g| g.cart.is_some_and(|[_, cell]| cell > 99) },
            ],
            each_step: [
                Row { number: 4, holds: |s| s[0] > 63 || s[2] > 1 || s[6] != 0 || s[7] != 0 },
                Row { number: 5, holds: |s| s[2] == 0 && s[1] > 99 },
                Row { number: 6, holds: |s| s[2] == 1 && (s[3] > 99 || s[4] > 99 || s[5] > 3) },
                Row { number: 7, holds: |s| s[2] == 1 && !(on_edge(s[3], s[5]) && on_edge(s[4], s[5])) },
                Row { number: 8, holds: |s| s[2] == 1 && s[3] > s[4] },
                Row { number: ON_WALL, holds: |s| s.on_wall() },
                Row { number: NO_WINDOW_THERE, holds: |s| s.no_window_there() },
            ],
            sector_call: [Row {
                number: FIELDLESS,
                holds: |g| g.is_sector_call() && g.has_window() && g.is_fieldless(),
            }],
            bounds_call: [Row {
                number: NO_RANGE,
                holds: |g| g.is_bounds_call() && (!g.has_window() || g.from_to().any(is_no_range)),
            }],
            whole_leg: [
                Row { number: 9, holds: |steps| !goal_then_windows(steps) || named_twice(steps) },
                Row { number: 10, holds: |steps| !each_faces_the_one_before(steps) },
            ],
            others: [
                Row { number: 11, holds: |g| g.by_hand.is_some_and(|field| !corners_fit(field)) },
                Row { number: 12, holds: |g| g.previous.is_some_and(|p| p.lent && p.numbers.len() != 100) },
                Row { number: 13, holds: |g| g.coordinates.iter().any(|x| *x > 9) },
            ],
        }
    }

    /// The number that a call gets: of the first row that holds, down the table, 4 to 8, 16 and 20 for one step
    /// before the next step, then 17 or 18; 0 where none holds.
    pub fn number(&self, given: &Given<'a>) -> u8 {
        let steps = given.steps.unwrap_or(&[]);
        first(&self.lent, given)
            .or_else(|| first(&self.leg_field, given))
            .or_else(|| first(&self.cart, given))
            .or_else(|| each(given).find_map(|step| first(&self.each_step, &step)))
            .or_else(|| first(&self.sector_call, given))
            .or_else(|| first(&self.bounds_call, given))
            .or_else(|| if given.leg { first(&self.whole_leg, steps) } else { None })
            .or_else(|| first(&self.others, given))
            .unwrap_or(0)
    }
}

/// The number of the first row that holds.
pub fn first<T: ?Sized>(rows: &[Row<T>], of: &T) -> Option<u8> {
    rows.iter().find(|row| (row.holds)(of)).map(|row| row.number)
}

/// Each step of a call, with the costs of its sector.
pub fn each<'a>(given: &Given<'a>) -> impl Iterator<Item = Judged<'a>> {
    let [costs, high] = [given.costs, given.high].map(|floor| floor.unwrap_or(&[]));
    let (leg, steps) = (given.leg, given.steps.unwrap_or(&[]));
    let first = if given.windows { steps.get(..8) } else { None };
    steps.chunks(8).map(move |step| {
        let at = if leg { 100 * usize::from(step[0]) } else { 0 };
        Judged { step, costs: costs.get(at..at + 100).unwrap_or(&[]), high, first }
    })
}

/// The number that the documents give a call.
pub fn number(given: &Given) -> u8 {
    Table::documents().number(given)
}

/// The goal's cell of a step, or its window's from first to last: in a row on North and South, in a column on East and West.
/// What the mark leaves unread is not looked at.
pub fn named_cells(step: &[u8]) -> Vec<usize> {
    let [goal, first, last] = [step[1], step[3], step[4]].map(usize::from);
    let upright = step[5] % 2 == 1;
    match step[2] {
        0 => vec![goal],
        _ => (first..=last).filter(|cell| !upright || cell % 10 == first % 10).collect(),
    }
}

/// Whether two costs are no from-to: the low one above the high one, or 255 in only one of the two.
pub fn is_no_range((low, high): (u8, u8)) -> bool {
    low > high || (low == 255) != (high == 255)
}

/// The bytes of a floor that a call takes.
pub fn size(given: &Given) -> usize {
    if given.leg || given.cart.is_some() { 6400 } else { 100 }
}

/// Whether a call takes step bytes of this length.
pub fn step_list_fits(given: &Given, length: usize) -> bool {
    match (given.leg, given.windows) {
        (true, _) => length != 0 && length <= 128 && length.is_multiple_of(8),
        // "3, which here means no multiple of 8" (02, Job 13)
        (_, true) => length.is_multiple_of(8),
        _ => length == 8,
    }
}

/// North row 0, East column 9, South row 9, West column 0.
fn on_edge(cell: u8, boundary: u8) -> bool {
    match boundary {
        0 => cell / 10 == 0,
        1 => cell % 10 == 9,
        2 => cell / 10 == 9,
        _ => cell % 10 == 0,
    }
}

fn goal_then_windows(steps: &[u8]) -> bool {
    steps.chunks(8).enumerate().all(|(k, step)| (step[2] == 1) == (k > 0))
}

fn named_twice(steps: &[u8]) -> bool {
    let sectors: Vec<u8> = steps.chunks(8).map(|step| step[0]).collect();
    (0..sectors.len()).any(|k| sectors[..k].contains(&sectors[k]))
}

/// The sector across a boundary, sector s at column s % 8, row s / 8; none off the floor.
pub fn across(sector: u8, boundary: u8) -> Option<u8> {
    let (column, row) = (sector % 8, sector / 8);
    match boundary {
        0 if row > 0 => Some(sector - 8),
        1 if column < 7 => Some(sector + 1),
        2 if row < 7 => Some(sector + 8),
        3 if column > 0 => Some(sector - 1),
        _ => None,
    }
}

fn each_faces_the_one_before(steps: &[u8]) -> bool {
    let steps: Vec<&[u8]> = steps.chunks(8).collect();
    steps.windows(2).all(|pair| across(pair[1][0], pair[1][5]) == Some(pair[0][0]))
}

fn corners_fit(field: &IntegrationField) -> bool {
    field.count <= 100 && field.los_corners[..field.count].iter().all(|corner| *corner <= 99)
}
