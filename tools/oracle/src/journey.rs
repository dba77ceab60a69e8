//! A planned leg's arrows followed over the whole floor, to the goal's sector from the words of document 02, Job 4, and to
//! the goal itself, where the leg is planned without sight, from the words of that addition: by the floor's columns and rows,
//! 80 by 80, and by an arrow's bits, N 1, E 2, S 4, W 8. What finds a facing cell or the sector across a boundary plays no
//! part here, nor does the model.

use std::fmt;

use crate::subject::CELLS;

/// In so many moves, crossings counted, the cart must be in the goal's sector.
pub const MOST_MOVES: usize = 1_500;

/// Where following ends.
#[derive(Clone, Copy, PartialEq, Eq, Debug)]
pub enum End {
    /// In the goal's sector.
    GoalsSector,
    /// At the goal itself.
    Goal,
}

impl End {
    /// In so many moves from the sector of step k, from 0, crossings counted, the cart must be there.
    fn most_moves(self, k: usize) -> usize {
        match self {
            End::GoalsSector => MOST_MOVES,
            End::Goal => 99 * (k + 1) + k,
        }
    }
}

/// A place on the floor; row 0 is north, column 0 is west.
#[derive(Clone, Copy, PartialEq, Eq)]
struct Place {
    column: usize,
    row: usize,
}

impl fmt::Display for Place {
    fn fmt(&self, f: &mut fmt::Formatter) -> fmt::Result {
        write!(f, "cell {} of sector {}", self.cell(), self.sector())
    }
}

impl Place {
    fn of(sector: usize, cell: usize) -> Self {
        Place { column: sector % 8 * 10 + cell % 10, row: sector / 8 * 10 + cell / 10 }
    }

    fn sector(self) -> usize {
        self.row / 10 * 8 + self.column / 10
    }

    fn cell(self) -> usize {
        self.row % 10 * 10 + self.column % 10
    }

    /// Where the place has its byte, in a floor and in a sheet.
    fn byte(self) -> usize {
        self.sector() * CELLS + self.cell()
    }

    /// The place that a byte's arrow points at: none where it points nowhere, to two opposite sides or off the floor.
    fn pointed(self, byte: u8) -> Option<Place> {
        let [north, east, south, west] = [1, 2, 4, 8].map(|bit| usize::from(byte & bit != 0));
        let (sides, opposite) = (north + east + south + west, north + south == 2 || east + west == 2);
        let column = (self.column + east).checked_sub(west)?;
        let row = (self.row + south).checked_sub(north)?;
        (sides > 0 && !opposite && column < 80 && row < 80).then_some(Place { column, row })
    }

    /// Whether a move from here is diagonal.
    fn diagonal(self, to: Place) -> bool {
        self.column != to.column && self.row != to.row
    }
}

/// A planned leg: its floor and steps, the field that its judge built at each step, the sheet that is followed, and where to.
/// A sector by itself is a leg of one step, in sector 0.
#[derive(Clone, Copy)]
pub struct PlannedLeg<'a> {
    pub floor: &'a [u8],
    pub steps: &'a [u8],
    pub built: &'a [[u32; CELLS]],
    pub sheet: &'a [u8],
    pub end: End,
}

/// What was followed.
#[derive(Clone, Copy, Default, PartialEq, Eq, Debug)]
pub struct Followed {
    pub legs: usize,
    /// Legs followed from the sixteenth of their sectors.
    pub of_sixteen: usize,
    /// Cells from which arrows were followed, each to where following ends.
    pub cells: usize,
    /// Moves that crossed a window straight, or diagonally.
    pub straight: usize,
    pub diagonal: usize,
    /// The moves of the longest journey, crossings counted.
    pub longest: usize,
}

impl Followed {
    pub fn add(&mut self, other: &Followed) {
        self.legs += other.legs;
        self.of_sixteen += other.of_sixteen;
        self.cells += other.cells;
        self.straight += other.straight;
        self.diagonal += other.diagonal;
        self.longest = self.longest.max(other.longest);
    }

    /// What has to have been followed, and was not.
    pub fn lacks(&self) -> Option<&'static str> {
        let needed = [
            (self.cells, "a cell to follow"),
            (self.straight, "a straight crossing"),
            (self.diagonal, "a diagonal crossing"),
            (self.of_sixteen, "a leg of 16 steps"),
        ];
        needed.into_iter().find(|(count, _)| *count == 0).map(|(_, what)| what)
    }
}

impl fmt::Display for Followed {
    fn fmt(&self, f: &mut fmt::Formatter) -> fmt::Result {
        write!(f, "{} cells of {} legs, {} of them of 16 steps; ", self.cells, self.legs, self.of_sixteen)?;
        write!(f, "crossings straight {}, diagonal {}; ", self.straight, self.diagonal)?;
        write!(f, "longest journey {} moves", self.longest)
    }
}

impl PlannedLeg<'_> {
    /// The bytes of a step, from 0.
    fn step(&self, k: usize) -> &[u8] {
        &self.steps[8 * k..8 * (k + 1)]
    }

    fn sector(&self, k: usize) -> usize {
        usize::from(self.step(k)[0])
    }

    fn built_cost(&self, k: usize, place: Place) -> u32 {
        self.built[k][place.cell()] % 65536
    }

    fn reached(&self, k: usize, place: Place) -> bool {
        self.built_cost(k, place) < 65535
    }

    fn wall(&self, place: Place) -> bool {
        self.floor[place.byte()] == 255
    }

    /// Whether a place lies in the window of a step.
    fn in_window(&self, k: usize, place: Place) -> bool {
        let step = self.step(k);
        let [first, last] = [3, 4].map(|byte| Place::of(self.sector(k), usize::from(step[byte])));
        (first.column..=last.column).contains(&place.column) && (first.row..=last.row).contains(&place.row)
    }

    /// Whether following ends at a place of the sector of step k.
    fn ends(&self, k: usize, at: Place) -> bool {
        k == 0 && (self.end == End::GoalsSector || at.cell() == usize::from(self.step(0)[1]))
    }

    /// What is wrong with a move inside the sector of a step.
    fn fault_inside(&self, k: usize, from: Place, to: Place) -> Option<&'static str> {
        let beside = [Place { row: from.row, ..to }, Place { column: from.column, ..to }];
        let walls = beside.into_iter().filter(|place| from.diagonal(to) && self.wall(*place)).count();
        if self.built_cost(k, to) >= self.built_cost(k, from) {
            Some("goes to a cell of no lower cost")
        } else if walls == 2 {
            Some("cuts between two walls")
        } else if walls == 1 && self.end == End::Goal {
            Some("passes a wall diagonally")
        } else {
            None
        }
    }

    /// What is wrong with a move out of the sector of a step. Where no cost is 0, the window cells that count are those
    /// of built cost 0.
    fn fault_crossing(&self, k: usize, from: Place, to: Place) -> Option<&'static str> {
        if k == 0 {
            Some("leaves the goal's sector")
        } else if to.sector() != self.sector(k - 1) {
            Some("crosses into another sector than the one listed before")
        } else if !self.reached(k - 1, to) {
            Some("crosses into a cell that is not reached")
        } else if !self.in_window(k, from) {
            Some("crosses beside the window")
        } else if self.built_cost(k, from) != 0 {
            Some("crosses from a window cell that does not count")
        } else {
            None
        }
    }

    /// Follows the arrows from a cell of the sector of step k, from 0, to the goal's sector, that of step 0, or to the goal.
    pub fn journey(&self, k: usize, cell: usize) -> Result<Followed, String> {
        let (start, most) = (Place::of(self.sector(k), cell), self.end.most_moves(k));
        let (mut k, mut at, mut made) = (k, start, Followed { cells: 1, ..Followed::default() });
        while !self.ends(k, at) {
            let fault = |fault: &str| format!("from {start}, move {}, which leaves {at}, {fault}", made.longest + 1);
            if made.longest == most {
                return Err(fault("is one too many"));
            }
            let to = at.pointed(self.sheet[at.byte()]).ok_or_else(|| fault("has no place to go to"))?;
            let crosses = to.sector() != at.sector();
            let wrong = if crosses { self.fault_crossing(k, at, to) } else { self.fault_inside(k, at, to) };
            if let Some(wrong) = wrong {
                return Err(fault(wrong));
            }
            made.longest += 1;
            made.straight += usize::from(crosses && !at.diagonal(to));
            made.diagonal += usize::from(crosses && at.diagonal(to));
            k -= usize::from(crosses);
            at = to;
        }
        Ok(made)
    }

    /// Whether the sector of a step has no cost 0.
    fn without_zero(&self, k: usize) -> bool {
        let sector = self.sector(k);
        !self.floor[sector * CELLS..(sector + 1) * CELLS].contains(&0)
    }

    /// Follows the arrows from every reached cell of every sector, but the first step's where following ends there, as far as
    /// no sector on the way has a cost 0.
    pub fn journeys(&self) -> Result<Followed, String> {
        let mut made = Followed { legs: 1, ..Followed::default() };
        let first = if self.end == End::Goal { 0 } else { 1 };
        for k in (first..self.built.len()).take_while(|k| self.without_zero(*k)) {
            let sector = self.sector(k);
            for cell in (0..CELLS).filter(|cell| self.reached(k, Place::of(sector, *cell))) {
                made.add(&self.journey(k, cell)?);
            }
            made.of_sixteen += usize::from(k == 15);
        }
        Ok(made)
    }
}
