//! Flow bytes (01, "Flow byte") and their readers.

use super::integration::window_cells;
use super::{EAST, Model, NORTH, SOUTH, Slip, WEST, beside, walls_beside_move};
use crate::subject::*;

/// Low halves toward N, E, S, W, NE, SE, SW, NW.
pub(crate) const BITS: [u8; 8] = [1, 2, 4, 8, 1 + 2, 4 + 2, 4 + 8, 1 + 8];

const PATHABLE: u8 = 0x10;
const WALL: u8 = 0xE0;
pub(super) const PORTAL_START: u8 = 0x90;

fn has(value: u32, flag: u32) -> bool {
    value / flag % 2 == 1
}

fn low(value: u32) -> u32 {
    value % 0x10000
}

/// The directions of a window cell's lower and higher side.
pub(super) fn sides_along(boundary: usize) -> (usize, usize) {
    if boundary.is_multiple_of(2) { (WEST, EAST) } else { (NORTH, SOUTH) }
}

impl Model {
    /// The bytes that `new` leaves, with bits for these of the step's window cells.
    pub(super) fn starting_bytes(
        &self,
        step: &[u8],
        cells: &[usize],
        field: &[u32; CELLS],
        previous: Option<&[u32]>,
    ) -> [u8; CELLS] {
        let mut bytes = field.map(|value| self.starting_byte(value));
        let window = window_cells(step);
        let boundary = usize::from(step[5]);
        let looks = window.len() > 1 || self.slips(Slip::OneCellLooks);
        for cell in cells {
            let bits = match previous {
                Some(facing) if looks && !self.slips(Slip::WindowByBoundary) => {
                    self.toward_least(*cell, boundary, &window, facing)
                }
                _ => BITS[boundary],
            };
            bytes[*cell] = if self.slips(Slip::WindowBitsSet) { PORTAL_START + bits } else { bytes[*cell] | bits };
        }
        bytes
    }

    fn starting_byte(&self, value: u32) -> u8 {
        let mut starts = [(GOAL, 0x70), (PORTAL, PORTAL_START), (LOS, 0x30), (IMPASSABLE, WALL)];
        match self.slip {
            Slip::PortalBeforeGoal => starts.swap(0, 1),
            Slip::WallBeforeSight => starts.swap(2, 3),
            _ => {}
        }
        starts.into_iter().find(|(flag, _)| has(value, *flag)).map_or(0, |(_, byte)| byte)
    }

    /// The bits of a window cell that looks at the cells facing it.
    fn toward_least(&self, cell: usize, boundary: usize, window: &[usize], previous: &[u32]) -> u8 {
        let (lower, higher) = sides_along(boundary);
        let seen = |side: Option<usize>| {
            let looked = side.filter(|x| window.contains(x) || self.slips(Slip::OneCellLooks));
            looked.map_or(u32::MAX, |x| self.facing_value(x, boundary, previous, self.slips(Slip::FacingWithFlags)))
        };
        let straight = seen(Some(cell));
        let sides = [seen(beside(cell, lower)), seen(beside(cell, higher))];
        let wall_across = has(self.facing_value(cell, boundary, previous, true), IMPASSABLE);
        let not_above = match self.slip {
            Slip::StraightOnlyBelow => straight < sides[0] && straight < sides[1],
            Slip::FacingBarred if wall_across => true,
            _ => straight <= sides[0] && straight <= sides[1],
        };
        let take_lower = if self.slips(Slip::HigherSideFirst) {
            !(sides[1] <= straight && sides[1] <= sides[0])
        } else {
            sides[0] <= straight && sides[0] <= sides[1]
        };
        BITS[boundary] + if not_above { 0 } else { BITS[if take_lower { lower } else { higher }] }
    }

    /// What the previous field holds in the cell across the boundary: its low 16 bits, or all where a slip wants them.
    pub(super) fn facing_value(&self, cell: usize, boundary: usize, previous: &[u32], flags: bool) -> u32 {
        let (column, row) = (cell % 10, cell / 10);
        let facing = match boundary {
            NORTH => 90 + column,
            EAST => row * 10,
            SOUTH => column,
            _ => row * 10 + 9,
        };
        let at = if self.slips(Slip::FacingMirrored) { cell } else { facing };
        if flags { previous[at] } else { low(previous[at]) }
    }

    /// The byte that `build` leaves where it found `old`.
    pub(super) fn looked(&self, cells: &[u32; CELLS], cell: usize, old: u8) -> u8 {
        let walled = if self.slips(Slip::WallFlagFirst) { old & WALL != 0 } else { old & WALL == WALL };
        if old & PATHABLE != 0 || walled {
            return old;
        }
        let start = if self.slips(Slip::OldByteLost) { 0 } else { old };
        let mut best: Option<(u32, u8)> = None;
        let mut unreached = false;
        for direction in self.looks() {
            let Some(there) = beside(cell, direction).filter(|there| !self.passed_over(cells, cell, *there)) else {
                continue;
            };
            let far = low(cells[there]) == 65535;
            let taken = self.taken_at_once(cells[there]);
            if taken && !(far && self.slips(Slip::UnreachedFirst)) {
                best = Some((0, BITS[direction]));
                if self.slips(Slip::GoalGoesOn) {
                    continue;
                }
                break;
            }
            if far && self.slips(Slip::UnreachedPassedOver) {
                continue;
            }
            if far {
                unreached = true;
                break;
            }
            best = self.better(best, low(cells[there]), BITS[direction]);
        }
        if unreached && self.slips(Slip::BestDropped) {
            best = None;
        }
        let walled = if unreached || best.is_none() { WALL } else { 0 };
        start | walled | best.map_or(0, |(_, bits)| PATHABLE | bits)
    }

    fn looks(&self) -> [usize; 8] {
        if self.slips(Slip::DiagonalsFirst) { [4, 5, 6, 7, 0, 1, 2, 3] } else { [0, 1, 2, 3, 4, 5, 6, 7] }
    }

    fn taken_at_once(&self, value: u32) -> bool {
        has(value, GOAL) || (has(value, PORTAL) && !self.slips(Slip::PortalNotTaken))
    }

    /// Walls, and diagonals with a wall beside them.
    pub(super) fn passed_over(&self, cells: &[u32; CELLS], from: usize, to: usize) -> bool {
        let wall = |cell: usize| has(cells[cell], IMPASSABLE);
        let [in_row, in_column] = walls_beside_move(from, to, wall);
        let barred = match self.slip {
            Slip::TwoWallsBar => in_row && in_column,
            Slip::LookSeesRow => in_row,
            Slip::WallsNotSeen => false,
            _ => in_row || in_column,
        };
        wall(to) || barred
    }

    /// Strictly least, earliest.
    fn better(&self, best: Option<(u32, u8)>, value: u32, bits: u8) -> Option<(u32, u8)> {
        match best {
            Some((least, _)) if least < value => best,
            Some((least, _)) if least == value && !self.slips(Slip::BestLessOrEqual) => best,
            _ => Some((value, bits)),
        }
    }

    pub(super) fn read(&self, byte: u8) -> Readings {
        let is_pathable = byte & PATHABLE != 0;
        let pathable = is_pathable || self.slips(Slip::ReadersIgnorePathable);
        let direction = BITS.iter().position(|bits| *bits == byte % 16).unwrap_or(8);
        Readings {
            is_pathable,
            is_goal: byte & 0x40 != 0 && pathable,
            is_portal_goal: byte & 0x80 != 0 && pathable,
            has_line_of_sight: byte & 0x20 != 0 && pathable,
            is_wall: byte & WALL == WALL && !is_pathable,
            direction: if byte % 16 == 5 && self.slips(Slip::SumsOfThreeRead) { 0 } else { direction as u8 },
        }
    }
}
