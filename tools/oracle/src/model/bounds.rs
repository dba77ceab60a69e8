//! Bounds of the built costs over all floors between two, and sure cells (02, Job 9). Floors between two that the table
//! takes have the same walls, so the same walks are permitted on each, and a walk's sum grows with the costs: the least
//! built cost is the low floor's own, the greatest the high one's. `between` builds floors between to see that it is so.

use super::integration::window_cells;
use super::{Model, Slip, beside};
use crate::subject::*;

/// What decides whether a cell is sure.
struct Ranges<'a> {
    /// The built cells of the low floor, of which the walls are read, which are those of every floor between.
    cells: [u32; CELLS],
    window: &'a [usize],
    least: [u32; CELLS],
    greatest: [u32; CELLS],
}

impl Ranges<'_> {
    fn is_window(&self, cell: usize) -> bool {
        self.window.contains(&cell)
    }

    fn is_wall(&self, cell: usize) -> bool {
        self.cells[cell] / IMPASSABLE % 2 == 1
    }

    fn is_reached(&self, cell: usize) -> bool {
        self.greatest[cell] < 65535
    }
}

impl Model {
    /// What two floors and a window step give, of which no number is due.
    pub(crate) fn bounds_between(&self, low: &[u8], high: &[u8], step: &[u8]) -> Bounds {
        let window = window_cells(step);
        let built = |costs: &[u8]| self.built(costs, &self.started(costs, step, &window)).0.field;
        let floors = match self.slip {
            Slip::BoundsOfLow => [low, low],
            Slip::BoundsOfHigh => [high, high],
            _ => [low, high],
        };
        let [cells, dearest] = floors.map(built);
        let [least, greatest] = [cells, dearest].map(|cells| cells.map(|value| value % 0x10000));
        let ranges = Ranges { cells, window: &window, least, greatest };
        let sure = std::array::from_fn(|cell| self.is_sure(&ranges, cell));
        let shown = |cells: [u32; CELLS]| std::array::from_fn(|cell| self.shown(&ranges, cells[cell], cell));
        let bounds = Bounds { number: 0, least: shown(cells), greatest: shown(dearest), sure };
        match self.slip {
            Slip::BoundsExchanged => Bounds { least: bounds.greatest, greatest: bounds.least, ..bounds },
            Slip::SureSameArrow => Bounds { sure: self.same_arrows(low, high, step), ..bounds },
            _ => bounds,
        }
    }

    /// The cost that is answered for a cell with this value.
    fn shown(&self, ranges: &Ranges, value: u32, cell: usize) -> u32 {
        match self.slip {
            Slip::BoundsWithFlags => value,
            Slip::BoundsOfWallsZero if ranges.is_wall(cell) => 0,
            Slip::BoundsOfUnreachedZero if value == 65535 => 0,
            Slip::BoundsOfWindowUnreached if ranges.is_window(cell) => 65535,
            _ => value % 0x10000,
        }
    }

    /// "marks a cell as sure exactly when a permitted neighbour is a window cell, or when the greatest cost of one reached,
    /// permitted neighbour is strictly below the least cost of all other permitted ones"; "walls and window cells are not
    /// marked"
    fn is_sure(&self, ranges: &Ranges, cell: usize) -> bool {
        let barred = (ranges.is_wall(cell) && !self.slips(Slip::SureWalls))
            || (ranges.is_window(cell) && !self.slips(Slip::SureWindowCells));
        if barred {
            return false;
        }
        if self.slips(Slip::SureIfReached) {
            return ranges.is_reached(cell);
        }
        let permitted = self.permitted(ranges, cell);
        self.beside_window(ranges, cell, &permitted)
            || permitted.iter().any(|one| self.below_others(ranges, *one, &permitted))
    }

    /// "A neighbour is permitted if the look for arrows does not pass it over."
    fn permitted(&self, ranges: &Ranges, cell: usize) -> Vec<usize> {
        let look = match self.slip {
            Slip::SurePastOneWall => Model { slip: Slip::TwoWallsBar },
            Slip::SurePastWalls => Model { slip: Slip::WallsNotSeen },
            slip => Model { slip },
        };
        let ways = if self.slips(Slip::SureOfFour) { 4 } else { 8 };
        let around = (0..ways).filter_map(|direction| beside(cell, direction));
        around.filter(|there| !look.passed_over(&ranges.cells, cell, *there)).collect()
    }

    /// Whether a permitted neighbour is a window cell.
    fn beside_window(&self, ranges: &Ranges, cell: usize, permitted: &[usize]) -> bool {
        let straight = |there: usize| there % 10 == cell % 10 || there / 10 == cell / 10;
        match self.slip {
            Slip::SureByBarredWindow => {
                (0..8).filter_map(|direction| beside(cell, direction)).any(|there| ranges.is_window(there))
            }
            Slip::SureNotByWindow => false,
            Slip::SureByStraightWindow => permitted.iter().any(|there| ranges.is_window(*there) && straight(*there)),
            _ => permitted.iter().any(|there| ranges.is_window(*there)),
        }
    }

    /// Whether the greatest cost of a reached neighbour is strictly below the least cost of all others.
    fn below_others(&self, ranges: &Ranges, one: usize, permitted: &[usize]) -> bool {
        let Ranges { least, greatest, .. } = ranges;
        let below = |other: usize| match self.slip {
            Slip::SureOrEqual => greatest[one] <= least[other],
            Slip::SureByLeast => least[one] < least[other],
            Slip::SureByGreatest => greatest[one] < greatest[other],
            Slip::SureByLeastAndGreatest => least[one] < greatest[other],
            _ => greatest[one] < least[other],
        };
        let reached = ranges.is_reached(one) || self.slips(Slip::SureByUnreached);
        let enough = permitted.len() > 1 || !self.slips(Slip::SureNotByOne);
        reached && enough && permitted.iter().filter(|other| **other != one).all(|other| below(*other))
    }

    /// The cells that are neither wall nor window cell and have the same arrow on both floors.
    fn same_arrows(&self, low: &[u8], high: &[u8], step: &[u8]) -> [bool; CELLS] {
        let window = window_cells(step);
        let [ours, theirs] = [low, high].map(|costs| self.planned(costs, step, None).2);
        let arrow = |cell: usize| (ours[cell] % 16 != 0 && ours[cell] % 16 == theirs[cell] % 16).then_some(cell);
        std::array::from_fn(|cell| arrow(cell).is_some_and(|cell| !window.contains(&cell)))
    }

    pub(super) fn refused_bounds(&self, number: u8) -> Bounds {
        let mut bounds = refused::bounds(number);
        match self.slip {
            Slip::BoundsOfRefusal if number != 0 => (bounds.least, bounds.greatest) = ([65535; CELLS], [65535; CELLS]),
            Slip::SureOfRefusal if number != 0 => bounds.sure = [true; CELLS],
            _ => {}
        }
        bounds
    }
}
