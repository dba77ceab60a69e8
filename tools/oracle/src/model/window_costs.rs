//! Costs from window to window of one sector (02, Job 13), by walks and not by waves: from the cells of a window the cheapest
//! cell that can be entered is entered next, so that each cell is entered by its least walk. Walks are those of the third
//! demand (01, "Integration: build"): they begin in a window cell at 0, and each move adds the cost of the cell that it
//! enters.

use std::cmp::Reverse;
use std::collections::BinaryHeap;

use super::integration::window_cells;
use super::{Model, Slip, beside};
use crate::subject::*;

/// What a cell costs that no walk ends in, and a place that no window has.
const UNREACHED: u32 = 65535;

/// The windows of a list, on the costs of their sector.
struct Listed<'a> {
    costs: &'a [u8],
    steps: Vec<&'a [u8]>,
    windows: Vec<Vec<usize>>,
}

impl Model {
    /// What windows in one sector give, of which no number is due: "in row i at place j, the least cost of a cell of i after
    /// building for j alone"; "unused places are 65535".
    pub(crate) fn costs_between_windows(&self, costs: &[u8], steps: &[u8]) -> WindowCosts {
        let steps: Vec<&[u8]> = steps.chunks(8).collect();
        let windows = steps.iter().map(|step| self.listed_cells(step)).collect();
        let listed = Listed { costs, steps, windows };
        let used = 0..listed.windows.len();
        let mut square = [[UNREACHED; WINDOWS]; WINDOWS];
        for j in used.clone() {
            let all = self.least_walks(&listed, j, j);
            for i in used.clone() {
                let least =
                    if self.slips(Slip::WindowsOthersBarred) { self.least_walks(&listed, i, j) } else { all.clone() };
                square[i][j] = self.window_cost(&listed, i, j, &least);
            }
        }
        WindowCosts::new(0, self.slipped_square(square, used.len()))
    }

    /// The cells of a window; a slip takes all indexes between the first and the last.
    fn listed_cells(&self, step: &[u8]) -> Vec<usize> {
        if self.slips(Slip::WindowsByIndex) {
            return (usize::from(step[3])..=usize::from(step[4])).collect();
        }
        window_cells(step)
    }

    /// The least walk into each cell from the cells that building for window j starts from, none where no walk ends. The
    /// slip that bars other windows leaves window i open.
    fn least_walks(&self, listed: &Listed, i: usize, j: usize) -> Vec<Option<u32>> {
        let others = (0..listed.windows.len()).filter(|k| ![i, j].contains(k));
        let barred: Vec<usize> = match self.slip {
            Slip::WindowsOthersBarred => others.flat_map(|k| listed.windows[k].clone()).collect(),
            _ => Vec::new(),
        };
        let ends = [&listed.windows[i][..], &listed.windows[j]].concat();
        let enters = |cell: usize| {
            let wall = listed.costs[cell] == 255 && !self.slips(Slip::WindowsThroughWalls);
            !wall && (ends.contains(&cell) || !barred.contains(&cell))
        };
        let mut least: Vec<Option<u32>> = vec![None; CELLS];
        let mut arrivals: BinaryHeap<Reverse<(u32, usize)>> =
            self.starts(listed, j).into_iter().map(|cell| Reverse((0, cell))).collect();
        let ways = if self.slips(Slip::WindowsDiagonals) { 8 } else { 4 };
        while let Some(Reverse((sum, cell))) = arrivals.pop() {
            if least[cell].is_some() {
                continue;
            }
            least[cell] = Some(sum);
            let around = (0..ways).filter_map(|direction| beside(cell, direction)).filter(|to| enters(*to));
            arrivals.extend(around.map(|to| Reverse((sum + self.move_cost(listed.costs, cell, to), to))));
        }
        least
    }

    /// The cells that building for window j starts from: its own, all of them.
    fn starts(&self, listed: &Listed, j: usize) -> Vec<usize> {
        match self.slip {
            Slip::WindowsAllAtOnce => listed.windows.concat(),
            Slip::WindowsUpTo => listed.windows[..=j].concat(),
            Slip::WindowsCounting if j > 0 => {
                let [before, step] = [listed.steps[j - 1], listed.steps[j]];
                let (field, ..) = self.planned(listed.costs, before, None);
                self.counting_cells(step, &listed.windows[j], &field.field)
            }
            _ => listed.windows[j].clone(),
        }
    }

    fn move_cost(&self, costs: &[u8], from: usize, to: usize) -> u32 {
        match self.slip {
            Slip::WindowsCostLeft => u32::from(costs[from]),
            Slip::WindowsMoves => 1,
            _ => u32::from(costs[to]),
        }
    }

    /// The least cost of a cell of window i, given the least walks from window j. "Cells of one window count 0 to itself,
    /// unreached is 65535".
    fn window_cost(&self, listed: &Listed, i: usize, j: usize, least: &[Option<u32>]) -> u32 {
        let [own, other] = [i, j].map(|window| &listed.windows[window]);
        let flagged =
            |cell: usize| if self.slips(Slip::WindowsWithFlags) && other.contains(&cell) { PORTAL } else { 0 };
        let cost = |cell: &usize| least[*cell].map_or(UNREACHED, |sum| sum + flagged(*cell));
        let of = |cells: &[usize]| cells.iter().map(cost).min().unwrap_or(UNREACHED);
        let shared: Vec<usize> = own.iter().copied().filter(|cell| other.contains(cell)).collect();
        let own_costs = |cells: &[usize]| cells.iter().map(|cell| u32::from(listed.costs[*cell])).min().unwrap_or(0);
        match self.slip {
            Slip::WindowsGreatest => own.iter().map(cost).max().unwrap_or(UNREACHED),
            Slip::WindowsFirstCell => of(&own[..1]),
            Slip::WindowsLastCell => of(&own[own.len() - 1..]),
            Slip::WindowsEndCells => of(&[own[0], own[own.len() - 1]]),
            Slip::WindowsOwnUnreached if i == j => UNREACHED,
            Slip::WindowsOwnCost if i == j => own_costs(own),
            Slip::WindowsOverlapCost if i != j && !shared.is_empty() => own_costs(&shared),
            Slip::WindowsUnreachedZero if of(own) == UNREACHED => 0,
            _ => of(own),
        }
    }

    /// The square of so many windows, its rows, places or what is not used made otherwise by a slip.
    fn slipped_square(&self, square: [[u32; WINDOWS]; WINDOWS], used: usize) -> [[u32; WINDOWS]; WINDOWS] {
        let at = |i: usize, j: usize| match self.slip {
            Slip::WindowsExchanged => square[j][i],
            Slip::WindowsMirrored => square[i.min(j)][i.max(j)],
            Slip::WindowsFromOne if i == 0 || j == 0 => UNREACHED,
            Slip::WindowsFromOne => square[i - 1][j - 1],
            Slip::WindowsUnusedZero if i >= used || j >= used => 0,
            Slip::WindowsUnusedPlaces if i < used && j >= used => 0,
            Slip::WindowsUnusedRows if i >= used => 0,
            Slip::WindowsUnusedOwn if i >= used && i == j => 0,
            _ => square[i][j],
        };
        std::array::from_fn(|i| std::array::from_fn(|j| at(i, j)))
    }

    pub(super) fn refused_window_costs(&self, number: u8) -> WindowCosts {
        let of_refusal = self.slips(Slip::WindowsOfRefusal) && number != 0;
        WindowCosts::new(number, [[if of_refusal { UNREACHED } else { 0 }; WINDOWS]; WINDOWS])
    }
}
