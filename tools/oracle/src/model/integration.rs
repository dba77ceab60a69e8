//! Integration fields (01, "Integration: init" and "Integration: build").

use super::{DIFFERENCES, EAST, Model, NORTH, SOUTH, Slip, WEST, beside, walls_beside_move};
use crate::subject::*;

/// A sector whose sight is spreading.
struct Sight {
    cells: [u32; CELLS],
    corners: Vec<usize>,
}

impl Sight {
    fn wall(&self, cell: usize) -> bool {
        has(self.cells[cell], IMPASSABLE)
    }
}

pub(super) fn has(value: u32, flag: u32) -> bool {
    value / flag % 2 == 1
}

pub(super) fn low(value: u32) -> u32 {
    value % 0x10000
}

/// The cells of a step's window, in order; a goal step has none.
pub(super) fn window_cells(step: &[u8]) -> Vec<usize> {
    if step[2] != 1 {
        return Vec::new();
    }
    let between = if step[5] % 2 == 0 { 1 } else { 10 };
    (usize::from(step[3])..=usize::from(step[4])).step_by(between).collect()
}

fn place(cell: usize) -> (i32, i32) {
    (cell as i32 % 10, cell as i32 / 10)
}

impl Model {
    /// A sector started from the step's goal, or from these of its window cells.
    pub(super) fn started(&self, costs: &[u8], step: &[u8], window: &[usize]) -> IntegrationField {
        let blank = |cost: &u8| if *cost == 255 { IMPASSABLE + 65535 } else { 65535 };
        let cells: Vec<u32> = costs.iter().map(blank).collect();
        let mut sight = Sight { cells: cells.try_into().expect("a hundred costs"), corners: Vec::new() };
        if step[2] == 1 {
            for cell in window {
                sight.cells[*cell] = PORTAL;
                sight.corners.push(*cell);
            }
        } else {
            let goal = usize::from(step[1]);
            sight.cells[goal] = GOAL;
            self.spread(&mut sight, costs, goal);
        }
        if self.slip != Slip::None {
            sight.corners.truncate(CELLS);
        }
        IntegrationField::new(sight.cells, &sight.corners).with_positions(self.started_positions())
    }

    /// Waves of sight from the goal.
    fn spread(&self, sight: &mut Sight, costs: &[u8], goal: usize) {
        let mut wave = vec![goal];
        let mut cost = 1;
        while !wave.is_empty() {
            let mut queue = Vec::new();
            for cell in wave {
                if self.slips(Slip::OverwrittenDropped) && has(sight.cells[cell], BLOCKED) {
                    continue;
                }
                self.spread_from(sight, costs, goal, cell, cost, &mut queue);
            }
            wave = queue;
            cost += 1;
        }
    }

    fn spread_from(
        &self,
        sight: &mut Sight,
        costs: &[u8],
        goal: usize,
        from: usize,
        cost: u32,
        queue: &mut Vec<usize>,
    ) {
        let mut order = [NORTH, EAST, SOUTH, WEST];
        if self.slips(Slip::NeighboursWestFirst) {
            order = [NORTH, WEST, SOUTH, EAST];
        }
        for direction in order {
            let Some(cell) = beside(from, direction) else { continue };
            let value = sight.cells[cell];
            if has(value, BLOCKED) || has(value, GOAL) {
                continue;
            }
            if has(value, IMPASSABLE) {
                self.corners_beside(sight, goal, from, cell, direction, cost);
            } else if !has(value, LOS) {
                let own = if self.slips(Slip::CostsInSight) { u32::from(costs[cell]).saturating_sub(1) } else { 0 };
                sight.cells[cell] = cost + own + LOS;
                queue.push(cell);
            }
        }
    }

    /// Both sideways pairs of a wave cell and the wall it met.
    fn corners_beside(&self, sight: &mut Sight, goal: usize, from: usize, wall: usize, toward: usize, cost: u32) {
        let mut sides = if toward.is_multiple_of(2) { [WEST, EAST] } else { [NORTH, SOUTH] };
        let swapped = if toward.is_multiple_of(2) { Slip::EastBeforeWest } else { Slip::SouthBeforeNorth };
        if self.slips(swapped) {
            sides.reverse();
        }
        for side in sides {
            let (Some(by_wave), Some(by_wall)) = (beside(from, side), beside(wall, side)) else { continue };
            let open = !sight.wall(by_wave) || self.slips(Slip::SideTestDropped);
            if open && !sight.wall(by_wall) && !self.slips(Slip::WallBarsCorner) {
                self.draw(sight, by_wall, goal, cost);
            }
        }
    }

    /// A corner's line.
    fn draw(&self, sight: &mut Sight, corner: usize, goal: usize, cost: u32) {
        let end = self.end_of_line(place(corner), place(goal));
        let mut before: Option<usize> = None;
        let mut i = 0;
        for (column, row) in self.line_cells(place(corner), end) {
            let cell = (row * 10 + column) as usize;
            if sight.wall(cell) || before.is_some_and(|from| self.line_cut(sight, from, cell)) {
                return;
            }
            before = Some(cell);
            let blocked = has(sight.cells[cell], BLOCKED);
            if blocked && self.slips(Slip::LineStopsAtBlocked) {
                return;
            }
            if blocked && self.slips(Slip::CornersTwice) {
                sight.corners.push(cell);
            }
            if !blocked && !(self.slips(Slip::SightIsFinal) && has(sight.cells[cell], LOS)) {
                sight.cells[cell] = self.line_value(cost, i);
                sight.corners.push(cell);
            }
            i += u32::from(!(blocked && self.slips(Slip::BlockedNotCounted)));
        }
    }

    fn line_value(&self, cost: u32, i: u32) -> u32 {
        let ahead = u32::from(!self.slips(Slip::LineCostShort));
        let corner = if self.slips(Slip::FlagsLost) { 0 } else { CORNER };
        cost + ahead + i + BLOCKED + corner
    }

    fn line_cut(&self, sight: &Sight, from: usize, to: usize) -> bool {
        let [in_row, in_column] = walls_beside_move(from, to, |cell| sight.wall(cell));
        match self.slip {
            Slip::DiagonalStopDropped => false,
            Slip::TwoWallsStopLine | Slip::PublishedSight => in_row && in_column,
            Slip::LineSeesColumn => in_column,
            _ => in_row || in_column,
        }
    }

    /// The built field, its positions not filled in, and the waves that changed a cell.
    pub(super) fn built(&self, costs: &[u8], given: &IntegrationField) -> (IntegrationField, usize) {
        let mut field = IntegrationField::new(given.field, given.corners());
        if self.slips(Slip::BeyondCountKept) {
            field.los_corners = given.los_corners;
        }
        let mut changed: Vec<usize> = given.corners().to_vec();
        if self.slips(Slip::GoalOffers) {
            changed.extend((0..CELLS).filter(|cell| has(given.field[*cell], GOAL)));
        }
        let mut waves = 0;
        while !changed.is_empty() && waves < self.most_waves() {
            changed = self.wave(costs, &mut field.field, &changed);
            waves += usize::from(!changed.is_empty());
        }
        let waves = match self.slip {
            Slip::LastWaveCounted => waves + 1,
            Slip::WavesMadeUp => 9,
            _ => waves,
        };
        (field, waves)
    }

    fn most_waves(&self) -> usize {
        match self.slip {
            Slip::NothingBuilt => 0,
            Slip::FirstWaveOnly => 1,
            Slip::None => usize::MAX,
            _ => 1000,
        }
    }

    /// One wave: every offer from the values that the wave before left; the cells that it changed.
    fn wave(&self, costs: &[u8], cells: &mut [u32; CELLS], from: &[usize]) -> Vec<usize> {
        let left = *cells;
        let mut changed = [false; CELLS];
        let reach = if self.slips(Slip::EightNeighbours) { DIFFERENCES.len() } else { 4 };
        for cell in from {
            for direction in 0..reach {
                let Some(to) = self.offered(*cell, direction) else { continue };
                if !self.enters(left[to], costs[to]) {
                    continue;
                }
                let offer = self.offer(if self.slips(Slip::LiveField) { cells } else { &left }, costs, *cell, to);
                let below = low(cells[to]) + u32::from(self.slips(Slip::WrittenAtEqual));
                if offer < below {
                    let kept = if self.slips(Slip::FlagsKept) { cells[to] - low(cells[to]) } else { 0 };
                    cells[to] = kept + offer;
                    changed[to] = true;
                }
            }
        }
        (0..CELLS).filter(|cell| changed[*cell]).collect()
    }

    fn offered(&self, cell: usize, direction: usize) -> Option<usize> {
        if self.slips(Slip::RowsWrap) && direction == EAST {
            return (cell + 1 < CELLS).then_some(cell + 1);
        }
        beside(cell, direction)
    }

    fn enters(&self, value: u32, cost: u8) -> bool {
        let wall = has(value, IMPASSABLE) && !self.slips(Slip::EntersWalls);
        let seen = has(value, LOS) && !self.slips(Slip::EntersSight);
        let goal = has(value, GOAL) && self.slips(Slip::GoalNotEntered);
        let cost_wall = cost == 255 && self.slips(Slip::CostWallByHand);
        !(wall || seen || goal || cost_wall)
    }

    fn offer(&self, values: &[u32; CELLS], costs: &[u8], from: usize, to: usize) -> u32 {
        let paid = if self.slips(Slip::CostOfOffering) { costs[from] } else { costs[to] };
        let held = if self.slips(Slip::FlagsInOffer) { values[from] } else { low(values[from]) };
        let sum = held.saturating_add(u32::from(paid));
        if self.slips(Slip::SixteenBitSums) { low(sum) } else { sum }
    }
}
