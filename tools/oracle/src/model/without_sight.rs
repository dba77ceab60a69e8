//! A goal's sector planned without sight (our own addition, docs/DECISIONS.md): each cell holds the least cost of a walk from
//! the goal. Walks are searched cheapest cell first: no sight is spread, and no waves are run.

use std::cmp::Reverse;
use std::collections::BinaryHeap;

use super::integration::low;
use super::{DIFFERENCES, Model, Slip, beside};
use crate::refusals::{FIELDLESS, Given, ON_WALL};
use crate::subject::*;

/// For each cell what its cheapest walk from the goal comes to, and the moves of that walk, the fewest where several are as
/// cheap; none where no walk ends.
type Walks = [Option<(u32, usize)>; CELLS];

impl Model {
    /// A sector started from the step's goal, with its sight or without, or from these of its window cells.
    pub(super) fn started_by(&self, sight: bool, costs: &[u8], step: &[u8], window: &[usize]) -> IntegrationField {
        match step[2] {
            0 if !sight => self.started_without_sight(costs, step[1].into()),
            _ => self.started(costs, step, window),
        }
    }

    /// That sector built, its positions not filled in, and the waves that changed a cell.
    pub(super) fn built_by(
        &self,
        sight: bool,
        costs: &[u8],
        step: &[u8],
        started: &IntegrationField,
    ) -> (IntegrationField, usize) {
        match step[2] {
            0 if !sight => self.built_without_sight(costs, step[1].into(), started),
            _ => self.built(costs, started),
        }
    }

    /// Walls as ever, the goal's word, 65535 in every other cell; the goal is the one listed corner.
    fn started_without_sight(&self, costs: &[u8], goal: usize) -> IntegrationField {
        let word = match self.slip {
            Slip::GoalUnflagged => 0,
            Slip::GoalCostPaid => GOAL + u32::from(costs[goal]),
            _ => GOAL,
        };
        let cells = std::array::from_fn(|cell| match costs[cell] {
            _ if cell == goal => word,
            255 => IMPASSABLE + 65535,
            _ => 65535,
        });
        let corners = if self.slips(Slip::GoalNotListed) { Vec::new() } else { vec![goal] };
        IntegrationField::new(cells, &corners).with_positions(self.started_positions())
    }

    /// The costs of the cheapest walks, none of which enters the goal.
    fn built_without_sight(&self, costs: &[u8], goal: usize, started: &IntegrationField) -> (IntegrationField, usize) {
        let walks = self.cheapest_walks(costs, started);
        let mut field = *started;
        for (cell, (cost, _)) in ends(&walks).filter(|(cell, _)| *cell != goal) {
            field.field[cell] = cost;
        }
        let free = |cell: usize| costs[goal] == 0 && walks[cell].is_some_and(|(cost, _)| cost == 0);
        if self.slips(Slip::GoalEntered) && self.moves_from(goal).any(free) {
            field.field[goal] = 0;
        }
        (field, self.waves_of(costs, started, &walks))
    }

    /// Wave k leaves in each cell the least cost of a walk of at most k moves. So a cell is changed for the last time by the
    /// wave that has the moves of its cheapest walk, and the waves are the most moves of all cells.
    fn waves_of(&self, costs: &[u8], started: &IntegrationField, walks: &Walks) -> usize {
        let most = |walks: &Walks| ends(walks).map(|(_, (_, moves))| moves).max().unwrap_or(0);
        if !self.slips(Slip::WavesOfMoves) {
            return most(walks);
        }
        let alike: Vec<u8> = costs.iter().map(|cost| if *cost == 255 { 255 } else { 1 }).collect();
        most(&self.cheapest_walks(&alike, started))
    }

    /// A walk begins in the listed corner, the goal, at its value. Each move goes to an orthogonal neighbour that is no wall,
    /// and adds that cell's cost.
    fn cheapest_walks(&self, costs: &[u8], started: &IntegrationField) -> Walks {
        let mut walks = [None; CELLS];
        let begun = |corner: &usize| Reverse((low(started.field[*corner]), 0, *corner));
        let mut open: BinaryHeap<Reverse<(u32, usize, usize)>> = started.corners().iter().map(begun).collect();
        while let Some(Reverse((cost, moves, cell))) = open.pop() {
            if walks[cell].is_some() {
                continue;
            }
            walks[cell] = Some((cost, moves));
            for to in self.moves_from(cell).filter(|to| costs[*to] != 255 && walks[*to].is_none()) {
                open.push(Reverse((cost + self.paid(costs, cell, to), moves + 1, to)));
            }
        }
        walks
    }

    /// What a move from a cell to another adds.
    fn paid(&self, costs: &[u8], from: usize, to: usize) -> u32 {
        match self.slip {
            Slip::WalksPayLeft => costs[from].into(),
            Slip::WalksCountMoves => 1,
            _ => costs[to].into(),
        }
    }

    /// The cells beside a cell, walls among them.
    fn moves_from(&self, cell: usize) -> impl Iterator<Item = usize> {
        let directions = if self.slips(Slip::WalksDiagonal) { DIFFERENCES.len() } else { 4 };
        (0..directions).filter_map(move |direction| beside(cell, direction))
    }

    /// The positions of a sector; slips leave those of one with a goal out, or give the goal one.
    pub(super) fn positions_without_sight(&self, step: &[u8], mut positions: [u8; CELLS]) -> [u8; CELLS] {
        match self.slip {
            Slip::GoalsPositionsUnset if step[2] == 0 => positions = [NO_POSITION; CELLS],
            Slip::GoalsPositionZero if step[2] == 0 => positions[usize::from(step[1])] = 0,
            _ => {}
        }
        positions
    }

    /// What the sector call answers without sight where it is not accepted: what it does with sight; slips do otherwise.
    pub(super) fn turned_without_sight(&self, turned: Option<u8>, given: &Given) -> Option<u8> {
        match (self.slip, turned) {
            (Slip::FieldlessWithoutSight, None) if given.is_fieldless() => Some(FIELDLESS),
            (Slip::OnWallWithoutSight, Some(ON_WALL)) => Some(0),
            _ => turned,
        }
    }
}

/// The cells in which a walk ends, each with its cheapest one.
fn ends(walks: &Walks) -> impl Iterator<Item = (usize, (u32, usize))> {
    walks.iter().enumerate().filter_map(|(cell, walk)| walk.map(|walk| (cell, walk)))
}
