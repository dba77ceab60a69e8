//! Positions (02, Job 10): for each cell the place in the list, from 0, of the earliest corner with a walk that arrives at
//! its built cost. Walks are taken from one corner at a time, cheapest cell first: no waves, and of building nothing is used
//! but the costs that it left.

use std::cmp::Reverse;
use std::collections::BinaryHeap;

use super::integration::{has, low};
use super::{EAST, Model, NORTH, SOUTH, Slip, WEST, beside};
use crate::subject::*;

const STRAIGHT: [usize; 4] = [NORTH, EAST, SOUTH, WEST];

/// A field before building, the costs that it is built on, and the cells that building left.
#[derive(Clone, Copy)]
struct Building<'a> {
    costs: &'a [u8],
    before: &'a IntegrationField,
    built: &'a [u32; CELLS],
}

impl Building<'_> {
    fn cost_before(&self, cell: usize) -> u32 {
        low(self.before.field[cell])
    }

    fn built_cost(&self, cell: usize) -> u32 {
        low(self.built[cell])
    }

    fn had(&self, cell: usize, flag: u32) -> bool {
        has(self.before.field[cell], flag)
    }

    /// The first place of a cell in the list.
    fn place(&self, cell: usize) -> Option<usize> {
        self.before.corners().iter().position(|corner| *corner == cell)
    }
}

/// For each cell a place in the list, or none.
type Places = [Option<usize>; CELLS];

impl Model {
    /// "`init` leaves 255 in every cell"
    pub fn started_positions(&self) -> [u8; CELLS] {
        [if self.slips(Slip::PositionsStartedZero) { 0 } else { NO_POSITION }; CELLS]
    }

    /// "and `build` fills them in": those of a field that is built on these costs, of which these cells were made.
    pub fn positions(&self, costs: &[u8], before: &IntegrationField, built: &[u32; CELLS]) -> [u8; CELLS] {
        let building = Building { costs, before, built };
        let places = match self.slip {
            Slip::PositionsCarried | Slip::PositionsCarriedSmaller => self.carried(building),
            Slip::PositionOfCheapest => of_cheapest(building),
            _ => self.earliest(building),
        };
        let filled = |cell: usize| self.position(building, cell, places[cell]);
        let given = before.positions;
        match self.slip {
            Slip::PositionsKept => given,
            Slip::PositionsKeptIfSet => {
                std::array::from_fn(|cell| if given[cell] == NO_POSITION { filled(cell) } else { given[cell] })
            }
            _ => std::array::from_fn(filled),
        }
    }

    /// "the earliest corner with a walk arriving at its built cost"
    fn earliest(&self, building: Building) -> Places {
        let mut places = [None; CELLS];
        for (place, corner) in building.before.corners().iter().enumerate() {
            let arrivals = self.arrivals(building, *corner);
            for cell in (0..CELLS).filter(|cell| arrivals[*cell] == Some(building.built_cost(*cell))) {
                let later = self.slips(Slip::PositionLatest)
                    || (self.slips(Slip::PositionRepeatedLast) && cell == *corner && places[cell].is_some());
                if places[cell].is_none() || later {
                    places[cell] = Some(place);
                }
            }
        }
        places
    }

    /// The least that a walk from one corner arrives at in each cell, none where no walk ends. A walk begins at the corner's
    /// value before building, "staying put included", and each move adds the cost of the cell that it enters.
    fn arrivals(&self, building: Building, corner: usize) -> [Option<u32>; CELLS] {
        let mut least = [None; CELLS];
        let mut open = BinaryHeap::new();
        open.extend(self.start(building, corner).map(|sum| Reverse((sum, corner))));
        while let Some(Reverse((sum, cell))) = open.pop() {
            if least[cell].is_some() {
                continue;
            }
            least[cell] = Some(sum);
            for to in STRAIGHT.into_iter().filter_map(|direction| beside(cell, direction)) {
                let arrival = sum + u32::from(building.costs[to]);
                if least[to].is_none() && self.walks_into(building, to, arrival) {
                    open.push(Reverse((arrival, to)));
                }
            }
        }
        least
    }

    /// The value that walks from a corner begin at.
    fn start(&self, building: Building, corner: usize) -> Option<u32> {
        let barred = match self.slip {
            Slip::PositionNotFromWall => building.had(corner, IMPASSABLE),
            Slip::PositionNotFromSight => building.had(corner, LOS),
            Slip::PositionNotFromGoal => building.had(corner, GOAL),
            _ => false,
        };
        let lowered = self.slips(Slip::PositionLoweredStarts);
        let value = if lowered { building.built_cost(corner) } else { building.cost_before(corner) };
        (!barred).then_some(value)
    }

    /// Neither wall nor in sight, and "here, in every field, a walk enters only cells where it arrives below their value
    /// before building".
    fn walks_into(&self, building: Building, cell: usize, arrival: u32) -> bool {
        let below = match self.slip {
            Slip::PositionAtEqual => arrival <= building.cost_before(cell),
            Slip::PositionAnyValue => true,
            _ => arrival < building.cost_before(cell),
        };
        let goal = building.had(cell, GOAL) && self.slips(Slip::PositionNotPastGoal);
        below && !goal && !building.had(cell, IMPASSABLE) && !building.had(cell, LOS)
    }

    /// What a cell holds whose cost such a corner's walk gives, or none. "Cells that were wall, sight or flagged GOAL before
    /// building, and those whose cost no corner's walk gives, hold 255."
    fn position(&self, building: Building, cell: usize, place: Option<usize>) -> u8 {
        let flags = [
            (IMPASSABLE, Slip::PositionOfWallZero, Slip::PositionOfListedWall),
            (LOS, Slip::PositionOfSightZero, Slip::PositionOfListedSight),
            (GOAL, Slip::PositionOfGoalZero, Slip::PositionOfGoal),
        ];
        if let Some((_, zero, held)) = flags.into_iter().find(|(flag, ..)| building.had(cell, *flag)) {
            return match place {
                Some(place) if self.slips(held) => place as u8,
                _ if self.slips(zero) => 0,
                _ => NO_POSITION,
            };
        }
        match place {
            Some(place) if !self.leaves_unset(building, cell) => self.numbered(building, place),
            Some(_) => NO_POSITION,
            None if self.slips(Slip::PositionOfNoneZero) => 0,
            None => NO_POSITION,
        }
    }

    fn numbered(&self, building: Building, place: usize) -> u8 {
        match self.slip {
            Slip::PositionFromOne => place as u8 + 1,
            Slip::PositionOfCorner => building.before.corners()[place] as u8,
            _ => place as u8,
        }
    }

    /// Whether a slip leaves 255 in a cell that has a place.
    fn leaves_unset(&self, building: Building, cell: usize) -> bool {
        let lowered = building.built_cost(cell) < building.cost_before(cell);
        match self.slip {
            Slip::PositionReachedUnset => lowered && building.place(cell).is_none(),
            Slip::PositionLoweredUnset => lowered && building.place(cell).is_some(),
            Slip::PositionStayingUnset => !lowered,
            Slip::PositionUnreachedUnset => !lowered && building.cost_before(cell) == 65535,
            _ => false,
        }
    }

    /// Places handed on as the waves write: a lower offer brings that of the cell it comes from, an equal one its own only
    /// where it is smaller and the slip says so.
    fn carried(&self, building: Building) -> Places {
        let mut cells = building.before.field.map(low);
        let mut places: Places = std::array::from_fn(|cell| building.place(cell));
        let mut wave = building.before.corners().to_vec();
        while !wave.is_empty() {
            let (left, held) = (cells, places);
            let mut changed = Vec::new();
            for from in wave {
                for to in STRAIGHT.into_iter().filter_map(|direction| beside(from, direction)) {
                    let offer = left[from] + u32::from(building.costs[to]);
                    if building.had(to, IMPASSABLE) || building.had(to, LOS) || offer > cells[to] {
                        continue;
                    }
                    if offer < cells[to] {
                        (cells[to], places[to]) = (offer, held[from]);
                        changed.push(to);
                    } else if self.slips(Slip::PositionsCarriedSmaller) && offer < building.cost_before(to) {
                        places[to] = places[to].min(held[from]);
                    }
                }
            }
            wave = changed;
        }
        places
    }
}

/// A cell that building lowered has the place of the neighbour with the least built cost, cheaper cells first.
fn of_cheapest(building: Building) -> Places {
    let mut places: Places = std::array::from_fn(|cell| building.place(cell));
    let mut lowered: Vec<usize> =
        (0..CELLS).filter(|cell| building.built_cost(*cell) < building.cost_before(*cell)).collect();
    lowered.sort_by_key(|cell| building.built_cost(*cell));
    for cell in lowered {
        let around = STRAIGHT.into_iter().filter_map(|direction| beside(cell, direction));
        let cheapest = around.min_by_key(|there| building.built_cost(*there));
        places[cell] = cheapest.and_then(|there| places[there]);
    }
    places
}
