//! A leg: steps planned one after the other (01, "A leg, the added entry"), each from those window cells that count
//! (02, Job 2), and the sheet written when all are planned.

use super::flow::{BITS, PORTAL_START, sides_along};
use super::integration::window_cells;
use super::{Model, Slip, beside};
use crate::refusals::{Given, ON_WALL, Table};
use crate::subject::*;

/// The number of a leg with a window in which no cell counts.
pub const CLOSED: u8 = 15;

/// A step of a leg, planned.
pub struct PlannedStep {
    pub sector: usize,
    /// The cells of the window, in order; a goal step has none.
    pub window: Vec<usize>,
    /// Those of them that count.
    pub counting: Vec<usize>,
    pub field: IntegrationField,
    pub bytes: [u8; CELLS],
}

/// What of a leg is planned: every step, or those before a window in which no cell counts.
pub struct Plan {
    pub steps: Vec<PlannedStep>,
    pub closed: bool,
}

/// Where the bytes of a sector stand in a floor and in a sheet.
pub(super) fn part(sector: usize) -> std::ops::Range<usize> {
    sector * CELLS..(sector + 1) * CELLS
}

/// Whether the table takes a leg, 16 left aside.
pub(super) fn taken_but_for_walls(floor: &[u8], steps: &[u8]) -> bool {
    let mut table = Table::documents();
    table.each_step[5].holds = |_| false;
    table.number(&Given { leg: true, costs: Some(floor), steps: Some(steps), ..Given::default() }) == 0
}

impl Model {
    /// Plans the steps of a leg that the table takes, and writes nothing.
    pub fn plan(&self, floor: &[u8], steps: &[u8]) -> Plan {
        self.plan_by(true, floor, steps)
    }

    /// The same, with the sight of the goal or without. Later steps go by the field before in either case.
    pub fn plan_by(&self, sight: bool, floor: &[u8], steps: &[u8]) -> Plan {
        let mut plan = Plan { steps: Vec::new(), closed: false };
        let mut before: Option<IntegrationField> = None;
        let wrong = |slip: Slip| !sight && self.slips(slip);
        for (k, step) in steps.chunks(8).enumerate() {
            let sector = usize::from(step[0]);
            let window = window_cells(step);
            let costs = &floor[part(sector)];
            let previous = before.as_ref().map(|field| &field.field[..]).filter(|_| !wrong(Slip::LegStepsAlone));
            let counting = previous.map_or(window.clone(), |field| self.counting_cells(step, &window, field));
            if k > 0 && counting.is_empty() && self.refuses_closed(k) && !wrong(Slip::LegClosedPlanned) {
                plan.closed = true;
                break;
            }
            let planned = |seen: bool| self.planned_step(seen, costs, step, &window, &counting, previous);
            let (field, bytes) = planned(sight || self.slips(Slip::LegSightKept));
            let bytes = if wrong(Slip::LegWrittenWithSight) { planned(true).1 } else { bytes };
            if k == 0 || !self.slips(Slip::FirstPrevious) {
                before = Some(self.handed_on(sight, costs, step, &window, field));
            }
            plan.steps.push(PlannedStep { sector, window, counting, field, bytes });
        }
        plan
    }

    /// Whether a window in which no cell counts is refused at the k-th step, from 0.
    fn refuses_closed(&self, k: usize) -> bool {
        !(self.slips(Slip::ClosedPlanned) || (self.slips(Slip::ClosedAtSecondStep) && k > 1))
    }

    /// The window cells that count, in order.
    pub(super) fn counting_cells(&self, step: &[u8], window: &[usize], previous: &[u32]) -> Vec<usize> {
        let boundary = usize::from(step[5]);
        let counts = |cell: &usize| self.counts(*cell, boundary, window, previous);
        let counting: Vec<usize> = window.iter().copied().filter(counts).collect();
        let (first, last) = (counting.first().copied(), counting.last().copied());
        let between =
            |cell: &usize| first.is_some_and(|first| first <= *cell) && last.is_some_and(|last| *cell <= last);
        match self.slip {
            Slip::EveryCellCounts => window.to_vec(),
            Slip::OneCountsForAll if !counting.is_empty() => window.to_vec(),
            Slip::GapsFilled => window.iter().copied().filter(between).collect(),
            _ => counting,
        }
    }

    /// A window cell counts if some facing cell that it compares is below 65535.
    fn counts(&self, cell: usize, boundary: usize, window: &[usize], previous: &[u32]) -> bool {
        let (lower, higher) = sides_along(boundary);
        let side = |toward: usize| beside(cell, toward).filter(|side| self.compares(*side, toward == lower, window));
        let mut compared = [Some(cell), side(lower), side(higher)].into_iter().flatten();
        let flags = self.slips(Slip::CountedWithFlags);
        let reached = |cell: usize| self.facing_value(cell, boundary, previous, flags) < 65535;
        if self.slips(Slip::EveryComparedNeeded) { compared.all(reached) } else { compared.any(reached) }
    }

    /// Whether a window cell compares the cell that faces one of its sides: the first has no lower side in the window,
    /// the last no higher, and the only one neither.
    fn compares(&self, side: usize, lower: bool, window: &[usize]) -> bool {
        match self.slip {
            Slip::StraightAlone => false,
            Slip::FirstSeesLower if window.len() > 1 => lower || window.contains(&side),
            Slip::LastSeesHigher if window.len() > 1 => !lower || window.contains(&side),
            Slip::OneCellSeesSides if window.len() == 1 => true,
            _ => window.contains(&side),
        }
    }

    /// The built field and the flow bytes of a step.
    fn planned_step(
        &self,
        sight: bool,
        costs: &[u8],
        step: &[u8],
        window: &[usize],
        counting: &[usize],
        previous: Option<&[u32]>,
    ) -> (IntegrationField, [u8; CELLS]) {
        let left_out: Vec<usize> = window.iter().copied().filter(|cell| !counting.contains(cell)).collect();
        let costs = self.own_costs(costs, &left_out);
        let portals = if self.slips(Slip::LeftOutStarted) { window } else { counting };
        let mut started = self.started_by(sight, &costs, step, portals);
        if self.slips(Slip::LeftOutListed) {
            left_out.iter().for_each(|cell| started.field[*cell] &= 0xffff_0000);
            started = IntegrationField::new(started.field, &[started.corners(), &left_out].concat());
        }
        let (field, _) = self.built_by(sight, &costs, step, &started);
        let previous = previous.filter(|_| !self.slips(Slip::PreviousForgotten));
        let mut starting = self.starting_bytes(step, counting, &field.field, previous);
        counting.iter().for_each(|cell| starting[*cell] = self.crossing_byte(starting[*cell], step[5].into()));
        for cell in left_out {
            match self.slip {
                Slip::LeftOutMarked => starting[cell] |= PORTAL_START,
                Slip::LeftOutPointed => starting[cell] |= BITS[usize::from(step[5])],
                _ => {}
            }
        }
        (field, self.flow_bytes(&field.field, starting))
    }

    /// The byte of a window cell that counts; slips make it cross elsewhere.
    fn crossing_byte(&self, byte: u8, boundary: usize) -> u8 {
        let ahead = BITS[boundary];
        let side = byte & 15 & !ahead;
        let opposite = |bits: u8| bits * 4 % 16 + bits / 4;
        let arrow = match self.slip {
            Slip::CrossesStraight => ahead,
            Slip::CrossesToOtherSide => ahead | opposite(side),
            Slip::CrossesInward => opposite(ahead) | side,
            Slip::CrossesAlong if side != 0 => side,
            _ => return byte,
        };
        byte - byte % 16 + arrow
    }

    /// A cell that does not count is what its own cost makes of it; a slip makes it a wall.
    fn own_costs(&self, costs: &[u8], left_out: &[usize]) -> Vec<u8> {
        let mut own = costs.to_vec();
        if self.slips(Slip::LeftOutWalled) {
            left_out.iter().for_each(|cell| own[*cell] = 255);
        }
        own
    }

    /// The field that serves the next step as its previous field.
    fn handed_on(
        &self,
        sight: bool,
        costs: &[u8],
        step: &[u8],
        window: &[usize],
        field: IntegrationField,
    ) -> IntegrationField {
        let other = match self.slip {
            Slip::WholeWindowHandedOn => true,
            Slip::LegFacesSight => !sight && step[2] == 0,
            _ => false,
        };
        if other { self.built(costs, &self.started(costs, step, window)).0 } else { field }
    }

    /// Plans a leg that the table takes, and writes it where every step is planned.
    pub(super) fn plan_and_write(&self, sight: bool, floor: &[u8], steps: &[u8], sheet: &mut [u8]) -> u8 {
        let plan = self.plan_by(sight, floor, steps);
        if plan.closed && !self.slips(Slip::WrittenStepByStep) {
            return CLOSED;
        }
        if self.slips(Slip::UnnamedCleared) {
            sheet.fill(0);
        }
        for (k, step) in plan.steps.iter().enumerate() {
            let last = 8 * (k + 1) == steps.len();
            match self.slip {
                Slip::LastSectorOnly if !last => {}
                Slip::SecondStepUnwritten if k == 1 => {}
                Slip::WrittenByColumns => {
                    sheet[part(step.sector % 8 * 8 + step.sector / 8)].copy_from_slice(&step.bytes)
                }
                _ => sheet[part(step.sector)].copy_from_slice(&step.bytes),
            }
        }
        if plan.closed { CLOSED } else { 0 }
    }

    /// The number of a leg that the table refuses; a slip plans it before 10, or 16, is judged.
    pub(super) fn refused_leg(&self, number: u8, floor: &[u8], steps: &[u8]) -> u8 {
        let early = match self.slip {
            Slip::ClosedBeforeTen => number == 10,
            Slip::ClosedBeforeWalls => number == ON_WALL && taken_but_for_walls(floor, steps),
            _ => false,
        };
        if early && self.plan(floor, steps).closed { CLOSED } else { number }
    }
}
