//! The calls, answered by the model.

use super::integration::window_cells;
use super::numbers::Verdict;
use super::{Model, Slip};
use crate::refusals::Given;
use crate::subject::*;

fn place(cell: FieldCell) -> (i32, i32) {
    (cell.column as i32, cell.row as i32)
}

fn answered(at: (i32, i32)) -> FieldCell {
    FieldCell { column: at.0 as usize, row: at.1 as usize }
}

fn lent(previous: Previous<'_>) -> Option<&[u32]> {
    previous.lent.then_some(previous.numbers)
}

impl Model {
    /// The built field, its positions not filled in, its waves and the flow bytes of a sector.
    pub(crate) fn planned(
        &self,
        costs: &[u8],
        step: &[u8],
        previous: Option<&[u32]>,
    ) -> (IntegrationField, usize, [u8; CELLS]) {
        self.planned_from(true, costs, step, previous, &self.started(costs, step, &window_cells(step)))
    }

    /// The same of a sector that is started already, with the sight of its goal or without.
    fn planned_from(
        &self,
        sight: bool,
        costs: &[u8],
        step: &[u8],
        previous: Option<&[u32]>,
        started: &IntegrationField,
    ) -> (IntegrationField, usize, [u8; CELLS]) {
        let (field, waves) = self.built_by(sight, costs, step, started);
        let starting = self.starting_bytes(step, &window_cells(step), &field.field, previous);
        (field, waves, self.flow_bytes(&field.field, starting))
    }

    /// The sector call, with the sight of a goal or without.
    fn sector_by(&self, sight: bool, costs: &[u8], step: &[u8], previous: Previous, sheet: &mut [u8]) -> BuildAnswer {
        let given = Given {
            costs: Some(costs),
            sheet: Some(sheet.len()),
            steps: Some(step),
            previous: Some(previous),
            ..Given::default()
        };
        let turned = self.turned_away(&given, sheet);
        if let Some(number) = if sight { turned } else { self.turned_without_sight(turned, &given) } {
            return self.refused_build(number);
        }
        let previous = lent(previous).filter(|_| sight || !self.slips(Slip::WindowUnfaced));
        let seen = sight || self.slips(Slip::SightKept);
        let started = self.started_by(seen, costs, step, &window_cells(step));
        let (field, waves, bytes) = self.planned_from(seen, costs, step, previous, &started);
        sheet.copy_from_slice(&bytes);
        let positions = match self.slip {
            Slip::PositionsOfSectorUnset => started.positions,
            _ => self.positions(costs, &started, &field.field),
        };
        let positions = if sight { positions } else { self.positions_without_sight(step, positions) };
        BuildAnswer { number: 0, field: field.with_positions(positions), waves }
    }

    /// A leg, with the sight of its goal or without.
    pub(crate) fn leg_by(&self, sight: bool, floor: &[u8], steps: &[u8], sheet: &mut [u8]) -> u8 {
        let given =
            Given { leg: true, costs: Some(floor), sheet: Some(sheet.len()), steps: Some(steps), ..Given::default() };
        match self.turned_away(&given, sheet) {
            Some(number) => self.refused_leg(number, floor, steps),
            None => self.plan_and_write(sight, floor, steps, sheet),
        }
    }

    /// What `build` leaves of the starting bytes.
    pub(super) fn flow_bytes(&self, cells: &[u32; CELLS], starting: [u8; CELLS]) -> [u8; CELLS] {
        if self.slips(Slip::OneSheetForAll) {
            return [0x12; CELLS];
        }
        std::array::from_fn(|cell| self.looked(cells, cell, starting[cell]))
    }

    pub(super) fn refused_build(&self, number: u8) -> BuildAnswer {
        let mut answer = refused::build(number);
        match self.slip {
            Slip::FieldOfRefusal if number != 0 => answer.field.field = [65535; CELLS],
            Slip::PositionsOfRefusal if number != 0 => answer.field.positions = [NO_POSITION; CELLS],
            _ => {}
        }
        answer
    }

    /// What a call that is not accepted answers; a slip may write first.
    fn turned_away(&self, given: &Given, sheet: &mut [u8]) -> Option<u8> {
        match self.judge(given) {
            Verdict::Accepted => None,
            Verdict::Mistaken => Some(0),
            Verdict::Refused(number) => {
                if self.slips(Slip::WrittenBeforeRefusal) {
                    sheet.fill(0);
                }
                Some(number)
            }
        }
    }

    /// The answer of these cells, where the two ends are not turned away.
    fn line_of(&self, ends: [FieldCell; 2], walked: impl FnOnce() -> Vec<(i32, i32)>) -> Line {
        let coordinates = [ends[0].column, ends[0].row, ends[1].column, ends[1].row];
        let given = Given { coordinates: &coordinates, ..Given::default() };
        if let Some(number) = self.turned_away(&given, &mut []) {
            return refused::line(number);
        }
        let walked = walked();
        let mut line = Line { count: walked.len(), ..Line::default() };
        for (cell, at) in line.cells.iter_mut().zip(walked) {
            *cell = answered(at);
        }
        line
    }
}

impl Subject for Model {
    fn offers(&self, _call: Call) -> bool {
        true
    }

    fn line(&self, source: FieldCell, target: FieldCell) -> Line {
        self.line_of([source, target], || self.line_cells(place(source), place(target)))
    }

    fn walk(&self, steep: bool, source: FieldCell, target: FieldCell) -> Line {
        self.line_of([source, target], || self.walk_cells(steep, place(source), place(target)))
    }

    fn line_end(&self, corner: FieldCell, goal: FieldCell) -> LineEnd {
        let coordinates = [corner.column, corner.row, goal.column, goal.row];
        let given = Given { coordinates: &coordinates, ..Given::default() };
        match self.turned_away(&given, &mut []) {
            Some(number) => refused::line_end(number),
            None => LineEnd { number: 0, cell: answered(self.end_of_line(place(corner), place(goal))) },
        }
    }

    fn readings(&self, byte: u8) -> Readings {
        self.read(byte)
    }

    fn init(&self, costs: &[u8], step: &[u8]) -> InitAnswer {
        let given = Given { costs: Some(costs), steps: Some(step), ..Given::default() };
        match self.turned_away(&given, &mut []) {
            Some(number) => InitAnswer { number, field: self.refused_build(number).field },
            None => InitAnswer { number: 0, field: self.started(costs, step, &window_cells(step)) },
        }
    }

    fn build(&self, costs: &[u8], field: IntegrationField) -> BuildAnswer {
        let given = Given { costs: Some(costs), by_hand: Some(&field), ..Given::default() };
        if let Some(number) = self.turned_away(&given, &mut []) {
            return self.refused_build(number);
        }
        let (built, waves) = self.built(costs, &field);
        let positions = self.positions(costs, &field, &built.field);
        BuildAnswer { number: 0, field: built.with_positions(positions), waves }
    }

    fn flow_new(&self, step: &[u8], field: IntegrationField, previous: Previous, sheet: &mut [u8]) -> u8 {
        let given = Given { sheet: Some(sheet.len()), steps: Some(step), previous: Some(previous), ..Given::default() };
        if let Some(number) = self.turned_away(&given, sheet) {
            return number;
        }
        sheet.copy_from_slice(&self.starting_bytes(step, &window_cells(step), &field.field, lent(previous)));
        0
    }

    fn flow_build(&self, field: IntegrationField, sheet: &mut [u8]) -> u8 {
        let given = Given { sheet: Some(sheet.len()), ..Given::default() };
        if let Some(number) = self.turned_away(&given, sheet) {
            return number;
        }
        for (cell, byte) in sheet.iter_mut().enumerate() {
            *byte = self.looked(&field.field, cell, *byte);
        }
        0
    }

    fn sector(&self, costs: &[u8], step: &[u8], previous: Previous, sheet: &mut [u8]) -> BuildAnswer {
        self.sector_by(true, costs, step, previous, sheet)
    }

    fn sector_without_sight(&self, costs: &[u8], step: &[u8], previous: Previous, sheet: &mut [u8]) -> BuildAnswer {
        self.sector_by(false, costs, step, previous, sheet)
    }

    fn leg(&self, floor: &[u8], steps: &[u8], sheet: &mut [u8]) -> u8 {
        self.leg_by(true, floor, steps, sheet)
    }

    fn leg_without_sight(&self, floor: &[u8], steps: &[u8], sheet: &mut [u8]) -> u8 {
        self.leg_by(false, floor, steps, sheet)
    }

    fn leg_file_write(&self, steps: &[u8], file: &mut [u8]) -> u8 {
        self.write_file(steps, file)
    }

    fn leg_file_read(&self, file: &[u8]) -> LegFile {
        self.read_file(file)
    }

    fn practice_floor(&self, seed: u32) -> PracticeFloor {
        self.practice(seed)
    }

    fn bounds(&self, low: &[u8], high: &[u8], step: &[u8]) -> Bounds {
        let given = Given { costs: Some(low), high: Some(high), steps: Some(step), ..Given::default() };
        match self.turned_away(&given, &mut []) {
            Some(number) => self.refused_bounds(number),
            None => self.bounds_between(low, high, step),
        }
    }

    fn window_costs(&self, costs: &[u8], steps: &[u8]) -> WindowCosts {
        let given = Given { windows: true, costs: Some(costs), steps: Some(steps), ..Given::default() };
        match self.turned_away(&given, &mut []) {
            Some(number) => self.refused_window_costs(number),
            None => self.costs_between_windows(costs, steps),
        }
    }

    fn window_tour(&self, costs: &[u8], steps: &[u8], limit: u16) -> WindowTour {
        let given = Given { windows: true, costs: Some(costs), steps: Some(steps), ..Given::default() };
        match self.turned_away(&given, &mut []) {
            Some(number) => self.refused_window_tour(number, limit),
            None => self.tour_of_windows(costs, steps, limit),
        }
    }

    fn arrivals(&self, sheet: &[u8]) -> Arrivals {
        let given = Given { sheet: Some(sheet.len()), ..Given::default() };
        match self.turned_away(&given, &mut []) {
            Some(number) => self.refused_arrivals(number),
            None => self.arrivals_of(sheet),
        }
    }

    fn next_move(&self, sheet: &[u8], sector: u8, cell: u8) -> CartMove {
        self.answered_move(sheet, sector, cell)
    }

    fn way(&self, sheet: &[u8], sector: u8, cell: u8) -> CartWay {
        self.answered_way(sheet, sector, cell)
    }

    fn leg_field(&self, floor: &[u8], steps: &[u8], place: usize) -> BuildAnswer {
        self.leg_field_by(true, floor, steps, place)
    }

    fn leg_field_without_sight(&self, floor: &[u8], steps: &[u8], place: usize) -> BuildAnswer {
        self.leg_field_by(false, floor, steps, place)
    }
}
