//! The oracle: refusal numbers by the table of documents 01 and 02, everything else by the Rust, but for what has no Rust,
//! leg files, legs in which some window cell does not count, practice floors, bounds, costs from window to window, tours of
//! them, arrivals, and a cart's moves and ways (02, Jobs 1, 2, 6, 9, 13 and 14, and our own additions), which the model
//! answers. What diagonals and line ends decide, `init`, `build` of a
//! flow field, the sector call, a leg and the line end itself, is the Rust's altered in these rules alone (02, Jobs 7 and 11);
//! what did not move is the published Rust's. A step whose goal or some window cell is of cost 255 (02, Job 3) is the table's,
//! and the Rust, which takes it, is not asked. Wave counts come from the counted copy, whose fields are asserted equal to those
//! of the copy that decides. Positions (02, Job 10), which the Rust does not have, are the model's, over the cells that the
//! Rust built. The two calls without sight are our own addition: the Rust has no such call, and has its parts, which decide
//! a goal's sector from a field given by hand, the published `build` and `new` and the altered look. Each judge is noted
//! where it is asked.

use crate::copies::{altered, counted_build, published};
use crate::judges::{Judge, aside, decides};
use crate::model::Model;
use crate::refusals::{self, Given};
use crate::subject::*;

pub struct Oracle;

/// The judges of a call that the table takes.
pub fn judges(call: Call) -> &'static [Judge] {
    match call {
        Call::LineEnd | Call::FlowBuild => &[Judge::Altered],
        Call::Init => &[Judge::Altered, Judge::Model],
        Call::Build => &[Judge::Published, Judge::Counted, Judge::Model],
        Call::Sector => &[Judge::Altered, Judge::Counted, Judge::Model],
        Call::SectorWithoutSight => &[Judge::Published, Judge::Altered, Judge::Counted, Judge::Model],
        Call::Leg => &[Judge::Altered, Judge::Model],
        Call::LegWithoutSight => &[Judge::Published, Judge::Altered, Judge::Model],
        Call::LegField => &[Judge::Altered, Judge::Counted, Judge::Model],
        Call::LegFieldWithoutSight => &[Judge::Published, Judge::Altered, Judge::Counted, Judge::Model],
        Call::LegFileWrite | Call::LegFileRead | Call::PracticeFloor => &[Judge::Model],
        Call::Bounds | Call::WindowCosts | Call::WindowTour | Call::Arrivals => &[Judge::Model],
        Call::Move | Call::Way => &[Judge::Model],
        _ => &[Judge::Published],
    }
}

/// The number of a call, which the table decides where it is not 0.
fn number(given: &Given) -> u8 {
    let number = refusals::number(given);
    if number != 0 {
        decides(Judge::Table);
    }
    number
}

/// The answer of these cells, where the table takes the two ends.
fn line_of(ends: [FieldCell; 2], walked: impl FnOnce() -> Vec<FieldCell>) -> Line {
    let coordinates = [ends[0].column, ends[0].row, ends[1].column, ends[1].row];
    let number = number(&Given { coordinates: &coordinates, ..Given::default() });
    if number != 0 {
        return refused::line(number);
    }
    decides(Judge::Published);
    let walked = walked();
    let mut line = Line { count: walked.len(), ..Line::default() };
    line.cells[..walked.len()].copy_from_slice(&walked);
    line
}

/// What the altered Rust starts on any costs, for a step that 4 to 8 take. It opens a wall under the goal or a window cell,
/// which `init` refuses: then a field to be given by hand.
pub fn rust_started(costs: &[u8], step: &[u8]) -> IntegrationField {
    altered::started(costs, step)
}

/// The same, built.
pub fn rust_built(costs: &[u8], step: &[u8]) -> IntegrationField {
    altered::built(costs, &altered::started(costs, step))
}

/// What a copy of the Rust started or built, with the positions, which the Rust does not have and the model decides.
fn positioned(field: IntegrationField, positions: [u8; CELLS]) -> IntegrationField {
    decides(Judge::Model);
    field.with_positions(positions)
}

/// The waves of a field, of which a copy of the Rust made these cells.
fn waves_of(costs: &[u8], field: &IntegrationField, cells: &[u32; CELLS]) -> usize {
    let counted = counted_build(costs, field);
    assert_eq!(cells, &counted.cells, "the counted copy builds another field");
    counted.waves
}

/// A goal's sector as it starts without sight: a wall is 0x200FFFF, the goal 0x20000 and the one listed corner, and every
/// other cell 65535. The Rust starts no sector so: it is given this field by hand.
pub fn started_without_sight(costs: &[u8], step: &[u8]) -> IntegrationField {
    let mut cells = [65535; CELLS];
    cells.iter_mut().zip(costs).filter(|(_, cost)| **cost == 255).for_each(|(cell, _)| *cell = 0x200FFFF);
    let goal = usize::from(step[1]);
    cells[goal] = 0x20000;
    IntegrationField::new(cells, &[goal])
}

/// A sector planned by the Rust.
struct Planned {
    started: IntegrationField,
    built: IntegrationField,
    bytes: [u8; CELLS],
}

/// A sector planned by the Rust's own parts, one after the other. With the sight of its goal, or left by a window, all are the
/// altered Rust's; without sight `build` and `new` are the published one's, on the field that is given by hand.
fn planned(sight: bool, costs: &[u8], step: &[u8], previous: Option<&[u32]>) -> Planned {
    decides(Judge::Altered);
    let (started, built, starting);
    if sight || step[2] == 1 {
        started = altered::started(costs, step);
        built = altered::built(costs, &started);
        starting = altered::flow_new(step, &built.field, previous);
    } else {
        decides(Judge::Published);
        started = started_without_sight(costs, step);
        built = published::built(costs, &started);
        starting = published::flow_new(step, &built.field, previous);
    }
    Planned { started, built, bytes: altered::flow_build(&built.field, &starting) }
}

/// The sector call, with the sight of a goal or without.
fn sector_by(sight: bool, costs: &[u8], step: &[u8], previous: Previous, sheet: &mut [u8]) -> BuildAnswer {
    let given = Given {
        costs: Some(costs),
        sheet: Some(sheet.len()),
        steps: Some(step),
        previous: Some(previous),
        ..Given::default()
    };
    let number = number(&given);
    if number != 0 {
        return refused::build(number);
    }
    let Planned { started, built, bytes } = planned(sight, costs, step, lent(previous));
    sheet.copy_from_slice(&bytes);
    decides(Judge::Counted);
    let waves = waves_of(costs, &started, &built.field);
    let positions = Model::PLAIN.positions(costs, &started, &built.field);
    BuildAnswer { number, field: positioned(built, positions), waves }
}

impl Oracle {
    /// Each step of a leg as the Rust plans it, the calls chained as document 01 says, the first with the sight of its goal or
    /// without; none where a window has a cell that does not count.
    fn chained(&self, sight: bool, floor: &[u8], steps: &[u8]) -> Option<Vec<Planned>> {
        let mut before: Option<IntegrationField> = None;
        let mut chained = Vec::new();
        for step in steps.chunks(8) {
            if before.is_some_and(|field| !every_cell_counts(step, &field.field)) {
                return None;
            }
            let previous = before.as_ref().map(|field| &field.field[..]);
            let planned = planned(sight, &floor[part(step)], step, previous);
            before = Some(planned.built);
            chained.push(planned);
        }
        Some(chained)
    }

    /// The built cells of each step of a planned leg, by the judge that decides the leg.
    pub fn built_steps(&self, sight: bool, floor: &[u8], steps: &[u8]) -> Vec<[u32; CELLS]> {
        match aside(|| self.chained(sight, floor, steps)) {
            Some(planned) => planned.iter().map(|step| step.built.field).collect(),
            None => Model::PLAIN.plan_by(sight, floor, steps).steps.iter().map(|step| step.field.field).collect(),
        }
    }
}

/// A leg, with the sight of its goal or without.
fn leg_by(sight: bool, floor: &[u8], steps: &[u8], sheet: &mut [u8]) -> u8 {
    let given =
        Given { leg: true, costs: Some(floor), sheet: Some(sheet.len()), steps: Some(steps), ..Given::default() };
    let number = number(&given);
    if number != 0 {
        return number;
    }
    let Some(planned) = aside(|| Oracle.chained(sight, floor, steps)) else {
        decides(Judge::Model);
        return Model::PLAIN.leg_by(sight, floor, steps, sheet);
    };
    decides(Judge::Altered);
    if !sight {
        decides(Judge::Published);
    }
    for (step, planned) in steps.chunks(8).zip(planned) {
        sheet[part(step)].copy_from_slice(&planned.bytes);
    }
    0
}

/// The field of a leg's step, with the sight of the leg's goal or without: the Rust's where every window cell of the leg
/// counts, its waves those of the counted copy and its positions the model's; else the model's.
fn leg_field_by(sight: bool, floor: &[u8], steps: &[u8], place: usize) -> BuildAnswer {
    let (costs, listed) = (Some(floor), Some(steps));
    let given = Given { leg: true, costs, steps: listed, place: Some(place), ..Given::default() };
    let number = number(&given);
    if number != 0 {
        return refused::build(number);
    }
    let Some(planned) = aside(|| Oracle.chained(sight, floor, steps)) else {
        decides(Judge::Model);
        return Model::PLAIN.leg_field_by(sight, floor, steps, place);
    };
    decides(Judge::Altered);
    if !sight && place == 0 {
        decides(Judge::Published);
    }
    let Planned { started, built, .. } = &planned[place];
    let costs = &floor[part(&steps[8 * place..])];
    decides(Judge::Counted);
    let waves = waves_of(costs, started, &built.field);
    let positions = Model::PLAIN.positions(costs, started, &built.field);
    BuildAnswer { number, field: positioned(*built, positions), waves }
}

/// Where a step's sector stands in a floor and in a sheet.
fn part(step: &[u8]) -> std::ops::Range<usize> {
    usize::from(step[0]) * CELLS..(usize::from(step[0]) + 1) * CELLS
}

/// Whether every cell of a step's window counts: faces a cell below 65535, or has a cell beside it in the window that does.
pub fn every_cell_counts(step: &[u8], before: &[u32; CELLS]) -> bool {
    let across = |cell: usize| match step[5] {
        0 => cell + 90,
        1 => cell - 9,
        2 => cell - 90,
        _ => cell + 9,
    };
    let window = altered::window_cells(step);
    let reached: Vec<bool> = window.iter().map(|cell| before[across(*cell)] as u16 != u16::MAX).collect();
    (0..reached.len()).all(|k: usize| reached[k.saturating_sub(1)..(k + 2).min(reached.len())].contains(&true))
}

/// What the table is given of a cart's call.
fn cart(sheet: &[u8], sector: u8, cell: u8) -> Given<'_> {
    Given { cart: Some([sector, cell]), sheet: Some(sheet.len()), ..Given::default() }
}

fn lent(previous: Previous<'_>) -> Option<&[u32]> {
    previous.lent.then_some(previous.numbers)
}

impl Subject for Oracle {
    fn offers(&self, _call: Call) -> bool {
        true
    }

    fn line(&self, source: FieldCell, target: FieldCell) -> Line {
        line_of([source, target], || published::line(source, target))
    }

    fn walk(&self, steep: bool, source: FieldCell, target: FieldCell) -> Line {
        line_of([source, target], || published::walk(steep, source, target))
    }

    fn line_end(&self, corner: FieldCell, goal: FieldCell) -> LineEnd {
        let coordinates = [corner.column, corner.row, goal.column, goal.row];
        let number = number(&Given { coordinates: &coordinates, ..Given::default() });
        if number != 0 {
            return refused::line_end(number);
        }
        decides(Judge::Altered);
        LineEnd { number: 0, cell: altered::line_end(corner, goal) }
    }

    fn readings(&self, byte: u8) -> Readings {
        decides(Judge::Published);
        published::readings(byte)
    }

    fn init(&self, costs: &[u8], step: &[u8]) -> InitAnswer {
        let given = Given { costs: Some(costs), steps: Some(step), ..Given::default() };
        let number = number(&given);
        if number != 0 {
            return refused::init(number);
        }
        decides(Judge::Altered);
        InitAnswer { number, field: positioned(altered::started(costs, step), Model::PLAIN.started_positions()) }
    }

    fn build(&self, costs: &[u8], field: IntegrationField) -> BuildAnswer {
        let given = Given { costs: Some(costs), by_hand: Some(&field), ..Given::default() };
        let number = number(&given);
        if number != 0 {
            return refused::build(number);
        }
        decides(Judge::Published);
        let built = published::built(costs, &field);
        decides(Judge::Counted);
        let waves = waves_of(costs, &field, &built.field);
        let positions = Model::PLAIN.positions(costs, &field, &built.field);
        BuildAnswer { number, field: positioned(built, positions), waves }
    }

    fn flow_new(&self, step: &[u8], field: IntegrationField, previous: Previous, sheet: &mut [u8]) -> u8 {
        let given = Given { sheet: Some(sheet.len()), steps: Some(step), previous: Some(previous), ..Given::default() };
        let number = number(&given);
        if number == 0 {
            decides(Judge::Published);
            sheet.copy_from_slice(&published::flow_new(step, &field.field, lent(previous)));
        }
        number
    }

    fn flow_build(&self, field: IntegrationField, sheet: &mut [u8]) -> u8 {
        let number = number(&Given { sheet: Some(sheet.len()), ..Given::default() });
        if number == 0 {
            decides(Judge::Altered);
            sheet.copy_from_slice(&altered::flow_build(&field.field, sheet));
        }
        number
    }

    fn sector(&self, costs: &[u8], step: &[u8], previous: Previous, sheet: &mut [u8]) -> BuildAnswer {
        sector_by(true, costs, step, previous, sheet)
    }

    fn sector_without_sight(&self, costs: &[u8], step: &[u8], previous: Previous, sheet: &mut [u8]) -> BuildAnswer {
        sector_by(false, costs, step, previous, sheet)
    }

    fn leg(&self, floor: &[u8], steps: &[u8], sheet: &mut [u8]) -> u8 {
        leg_by(true, floor, steps, sheet)
    }

    fn leg_without_sight(&self, floor: &[u8], steps: &[u8], sheet: &mut [u8]) -> u8 {
        leg_by(false, floor, steps, sheet)
    }

    fn leg_field(&self, floor: &[u8], steps: &[u8], place: usize) -> BuildAnswer {
        leg_field_by(true, floor, steps, place)
    }

    fn leg_field_without_sight(&self, floor: &[u8], steps: &[u8], place: usize) -> BuildAnswer {
        leg_field_by(false, floor, steps, place)
    }

    // Leg files, practice floors, bounds, costs from window to window, tours, arrivals, moves and ways have no Rust.

    fn leg_file_write(&self, steps: &[u8], file: &mut [u8]) -> u8 {
        decides(Judge::Model);
        Model::PLAIN.write_file(steps, file)
    }

    fn leg_file_read(&self, file: &[u8]) -> LegFile {
        decides(Judge::Model);
        Model::PLAIN.read_file(file)
    }

    fn practice_floor(&self, seed: u32) -> PracticeFloor {
        decides(Judge::Model);
        Model::PLAIN.practice(seed)
    }

    fn bounds(&self, low: &[u8], high: &[u8], step: &[u8]) -> Bounds {
        let given = Given { costs: Some(low), high: Some(high), steps: Some(step), ..Given::default() };
        let number = number(&given);
        if number != 0 {
            return refused::bounds(number);
        }
        decides(Judge::Model);
        Model::PLAIN.bounds_between(low, high, step)
    }

    fn window_costs(&self, costs: &[u8], steps: &[u8]) -> WindowCosts {
        let given = Given { windows: true, costs: Some(costs), steps: Some(steps), ..Given::default() };
        let number = number(&given);
        if number != 0 {
            return refused::window_costs(number);
        }
        decides(Judge::Model);
        Model::PLAIN.costs_between_windows(costs, steps)
    }

    fn window_tour(&self, costs: &[u8], steps: &[u8], limit: u16) -> WindowTour {
        let given = Given { windows: true, costs: Some(costs), steps: Some(steps), ..Given::default() };
        let number = number(&given);
        if number != 0 {
            return refused::window_tour(number);
        }
        decides(Judge::Model);
        Model::PLAIN.tour_of_windows(costs, steps, limit)
    }

    fn arrivals(&self, sheet: &[u8]) -> Arrivals {
        let given = Given { sheet: Some(sheet.len()), ..Given::default() };
        let number = number(&given);
        if number != 0 {
            return refused::arrivals(number);
        }
        decides(Judge::Model);
        Model::PLAIN.arrivals_of(sheet)
    }

    fn next_move(&self, sheet: &[u8], sector: u8, cell: u8) -> CartMove {
        match number(&cart(sheet, sector, cell)) {
            0 => {
                decides(Judge::Model);
                Model::PLAIN.move_over(sheet, sector, cell)
            }
            number => refused::cart_move(number),
        }
    }

    fn way(&self, sheet: &[u8], sector: u8, cell: u8) -> CartWay {
        match number(&cart(sheet, sector, cell)) {
            0 => {
                decides(Judge::Model);
                Model::PLAIN.way_over(sheet, sector, cell)
            }
            number => refused::way(number),
        }
    }
}
