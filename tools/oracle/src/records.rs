//! The recorded sample: a file for each section, each a sequence of records of one length, input
//! bytes first and expected bytes after them (in records of a leg's files as told below). Numbers of
//! 16 and 32 bits stand lowest byte first.
//!
//! | file | bytes | input | expected |
//! |---|---|---|---|
//! | line | 16 | source column, source row, target column, target row | number, count, 10 cell indexes |
//! | line_end.altered | 8 | corner column, corner row, goal column, goal row | number, column, row, 0 |
//! | readers | 8 | byte | is_pathable, is_goal, is_portal_goal, has_line_of_sight, is_wall, direction, 0 |
//! | init.altered | 710 | 100 costs, 8 step | number, count, 100 positions, 100 corners, 100 cells of 32 bits |
//! | build | 1304 | 100 costs, 100 cells of 32 bits, count, 100 positions, 100 corners | number, waves, count, 100 positions, 100 corners, 100 cells of 32 bits |
//! | flow_new | 910 | 8 step, 100 cells of 32 bits, has_previous, 100 previous of 32 bits | number, 100 sheet |
//! | flow_build.altered | 601 | 100 cells of 32 bits, 100 sheet | number, 100 sheet |
//! | sector.altered | 1212 | 100 costs, 8 step, has_previous, 100 previous of 32 bits | number, waves, count, 100 positions, 100 corners, 100 cells of 32 bits, 100 sheet |
//! | init.table, sector.table | 710, 1212 | as init.altered and sector.altered | the same |
//! | leg.altered, leg.model, leg.table | 3330 | step count, 128 steps, 16 times 100 costs | number, 16 times 100 sheet |
//! | sector_without_sight.altered, sector_without_sight.table | 1212 | as sector.altered | the same |
//! | leg_without_sight.altered, leg_without_sight.model, leg_without_sight.table | 3330 | as leg.altered | the same |
//! | refusals.table | 160 | see below | number, 2 zeros |
//! | leg_file_write.model | 314 | list length, buffer length, buffer's byte, list in 150 places | number, buffer in 160 places |
//! | leg_file_read.model | 154 | file length, file in 150 places | number, start, length of the part |
//! | practice.model | 105 | seed of 32 bits | 100 costs, goal |
//! | practice_text.model | 223 | input length, input in 8 places | text length, text in 213 places |
//! | bounds.model, bounds.table | 1115 | lengths of low, high and step, low in 101 places, high in 101, step in 9 | number, 100 least of 32 bits, 100 greatest of 32 bits, 100 marks |
//! | window_costs.model, window_costs.table | 496 | lengths of costs and steps, costs in 101 places, steps in 136 | number, 64 costs of 32 bits, row by row |
//! | window_tour.model, window_tour.table | 263 | lengths of costs and steps, limit of 16 bits, costs in 101 places, steps in 136 | number, whether an order is found, 8 places of the order, sum, number tried and least figure of 32 bits |
//! | arrivals.model, arrivals.table | 203 | length of the sheet, sheet in 101 places | number, 100 numbers of moves |
//! | cart.model, cart.table | 7171 | length of the sheet in 16 bits, sheet in 6401 places; 64 times sector and cell, each followed by what is expected | number, outcome, sector, cell of the move; number, outcome, sector, cell, moves in 16 bits of the way |
//! | leg_field.altered, leg_field.model, leg_field.table | 2344 | length of the floor in 16 bits, length of the steps, place in 16 bits, steps in 136 places, 16 times 100 costs | number, waves, count, 100 positions, 100 corners, 100 cells of 32 bits |
//! | leg_field_without_sight.altered, leg_field_without_sight.model, leg_field_without_sight.table | 2344 | as leg_field.altered | the same |
//!
//! A file whose name has no dot holds answers of the published Rust. Behind a dot stands the judge of a file that has
//! another: `altered`, the Rust altered in two rules (document 02, Job 7: a diagonal is barred if either cell beside it is a
//! wall; Job 11: a corner's line ends where the nearest rows of the exact ray leave the sector); `table`, the reading of the documents' table of refusals; or `model`, the model of the documents. Wave counts are
//! those of the counted copy, and positions (document 02, Job 10), which the Rust does not have, those of the model.
//!
//! flow_new, flow_build.altered, sector.altered, sector.table: the flow calls do not look at a field's list, so none is
//! recorded (count 0). The sheet lent to `flow_new` and to the sector call holds 0x55 in every byte, and still does where
//! the number is not 0.
//!
//! init.table, sector.table: the floors and steps of init.altered and sector.altered as they were drawn, with a wall under
//! the goal or a window cell (number 16); there these walls are floor. In sector.table also windows without a previous
//! field (number 17), which sector.altered has none of. leg.table: legs with such a step (16, or 8 before it), and one that is
//! refused with 10 where 15 would be found.
//!
//! leg.altered, leg.model, leg.table: the k-th 100 costs and sheet bytes are those of the sector that step k names.
//! Cost bytes of sectors not named are 1; every byte of the sheet is 0x55 before the call, and those of sectors not
//! named still are after it, as all are where the number is not 0. What stands beyond the last step is 0.
//! In leg.altered every window cell counts; in leg.model some window has a cell that does not.
//!
//! sector_without_sight and leg_without_sight: sectors and legs planned without sight, which are in neither document. The
//! Rust has no such call. In the files with `altered` behind the dot its own parts decide: the published `build` and `new`, on
//! a goal's sector that is given to them by hand, and the altered look; windows as in sector.altered and leg.altered. In
//! sector_without_sight.table stand 4 to 8, 16 and 17, in leg_without_sight.table 9, 10 and 16.
//!
//! refusals.table: call (0 init, 1 build, 2 flow_new, 3 flow_build, 4 sector, 5 leg, 6 line, 7 line_end), then
//! in 16 bits each costs length, sheet length, step bytes' length; has_previous; in 16 bits each
//! previous length, corner count; the place of one corner, and in 16 bits its value (every other
//! corner is 0); 4 coordinates; in 16 bits the place of one wall among the costs, 65535 where there is none; 136 step
//! bytes. What a call does not have is not read. All other lent costs are 1, sheet bytes 0x55, previous numbers and cells
//! 0. Where the number is 0 the call is accepted, and only its number is recorded.
//!
//! leg_file_write.model: list length, buffer length, the byte that fills the buffer before the call,
//! number, 150 places for the list, 160 for the buffer after the call. leg_file_read.model: file length,
//! number, start and length of the part that holds the steps, 150 places for the file. Places beyond a
//! length are 0.
//!
//! practice_text.model: what the practice printer has to print for its input. Places beyond a length are 0.
//!
//! bounds.model, bounds.table: two floors and a step, taken and refused. A mark is 1 for a sure cell, else 0. Places beyond
//! a length are 0.
//!
//! window_costs.model, window_costs.table, window_tour.model, window_tour.table: windows of one sector, taken and refused.
//! Places beyond a length are 0.
//!
//! arrivals.model, arrivals.table: a sheet, taken and refused. Places beyond a length are 0.
//!
//! cart.model, cart.table: a cart's moves and ways over a sheet, taken and refused, which are in neither document. Places of the
//! sheet beyond its length are 0.
//!
//! leg_field and leg_field_without_sight: the field of the step at a place of a leg's list, from 0, which is in neither
//! document. The k-th 100 costs are those of the sector that step k names; cost bytes of sectors not named are 1. Where every
//! window cell of the leg counts, the Rust's own parts decide, as in leg.altered and leg_without_sight.altered; the model has
//! those with a cell that does not count, and 15. In the files with `table` stand 1, 3, 21, 4 to 8, 16, 9 and 10, also with 21
//! where another of them would be due. Places beyond a length are 0.
//!
//! Nothing here comes from the program that replays it.

use crate::cart_records::{carts_refused, carts_taken, leg_fields};
use crate::cases::Case;
use crate::floors::{self, Costs, Rng, Step};
use crate::groups;
use crate::judges::{self, Judge};
use crate::model::{Model, Slip};
use crate::oracle::{Oracle, rust_built, rust_started};
use crate::refusals::{across, named_cells};
use crate::subject::*;

/// The seed of what is drawn.
const SEED: u64 = 20_261_022;

/// A section of the sample: a file.
pub struct Section {
    /// The file's name, with the judge behind a dot where it is not the published Rust.
    pub name: &'static str,
    /// Bytes of a record.
    pub length: usize,
    pub records: Vec<Vec<u8>>,
}

impl Section {
    /// Who decided what is expected, by the name.
    pub fn judges(&self) -> &'static [Judge] {
        match self.name.split_once('.') {
            Some(("init", "altered")) => &[Judge::Altered, Judge::Model],
            Some(("sector", "altered")) => &[Judge::Altered, Judge::Counted, Judge::Model],
            Some(("sector_without_sight", "altered")) => {
                &[Judge::Published, Judge::Altered, Judge::Counted, Judge::Model]
            }
            Some(("leg_without_sight", "altered")) => &[Judge::Published, Judge::Altered],
            Some(("leg_field", "altered")) => &[Judge::Altered, Judge::Counted, Judge::Model],
            Some(("leg_field_without_sight", "altered")) => {
                &[Judge::Published, Judge::Altered, Judge::Counted, Judge::Model]
            }
            Some((_, "altered")) => &[Judge::Altered],
            Some((_, "table")) => &[Judge::Table],
            Some((_, "model")) => &[Judge::Model],
            Some((_, other)) => panic!("{}: there is no judge `{other}`", self.name),
            None if self.name == "build" => &[Judge::Published, Judge::Counted, Judge::Model],
            None => &[Judge::Published],
        }
    }

    /// The line that `replay` has to print: how many records agree, all of them, and a sum of their bytes.
    pub fn agreed(&self) -> String {
        let bytes = self.records.iter().flatten();
        let sum = bytes.fold(0, |sum: u64, byte| (sum * 257 + u64::from(*byte)) % 4_294_967_291);
        format!("{}: records that agree: {}, sum of the bytes: {sum}", self.name, self.records.len())
    }
}

/// All sections, in the order of the layers.
pub fn sections() -> Vec<Section> {
    let rng = || Rng::new(SEED);
    vec![
        Section { name: "line", length: 16, records: lines() },
        Section { name: "line_end.altered", length: 8, records: line_ends() },
        Section { name: "readers", length: 8, records: readers() },
        Section { name: "init.altered", length: 710, records: inits(rng(), all_open) },
        Section { name: "init.table", length: 710, records: inits(rng(), inputs_on_walls) },
        Section { name: "build", length: 1304, records: builds(rng()) },
        Section { name: "flow_new", length: 910, records: flows_new(rng()) },
        Section { name: "flow_build.altered", length: 601, records: flows_build(rng()) },
        Section { name: "sector.altered", length: 1212, records: sectors(rng()) },
        Section { name: "sector.table", length: 1212, records: refused_sectors(rng()) },
        Section { name: "leg.altered", length: 3330, records: legs(all_legs(rng()), Judge::Altered) },
        Section { name: "leg.model", length: 3330, records: legs(all_legs(rng()), Judge::Model) },
        Section { name: "leg.table", length: 3330, records: legs(all_legs(rng()), Judge::Table) },
        Section { name: "sector_without_sight.altered", length: 1212, records: sectors_without_sight(rng()) },
        Section { name: "sector_without_sight.table", length: 1212, records: refused_without_sight() },
        Section {
            name: "leg_without_sight.altered",
            length: 3330,
            records: legs(legs_without_sight(rng()), Judge::Altered),
        },
        Section {
            name: "leg_without_sight.model",
            length: 3330,
            records: legs(legs_without_sight(rng()), Judge::Model),
        },
        Section {
            name: "leg_without_sight.table",
            length: 3330,
            records: legs(legs_without_sight(rng()), Judge::Table),
        },
        Section { name: "refusals.table", length: 160, records: refusals() },
        Section { name: "leg_file_write.model", length: 314, records: file_writes(rng()) },
        Section { name: "leg_file_read.model", length: 154, records: file_reads(rng()) },
        Section { name: "practice.model", length: 105, records: practice_floors(rng()) },
        Section { name: "practice_text.model", length: 223, records: practice_texts(rng()) },
        Section { name: "bounds.model", length: 1115, records: bounds_taken(rng()) },
        Section { name: "bounds.table", length: 1115, records: bounds_refused(rng()) },
        Section { name: "window_costs.model", length: 496, records: windows_taken(rng()) },
        Section { name: "window_costs.table", length: 496, records: windows_refused(rng()) },
        Section { name: "window_tour.model", length: 263, records: tours_taken(rng()) },
        Section { name: "window_tour.table", length: 263, records: tours_refused(rng()) },
        Section { name: "arrivals.model", length: 203, records: arrivals_taken(rng()) },
        Section { name: "arrivals.table", length: 203, records: arrivals_refused(rng()) },
        Section { name: "cart.model", length: 7171, records: carts_taken(rng()) },
        Section { name: "cart.table", length: 7171, records: carts_refused(rng()) },
        Section { name: "leg_field.altered", length: 2344, records: leg_fields(rng(), true, Judge::Altered) },
        Section { name: "leg_field.model", length: 2344, records: leg_fields(rng(), true, Judge::Model) },
        Section { name: "leg_field.table", length: 2344, records: leg_fields(rng(), true, Judge::Table) },
        Section {
            name: "leg_field_without_sight.altered",
            length: 2344,
            records: leg_fields(rng(), false, Judge::Altered),
        },
        Section {
            name: "leg_field_without_sight.model",
            length: 2344,
            records: leg_fields(rng(), false, Judge::Model),
        },
        Section {
            name: "leg_field_without_sight.table",
            length: 2344,
            records: leg_fields(rng(), false, Judge::Table),
        },
    ]
}

pub(crate) fn wide(values: &[u32]) -> impl Iterator<Item = u8> {
    values.iter().flat_map(|value| value.to_le_bytes())
}

/// Count, then 100 positions, then 100 corners of a byte each.
pub(crate) fn list(field: &IntegrationField) -> impl Iterator<Item = u8> {
    let corners = field.los_corners.iter().map(|corner| *corner as u8);
    std::iter::once(field.count as u8).chain(field.positions).chain(corners)
}

/// Every seventh pair of cells: seven and a hundred share no factor, so all rows and columns meet.
fn some_pairs() -> impl Iterator<Item = [FieldCell; 2]> {
    (0..CELLS * CELLS).step_by(7).map(pair)
}

fn pair(number: usize) -> [FieldCell; 2] {
    [FieldCell::from_index(number / CELLS), FieldCell::from_index(number % CELLS)]
}

fn coordinates([a, b]: [FieldCell; 2]) -> [u8; 4] {
    [a.column, a.row, b.column, b.row].map(|x| x as u8)
}

fn line([source, target]: [FieldCell; 2]) -> Vec<u8> {
    let line = Oracle.line(source, target);
    let mut record = coordinates([source, target]).to_vec();
    record.extend([line.number, line.count as u8]);
    record.extend(line.cells.iter().map(|cell| (cell.row * 10 + cell.column) as u8));
    record
}

/// The pairs of document 01, then a seventh of all.
fn lines() -> Vec<Vec<u8>> {
    let named = [pair(12), pair(1200), pair(13)];
    named.into_iter().chain(some_pairs()).map(line).collect()
}

fn line_end([corner, goal]: [FieldCell; 2]) -> Vec<u8> {
    let end = Oracle.line_end(corner, goal);
    let mut record = coordinates([corner, goal]).to_vec();
    record.extend([end.number, end.cell.column as u8, end.cell.row as u8, 0]);
    record
}

/// The ends that document 02, Job 11 names, a quarter of those that an exact half decides, then a seventh of all.
fn line_ends() -> Vec<Vec<u8>> {
    let named = [pair(3445), pair(7992), pair(3544)];
    let otherwise = Model { slip: Slip::RayHalfAway };
    let halves = (0..CELLS * CELLS)
        .map(pair)
        .filter(|[corner, goal]| Oracle.line_end(*corner, *goal) != otherwise.line_end(*corner, *goal));
    named.into_iter().chain(halves.step_by(4)).chain(some_pairs()).map(line_end).collect()
}

fn readers() -> Vec<Vec<u8>> {
    let record = |byte: u8| {
        let r = Oracle.readings(byte);
        let flags = [r.is_pathable, r.is_goal, r.is_portal_goal, r.has_line_of_sight, r.is_wall];
        let mut record = vec![byte];
        record.extend(flags.map(u8::from));
        record.extend([r.direction, 0]);
        record
    };
    (0..=255).map(record).collect()
}

/// Floors and steps of every kind.
fn inputs(rng: &mut Rng) -> Vec<(Costs, Step)> {
    let east = floors::window_step(0, 1, 0, 9);
    let goal = |cell| floors::goal_step(0, cell);
    let mut list = vec![(floors::uniform(1), goal(44)), (floors::uniform(1), east), (floors::one_wall(55), goal(44))];
    list.extend(
        floors::COSTS.iter().flat_map(|cost| [(floors::uniform(*cost), goal(37)), (floors::uniform(*cost), east)]),
    );
    list.extend([54, 43, 33, 22, 0, 9, 90, 99, 40, 4].map(|wall| (floors::one_wall(wall), goal(44))));
    list.extend([0, 9, 90, 99].map(|cell| (floors::few_walls(rng), goal(cell))));
    for kind in 0..4 {
        let costs = floors::snake(1, kind % 2 == 0, kind / 2 == 0);
        list.push((costs, goal(kind * 9)));
        list.push((costs, floors::window_step(0, kind, 3, 6)));
    }
    for percent in (0..=70).step_by(10) {
        list.push((floors::walls(rng, percent, &[1]), goal(rng.below(CELLS))));
        list.push((floors::walls(rng, percent, &floors::COSTS), any_window(rng)));
    }
    for _ in 0..4 {
        list.push((floors::racks(rng), goal(rng.below(CELLS))));
        list.push((floors::rooms(rng), goal(rng.below(CELLS))));
        list.push((floors::racks(rng), any_window(rng)));
    }
    for boundary in 0..4 {
        list.push((floors::few_walls(rng), floors::window_step(63, boundary, 5, 5)));
        list.push((floors::few_walls(rng), floors::window_step(0, boundary, 2, 7)));
    }
    list.push((std::array::from_fn(|_| rng.below(256) as u8), goal(99)));
    list
}

/// The same, with walls under the goal and the window cells made floor.
fn open_inputs(rng: &mut Rng) -> Vec<(Costs, Step)> {
    let mut list = inputs(rng);
    list.iter_mut().for_each(|(costs, step)| floors::open(rng, costs, step));
    list
}

/// One wall beside diagonals: of a corner's line in each of its four directions, with the goal in a corner of the sector,
/// and of looks, toward a window on each side.
fn past_one_wall() -> impl Iterator<Item = (Costs, Step)> {
    let goals = [(0, 22), (9, 27), (90, 72), (99, 77)].map(|(goal, wall)| (wall, floors::goal_step(0, goal)));
    let windows = [0, 1, 2, 3].map(|boundary| (55, floors::window_step(0, boundary, 0, 9)));
    goals.into_iter().chain(windows).map(|(wall, step)| (floors::one_wall(wall), step))
}

/// Both.
fn all_open(rng: &mut Rng) -> Vec<(Costs, Step)> {
    open_inputs(rng).into_iter().chain(past_one_wall()).collect()
}

/// Those that have such a wall.
fn inputs_on_walls(rng: &mut Rng) -> Vec<(Costs, Step)> {
    let on_wall = |(costs, step): &(Costs, Step)| named_cells(step).iter().any(|cell| costs[*cell] == 255);
    inputs(rng).into_iter().filter(on_wall).collect()
}

fn any_window(rng: &mut Rng) -> Step {
    let (boundary, first, length) = (rng.below(4), rng.below(10), rng.below(10));
    floors::window_step(rng.below(64), boundary, first, (first + length).min(9))
}

fn init((costs, step): (Costs, Step)) -> Vec<u8> {
    let answer = Oracle.init(&costs, &step);
    let mut record = costs.to_vec();
    record.extend(step);
    record.push(answer.number);
    record.extend(list(&answer.field));
    record.extend(wide(&answer.field.field));
    record
}

fn inits(mut rng: Rng, inputs: fn(&mut Rng) -> Vec<(Costs, Step)>) -> Vec<Vec<u8>> {
    inputs(&mut rng).into_iter().map(init).collect()
}

fn build(costs: Costs, field: IntegrationField) -> Vec<u8> {
    let answer = Oracle.build(&costs, field);
    let mut record = costs.to_vec();
    record.extend(wide(&field.field));
    record.extend(list(&field));
    record.extend([answer.number, answer.waves as u8]);
    record.extend(list(&answer.field));
    record.extend(wide(&answer.field.field));
    record
}

/// A list whose places beyond the count hold 0, each at most 99.
fn by_hand(rng: &mut Rng) -> IntegrationField {
    let field = floors::any_field(rng);
    IntegrationField::new(field.field, field.corners()).with_positions(field.positions)
}

/// Fields that the Rust starts, then others given by hand, then the floor on which positions carried along the waves are
/// wrong, fields that meet each kind of position, and one whose list holds something in the places beyond its count.
fn builds(mut rng: Rng) -> Vec<Vec<u8>> {
    let started = inputs(&mut rng).into_iter().skip(1).step_by(4);
    let mut records: Vec<Vec<u8>> = started.map(|(costs, step)| build(costs, rust_started(&costs, &step))).collect();
    records.extend((0..20).map(|_| build(floors::any(&mut rng), by_hand(&mut rng))));
    let (costs, step) = floors::two_ways();
    records.push(build(costs, rust_started(&costs, &step)));
    for kind in groups::position_kinds() {
        let (costs, field) = groups::field_that_meets(&mut rng, kind);
        records.push(build(costs, field));
    }
    let mut beyond = by_hand(&mut rng);
    beyond.count = beyond.count.min(50);
    beyond.los_corners[beyond.count..].fill(7);
    records.push(build(floors::any(&mut rng), beyond));
    records
}

/// The previous field of a record: what is not lent stands as zeros.
fn recorded((lent, numbers): (bool, Vec<u32>)) -> (bool, Vec<u32>) {
    if lent { (true, numbers) } else { (false, vec![0; CELLS]) }
}

fn previous(rng: &mut Rng) -> (bool, Vec<u32>) {
    recorded(floors::any_previous(rng))
}

fn flow_new(step: Step, field: IntegrationField, (lent, numbers): (bool, Vec<u32>)) -> Vec<u8> {
    let mut sheet = vec![0x55; CELLS];
    let number = Oracle.flow_new(&step, field, Previous { lent, numbers: &numbers }, &mut sheet);
    let mut record = step.to_vec();
    record.extend(wide(&field.field));
    record.push(u8::from(lent));
    record.extend(wide(&numbers));
    record.push(number);
    record.extend(sheet);
    record
}

/// A built field of a floor of any kind.
fn built(rng: &mut Rng, step: &Step) -> IntegrationField {
    rust_built(&floors::any(rng), step)
}

/// Each boundary with every kind of previous field, then goals, then fields given by hand.
fn flows_new(mut rng: Rng) -> Vec<Vec<u8>> {
    let mut records = Vec::new();
    for boundary in 0..4 {
        for (first, last) in [(0, 9), (3, 5), (4, 5), (7, 7), (0, 1), (2, 8)] {
            let step = floors::window_step(0, boundary, first, last);
            let field = built(&mut rng, &step);
            records.push(flow_new(step, field, previous(&mut rng)));
        }
    }
    for _ in 0..6 {
        let step = floors::goal_step(0, rng.below(CELLS));
        records.push(flow_new(step, built(&mut rng, &step), previous(&mut rng)));
        records.push(flow_new(floors::any_step(&mut rng), by_hand(&mut rng), previous(&mut rng)));
    }
    records
}

fn flow_build(field: IntegrationField, old: Vec<u8>) -> Vec<u8> {
    let mut sheet = old.clone();
    let number = Oracle.flow_build(field, &mut sheet);
    let mut record: Vec<u8> = wide(&field.field).collect();
    record.extend(old);
    record.push(number);
    record.extend(sheet);
    record
}

/// Every old byte value on built fields, sheets that are 0, fields given by hand.
fn flows_build(mut rng: Rng) -> Vec<Vec<u8>> {
    let mut records = Vec::new();
    for k in 0..39usize {
        let step = floors::any_step(&mut rng);
        let field = if k % 3 == 2 { by_hand(&mut rng) } else { built(&mut rng, &step) };
        let counted = |i: usize| (k * CELLS + i) as u8;
        let old = (0..CELLS).map(|i| if k % 3 == 0 { counted(i) } else { 0 }).collect();
        records.push(flow_build(field, old));
    }
    records
}

fn sector(costs: Costs, step: Step, previous: (bool, Vec<u32>)) -> Vec<u8> {
    sector_by(true, costs, step, previous)
}

/// A sector call, with the sight of a goal or without.
fn sector_by(sight: bool, costs: Costs, step: Step, (lent, numbers): (bool, Vec<u32>)) -> Vec<u8> {
    let (previous, mut sheet) = (Previous { lent, numbers: &numbers }, vec![0x55; CELLS]);
    let answer = match sight {
        true => Oracle.sector(&costs, &step, previous, &mut sheet),
        false => Oracle.sector_without_sight(&costs, &step, previous, &mut sheet),
    };
    let mut record = costs.to_vec();
    record.extend(step);
    record.push(u8::from(lent));
    record.extend(wide(&numbers));
    record.extend([answer.number, answer.waves as u8]);
    record.extend(list(&answer.field));
    record.extend(wide(&answer.field.field));
    record.extend(sheet);
    record
}

/// Goal 99 and sector 63, then a part of the floors, those with one wall, and that on which positions carried along the waves
/// are wrong.
fn some_open(rng: &mut Rng) -> Vec<(Costs, Step)> {
    let edges = [(floors::one_wall(44), floors::goal_step(0, 99)), (floors::uniform(1), floors::goal_step(63, 44))];
    let drawn = open_inputs(rng).into_iter().step_by(3);
    edges.into_iter().chain(drawn).chain(past_one_wall()).chain([floors::two_ways()]).collect()
}

/// Goal 99 and sector 63 with a wall under the goal, then a part of the floors with walls there.
fn some_on_walls(rng: &mut Rng) -> Vec<(Costs, Step)> {
    let edges = [(floors::one_wall(99), floors::goal_step(0, 99)), (floors::one_wall(44), floors::goal_step(63, 44))];
    edges.into_iter().chain(inputs_on_walls(rng).into_iter().step_by(2)).collect()
}

/// Windows come with a previous field.
fn sectors(mut rng: Rng) -> Vec<Vec<u8>> {
    let inputs = some_open(&mut rng).into_iter();
    inputs.map(|(costs, step)| sector(costs, step, recorded(floors::previous_for(&mut rng, &step)))).collect()
}

/// Sector calls with a wall under the goal or a window cell, with a previous field or without; then windows without one.
fn refused_sectors(mut rng: Rng) -> Vec<Vec<u8>> {
    let on_walls = some_on_walls(&mut rng);
    let mut records: Vec<Vec<u8>> =
        on_walls.into_iter().map(|(costs, step)| sector(costs, step, previous(&mut rng))).collect();
    records.extend(fieldless().map(|(costs, step)| sector(costs, step, (false, vec![0; CELLS]))));
    records
}

/// Windows of every kind on each side: the whole edge, some cells, one cell; on open floor and past a wall.
fn fieldless() -> impl Iterator<Item = (Costs, Step)> {
    (0..4).flat_map(|boundary| {
        let windows = [(0, 9), (2, 5), (4, 4)].map(|(first, last)| floors::window_step(0, boundary, first, last));
        [floors::uniform(1), floors::one_wall(55), floors::uniform(254)].into_iter().zip(windows)
    })
}

/// Goals that sight leads astray, beside a dear cell, with a part closed off, at cost 0, at the end of a snake, among walls and
/// costs of every kind; then windows.
fn seen_and_unseen(rng: &mut Rng) -> Vec<(Costs, Step)> {
    let goal = |cell| floors::goal_step(0, cell);
    let mut closed = floors::one_wall(1);
    closed[10] = 255;
    let mut list = vec![
        (floors::one_wall(1), goal(10)),
        floors::round_a_dear_cell(),
        (closed, goal(44)),
        (floors::uniform(0), goal(37)),
        (floors::uniform(254), floors::goal_step(63, 99)),
        (floors::snake(1, true, false), goal(0)),
    ];
    for percent in [10, 25, 40] {
        list.push((floors::walls(rng, percent, &[1]), goal(rng.below(CELLS))));
        list.push((floors::walls(rng, percent, &floors::COSTS), goal(rng.below(CELLS))));
    }
    list.push((floors::racks(rng), goal(rng.below(CELLS))));
    let windows = [(0, 3, 5), (1, 0, 9), (3, 4, 4)].map(|(boundary, a, b)| floors::window_step(0, boundary, a, b));
    list.extend(windows.map(|step| (floors::few_walls(rng), step)));
    list.iter_mut().for_each(|(costs, step)| floors::open(rng, costs, step));
    list
}

/// Windows come with a previous field of few values, so that they do not all lead straight across.
fn sectors_without_sight(mut rng: Rng) -> Vec<Vec<u8>> {
    let inputs = seen_and_unseen(&mut rng).into_iter();
    let records = inputs.map(|(costs, step)| {
        let previous = match step[2] {
            1 => (true, (0..CELLS).map(|_| rng.below(3) as u32).collect()),
            _ => previous(&mut rng),
        };
        sector_by(false, costs, step, previous)
    });
    records.collect()
}

/// Sectors without sight that are refused, with each number that a record has room for.
fn refused_without_sight() -> Vec<Vec<u8>> {
    let (goal, east) = (floors::goal_step(0, 44), floors::window_step(0, 1, 2, 5));
    let inputs = [
        (floors::uniform(1), changed(goal, &[(0, 64)])),
        (floors::uniform(1), changed(goal, &[(1, 100)])),
        (floors::uniform(1), changed(east, &[(3, 100)])),
        (floors::uniform(1), changed(east, &[(3, 28)])),
        (floors::one_wall(29), changed(east, &[(3, 59), (4, 29)])),
        (floors::one_wall(44), goal),
        (floors::one_wall(39), east),
        (floors::one_wall(44), east),
    ];
    inputs.into_iter().map(|(costs, step)| sector_by(false, costs, step, (false, vec![0; CELLS]))).collect()
}

/// Legs without sight: a goal that sight leads astray, a crossing that goes by what walking costs, sixteen steps in which every
/// window cell counts; gaps between counting cells, 15; 16, 10 and 9.
fn legs_without_sight(mut rng: Rng) -> Vec<Case> {
    let of = |(costs, steps): (Vec<u8>, Vec<u8>)| Case { costs, steps, ..Case::of(Call::Leg) };
    let mut floor = vec![1; 64 * CELLS];
    floor[..CELLS].copy_from_slice(&floors::one_wall(1));
    let goal = |cell: usize| floors::goal_step(0, cell);
    let astray = of((floor.clone(), goal(10).to_vec()));
    let mut cases = vec![astray, of(floors::leg_past_a_dear_row()), groups::leg_that_counts(&mut rng, 16)];
    cases.extend([of(floors::leg_with_a_gap()), groups::leg_that_meets(&mut rng, groups::Met::GapBetween)]);
    cases.push(groups::closed_leg(&mut rng, 3, 2));
    let window = |sector: usize, boundary: usize| floors::window_step(sector, boundary, 2, 5);
    let refused = [vec![goal(1)], vec![goal(10), window(9, 0)], vec![goal(10), window(1, 3), window(0, 1)]];
    cases.extend(refused.map(|steps| of((floor.clone(), steps.concat()))));
    cases.into_iter().map(Case::without_sight).collect()
}

/// A leg, and who decides it. Cost bytes of sectors not named are made 1.
fn leg(case: &Case) -> (Judge, Vec<u8>) {
    let steps = &case.steps;
    let part = |step: &[u8]| usize::from(step[0]) * CELLS..(usize::from(step[0]) + 1) * CELLS;
    let mut floor = vec![1; 64 * CELLS];
    for step in steps.chunks(8) {
        floor[part(step)].copy_from_slice(&case.costs[part(step)]);
    }
    let mut sheet = vec![0x55; 64 * CELLS];
    let (number, judges) = judges::during(|| match case.call() {
        Call::LegWithoutSight => Oracle.leg_without_sight(&floor, steps, &mut sheet),
        _ => Oracle.leg(&floor, steps, &mut sheet),
    });
    let parts = |of: &[u8]| {
        let mut bytes: Vec<u8> = steps.chunks(8).flat_map(|step| of[part(step)].to_vec()).collect();
        bytes.resize(16 * CELLS, 0);
        bytes
    };
    let mut record = vec![(steps.len() / 8) as u8];
    record.extend(steps.iter().copied().chain(std::iter::repeat(0)).take(128));
    record.extend(parts(&floor));
    record.push(number);
    record.extend(parts(&sheet));
    // Where the published Rust decides a part, the altered one decides the rest, and the file has its name.
    let judge = [Judge::Altered, Judge::Table, Judge::Model].into_iter().find(|judge| judges[*judge as usize]);
    (judge.expect("a judge decided the leg"), record)
}

/// A leg over floors of any kind, but for walls under its goal and its window cells.
fn leg_on_any(rng: &mut Rng, steps: Vec<u8>) -> Case {
    let mut costs = vec![1; 64 * CELLS];
    for step in steps.chunks(8) {
        let at = usize::from(step[0]) * CELLS;
        costs[at..at + CELLS].copy_from_slice(&floors::any(rng));
    }
    floors::open_leg(rng, &mut costs, &steps);
    Case { costs, steps, ..Case::of(Call::Leg) }
}

/// Sixteen steps, legs of any length, then legs that meet each kind of window, 15 at the first step that can have it, in
/// the middle and at the last, legs with walls under goals and window cells, of each kind and at such steps, legs that tell what
/// the first and the last cell of a window do not compare, and one that is refused with 10 where 15 would be found.
fn all_legs(mut rng: Rng) -> Vec<Case> {
    let mut cases = vec![leg_on_any(&mut rng, floors::straight_leg(16))];
    for most in [1, 2, 3, 5, 8, 12, 16] {
        let steps = floors::any_leg(&mut rng, most);
        cases.push(leg_on_any(&mut rng, steps));
    }
    let (costs, steps) = floors::leg_with_a_gap();
    cases.push(Case { costs, steps, ..Case::of(Call::Leg) });
    cases.extend([2, 4, 8, 16].map(|steps| groups::leg_that_counts(&mut rng, steps)));
    cases.extend(groups::leg_kinds().map(|kind| groups::leg_that_meets(&mut rng, kind)));
    cases.extend([(2, 2), (16, 2), (12, 7), (16, 16)].map(|(steps, at)| groups::closed_leg(&mut rng, steps, at)));
    cases.extend(groups::wall_kinds().map(|kind| groups::leg_on_walls_that_meets(&mut rng, kind)));
    cases.extend([leg_that_shows(&mut rng, Slip::FirstSeesLower), leg_that_shows(&mut rng, Slip::LastSeesHigher)]);
    cases.push(closed_and_unfacing(&mut rng));
    cases
}

/// A leg with a cell that does not count, which a slip plans otherwise.
fn leg_that_shows(rng: &mut Rng, slip: Slip) -> Case {
    loop {
        let case = groups::leg_that_meets(rng, groups::Met::SomeCount);
        if case.run(&Model { slip }) != case.run(&Model::PLAIN) {
            return case;
        }
    }
}

/// A leg whose second window has no counting cell, and whose last step does not face the one before: 10 before 15.
fn closed_and_unfacing(rng: &mut Rng) -> Case {
    let mut case = groups::closed_leg(rng, 4, 3);
    let named: Vec<u8> = case.steps.chunks(8).map(|step| step[0]).collect();
    let free = |sector: &u8| !named.contains(sector) && across(*sector, case.steps[29]) != Some(named[2]);
    case.steps[24] = (0..64).find(free).expect("a sector that is not named");
    case
}

/// Those of some legs that a judge decides.
fn legs(cases: Vec<Case>, judge: Judge) -> Vec<Vec<u8>> {
    cases.iter().map(leg).filter(|(by, _)| *by == judge).map(|(_, record)| record).collect()
}

/// One thing that is refused, or only just taken.
fn refusal(case: &Case) -> Vec<u8> {
    let number = case.run(&Oracle).number;
    let call = match case.call() {
        Call::Init => 0,
        Call::Build => 1,
        Call::FlowNew => 2,
        Call::FlowBuild => 3,
        Call::Sector => 4,
        Call::Leg => 5,
        Call::Line => 6,
        Call::LineEnd => 7,
        Call::Readers => unreachable!("the readers refuse nothing"),
        Call::WalkShallow | Call::WalkSteep => unreachable!("the walks alone are not recorded"),
        Call::LegFileWrite | Call::LegFileRead => unreachable!("a leg's files have sections of their own"),
        Call::PracticeFloor => unreachable!("practice floors refuse nothing"),
        Call::Bounds => unreachable!("bounds have sections of their own"),
        Call::WindowCosts | Call::WindowTour => unreachable!("windows have sections of their own"),
        Call::Arrivals => unreachable!("arrivals have sections of their own"),
        Call::SectorWithoutSight | Call::LegWithoutSight => unreachable!("these have sections of their own"),
        Call::Move | Call::Way | Call::LegField | Call::LegFieldWithoutSight => {
            unreachable!("these have sections of their own")
        }
    };
    let short = |value: usize| (value as u16).to_le_bytes();
    let place = case.field.los_corners.iter().position(|corner| *corner != 0).unwrap_or(0);
    let mut record = vec![call];
    record.extend([case.costs.len(), case.sheet.len(), case.steps.len()].map(short).concat());
    record.push(u8::from(case.previous_lent));
    record.extend([case.previous.len(), case.field.count].map(short).concat());
    record.push(place as u8);
    record.extend(short(case.field.los_corners[place]));
    record.extend(coordinates(case.cells));
    let wall = case.costs.iter().position(|cost| *cost != 1);
    record.extend(short(wall.unwrap_or(65535)));
    record.extend(case.steps.iter().copied().chain(std::iter::repeat(0)).take(136));
    record.extend([number, 0, 0]);
    record
}

/// A call with nothing wrong with it.
fn sound(call: Call) -> Case {
    let size = if call == Call::Leg { 64 * CELLS } else { CELLS };
    let takes = |calls: &[Call]| calls.contains(&call);
    let mut case = Case::of(call);
    if takes(&[Call::Init, Call::Build, Call::Sector, Call::Leg]) {
        case.costs = vec![1; size];
    }
    if takes(&[Call::FlowNew, Call::FlowBuild, Call::Sector, Call::Leg]) {
        case.sheet = vec![0x55; size];
    }
    if takes(&[Call::Init, Call::FlowNew, Call::Sector, Call::Leg]) {
        case.steps = floors::goal_step(0, 44).to_vec();
    }
    case
}

/// A step with some bytes made others.
fn changed(step: Step, changes: &[(usize, u8)]) -> Step {
    let mut step = step;
    changes.iter().for_each(|(i, value)| step[*i] = *value);
    step
}

/// Goal steps at the limits of 4 and 5, taken and refused, and with more than one thing wrong.
fn goals_at_limits() -> Vec<Step> {
    let single = [(0, 63), (0, 64), (1, 99), (1, 100), (1, 255), (2, 2), (6, 1), (7, 1), (2, 1)];
    let several: [&[(usize, u8)]; 3] = [&[(0, 64), (1, 100)], &[(3, 100), (4, 255), (5, 4)], &[(2, 255), (1, 200)]];
    let goal = floors::goal_step(0, 44);
    let single = single.into_iter().map(|change| changed(goal, &[change]));
    single.chain(several.into_iter().map(|changes| changed(goal, changes))).collect()
}

/// Window steps at the limits of 4 and 6 to 8, alike.
fn windows_at_limits() -> Vec<Step> {
    let single = [(0, 64), (1, 255), (3, 100), (4, 100), (5, 4), (5, 255), (3, 28), (4, 58), (5, 0), (5, 2), (5, 3)];
    let several = [[(3, 59), (4, 29)], [(3, 58), (4, 29)], [(3, 59), (4, 59)], [(7, 9), (3, 100)]];
    let east = floors::window_step(0, 1, 2, 5);
    let single = single.into_iter().map(|change| changed(east, &[change]));
    let several = several.into_iter().map(|changes| changed(east, &changes));
    let boundaries = (0..4).flat_map(|side| {
        let whole = floors::window_step(0, side, 0, 9);
        let turned = changed(whole, &[(3, whole[4]), (4, whole[3])]);
        [whole, turned, changed(whole, &[(5, (side as u8 + 1) % 4)])]
    });
    single.chain(several).chain(boundaries).collect()
}

/// Legs at the limits of 3, 9 and 10.
fn legs_at_limits() -> Vec<Vec<u8>> {
    let goal = |sector: usize| floors::goal_step(sector, 44);
    let window = |sector: usize, boundary: usize| floors::window_step(sector, boundary, 2, 5);
    let spoiled = |step: Step, i: usize, value: u8| changed(step, &[(i, value)]);
    let mut legs = vec![Vec::new(), vec![0; 7], floors::straight_leg(16), floors::straight_leg(17), vec![0; 136]];
    legs.extend([vec![0; 9], floors::straight_leg(2)]);
    let of_steps: [&[Step]; 16] = [
        &[goal(63)],
        &[goal(64)],
        &[window(0, 1)],
        &[goal(0), goal(1)],
        &[goal(0), window(0, 1)],
        &[goal(0), window(1, 3)],
        &[goal(0), window(1, 1)],
        &[goal(0), window(8, 0)],
        &[goal(0), window(8, 2)],
        &[goal(7), window(8, 3)],
        &[goal(8), window(7, 1)],
        &[goal(0), window(0, 0)],
        &[goal(0), window(9, 0)],
        &[goal(0), window(1, 3), window(0, 1)],
        &[goal(0), goal(1), spoiled(goal(2), 1, 100)],
        &[spoiled(goal(0), 1, 100), spoiled(goal(1), 0, 64)],
    ];
    legs.extend(of_steps.iter().map(|steps| steps.concat()));
    legs
}

fn refusals() -> Vec<Vec<u8>> {
    let mut cases: Vec<Case> = Vec::new();
    for call in [Call::Init, Call::Build, Call::FlowNew, Call::FlowBuild, Call::Sector, Call::Leg] {
        let size = sound(call).costs.len().max(sound(call).sheet.len());
        for length in [size, 0, size - 1, size + 1] {
            if !sound(call).costs.is_empty() {
                cases.push(Case { costs: vec![1; length], ..sound(call) });
            }
            if !sound(call).sheet.is_empty() {
                cases.push(Case { sheet: vec![0x55; length], ..sound(call) });
            }
        }
    }
    for call in [Call::Init, Call::FlowNew, Call::Sector] {
        cases.extend([0, 7, 9].map(|length| Case { steps: vec![0; length], ..sound(call) }));
    }
    let calls = [Call::Sector, Call::Init, Call::Sector, Call::FlowNew, Call::Sector, Call::Leg];
    let steps = goals_at_limits().into_iter().chain(windows_at_limits()).enumerate();
    cases.extend(steps.map(|(k, step)| with_step(calls[k % 6], step)));
    cases.extend(legs_at_limits().into_iter().map(|steps| Case { steps, ..sound(Call::Leg) }));
    cases.extend([Call::Init, Call::Sector, Call::Leg].into_iter().flat_map(walls_at_limits));
    cases.extend(legs_on_walls());
    cases.extend(lists_at_limits());
    cases.extend(previous_at_limits());
    cases.extend(without_field());
    for call in [Call::Line, Call::LineEnd] {
        let outside = [[10, 0, 0, 0], [0, 10, 0, 0], [0, 0, 10, 0], [0, 0, 0, 10], [255, 255, 255, 255], [9, 9, 9, 9]];
        cases.extend(outside.map(|[a, b, c, d]| Case {
            cells: [FieldCell { column: a, row: b }, FieldCell { column: c, row: d }],
            ..Case::of(call)
        }));
    }
    cases.iter().map(refusal).collect()
}

/// A call with nothing wrong with it but perhaps this step: a sector call with a window comes with a previous field.
fn with_step(call: Call, step: Step) -> Case {
    let case = Case { steps: step.to_vec(), ..sound(call) };
    if call == Call::Sector && step[2] == 1 { lend(case) } else { case }
}

/// The same with a previous field of zeros.
fn lend(case: Case) -> Case {
    Case { previous_lent: true, previous: vec![0; CELLS], ..case }
}

/// Windows without a previous field, of several cells and of one; the same with numbers that are not lent, with a previous
/// field, with a goal, in the calls that have no 17, and where 8 or 16 comes before it.
fn without_field() -> Vec<Case> {
    let (east, cell, goal) =
        (floors::window_step(0, 1, 2, 5), floors::window_step(0, 1, 4, 4), floors::goal_step(0, 44));
    let bare = |call: Call, step: Step| Case { steps: step.to_vec(), ..sound(call) };
    let mut cases: Vec<Case> = [east, cell, goal].map(|step| bare(Call::Sector, step)).to_vec();
    cases.extend([east, cell].map(|step| Case { previous: vec![0; CELLS], ..bare(Call::Sector, step) }));
    cases.extend([east, cell, goal].map(|step| lend(bare(Call::Sector, step))));
    cases.extend(
        [Call::Init, Call::FlowNew, Call::Leg].into_iter().flat_map(|call| [bare(call, east), bare(call, cell)]),
    );
    let turned = changed(east, &[(3, 59), (4, 29)]);
    cases.push(bare(Call::Sector, turned));
    for (step, wall) in [(east, 29), (east, 59), (cell, 49), (east, 44)] {
        let mut case = bare(Call::Sector, step);
        case.costs[wall] = 255;
        cases.push(case);
    }
    cases
}

/// A call with nothing wrong with it but perhaps this step, and this one wall.
fn on_wall(call: Call, step: Step, wall: usize) -> Case {
    let mut case = with_step(call, step);
    case.costs[wall] = 255;
    case
}

/// A goal and a window with walls under them, beside them and under what is not read; a window turned about, with a wall at
/// an end; lengths that are refused before.
fn walls_at_limits(call: Call) -> Vec<Case> {
    let (goal, east) = (floors::goal_step(0, 44), floors::window_step(0, 1, 2, 5));
    let unread = [changed(goal, &[(3, 50), (4, 70), (5, 3)]), changed(east, &[(1, 44)])];
    let turned = changed(east, &[(3, 59), (4, 29)]);
    let goals = [44, 43, 45, 0].map(|wall| (goal, wall));
    let windows = [29, 39, 49, 59, 19, 69, 38, 40].map(|wall| (east, wall));
    let others = [(unread[0], 50), (unread[1], 44), (turned, 29), (turned, 59), (changed(goal, &[(2, 2)]), 44)];
    let steps = goals.into_iter().chain(windows).chain(others);
    let mut cases: Vec<Case> = steps.map(|(step, wall)| on_wall(call, step, wall)).collect();
    let short = on_wall(call, goal, 44);
    cases.push(Case { costs: short.costs[1..].to_vec(), ..short.clone() });
    cases.push(Case { steps: goal[1..].to_vec(), ..short.clone() });
    if call != Call::Init {
        cases.push(Case { sheet: short.sheet[1..].to_vec(), ..short });
    }
    cases
}

/// Legs with one wall: under a step's window or under the same cell of another sector, and with 4 to 10 due at another step.
/// Previous fields of another length than 100, with a wall under the goal.
fn legs_on_walls() -> Vec<Case> {
    let goal = floors::goal_step(0, 44);
    let window = |sector: usize, boundary: usize| floors::window_step(sector, boundary, 2, 5);
    let west = window(1, 3);
    let turned = changed(west, &[(3, 50), (4, 20)]);
    let legs: [(&[Step], usize); 13] = [
        (&[goal, west], 130),
        (&[goal, west], 30),
        (&[goal, west], 144),
        (&[goal, west], 230),
        (&[goal, turned], 120),
        (&[goal, turned], 44),
        (&[goal, changed(west, &[(2, 2)])], 44),
        (&[goal, floors::goal_step(1, 100)], 44),
        (&[goal, changed(west, &[(0, 64)])], 44),
        (&[window(0, 1)], 39),
        (&[goal, floors::goal_step(1, 44)], 144),
        (&[goal, window(8, 2)], 893),
        (&[goal, west, window(0, 1)], 39),
    ];
    let leg = |(steps, wall): (&[Step], usize)| {
        let mut case = Case { steps: steps.concat(), ..sound(Call::Leg) };
        case.costs[wall] = 255;
        case
    };
    let sixteen = [Case { steps: floors::straight_leg(16), ..leg((&[], 859)) }];
    let previous = [99, 100, 101].map(|length| Case {
        previous_lent: true,
        previous: vec![0; length],
        ..on_wall(Call::Sector, goal, 44)
    });
    legs.into_iter().map(leg).chain(sixteen).chain(previous).collect()
}

/// Corner lists at the limits of 11.
fn lists_at_limits() -> Vec<Case> {
    let limits =
        [(0, 0, 0), (100, 99, 99), (100, 99, 100), (101, 0, 0), (65535, 0, 0), (1, 0, 100), (1, 1, 100), (3, 2, 99)];
    let case = |(count, place, corner): (usize, usize, usize)| {
        let mut case = sound(Call::Build);
        case.field.count = count;
        case.field.los_corners[place] = corner;
        case
    };
    limits.into_iter().map(case).collect()
}

/// Previous fields at the limits of 12, with a goal and with a window.
fn previous_at_limits() -> Vec<Case> {
    let mut cases = Vec::new();
    for call in [Call::FlowNew, Call::Sector] {
        for (previous_lent, length) in [(true, 100), (true, 99), (true, 101), (true, 0), (false, 0), (false, 99)] {
            for step in [floors::goal_step(0, 44), floors::window_step(0, 1, 2, 5)] {
                let previous = vec![0; length];
                cases.push(Case { steps: step.to_vec(), previous_lent, previous, ..sound(call) });
            }
        }
    }
    cases
}

/// Some bytes, and zeros in the places beyond them.
fn placed(bytes: &[u8], places: usize) -> impl Iterator<Item = u8> + '_ {
    assert!(bytes.len() <= places, "{} bytes have no room in {places} places", bytes.len());
    bytes.iter().copied().chain(std::iter::repeat(0)).take(places)
}

fn any_bytes(rng: &mut Rng, length: usize) -> Vec<u8> {
    (0..length).map(|_| rng.draw() as u8).collect()
}

fn file_write(steps: &[u8], room: usize, old: u8) -> Vec<u8> {
    let mut file = vec![old; room];
    let number = Oracle.leg_file_write(steps, &mut file);
    let mut record = vec![steps.len() as u8, room as u8, old, number];
    record.extend(placed(steps, 150));
    record.extend(placed(&file, 160));
    record
}

/// Lists at the limits of 3, each with a buffer as long as the file, a byte shorter and a byte longer, and with an empty
/// one; steps whose every byte is 255; then any lists and buffers.
fn file_writes(mut rng: Rng) -> Vec<Vec<u8>> {
    let mut records = Vec::new();
    for length in [0, 1, 7, 8, 9, 16, 64, 120, 127, 128, 129, 136] {
        for room in [length + 6, length + 5, length + 7, 0] {
            records.push(file_write(&any_bytes(&mut rng, length), room, rng.pick(&[0x55, 0, 255])));
        }
    }
    records.extend([8, 128].map(|length| file_write(&vec![255; length], length + 6, 0)));
    for most in [1, 2, 3, 5, 8, 12, 16] {
        let steps = floors::any_leg(&mut rng, most);
        records.push(file_write(&steps, steps.len() + 6, rng.draw() as u8));
    }
    for _ in 0..8 {
        let length = rng.below(151);
        records.push(file_write(&any_bytes(&mut rng, length), rng.below(161), rng.draw() as u8));
    }
    records
}

fn file_read(file: &[u8]) -> Vec<u8> {
    let found = Oracle.leg_file_read(file);
    let mut record = vec![file.len() as u8, found.number, found.start as u8, found.length as u8];
    record.extend(placed(file, 150));
    record
}

/// A file of any steps, whose version, count byte and bytes of steps are these.
fn file_with(rng: &mut Rng, version: [u8; 2], count: u8, length: usize) -> Vec<u8> {
    [b"LEG", &version[..], &[count], &any_bytes(rng, length)].concat()
}

/// Count bytes and bytes of steps that do not fit: 0 and 17 steps, another count's length, a byte too few or too many.
const MISCOUNTED: [(u8, usize); 19] = [
    (0, 0),
    (0, 8),
    (17, 136),
    (17, 128),
    (255, 128),
    (1, 16),
    (2, 8),
    (15, 128),
    (16, 120),
    (16, 136),
    (8, 8),
    (128, 128),
    (1, 7),
    (1, 9),
    (2, 15),
    (2, 17),
    (16, 127),
    (16, 129),
    (17, 135),
];

/// Every count; files cut short; each byte of the mark wrong; versions; what `MISCOUNTED` has; steps whose every byte is
/// 255; then any bytes, and good files with a byte of the head or of the steps made another.
fn file_reads(mut rng: Rng) -> Vec<Vec<u8>> {
    let mut files: Vec<Vec<u8>> =
        (1..=16).map(|count| file_with(&mut rng, [1, 0], count, 8 * usize::from(count))).collect();
    let one = files[0].clone();
    files.extend((0..=6).map(|length| one[..length].to_vec()));
    for (at, byte) in [(0, b'l'), (1, b'e'), (2, b'g'), (0, 0), (1, b'L'), (2, 255)] {
        let mut file = file_with(&mut rng, [1, 0], 1, 8);
        file[at] = byte;
        files.push(file);
    }
    let versions = [[0, 1], [0, 0], [2, 0], [1, 1], [1, 255], [255, 255]];
    files.extend(versions.map(|version| file_with(&mut rng, version, 1, 8)));
    files.extend(MISCOUNTED.map(|(count, length)| file_with(&mut rng, [1, 0], count, length)));
    files.extend([1, 16].map(|count| [b"LEG\x01\0", &[count as u8][..], &vec![255; 8 * count]].concat()));
    for most in [6, 6, 14, 134] {
        let mut file = file_with(&mut rng, [1, 0], 16, 128);
        file[rng.below(most)] = rng.draw() as u8;
        files.push(file);
        let length = rng.below(151);
        files.push(any_bytes(&mut rng, length));
    }
    files.iter().map(|file| file_read(file)).collect()
}

/// The seeds that are named, and a hundred drawn ones.
fn seeds(rng: &mut Rng) -> Vec<u32> {
    let drawn = (0..100).map(|_| (rng.draw() >> 32) as u32);
    groups::NAMED.into_iter().chain(drawn).collect()
}

fn practice_floor(seed: u32) -> Vec<u8> {
    let floor = Oracle.practice_floor(seed);
    [&seed.to_le_bytes()[..], &floor.costs, &[floor.goal]].concat()
}

fn practice_floors(mut rng: Rng) -> Vec<Vec<u8>> {
    seeds(&mut rng).into_iter().map(practice_floor).collect()
}

fn practice_text(input: &[u8]) -> Vec<u8> {
    let text = Model::PLAIN.practice_text(input).into_bytes();
    let mut record = vec![input.len() as u8];
    record.extend(placed(input, 8));
    record.push(text.len() as u8);
    record.extend(placed(&text, 213));
    record
}

/// The same seeds; then two inputs of each other length from 0 to 8.
fn practice_texts(mut rng: Rng) -> Vec<Vec<u8>> {
    let mut inputs: Vec<Vec<u8>> = seeds(&mut rng).into_iter().map(|seed| seed.to_le_bytes().to_vec()).collect();
    for length in (0..=8).filter(|length| *length != 4) {
        inputs.push(vec![0; length]);
        inputs.push(any_bytes(&mut rng, length));
    }
    inputs.iter().map(|input| practice_text(input)).collect()
}

/// A call for bounds, and whether it is taken.
fn bounds(case: &Case) -> (bool, Vec<u8>) {
    let Case { costs: low, high, steps: step, .. } = case;
    let answer = Oracle.bounds(low, high, step);
    let mut record = [low, high, step].map(|bytes| bytes.len() as u8).to_vec();
    record.extend(placed(low, 101).chain(placed(high, 101)).chain(placed(step, 9)));
    record.push(answer.number);
    record.extend(wide(&answer.least).chain(wide(&answer.greatest)));
    record.extend(answer.sure.map(u8::from));
    (answer.number == 0, record)
}

/// Two floors of one cost each.
fn range(low: u8, high: u8, step: Step) -> Case {
    Case { costs: vec![low; CELLS], high: vec![high; CELLS], steps: step.to_vec(), ..Case::of(Call::Bounds) }
}

/// Windows of every kind on each side, with ranges from one cost to 0 to 254; then floors that meet each kind of cell; then
/// drawn ones.
fn bounds_taken(mut rng: Rng) -> Vec<Vec<u8>> {
    let windows = (0..4).flat_map(|boundary| {
        let windows = [(0, 9), (2, 5), (4, 4)].map(|(first, last)| floors::window_step(63, boundary, first, last));
        [(1, 1), (1, 2), (0, 254)].into_iter().zip(windows)
    });
    let mut cases: Vec<Case> = windows.map(|((low, high), step)| range(low, high, step)).collect();
    cases.extend(groups::range_kinds().map(|kind| groups::floors_that_meet(&mut rng, kind)));
    cases.extend((0..24).map(|_| groups::any_floors(&mut rng)));
    cases.iter().map(bounds).filter(|(taken, _)| *taken).map(|(_, record)| record).collect()
}

/// Good floors of cost 1 to 3 with the lengths of one of them or of the step made others; with a goal; with a step at the
/// limits; with one cell no from-to, at both ends of the sector and of the window; with a window cell a wall on either floor
/// or on both; and with several of these.
fn bounds_refused(mut rng: Rng) -> Vec<Vec<u8>> {
    let east = floors::window_step(0, 1, 2, 5);
    let sound = range(1, 3, east);
    let mut cases = Vec::new();
    for length in [0, 99, 101] {
        cases.push(Case { costs: vec![1; length], ..sound.clone() });
        cases.push(Case { high: vec![3; length], ..sound.clone() });
    }
    cases.extend([0, 7, 9].map(|length| Case { steps: vec![0; length], ..sound.clone() }));
    let steps = goals_at_limits().into_iter().chain(windows_at_limits());
    cases.extend(steps.map(|step| Case { steps: step.to_vec(), ..sound.clone() }));
    for (cell, low, high) in [(0, 4, 3), (99, 4, 3), (99, 3, 2), (44, 2, 1), (44, 1, 255), (44, 255, 3), (99, 1, 255)] {
        cases.push(with_costs(&sound, &[(cell, low, high)]));
    }
    for (low, high) in [(255, 3), (1, 255), (255, 255), (4, 3)] {
        cases.extend([29, 39, 59].map(|cell| with_costs(&sound, &[(cell, low, high)])));
        cases.push(with_costs(&sound, &[(29, low, high), (0, 2, 1)]));
        let goal = Case { steps: floors::goal_step(0, 29).to_vec(), ..sound.clone() };
        cases.push(with_costs(&goal, &[(29, low, high)]));
        let turned = Case { steps: changed(east, &[(3, 59), (4, 29)]).to_vec(), ..sound.clone() };
        cases.push(with_costs(&turned, &[(29, low, high)]));
    }
    cases.extend((0..12).map(|_| groups::refused_floors(&mut rng)));
    cases.iter().map(bounds).filter(|(taken, _)| !*taken).map(|(_, record)| record).collect()
}

/// The same with these costs on the low and the high floor in some cells.
fn with_costs(case: &Case, cells: &[(usize, u8, u8)]) -> Case {
    let mut case = case.clone();
    for (cell, low, high) in cells {
        (case.costs[*cell], case.high[*cell]) = (*low, *high);
    }
    case
}

/// A call for window costs, and whether it is taken.
fn window_costs(case: &Case) -> (bool, Vec<u8>) {
    let Case { costs, steps, .. } = case;
    let answer = Oracle.window_costs(costs, steps);
    let mut record = [costs, steps].map(|bytes| bytes.len() as u8).to_vec();
    record.extend(placed(costs, 101).chain(placed(steps, 136)));
    record.push(answer.number);
    record.extend(answer.square().iter().flat_map(|row| wide(row)));
    (answer.number == 0, record)
}

/// These windows on a floor of cost 1.
fn on_open_floor(steps: &[Step]) -> Case {
    Case { costs: vec![1; CELLS], steps: steps.concat(), ..Case::of(Call::WindowCosts) }
}

/// Eight windows of sector 63: whole edges and single cells, some that overlap, one listed twice.
fn eight_windows() -> [Step; 8] {
    [
        floors::window_step(63, 0, 0, 9),
        floors::window_step(63, 2, 3, 3),
        floors::window_step(63, 1, 2, 5),
        floors::window_step(63, 3, 0, 1),
        floors::window_step(63, 0, 8, 9),
        floors::window_step(63, 1, 0, 9),
        floors::window_step(63, 3, 7, 9),
        floors::window_step(63, 2, 3, 3),
    ]
}

/// From two to eight windows on an open floor; then lists that meet each kind; then drawn ones.
fn windows_taken(mut rng: Rng) -> Vec<Vec<u8>> {
    let mut cases: Vec<Case> = (2..=8).map(|count| on_open_floor(&eight_windows()[..count])).collect();
    cases.extend(groups::window_kinds().map(|kind| groups::windows_that_meet(&mut rng, kind)));
    cases.extend((0..32).map(|_| groups::any_windows(&mut rng)));
    cases.iter().map(window_costs).filter(|(taken, _)| *taken).map(|(_, record)| record).collect()
}

/// Good lists with the lengths of the costs or of the steps made others, from no byte to 17 steps; with the first, a middle
/// or the last step a goal, in another sector, at the limits or on a wall; with several of these; then drawn ones.
fn windows_refused(rng: Rng) -> Vec<Vec<u8>> {
    let cases = spoiled_windows(rng);
    cases.iter().map(window_costs).filter(|(taken, _)| !*taken).map(|(_, record)| record).collect()
}

fn spoiled_windows(mut rng: Rng) -> Vec<Case> {
    let [east, south, west] = [1, 2, 3].map(|boundary| floors::window_step(9, boundary, 2, 5));
    let sound = on_open_floor(&[east, south, west]);
    let with = |steps: &[Step]| on_open_floor(steps);
    let mut cases: Vec<Case> = [0, 99, 101].map(|length| Case { costs: vec![1; length], ..sound.clone() }).to_vec();
    let many = [east; 17].concat();
    let lengths = [0, 1, 7, 8, 9, 12, 15, 17, 63, 65, 71, 72, 73, 127, 128, 129, 135, 136];
    cases.extend(lengths.map(|length| Case { steps: many[..length].to_vec(), ..sound.clone() }));
    cases.push(Case { costs: vec![1; 99], steps: Vec::new(), ..sound.clone() });
    cases.push(Case { steps: [0xff; 72].to_vec(), ..sound.clone() });
    let limits = goals_at_limits().into_iter().chain(windows_at_limits());
    cases.extend(limits.enumerate().map(|(k, step)| {
        let mut steps = [east, south, west];
        steps[k % 3] = step;
        with(&steps)
    }));
    let goal = floors::goal_step(9, 44);
    let elsewhere = changed(south, &[(0, 10)]);
    for steps in [[goal, south, west], [east, goal, west], [east, south, goal], [goal, goal, goal]] {
        cases.push(with(&steps));
        cases.push(walled(with(&steps), 44));
        cases.push(walled(with(&steps), 10));
    }
    for steps in
        [[elsewhere, east, west], [east, elsewhere, west], [east, west, elsewhere], [east, elsewhere, elsewhere]]
    {
        cases.push(with(&steps));
        cases.push(walled(with(&steps), 93));
        cases.push(walled(with(&steps), 29));
    }
    let turned = changed(elsewhere, &[(3, 95), (4, 92)]);
    cases.extend([with(&[east, turned, west]), with(&[east, elsewhere, turned]), with(&[east, goal, turned])]);
    cases.extend([29, 59, 92, 95, 20, 50].map(|wall| walled(sound.clone(), wall)));
    cases.extend((0..24).map(|_| groups::refused_windows(&mut rng)));
    cases
}

/// The same with one wall.
fn walled(case: Case, wall: usize) -> Case {
    let mut case = case;
    case.costs[wall] = 255;
    case
}

/// A call for a tour, and whether it is taken.
fn window_tour(case: &Case) -> (bool, Vec<u8>) {
    let Case { costs, steps, limit, .. } = case;
    let answer = Oracle.window_tour(costs, steps, *limit);
    let mut record = [costs, steps].map(|bytes| bytes.len() as u8).to_vec();
    record.extend(limit.to_le_bytes());
    record.extend(placed(costs, 101).chain(placed(steps, 136)));
    record.extend([answer.number, u8::from(answer.found)]);
    record.extend(answer.order);
    record.extend(wide(&[answer.sum, answer.tried, answer.least]));
    (answer.number == 0, record)
}

/// From two to eight windows on an open floor with limits at the edges; then tours that meet each kind; then drawn ones.
fn tours_taken(mut rng: Rng) -> Vec<Vec<u8>> {
    let open = (2..=8).flat_map(|count| {
        let all: u16 = (1..count as u16).product();
        let limits = [0, 1, all - 1, all, all.saturating_add(1), 65535];
        limits.map(|limit| Case { limit, ..on_open_floor(&eight_windows()[..count]) })
    });
    let mut cases: Vec<Case> = open.collect();
    cases.extend(groups::tour_kinds().map(|kind| groups::tour_that_meets(&mut rng, kind)));
    cases.extend((0..48).map(|_| groups::any_tour(&mut rng)));
    cases.iter().map(window_tour).filter(|(taken, _)| *taken).map(|(_, record)| record).collect()
}

/// The refused lists of window costs, with limits.
fn tours_refused(mut rng: Rng) -> Vec<Vec<u8>> {
    let mut cases = spoiled_windows(rng.clone());
    cases.iter_mut().enumerate().for_each(|(k, case)| case.limit = [0, 1, 24, 5040, 65535][k % 5]);
    cases.extend((0..8).map(|_| groups::refused_tour(&mut rng)));
    cases.iter().map(window_tour).filter(|(taken, _)| !*taken).map(|(_, record)| record).collect()
}

fn arrivals(case: &Case) -> Vec<u8> {
    let sheet = &case.sheet;
    let answer = Oracle.arrivals(sheet);
    let mut record = vec![sheet.len() as u8];
    record.extend(placed(sheet, 101));
    record.push(answer.number);
    record.extend(answer.moves);
    record
}

/// Every byte among goals, snakes, floors of one wall; then sheets that meet each kind; then drawn ones.
fn arrivals_taken(mut rng: Rng) -> Vec<Vec<u8>> {
    let mut cases = groups::some_sheets();
    cases.extend(groups::arrival_kinds().into_iter().map(|kind| groups::sheet_that_meets(&mut rng, kind)));
    cases.extend((0..24).map(|_| groups::drawn_sheet(&mut rng)));
    cases.iter().map(arrivals).collect()
}

/// Sheets of other lengths, of goals and of any bytes.
fn arrivals_refused(mut rng: Rng) -> Vec<Vec<u8>> {
    let of = |sheet: Vec<u8>| Case { sheet, ..Case::of(Call::Arrivals) };
    let mut cases: Vec<Case> = [0, 1, 10, 50, 98, 99, 101].map(|length| of(vec![0x70; length])).to_vec();
    cases.extend([0, 99, 101].map(|length| of((0..length).map(|_| rng.below(256) as u8).collect())));
    cases.iter().map(arrivals).collect()
}
