//! The recorded sample, read back by its layout and asked of the model: the bytes mean what the README
//! of the sample says.

use std::sync::LazyLock;

use oracle::cases::Case;
use oracle::groups;
use oracle::judges::Judge;
use oracle::model::{CLOSED, Model, Slip};
use oracle::records::{Section, sections};
use oracle::refusals::{FIELDLESS, NO_RANGE, NO_STEP_THERE, NO_WINDOW_THERE, NOT_2_TO_8, ON_WALL};
use oracle::subject::*;

/// Reads a record from its start.
struct Reader<'a>(&'a [u8]);

impl<'a> Reader<'a> {
    fn bytes(&mut self, length: usize) -> &'a [u8] {
        let (taken, rest) = self.0.split_at(length);
        self.0 = rest;
        taken
    }

    fn byte(&mut self) -> u8 {
        self.bytes(1)[0]
    }

    fn short(&mut self) -> usize {
        let bytes = self.bytes(2);
        usize::from(bytes[0]) + 256 * usize::from(bytes[1])
    }

    fn word(&mut self) -> u32 {
        u32::from_le_bytes(self.bytes(4).try_into().expect("four bytes"))
    }

    fn cells(&mut self) -> [u32; CELLS] {
        std::array::from_fn(|_| self.word())
    }

    /// Count, positions and corners.
    fn list(&mut self) -> (usize, [u8; CELLS], [usize; CELLS]) {
        let count = usize::from(self.byte());
        let positions = self.bytes(100).try_into().expect("a hundred bytes");
        (count, positions, std::array::from_fn(|_| usize::from(self.byte())))
    }

    fn cell(&mut self) -> FieldCell {
        FieldCell { column: usize::from(self.byte()), row: usize::from(self.byte()) }
    }
}

fn field(
    cells: [u32; CELLS],
    (count, positions, los_corners): (usize, [u8; CELLS], [usize; CELLS]),
) -> IntegrationField {
    IntegrationField { field: cells, los_corners, count, positions }
}

fn alone(cells: [u32; CELLS]) -> IntegrationField {
    IntegrationField::new(cells, &[])
}

/// The sample, made once.
static SAMPLE: LazyLock<Vec<Section>> = LazyLock::new(sections);

fn section(name: &str) -> &'static Section {
    SAMPLE.iter().find(|section| section.name == name).expect("a section of that name")
}

fn each(name: &str, mut check: impl FnMut(&mut Reader)) {
    let section = section(name);
    assert!(!section.records.is_empty());
    for record in &section.records {
        let mut reader = Reader(record);
        check(&mut reader);
        assert!(reader.0.iter().all(|byte| *byte == 0), "{name}: zeros to the end");
    }
}

const MODEL: Model = Model::PLAIN;

/// Whether a model answers what a record says.
type Agrees = fn(&Model, &mut Reader) -> bool;

/// A file that the published Rust does not decide says so in its name.
#[test]
fn a_file_with_another_judge_says_so_in_its_name() {
    let by = |judge: Judge| {
        let named = SAMPLE.iter().filter(|section| section.judges().contains(&judge));
        named.map(|section| section.name).collect::<Vec<&str>>()
    };
    // The last two by its parts, beside the altered one's.
    let parts = ["sector_without_sight.altered", "leg_without_sight.altered"];
    let fields = ["leg_field.altered", "leg_field_without_sight.altered"];
    assert_eq!(by(Judge::Published), [&["line", "readers", "build", "flow_new"], &parts[..], &fields[1..]].concat());
    let altered = ["line_end.altered", "init.altered", "flow_build.altered", "sector.altered", "leg.altered"];
    assert_eq!(by(Judge::Altered), [&altered[..], &parts, &fields].concat());
    let counted = ["build", "sector.altered", "sector_without_sight.altered"];
    assert_eq!(by(Judge::Counted), [&counted[..], &fields].concat());
    let tables = ["init.table", "sector.table", "leg.table"];
    let without_sight = ["sector_without_sight.table", "leg_without_sight.table"];
    let others = ["refusals.table", "bounds.table"];
    let windows = ["window_costs.table", "window_tour.table", "arrivals.table"];
    let carts = ["cart.table", "leg_field.table", "leg_field_without_sight.table"];
    assert_eq!(by(Judge::Table), [&tables[..], &without_sight, &others, &windows, &carts].concat());
    let files = ["leg_file_write.model", "leg_file_read.model"];
    let floors = ["practice.model", "practice_text.model", "bounds.model"];
    let windows = ["window_costs.model", "window_tour.model", "arrivals.model"];
    // Of these, whose cells are the Rust's, the positions.
    let positions =
        [&["init.altered", "build", "sector.altered", "sector_without_sight.altered"], &fields[..]].concat();
    let legs = ["leg.model", "sector_without_sight.altered", "leg_without_sight.model"];
    let [seen, unseen] = [
        ["leg_field.altered", "leg_field.model"],
        ["leg_field_without_sight.altered", "leg_field_without_sight.model"],
    ];
    let carts = [&["cart.model"], &seen[..], &unseen].concat();
    assert_eq!(by(Judge::Model), [&positions[..3], &legs, &files, &floors, &windows, &carts].concat());
    let named = |judge: Judge, end: &str| {
        by(judge).iter().all(|name| name.ends_with(end) || (judge == Judge::Model && positions.contains(name)))
    };
    assert!(named(Judge::Altered, ".altered") && named(Judge::Table, ".table") && named(Judge::Model, ".model"));
    assert!(
        !by(Judge::Published).iter().any(|name| name.contains('.') && ![&parts[..], &fields].concat().contains(name))
    );
}

/// The sums are made from the records here, not by the program that replays them.
#[test]
fn replay_has_to_print_what_the_records_say() {
    let printed = include_str!("../../../crates/replay/stdout");
    let due: Vec<String> = SAMPLE.iter().map(|section| section.agreed()).collect();
    assert_eq!(printed.lines().collect::<Vec<&str>>(), due);
}

#[test]
fn lines() {
    each("line", |r| assert_eq!(line_so(&MODEL, r), (0, true)));
    each("line_end.altered", |r| assert!(ends_so(&MODEL, r)));
}

/// The number of a record of a line, and whether a model answers what it says.
fn line_so(model: &Model, r: &mut Reader) -> (u8, bool) {
    let line = model.line(r.cell(), r.cell());
    let indexes: Vec<u8> = line.cells.iter().map(|cell| (cell.row * 10 + cell.column) as u8).collect();
    let number = r.byte();
    (number, (line.number, line.count as u8, &indexes[..]) == (number, r.byte(), r.bytes(10)))
}

/// Whether a model answers what a record of a line's end says.
fn ends_so(model: &Model, r: &mut Reader) -> bool {
    let end = model.line_end(r.cell(), r.cell());
    (end.number, end.cell) == (r.byte(), r.cell())
}

#[test]
fn line_ends_show_every_slip() {
    let slips = slips_of("line end: ");
    assert_eq!(slips.len(), 15);
    for (slip, text) in slips {
        assert!(shown(*slip, "line_end.altered", ends_so), "not shown: {text}");
    }
}

#[test]
fn readers() {
    each("readers", |r| assert_eq!(byte_so(&MODEL, r), (0, true)));
}

/// Whether a model reads a byte as a record says, which has no number.
fn byte_so(model: &Model, r: &mut Reader) -> (u8, bool) {
    let read = model.readings(r.byte());
    let flags = [read.is_pathable, read.is_goal, read.is_portal_goal, read.has_line_of_sight, read.is_wall];
    (0, (&flags.map(u8::from)[..], read.direction) == (r.bytes(5), r.byte()))
}

/// The number of a record of `init`, and whether a model answers what it says.
fn starts_so(model: &Model, r: &mut Reader) -> (u8, bool) {
    let answer = model.init(r.bytes(100), r.bytes(8));
    let (number, list, cells) = (r.byte(), r.list(), r.cells());
    (number, answer == InitAnswer { number, field: field(cells, list) })
}

#[test]
fn fields() {
    each("init.altered", |r| assert_eq!(starts_so(&MODEL, r), (0, true)));
    each("init.table", |r| assert_eq!(starts_so(&MODEL, r), (ON_WALL, true)));
    each("build", |r| assert_eq!(builds_so(&MODEL, r), (0, true)));
}

/// The same of one of `build`.
fn builds_so(model: &Model, r: &mut Reader) -> (u8, bool) {
    let (costs, cells, list) = (r.bytes(100), r.cells(), r.list());
    let answer = model.build(costs, field(cells, list));
    let (number, waves, list, cells) = (r.byte(), usize::from(r.byte()), r.list(), r.cells());
    (number, answer == BuildAnswer { number, field: field(cells, list), waves })
}

/// The model alone made the positions, so the records are also asked to tell them from each wrong one.
#[test]
fn positions_show_every_slip() {
    let files: [(&str, Agrees); 4] = [
        ("init.altered", |model, r| starts_so(model, r).1),
        ("init.table", |model, r| starts_so(model, r).1),
        ("build", |model, r| builds_so(model, r).1),
        ("sector.altered", |model, r| plans_so(model, r).1),
    ];
    let mut slips = 0;
    for (slip, text) in Slip::ALL.iter().filter(|(slip, _)| format!("{slip:?}").starts_with("Position")) {
        assert!(files.iter().any(|(name, agrees)| shown(*slip, name, *agrees)), "not shown: {text}");
        slips += 1;
    }
    assert_eq!(slips, 30);
    let sector = |slip: Slip| shown(slip, "sector.altered", |model, r| plans_so(model, r).1);
    assert!(sector(Slip::PositionsCarried) && sector(Slip::PositionsCarriedSmaller));
}

#[test]
fn flows() {
    each("flow_new", |r| assert_eq!(new_so(&MODEL, r), (0, true)));
    each("flow_build.altered", |r| assert_eq!(looks_so(&MODEL, r), (0, true)));
}

/// The number of a record of `new` of a flow field, and whether a model answers what it says.
fn new_so(model: &Model, r: &mut Reader) -> (u8, bool) {
    let (step, cells, lent, numbers) = (r.bytes(8), r.cells(), r.byte() == 1, r.cells());
    let mut sheet = [0x55; CELLS];
    let answered = model.flow_new(step, alone(cells), Previous { lent, numbers: &numbers }, &mut sheet);
    let number = r.byte();
    (number, (answered, &sheet[..]) == (number, r.bytes(100)))
}

/// The same of one of `build` of a flow field.
fn looks_so(model: &Model, r: &mut Reader) -> (u8, bool) {
    let (cells, mut sheet) = (r.cells(), r.bytes(100).to_vec());
    let answered = model.flow_build(alone(cells), &mut sheet);
    let (number, due) = (r.byte(), r.bytes(100));
    (number, (answered, &sheet[..]) == (number, due))
}

#[test]
fn sectors() {
    each("sector.altered", |r| assert_eq!(plans_so(&MODEL, r), (0, true)));
    let mut numbers = Vec::new();
    each("sector.table", |r| {
        let (number, agrees) = plans_so(&MODEL, r);
        assert!(agrees);
        numbers.push(number);
    });
    let count = |due: u8| numbers.iter().filter(|number| **number == due).count();
    assert_eq!((count(ON_WALL) + count(FIELDLESS), count(FIELDLESS)), (numbers.len(), 12));
}

/// No accepted window of the sector call is without a previous field, and some refused ones have a wall besides. Flow `new`
/// takes windows without.
#[test]
fn windows_of_the_sector_call_have_a_previous_field() {
    let fieldless = |r: &mut Reader| {
        let (step, lent) = (&r.bytes(108)[100..], r.byte() == 1);
        r.0 = &[];
        step[2] == 1 && !lent
    };
    each("sector.altered", |r| assert!(!fieldless(r)));
    let table = section("sector.table");
    let both = |record: &&Vec<u8>| fieldless(&mut Reader(record)) && record[509] == ON_WALL;
    assert!(table.records.iter().filter(both).count() > 0);
    let new = section("flow_new");
    let taken = |record: &&Vec<u8>| record[2] == 1 && record[408] == 0 && record[809] == 0;
    assert!(new.records.iter().filter(taken).count() > 0);
}

/// The same of one of the sector call.
fn plans_so(model: &Model, r: &mut Reader) -> (u8, bool) {
    plans_by(true, model, r)
}

/// The same of one without sight.
fn plans_without_sight(model: &Model, r: &mut Reader) -> (u8, bool) {
    plans_by(false, model, r)
}

fn plans_by(sight: bool, model: &Model, r: &mut Reader) -> (u8, bool) {
    let (costs, step, lent, numbers) = (r.bytes(100), r.bytes(8), r.byte() == 1, r.cells());
    let (previous, mut sheet) = (Previous { lent, numbers: &numbers }, [0x55; CELLS]);
    let answer = match sight {
        true => model.sector(costs, step, previous, &mut sheet),
        false => model.sector_without_sight(costs, step, previous, &mut sheet),
    };
    let (number, waves, list, cells) = (r.byte(), usize::from(r.byte()), r.list(), r.cells());
    let due = BuildAnswer { number, field: field(cells, list), waves };
    (number, (answer, &sheet[..]) == (due, r.bytes(100)))
}

#[test]
fn legs() {
    for name in ["leg.altered", "leg.model", "leg.table"] {
        legs_of(name, goes_so);
    }
    for name in ["leg_without_sight.altered", "leg_without_sight.model", "leg_without_sight.table"] {
        legs_of(name, goes_without_sight);
    }
}

/// A record of a leg.
struct Leg<'a> {
    floor: Vec<u8>,
    steps: &'a [u8],
    number: u8,
    /// The sheet after the call.
    sheet: Vec<u8>,
}

fn leg_of<'a>(r: &mut Reader<'a>) -> Leg<'a> {
    let (count, steps, costs) = (usize::from(r.byte()), r.bytes(128), r.bytes(1600));
    let (number, due) = (r.byte(), r.bytes(1600));
    let mut leg = Leg { floor: vec![1; 6400], steps: &steps[..8 * count], number, sheet: vec![0x55; 6400] };
    for (k, step) in leg.steps.chunks(8).enumerate() {
        let at = usize::from(step[0]) * 100;
        leg.floor[at..at + 100].copy_from_slice(&costs[100 * k..100 * k + 100]);
        leg.sheet[at..at + 100].copy_from_slice(&due[100 * k..100 * k + 100]);
    }
    leg
}

/// The same of one of a leg.
fn goes_so(model: &Model, r: &mut Reader) -> (u8, bool) {
    let (leg, mut sheet) = (leg_of(r), vec![0x55; 6400]);
    (leg.number, model.leg(&leg.floor, leg.steps, &mut sheet) == leg.number && sheet == leg.sheet)
}

/// The same of one without sight.
fn goes_without_sight(model: &Model, r: &mut Reader) -> (u8, bool) {
    let (leg, mut sheet) = (leg_of(r), vec![0x55; 6400]);
    (leg.number, model.leg_without_sight(&leg.floor, leg.steps, &mut sheet) == leg.number && sheet == leg.sheet)
}

/// The rules of document 02, Jobs 7 and 11 decide some records of each file that they move: a model that needs both walls
/// beside a diagonal, in lines or in looks, answers them otherwise, and so does one with line ends in f32.
#[test]
fn altered_rules_decide_records_of_each_file() {
    type Answers = fn(&Model, &mut Reader) -> (u8, bool);
    let told = |slip: Slip, name: &str, answers: Answers| {
        let section = section(name);
        let wrong = section.records.iter().filter(|record| !answers(&Model { slip }, &mut Reader(record)).1).count();
        println!("{name}: {wrong} of {} records tell {slip:?}", section.records.len());
        assert!(wrong > 0);
    };
    told(Slip::TwoWallsStopLine, "init.altered", starts_so);
    told(Slip::FloatRays, "init.altered", starts_so);
    told(Slip::TwoWallsBar, "flow_build.altered", looks_so);
    let planned: [(&str, Answers); 3] =
        [("sector.altered", plans_so), ("leg.altered", goes_so), ("leg.model", goes_so)];
    for (name, answers) in planned {
        told(Slip::TwoWallsStopLine, name, answers);
        told(Slip::TwoWallsBar, name, answers);
        told(Slip::FloatRays, name, answers);
    }
}

fn legs_of(name: &str, goes: NumberSo) {
    each(name, |r| {
        let start = r.0;
        let Leg { floor, steps, number, .. } = leg_of(r);
        assert_eq!(goes(&MODEL, &mut Reader(start)), (number, true));
        if name.ends_with(".table") {
            let numbers = if name == "leg.table" { [8, 10, ON_WALL] } else { [9, 10, ON_WALL] };
            assert!(numbers.contains(&number));
            return;
        }
        let plan = MODEL.plan(&floor, steps);
        let whole = !plan.closed && plan.steps.iter().all(|step| step.counting == step.window);
        assert_eq!(whole, name.ends_with(".altered"));
    });
}

#[test]
fn sectors_without_sight() {
    each("sector_without_sight.altered", |r| assert_eq!(plans_without_sight(&MODEL, r), (0, true)));
    let numbers = numbers_in("sector_without_sight.table", plans_without_sight);
    assert_eq!(numbers, [4, 5, 6, 7, 8, ON_WALL, FIELDLESS]);
    assert_eq!(numbers_in("leg_without_sight.model", goes_without_sight), [0, CLOSED]);
    assert_eq!(numbers_in("leg_without_sight.table", goes_without_sight), [9, 10, ON_WALL]);
}

#[test]
fn sectors_and_legs_without_sight_show_every_slip() {
    show_every(slips_of("sector without sight: "), "sector_without_sight", plans_without_sight);
    show_every(slips_of("leg without sight: "), "leg_without_sight", goes_without_sight);
}

/// The two calls are not recorded with the same answers: most goals look otherwise with sight.
#[test]
fn sight_decides_records_without_sight() {
    let otherwise = |name: &str, so: NumberSo| {
        let records = section(name).records.iter();
        records.filter(|record| !so(&MODEL, &mut Reader(record)).1).count()
    };
    assert_eq!(otherwise("sector_without_sight.altered", plans_so), 13);
    assert_eq!(otherwise("leg_without_sight.altered", goes_so), 3);
}

#[test]
fn refusals() {
    each("refusals.table", |r| assert!(refusal_so(&MODEL, r).1));
}

/// The number of a record of refusals, and whether a model answers what it says: a refusal is zeros beside its number.
fn refusal_so(model: &Model, r: &mut Reader) -> (u8, bool) {
    let call = r.byte();
    let (mut costs, mut sheet, length) = (vec![1; r.short()], vec![0x55; r.short()], r.short());
    let (lent, numbers, count) = (r.byte() == 1, vec![0; r.short()], r.short());
    let (place, corner) = (usize::from(r.byte()), r.short());
    let (cells, wall, steps, number) = ([r.cell(), r.cell()], r.short(), &r.bytes(136)[..length], r.byte());
    costs.iter_mut().skip(wall).take(1).for_each(|cost| *cost = 255);
    let mut given = IntegrationField { count, ..IntegrationField::ZERO };
    given.los_corners[place] = corner;
    let previous = Previous { lent, numbers: &numbers };
    let settled = |answered: u8, zeros: bool| answered == number && (number == 0 || zeros);
    let agrees = match call {
        0 => {
            let answer = model.init(&costs, steps);
            settled(answer.number, answer == refused::init(number))
        }
        1 => {
            let answer = model.build(&costs, given);
            settled(answer.number, answer == refused::build(number))
        }
        2 => settled(model.flow_new(steps, given, previous, &mut sheet), true),
        3 => settled(model.flow_build(given, &mut sheet), true),
        4 => {
            let answer = model.sector(&costs, steps, previous, &mut sheet);
            settled(answer.number, answer == refused::build(number))
        }
        5 => settled(model.leg(&costs, steps, &mut sheet), true),
        6 => {
            let answer = model.line(cells[0], cells[1]);
            settled(answer.number, answer == refused::line(number))
        }
        _ => {
            let answer = model.line_end(cells[0], cells[1]);
            settled(answer.number, answer == refused::line_end(number))
        }
    };
    (number, agrees && (number == 0 || sheet.iter().all(|byte| *byte == 0x55)))
}

/// Whether a model answers what a record of a leg's file written says.
fn writes_so(model: &Model, r: &mut Reader) -> bool {
    let (length, room, old, number) = (usize::from(r.byte()), usize::from(r.byte()), r.byte(), r.byte());
    let (steps, due) = (r.bytes(150), r.bytes(160));
    assert!(steps[length..].iter().chain(&due[room..]).all(|byte| *byte == 0), "zeros beyond the lengths");
    let mut file = vec![old; room];
    model.leg_file_write(&steps[..length], &mut file) == number && file == due[..room]
}

/// The same of one read.
fn reads_so(model: &Model, r: &mut Reader) -> bool {
    let [length, number, start, part] = [(); 4].map(|()| r.byte());
    let file = r.bytes(150);
    assert!(file[usize::from(length)..].iter().all(|byte| *byte == 0), "zeros beyond the length");
    let due = LegFile { number, start: usize::from(start), length: usize::from(part) };
    model.leg_file_read(&file[..usize::from(length)]) == due
}

#[test]
fn leg_files() {
    each("leg_file_write.model", |r| assert!(writes_so(&MODEL, r)));
    each("leg_file_read.model", |r| assert!(reads_so(&MODEL, r)));
}

/// The records of a section that a model with a slip does not answer so.
fn shown(slip: Slip, name: &str, agrees: Agrees) -> bool {
    section(name).records.iter().any(|record| !agrees(&Model { slip }, &mut Reader(record)))
}

/// The slips whose text begins so.
fn slips_of(word: &str) -> Vec<&'static (Slip, &'static str)> {
    let slips: Vec<_> = Slip::ALL.iter().filter(|(_, text)| text.starts_with(word)).collect();
    assert!(!slips.is_empty());
    slips
}

/// The number of a record, and whether a model answers what it says.
type NumberSo = fn(&Model, &mut Reader) -> (u8, bool);

/// The numbers of a file's records, each once; the model answers what each record says.
fn numbers_in(name: &str, so: NumberSo) -> Vec<u8> {
    let mut numbers = Vec::new();
    each(name, |r| {
        let (number, agrees) = so(&MODEL, r);
        assert!(agrees);
        numbers.push(number);
    });
    numbers.sort();
    numbers.dedup();
    numbers
}

/// Each of these slips is shown by a record of the call, whichever judge decided it.
fn show_every(slips: impl IntoIterator<Item = &'static (Slip, &'static str)>, call: &str, so: NumberSo) {
    let differs = |slip: Slip, record: &[u8]| !so(&Model { slip }, &mut Reader(record)).1;
    for (slip, text) in slips {
        let mut files = SAMPLE.iter().filter(|file| file.name.split_once('.').is_some_and(|(name, _)| name == call));
        let shown = files.any(|file| file.records.iter().any(|record| differs(*slip, record)));
        assert!(shown, "not shown: {text}");
    }
}

/// Lists of so many places each, in the order of their lengths: what stands in them, and zeros beyond.
fn listed<'a, const N: usize>(r: &mut Reader<'a>, lengths: [usize; N], places: [usize; N]) -> [&'a [u8]; N] {
    std::array::from_fn(|k| {
        let (list, beyond) = r.bytes(places[k]).split_at(lengths[k]);
        assert!(beyond.iter().all(|byte| *byte == 0), "zeros beyond");
        list
    })
}

/// The model alone made these records, so they are also asked to tell it from each wrong one.
#[test]
fn leg_files_show_every_slip() {
    for (slip, text) in slips_of("file: ") {
        let written = shown(*slip, "leg_file_write.model", writes_so);
        assert!(written || shown(*slip, "leg_file_read.model", reads_so), "not shown: {text}");
    }
}

/// Whether a model gives the floor of a record's seed.
fn draws_so(model: &Model, r: &mut Reader) -> bool {
    let seed = u32::from_le_bytes(r.bytes(4).try_into().expect("four bytes"));
    let costs = r.bytes(100).try_into().expect("a hundred bytes");
    model.practice_floor(seed) == PracticeFloor { costs, goal: r.byte() }
}

/// Whether a model prints the text of a record's input.
fn prints_so(model: &Model, r: &mut Reader) -> bool {
    let (length, input) = (usize::from(r.byte()), r.bytes(8));
    let (long, text) = (usize::from(r.byte()), r.bytes(213));
    assert!(input[length..].iter().chain(&text[long..]).all(|byte| *byte == 0), "zeros beyond the lengths");
    model.practice_text(&input[..length]).as_bytes() == &text[..long]
}

#[test]
fn practice_floors() {
    each("practice.model", |r| assert!(draws_so(&MODEL, r)));
    each("practice_text.model", |r| assert!(prints_so(&MODEL, r)));
}

#[test]
fn practice_floors_show_every_slip() {
    for (slip, text) in slips_of("practice: ") {
        assert!(shown(*slip, "practice.model", draws_so), "not shown: {text}");
    }
}

/// The number of a record of bounds, and whether a model answers what it says.
fn bounds_so(model: &Model, r: &mut Reader) -> (u8, bool) {
    let lengths = [(); 3].map(|()| usize::from(r.byte()));
    let [low, high, step] = listed(r, lengths, [101, 101, 9]);
    let (number, least, greatest) = (r.byte(), r.cells(), r.cells());
    let sure = std::array::from_fn(|_| r.byte() == 1);
    let answer = model.bounds(low, high, step);
    (number, answer == Bounds { number, least, greatest, sure })
}

#[test]
fn bounds() {
    each("bounds.model", |r| assert_eq!(bounds_so(&MODEL, r), (0, true)));
    assert_eq!(numbers_in("bounds.table", bounds_so), [1, 3, 4, 5, 6, 7, 8, ON_WALL, NO_RANGE]);
}

#[test]
fn bounds_show_every_slip() {
    show_every(slips_of("bounds: "), "bounds", bounds_so);
}

/// The number of a record of window costs, and whether a model answers what it says.
fn windows_so(model: &Model, r: &mut Reader) -> (u8, bool) {
    let lengths = [(); 2].map(|()| usize::from(r.byte()));
    let [costs, steps] = listed(r, lengths, [101, 136]);
    let number = r.byte();
    let square = std::array::from_fn(|_| std::array::from_fn(|_| r.word()));
    let answer = model.window_costs(costs, steps);
    (number, answer == WindowCosts::new(number, square))
}

#[test]
fn window_costs() {
    each("window_costs.model", |r| assert_eq!(windows_so(&MODEL, r), (0, true)));
    assert_eq!(
        numbers_in("window_costs.table", windows_so),
        [1, 3, 4, 5, 6, 7, 8, ON_WALL, NOT_2_TO_8, NO_WINDOW_THERE]
    );
}

#[test]
fn window_costs_show_every_slip() {
    show_every(slips_of("window costs: "), "window_costs", windows_so);
}

/// The number of a record of a tour, and whether a model answers what it says.
fn tour_so(model: &Model, r: &mut Reader) -> (u8, bool) {
    let lengths = [(); 2].map(|()| usize::from(r.byte()));
    let limit = r.short() as u16;
    let [costs, steps] = listed(r, lengths, [101, 136]);
    let (number, found) = (r.byte(), r.byte() == 1);
    let order = r.bytes(8).try_into().expect("eight bytes");
    let [sum, tried, least] = [(); 3].map(|()| r.word());
    let answer = model.window_tour(costs, steps, limit);
    (number, answer == WindowTour { number, found, order, sum, tried, least })
}

#[test]
fn window_tours() {
    each("window_tour.model", |r| assert_eq!(tour_so(&MODEL, r), (0, true)));
    assert_eq!(numbers_in("window_tour.table", tour_so), [1, 3, 4, 5, 6, 7, 8, ON_WALL, NOT_2_TO_8, NO_WINDOW_THERE]);
}

/// Those of the numbers are shown by each of the two calls.
#[test]
fn window_tours_show_every_slip() {
    let numbers = slips_of("window costs: ").into_iter().filter(|(slip, _)| format!("{slip:?}").starts_with("List"));
    show_every(slips_of("window tour: ").into_iter().chain(numbers), "window_tour", tour_so);
}

/// The number of a record of arrivals, and whether a model answers what it says.
fn arrivals_so(model: &Model, r: &mut Reader) -> (u8, bool) {
    let length = usize::from(r.byte());
    let [sheet] = listed(r, [length], [101]);
    let (number, moves) = (r.byte(), r.bytes(100).try_into().expect("a hundred bytes"));
    (number, model.arrivals(sheet) == Arrivals { number, moves })
}

#[test]
fn arrivals() {
    each("arrivals.model", |r| assert_eq!(arrivals_so(&MODEL, r), (0, true)));
    each("arrivals.table", |r| assert_eq!(arrivals_so(&MODEL, r), (2, true)));
}

#[test]
fn arrivals_show_every_slip() {
    show_every(slips_of("arrivals: "), "arrivals", arrivals_so);
}

/// The numbers of a record of moves and ways, and whether a model answers what it says.
fn carts_so(model: &Model, r: &mut Reader) -> (Vec<u8>, bool) {
    let length = r.short();
    let [sheet] = listed(r, [length], [6401]);
    let (mut numbers, mut agrees) = (Vec::new(), true);
    for _ in 0..64 {
        let [sector, cell] = [(); 2].map(|()| r.byte());
        let made = CartMove { number: r.byte(), outcome: r.byte(), sector: r.byte(), cell: r.byte() };
        let (number, outcome) = (r.byte(), r.byte());
        let way = CartWay { number, outcome, sector: r.byte(), cell: r.byte(), moves: r.short() as u16 };
        agrees &= model.next_move(sheet, sector, cell) == made && model.way(sheet, sector, cell) == way;
        assert_eq!(made.number, way.number);
        numbers.push(number);
    }
    numbers.sort();
    numbers.dedup();
    (numbers, agrees)
}

#[test]
fn carts() {
    each("cart.model", |r| assert_eq!(carts_so(&MODEL, r), (vec![0], true)));
    let mut numbers = Vec::new();
    each("cart.table", |r| {
        let (found, agrees) = carts_so(&MODEL, r);
        assert!(agrees);
        numbers.push(found);
    });
    assert_eq!(numbers, [vec![4, 5], vec![2], vec![2]]);
}

/// The sample has moves and ways of every kind.
#[test]
fn carts_meet_every_kind() {
    let mut met = Vec::new();
    for record in &section("cart.model").records {
        let sheet = record[2..6402].to_vec();
        for place in record[6403..].chunks(12) {
            for call in [Call::Move, Call::Way] {
                let case = Case { sheet: sheet.clone(), cart: [place[0], place[1]], ..Case::of(call) };
                met.extend(groups::met_by_cart(&case));
            }
        }
    }
    for kind in groups::move_kinds().into_iter().chain(groups::way_kinds()) {
        assert!(met.contains(&kind), "not met: {kind}");
    }
}

#[test]
fn carts_show_every_slip() {
    for (slip, text) in slips_of("move: ").into_iter().chain(slips_of("way: ")) {
        let differs = |record: &Vec<u8>| !carts_so(&Model { slip: *slip }, &mut Reader(record)).1;
        let files = ["cart.model", "cart.table"];
        assert!(files.iter().any(|name| section(name).records.iter().any(differs)), "not shown: {text}");
    }
}

fn field_of_step(sight: bool, model: &Model, r: &mut Reader) -> (u8, bool) {
    let (length, steps, place) = (r.short(), usize::from(r.byte()), r.short());
    let [steps] = listed(r, [steps], [136]);
    let parts = r.bytes(1600);
    let mut floor = vec![1; length];
    for (step, part) in steps.chunks_exact(8).zip(parts.chunks(100)) {
        let at = 100 * usize::from(step[0]);
        if at + 100 <= length {
            floor[at..at + 100].copy_from_slice(part);
        }
    }
    let (number, waves) = (r.byte(), usize::from(r.byte()));
    let list = r.list();
    let answer = match sight {
        true => model.leg_field(&floor, steps, place),
        false => model.leg_field_without_sight(&floor, steps, place),
    };
    (number, answer == BuildAnswer { number, field: field(r.cells(), list), waves })
}

/// The number of a record of a leg's field, and whether a model answers what it says.
fn leg_field_so(model: &Model, r: &mut Reader) -> (u8, bool) {
    field_of_step(true, model, r)
}

fn leg_field_without_sight(model: &Model, r: &mut Reader) -> (u8, bool) {
    field_of_step(false, model, r)
}

#[test]
fn leg_fields() {
    let refused = [1, 3, 4, 5, 6, 7, 8, 9, 10, ON_WALL, NO_STEP_THERE];
    for (call, so) in [("leg_field", leg_field_so as NumberSo), ("leg_field_without_sight", leg_field_without_sight)] {
        assert_eq!(numbers_in(&format!("{call}.altered"), so), [0]);
        assert_eq!(numbers_in(&format!("{call}.model"), so), [0, CLOSED]);
        assert_eq!(numbers_in(&format!("{call}.table"), so), refused);
    }
}

#[test]
fn leg_fields_show_every_slip() {
    show_every(slips_of("leg field: "), "leg_field", leg_field_so);
    show_every(slips_of("leg field without sight: "), "leg_field_without_sight", leg_field_without_sight);
}

/// Each slip of the calls of document 01 is shown by a record of some file; those of the other calls by tests of their own. The
/// walks alone are not recorded.
#[test]
fn the_sample_shows_every_slip_of_the_first_calls() {
    let files: [(&str, NumberSo); 15] = [
        ("line", line_so),
        ("readers", byte_so),
        ("init.altered", starts_so),
        ("init.table", starts_so),
        ("build", builds_so),
        ("flow_new", new_so),
        ("flow_build.altered", looks_so),
        ("sector.altered", plans_so),
        ("sector.table", plans_so),
        ("leg.altered", goes_so),
        ("leg.model", goes_so),
        ("leg.table", goes_so),
        ("refusals.table", refusal_so),
        ("leg_without_sight.model", goes_without_sight),
        ("leg_field.model", leg_field_so),
    ];
    let words = [
        "line: ",
        "readers: ",
        "init: ",
        "build: ",
        "flow: ",
        "sector: ",
        "leg: ",
        "journey: ",
        "number",
        "refusals: ",
    ];
    let mut missed = Vec::new();
    for (slip, text) in words.iter().flat_map(|word| slips_of(word)) {
        let differs = |so: NumberSo, record: &[u8]| !so(&Model { slip: *slip }, &mut Reader(record)).1;
        let shown = files.iter().any(|(name, so)| section(name).records.iter().any(|record| differs(*so, record)));
        if !shown {
            missed.push(text);
        }
    }
    assert!(missed.is_empty(), "not shown: {missed:#?}");
}
