//! Where the Rust and the documents part, each shown on the Rust itself.

use std::collections::BTreeMap;
use std::panic::{AssertUnwindSafe, catch_unwind};

use oracle::cases::Case;
use oracle::copies::{altered, counted_build, published};
use oracle::floors::{Rng, Step, any, any_step, goal_step, one_wall, open, uniform, walls, window_step};
use oracle::model::{CLOSED, Model, Slip};
use oracle::oracle::Oracle;
use oracle::refusals::ON_WALL;
use oracle::shrink::smallest;
use oracle::subject::*;
use reference::flowfields::fields::FieldCell as RustCell;
use reference::flowfields::fields::bresenham::{walk_bresenham_shallow, walk_bresenham_steep};
use reference::flowfields::fields::cost_field::CostField;
use reference::flowfields::fields::flow_field::FlowField;
use reference::flowfields::fields::integration_field::IntegrationField as RustField;
use reference::flowfields::portal::{PortalWindow, oracle_walk_sector_boundary};
use reference::flowfields::route::RouteStep;
use reference::flowfields::sectors::SectorID;
use reference::flowfields::utilities::CompassDir;

fn panics<T>(call: impl FnOnce() -> T) -> bool {
    catch_unwind(AssertUnwindSafe(call)).is_err()
}

fn window(first: usize, last: usize, boundary: CompassDir) -> PortalWindow {
    PortalWindow::new(RustCell::from_index(first), RustCell::from_index(last), boundary)
}

fn step_of(window: PortalWindow) -> RouteStep {
    RouteStep::new(&SectorID::new(0, 0), 0, Some(window))
}

fn number_of(first: u8, last: u8, boundary: u8) -> u8 {
    Oracle.init(&[1; CELLS], &[0, 0, 1, first, last, boundary, 0, 0]).number
}

#[test]
fn windows_that_the_rust_takes() {
    assert_eq!(window(5, 3, CompassDir::North).get_all_window_cells(), []);
    assert_eq!(number_of(5, 3, 0), 8);
    assert_eq!(window(13, 15, CompassDir::North).get_all_window_cells(), [13, 14, 15]);
    assert_eq!(number_of(13, 15, 0), 7);
    assert_eq!(window(3, 5, CompassDir::East).get_all_window_cells(), [3, 4, 5]);
    assert_eq!(number_of(3, 5, 1), 7);
    assert_eq!(window(3, 15, CompassDir::North).get_all_window_cells(), [3, 4, 5]);
    assert_eq!(number_of(3, 15, 0), 7);
    assert_eq!(number_of(3, 5, 4), 6);
}

#[test]
fn diagonal_boundaries() {
    for boundary in [CompassDir::NorthEast, CompassDir::Zero] {
        let step = step_of(window(3, 5, boundary));
        let field = RustField::init(&CostField::oracle_from([1; CELLS]), &step);
        assert!(!panics(|| FlowField::new(&step, &field, None)));
        assert!(panics(|| FlowField::new(&step, &field, Some(&field))));
    }
}

#[test]
fn panics_of_the_rust() {
    assert!(panics(|| RustCell::new(10, 0)) && panics(|| RustCell::new(0, 10)));
    assert!(panics(|| RustCell::from_index(100)));
    let goal = RouteStep::new(&SectorID::new(0, 0), 100, None);
    assert!(panics(|| RustField::init(&CostField::oracle_from([1; CELLS]), &goal)));
    assert!(panics(|| RustField::oracle_from([0; CELLS], vec![100]).build(&CostField::oracle_from([1; CELLS]))));
    assert!(panics(|| RustCell::new(0, 0).get_in_compass_direction(&CompassDir::Zero, 1)));
    assert!(!panics(|| RustField::oracle_from([0; CELLS], vec![0; 101]).build(&CostField::oracle_from([1; CELLS]))));
}

/// A wavefront of the Rust may list a cell more than once, and so hold more than a hundred, in a started
/// field too.
#[test]
fn wavefronts_longer_than_a_hundred() {
    let long = |case: &Case| {
        let field = Oracle.init(&case.costs, &case.steps).field;
        counted_build(&case.costs, &field).longest > CELLS
    };
    let mut rng = Rng::new(1);
    let mut drawn = std::iter::repeat_with(|| {
        let (costs, step) = (any(&mut rng), any_step(&mut rng));
        Case { costs: costs.to_vec(), steps: step.to_vec(), ..Case::of(Call::Init) }
    });
    let found = drawn.by_ref().take(20_000).find(long).expect("a wavefront of more than a hundred");
    println!("a wavefront longer than a hundred:\n{}", smallest(&found, &long).pasted());
}

/// As commonly told, Bresenham's line takes the diagonal move at an exact half and is walked from its
/// start: the model with both slips is that line.
#[test]
fn the_paper_as_told() {
    let cells = (0..CELLS * CELLS).map(|k| (FieldCell::from_index(k / CELLS), FieldCell::from_index(k % CELLS)));
    let told = |source: FieldCell, target: FieldCell| {
        let (columns, rows) = (target.column as i32 - source.column as i32, target.row as i32 - source.row as i32);
        let steps = columns.abs().max(rows.abs());
        let along = |k: i32, span: i32| {
            if steps == 0 { 0 } else { span.signum() * ((2 * k * span.abs() + steps) / (2 * steps)) }
        };
        let cell = |k: i32| (source.column as i32 + along(k, columns), source.row as i32 + along(k, rows));
        (0..=steps).map(cell).collect::<Vec<_>>()
    };
    let walked = |source: FieldCell, target: FieldCell| {
        let line = Oracle.line(source, target);
        line.cells[..line.count].iter().map(|cell| (cell.column as i32, cell.row as i32)).collect::<Vec<_>>()
    };
    let differing = cells.filter(|(source, target)| told(*source, *target) != walked(*source, *target));
    let differing: Vec<_> = differing.collect();
    println!("{} pairs, the first {:?}", differing.len(), differing[0]);
    assert_eq!(differing.len(), 1536);
    assert_eq!(differing[0], (FieldCell { column: 0, row: 0 }, FieldCell { column: 2, row: 1 }));
}

/// How many of the 10,000 lines a slip changes.
fn changed(slip: Slip) -> usize {
    let model = Model { slip };
    let cells = (0..CELLS * CELLS).map(|k| (FieldCell::from_index(k / CELLS), FieldCell::from_index(k % CELLS)));
    cells.filter(|(a, b)| model.line(*a, *b) != Oracle.line(*a, *b)).count()
}

/// What a line's end was before document 02, Job 11, with the row at a column worked out so: rightward the first column whose
/// row is above 9 or below 0; leftward also the first at row 0; else the edge column.
fn old_end(corner: FieldCell, goal: FieldCell, row_at: impl Fn([i32; 4], i32) -> i32) -> FieldCell {
    let at @ [column, row, toward_column, toward_row] =
        [corner.column, corner.row, goal.column, goal.row].map(|x| x as i32);
    if column == toward_column || row == toward_row {
        return altered::line_end(corner, goal);
    }
    let (away, edge) = if column > toward_column { (1, 9) } else { (-1, 0) };
    let ends = |x: &i32| {
        let row = row_at(at, *x);
        *x == edge || !(0..10).contains(&row) || (away < 0 && row == 0)
    };
    let end = (0..10).map(|k| column + away * k).find(ends).expect("an edge column");
    FieldCell { column: end as usize, row: row_at(at, end).clamp(0, 9) as usize }
}

/// The row in f32, floored; the exact row, floored; the nearest one, an exact half nearer the goal's.
fn float_row([column, row, goal_column, goal_row]: [i32; 4], x: i32) -> i32 {
    let gradient = (row - goal_row) as f32 / (column - goal_column) as f32;
    (gradient * x as f32 + (-gradient * column as f32 + row as f32)).floor() as i32
}

fn floor_row([column, row, goal_column, goal_row]: [i32; 4], x: i32) -> i32 {
    let run = column - goal_column;
    goal_row + ((row - goal_row) * (x - goal_column) * run.signum()).div_euclid(run.abs())
}

fn nearest_row([column, row, goal_column, goal_row]: [i32; 4], x: i32) -> i32 {
    let (rise, run) = ((row - goal_row).abs(), (column - goal_column).abs());
    goal_row + (row - goal_row).signum() * ((2 * rise * (x - goal_column).abs() + run - 1) / (2 * run))
}

/// What the published Rust's rule for line ends is made of, and how many of the 10,000 ends each part moves: the rounding of
/// f32, the floor, and the row 0 that ends a line leftward.
#[test]
fn numbers_of_line_ends() {
    let cells = (0..CELLS * CELLS).map(|k| (FieldCell::from_index(k / CELLS), FieldCell::from_index(k % CELLS)));
    let (mut moved, mut by_float) = ([0; 4], Vec::new());
    for (corner, goal) in cells {
        let rounded = old_end(corner, goal, float_row);
        let floored = old_end(corner, goal, floor_row);
        let nearest = old_end(corner, goal, nearest_row);
        let due = altered::line_end(corner, goal);
        assert_eq!(published::line_end(corner, goal), rounded);
        assert!(nearest == due || corner.column < goal.column);
        // From the goal's column on, no column before the corner's own would end the line.
        let at = [corner.column, corner.row, goal.column, goal.row].map(|x| x as i32);
        let between = at[0].min(at[2])..=at[0].max(at[2]);
        assert!(at[0] == at[2] || between.into_iter().all(|x| (0..10).contains(&nearest_row(at, x))));
        let parts = [rounded != floored, floored != nearest, nearest != due, rounded != due];
        moved.iter_mut().zip(parts).for_each(|(count, part)| *count += usize::from(part));
        if rounded != floored {
            by_float.push((corner, goal));
        }
    }
    println!("line ends moved: by an exact floor, then by the nearest row, then leftward, in all: {moved:?}");
    println!("the first that an exact floor moves: {:?}", by_float[0]);
    assert_eq!(moved, [16, 1208, 613, 1795]);
}

#[test]
fn numbers_of_lines() {
    let counts = [Slip::WalkedFromCorner, Slip::HalfOtherWay].map(changed);
    println!("lines changed by walking from the corner, by the other half: {counts:?}");
    assert_eq!(counts, [1536, 3072]);
}

/// How many floors of one wall with a goal are started otherwise, and have another sheet, than with line ends in f32 and the
/// same rule of diagonals; and that the altered Rust starts them as the model does.
#[test]
fn floors_that_line_ends_change() {
    let floats = Model { slip: Slip::FloatRays };
    let (mut started, mut sheets, mut first) = (0, 0, None);
    for (wall, goal) in (0..CELLS * CELLS).map(|k| (k / CELLS, k % CELLS)).filter(|(wall, goal)| wall != goal) {
        let (costs, step) = (one_wall(wall), goal_step(0, goal));
        let field = altered::started(&costs, &step);
        assert_eq!(field, Model::PLAIN.init(&costs, &step).field);
        let none = Previous { lent: false, numbers: &[] };
        let mut bytes = [[0; CELLS]; 2];
        Oracle.sector(&costs, &step, none, &mut bytes[0]);
        floats.sector(&costs, &step, none, &mut bytes[1]);
        sheets += usize::from(bytes[0] != bytes[1]);
        if field != floats.init(&costs, &step).field {
            started += 1;
            first = first.or(Some((wall, goal)));
        }
    }
    println!("of 9900 floors of one wall and a goal {started} start otherwise and {sheets} have another sheet");
    println!("the first: {first:?}");
    assert!(started > 0 && sheets > 0);
}

/// `walk_sector_boundary` builds whole runs of cells open on both sides, toward a sector that exists.
#[test]
fn windows_that_the_rust_finds() {
    let sectors = [SectorID::new(0, 0), SectorID::new(1, 0)];
    let costs = [one_wall(29), one_wall(50)].map(CostField::oracle_from);
    let floor: BTreeMap<SectorID, CostField> = sectors.into_iter().zip(costs).collect();
    let found = |side: CompassDir| oracle_walk_sector_boundary(&sectors[0], &floor, &side);
    let runs = [(9, 19), (39, 49), (69, 99)].map(|(first, last)| window(first, last, CompassDir::East));
    assert_eq!(found(CompassDir::East), Some(runs.to_vec()));
    assert_eq!(found(CompassDir::West), None);
    // Part of a run, a window over a wall across, and one off the floor are taken here; one over a wall of its own is not.
    assert_eq!((number_of(19, 19, 1), number_of(9, 99, 1), number_of(0, 90, 3)), (0, 0, 0));
    assert_eq!(Oracle.init(&one_wall(29), &window_step(0, 1, 0, 9)).number, ON_WALL);
}

/// The Rust opens a wall under a goal and under a window cell; `init` refuses it (02, Job 3).
#[test]
fn walls_that_the_rust_opens() {
    for (step, cell, opened) in [(goal_step(0, 44), 44, GOAL), (window_step(0, 1, 0, 9), 29, PORTAL)] {
        assert_eq!(published::started(&one_wall(cell), &step).field[cell], opened);
        assert_eq!(Oracle.init(&one_wall(cell), &step), refused::init(ON_WALL));
    }
}

/// The bytes of sector 1, left by this window for sector 0, whose goal is cell 44, with these walls: by the Rust's calls
/// chained, and by a leg, with its number.
fn behind(walls: &[usize], window: Step) -> ([u8; CELLS], u8, Vec<u8>) {
    let mut costs = uniform(1);
    walls.iter().for_each(|wall| costs[*wall] = 255);
    let (goal, none, mut bytes) = (goal_step(0, 44), Previous { lent: false, numbers: &[] }, [0; CELLS]);
    let before = Oracle.sector(&costs, &goal, none, &mut bytes).field.field;
    Oracle.sector(&uniform(1), &window, Previous { lent: true, numbers: &before }, &mut bytes);
    let mut floor = vec![1; 64 * CELLS];
    floor[..CELLS].copy_from_slice(&costs);
    let mut sheet = vec![0; 64 * CELLS];
    let number = Oracle.leg(&floor, &[goal, window].concat(), &mut sheet);
    (bytes, number, sheet[CELLS..2 * CELLS].to_vec())
}

/// A window cell that compares no reached cell points there in the Rust; in a leg it does not count (02, Job 2).
#[test]
fn window_cells_that_do_not_count() {
    let (rust, number, leg) = behind(&[9, 19], window_step(1, 3, 0, 9));
    assert_eq!((number, rust[0], leg[0]), (0, 0x98, 0x14));
    assert_eq!((rust[10], leg[10]), (0x9C, 0x9C));
    let (rust, number, leg) = behind(&[9], window_step(1, 3, 0, 0));
    assert_eq!((number, rust[0], leg), (CLOSED, 0x98, vec![0; CELLS]));
}

/// With equal spans the steep and the shallow walk are the same cells, so a slip there cannot be seen.
#[test]
fn equal_spans_have_one_line() {
    for k in 0..CELLS * CELLS {
        let (a, b) = (FieldCell::from_index(k / CELLS), FieldCell::from_index(k % CELLS));
        let (columns, rows) = (b.column as i32 - a.column as i32, b.row as i32 - a.row as i32);
        if columns == rows.abs() && rows != 0 {
            let (low, high) = if rows > 0 { (a, b) } else { (b, a) };
            let ends = |x: FieldCell, y: FieldCell| (x.column as i32, x.row as i32, y.column as i32, y.row as i32);
            let (c0, r0, c1, r1) = ends(a, b);
            let shallow = walk_bresenham_shallow(c0, r0, c1, r1);
            let (c0, r0, c1, r1) = ends(low, high);
            let mut steep = walk_bresenham_steep(c0, r0, c1, r1);
            if rows < 0 {
                steep.reverse();
            }
            assert_eq!(shallow, steep);
        }
    }
}

/// The cell of the sector that the arrow of a cell leads to, none where it has none or leaves the sector.
fn led_to(sheet: &[u8; CELLS], cell: usize) -> Option<usize> {
    let bit = |mask: u8| usize::from(sheet[cell] & mask != 0);
    let (column, row) = (cell % 10 + bit(2), cell / 10 + bit(4));
    let (column, row) = (column.checked_sub(bit(8))?, row.checked_sub(bit(1))?);
    Some(10 * row + column).filter(|to| column < 10 && row < 10 && *to != cell)
}

/// The cells of a goal sector from which arrows, followed, lead neither to the goal nor to a cell in sight.
fn lost(sheet: &[u8; CELLS]) -> Vec<usize> {
    let arrives = |start: usize| {
        let mut at = start;
        (0..CELLS).any(|_| {
            let there = sheet[at] & 0x60 != 0 && sheet[at] & 0x10 != 0 && sheet[at] & 0x80 == 0;
            at = led_to(sheet, at).unwrap_or(at);
            there
        })
    };
    (0..CELLS).filter(|cell| sheet[*cell] % 16 != 0 && !arrives(*cell)).collect()
}

/// Arrows of a goal sector need not lead to the goal: in the published Rust two cells at wall 55 point at each other. By the
/// rule of document 02, Job 7 those two do not, and more floors have such cells.
#[test]
fn arrows_that_turn_about() {
    let (costs, step) = (one_wall(55), goal_step(0, 44));
    let [before, after] = [published::planned(&costs, &step, None), altered::planned(&costs, &step, None)];
    println!("56: {:#x} and {:#x}, 65: {:#x} and {:#x}", before.1[56], after.1[56], before.1[65], after.1[65]);
    assert_eq!((before.1[56] % 16, before.1[65] % 16), (4 + 8, 1 + 2));
    assert!(lost(&before.1).contains(&56) && lost(&after.1).is_empty());
    let after = altered::planned(&one_wall(89), &goal_step(0, 98), None).1;
    assert_eq!((after[69] % 16, after[79] % 16), (4, 1));
    assert!(lost(&after).contains(&69));
    let (mut rng, mut floors, mut cells) = (Rng::new(77), [0; 2], [0; 2]);
    for _ in 0..20_000 {
        let percent = 5 + rng.below(26);
        let (mut costs, step) = (walls(&mut rng, percent, &[1]), goal_step(0, rng.below(CELLS)));
        open(&mut rng, &mut costs, &step);
        let found = [published::planned(&costs, &step, None), altered::planned(&costs, &step, None)]
            .map(|(_, sheet)| lost(&sheet));
        (0..2).for_each(|k| floors[k] += usize::from(!found[k].is_empty()));
        (0..2).for_each(|k| cells[k] += found[k].len());
    }
    println!("of 20000 goal sectors with such cells: {floors:?}, such cells {cells:?}");
    assert!(floors[0] < floors[1]);
}

#[test]
fn traps() {
    // The live field read within a wave: wall 1, goal 10, five waves become two.
    let waves = |side: &dyn Subject| {
        side.sector(&one_wall(1), &goal_step(0, 10), Previous { lent: false, numbers: &[] }, &mut [0; CELLS]).waves
    };
    assert_eq!((waves(&Oracle), waves(&Model { slip: Slip::LiveField })), (5, 2));
    // Build lowers a listed corner and drops its flags: goal 20, wall 1.
    let started = Oracle.init(&one_wall(1), &goal_step(0, 20)).field;
    let built = Oracle.build(&one_wall(1), started).field;
    assert_eq!((started.field[3], built.field[3]), (0x4040006, 5));
    assert_eq!(published::route_step(&goal_step(63, 0)).get_sector().get(), (7, 7));
}
