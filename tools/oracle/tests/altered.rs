//! The altered copy of the Rust (02, Jobs 7 and 11) differs from the published one where its two rules say so, and nowhere
//! else: each is the model with its own rules, and what no diagonal and no line end decides is the same in both.

use oracle::copies::{altered, published};
use oracle::floors::{Costs, Rng, Step, any, any_field, any_open, any_previous, any_sheet, any_step};
use oracle::floors::{goal_step, one_wall, open, uniform, window_step};
use oracle::model::{Model, Slip};
use oracle::oracle::rust_built;
use oracle::subject::*;

/// The model with the rules that the published Rust has, in sight and in looks; with its line ends alone.
const PUBLISHED_SIGHT: Model = Model { slip: Slip::PublishedSight };
const TWO_WALLS_BAR: Model = Model { slip: Slip::TwoWallsBar };
const FLOAT_RAYS: Model = Model { slip: Slip::FloatRays };

/// All pairs of a corner and a goal.
fn all_pairs() -> impl Iterator<Item = (FieldCell, FieldCell)> {
    (0..CELLS * CELLS).map(|k| (FieldCell::from_index(k / CELLS), FieldCell::from_index(k % CELLS)))
}

/// Whether column and row of two cells both differ.
fn is_slanted((a, b): &(FieldCell, FieldCell)) -> bool {
    a.column != b.column && a.row != b.row
}

/// What a model makes of a sheet.
fn flow_build_by(model: &Model, field: &IntegrationField, sheet: &[u8]) -> Vec<u8> {
    let mut sheet = sheet.to_vec();
    assert_eq!(model.flow_build(*field, &mut sheet), 0);
    sheet
}

/// Whether a diagonal leads from a cell to one that is no wall, with one wall beside it.
fn past_one_wall(cell: usize, wall: impl Fn(usize) -> bool) -> bool {
    let (column, row) = (cell % 10, cell / 10);
    let near = |x: usize| x.saturating_sub(1)..=(x + 1).min(9);
    let ends = near(column).flat_map(|c| near(row).map(move |r| (c, r))).filter(|(c, r)| *c != column && *r != row);
    ends.into_iter().any(|(c, r)| !wall(10 * r + c) && wall(10 * row + c) != wall(10 * r + column))
}

#[test]
fn lines_stop_at_one_wall() {
    let (mut rng, mut differing) = (Rng::new(1), 0);
    for _ in 0..5_000 {
        let (mut costs, step): (Costs, Step) = (any(&mut rng), goal_step(0, rng.below(CELLS)));
        open(&mut rng, &mut costs, &step);
        let (one, two) = (altered::started(&costs, &step), published::started(&costs, &step));
        assert_eq!(one, Model::PLAIN.init(&costs, &step).field);
        assert_eq!(two, PUBLISHED_SIGHT.init(&costs, &step).field);
        // Line ends put aside, what differs has a diagonal past one wall.
        let rays = FLOAT_RAYS.init(&costs, &step).field;
        differing += usize::from(rays != two);
        let floor = |cell: &usize| costs[*cell] != 255;
        assert!(rays == two || (0..CELLS).filter(floor).any(|cell| past_one_wall(cell, |x| costs[x] == 255)));
    }
    println!("started fields: {differing} of 5000 differ from the published Rust's by diagonals");
    assert!(differing > 100);
}

/// The altered Rust works an end out by a formula and the model by trying every row; the published one is the model with its
/// rule in f32. Straight pairs end as before.
#[test]
fn lines_end_by_the_exact_ray() {
    let (mut differing, mut leftward) = (Vec::new(), 0);
    for (corner, goal) in all_pairs() {
        let (one, two) = (altered::line_end(corner, goal), published::line_end(corner, goal));
        assert_eq!(one, Model::PLAIN.line_end(corner, goal).cell);
        assert_eq!(two, FLOAT_RAYS.line_end(corner, goal).cell);
        if one != two {
            assert!(is_slanted(&(corner, goal)));
            leftward += usize::from(corner.column < goal.column);
            differing.push((corner, goal, one, two));
        }
    }
    let count = differing.len();
    println!("{count} ends of 10000 differ from the published Rust's, {leftward} of them leftward");
    println!("the first: {:?}", differing.first());
    assert_eq!((count, leftward), (1795, 1175));
}

/// Left to right and top to bottom, slanted pairs end mirrored; of the published Rust's not all do.
#[test]
fn mirrored_pairs_end_mirrored() {
    let left_right = |at: FieldCell| FieldCell { column: 9 - at.column, ..at };
    let top_bottom = |at: FieldCell| FieldCell { row: 9 - at.row, ..at };
    let mut lost = [0; 2];
    for (corner, goal) in all_pairs().filter(is_slanted) {
        let (one, two) = (altered::line_end(corner, goal), published::line_end(corner, goal));
        assert_eq!(altered::line_end(left_right(corner), left_right(goal)), left_right(one));
        assert_eq!(altered::line_end(top_bottom(corner), top_bottom(goal)), top_bottom(one));
        lost[0] += usize::from(published::line_end(left_right(corner), left_right(goal)) != left_right(two));
        lost[1] += usize::from(published::line_end(top_bottom(corner), top_bottom(goal)) != top_bottom(two));
    }
    println!("of 8100 slanted ends of the published Rust not mirrored left to right, top to bottom: {lost:?}");
    assert_eq!(lost, [1286, 3442]);
}

/// Neither lines nor fields are mirrored: of lines to the edge, and of started fields of one wall, how many are not.
#[test]
fn lines_and_fields_need_not_be_mirrored() {
    let mirrored = |cell: usize| cell / 10 * 10 + 9 - cell % 10;
    let index = |at: FieldCell| at.row * 10 + at.column;
    let line = |corner: usize, goal: usize| {
        let cells = [corner, goal].map(FieldCell::from_index);
        altered::line(cells[0], altered::line_end(cells[0], cells[1])).into_iter().map(index).collect::<Vec<usize>>()
    };
    let slanted = all_pairs().filter(is_slanted).map(|(corner, goal)| (index(corner), index(goal)));
    let turned = |corner: usize, goal: usize| line(mirrored(corner), mirrored(goal)).into_iter().map(mirrored);
    let lines = slanted.filter(|(corner, goal)| !turned(*corner, *goal).eq(line(*corner, *goal))).count();
    let cells = |wall: usize, goal: usize| altered::started(&one_wall(wall), &goal_step(0, goal)).field;
    let pairs = (0..CELLS * CELLS).map(|k| (k / CELLS, k % CELLS)).filter(|(wall, goal)| wall != goal);
    let fields = pairs.filter(|(wall, goal)| {
        let (here, there) = (cells(*wall, *goal), cells(mirrored(*wall), mirrored(*goal)));
        (0..CELLS).any(|cell| here[cell] != there[mirrored(cell)])
    });
    let fields = fields.count();
    println!("not mirrored: {lines} of 8100 lines, {fields} of 9900 started fields of one wall and a goal");
    assert!(lines > 0 && fields > 0);
}

#[test]
fn looks_pass_over_one_wall() {
    let (mut rng, mut differing) = (Rng::new(2), 0);
    for k in 0..5_000 {
        let (costs, step) = (any(&mut rng), any_step(&mut rng));
        let built = || rust_built(&costs, &step);
        let (field, sheet) = (if k % 2 == 0 { built() } else { any_field(&mut rng) }, any_sheet(&mut rng));
        let (one, two) = (altered::flow_build(&field.field, &sheet), published::flow_build(&field.field, &sheet));
        assert_eq!(one[..], flow_build_by(&Model::PLAIN, &field, &sheet));
        assert_eq!(two[..], flow_build_by(&TWO_WALLS_BAR, &field, &sheet));
        let wall = |cell: usize| field.field[cell] & IMPASSABLE != 0;
        for cell in (0..CELLS).filter(|cell| one[*cell] != two[*cell]) {
            assert!(past_one_wall(cell, wall), "cell {cell} differs, and no diagonal from it passes one wall");
        }
        differing += usize::from(one != two);
    }
    println!("flow bytes: {differing} of 5000 sheets differ from the published Rust's");
    assert!(differing > 100);
}

/// Windows have no lines: a started field is the same, and so is the facing choice across the window.
#[test]
fn what_neither_rule_decides_is_the_same() {
    let mut rng = Rng::new(3);
    for _ in 0..5_000 {
        let (costs, step, field) = (any(&mut rng), any_step(&mut rng), any_field(&mut rng));
        assert_eq!(altered::built(&costs, &field), published::built(&costs, &field));
        let (lent, numbers) = any_previous(&mut rng);
        let previous = lent.then_some(&numbers[..]);
        let new = altered::flow_new(&step, &field.field, previous);
        assert_eq!(new, published::flow_new(&step, &field.field, previous));
        if step[2] == 1 {
            assert_eq!(altered::started(&costs, &step), published::started(&costs, &step));
        }
    }
    for (a, b) in all_pairs() {
        assert_eq!(altered::line(a, b), published::line(a, b));
        assert_eq!([false, true].map(|x| altered::walk(x, a, b)), [false, true].map(|x| published::walk(x, a, b)));
    }
    (0..=255).for_each(|byte| assert_eq!(altered::readings(byte), published::readings(byte)));
}

/// Whole rows and columns of walls: beside a diagonal between two floor cells stands no wall.
fn whole_rows_and_columns(rng: &mut Rng) -> Costs {
    let drawn = |rng: &mut Rng| std::array::from_fn::<bool, 10, _>(|_| rng.one_in(4));
    let (columns, rows) = (drawn(rng), drawn(rng));
    std::array::from_fn(|cell| if columns[cell % 10] || rows[cell / 10] { 255 } else { rng.pick(&[0, 1, 2, 254]) })
}

/// On such floors sight finds no corner either.
#[test]
fn floors_without_a_diagonal_past_one_wall_are_the_same() {
    let (mut rng, mut walls) = (Rng::new(4), 0);
    for _ in 0..3_000 {
        let (costs, step) = (whole_rows_and_columns(&mut rng), any_step(&mut rng));
        let floor = |cell: &usize| costs[*cell] != 255;
        assert!(!(0..CELLS).filter(floor).any(|cell| past_one_wall(cell, |x| costs[x] == 255)));
        if step[2] == 0 && costs[usize::from(step[1])] == 255 {
            continue;
        }
        let (lent, numbers) = any_previous(&mut rng);
        let previous = lent.then_some(&numbers[..]);
        // A window cell of cost 255 would be opened, and be a gap in its row or column.
        if step[2] == 0 || published::window_cells(&step).iter().all(|cell| costs[*cell] != 255) {
            assert_eq!(altered::planned(&costs, &step, previous), published::planned(&costs, &step, previous));
            walls += costs.iter().filter(|cost| **cost == 255).count();
        }
    }
    assert!(walls > 1_000);
}

/// How many sectors of any floor and step the rules change.
#[test]
fn sectors_that_differ() {
    let (mut rng, mut differing) = (Rng::new(5), [0; 2]);
    for _ in 0..5_000 {
        let (costs, step) = any_open(&mut rng);
        let other = altered::planned(&costs, &step, None) != published::planned(&costs, &step, None);
        differing[usize::from(step[2])] += usize::from(other);
    }
    println!("of 5000 sectors differ from the published Rust's: goals {}, windows {}", differing[0], differing[1]);
    assert!(differing.into_iter().all(|count| count > 500));
}

#[test]
fn the_copies_are_of_the_same_files() {
    assert_eq!([counted::FINGERPRINT, ::altered::FINGERPRINT], [reference::FINGERPRINT; 2]);
}

/// Without walls the two are alike; with wall 55 and goal 44 the two arrows that pass the wall diagonally turn.
#[test]
fn smallest() {
    for goal in 0..CELLS {
        let step = goal_step(0, goal);
        assert_eq!(altered::planned(&uniform(1), &step, None), published::planned(&uniform(1), &step, None));
    }
    let pairs =
        (0..CELLS).flat_map(|wall| (0..CELLS).map(move |goal| (wall, goal))).filter(|(wall, goal)| wall != goal);
    let differs = |(wall, goal): &(usize, usize)| {
        let (costs, step) = (one_wall(*wall), goal_step(0, *goal));
        altered::started(&costs, &step) != published::started(&costs, &step)
    };
    let started: Vec<(usize, usize)> = pairs.filter(differs).collect();
    println!("{} started fields of one wall and a goal differ, the first {:?}", started.len(), started.first());
    let sheets = |costs: Costs, step: Step| {
        let field = rust_built(&costs, &step).field;
        let new = altered::flow_new(&step, &field, None);
        let [one, two] = [altered::flow_build(&field, &new), published::flow_build(&field, &new)];
        (0..CELLS).filter(|cell| one[*cell] != two[*cell]).map(|cell| (cell, one[cell], two[cell])).collect::<Vec<_>>()
    };
    let goal = sheets(one_wall(55), goal_step(0, 44));
    println!("wall 55, goal 44: {goal:x?}; wall 55, East window: {:x?}", sheets(one_wall(55), window_step(0, 1, 0, 9)));
    assert_eq!(goal.iter().map(|(cell, ..)| *cell).collect::<Vec<_>>(), [56, 65]);
}
