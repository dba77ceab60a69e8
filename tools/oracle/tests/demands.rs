//! What is to be proved, tried on the Rust: least walks, arrows, waves (demand 3), by reading document
//! 01 once more and searching walks without waves. Legs in which some window cell does not count are tried on the model.

use oracle::copies::altered;
use oracle::floors::{Costs, Rng, Step, any, any_field, any_open, any_previous, any_step, open, walls};
use oracle::groups::Group;
use oracle::model::Model;
use oracle::oracle::Oracle;
use oracle::subject::*;

const FLOORS: usize = 20_000;

fn beside(cell: usize) -> impl Iterator<Item = usize> {
    let (column, row) = (cell % 10, cell / 10);
    let sides = [
        (row > 0, cell.wrapping_sub(10)),
        (column < 9, cell + 1),
        (row < 9, cell + 10),
        (column > 0, cell.wrapping_sub(1)),
    ];
    sides.into_iter().filter(|(inside, _)| *inside).map(|(_, cell)| cell)
}

fn low(value: u32) -> u64 {
    u64::from(value & 0xffff)
}

/// The least that a walk from a listed corner into each cell comes to, where `may_enter` says of a cell
/// and a sum whether a walk may enter it at that sum.
fn least_walks(
    field: &IntegrationField,
    costs: &Costs,
    may_enter: impl Fn(usize, u64) -> bool,
) -> [Option<u64>; CELLS] {
    let mut least = [None; CELLS];
    for corner in field.corners() {
        least[*corner] = Some(low(field.field[*corner]));
    }
    loop {
        let before = least;
        for from in 0..CELLS {
            let Some(sum) = least[from] else { continue };
            for to in beside(from) {
                let arrived = sum + u64::from(costs[to]);
                if may_enter(to, arrived) && least[to].is_none_or(|there| arrived < there) {
                    least[to] = Some(arrived);
                }
            }
        }
        if least == before {
            return least;
        }
    }
}

fn has(value: u32, flag: u32) -> bool {
    value & flag == flag
}

/// Window cells, or the goal.
fn targets(step: &Step) -> Vec<usize> {
    if step[2] == 0 {
        return vec![usize::from(step[1])];
    }
    let between = if step[5] % 2 == 0 { 1 } else { 10 };
    (usize::from(step[3])..=usize::from(step[4])).step_by(between).collect()
}

#[test]
fn built_started_fields_hold_least_walks() {
    let mut rng = Rng::new(11);
    for _ in 0..FLOORS {
        let (costs, step) = any_open(&mut rng);
        let started = Oracle.init(&costs, &step).field;
        let built = Oracle.build(&costs, started);
        let wall = |cell: usize| costs[cell] == 255 && !targets(&step).contains(&cell);
        let goal = |cell: usize| step[2] == 0 && cell == usize::from(step[1]);
        let open = |cell: usize| !wall(cell) && !has(started.field[cell], LOS) && !goal(cell);
        let least = least_walks(&started, &costs, |cell, _| open(cell));
        for cell in 0..CELLS {
            let (before, after) = (started.field[cell], built.field.field[cell]);
            let due =
                if open(cell) { least[cell].map_or(low(before), |sum| sum.min(low(before))) } else { low(before) };
            assert_eq!(low(after), due);
            assert!(open(cell) || before == after);
        }
        assert!(built.waves <= 99);
        let mut listed = started.corners().to_vec();
        listed.sort();
        listed.dedup();
        assert_eq!(listed.len(), started.count);
    }
}

#[test]
fn no_walk_by_hand_comes_to_less() {
    let mut rng = Rng::new(12);
    for _ in 0..FLOORS {
        let (costs, given) = (any(&mut rng), any_field(&mut rng));
        let built = Oracle.build(&costs, given);
        let enters = |cell: usize, sum: u64| {
            let value = given.field[cell];
            !has(value, IMPASSABLE) && !has(value, LOS) && sum < low(value)
        };
        let least = least_walks(&given, &costs, enters);
        for (cell, sum) in least.into_iter().enumerate() {
            assert!(sum.is_none_or(|sum| low(built.field.field[cell]) <= sum));
        }
        assert!(built.waves <= 99);
    }
}

/// The same of a goal's sector without sight, whose walks begin in the goal at 0 and enter every cell but walls and the goal.
#[test]
fn sectors_without_sight_hold_least_walks_from_the_goal() {
    let mut rng = Rng::new(15);
    let mut followed = 0;
    for _ in 0..FLOORS {
        let (costs, step) = any_open(&mut rng);
        if step[2] == 1 {
            continue;
        }
        let (goal, mut sheet) = (usize::from(step[1]), [0x55; CELLS]);
        let answer = Oracle.sector_without_sight(&costs, &step, Previous { lent: false, numbers: &[] }, &mut sheet);
        let built = &answer.field.field;
        let wall = |cell: usize| costs[cell] == 255;
        let from_goal = IntegrationField::new([0; CELLS], &[goal]);
        let least = least_walks(&from_goal, &costs, |cell, _| !wall(cell) && cell != goal);
        for cell in 0..CELLS {
            assert_eq!(low(built[cell]), least[cell].unwrap_or(65535));
            assert_eq!(sheet[cell] == 0xE0, least[cell].is_none());
            if least[cell].is_some() && !costs.contains(&0) {
                follow(cell, &sheet, built, &[goal], wall);
                followed += 1;
            }
        }
        assert!(answer.waves <= 99);
    }
    assert!(followed > FLOORS);
}

/// The neighbour that the low half of a byte points at.
fn pointed(cell: usize, byte: u8) -> (i32, i32) {
    let bit = |mask: u8| i32::from(byte & mask != 0);
    (cell as i32 % 10 + bit(2) - bit(8), cell as i32 / 10 + bit(4) - bit(1))
}

fn follow(cell: usize, sheet: &[u8], built: &[u32; CELLS], window: &[usize], wall: impl Fn(usize) -> bool) {
    let mut at = cell;
    for _ in 0..=99 {
        if window.contains(&at) {
            return;
        }
        let (column, row) = pointed(at, sheet[at]);
        assert!((0..10).contains(&column) && (0..10).contains(&row));
        let to = (row * 10 + column) as usize;
        assert!(low(built[to]) < low(built[at]), "each move to a strictly lower cost");
        let (here_column, here_row) = (at as i32 % 10, at as i32 / 10);
        if column != here_column && row != here_row {
            let sides = [(here_row * 10 + column) as usize, (row * 10 + here_column) as usize];
            assert!(!sides.into_iter().all(&wall), "no move cuts between two walls");
        }
        at = to;
    }
    panic!("no window after 99 moves");
}

#[test]
fn arrows_end_in_the_window() {
    let mut rng = Rng::new(13);
    let mut followed = 0;
    for _ in 0..FLOORS {
        let percent = rng.below(71);
        let mut costs =
            if rng.one_in(2) { any(&mut rng).map(|cost| cost.max(1)) } else { walls(&mut rng, percent, &[1, 2, 254]) };
        let step = any_step(&mut rng);
        if step[2] == 0 {
            continue;
        }
        open(&mut rng, &mut costs, &step);
        let (lent, numbers) = any_previous(&mut rng);
        let (built, sheet) = altered::planned(&costs, &step, lent.then_some(&numbers[..]));
        let window = targets(&step);
        let wall = |cell: usize| costs[cell] == 255 && !window.contains(&cell);
        for cell in (0..CELLS).filter(|cell| low(built.field[*cell]) < 65535) {
            follow(cell, &sheet, &built.field, &window, wall);
            followed += 1;
        }
    }
    assert!(followed > FLOORS);
}

/// The same in each sector of a leg that is left by a window, where "window" means the cells that count (02, Job 2).
#[test]
fn sectors_of_a_leg_lead_to_the_cells_that_count() {
    let gaps = Group::named("leg, gaps");
    let (mut left_out, mut followed) = (0, 0);
    for case in (gaps.cases)(Rng::new(14), FLOORS) {
        for step in Model::PLAIN.plan(&case.costs, &case.steps).steps.iter().skip(1) {
            let part = &case.costs[step.sector * CELLS..(step.sector + 1) * CELLS];
            let costs: Costs = part.try_into().expect("a hundred costs");
            let (window, built) = (&step.counting, &step.field.field);
            let wall = |cell: usize| costs[cell] == 255 && !window.contains(&cell);
            let least = least_walks(&IntegrationField::new([0; CELLS], window), &costs, |cell, _| !wall(cell));
            for cell in 0..CELLS {
                let due = if wall(cell) { 65535 } else { least[cell].unwrap_or(65535) };
                assert_eq!(low(built[cell]), due);
                if due < 65535 && !costs.contains(&0) {
                    follow(cell, &step.bytes, built, window, wall);
                    followed += 1;
                }
            }
            left_out += step.window.len() - window.len();
        }
    }
    println!("{left_out} window cells did not count, {followed} cells were followed");
    assert!(left_out > 1_000 && followed > FLOORS);
}
