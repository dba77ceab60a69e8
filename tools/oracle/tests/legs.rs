//! Legs in which some window cell does not count (02, Job 2): a floor worked out by hand, the model beside the Rust's own
//! parts, the choice of judge, and what a refusal with 15 leaves.

use oracle::cases::Case;
use oracle::floors::{Rng, edge_cell, goal_step, leg_with_a_gap, window_step};
use oracle::groups::Group;
use oracle::judges::{self, Judge};
use oracle::model::{CLOSED, Model};
use oracle::oracle::Oracle;
use oracle::refusals::ON_WALL;
use oracle::subject::*;

const OLD: u8 = 0x55;

fn sides() -> [&'static dyn Subject; 2] {
    [&Oracle, &Model::PLAIN]
}

/// Legs of the group with gaps.
fn gap_legs(seed: u64, drawn: usize) -> impl Iterator<Item = Case> {
    (Group::named("leg, gaps").cases)(Rng::new(seed), 20 * drawn)
}

#[test]
fn counting_cells_need_not_be_a_run() {
    let (floor, steps) = leg_with_a_gap();
    let plan = Model::PLAIN.plan(&floor, &steps);
    assert!(!plan.closed);
    assert_eq!(plan.steps[1].counting, [20, 30, 40, 80, 90]);
    for side in sides() {
        let mut sheet = vec![OLD; 6400];
        assert_eq!(side.leg(&floor, &steps, &mut sheet), 0);
        let edge: Vec<u8> = (0..10).map(|row| sheet[100 + 10 * row]).collect();
        // Rows 2 and 8 lean south, row 4 north; the others go to the nearest of these, 5 and 6 north, 7 south.
        assert_eq!(edge, [0x14, 0x14, 0x9C, 0x98, 0x99, 0x11, 0x11, 0x14, 0x9C, 0x98]);
    }
}

/// Rows 0 and 6 face no reached cell, row 3 does: a wall under any of them is refused (02, Job 3).
#[test]
fn a_wall_under_a_window_cell_is_refused_whether_it_would_count_or_not() {
    let (open, steps) = leg_with_a_gap();
    for side in sides() {
        for row in [0, 3, 6] {
            let (mut floor, mut sheet) = (open.clone(), vec![OLD; 6400]);
            floor[100 + 10 * row] = 255;
            assert_eq!(side.leg(&floor, &steps, &mut sheet), ON_WALL);
            assert!(sheet.iter().all(|byte| *byte == OLD));
        }
    }
}

/// A window of one cell faces one cell, whatever lies beside that.
#[test]
fn a_window_of_one_cell_counts_straight_across() {
    let (floor, _) = leg_with_a_gap();
    for side in sides() {
        let number = |row| side.leg(&floor, &[goal_step(0, 44), window_step(1, 3, row, row)].concat(), &mut [0; 6400]);
        assert_eq!([2, 3, 4, 8, 9].map(number), [CLOSED, 0, CLOSED, CLOSED, 0]);
    }
}

/// The first window cell has no lower side, the last no higher: of rows 4 to 8 no cell counts, though 3 and 9 are reached.
#[test]
fn the_ends_see_two() {
    let (floor, _) = leg_with_a_gap();
    for side in sides() {
        let number = |first, last| {
            side.leg(&floor, &[goal_step(0, 44), window_step(1, 3, first, last)].concat(), &mut [0; 6400])
        };
        assert_eq!([number(4, 8), number(3, 8), number(4, 9)], [CLOSED, 0, 0]);
    }
}

/// The window cells that count, by the places along the edge at which a reached cell faces the window.
fn counting(step: &[u8], before: &[u32; CELLS]) -> Vec<usize> {
    let boundary = usize::from(step[5]);
    let place = |cell: u8| usize::from(if boundary % 2 == 0 { cell % 10 } else { cell / 10 });
    let (first, last) = (place(step[3]), place(step[4]));
    let mut counts = [false; 12];
    for reached in (first..=last).filter(|place| before[edge_cell((boundary + 2) % 4, *place)] % 65536 != 65535) {
        // The cell straight across and both beside it compare this one; the window's end is looked at below.
        counts[reached..reached + 3].fill(true);
    }
    (first..=last).filter(|place| counts[place + 1]).map(|place| edge_cell(boundary, place)).collect()
}

/// A step by the Rust's own calls on a field given by hand: started from the cells that count, built, its bytes.
fn by_parts(costs: &[u8], step: &[u8], counting: &[usize], before: &[u32; CELLS]) -> ([u32; CELLS], [u8; CELLS]) {
    let mut cells: [u32; CELLS] =
        std::array::from_fn(|cell| if costs[cell] == 255 { IMPASSABLE | 65535 } else { 65535 });
    counting.iter().for_each(|cell| cells[*cell] = PORTAL);
    let built = Oracle.build(costs, IntegrationField::new(cells, counting)).field;
    let (mut bytes, mut pointed) = ([OLD; CELLS], [OLD; CELLS]);
    Oracle.flow_new(&goal_step(0, 0), built, Previous { lent: false, numbers: &[] }, &mut bytes);
    Oracle.flow_new(step, built, Previous { lent: true, numbers: before }, &mut pointed);
    counting.iter().for_each(|cell| bytes[*cell] = pointed[*cell]);
    Oracle.flow_build(built, &mut bytes);
    (built.field, bytes)
}

/// A goal's sector by the Rust's own calls: with sight the sector call, without the same parts on a field given by hand, in
/// which the goal is the one corner.
fn goals_sector(sight: bool, costs: &[u8], step: &[u8]) -> ([u32; CELLS], [u8; CELLS]) {
    let (none, mut bytes) = (Previous { lent: false, numbers: &[] }, [OLD; CELLS]);
    if sight {
        return (Oracle.sector(costs, step, none, &mut bytes).field.field, bytes);
    }
    let goal = usize::from(step[1]);
    let mut cells = [65535; CELLS];
    (0..CELLS).filter(|cell| costs[*cell] == 255).for_each(|wall| cells[wall] |= IMPASSABLE);
    cells[goal] = GOAL;
    let built = Oracle.build(costs, IntegrationField::new(cells, &[goal])).field;
    Oracle.flow_new(step, built, none, &mut bytes);
    Oracle.flow_build(built, &mut bytes);
    (built.field, bytes)
}

/// The number of a leg that the table takes, and its sheet, by the Rust's own calls.
fn leg_by_parts(sight: bool, case: &Case) -> (u8, Vec<u8>) {
    let mut sheet = case.sheet.clone();
    let mut before: Option<[u32; CELLS]> = None;
    for step in case.steps.chunks(8) {
        let part = usize::from(step[0]) * CELLS..(usize::from(step[0]) + 1) * CELLS;
        let costs = &case.costs[part.clone()];
        let (built, bytes) = match &before {
            None => goals_sector(sight, costs, step),
            Some(before) => match counting(step, before) {
                counting if counting.is_empty() => return (CLOSED, case.sheet.clone()),
                counting => by_parts(costs, step, &counting, before),
            },
        };
        sheet[part].copy_from_slice(&bytes);
        before = Some(built);
    }
    (0, sheet)
}

/// With sight, and without.
#[test]
fn the_model_plans_what_the_rusts_parts_give() {
    let (mut planned, mut closed, mut others) = (0, 0, 0);
    for case in gap_legs(31, 3_000) {
        let mut sheets = [case.sheet.clone(), case.sheet.clone()];
        let [with, without] = &mut sheets;
        let number = Model::PLAIN.leg(&case.costs, &case.steps, with);
        assert_eq!(Model::PLAIN.leg_without_sight(&case.costs, &case.steps, without), number);
        others += usize::from(with != without);
        for (sight, sheet) in [true, false].into_iter().zip(sheets) {
            assert!((number, sheet) == leg_by_parts(sight, &case), "{}", case.pasted());
        }
        planned += usize::from(number == 0);
        closed += usize::from(number == CLOSED);
    }
    println!("{planned} planned, {others} of them otherwise without sight, {closed} refused with 15");
    assert!(planned > 500 && others > 500 && closed > 500);
}

#[test]
fn the_rust_decides_where_every_cell_counts() {
    let mut decided = [0; 2];
    for case in gap_legs(32, 2_000) {
        let (_, judges) = judges::during(|| Oracle.leg(&case.costs, &case.steps, &mut case.sheet.clone()));
        let plan = Model::PLAIN.plan(&case.costs, &case.steps);
        let whole = !plan.closed && plan.steps.iter().all(|step| step.counting == step.window);
        let judge = if whole { Judge::Altered } else { Judge::Model };
        assert_eq!(Judge::ALL.map(|other| other == judge), judges);
        decided[usize::from(whole)] += 1;
    }
    assert!(decided.into_iter().all(|count| count > 300));
}

#[test]
fn fifteen_comes_after_ten_and_sixteen_and_leaves_the_sheet() {
    let (mut floor, _) = leg_with_a_gap();
    // A wall in sector 2, under its whole west edge.
    floor[250] = 255;
    // Sector 1 is closed. A third step stands beside it, or faces another sector than the one before.
    let closed = [goal_step(0, 44), window_step(1, 3, 5, 6)].concat();
    let beside = [closed.clone(), window_step(2, 3, 0, 4).to_vec()].concat();
    let walled = [closed.clone(), window_step(2, 3, 0, 9).to_vec()].concat();
    let apart = [closed.clone(), window_step(3, 3, 0, 9).to_vec()].concat();
    let again = [closed.clone(), window_step(0, 1, 3, 3).to_vec()].concat();
    for side in sides() {
        for (steps, due) in [(&closed, CLOSED), (&beside, CLOSED), (&walled, ON_WALL), (&apart, 10), (&again, 9)] {
            let mut sheet = vec![OLD; 6400];
            assert_eq!(side.leg(&floor, steps, &mut sheet), due);
            assert!(sheet.iter().all(|byte| *byte == OLD));
        }
    }
}

/// A file with a step on a wall is read; planned against the floor, the leg is refused (02, Job 3).
#[test]
fn a_file_with_a_step_on_a_wall_is_read() {
    let (mut floor, steps) = leg_with_a_gap();
    for side in sides() {
        let mut file = vec![0; steps.len() + 6];
        assert_eq!(side.leg_file_write(&steps, &mut file), 0);
        let found = side.leg_file_read(&file);
        let read = &file[found.start..found.start + found.length];
        assert_eq!((found.number, read), (0, &steps[..]));
        assert_eq!(side.leg(&floor, read, &mut vec![OLD; 6400]), 0);
        floor[44] = 255;
        assert_eq!(side.leg(&floor, read, &mut vec![OLD; 6400]), ON_WALL);
        floor[44] = 1;
    }
}
