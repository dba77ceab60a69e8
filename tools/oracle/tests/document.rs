//! The cases of document 01, of the Rust and of the model alike, and the sample that is recorded.

use oracle::floors::{goal_step, one_wall, uniform, window_step};
use oracle::groups::GROUPS;
use oracle::model::{CLOSED, Model};
use oracle::oracle::Oracle;
use oracle::records::sections;
use oracle::refusals::{FIELDLESS, ON_WALL};
use oracle::subject::*;

const NONE: Previous = Previous { lent: false, numbers: &[] };
const ZEROS: Previous = Previous { lent: true, numbers: &[0; CELLS] };

fn sides() -> [&'static dyn Subject; 2] {
    [&Oracle, &Model::PLAIN]
}

/// The built field, its waves and the sheet of a sector.
fn sector(side: &dyn Subject, costs: [u8; CELLS], step: [u8; 8], previous: Previous) -> (BuildAnswer, [u8; CELLS]) {
    let mut sheet = [0x55; CELLS];
    let answer = side.sector(&costs, &step, previous, &mut sheet);
    assert_eq!(answer.number, 0);
    (answer, sheet)
}

fn at(column: usize, row: usize) -> FieldCell {
    FieldCell { column, row }
}

#[test]
fn open_floor_goal_44() {
    for side in sides() {
        let (answer, _) = sector(side, uniform(1), goal_step(0, 44), NONE);
        assert_eq!((answer.field.field[45], answer.field.field[0], answer.waves), (0x10001, 0x10008, 0));
    }
}

#[test]
fn wall_55_goal_44() {
    for side in sides() {
        let started = side.init(&one_wall(55), &goal_step(0, 44));
        let (answer, sheet) = sector(side, one_wall(55), goal_step(0, 44), NONE);
        assert_eq!((started.field.field[45], answer.field.field[45], sheet[45]), (0x4040003, 0x4040003, 0x18));
    }
}

/// The case with a goal on cost 255 is a refusal since document 02, Job 3; a cost of 254 is taken.
#[test]
fn goal_on_a_wall() {
    for side in sides() {
        assert_eq!(side.init(&uniform(255), &goal_step(0, 44)), refused::init(ON_WALL));
        let mut sheet = [0x55; CELLS];
        let answer = side.sector(&one_wall(44), &goal_step(0, 44), NONE, &mut sheet);
        assert_eq!((answer, sheet), (refused::build(ON_WALL), [0x55; CELLS]));
        assert_eq!(side.init(&uniform(254), &goal_step(0, 44)).field.field[44], 0x20000);
    }
}

#[test]
fn a_walled_cell() {
    for side in sides() {
        let mut costs = one_wall(1);
        costs[10] = 255;
        let (answer, sheet) = sector(side, costs, goal_step(0, 44), NONE);
        assert_eq!((answer.field.field[0], sheet[0]), (65535, 0xE0));
    }
}

/// The case with 0x92 has a previous field of zeros and the same byte since document 02, Job 8; without one it is a refusal.
/// Flow `new` by hand keeps its fallback.
#[test]
fn east_window() {
    for side in sides() {
        let step = window_step(0, 1, 0, 9);
        let (answer, sheet) = sector(side, uniform(1), step, ZEROS);
        assert_eq!((answer.field.field[0], answer.waves, sheet[0], sheet[9]), (9, 9, 0x12, 0x92));
        let (mut sheet, mut refused_sheet) = ([0x55; CELLS], [0x55; CELLS]);
        assert_eq!(side.flow_new(&step, answer.field, NONE, &mut sheet), 0);
        assert_eq!((sheet[9], side.flow_build(answer.field, &mut sheet), sheet[0]), (0x92, 0, 0x12));
        for step in [step, window_step(0, 1, 4, 4)] {
            assert_eq!(side.sector(&uniform(1), &step, NONE, &mut refused_sheet), refused::build(FIELDLESS));
        }
        assert_eq!(refused_sheet, [0x55; CELLS]);
    }
}

#[test]
fn north_window_with_facing_cells() {
    for side in sides() {
        for (facing, due) in [([9, 5, 9], [0x93, 0x91, 0x99]), ([7, 7, 7], [0x91; 3])] {
            let mut numbers = [0; CELLS];
            numbers[93..96].copy_from_slice(&facing);
            let previous = Previous { lent: true, numbers: &numbers };
            let (_, sheet) = sector(side, uniform(1), window_step(0, 0, 3, 5), previous);
            assert_eq!(sheet[3..6], due);
        }
    }
}

#[test]
fn lines_and_line_ends() {
    for side in sides() {
        assert_eq!(side.line(at(0, 0), at(2, 1)).cells[1], at(1, 0));
        assert_eq!(side.line(at(2, 1), at(0, 0)).cells[1], at(1, 0));
        assert_eq!(side.line(at(0, 0), at(3, 1)).cells[..4], [at(0, 0), at(1, 0), at(2, 1), at(3, 1)]);
        assert_eq!(side.line_end(at(5, 3), at(4, 4)).cell, at(9, 0));
        // The two that document 02, Job 11 moved.
        assert_eq!(side.line_end(at(4, 3), at(5, 4)).cell, at(0, 0));
        assert_eq!(side.line_end(at(9, 7), at(2, 9)).cell, at(9, 7));
    }
}

#[test]
fn byte_f3_and_edges() {
    for side in sides() {
        let r = side.readings(0xF3);
        assert!(r.is_goal && r.is_portal_goal && r.has_line_of_sight && !r.is_wall);
        let number = |step: [u8; 8]| side.init(&uniform(1), &step).number;
        assert_eq!((number(goal_step(0, 99)), number(goal_step(0, 100))), (0, 5));
        assert_eq!((number(goal_step(63, 0)), number(goal_step(64, 0))), (0, 4));
        let leg = |steps: usize| side.leg(&[1; 6400], &oracle::floors::straight_leg(steps), &mut [0; 6400]);
        assert_eq!((leg(16), leg(17)), (0, 3));
    }
}

#[test]
fn printer_case() {
    for side in sides() {
        let (_, sheet) = sector(side, uniform(1), [0; 8], NONE);
        assert_eq!((sheet[0], &sheet[1..]), (0x70, &[0x30; 99][..]));
    }
}

/// The sample reaches every number of every call that it holds, as the groups of refusals do. It holds no
/// walks alone.
#[test]
fn recorded_refusals_reach_every_number() {
    let calls =
        [Call::Init, Call::Build, Call::FlowNew, Call::FlowBuild, Call::Sector, Call::Leg, Call::Line, Call::LineEnd];
    let sections = sections();
    let refusals = &sections.iter().find(|section| section.name == "refusals.table").expect("a section").records;
    let refusing = GROUPS.iter().filter(|group| group.name.ends_with("refusals"));
    // 15 needs walls: it stands among the legs of the model.
    let legs = &sections.iter().find(|section| section.name == "leg.model").expect("a section").records;
    assert!(legs.iter().any(|record| record[1729] == CLOSED));
    for group in refusing.filter(|group| calls.contains(&group.needs[0])) {
        for number in group.reaches.iter().filter(|number| **number != CLOSED) {
            let call = group.needs[0];
            let met = refusals.iter().any(|record| calls[usize::from(record[0])] == call && record[157] == *number);
            // 4 to 8 are one definition for each call that has a step; the sample spreads them.
            assert!(met || (4..=8).contains(number), "{call:?} {number}");
            assert!(refusals.iter().any(|record| record[157] == *number), "{number}");
        }
    }
}
