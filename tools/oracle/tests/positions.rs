//! Positions (02, Job 10): floors and fields worked out by hand, every walk of small fields taken one by one, and what
//! building is by the walks of each corner alone.

use oracle::floors::{Costs, Rng, any, any_field, any_open, any_positions, two_ways, uniform, window_step};
use oracle::groups::{Group, field_that_meets, position_kinds};
use oracle::model::{Model, Slip};
use oracle::oracle::Oracle;
use oracle::subject::*;

const MODEL: Model = Model::PLAIN;
const NONE: u8 = NO_POSITION;

/// What the sector call answers for a window, with zeros for a previous field.
fn planned(model: &Model, costs: &Costs, step: &[u8; 8]) -> IntegrationField {
    let previous = Previous { lent: true, numbers: &[0; CELLS] };
    let answer = model.sector(costs, step, previous, &mut [0; CELLS]);
    assert_eq!(answer.number, 0);
    answer.field
}

/// A row of ten cells on a floor of walls, its costs 1.
fn corridor() -> Costs {
    std::array::from_fn(|cell| if cell / 10 == 4 { 1 } else { 255 })
}

/// That row as a field given by hand: these values in its cells, walls else.
fn row(values: [u32; 10], corners: &[usize]) -> IntegrationField {
    let cells = std::array::from_fn(|cell| if cell / 10 == 4 { values[cell % 10] } else { IMPASSABLE | 65535 });
    IntegrationField::new(cells, corners)
}

/// The positions of that row, all others being 255.
fn positions_of_row(model: &Model, field: IntegrationField) -> [u8; 10] {
    let built = model.build(&corridor(), field);
    assert_eq!(built.number, 0);
    assert!((0..CELLS).all(|cell| cell / 10 == 4 || built.field.positions[cell] == NONE));
    built.field.positions[40..50].try_into().expect("ten cells")
}

const FAR: u32 = 65535;

/// South window 93 to 94. By 83 and 73, cell 63 costs 6, and 64 from it 8; by 84, cell 74 costs 6, and 64 from it 8 as well,
/// one wave earlier. So 64 and 65 are 93's, though the wave that wrote 65 came from 94.
#[test]
fn two_ways_of_one_cost() {
    let (costs, step) = two_ways();
    let field = planned(&MODEL, &costs, &step);
    let costs_there = [93, 94, 83, 84, 73, 74, 63, 64, 65].map(|cell| field.field[cell] & 0xffff);
    assert_eq!(costs_there, [0, 0, 1, 3, 4, 6, 6, 8, 10]);
    let there = [93, 94, 83, 84, 73, 74, 63, 64, 65].map(|cell| field.positions[cell]);
    assert_eq!(there, [0, 1, 0, 1, 0, 1, 0, 0, 0]);
    assert_eq!(field.positions.iter().filter(|position| **position != NONE).count(), 9);
    let wrong = [Slip::PositionsCarried, Slip::PositionsCarriedSmaller, Slip::PositionOfCheapest, Slip::PositionLatest];
    assert_eq!(wrong.map(|slip| planned(&Model { slip }, &costs, &step).positions[65]), [1; 4]);
}

/// On open floor each cell belongs to the window cell of its own row, and above and below the window to its nearest end.
#[test]
fn an_open_floor() {
    let field = planned(&MODEL, &uniform(1), &window_step(0, 1, 2, 5));
    assert!((0..CELLS).all(|cell| usize::from(field.positions[cell]) == (cell / 10).clamp(2, 5) - 2));
}

/// All of an open goal's sector is in sight: no cell has a position.
#[test]
fn an_open_goal() {
    let field =
        MODEL.sector(&uniform(1), &[0, 44, 0, 0, 0, 0, 0, 0], Previous { lent: false, numbers: &[] }, &mut [0; 100]);
    assert_eq!((field.number, field.field.positions), (0, [NONE; CELLS]));
}

#[test]
fn init_leaves_255_and_a_refusal_zeros() {
    for step in [[0, 44, 0, 0, 0, 0, 0, 0], window_step(0, 1, 0, 9)] {
        let started = MODEL.init(&uniform(1), &step);
        assert_eq!((started.number, started.field.positions), (0, [NONE; CELLS]));
    }
    assert_eq!(MODEL.init(&[1; 99], &[0; 8]).field.positions, [0; CELLS]);
    let given = IntegrationField::new([FAR; CELLS], &[5]);
    assert_eq!(MODEL.build(&[1; 99], given).field.positions, [0; CELLS]);
}

/// Corners 40 at 0 and 49 at 0: five cells each. With a third at 44, of 9, which is lowered to 4: it starts nothing, and is
/// the first's. The middle goes to the earlier one where both ways are as long.
#[test]
fn a_lowered_corner_starts_nothing() {
    let ends = [0, FAR, FAR, FAR, FAR, FAR, FAR, FAR, FAR, 0];
    assert_eq!(positions_of_row(&MODEL, row(ends, &[40, 49])), [0, 0, 0, 0, 0, 1, 1, 1, 1, 1]);
    let mut three = ends;
    three[4] = 9;
    assert_eq!(positions_of_row(&MODEL, row(three, &[44, 40, 49])), [1, 1, 1, 1, 1, 2, 2, 2, 2, 2]);
    let starts = Model { slip: Slip::PositionLoweredStarts };
    assert_eq!(positions_of_row(&starts, row(three, &[44, 40, 49])), [1, 1, 1, 1, 0, 2, 2, 2, 2, 2]);
    let odd = [FAR, 0, FAR, FAR, FAR, 0, FAR, FAR, FAR, FAR];
    assert_eq!(positions_of_row(&MODEL, row(odd, &[45, 41])), [1, 1, 1, 0, 0, 0, 0, 0, 0, 0]);
}

/// A corner listed twice holds its first place; one of 65535 holds its place and gives nobody else one; a cell that is
/// neither listed nor lowered has none.
#[test]
fn corners_that_stay() {
    let values = [FAR, 3, 3, 4, FAR, FAR, FAR, FAR, FAR, FAR];
    assert_eq!(
        positions_of_row(&MODEL, row(values, &[49, 42, 49, 42, 42])),
        [NONE, NONE, 1, NONE, NONE, NONE, NONE, NONE, NONE, 0]
    );
    // Cell 43 holds 4, and the walk from 42 arrives at 4: it does not enter.
    assert_eq!(MODEL.build(&corridor(), row(values, &[42])).waves, 0);
    let open = [FAR, 3, 3, FAR, FAR, FAR, FAR, FAR, FAR, FAR];
    assert_eq!(positions_of_row(&MODEL, row(open, &[42, 41])), [1, 1, 0, 0, 0, 0, 0, 0, 0, 0]);
}

/// By hand a wall, a cell in sight and a goal start walks as other corners do, and hold 255 themselves. A goal is also
/// entered and passed; a wall or a cell in sight is not.
#[test]
fn walls_sight_and_goals_by_hand() {
    for flag in [IMPASSABLE, LOS, GOAL] {
        let values = [FAR, FAR, flag, FAR, FAR, FAR, FAR, FAR, FAR, FAR];
        assert_eq!(positions_of_row(&MODEL, row(values, &[49, 42])), [1, 1, NONE, 1, 1, 1, 1, 1, 1, 1]);
        let between = [0, FAR, FAR, FAR, flag | FAR, FAR, FAR, FAR, FAR, FAR];
        let behind = if flag == GOAL { 0 } else { NONE };
        let due = [0, 0, 0, 0, NONE, behind, behind, behind, behind, behind];
        assert_eq!(positions_of_row(&MODEL, row(between, &[40])), due);
    }
    // A goal of 2 is not entered at 4, so nothing behind it is reached.
    let low_goal = [0, FAR, FAR, FAR, GOAL | 2, FAR, FAR, FAR, FAR, FAR];
    let due = [0, 0, 0, 0, NONE, NONE, NONE, NONE, NONE, NONE];
    assert_eq!(positions_of_row(&MODEL, row(low_goal, &[40])), due);
}

/// What is given plays no part.
#[test]
fn positions_given_are_not_read() {
    let mut rng = Rng::new(31);
    for _ in 0..500 {
        let (costs, field) = (any(&mut rng), any_field(&mut rng));
        let other = field.with_positions(any_positions(&mut rng));
        assert_eq!(MODEL.build(&costs, field), MODEL.build(&costs, other));
    }
}

/// Built costs are the least of what the walks of the corners come to, each corner built from alone by the Rust; the place of
/// the first that comes to it is the position. A cell that stays as it was holds its own place, if it is listed.
#[test]
fn positions_by_building_from_each_corner_alone() {
    let mut rng = Rng::new(32);
    let low = |value: u32| value & 0xffff;
    let mut kinds = position_kinds().into_iter().cycle();
    for k in 0..3_000 {
        let (costs, before) = match k % 3 {
            0 => {
                let (costs, step) = any_open(&mut rng);
                (costs, Oracle.init(&costs, &step).field)
            }
            1 => (any(&mut rng), any_field(&mut rng)),
            _ => field_that_meets(&mut rng, kinds.next().expect("kinds without end")),
        };
        let built = Oracle.build(&costs, before).field;
        let single = |corner: &usize| Oracle.build(&costs, IntegrationField::new(before.field, &[*corner])).field.field;
        let alone: Vec<[u32; CELLS]> = before.corners().iter().map(single).collect();
        for cell in 0..CELLS {
            let (was, is) = (low(before.field[cell]), low(built.field[cell]));
            assert_eq!(is, alone.iter().map(|cells| low(cells[cell])).min().unwrap_or(was));
            let flagged = before.field[cell] & (IMPASSABLE | LOS | GOAL) != 0;
            let place = match is < was {
                true => alone.iter().position(|cells| low(cells[cell]) == is),
                false => before.corners().iter().position(|corner| *corner == cell),
            };
            let due = place.filter(|_| !flagged).map_or(NONE, |place| place as u8);
            assert_eq!(built.positions[cell], due, "cell {cell}");
        }
    }
}

/// How often positions carried along the waves would be others: on drawn sectors with a window, with a goal, and on fields
/// given by hand; carried as the first wave writes them, and with the smaller one where offers are equal.
#[test]
fn carrying_along_the_waves_is_wrong() {
    let mut rng = Rng::new(34);
    let mut wrong = [[0; 2]; 3];
    let drawn = 5_000;
    for (kind, counts) in wrong.iter_mut().enumerate() {
        for _ in 0..drawn {
            let (costs, before) = loop {
                let (costs, step) = any_open(&mut rng);
                match kind {
                    2 => break (costs, any_field(&mut rng)),
                    _ if usize::from(step[2]) == 1 - kind => break (costs, Oracle.init(&costs, &step).field),
                    _ => continue,
                }
            };
            let built = Oracle.build(&costs, before).field;
            for (count, slip) in counts.iter_mut().zip([Slip::PositionsCarried, Slip::PositionsCarriedSmaller]) {
                let carried = Model { slip }.positions(&costs, &before, &built.field);
                *count += usize::from(carried != built.positions);
            }
        }
    }
    println!("of {drawn} windows, goals and fields by hand each: {wrong:?} carried otherwise");
    assert!(wrong.iter().flatten().all(|count| *count > 10));
}

/// Every slip of positions is found by the group that looks for them, or by the call that it spoils.
#[test]
fn each_slip_is_found() {
    for (slip, text) in Slip::ALL.iter().filter(|(slip, _)| format!("{slip:?}").starts_with("Position")) {
        let group = match slip {
            Slip::PositionsStartedZero => "init",
            Slip::PositionsOfSectorUnset => "sector",
            Slip::PositionsOfRefusal => "build refusals",
            _ => "build, positions",
        };
        let difference = Group::named(group).run(&Model { slip: *slip }, 33, 4_000).err();
        let found = difference.unwrap_or_else(|| panic!("not found: {text}")).found;
        assert!(found.iter().all(|line| line.starts_with("position[")), "{text}: {found:?}");
    }
}
