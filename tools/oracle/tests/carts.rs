//! A cart's moves and ways, and fields of a leg's steps, worked out by hand; and what driving over a leg shows of wrong answers.

use oracle::cases::Case;
use oracle::drive;
use oracle::floors;
use oracle::model::{Model, Slip};
use oracle::oracle::Oracle;
use oracle::subject::*;

/// A sheet of zeros with bytes at some places, each by its sector and cell.
fn sheet(bytes: &[([usize; 2], u8)]) -> Vec<u8> {
    let mut sheet = vec![0; 6400];
    bytes.iter().for_each(|([sector, cell], byte)| sheet[100 * sector + cell] = *byte);
    sheet
}

fn moved(bytes: &[([usize; 2], u8)], sector: u8, cell: u8) -> [u8; 4] {
    let made = Oracle.next_move(&sheet(bytes), sector, cell);
    [made.number, made.outcome, made.sector, made.cell]
}

fn way(bytes: &[([usize; 2], u8)], sector: u8, cell: u8) -> ([u8; 4], u16) {
    let way = Oracle.way(&sheet(bytes), sector, cell);
    ([way.number, way.outcome, way.sector, way.cell], way.moves)
}

/// Sector 9 lies in the second row and column of sectors. Its cell 0 is the floor's column 10, row 10.
#[test]
fn a_move_goes_by_the_floors_columns_and_rows() {
    assert_eq!(moved(&[([9, 0], 0x11)], 9, 0), [0, 1, 1, 90], "north, into sector 1");
    assert_eq!(moved(&[([9, 0], 0x18)], 9, 0), [0, 1, 8, 9], "west, into sector 8");
    assert_eq!(moved(&[([9, 0], 0x19)], 9, 0), [0, 1, 0, 99], "northwest, into sector 0");
    assert_eq!(moved(&[([9, 99], 0x16)], 9, 99), [0, 1, 18, 0], "southeast, into sector 18");
    assert_eq!(moved(&[([9, 44], 0x13)], 9, 44), [0, 1, 9, 35], "northeast, inside");
}

#[test]
fn a_cart_that_is_not_led_on_stands_still() {
    assert_eq!(moved(&[([7, 9], 0x12)], 7, 9), [0, 0, 7, 9], "east off the floor: stopped");
    assert_eq!(moved(&[([63, 99], 0x74)], 63, 99), [0, 2, 63, 99], "a goal byte, south off the floor: arrived");
    assert_eq!(moved(&[([0, 0], 0x31)], 0, 0), [0, 3, 0, 0], "in sight, north off the floor");
    assert_eq!(moved(&[([5, 5], 0x70)], 5, 5), [0, 2, 5, 5], "goal and in sight: arrived");
    assert_eq!(moved(&[([5, 5], 0x60)], 5, 5), [0, 0, 5, 5], "flags without 0x10: stopped");
    assert_eq!(moved(&[([5, 5], 0x15)], 5, 5), [0, 0, 5, 5], "north and south: stopped");
    assert_eq!(moved(&[([5, 5], 0x90)], 5, 5), [0, 0, 5, 5], "a portal goal without direction: stopped");
}

#[test]
fn a_direction_that_leads_on_is_taken_whatever_the_flags() {
    for flags in [0, 0x10, 0x30, 0x50, 0x70, 0x90, 0xE0, 0xF0] {
        assert_eq!(moved(&[([5, 5], flags + 2)], 5, 5), [0, 1, 5, 6], "{flags:#x}");
    }
}

#[test]
fn ways_counted_by_hand() {
    let three = [([0, 8], 0x12), ([0, 9], 0x72), ([1, 0], 0x16), ([1, 11], 0x30)];
    assert_eq!(way(&three, 0, 8), ([0, 3, 1, 11], 3));
    assert_eq!(way(&three, 1, 11), ([0, 3, 1, 11], 0));
    let circle = [([0, 8], 0x12), ([0, 9], 0x12), ([1, 0], 0x18)];
    assert_eq!(way(&circle, 0, 8), ([0, 4, 0, 8], 0), "into a circle");
    assert_eq!(way(&circle, 1, 0), ([0, 4, 1, 0], 0), "on it");
}

#[test]
fn refused_carts_answer_zeros() {
    let any = vec![0x72; 6401];
    for (length, sector, cell, number) in [(6399, 64, 100, 2), (6401, 0, 0, 2), (6400, 64, 100, 4), (6400, 63, 100, 5)]
    {
        assert_eq!(Oracle.next_move(&any[..length], sector, cell), CartMove { number, ..CartMove::default() });
        assert_eq!(Oracle.way(&any[..length], sector, cell), CartWay { number, ..CartWay::default() });
    }
}

/// The second step's window is the West edge of sector 1, rows 0 to 9. In sector 0 walls cut column 9 off from row 3 down, so
/// that rows 0 to 2 face reached cells, row 3 counts by the cell beside it, and the rest do not count.
#[test]
fn the_field_of_a_step_is_built_from_the_cells_that_count() {
    let mut floor = vec![1; 6400];
    (3..10).for_each(|row| floor[10 * row + 9] = 255);
    let steps = [floors::goal_step(0, 0), floors::window_step(1, 3, 0, 9)].concat();
    let answer = Oracle.leg_field(&floor, &steps, 1);
    assert_eq!((answer.number, answer.field.count), (0, 4));
    assert_eq!(answer.field.corners(), [0, 10, 20, 30]);
    // A cell of the same row is as far as its column; below row 3 each row adds one, by the fourth door.
    assert_eq!([0, 5, 15, 35, 45, 99].map(|cell| answer.field.field[cell] % 65536), [0, 5, 5, 5, 6, 15]);
    assert_eq!([0, 5, 15, 35, 45, 99].map(|cell| answer.field.positions[cell]), [0, 0, 1, 3, 3, 3]);
    assert_eq!(answer.waves, 15);
}

#[test]
fn the_place_is_judged_behind_the_list_and_before_the_steps() {
    let (floor, steps) = (vec![1; 6400], [floors::goal_step(0, 0), floors::window_step(1, 3, 0, 9)].concat());
    let mut spoiled = steps.clone();
    spoiled[8] = 64;
    let asked = |floor: &[u8], steps: &[u8], place: usize| Oracle.leg_field(floor, steps, place);
    assert_eq!(asked(&floor[1..], &steps[1..], 2), refused::build(1));
    assert_eq!(asked(&floor, &steps[1..], 2), refused::build(3));
    assert_eq!(asked(&floor, &spoiled, 2), refused::build(21));
    assert_eq!(asked(&floor, &spoiled, 0), refused::build(4), "at the step behind the place");
    assert_eq!(asked(&floor, &steps, usize::MAX), refused::build(21));
    let mut closed = floor.clone();
    (0..10).for_each(|row| closed[10 * row + 8] = 255);
    assert_eq!(asked(&closed, &steps, 0), refused::build(15), "at the step behind the place");
    assert_eq!(asked(&closed, &steps, 2), refused::build(21));
}

/// A straight leg over open floor is driven to the goal, and driving shows each of these slips.
#[test]
fn driving_over_a_leg_shows_wrong_moves_and_ways() {
    let case = Case {
        costs: vec![1; 6400],
        steps: floors::straight_leg(4),
        sheet: vec![0; 6400],
        ..Case::of(Call::LegWithoutSight)
    };
    let driven = |side: &Model| drive::leg_held(&case, &case.run(&Model::PLAIN).sheet, side);
    let plain = driven(&Model::PLAIN).expect("a leg that is driven");
    assert_eq!((plain.to_goal, plain.into, plain.ways, plain.never), (400, 300, 400, 0));
    for slip in [Slip::MoveSectorAlone, Slip::MoveSightBeforeGoal, Slip::WayOneMore, Slip::WayEndsInNextSector] {
        assert!(driven(&Model { slip }).is_err(), "{slip:?}");
    }
}
