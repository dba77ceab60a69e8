//! The look at arrows that pass a wall (02, Job 7): sectors worked out by hand, each fault that a sheet may have, and that
//! the look by itself tells the published Rust and the slips of the rule from what is right.

use oracle::clear::{Cleared, of_leg, of_sector};
use oracle::copies::{altered, published};
use oracle::floors::{Rng, any_open, goal_step, leg_with_a_gap, one_wall, previous_for, uniform, window_step};
use oracle::groups::{Clean, Group};
use oracle::model::{Model, Slip};
use oracle::oracle::Oracle;
use oracle::subject::*;

/// A sheet with one arrow.
fn arrow(cell: usize, byte: u8) -> [u8; CELLS] {
    let mut sheet = [0; CELLS];
    sheet[cell] = byte;
    sheet
}

fn fault(costs: &[u8], sheet: &[u8]) -> String {
    of_sector(costs, sheet).expect_err("a fault")
}

/// Wall 55: each of the four cells around it has two diagonals that pass it, toward the cells beside it.
#[test]
fn a_diagonal_past_a_wall_is_seen_from_each_side() {
    for (from, bits) in
        [(45, 4 + 2), (45, 4 + 8), (65, 1 + 2), (65, 1 + 8), (54, 1 + 2), (54, 4 + 2), (56, 1 + 8), (56, 4 + 8)]
    {
        let found = fault(&one_wall(55), &arrow(from, 0x10 | bits));
        assert_eq!(found, format!("the arrow of cell {from} passes the wall at cell 55 diagonally"));
        // A cell that is not reached has an arrow too, where it sees one that is.
        assert_eq!(fault(&one_wall(55), &arrow(from, 0xF0 | bits)), found);
        // The other way round, and straight, it does not.
        let (straight, opposite) = (bits & (1 | 4), bits * 4 % 16 + bits / 4);
        assert!([straight, opposite].iter().all(|bits| of_sector(&one_wall(55), &arrow(from, *bits)).is_ok()));
    }
}

#[test]
fn what_leaves_the_sector_or_has_no_arrow_is_left_aside() {
    // Walls 8 and 19 are beside the diagonals of cell 9, which leave the sector, and 80, 91 beside those of 90.
    let mut costs = one_wall(8);
    [19, 80, 91].iter().for_each(|wall| costs[*wall] = 255);
    for (cell, bits) in [(9, 1 + 2), (9, 2 + 4), (9, 1 + 8), (90, 4 + 8), (90, 1 + 8), (90, 4 + 2)] {
        assert_eq!(of_sector(&costs, &arrow(cell, 0x90 | bits)), Ok(Cleared { sectors: 1, ..Cleared::default() }));
    }
    for byte in [0x70, 0x30, 0xE0, 0x00] {
        assert_eq!(of_sector(&one_wall(55), &[byte; CELLS]), Ok(Cleared { sectors: 1, ..Cleared::default() }));
    }
    // Inside they are seen: 9 to 18, 90 to 81.
    assert!(fault(&costs, &arrow(9, 0x1C)).contains("cell 9 passes the wall at cell 8"));
    assert!(fault(&costs, &arrow(90, 0x13)).contains("cell 90 passes the wall at cell 91"));
}

#[test]
fn what_is_counted() {
    // East from every cell but the last column's: no diagonal, and around wall 55 eight diagonals, two of each cell beside it.
    let east: [u8; CELLS] = std::array::from_fn(|cell| if cell == 55 { 0xE0 } else { 0x12 });
    let looked = of_sector(&one_wall(55), &east).expect("no fault");
    assert_eq!(looked, Cleared { sectors: 1, arrows: 89, diagonal: 0, past_one_wall: 8 });
    assert_eq!(looked.lacks(), Some("a diagonal arrow"));
    let looked = of_sector(&uniform(1), &arrow(44, 0x13)).expect("no fault");
    assert_eq!(looked, Cleared { sectors: 1, arrows: 1, diagonal: 1, past_one_wall: 0 });
    assert_eq!(looked.lacks(), Some("a diagonal past one wall"));
    // Between two walls there is no diagonal past one wall, and none to be taken.
    let mut costs = one_wall(45);
    costs[54] = 255;
    assert!(of_sector(&costs, &arrow(44, 0x16)).is_err());
}

#[test]
fn every_sector_of_a_leg_is_looked_at() {
    let (mut floor, steps) = leg_with_a_gap();
    floor[155] = 255;
    let mut sheet = vec![0; 6400];
    assert_eq!(Oracle.leg(&floor, &steps, &mut sheet), 0);
    assert_eq!(of_leg(&floor, &steps, &sheet).expect("no fault").sectors, 2);
    sheet[156] = 0x1C;
    let found = of_leg(&floor, &steps, &sheet).expect_err("a fault");
    assert_eq!(found, "sector 1: the arrow of cell 56 passes the wall at cell 55 diagonally");
    // A sector that is not named is not looked at.
    sheet[156] = 0;
    floor[255] = 255;
    sheet[256] = 0x1C;
    assert!(of_leg(&floor, &steps, &sheet).is_ok());
}

/// The sheets of goals and of windows with any costs and any previous field, and how many of each kind have a fault.
fn faults(planned: impl Fn(&[u8], &[u8], Option<&[u32]>) -> [u8; CELLS]) -> [usize; 2] {
    let (mut rng, mut found) = (Rng::new(71), [0; 2]);
    for _ in 0..4_000 {
        let (costs, step) = any_open(&mut rng);
        let (lent, numbers) = previous_for(&mut rng, &step);
        let sheet = planned(&costs, &step, lent.then_some(&numbers[..]));
        found[usize::from(step[2])] += usize::from(of_sector(&costs, &sheet).is_err());
    }
    found
}

#[test]
fn the_published_rust_and_the_slips_of_the_rule_are_told_apart() {
    let by_model = |slip: Slip| {
        faults(|costs, step, previous| {
            let mut sheet = [0; CELLS];
            let previous = Previous { lent: previous.is_some(), numbers: previous.unwrap_or(&[]) };
            assert_eq!(Model { slip }.sector(costs, step, previous, &mut sheet).number, 0);
            sheet
        })
    };
    assert_eq!(faults(|costs, step, previous| altered::planned(costs, step, previous).1), [0; 2]);
    assert_eq!(by_model(Slip::None), [0; 2]);
    let wrong = [
        faults(|costs, step, previous| published::planned(costs, step, previous).1),
        by_model(Slip::TwoWallsBar),
        by_model(Slip::LookSeesRow),
        by_model(Slip::WallsNotSeen),
    ];
    println!("faults of goals and of windows, of 4000 sectors: {wrong:?}");
    assert!(wrong.iter().flatten().all(|count| *count > 300));
}

/// A comparison that looked at no diagonal fails, with a goal or a window.
#[test]
fn a_group_that_looked_at_nothing_is_seen() {
    for name in ["sector", "leg, gaps", "journey", "leg refusals"] {
        let group = Group::named(name);
        let whole = group.run(&Model::PLAIN, 6, 20_000).unwrap_or_else(|_| panic!("{name} differs"));
        assert_eq!(group.unmet(&whole), None);
        let blind = Clean { cleared: Cleared::default(), ..whole };
        assert!(group.unmet(&blind).expect("a fault").contains("did not look at a diagonal arrow"));
    }
    for step in [goal_step(0, 44), window_step(0, 1, 0, 9)] {
        let looked = of_sector(&one_wall(55), &altered::planned(&one_wall(55), &step, None).1).expect("no fault");
        assert!(looked.lacks().is_none());
    }
}
