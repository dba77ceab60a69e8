//! Arrivals, by hand and by groups.

use oracle::floors::Rng;
use oracle::groups::{Group, arrival_kinds, counted, goal_sheets, is_walked, one_wall_sheets, sheet_that_meets};
use oracle::model::{Lost, Model, Slip, lost_by};
use oracle::subject::{CELLS, NEVER, Subject};

/// A sheet of zeros with these bytes in these cells.
fn sheet(bytes: &[(usize, u8)]) -> Vec<u8> {
    let mut sheet = vec![0; CELLS];
    bytes.iter().for_each(|(cell, byte)| sheet[*cell] = *byte);
    sheet
}

fn moves(sheet: &[u8]) -> [u8; CELLS] {
    Model::PLAIN.arrivals(sheet).moves
}

#[test]
fn a_way_of_three_moves() {
    let told = moves(&sheet(&[(44, 0x70), (55, 0x19), (66, 0x19), (76, 0x11)]));
    assert_eq!([44, 55, 66, 76].map(|cell| told[cell]), [0, 1, 2, 3]);
    assert_eq!(told.iter().filter(|moves| **moves == NEVER).count(), 96);
}

#[test]
fn two_cells_that_point_at_each_other() {
    let bytes = sheet(&[(10, 0x70), (2, 0x12), (3, 0x18), (4, 0x18)]);
    assert_eq!([2, 3, 4].map(|cell| moves(&bytes)[cell]), [NEVER; 3]);
    assert_eq!(lost_by(&bytes, 2), Lost::Circle { cells: 2, before: 0 });
    assert_eq!(lost_by(&bytes, 4), Lost::Circle { cells: 2, before: 1 });
}

#[test]
fn over_an_edge_nothing_is_arrived_at() {
    let bytes = sheet(&[(19, 0x12), (20, 0x70), (30, 0x18), (29, 0x70), (5, 0x11), (95, 0x14)]);
    assert_eq!([19, 30, 5, 95].map(|cell| moves(&bytes)[cell]), [NEVER; 4]);
    assert_eq!([19, 30, 5, 95].map(|cell| lost_by(&bytes, cell)), [Lost::Leaving; 4]);
}

#[test]
fn another_length_is_refused() {
    for length in [0, 1, 99, 101, 200] {
        let answer = Model::PLAIN.arrivals(&vec![0x70; length]);
        assert_eq!((answer.number, answer.moves), (2, [0; CELLS]));
    }
}

#[test]
fn each_kind_is_drawn() {
    let mut rng = Rng::new(29);
    for kind in arrival_kinds() {
        sheet_that_meets(&mut rng, kind);
    }
}

#[test]
fn the_group_meets_each_kind() {
    let group = Group::named("arrivals");
    let clean = group.run(&Model::PLAIN, 29, 5_000).unwrap_or_else(|_| panic!("the model differs from itself"));
    assert_eq!(group.unmet(&clean), None);
}

/// docs/DIFFERENCES.md has these figures: cells that can be walked and have not arrived, on every floor of one wall.
#[test]
fn floors_of_one_wall() {
    let told = counted(one_wall_sheets(), is_walked);
    assert_eq!((told.sheets, told.lost_sheets, told.cells, told.lost), (9_900, 1_010, 114_998, 11_570));
    assert_eq!((told.most_lost, told.most_moves), (96, 14));
    let first = one_wall_sheets().find(|sheet| counted(std::iter::once(sheet.clone()), is_walked).lost > 0);
    let first = first.expect("a floor with a cell that never arrives");
    let lost: Vec<usize> = (0..CELLS).filter(|cell| is_walked(first[*cell]) && moves(&first)[*cell] == NEVER).collect();
    assert_eq!((first[1], first[10], lost), (0xE0, 0x70, (2..10).collect()));
}

/// The same of drawn floors with a goal: as `new` starts the sheet there is no arrow, and no cell comes anywhere.
#[test]
fn drawn_floors() {
    let mut rng = Rng::new(29);
    let (started, built): (Vec<_>, Vec<_>) = (0..10_000).map(|_| goal_sheets(&mut rng)).map(|[a, b]| (a, b)).unzip();
    let told = counted(started.into_iter(), |_| true);
    assert_eq!((told.sheets, told.lost_sheets, told.cells, told.lost), (10_000, 8_400, 642_558, 642_558));
    assert_eq!((told.most_lost, told.most_moves), (99, 0));
    let told = counted(built.into_iter(), is_walked);
    assert_eq!((told.sheets, told.lost_sheets, told.cells, told.lost), (10_000, 2_279, 298_081, 55_184));
    assert_eq!((told.most_lost, told.most_moves), (92, 53));
}

/// And of any bytes, each cell that has not arrived itself.
#[test]
fn drawn_bytes() {
    let mut rng = Rng::new(29);
    let sheets = (0..10_000).map(|_| (0..CELLS).map(|_| rng.below(256) as u8).collect());
    let told = counted(sheets, |_| true);
    assert_eq!((told.sheets, told.lost_sheets, told.cells, told.lost), (10_000, 10_000, 562_035, 427_349));
    assert_eq!((told.most_lost, told.most_moves), (69, 7));
}

#[test]
fn each_slip_is_found() {
    let groups = ["arrivals", "arrivals refusals"].map(Group::named);
    for (slip, text) in Slip::ALL.iter().filter(|(_, text)| text.starts_with("arrivals:")) {
        let side = Model { slip: *slip };
        assert!(groups.iter().any(|group| group.run(&side, 1, 2_000).is_err()), "not found: {text}");
    }
}
