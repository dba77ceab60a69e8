//! Bounds of two floors (02, Job 9): floors worked out by hand, every floor between two with few ranges built by the Rust, and
//! what floors between show of a wrong answer.

use oracle::between::{Between, Bounded, DRAWN};
use oracle::copies::altered;
use oracle::floors::{Costs, Rng, all_windows, uniform, window_step};
use oracle::groups::{Group, Met, any_floors};
use oracle::model::{Model, Slip};
use oracle::subject::*;

const MODEL: Model = Model::PLAIN;

/// The cells that are sure.
fn marked(bounds: &Bounds) -> Vec<usize> {
    (0..CELLS).filter(|cell| bounds.sure[*cell]).collect()
}

/// The least and the greatest of a cell.
fn range(bounds: &Bounds, cell: usize) -> (u32, u32) {
    (bounds.least[cell], bounds.greatest[cell])
}

/// Columns are as far as they are, and their neighbours ahead are alike: only those beside the window are sure.
#[test]
fn open_floor() {
    let bounds = MODEL.bounds(&uniform(1), &uniform(1), &window_step(0, 1, 0, 9));
    assert_eq!(bounds.number, 0);
    assert!((0..CELLS).all(|cell| range(&bounds, cell) == (9 - cell as u32 % 10, 9 - cell as u32 % 10)));
    assert_eq!(marked(&bounds), (0..10).map(|row| 10 * row + 8).collect::<Vec<usize>>());
}

/// Row 4 alone is floor, and is left by its last cell, 49.
fn corridor(cost: u8) -> Costs {
    std::array::from_fn(|cell| if cell / 10 == 4 { cost } else { 255 })
}

const CORRIDOR: [u8; 8] = [0, 0, 1, 49, 49, 1, 0, 0];

#[test]
fn a_corridor_of_one_cost() {
    let bounds = MODEL.bounds(&corridor(1), &corridor(1), &CORRIDOR);
    assert_eq!(marked(&bounds), (40..49).collect::<Vec<usize>>());
    assert_eq!((range(&bounds, 40), range(&bounds, 49), range(&bounds, 39)), ((9, 9), (0, 0), (65535, 65535)));
}

/// From 1 to 2: cell 48 is 1 to 2, 47 is 2 to 4, 46 is 3 to 6, 45 is 4 to 8. Cell 47 has 2 below 3 ahead of it; cell 46 has
/// 4 on both sides, which is not strictly below; cell 40 has one neighbour.
#[test]
fn a_corridor_that_fills_up_a_little() {
    let bounds = MODEL.bounds(&corridor(1), &corridor(2), &CORRIDOR);
    assert_eq!([48, 47, 46, 45].map(|cell| range(&bounds, cell)), [(1, 2), (2, 4), (3, 6), (4, 8)]);
    assert_eq!(marked(&bounds), [40, 47, 48]);
}

/// From 1 to 254: cell 48 may be dearer than 46 on another floor. Every arrow still leads east on each: sure is the rule, and
/// not "never changes".
#[test]
fn a_corridor_that_fills_up() {
    let bounds = MODEL.bounds(&corridor(1), &corridor(254), &CORRIDOR);
    assert_eq!((range(&bounds, 48), range(&bounds, 40)), ((1, 254), (9, 9 * 254)));
    assert_eq!(marked(&bounds), [40, 48]);
    let bytes = altered::planned(&corridor(254), &CORRIDOR, None).1;
    assert!((40..49).all(|cell| bytes[cell] == 0x12));
}

/// With cost 0 every cell of the corridor holds 0, and no neighbour is strictly below another.
#[test]
fn a_corridor_that_costs_nothing() {
    let bounds = MODEL.bounds(&corridor(0), &corridor(0), &CORRIDOR);
    assert!((40..50).all(|cell| range(&bounds, cell) == (0, 0)));
    assert_eq!(marked(&bounds), [40, 48]);
}

/// Window cell 3 lies north-east of cell 12. A wall at cell 2 bars that diagonal; cell 13, by which the walk goes then, costs
/// 1 to 5, and cell 23 beside it 2 or more.
#[test]
fn a_window_cell_that_a_wall_bars() {
    let (low, mut high, north) = (uniform(1), uniform(1), window_step(0, 0, 3, 3));
    high[13] = 5;
    assert!(MODEL.bounds(&low, &high, &north).sure[12]);
    let mut walled = [low, high];
    walled.iter_mut().for_each(|floor| floor[2] = 255);
    let bounds = MODEL.bounds(&walled[0], &walled[1], &north);
    assert_eq!((range(&bounds, 13), range(&bounds, 23).0), ((1, 5), 2));
    assert!(!bounds.sure[12]);
    // Without the range cell 13 is below all others.
    assert!(MODEL.bounds(&walled[0], &walled[0], &north).sure[12]);
}

/// Cells 0 and 1 are closed off: each is the other's one permitted neighbour, and neither is reached.
#[test]
fn cells_that_nothing_reaches() {
    let mut costs = uniform(1);
    [2, 10, 11, 12].iter().for_each(|cell| costs[*cell] = 255);
    let bounds = MODEL.bounds(&costs, &costs, &window_step(0, 2, 0, 9));
    assert_eq!([0, 1, 2].map(|cell| range(&bounds, cell)), [(65535, 65535); 3]);
    assert!(![0, 1, 2, 11].iter().any(|cell| bounds.sure[*cell]));
}

/// Window cells and walls are not marked, whatever stands beside them: on floors of all 220 windows.
#[test]
fn neither_walls_nor_window_cells() {
    for step in all_windows() {
        let mut costs = uniform(1);
        costs[44] = 255;
        let bounds = MODEL.bounds(&costs, &costs, &step);
        let window = altered::window_cells(&step);
        assert!(window.iter().all(|cell| range(&bounds, *cell) == (0, 0) && !bounds.sure[*cell]));
        assert!(range(&bounds, 44) == (65535, 65535) && !bounds.sure[44]);
    }
}

/// Floors with eight cells that have two costs each: all 256 between are planned by the Rust. The bounds are the least and the
/// greatest that it builds, and sure cells have one arrow.
#[test]
fn every_floor_between_by_the_rust() {
    let mut rng = Rng::new(9);
    let (mut sure, mut wider) = (0, 0);
    for _ in 0..60 {
        let case = any_floors(&mut rng);
        let (low, step) = (Costs::try_from(&case.costs[..]).expect("a hundred costs"), &case.steps);
        let mut high = low;
        for _ in 0..8 {
            let cell = rng.below(CELLS);
            high[cell] = if low[cell] == 255 { 255 } else { low[cell] + rng.below(255 - usize::from(low[cell])) as u8 };
        }
        let ranged: Vec<usize> = (0..CELLS).filter(|cell| low[*cell] != high[*cell]).collect();
        let planned: Vec<_> = (0..1usize << ranged.len())
            .map(|kind| {
                let mut floor = low;
                ranged
                    .iter()
                    .enumerate()
                    .filter(|(k, _)| kind >> k & 1 == 1)
                    .for_each(|(_, cell)| floor[*cell] = high[*cell]);
                altered::planned(&floor, step, None)
            })
            .collect();
        let bounds = MODEL.bounds(&low, &high, step);
        assert_eq!(bounds.number, 0);
        for cell in 0..CELLS {
            let built = || planned.iter().map(|(field, _)| field.field[cell] % 65536);
            assert_eq!(range(&bounds, cell), (built().min().unwrap(), built().max().unwrap()));
            let arrows = || planned.iter().map(|(_, bytes)| bytes[cell] % 16);
            assert!(!bounds.sure[cell] || (arrows().all(|arrow| arrow != 0) && arrows().min() == arrows().max()));
            wider += usize::from(bounds.least[cell] != bounds.greatest[cell]);
        }
        sure += marked(&bounds).len();
    }
    println!("{sure} sure cells, {wider} cells with a range");
    assert!(sure > 1000 && wider > 1000);
}

/// The floors between find each of these by themselves, on one of the group's first inputs, and nothing in right answers.
#[test]
fn floors_between_show_wrong_answers() {
    let group = Group::named("bounds");
    let cases: Vec<_> = (group.cases)(Rng::new(4), 6_000).collect();
    let held = |side: &Model| {
        cases.iter().find_map(|case| {
            let answer = side.bounds(&case.costs, &case.high, &case.steps);
            Bounded { low: &case.costs, high: &case.high, step: &case.steps, answer: &answer }.held(&MODEL).err()
        })
    };
    assert_eq!(held(&MODEL), None);
    for slip in Slip::BETWEEN {
        assert!(held(&Model { slip: *slip }).is_some(), "not shown: {slip:?}");
    }
}

/// Each floor is counted, and a sure cell's arrow on each.
#[test]
fn what_was_seen_is_counted() {
    let (low, high) = (corridor(1), corridor(2));
    let answer = MODEL.bounds(&low, &high, &CORRIDOR);
    let seen = Bounded { low: &low, high: &high, step: &CORRIDOR, answer: &answer }.held(&MODEL).expect("no fault");
    let floors = DRAWN + 2;
    let planned = seen.planned;
    assert_eq!(seen, Between { inputs: 1, floors, planned, sure: 3, arrows: 3 * floors, unsure: 6 });
    let unmarked = Bounds { sure: [false; CELLS], ..answer };
    let seen = Bounded { low: &low, high: &high, step: &CORRIDOR, answer: &unmarked }.held(&MODEL).expect("no fault");
    assert_eq!((seen.sure, seen.lacks()), (0, Some("a sure cell")));
}

/// Every window is tried in full, so a run meets all 220; one that lacks a kind is a fault.
#[test]
fn each_kind_must_be_met() {
    let group = Group::named("bounds");
    let whole = group.run(&MODEL, 3, 20_000).unwrap_or_else(|_| panic!("the model differs from itself"));
    assert_eq!(group.unmet(&whole), None);
    assert_eq!(whole.met.keys().filter(|met| matches!(met, Met::Window { .. })).count(), 220);
    let window = Met::Window { boundary: 3, first: 90, last: 90 };
    for met in [window, Met::SureByDiagonalWindow, Met::EqualNotSure, Met::OneArrowNotSure, Met::WindowBarred] {
        let mut clean = whole.clone();
        assert!(clean.met.remove(&met).is_some());
        assert!(group.unmet(&clean).expect("a fault").contains(&format!("did not meet `{met}` in")));
    }
    let mut clean = whole.clone();
    clean.between.sure = 0;
    assert!(group.unmet(&clean).expect("a fault").contains("did not meet a sure cell in"));
    let mut clean = whole.clone();
    clean.between.planned = 0;
    assert!(group.unmet(&clean).expect("a fault").contains("the side's own sector call"));
}
