//! Costs from window to window (02, Job 13): floors worked out by hand, squares by the Rust's own fields, and what built
//! fields show of a wrong answer.

use oracle::floors::{Costs, Rng, Step, all_windows, open, snake, uniform, window_step};
use oracle::groups::{Group, Met, any_windows};
use oracle::model::{Model, Slip};
use oracle::squares::{Squared, held, rust_square};
use oracle::subject::*;

const MODEL: Model = Model::PLAIN;

/// The square of windows that are taken, cut to as many rows and places.
fn square(costs: &[u8], windows: &[Step]) -> Vec<Vec<u32>> {
    let answer = MODEL.window_costs(costs, &windows.concat());
    assert_eq!(answer.number, 0);
    let used = windows.len();
    let unused = |i: usize, j: usize| i >= used || j >= used;
    let square = answer.square();
    assert!((0..64).filter(|at| unused(at / 8, at % 8)).all(|at| square[at / 8][at % 8] == 65535));
    square[..used].iter().map(|row| row[..used].to_vec()).collect()
}

/// From the west edge to the east one nine cells are entered, from a corner to the opposite one eighteen.
#[test]
fn open_floor() {
    let [west, east] = [3, 1].map(|boundary| window_step(0, boundary, 0, 9));
    let [north_west, south_east] = [window_step(0, 0, 0, 0), window_step(0, 2, 9, 9)];
    assert_eq!(square(&uniform(1), &[west, east]), [[0, 9], [9, 0]]);
    assert_eq!(square(&uniform(1), &[north_west, south_east, east]), [[0, 18, 9], [18, 0, 0], [9, 0, 0]]);
    assert_eq!(square(&uniform(254), &[north_west, south_east]), [[0, 18 * 254], [18 * 254, 0]]);
    assert_eq!(square(&uniform(0), &[west, east]), [[0, 0], [0, 0]]);
}

/// Row 4 alone is floor, its costs are 0 to 9 from west to east. Building for the east end enters the cells west of it, 8 down
/// to 0, and for the west end those east of it, 1 to 9: what a window's own cells cost is not part of the way to it.
#[test]
fn there_and_back_differ() {
    let costs: Costs = std::array::from_fn(|cell| if cell / 10 == 4 { cell as u8 % 10 } else { 255 });
    let [west, east] = [window_step(0, 3, 4, 4), window_step(0, 1, 4, 4)];
    assert_eq!(square(&costs, &[west, east]), [[0, 36], [45, 0]]);
}

/// A wall from north to south: the windows west of it and those east of it are cut off from each other.
#[test]
fn cut_off() {
    let costs: Costs = std::array::from_fn(|cell| if cell % 10 == 5 { 255 } else { 2 });
    let [west, east] = [window_step(0, 3, 0, 9), window_step(0, 1, 0, 9)];
    let [north_west, north_east] = [window_step(0, 0, 4, 4), window_step(0, 0, 6, 6)];
    assert_eq!(
        square(&costs, &[west, north_west, east, north_east]),
        [[0, 8, 65535, 65535], [8, 0, 65535, 65535], [65535, 65535, 0, 6], [65535, 65535, 6, 0]]
    );
}

/// Windows that share a cell cost 0 both ways, whatever that cell costs; so does a window that is listed twice.
#[test]
fn overlap() {
    let [north, part] = [window_step(0, 0, 0, 9), window_step(0, 0, 7, 9)];
    let [corner, south] = [window_step(0, 1, 0, 2), window_step(0, 2, 0, 9)];
    let expected = [[0, 0, 0, 9 * 254], [0, 0, 0, 9 * 254], [0, 0, 0, 7 * 254], [9 * 254, 9 * 254, 7 * 254, 0]];
    assert_eq!(square(&uniform(254), &[north, part, corner, south]), expected);
    assert_eq!(square(&uniform(254), &[part, part, part]), [[0; 3]; 3]);
}

/// Cells 0 and 9 of the north edge are dear to enter, cell 4 is not: the least of the window's cells counts, and neither its
/// first nor its last. From it to the south edge, and back.
#[test]
fn the_least_of_the_cells() {
    let mut costs = uniform(10);
    (0..10).filter(|column| *column != 4).for_each(|column| costs[column] = 200);
    let [north, south] = [window_step(0, 0, 0, 9), window_step(0, 2, 0, 9)];
    assert_eq!(square(&costs, &[north, south]), [[0, 80 + 10], [90, 0]]);
    // For the north window alone every one of its cells holds 0, so what they cost plays no part.
    costs[4] = 7;
    assert_eq!(square(&costs, &[north, south]), [[0, 87], [90, 0]]);
}

/// A way goes through the cells of other windows, and diagonals are no moves.
#[test]
fn through_another_window() {
    let costs: Costs = std::array::from_fn(|cell| if cell / 10 == 0 { 3 } else { 255 });
    let [west, east] = [window_step(0, 3, 0, 0), window_step(0, 1, 0, 0)];
    let between = window_step(0, 0, 4, 5);
    assert_eq!(square(&costs, &[west, between, east]), [[0, 12, 27], [12, 0, 12], [27, 12, 0]]);
    let stairs: Costs = std::array::from_fn(|cell| if cell / 10 == cell % 10 { 1 } else { 255 });
    assert_eq!(square(&stairs, &[west, window_step(0, 2, 9, 9)]), [[0, 65535], [65535, 0]]);
}

/// The way through a snake of cost 254 enters some sixty cells: it is dear, and still below 65535.
#[test]
fn dear_ways() {
    let mut costs = snake(254, false, false);
    let ends = [window_step(0, 0, 0, 0), window_step(0, 2, 9, 9)];
    ends.iter().for_each(|step| open(&mut Rng::new(1), &mut costs, step));
    let way = square(&costs, &ends)[0][1];
    assert!(10_000 < way && way < 65535);
    assert_eq!(way, rust_square(&costs, &ends.concat())[0][1]);
}

/// Walks that are searched and fields that the Rust builds give the same square, on every pair of windows and on drawn lists.
#[test]
fn walks_and_fields() {
    let mut rng = Rng::new(13);
    let all = all_windows();
    for first in &all {
        let mut costs: Costs = std::array::from_fn(|_| rng.pick(&[0, 1, 2, 5, 200, 255]));
        let steps: Vec<Step> = [*first].into_iter().chain((0..7).map(|_| rng.pick(&all))).collect();
        steps.iter().for_each(|step| open(&mut rng, &mut costs, step));
        let steps = steps.concat();
        assert_eq!(MODEL.window_costs(&costs, &steps).square(), rust_square(&costs, &steps));
    }
    for _ in 0..3_000 {
        let case = any_windows(&mut rng);
        let answer = MODEL.window_costs(&case.costs, &case.steps);
        assert_eq!((answer.number, answer.square()), (0, rust_square(&case.costs, &case.steps)));
    }
}

/// Built fields find each slip of an accepted answer by themselves, and nothing in right answers.
#[test]
fn fields_show_wrong_answers() {
    let cases: Vec<_> = (Group::named("window costs").cases)(Rng::new(4), 6_000).collect();
    let shown = |side: &Model| {
        cases.iter().find_map(|case| {
            let answer = side.window_costs(&case.costs, &case.steps);
            (answer.number == 0).then(|| held(&case.costs, &case.steps, &answer, &MODEL).err()).flatten()
        })
    };
    assert_eq!(shown(&MODEL), None);
    for (slip, text) in Slip::ALL.iter().filter(|(slip, _)| format!("{slip:?}").starts_with("Windows")) {
        assert!(*slip == Slip::WindowsOfRefusal || shown(&Model { slip: *slip }).is_some(), "not shown: {text}");
    }
}

/// The refused square is 0 throughout, and not 65535.
#[test]
fn a_refused_square_is_zero() {
    let east = window_step(0, 1, 2, 5);
    for (costs, steps, number) in
        [(&[1; 99][..], &[east, east][..], 1), (&[1; 100], &[east], 19), (&[255; 100], &[east, east], 16)]
    {
        assert_eq!(MODEL.window_costs(costs, &steps.concat()), WindowCosts::new(number, [[0; 8]; 8]));
    }
}

#[test]
fn what_was_seen_is_counted() {
    let [west, east] = [3, 1].map(|boundary| window_step(0, boundary, 0, 9));
    let costs: Costs = std::array::from_fn(|cell| if cell % 10 == 5 { 255 } else { 2 });
    let steps = [west, east, east].concat();
    let seen = held(&costs, &steps, &MODEL.window_costs(&costs, &steps), &MODEL).expect("no fault");
    assert_eq!(seen, Squared { inputs: 1, entries: 6, reached: 2, planned: seen.planned });
    assert_eq!(Squared { planned: 1, ..seen }.lacks(), None);
    assert_eq!(Squared { planned: 0, ..seen }.lacks(), Some("fields built by the side's own sector call"));
}

/// Every window is tried in full; a run that lacks a kind is a fault.
#[test]
fn each_kind_must_be_met() {
    let group = Group::named("window costs");
    let whole = group.run(&MODEL, 3, 20_000).unwrap_or_else(|_| panic!("the model differs from itself"));
    assert_eq!(group.unmet(&whole), None);
    assert_eq!(whole.met.keys().filter(|met| matches!(met, Met::Window { .. })).count(), 220);
    for met in [Met::Windows(8), Met::Overlap, Met::CutOff, Met::Asymmetric, Met::LeastBetween, Met::PastAnother] {
        let mut clean = whole.clone();
        assert!(clean.met.remove(&met).is_some());
        assert!(group.unmet(&clean).expect("a fault").contains(&format!("did not meet `{met}` in")));
    }
    let mut clean = whole.clone();
    clean.squared.planned = 0;
    assert!(group.unmet(&clean).expect("a fault").contains("the side's own sector call"));
}
