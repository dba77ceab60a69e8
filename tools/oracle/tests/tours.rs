//! Tours of windows (02, Job 14): squares worked out by hand; orders written down, numbered and sifted, three ways that must
//! agree; squares with many ties and many 65535, in which some orders count and some do not, tried in two ways and held to
//! the best there is; and what that shows of a wrong answer.

use oracle::floors::{Rng, Step, uniform, window_step};
use oracle::groups::{Group, Met};
use oracle::model::{Model, Slip, orders};
use oracle::subject::*;
use oracle::tours::{Toured, best_of_all, held, held_on};

const MODEL: Model = Model::PLAIN;

type Square = [[u32; WINDOWS]; WINDOWS];

/// A square of these rows, 65535 elsewhere.
fn square<const N: usize>(rows: [[u32; N]; N]) -> Square {
    std::array::from_fn(|i| std::array::from_fn(|j| if i < N && j < N { rows[i][j] } else { 65535 }))
}

fn tour(found: bool, order: &[u8], sum: u32, tried: u32, least: u32) -> WindowTour {
    let order = std::array::from_fn(|k| order.get(k).copied().unwrap_or(0));
    WindowTour { number: 0, found, order, sum, tried, least }
}

/// One order of two windows, and none where the limit is 0; the way back, which costs otherwise, plays no part.
#[test]
fn two_windows() {
    let there = square([[0, 7], [9, 0]]);
    assert_eq!(MODEL.tour(&there, 2, 1), tour(true, &[0, 1], 7, 1, 7));
    assert_eq!(MODEL.tour(&there, 2, 65535), tour(true, &[0, 1], 7, 1, 7));
    assert_eq!(MODEL.tour(&there, 2, 0), tour(false, &[], 0, 0, 7));
    let apart = square([[0, 65535], [9, 0]]);
    assert_eq!(MODEL.tour(&apart, 2, 5), tour(false, &[], 0, 1, 65535));
}

/// 0 1 2 comes to 10 + 4, 0 2 1 to 3 + 5. Into 1 the cheapest entry is 5, from 2, and into 2 it is 3, from 0: no order has
/// both and less than 8.
#[test]
fn three_windows() {
    let rows = square([[0, 10, 3], [20, 0, 4], [30, 5, 0]]);
    assert_eq!(MODEL.tour(&rows, 3, 1), tour(true, &[0, 1, 2], 14, 1, 8));
    assert_eq!(MODEL.tour(&rows, 3, 2), tour(true, &[0, 2, 1], 8, 2, 8));
}

/// A tie stays with the earlier order.
#[test]
fn ties() {
    let even = square([[0, 2, 2, 2], [2, 0, 2, 2], [2, 2, 0, 2], [2, 2, 2, 0]]);
    assert_eq!(MODEL.tour(&even, 4, 6), tour(true, &[0, 1, 2, 3], 6, 6, 6));
    // Only 0 2 1 3 and 0 3 1 2 come to 5; the first of them is the third order.
    let late = square([[0, 9, 2, 2], [2, 0, 1, 1], [2, 2, 0, 9], [2, 2, 9, 0]]);
    assert_eq!(MODEL.tour(&late, 4, 6), tour(true, &[0, 2, 1, 3], 5, 6, 4));
    assert_eq!(MODEL.tour(&late, 4, 2).order[..4], [0, 1, 2, 3]);
}

/// Orders that use a 65535 are tried and counted, and do not count: of six only 0 3 2 1, the last, does.
#[test]
fn barred_moves() {
    let no = 65535;
    let rows = square([[0, no, no, 1], [no, 0, no, no], [no, 1, 0, no], [no, no, 1, 0]]);
    assert_eq!(MODEL.tour(&rows, 4, 5), tour(false, &[], 0, 5, 3));
    assert_eq!(MODEL.tour(&rows, 4, 6), tour(true, &[0, 3, 2, 1], 3, 6, 3));
}

/// Sums and the least figure pass 65535: seven moves of 65534, and seven windows that none enters.
#[test]
fn wide_figures() {
    let dear = [[65534; WINDOWS]; WINDOWS];
    assert_eq!(MODEL.tour(&dear, 8, 1), tour(true, &[0, 1, 2, 3, 4, 5, 6, 7], 7 * 65534, 1, 7 * 65534));
    assert_eq!(MODEL.tour(&[[65535; WINDOWS]; WINDOWS], 8, 65535), tour(false, &[], 0, 5040, 7 * 65535));
}

/// All lists of so many numbers below that many, in dictionary order, of which those are kept that begin with 0 and have each
/// number once.
fn sifted(windows: usize) -> Vec<Vec<usize>> {
    let all = windows.pow(windows as u32);
    let digits = |k: usize| (0..windows).rev().map(|place| k / windows.pow(place as u32) % windows).collect();
    let once = |list: &Vec<usize>| list[0] == 0 && (0..windows).all(|window| list.contains(&window));
    (0..all).map(digits).filter(once).collect()
}

/// The order at a place of the dictionary: each next window is the one at place / (m - 1)! of the m that are left.
fn numbered(windows: usize, place: usize) -> Vec<usize> {
    let (mut order, mut left, mut place) = (vec![0], (1..windows).collect::<Vec<usize>>(), place);
    while !left.is_empty() {
        let block: usize = (1..left.len()).product();
        order.push(left.remove(place / block));
        place %= block;
    }
    order
}

#[test]
fn orders_in_three_ways() {
    for windows in 2..=WINDOWS {
        let written = orders(windows);
        assert_eq!(written.len(), (1..windows).product::<usize>());
        assert!(written.iter().enumerate().all(|(place, order)| *order == numbered(windows, place)));
        assert!(written.windows(2).all(|pair| pair[0] < pair[1]));
        if windows < 8 {
            assert_eq!(written, sifted(windows));
        }
    }
}

/// A square with many ties and many 65535: entries of few values, each as likely as the number of them allows.
fn any_square(rng: &mut Rng) -> Square {
    let values =
        rng.pick(&[&[1, 2][..], &[0, 1, 2, 65535], &[1, 65535, 65535], &[3, 4, 5, 6, 7, 8, 9], &[65534, 65535, 1]]);
    let mut square: Square = std::array::from_fn(|_| std::array::from_fn(|_| rng.pick(values)));
    (0..WINDOWS).for_each(|k| square[k][k] = 0);
    square
}

/// The tour by numbering: each order made from its place, its sum looked up, the best kept where it is lower.
fn by_numbering(square: &Square, windows: usize, limit: u16) -> WindowTour {
    let all: usize = (1..windows).product();
    let tried = all.min(usize::from(limit));
    let mut best: Option<(u64, Vec<usize>)> = None;
    for place in 0..tried {
        let order = numbered(windows, place);
        let costs: Vec<u32> = (1..windows).map(|k| square[order[k - 1]][order[k]]).collect();
        let sum = costs.iter().map(|cost| u64::from(*cost)).sum();
        if costs.iter().all(|cost| *cost < 65535) && best.as_ref().is_none_or(|(least, _)| sum < *least) {
            best = Some((sum, order));
        }
    }
    let entries = (1..windows).map(|b| (0..windows).filter(|a| *a != b).map(|a| square[a][b]).min().unwrap_or(0));
    let least = entries.sum();
    let order = best.as_ref().map_or(Vec::new(), |(_, order)| order.iter().map(|window| *window as u8).collect());
    tour(best.is_some(), &order, best.as_ref().map_or(0, |(sum, _)| *sum as u32), tried as u32, least)
}

/// Limits at the edges: 0, 1, all orders but one, all, more.
fn limits(windows: usize) -> [u16; 6] {
    let all: u16 = (1..windows as u16).product();
    [0, 1, all - 1, all, all + 1, 65535]
}

/// Writing down and numbering give the same tour, and it is the best there is where all were tried, by what remains to be
/// paid. No sum goes under the least figure, of an order that counts or not, a 65535 taken as 65535.
#[test]
fn squares_in_two_ways() {
    let mut rng = Rng::new(14);
    let (mut found, mut barred, mut none, mut ties) = (0, 0, 0, 0);
    for k in 0..700 {
        let (windows, square) = (2 + k % 7, any_square(&mut rng));
        let drawn = rng.below(orders(windows).len() + 2) as u16;
        for limit in limits(windows).into_iter().chain([drawn]) {
            let tour = MODEL.tour(&square, windows, limit);
            assert_eq!(tour, by_numbering(&square, windows, limit));
            assert_eq!(held_on(&square, windows, limit, &tour).map(|seen| seen.inputs), Ok(1));
            let sums = || orders(windows)[..tour.tried as usize].iter().map(|order| sum(&square, order));
            assert!(orders(windows).iter().all(|order| sum(&square, order).0 >= tour.least));
            found += usize::from(tour.found);
            barred += usize::from(tour.found && sums().any(|(_, counts)| !counts));
            none += usize::from(!tour.found && tour.tried > 0);
            ties += usize::from(tour.found && sums().filter(|both| *both == (tour.sum, true)).count() > 1);
        }
    }
    println!("{found} with an order, {barred} beside others that do not count, {none} without, {ties} ties");
    assert!(found > 1000 && barred > 300 && none > 500 && ties > 500);
}

/// What an order comes to, a 65535 taken as 65535, and whether it counts.
fn sum(square: &Square, order: &[usize]) -> (u32, bool) {
    let costs = || order.windows(2).map(|pair| square[pair[0]][pair[1]]);
    (costs().sum(), costs().all(|cost| cost != 65535))
}

/// Squares show each slip of an accepted tour in the comparison of the two ways; those that are wrong in their own words, or
/// where all orders were tried, by these words alone.
#[test]
fn squares_show_wrong_answers() {
    let mut rng = Rng::new(15);
    let squares: Vec<(Square, usize)> = (0..140).map(|k| (any_square(&mut rng), 2 + k % 7)).collect();
    let inputs =
        || squares.iter().flat_map(|(square, windows)| limits(*windows).map(|limit| (square, *windows, limit)));
    let mut by_words = 0;
    for (slip, text) in Slip::ALL.iter().filter(|(_, text)| text.starts_with("window tour: ")) {
        let side = Model { slip: *slip };
        let differs = inputs()
            .any(|(square, windows, limit)| side.tour(square, windows, limit) != by_numbering(square, windows, limit));
        let refusals = [Slip::TourTriedOfRefusal, Slip::TourLeastOfRefusal];
        assert!(differs || refusals.contains(slip), "not shown: {text}");
        let faulty =
            |(square, windows, limit)| held_on(square, windows, limit, &side.tour(square, windows, limit)).is_err();
        let told = inputs().any(faulty);
        by_words += usize::from(told);
        // An order too many is looked at: of a limit below all orders the words do not say what is best.
        let told = told || *slip == Slip::TourOneMoreLookedAt;
        assert!(told || refusals.contains(slip), "not told by its words: {text}");
    }
    println!("{by_words} slips are told by the words alone");
}

/// On a floor: from a window on the west edge to three on the east edge, of which the middle one is listed last. Each of these
/// is entered at 4 from another of them, so that the least figure leaves out the way from west to east.
#[test]
fn a_tour_on_a_floor() {
    let west = window_step(0, 3, 0, 0);
    let [north, south, middle] = [0, 8, 4].map(|row| window_step(0, 1, row, row));
    let steps: [Step; 4] = [west, north, south, middle];
    let found = MODEL.window_tour(&uniform(1), &steps.concat(), 6);
    assert_eq!(found, tour(true, &[0, 1, 3, 2], 9 + 4 + 4, 6, 4 + 4 + 4));
    let first = MODEL.window_tour(&uniform(1), &steps.concat(), 1);
    assert_eq!(first, tour(true, &[0, 1, 2, 3], 9 + 8 + 4, 1, 4 + 4 + 4));
    assert_eq!(held(&uniform(1), &steps.concat(), 6, &found), Ok(Toured { inputs: 1, whole: 1, best: 1 }));
}

/// A refusal has nothing but its number, whatever the limit.
#[test]
fn a_refused_tour_is_zero() {
    let east = window_step(0, 1, 2, 5);
    for (costs, steps, number) in
        [(&[1; 99][..], &[east, east][..], 1), (&[1; 100], &[east], 19), (&[255; 100], &[east, east], 16)]
    {
        let refused = WindowTour { number, ..tour(false, &[], 0, 0, 0) };
        assert_eq!(MODEL.window_tour(costs, &steps.concat(), 65535), refused);
    }
}

#[test]
fn the_best_of_all_is_none_where_none_counts() {
    let rows = square([[0, 1, 65535], [1, 0, 65535], [65535, 65535, 0]]);
    assert_eq!(best_of_all(&rows, 3), None);
    assert_eq!(best_of_all(&rows, 2), Some((1, vec![0, 1])));
}

#[test]
fn each_kind_must_be_met() {
    let group = Group::named("window tour");
    let whole = group.run(&MODEL, 3, 20_000).unwrap_or_else(|_| panic!("the model differs from itself"));
    assert_eq!(group.unmet(&whole), None);
    for met in [Met::Windows(2), Met::LimitNone, Met::LimitAll, Met::Tie, Met::NoTour, Met::DearTour, Met::BetterBehind]
    {
        let mut clean = whole.clone();
        assert!(clean.met.remove(&met).is_some());
        assert!(group.unmet(&clean).expect("a fault").contains(&format!("did not meet `{met}` in")));
    }
    let mut clean = whole.clone();
    clean.toured.best = 0;
    assert!(group.unmet(&clean).expect("a fault").contains("the best of all orders"));
}
