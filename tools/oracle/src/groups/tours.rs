//! Tours of windows (02, Job 14): what is tried in full, what is drawn, and what such inputs have to meet. The cells of a
//! window lie side by side and none is a wall, so that windows reach each other both ways or not at all, and what one
//! reaches its neighbours reach: on a floor either every order counts or none. Squares in which some do are tried on the
//! model alone, in `tests/tours.rs`.

use super::good::drawn;
use super::windows::any_windows;
use super::{Cases, Met};
use crate::cases::{Ask, Case};
use crate::floors::{self, Rng, Step};
use crate::model::{Model, orders};
use crate::subject::*;

/// The same input, asked for a tour with a limit.
pub(super) fn with_limit(case: Case, limit: u16) -> Case {
    Case { ask: Ask::One(Call::WindowTour), limit, ..case }
}

/// The orders of as many windows as a case has.
fn all_orders(case: &Case) -> usize {
    orders(case.steps.len() / 8).len()
}

/// A limit at the edges, 0, 1, all but one, all, more; or any.
pub(super) fn any_limit(rng: &mut Rng, all: usize) -> u16 {
    let (within, any) = (rng.below(all + 1), rng.below(65536));
    let edges = [0, 1, 2, all - 1, all, all, all, all + 1, 256, 65535];
    (if rng.one_in(3) { rng.pick(&[within, within, any]) } else { rng.pick(&edges) }) as u16
}

/// Windows of one sector and a limit.
pub fn any_tour(rng: &mut Rng) -> Case {
    let zigzagged = rng.one_in(8);
    let case = if zigzagged { zigzag(rng) } else { any_windows(rng) };
    let limit = any_limit(rng, all_orders(&case));
    let few = 1 + rng.below(3) as u16;
    with_limit(case, if zigzagged && rng.one_in(2) { few } else { limit })
}

/// Eight windows of one cell on a snake, listed from one end of it and from the other in turn: the first orders cost much.
fn zigzag(rng: &mut Rng) -> Case {
    let upright = rng.one_in(2);
    let costs = floors::snake(rng.pick(&[1, 254, 254]), rng.one_in(2), upright);
    let over = |cell: usize| if upright { cell % 10 } else { cell / 10 };
    let cells: Vec<(usize, usize)> = (0..4).flat_map(|edge| (0..10).map(move |along| (edge, along))).collect();
    let open = |far: bool| {
        let there = |cell: usize| costs[cell] != 255 && (if far { over(cell) > 7 } else { over(cell) < 2 });
        let ends = cells.iter().filter(|(edge, along)| there(floors::edge_cell(*edge, *along)));
        ends.map(|(edge, along)| floors::window_step(0, *edge, *along, *along)).collect::<Vec<Step>>()
    };
    let ends = [open(false), open(true)];
    let steps: Vec<Step> = (0..WINDOWS).map(|k| rng.pick(&ends[k % 2])).collect();
    Case { costs: costs.to_vec(), steps: steps.concat(), ..Case::of(Call::WindowTour) }
}

/// Up to six windows with every limit from 0 past the number of orders, more windows with limits around it; then a tenth of
/// the inputs.
pub fn tours(rng: Rng, inputs: usize) -> Cases {
    let mut first = rng.clone();
    let full = (2..=WINDOWS).flat_map(move |windows| {
        let all = orders(windows).len();
        let near = [0, 1, 2, 255, 256, 257, all - 1, all, all + 1, 65535];
        let limits = if all <= 120 { (0..=all + 1).chain([65535]).collect() } else { near.to_vec() };
        let case = windows_of(&mut first, windows);
        limits.into_iter().map(move |limit| with_limit(case.clone(), limit as u16))
    });
    Box::new(full.chain(drawn(rng, inputs / 10, any_tour)))
}

/// So many windows on a floor of any kind.
fn windows_of(rng: &mut Rng, windows: usize) -> Case {
    loop {
        let case = any_windows(rng);
        if case.steps.len() == 8 * windows {
            return case;
        }
    }
}

/// Such a tour that meets a kind.
pub fn tour_that_meets(rng: &mut Rng, kind: Met) -> Case {
    loop {
        let case = any_tour(rng);
        if met(&case).contains(&kind) {
            return case;
        }
    }
}

/// All that tours must meet: each number of windows, each kind of limit and each kind of answer.
pub(super) fn all() -> Vec<Met> {
    (2..=8).map(Met::Windows).chain(tour_kinds()).collect()
}

pub fn tour_kinds() -> [Met; 13] {
    [
        Met::LimitNone,
        Met::LimitOne,
        Met::LimitShort,
        Met::LimitAll,
        Met::LimitOver,
        Met::Tie,
        Met::NoTour,
        Met::BetterBehind,
        Met::AtLeastFigure,
        Met::AboveLeastFigure,
        Met::DearTour,
        Met::DearFigure,
        Met::TourNotListed,
    ]
}

/// What a tour meets.
pub(super) fn met(case: &Case) -> Vec<Met> {
    let (windows, limit) = (case.steps.len() / 8, usize::from(case.limit));
    let square = Model::PLAIN.costs_between_windows(&case.costs, &case.steps).square();
    let orders = orders(windows);
    let tour = Model::PLAIN.tour(&square, windows, case.limit);
    let sum = |order: &Vec<usize>| {
        let moves = order.windows(2).map(|pair| square[pair[0]][pair[1]]);
        moves.fold(Some(0), |sum, cost| if cost == 65535 { None } else { Some(sum? + cost) })
    };
    let sums: Vec<Option<u32>> = orders.iter().map(sum).collect();
    let (tried, behind) = sums.split_at(limit.min(sums.len()));
    let listed: [u8; WINDOWS] = std::array::from_fn(|k| if k < windows { k as u8 } else { 0 });
    let kinds = [
        (Met::LimitNone, limit == 0),
        (Met::LimitOne, limit == 1 && windows > 2),
        (Met::LimitShort, limit + 1 == orders.len() && limit > 1),
        (Met::LimitAll, limit == orders.len()),
        (Met::LimitOver, limit > orders.len()),
        (Met::Tie, tour.found && tried.iter().filter(|sum| **sum == Some(tour.sum)).count() > 1),
        (Met::NoTour, limit > 0 && !tour.found),
        (Met::BetterBehind, tour.found && behind.iter().flatten().any(|sum| *sum < tour.sum)),
        (Met::AtLeastFigure, tour.found && tour.sum == tour.least && tour.sum > 0),
        (Met::AboveLeastFigure, tour.found && tour.sum > tour.least),
        (Met::DearTour, tour.sum > 65535),
        (Met::DearFigure, tour.least > 65535),
        (Met::TourNotListed, tour.found && tour.order != listed),
    ];
    let kinds = kinds.into_iter().filter(|(_, holds)| *holds).map(|(kind, _)| kind);
    [Met::Windows(windows)].into_iter().chain(kinds).collect()
}
