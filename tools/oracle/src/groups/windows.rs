//! Windows of one sector (02, Job 13): what is tried in full, what is drawn, and what such lists have to meet.

use super::good::drawn;
use super::{Cases, Met};
use crate::cases::Case;
use crate::floors::{self, Costs, Rng, Step};
use crate::model::Model;
use crate::refusals::named_cells;
use crate::subject::*;

fn case(costs: Costs, steps: &[Step]) -> Case {
    Case { costs: costs.to_vec(), steps: steps.concat(), ..Case::of(Call::WindowCosts) }
}

/// A window of a sector: one cell, a few, any, or the whole edge. The goal byte, which is not read, is drawn now and then.
fn any_window(rng: &mut Rng, sector: usize) -> Step {
    let (boundary, first, more) = (rng.below(4), rng.below(10), 1 + rng.below(2));
    let mut step = match rng.below(10) {
        0..4 => floors::window_step(sector, boundary, first, first),
        4..7 => floors::window_step(sector, boundary, first, (first + more).min(9)),
        7..9 => floors::any_window(rng, sector, boundary),
        _ => floors::window_step(sector, boundary, 0, 9),
    };
    if rng.one_in(4) {
        step[1] = rng.draw() as u8;
    }
    step
}

/// So many windows of one sector; now and then the last is one of those before it.
pub(super) fn windows(rng: &mut Rng, count: usize) -> Vec<Step> {
    let sector = rng.below(64);
    let mut steps: Vec<Step> = (0..count).map(|_| any_window(rng, sector)).collect();
    if count > 1 && rng.one_in(8) {
        steps[count - 1] = rng.pick(&steps[..count - 1]);
    }
    steps
}

/// A floor with parts that are closed off, a snake that costs much, or one of any kind.
fn floor(rng: &mut Rng) -> Costs {
    match rng.below(5) {
        0 | 1 => floors::with_closed_parts(rng, 50),
        2 => floors::snake(rng.pick(&[1, 200, 254]), rng.one_in(2), rng.one_in(2)),
        _ => floors::any(rng),
    }
}

/// These windows on a floor, no wall under a window cell.
pub(super) fn on_floor(rng: &mut Rng, mut costs: Costs, steps: &[Step]) -> Case {
    steps.iter().for_each(|step| floors::open(rng, &mut costs, step));
    case(costs, steps)
}

/// Two to eight windows on a floor of any kind.
pub fn any_windows(rng: &mut Rng) -> Case {
    let count = 2 + rng.below(7);
    let (steps, costs) = (windows(rng, count), floor(rng));
    on_floor(rng, costs, &steps)
}

/// Every pair of windows, one after the other, on a floor whose costs are drawn.
fn every_pair(mut rng: Rng) -> impl Iterator<Item = Case> {
    let all = floors::all_windows();
    (0..all.len() * all.len()).map(move |pair| {
        let costs = std::array::from_fn(|_| rng.pick(&[1, 2, 3, 10, 20]));
        case(costs, &[all[pair / all.len()], all[pair % all.len()]])
    })
}

/// Every window with others on an open floor, on a snake and on a drawn one; every pair of windows, where as many inputs
/// are asked for; then a tenth of the inputs.
pub fn costs(rng: Rng, inputs: usize) -> Cases {
    let mut first = rng.clone();
    let full = floors::all_windows().into_iter().enumerate().flat_map(move |(k, step)| {
        let with_others = |rng: &mut Rng, costs: Costs| {
            let count = 2 + k % 7;
            let mut steps = windows(rng, count);
            steps.iter_mut().for_each(|other| other[0] = step[0]);
            steps[k % count] = step;
            on_floor(rng, costs, &steps)
        };
        let drawn = floor(&mut first);
        [floors::uniform(1), floors::snake(1, k % 2 == 0, k % 4 < 2), drawn].map(|costs| with_others(&mut first, costs))
    });
    let pairs = every_pair(rng.clone()).take(if inputs < 48_400 { 0 } else { 48_400 });
    Box::new(full.chain(pairs).chain(drawn(rng, inputs / 10, any_windows)))
}

/// Such windows that meet a kind.
pub fn windows_that_meet(rng: &mut Rng, kind: Met) -> Case {
    loop {
        let case = any_windows(rng);
        if met(&case).contains(&kind) {
            return case;
        }
    }
}

/// All that such lists must meet: each window, each number of windows and each kind.
pub(super) fn all() -> Vec<Met> {
    let windows = floors::all_windows();
    windows.iter().map(|step| window(step)).chain((2..=8).map(Met::Windows)).chain(window_kinds()).collect()
}

/// The kinds of lists and of costs.
pub fn window_kinds() -> [Met; 9] {
    [
        Met::Overlap,
        Met::SameWindow,
        Met::FourEdges,
        Met::CutOff,
        Met::Asymmetric,
        Met::FreeWay,
        Met::LeastBetween,
        Met::PastAnother,
        Met::DearWay,
    ]
}

fn window(step: &[u8]) -> Met {
    Met::Window { boundary: step[5], first: step[3], last: step[4] }
}

/// What an accepted list meets.
pub(super) fn met(case: &Case) -> Vec<Met> {
    let steps: Vec<&[u8]> = case.steps.chunks(8).collect();
    let listed: Vec<Vec<usize>> = steps.iter().map(|step| named_cells(step)).collect();
    let square = Model::PLAIN.costs_between_windows(&case.costs, &case.steps).square();
    let mut found: Vec<Met> = steps.iter().map(|step| window(step)).collect();
    let four = (0..4).all(|edge| steps.iter().any(|step| step[5] == edge));
    found.extend(four.then_some(Met::FourEdges));
    found.push(Met::Windows(steps.len()));
    for (i, j) in (0..steps.len()).flat_map(|i| (0..steps.len()).map(move |j| (i, j))).filter(|(i, j)| i != j) {
        let shared = listed[i].iter().any(|cell| listed[j].contains(cell));
        let cost = square[i][j];
        let kinds = [
            (Met::Overlap, shared && listed[i] != listed[j]),
            (Met::SameWindow, listed[i] == listed[j]),
            (Met::CutOff, cost == 65535),
            (Met::Asymmetric, cost != square[j][i]),
            (Met::FreeWay, cost == 0 && !shared),
            (Met::DearWay, (10_000..65535).contains(&cost)),
        ];
        found.extend(kinds.into_iter().filter(|(_, holds)| *holds).map(|(kind, _)| kind));
    }
    found.extend(least_between(&case.costs, steps[0], steps[1]).then_some(Met::LeastBetween));
    found.extend(past_another(&case.costs, &steps, &listed).then_some(Met::PastAnother));
    found.sort();
    found.dedup();
    found
}

/// The cost from one window to another.
fn cost(costs: &[u8], from: &[u8], to: &[u8]) -> u32 {
    Model::PLAIN.costs_between_windows(costs, &[from, to].concat()).rows[0].costs[1]
}

/// Whether the way is cheaper from a cell between than from both ends of the first window.
fn least_between(costs: &[u8], from: &[u8], to: &[u8]) -> bool {
    let end = |byte: usize| [0, 0, 1, from[byte], from[byte], from[5], 0, 0];
    cost(costs, from, to) < cost(costs, &end(3), to).min(cost(costs, &end(4), to))
}

/// Whether the cheapest way from the first window to the second passes a cell of another.
fn past_another(costs: &[u8], steps: &[&[u8]], listed: &[Vec<usize>]) -> bool {
    let mut barred = costs.to_vec();
    let others = listed[2..].iter().flatten().filter(|cell| !listed[..2].concat().contains(cell));
    others.for_each(|cell| barred[*cell] = 255);
    cost(costs, steps[0], steps[1]) < cost(&barred, steps[0], steps[1])
}
