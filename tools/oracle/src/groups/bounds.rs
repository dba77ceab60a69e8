//! Two floors and a window step (02, Job 9): what is tried in full, what is drawn, and what such inputs have to meet.

use super::good::drawn;
use super::{Cases, Met};
use crate::cases::Case;
use crate::floors::{self, Costs, Rng, Step};
use crate::model::Model;
use crate::refusals::named_cells;
use crate::subject::*;

fn case(low: Costs, high: Costs, step: Step) -> Case {
    Case { costs: low.to_vec(), high: high.to_vec(), steps: step.to_vec(), ..Case::of(Call::Bounds) }
}

/// A high floor over a low one: the same; a few cells dearer; each cell a little; any; a block of cells; or all at 254.
/// Walls stay walls.
fn above(rng: &mut Rng, low: &Costs) -> Costs {
    let kind = rng.below(6);
    let (few, most) = (1 + rng.below(12), rng.pick(&[1, 1, 2, 5, 20]));
    let [left, top] = [0; 2].map(|_| rng.below(10));
    let [right, bottom] = [left, top].map(|from| from + rng.below(10 - from));
    let inside = |cell: usize| (left..=right).contains(&(cell % 10)) && (top..=bottom).contains(&(cell / 10));
    std::array::from_fn(|cell| {
        let from = low[cell];
        let room = usize::from(254u8.saturating_sub(from));
        let wider = match kind {
            0 => 0,
            1 if rng.below(CELLS) < few => rng.below(room + 1),
            1 => 0,
            2 => rng.below(most + 1).min(room),
            3 => rng.below(room + 1),
            4 if inside(cell) => rng.pick(&[1, 2, 10, 254]).min(room),
            4 => 0,
            _ => room,
        };
        from + wider as u8
    })
}

/// Two floors for a step, no wall under its goal or a window cell.
pub(super) fn two_floors(rng: &mut Rng, step: Step) -> Case {
    let mut low = floors::any(rng);
    floors::open(rng, &mut low, &step);
    let high = above(rng, &low);
    case(low, high, step)
}

/// A window; the goal byte, which is not read, is drawn now and then.
pub(super) fn any_window(rng: &mut Rng) -> Step {
    let mut step = rng.pick(&floors::all_windows());
    step[0] = rng.below(64) as u8;
    if rng.one_in(4) {
        step[1] = rng.draw() as u8;
    }
    step
}

/// Every window on floors of one cost and of one range, on a snake and on a floor that is drawn; then a twentieth of the
/// inputs, since many floors are built for each.
pub fn bounds(rng: Rng, inputs: usize) -> Cases {
    let mut first = rng.clone();
    let full = floors::all_windows().into_iter().enumerate().flat_map(move |(k, step)| {
        let mut snake = floors::snake(1, k % 2 == 0, k % 4 < 2);
        floors::open(&mut first, &mut snake, &step);
        let wider = above(&mut first, &snake);
        let ranges =
            [(1, 1), (1, 2), (0, 254)].map(|(low, high)| case(floors::uniform(low), floors::uniform(high), step));
        ranges.into_iter().chain([case(snake, wider, step), two_floors(&mut first, step)])
    });
    Box::new(full.chain(drawn(rng, inputs / 20, any_floors)))
}

/// Two floors and a window of any kind.
pub fn any_floors(rng: &mut Rng) -> Case {
    let step = any_window(rng);
    two_floors(rng, step)
}

/// Such floors that meet a kind.
pub fn floors_that_meet(rng: &mut Rng, kind: Met) -> Case {
    loop {
        let case = any_floors(rng);
        if met(&case).contains(&kind) {
            return case;
        }
    }
}

/// All that such inputs must meet: each window and each kind.
pub(super) fn all() -> Vec<Met> {
    floors::all_windows().into_iter().map(window).chain(range_kinds()).collect()
}

/// The kinds of cells, and of floors.
pub fn range_kinds() -> [Met; 11] {
    [
        Met::SureByWindow,
        Met::SureByDiagonalWindow,
        Met::SureByCosts,
        Met::SureByOne,
        Met::SureDiagonal,
        Met::EqualNotSure,
        Met::OneArrowNotSure,
        Met::OtherArrow,
        Met::WindowBarred,
        Met::ClosedOff,
        Met::CostZero,
    ]
}

fn window(step: Step) -> Met {
    Met::Window { boundary: step[5], first: step[3], last: step[4] }
}

/// The neighbours of a cell, whether each is permitted, and whether it lies straight ahead. By columns and rows.
fn around(costs: &[u8], cell: usize) -> Vec<(usize, bool, bool)> {
    let at = |column: i32, row: i32| {
        let inside = (0..10).contains(&column) && (0..10).contains(&row);
        inside.then_some((10 * row + column) as usize)
    };
    let (column, row) = (cell as i32 % 10, cell as i32 / 10);
    let wall = |cell: Option<usize>| cell.is_some_and(|cell| costs[cell] == 255);
    let ways = (-1..=1).flat_map(|x| (-1..=1).map(move |y| (x, y))).filter(|way| *way != (0, 0));
    let seen = ways.filter_map(|(x, y)| {
        let there = at(column + x, row + y)?;
        let barred = x != 0 && y != 0 && (wall(at(column + x, row)) || wall(at(column, row + y)));
        Some((there, !wall(Some(there)) && !barred, x == 0 || y == 0))
    });
    seen.collect()
}

/// What an accepted input meets.
pub(super) fn met(case: &Case) -> Vec<Met> {
    let (low, high) = (&case.costs, &case.high);
    let step = Step::try_from(&case.steps[..]).expect("a step of eight bytes");
    let bounds = Model::PLAIN.bounds_between(low, high, &step);
    let arrows = [low, high].map(|costs| Model::PLAIN.planned(costs, &step, None).2.map(|byte| byte % 16));
    let named = named_cells(&step);
    let floor = (0..CELLS).filter(|cell| low[*cell] != 255 && !named.contains(cell));
    let mut found: Vec<Met> = floor.flat_map(|cell| met_at(low, &bounds, &named, &arrows, cell)).collect();
    found.extend([window([0, 0, 1, step[3], step[4], step[5], 0, 0])]);
    found.extend(low.contains(&0).then_some(Met::CostZero));
    found.sort();
    found.dedup();
    found
}

/// What a cell meets that is neither wall nor window cell.
fn met_at(low: &[u8], bounds: &Bounds, named: &[usize], arrows: &[[u8; CELLS]; 2], cell: usize) -> Vec<Met> {
    let around = around(low, cell);
    let permitted: Vec<usize> =
        around.iter().filter(|(_, permitted, _)| *permitted).map(|(there, ..)| *there).collect();
    let beside = |straight: bool, allowed: bool| {
        around.iter().any(|(there, permitted, way)| (*permitted, *way) == (allowed, straight) && named.contains(there))
    };
    let others = |one: usize| permitted.iter().filter(move |other| **other != one);
    let Bounds { least, greatest, .. } = bounds;
    let equal = |one: &usize| others(*one).all(|other| greatest[*one] <= least[*other]);
    let (sure, reached) = (bounds.sure[cell], least[cell] < 65535);
    let same = arrows[0][cell] == arrows[1][cell];
    let by_window = beside(true, true) || beside(false, true);
    let kinds = [
        (Met::SureByWindow, sure && beside(true, true)),
        (Met::SureByDiagonalWindow, sure && beside(false, true) && !beside(true, true)),
        (Met::SureByCosts, sure && !by_window && permitted.len() > 1),
        (Met::SureByOne, sure && !by_window && permitted.len() == 1),
        (Met::SureDiagonal, sure && arrows[0][cell].count_ones() == 2),
        (Met::EqualNotSure, !sure && reached && permitted.iter().any(equal)),
        (Met::OneArrowNotSure, !sure && reached && same),
        (Met::OtherArrow, !sure && reached && !same),
        (Met::WindowBarred, !sure && reached && beside(false, false)),
        (Met::ClosedOff, !reached && !permitted.is_empty()),
    ];
    kinds.into_iter().filter(|(_, holds)| *holds).map(|(kind, _)| kind).collect()
}
