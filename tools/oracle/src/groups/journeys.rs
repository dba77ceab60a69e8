//! Legs that are planned, to be followed from every reached cell to the goal's sector (02, Job 4).

use super::good::{drawn, leg_sheet};
use super::{Cases, Compared};
use crate::cases::{Case, Outcome};
use crate::floors::{self, Rng, drawn_window};
use crate::journey::{End, PlannedLeg};
use crate::judges;
use crate::model::Model;
use crate::oracle::Oracle;
use crate::subject::*;

/// Where a step's sector stands in a floor.
fn part(step: &[u8]) -> std::ops::Range<usize> {
    usize::from(step[0]) * CELLS..(usize::from(step[0]) + 1) * CELLS
}

/// A sector without a cost 0, with walls on at most so many of a hundred cells, and now and then parts closed off.
fn sector(rng: &mut Rng, most: usize) -> floors::Costs {
    let any: Vec<u8> = (1..255).collect();
    let others = rng.pick(&[&[1][..], &[1, 2, 10], &[1, 254], &any]);
    let costs = if rng.one_in(4) { floors::with_closed_parts(rng, most) } else { floors::walls(rng, most, others) };
    costs.map(|cost| cost.max(1))
}

/// Draws once more what closes the step at a place, from 0: its window, or the sector before it.
fn redraw(rng: &mut Rng, case: &mut Case, at: usize, most: usize) {
    let (before, step) = (8 * (at - 1), 8 * at..8 * (at + 1));
    if rng.one_in(4) {
        let place = part(&case.steps[before..]);
        case.costs[place].copy_from_slice(&sector(rng, most));
    } else {
        let (sector, boundary) = (case.steps[8 * at].into(), case.steps[8 * at + 5].into());
        case.steps[step].copy_from_slice(&drawn_window(rng, sector, boundary));
    }
    floors::open_leg(rng, &mut case.costs, &case.steps);
}

/// A leg that is planned, of 16 steps one time in two, with walls on at most 40 of a hundred cells. The goal's sector,
/// which is not walked through, has costs 0 one time in four.
fn journey_leg(rng: &mut Rng) -> Case {
    let (most, sheet) = (rng.below(41), leg_sheet(rng));
    let steps = if rng.one_in(2) { 16 } else { 2 + rng.below(15) };
    let costs = (0..64).flat_map(|_| sector(rng, most)).collect();
    let mut case = Case { costs, steps: floors::leg_of(rng, steps), sheet, ..Case::of(Call::Leg) };
    floors::open_leg(rng, &mut case.costs, &case.steps);
    loop {
        let plan = Model::PLAIN.plan(&case.costs, &case.steps);
        if !plan.closed {
            break;
        }
        redraw(rng, &mut case, plan.steps.len(), most);
    }
    if rng.one_in(4) {
        let goals = part(&case.steps);
        case.costs[goals].iter_mut().filter(|cost| **cost == 1 && rng.one_in(2)).for_each(|cost| *cost = 0);
    }
    case
}

/// A leg of so many steps through whole edges, along rows of sectors that are all one snake.
fn snake_leg(rng: &mut Rng, steps: usize, kind: usize) -> Case {
    let snake = floors::snake(1, kind.is_multiple_of(2), kind < 2);
    let mut case = Case { costs: snake.repeat(64), steps: floors::straight_leg(steps), ..Case::of(Call::Leg) };
    floors::open_leg(rng, &mut case.costs, &case.steps);
    Case { sheet: leg_sheet(rng), ..case }
}

/// Legs of 2 to 16 steps over four snakes, then a twentieth of the inputs, as of legs.
pub fn journeys(rng: Rng, inputs: usize) -> Cases {
    let mut first = rng.clone();
    let snakes = (2..=16).flat_map(|steps| (0..4).map(move |kind| (steps, kind)));
    let full = snakes.map(move |(steps, kind)| snake_leg(&mut first, steps, kind));
    Box::new(full.chain(drawn(rng, inputs / 20, journey_leg)))
}

/// Compares the number of a leg and what is done to lent memory, and follows the arrows that the side wrote over the
/// fields that the leg's judge builds. The other groups of legs compare the bytes.
pub(super) fn compared(case: &Case, side: &dyn Subject) -> Compared {
    let (due, judges) = judges::during(|| case.run(&Oracle));
    let outcome = case.run(side);
    let mut found = due.differences(&Outcome { sheet: due.sheet.clone(), ..outcome.clone() });
    let mut followed = Default::default();
    if due.number == 0 && outcome.number == 0 {
        let built = Oracle.built_steps(true, &case.costs, &case.steps);
        let (floor, steps, sheet) = (&case.costs, &case.steps, &outcome.sheet);
        let leg = PlannedLeg { floor, steps, built: &built, sheet, end: End::GoalsSector };
        match leg.journeys() {
            Ok(journeys) => followed = journeys,
            Err(fault) => found.push(fault),
        }
    }
    Compared { followed, ..Compared::of(due, outcome, judges, found) }
}
