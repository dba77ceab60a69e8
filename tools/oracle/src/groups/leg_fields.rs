//! Fields of a leg's steps (our own addition): legs of the other groups with a place of the list, and what such inputs have to
//! meet.

use std::fmt;

use super::good::drawn;
use super::{Cases, Met, bad, good, legs};
use crate::cases::{Ask, Case};
use crate::floors::Rng;
use crate::model::{CLOSED, Model};
use crate::refusals::{Given, NO_STEP_THERE, number};
use crate::subject::*;

/// What a field of a leg's step meets.
#[derive(Clone, Copy, PartialEq, Eq, PartialOrd, Ord, Debug)]
pub enum Field {
    /// The first step, the last of several, one between.
    First,
    Last,
    Between,
    /// A window there in which some cell does not count.
    SomeCount,
    /// 15 due at a step before the place, at it, behind it.
    ClosedBefore,
    ClosedThere,
    ClosedBehind,
    /// 21 where another number, or none, would be due without it.
    InsteadOf(u8),
}

impl fmt::Display for Field {
    fn fmt(&self, f: &mut fmt::Formatter) -> fmt::Result {
        match self {
            Field::First => write!(f, "the first step"),
            Field::Last => write!(f, "the last of several"),
            Field::Between => write!(f, "one between"),
            Field::SomeCount => write!(f, "a cell there that does not count"),
            Field::ClosedBefore => write!(f, "15 before the place"),
            Field::ClosedThere => write!(f, "15 at the place"),
            Field::ClosedBehind => write!(f, "15 behind the place"),
            Field::InsteadOf(0) => write!(f, "21 alone"),
            Field::InsteadOf(number) => write!(f, "21 before {number}"),
        }
    }
}

/// The field of a step of a leg.
pub fn asked(leg: Case, place: usize) -> Case {
    Case { ask: Ask::One(Call::LegField), place, sheet: Vec::new(), ..leg }
}

/// The same at a place that is drawn from the list.
fn at_any_place(rng: &mut Rng, leg: Case) -> Case {
    let place = rng.below(leg.steps.len() / 8);
    asked(leg, place)
}

/// Legs of 1 to 16 steps in which every window cell counts at each of their places, then legs as they are drawn elsewhere.
pub fn fields(rng: Rng, inputs: usize) -> Cases {
    let (mut first, mut place) = (rng.clone(), rng.clone());
    let counting = (2..=16).map(move |steps| legs::leg_that_counts(&mut first, steps));
    let full = counting.flat_map(|leg| (0..leg.steps.len() / 8).map(move |place| asked(leg.clone(), place)));
    Box::new(full.chain(good::legs(rng, inputs).map(move |leg| at_any_place(&mut place, leg))))
}

/// 15 at each step of each number of steps, asked at each place where there are up to five steps, else at one, then legs of
/// any kind with gaps.
pub fn gaps(rng: Rng, inputs: usize) -> Cases {
    let mut place = rng.clone();
    Box::new(legs::gaps(rng, inputs).flat_map(move |leg| {
        let steps = leg.steps.len() / 8;
        let places = if steps <= 5 { (0..steps).collect() } else { vec![place.below(steps)] };
        places.into_iter().map(move |place| asked(leg.clone(), place))
    }))
}

/// A leg of which the table refuses many, at any place, in the list or beyond it.
fn bad_field(rng: &mut Rng) -> Case {
    let leg = bad::bad_leg(rng);
    let steps = leg.steps.len() / 8;
    let place = match rng.below(4) {
        0 => steps + rng.below(2),
        1 => rng.pick(&[15, 16, 17, 255, 256, 257, 1 << 32, usize::MAX]),
        _ => rng.below(steps.max(1)),
    };
    asked(leg, place)
}

pub fn bad_fields(rng: Rng, inputs: usize) -> Cases {
    Box::new(drawn(rng, inputs / 10, bad_field))
}

/// What fields of legs with gaps must meet.
pub fn field_kinds() -> Vec<Met> {
    let places = [Field::First, Field::Last, Field::Between, Field::SomeCount];
    let closed = [Field::ClosedBefore, Field::ClosedThere, Field::ClosedBehind];
    places.into_iter().chain(closed).map(Met::Field).collect()
}

/// What refused ones must.
pub fn refused_kinds() -> Vec<Met> {
    [0, 4, 5, 6, 7, 8, 9, 10, CLOSED, 16].into_iter().map(|number| Met::Field(Field::InsteadOf(number))).collect()
}

fn given(case: &Case) -> Given<'_> {
    let (costs, steps, place) = (Some(&case.costs[..]), Some(&case.steps[..]), Some(case.place));
    Given { leg: true, costs, steps, place, ..Given::default() }
}

/// What a field meets that the table takes.
fn met_by_taken(case: &Case) -> Vec<Field> {
    let plan = Model::PLAIN.plan_by(case.call() == Call::LegField, &case.costs, &case.steps);
    let (steps, planned) = (case.steps.len() / 8, plan.steps.len());
    if plan.closed {
        return vec![match planned.cmp(&case.place) {
            std::cmp::Ordering::Less => Field::ClosedBefore,
            std::cmp::Ordering::Equal => Field::ClosedThere,
            std::cmp::Ordering::Greater => Field::ClosedBehind,
        }];
    }
    let place = match case.place {
        0 => Field::First,
        place if place + 1 == steps => Field::Last,
        _ => Field::Between,
    };
    let step = &plan.steps[case.place];
    [place].into_iter().chain((step.counting != step.window).then_some(Field::SomeCount)).collect()
}

pub(super) fn met(case: &Case) -> Vec<Met> {
    let given = given(case);
    let found = match number(&given) {
        0 => met_by_taken(case),
        NO_STEP_THERE => {
            let other = match number(&Given { place: None, ..given }) {
                0 if Model::PLAIN.plan_by(case.call() == Call::LegField, &case.costs, &case.steps).closed => CLOSED,
                other => other,
            };
            vec![Field::InsteadOf(other)]
        }
        _ => Vec::new(),
    };
    found.into_iter().map(Met::Field).collect()
}

/// A drawn field with sight that meets a kind.
pub fn field_that_meets(rng: &mut Rng, kind: Met) -> Case {
    loop {
        let leg = if rng.one_in(2) { legs::gap_leg(rng) } else { legs::closed_leg(rng, 4, 3) };
        let case = if refused_kinds().contains(&kind) { bad_field(rng) } else { at_any_place(rng, leg) };
        if met(&case).contains(&kind) {
            return case;
        }
    }
}
