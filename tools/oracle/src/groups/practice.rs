//! Practice floors: the seeds that document 02, Job 6, is tried on.

use super::good::drawn;
use super::{Cases, Met};
use crate::cases::Case;
use crate::floors::Rng;
use crate::model::Model;
use crate::subject::Call;

/// The seeds that are named: none, one, the number that is added, and the greatest.
pub const NAMED: [u32; 4] = [0, 1, 2_654_435_769, u32::MAX];

fn case(seed: u32) -> Case {
    Case { seed, ..Case::of(Call::PracticeFloor) }
}

/// The seeds that are named; every seed of 16 bits and the last 65,536; each power of two and its neighbours; then any.
pub fn floors(rng: Rng, inputs: usize) -> Cases {
    let powers = (0..32).flat_map(|k| [(1u32 << k) - 1, 1 << k, (1 << k) + 1]);
    let ends = (0..=u32::from(u16::MAX)).flat_map(|seed| [seed, u32::MAX - seed]);
    let full = NAMED.into_iter().chain(powers).chain(ends.take(2 * inputs));
    Box::new(full.map(case).chain(drawn(rng, inputs, |rng| case((rng.draw() >> 32) as u32))))
}

/// The costs that a goal's cell is drawn with, goals of one and of two digits.
pub(super) fn all() -> Vec<Met> {
    [1, 10, 255].map(Met::GoalDrawnAs).into_iter().chain([Met::GoalDigits(1), Met::GoalDigits(2)]).collect()
}

pub(super) fn met(case: &Case) -> Vec<Met> {
    let drawn = Model::PLAIN.drawn(case.seed);
    let digits = if drawn.goal < 10 { 1 } else { 2 };
    vec![Met::GoalDrawnAs(drawn.costs[usize::from(drawn.goal)]), Met::GoalDigits(digits)]
}
