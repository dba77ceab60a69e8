//! Practice floors.

use crate::{CELLS, sys};

/// A practice floor: the same wherever it is made.
#[repr(C)]
#[derive(Clone, Copy, Debug, PartialEq, Eq)]
pub struct PracticeFloor {
    /// A cost for each cell by index: 1, 10 or 255.
    pub costs: [u8; CELLS],
    /// The goal's index; its cell costs 1.
    pub goal: u8,
}

/// The practice floor of a seed. Every seed is taken.
///
/// # Examples
///
/// ```
/// use hanjolum::{CELLS, Step};
///
/// let floor = hanjolum::practice_floor(2026);
/// assert_eq!((floor.goal, floor.costs[88]), (88, 1));
/// hanjolum::sector_without_sight(&floor.costs, Step::goal(0, floor.goal), None, &mut [0; CELLS])?;
/// # Ok::<(), hanjolum::Refusal>(())
/// ```
pub fn practice_floor(seed: u32) -> PracticeFloor {
    // SAFETY: it takes any seed.
    unsafe { sys::hanjolum_practice_floor(seed) }
}
