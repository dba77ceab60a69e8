//! Integration fields: what they hold, and the two calls that make one by hand.

use crate::{CELLS, Refusal, UNREACHED, sys, unless_refused};

/// 100 cells by index, the corners that building starts from, and each cell's position in their list once it is built.
#[repr(C)]
#[derive(Clone, Copy, Debug, PartialEq, Eq)]
pub struct IntegrationField {
    /// The cost in the low 16 bits (65535: not reached), flags above.
    pub field: [u32; CELLS],
    /// The indexes of the corners: `count` of them, 0 beyond.
    pub los_corners: [u64; CELLS],
    /// How many corners are listed.
    pub count: u64,
    /// The place, in the list of corners, of the one that the cell belongs to; 255 for none.
    pub positions: [u8; CELLS],
}

impl IntegrationField {
    /// The cost of a cell; none where nothing reaches it, and for an index over 99.
    ///
    /// # Examples
    ///
    /// ```
    /// use hanjolum::{CELLS, Step, WALL};
    ///
    /// let mut costs = [1; CELLS];
    /// costs[1] = WALL;
    /// let built = hanjolum::sector_without_sight(&costs, Step::goal(0, 0), None, &mut [0; CELLS])?;
    /// // Cell 2 is reached round the wall, by 10, 11 and 12.
    /// assert_eq!([0, 1, 2].map(|cell| built.field.cost(cell)), [Some(0), None, Some(4)]);
    /// # Ok::<(), hanjolum::Refusal>(())
    /// ```
    pub fn cost(&self, cell: usize) -> Option<u32> {
        self.field.get(cell).map(|word| word & UNREACHED).filter(|cost| *cost != UNREACHED)
    }

    /// The corner that a cell belongs to, by its index; in a sector left by a window that is the window cell that is its door.
    /// None where its position is 255, and for an index over 99.
    ///
    /// # Examples
    ///
    /// ```
    /// use hanjolum::{Boundary, CELLS, Step};
    ///
    /// // A sector that is left westward, by a window from cell 30 to cell 60.
    /// let window = Step::window(10, Boundary::West, 30, 60);
    /// let built = hanjolum::sector(&[1; CELLS], window, Some(&[0; CELLS]), &mut [0; CELLS])?;
    /// assert_eq!([49, 0, 99].map(|cell| built.field.corner_of(cell)), [Some(40), Some(30), Some(60)]);
    /// # Ok::<(), hanjolum::Refusal>(())
    /// ```
    pub fn corner_of(&self, cell: usize) -> Option<usize> {
        let position = usize::from(*self.positions.get(cell)?);
        let listed = self.los_corners.iter().zip(0..self.count);
        listed.map(|(corner, _)| *corner as usize).nth(position)
    }
}

/// A built field, and how many waves changed a cell.
#[derive(Clone, Copy, Debug, PartialEq, Eq)]
pub struct Built {
    /// The built field. Its `field` is the previous field of the sector that leads here.
    pub field: IntegrationField,
    /// How many waves changed a cell.
    pub waves: usize,
}

impl Built {
    /// What a call answered, unless it was refused.
    pub(crate) fn of(answer: sys::BuildAnswer) -> Result<Built, Refusal> {
        unless_refused(answer.number, Built { field: answer.field, waves: answer.waves as usize })
    }
}

/// The field that a step starts on 100 cost bytes: walls, and the goal with what is in its sight, or the window cells. No cell has
/// a position yet. [`sector`](crate::sector) makes this call and [`build`] in one.
///
/// # Errors
///
/// The first of these that holds, in this order:
/// - [`Refusal::CostBytes`]: `costs` is not 100 bytes
/// - [`Refusal::StepList`]: `step` is not 8 bytes
#[doc = include_str!("errors/step.md")]
/// - [`Refusal::OnWall`]: its goal, or a cell of its window, is a wall (cost 255)
///
/// # Examples
///
/// ```
/// use hanjolum::{CELLS, Refusal, Step};
///
/// let started = hanjolum::init(&[1; CELLS], Step::goal(0, 44))?;
/// assert_eq!((started.cost(44), started.cost(45)), (Some(0), Some(1)));
/// assert_eq!(hanjolum::init(&[1; 99], Step::goal(0, 44)), Err(Refusal::CostBytes));
/// # Ok::<(), hanjolum::Refusal>(())
/// ```
pub fn init(costs: &[u8], step: impl AsRef<[u8]>) -> Result<IntegrationField, Refusal> {
    let step = step.as_ref();
    // SAFETY: each pointer with its length is a live slice.
    let answer = unsafe { sys::hanjolum_init(costs.as_ptr(), costs.len(), step.as_ptr(), step.len()) };
    unless_refused(answer.number, answer.field)
}

/// A field, started by [`init`] or given by hand, built on 100 cost bytes. Walls are the cells that the field has as such, whatever
/// they cost.
///
/// # Errors
///
/// The first of these that holds, in this order:
/// - [`Refusal::CostBytes`]: `costs` is not 100 bytes
/// - [`Refusal::Corners`]: the field lists over 100 corners, or a corner over 99
///
/// # Examples
///
/// ```
/// use hanjolum::{Boundary, CELLS, Step};
///
/// let (costs, window) = ([1; CELLS], Step::window(0, Boundary::East, 9, 99));
/// let built = hanjolum::build(&costs, hanjolum::init(&costs, window)?)?;
/// assert_eq!((built.field.cost(0), built.waves), (Some(9), 9));
/// # Ok::<(), hanjolum::Refusal>(())
/// ```
pub fn build(costs: &[u8], field: IntegrationField) -> Result<Built, Refusal> {
    // SAFETY: the pointer with its length is a live slice.
    Built::of(unsafe { sys::hanjolum_build(costs.as_ptr(), costs.len(), field) })
}
