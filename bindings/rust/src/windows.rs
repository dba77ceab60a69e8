//! The windows of one sector: bounds of the costs to one of them, costs from each to each, and tours.

use crate::{CELLS, Refusal, STEP, WINDOWS, sys, unless_refused};

/// Bounds of the built costs of each cell over all floors between two.
#[derive(Clone, Copy, Debug, PartialEq, Eq)]
pub struct Bounds {
    /// The least; [`UNREACHED`](crate::UNREACHED) for a wall or a cell that nothing reaches.
    pub least: [u32; CELLS],
    /// The greatest.
    pub greatest: [u32; CELLS],
    /// Whether the cell's arrow is the same on all of them.
    pub sure: [bool; CELLS],
}

/// Bounds of built costs where costs are known only as from-to: two cost fields of 100 bytes and a step with a window.
///
/// # Errors
///
/// The first of these that holds, in this order:
/// - [`Refusal::CostBytes`]: `low` or `high` is not 100 bytes
/// - [`Refusal::StepList`]: `step` is not 8 bytes
#[doc = include_str!("errors/step.md")]
/// - [`Refusal::OnWall`]: its goal, or a cell of its window, is a wall (cost 255) in `low` or in `high`
/// - [`Refusal::BoundsInput`]: it has no window, `low` is above `high` somewhere, or 255 is in only one of the two
///
/// # Examples
///
/// ```
/// use hanjolum::{Boundary, CELLS, Refusal, Step};
///
/// let window = Step::window(0, Boundary::East, 9, 99);
/// let found = hanjolum::bounds(&[1; CELLS], &[3; CELLS], window)?;
/// assert_eq!((found.least[0], found.greatest[0], found.sure[8]), (9, 27, true));
/// assert_eq!(hanjolum::bounds(&[3; CELLS], &[1; CELLS], window), Err(Refusal::BoundsInput));
/// # Ok::<(), hanjolum::Refusal>(())
/// ```
pub fn bounds(low: &[u8], high: &[u8], step: impl AsRef<[u8]>) -> Result<Bounds, Refusal> {
    let step = step.as_ref();
    // SAFETY: each pointer with its length is a live slice.
    let answer =
        unsafe { sys::hanjolum_bounds(low.as_ptr(), low.len(), high.as_ptr(), high.len(), step.as_ptr(), step.len()) };
    unless_refused(answer.number, Bounds { least: answer.least, greatest: answer.greatest, sure: answer.sure })
}

/// From one window to each of eight, in their places.
#[repr(C)]
#[derive(Clone, Copy, Debug, PartialEq, Eq)]
pub struct WindowRow {
    /// The cost to each window; [`UNREACHED`](crate::UNREACHED) where no walk leads there, and beyond the last window.
    pub costs: [u32; WINDOWS],
}

/// Costs from window to window inside one sector, for 2 to 8 steps with a window: from window i to window j in row i at
/// place j.
///
/// # Errors
///
#[doc = include_str!("errors/windows.md")]
#[doc = include_str!("errors/step.md")]
#[doc = include_str!("errors/windows_end.md")]
///
/// # Examples
///
/// ```
/// use hanjolum::{Boundary, CELLS, Refusal, Step, Steps};
///
/// let windows = [
///     Step::window(0, Boundary::East, 9, 99),
///     Step::window(0, Boundary::West, 0, 90),
///     Step::window(0, Boundary::North, 5, 5),
/// ];
/// let rows = hanjolum::window_costs(&[1; CELLS], Steps::new(&windows)?)?;
/// assert_eq!(rows[0].costs[..3], [0, 9, 4]);
/// assert_eq!(hanjolum::window_costs(&[1; CELLS], windows[0]), Err(Refusal::WindowCount));
/// # Ok::<(), hanjolum::Refusal>(())
/// ```
pub fn window_costs(costs: &[u8], steps: impl AsRef<[u8]>) -> Result<[WindowRow; WINDOWS], Refusal> {
    let steps = steps.as_ref();
    // SAFETY: each pointer with its length is a live slice.
    let answer = unsafe { sys::hanjolum_window_costs(costs.as_ptr(), costs.len(), steps.as_ptr(), steps.len()) };
    unless_refused(answer.number, answer.rows)
}

/// The best order tried.
#[derive(Clone, Copy, Debug, PartialEq, Eq)]
pub struct Order {
    windows: [u8; WINDOWS],
    count: usize,
    /// The sum of its costs.
    pub sum: u32,
}

impl Order {
    /// All window numbers, 0 leading.
    ///
    /// # Examples
    ///
    /// ```
    /// use hanjolum::{Boundary, CELLS, Step, Steps};
    ///
    /// let windows = Steps::new(&[Step::window(0, Boundary::East, 9, 99), Step::window(0, Boundary::West, 0, 90)])?;
    /// let tour = hanjolum::window_tour(&[1; CELLS], windows, u16::MAX)?;
    /// assert_eq!(tour.best.expect("the floor is bare").windows(), [0, 1]);
    /// # Ok::<(), hanjolum::Refusal>(())
    /// ```
    pub fn windows(&self) -> &[u8] {
        &self.windows[..self.count]
    }
}

/// A tour of windows.
#[derive(Clone, Copy, Debug, PartialEq, Eq)]
pub struct Tour {
    /// The best order tried; none where none of those tried counts.
    pub best: Option<Order>,
    /// How many orders were tried.
    pub tried: u32,
    /// A figure that no order's sum goes under.
    pub least: u32,
}

/// A tour of the same windows: from the first, each other once, no way back, with the smallest sum of [`window_costs`]' costs
/// among the first `limit` orders. Of n windows there are (n - 1)! orders, 5,040 of eight; with that limit it is the best there is.
///
/// # Errors
///
#[doc = include_str!("errors/windows.md")]
#[doc = include_str!("errors/step.md")]
#[doc = include_str!("errors/windows_end.md")]
///
/// # Examples
///
/// ```
/// use hanjolum::{Boundary, CELLS, Step, Steps};
///
/// let windows = Steps::new(&[
///     Step::window(0, Boundary::East, 9, 99),
///     Step::window(0, Boundary::West, 0, 90),
///     Step::window(0, Boundary::North, 5, 5),
/// ])?;
/// let tour = hanjolum::window_tour(&[1; CELLS], windows, u16::MAX)?;
/// let best = tour.best.expect("the floor is bare: every order counts");
/// assert_eq!((best.windows(), best.sum, tour.tried), (&[0, 2, 1][..], 9, 2));
/// # Ok::<(), hanjolum::Refusal>(())
/// ```
pub fn window_tour(costs: &[u8], steps: impl AsRef<[u8]>, limit: u16) -> Result<Tour, Refusal> {
    let steps = steps.as_ref();
    // SAFETY: each pointer with its length is a live slice.
    let answer = unsafe { sys::hanjolum_window_tour(costs.as_ptr(), costs.len(), steps.as_ptr(), steps.len(), limit) };
    let order = Order { windows: answer.order, count: WINDOWS.min(steps.len() / STEP), sum: answer.sum };
    unless_refused(
        answer.number,
        Tour { best: answer.found.then_some(order), tried: answer.tried, least: answer.least },
    )
}
