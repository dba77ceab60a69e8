//! Lines of cells inside a sector.

use crate::{Refusal, sys, unless_refused};

/// A cell by its column and its row, both 0 to 9; row 0 is north.
#[repr(C)]
#[derive(Clone, Copy, Debug, Default, PartialEq, Eq, Hash)]
pub struct FieldCell {
    /// The column.
    pub column: u64,
    /// The row.
    pub row: u64,
}

/// The cells of a line, from source to target.
#[derive(Clone, Copy, Debug, PartialEq, Eq)]
pub struct Line {
    cells: [FieldCell; 10],
    count: usize,
}

impl Line {
    /// The cells in order.
    ///
    /// # Examples
    ///
    /// ```
    /// use hanjolum::FieldCell;
    ///
    /// let line = hanjolum::line(FieldCell { column: 2, row: 5 }, FieldCell { column: 0, row: 5 })?;
    /// assert_eq!(line.cells().iter().map(|cell| cell.column).collect::<Vec<_>>(), [2, 1, 0]);
    /// # Ok::<(), hanjolum::Refusal>(())
    /// ```
    pub fn cells(&self) -> &[FieldCell] {
        self.cells.get(..self.count).unwrap_or(&self.cells)
    }

    /// What a call answered, unless it was refused.
    fn of(answer: sys::Line) -> Result<Line, Refusal> {
        unless_refused(answer.number, Line { cells: answer.cells, count: answer.count as usize })
    }
}

/// The cells of the line from a source to a target, both among them: 1 to 10 cells.
///
/// # Errors
///
#[doc = include_str!("errors/line.md")]
///
/// # Examples
///
/// ```
/// use hanjolum::{FieldCell, Refusal};
///
/// let cell = |column, row| FieldCell { column, row };
/// let line = hanjolum::line(cell(0, 0), cell(3, 1))?;
/// assert_eq!(line.cells(), [cell(0, 0), cell(1, 0), cell(2, 1), cell(3, 1)]);
/// assert_eq!(hanjolum::line(cell(0, 0), cell(10, 0)), Err(Refusal::Outside));
/// # Ok::<(), hanjolum::Refusal>(())
/// ```
pub fn line(source: FieldCell, target: FieldCell) -> Result<Line, Refusal> {
    // SAFETY: it takes any numbers.
    Line::of(unsafe { sys::hanjolum_line(source.column, source.row, target.column, target.row) })
}

/// One of the two walks that lines are made of: one column on at each step. It has no cells where the target's column is below the
/// source's.
///
/// # Errors
///
#[doc = include_str!("errors/line.md")]
///
/// # Examples
///
/// ```
/// use hanjolum::FieldCell;
///
/// let (west, east) = (FieldCell { column: 0, row: 0 }, FieldCell { column: 3, row: 1 });
/// assert_eq!(hanjolum::walk_bresenham_shallow(west, east)?.cells().len(), 4);
/// assert_eq!(hanjolum::walk_bresenham_shallow(east, west)?.cells(), []);
/// # Ok::<(), hanjolum::Refusal>(())
/// ```
pub fn walk_bresenham_shallow(source: FieldCell, target: FieldCell) -> Result<Line, Refusal> {
    // SAFETY: it takes any numbers.
    Line::of(unsafe { sys::hanjolum_walk_bresenham_shallow(source.column, source.row, target.column, target.row) })
}

/// The other walk: one row on at each step.
///
/// # Errors
///
#[doc = include_str!("errors/line.md")]
///
/// # Examples
///
/// ```
/// use hanjolum::FieldCell;
///
/// let walk = hanjolum::walk_bresenham_steep(FieldCell { column: 0, row: 0 }, FieldCell { column: 1, row: 3 })?;
/// assert_eq!(walk.cells().iter().map(|cell| cell.row).collect::<Vec<_>>(), [0, 1, 2, 3]);
/// # Ok::<(), hanjolum::Refusal>(())
/// ```
pub fn walk_bresenham_steep(source: FieldCell, target: FieldCell) -> Result<Line, Refusal> {
    // SAFETY: it takes any numbers.
    Line::of(unsafe { sys::hanjolum_walk_bresenham_steep(source.column, source.row, target.column, target.row) })
}

/// The cell at the edge of the sector in which the line of a corner, away from the goal, ends.
///
/// # Errors
///
#[doc = include_str!("errors/line.md")]
///
/// # Examples
///
/// ```
/// use hanjolum::FieldCell;
///
/// let end = hanjolum::line_end(FieldCell { column: 4, row: 3 }, FieldCell { column: 5, row: 4 })?;
/// assert_eq!(end, FieldCell { column: 0, row: 0 });
/// # Ok::<(), hanjolum::Refusal>(())
/// ```
pub fn line_end(corner: FieldCell, goal: FieldCell) -> Result<FieldCell, Refusal> {
    // SAFETY: it takes any numbers.
    let answer = unsafe { sys::hanjolum_line_end(corner.column, corner.row, goal.column, goal.row) };
    unless_refused(answer.number, answer.cell)
}
