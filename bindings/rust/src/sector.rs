//! One sector: from its costs and a step to its sheet, and what the sheet's arrows come to.

use crate::{Built, CELLS, IntegrationField, NEVER, Refusal, sys, unless_refused};

/// The sector call, with sight or without.
type SectorCall = unsafe extern "C" fn(
    *const u8,
    usize,
    *const u8,
    usize,
    bool,
    *const u32,
    usize,
    *mut u8,
    usize,
) -> sys::BuildAnswer;

/// Plans one sector by one of the two calls.
fn sector_by(
    call: SectorCall,
    costs: &[u8],
    step: &[u8],
    previous: Option<&[u32]>,
    sheet: &mut [u8],
) -> Result<Built, Refusal> {
    let cells = previous.unwrap_or(&[]);
    // SAFETY: each pointer with its length is a live slice, and the sheet is lent alone.
    Built::of(unsafe {
        call(
            costs.as_ptr(),
            costs.len(),
            step.as_ptr(),
            step.len(),
            previous.is_some(),
            cells.as_ptr(),
            cells.len(),
            sheet.as_mut_ptr(),
            sheet.len(),
        )
    })
}

/// Plans one sector: 100 cost bytes and a step give the built field, and the sheet's 100 flow bytes are written. A step with
/// a window needs the cells of the built field of the sector across it as `previous`; who has none lends 100 zeros, and each
/// window cell points straight across. With a goal the arrows need not lead to it: [`arrivals`] tells from which cells they do.
/// Those of [`sector_without_sight`] do from every reached cell where no cost is 0.
///
/// # Errors
///
#[doc = include_str!("errors/sector.md")]
#[doc = include_str!("errors/step.md")]
#[doc = include_str!("errors/sector_end.md")]
///
/// # Examples
///
/// ```
/// use hanjolum::{Boundary, CELLS, Direction, FlowByte, Step};
///
/// let (costs, mut sheet) = ([1; CELLS], [0; CELLS]);
/// // A goal: on a bare floor it is in sight from every cell.
/// let goal = hanjolum::sector(&costs, Step::goal(9, 44), None, &mut sheet)?;
/// assert!(sheet.iter().all(|byte| FlowByte(*byte).has_line_of_sight()));
/// // The sector east of it, left by its west window, with the field of the one before.
/// hanjolum::sector(&costs, Step::window(10, Boundary::West, 0, 90), Some(&goal.field.field), &mut sheet)?;
/// assert_eq!(FlowByte(sheet[49]).direction(), Some(Direction::West));
/// # Ok::<(), hanjolum::Refusal>(())
/// ```
pub fn sector(
    costs: &[u8],
    step: impl AsRef<[u8]>,
    previous: Option<&[u32]>,
    sheet: &mut [u8],
) -> Result<Built, Refusal> {
    sector_by(sys::hanjolum_sector, costs, step.as_ref(), previous, sheet)
}

/// Plans one sector without sight: [`sector`]'s input and refusals. With a window it answers and writes the same; with a goal
/// each cell that is no wall holds the least cost of a walk from the goal, every reached cell but the goal has an arrow, and
/// where no cost is 0 the arrows lead from every reached cell to the goal itself in at most 99 moves.
///
/// # Errors
///
#[doc = include_str!("errors/sector.md")]
#[doc = include_str!("errors/step.md")]
#[doc = include_str!("errors/sector_end.md")]
///
/// # Examples
///
/// ```
/// use hanjolum::{CELLS, Direction, FlowByte, Step};
///
/// let mut sheet = [0; CELLS];
/// let built = hanjolum::sector_without_sight(&[1; CELLS], Step::goal(9, 44), None, &mut sheet)?;
/// assert_eq!(FlowByte(sheet[49]).direction(), Some(Direction::West));
/// assert_eq!(built.field.cost(49), Some(5));
/// assert!(FlowByte(sheet[44]).is_goal());
/// # Ok::<(), hanjolum::Refusal>(())
/// ```
pub fn sector_without_sight(
    costs: &[u8],
    step: impl AsRef<[u8]>,
    previous: Option<&[u32]>,
    sheet: &mut [u8],
) -> Result<Built, Refusal> {
    sector_by(sys::hanjolum_sector_without_sight, costs, step.as_ref(), previous, sheet)
}

/// Writes the first flow bytes of a built field to a sheet of 100, whatever it held. A window may come without `previous` here:
/// then each of its cells points straight across.
///
/// # Errors
///
/// The first of these that holds, in this order:
/// - [`Refusal::Sheet`]: `sheet` is not 100 bytes
/// - [`Refusal::StepList`]: `step` is not 8 bytes
#[doc = include_str!("errors/step.md")]
/// - [`Refusal::PreviousLength`]: `previous` is not 100 numbers
///
/// # Examples
///
/// ```
/// use hanjolum::{CELLS, Step};
///
/// // The sector call, made by hand.
/// let (costs, goal, mut sheet, mut by_hand) = ([1; CELLS], Step::goal(0, 44), [0; CELLS], [0; CELLS]);
/// let built = hanjolum::build(&costs, hanjolum::init(&costs, goal)?)?;
/// hanjolum::flow_new(goal, built.field, None, &mut by_hand)?;
/// hanjolum::flow_build(built.field, &mut by_hand)?;
/// assert_eq!(hanjolum::sector(&costs, goal, None, &mut sheet)?, built);
/// assert_eq!(sheet, by_hand);
/// # Ok::<(), hanjolum::Refusal>(())
/// ```
pub fn flow_new(
    step: impl AsRef<[u8]>,
    field: IntegrationField,
    previous: Option<&[u32]>,
    sheet: &mut [u8],
) -> Result<(), Refusal> {
    let (step, cells) = (step.as_ref(), previous.unwrap_or(&[]));
    // SAFETY: each pointer with its length is a live slice, and the sheet is lent alone.
    let number = unsafe {
        sys::hanjolum_flow_new(
            step.as_ptr(),
            step.len(),
            field,
            previous.is_some(),
            cells.as_ptr(),
            cells.len(),
            sheet.as_mut_ptr(),
            sheet.len(),
        )
    };
    unless_refused(number, ())
}

/// Gives each cell of a sheet of 100 that has no direction yet its direction in a built field; let [`flow_new`] write the
/// sheet first.
///
/// # Errors
///
/// - [`Refusal::Sheet`]: `sheet` is not 100 bytes
///
/// # Examples
///
/// ```
/// use hanjolum::{Boundary, CELLS, Direction, FlowByte, Step};
///
/// let (costs, window, mut sheet) = ([1; CELLS], Step::window(0, Boundary::East, 9, 99), [0; CELLS]);
/// let built = hanjolum::build(&costs, hanjolum::init(&costs, window)?)?;
/// hanjolum::flow_new(window, built.field, None, &mut sheet)?;
/// assert_eq!(FlowByte(sheet[0]).direction(), None);
/// hanjolum::flow_build(built.field, &mut sheet)?;
/// assert_eq!(FlowByte(sheet[0]).direction(), Some(Direction::East));
/// # Ok::<(), hanjolum::Refusal>(())
/// ```
pub fn flow_build(field: IntegrationField, sheet: &mut [u8]) -> Result<(), Refusal> {
    // SAFETY: the pointer with its length is a live slice, lent alone.
    let number = unsafe { sys::hanjolum_flow_build(field, sheet.as_mut_ptr(), sheet.len()) };
    unless_refused(number, ())
}

/// Which arrows of a sector's sheet arrive.
#[derive(Clone, Copy, Debug, PartialEq, Eq)]
pub struct Arrivals {
    /// For each cell the moves after which its arrows first come to the goal, into its sight or to a window; [`NEVER`] where
    /// they never do.
    pub moves: [u8; CELLS],
}

impl Arrivals {
    /// The moves of a cell; none where its arrows never arrive, and for an index over 99.
    ///
    /// # Examples
    ///
    /// ```
    /// use hanjolum::CELLS;
    ///
    /// // An arrow eastward onto the goal, and elsewhere nothing.
    /// let mut sheet = [0; CELLS];
    /// (sheet[43], sheet[44]) = (0x12, 0x70);
    /// let found = hanjolum::arrivals(&sheet)?;
    /// assert_eq!([43, 44, 45].map(|cell| found.of(cell)), [Some(1), Some(0), None]);
    /// # Ok::<(), hanjolum::Refusal>(())
    /// ```
    pub fn of(&self, cell: usize) -> Option<u8> {
        self.moves.get(cell).copied().filter(|moves| *moves != NEVER)
    }
}

/// Which arrows of a sector's sheet of 100 flow bytes arrive, told before a cart is driven. Of a planned leg with no cost 0, a
/// look at the goal's sector tells the whole way: the number of the cell where a cart comes in. In a goal's sector that was
/// planned without sight, with no cost 0, every reached cell has a number, that of its moves to the goal itself.
///
/// # Errors
///
/// - [`Refusal::Sheet`]: `sheet` is not 100 bytes
///
/// # Examples
///
/// ```
/// use hanjolum::{CELLS, Step, WALL};
///
/// // A wall beside the goal: planned with sight, the arrows of cells 2 to 9 run in a circle behind it.
/// let (mut costs, mut sheet) = ([1; CELLS], [0; CELLS]);
/// costs[1] = WALL;
/// hanjolum::sector(&costs, Step::goal(0, 10), None, &mut sheet)?;
/// assert_eq!(hanjolum::arrivals(&sheet)?.of(2), None);
/// hanjolum::sector_without_sight(&costs, Step::goal(0, 10), None, &mut sheet)?;
/// assert_eq!(hanjolum::arrivals(&sheet)?.of(2), Some(3));
/// # Ok::<(), hanjolum::Refusal>(())
/// ```
pub fn arrivals(sheet: &[u8]) -> Result<Arrivals, Refusal> {
    // SAFETY: the pointer with its length is a live slice.
    let answer = unsafe { sys::hanjolum_arrivals(sheet.as_ptr(), sheet.len()) };
    unless_refused(answer.number, Arrivals { moves: answer.moves })
}
