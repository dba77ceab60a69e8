//! Legs over several sectors: their sheets, the fields behind them, and their files.

use crate::{Built, FILE, FILE_HEAD, Refusal, Steps, sys, unless_refused};

/// The leg, with sight or without.
type LegCall = unsafe extern "C" fn(*const u8, usize, *const u8, usize, *mut u8, usize) -> u8;

/// The field of a leg's step, with sight or without.
type LegFieldCall = unsafe extern "C" fn(*const u8, usize, *const u8, usize, u64) -> sys::BuildAnswer;

/// Plans a leg by one of the two calls.
fn leg_by(call: LegCall, floor: &[u8], steps: &[u8], sheet: &mut [u8]) -> Result<(), Refusal> {
    // SAFETY: each pointer with its length is a live slice, and the sheet is lent alone.
    let number =
        unsafe { call(floor.as_ptr(), floor.len(), steps.as_ptr(), steps.len(), sheet.as_mut_ptr(), sheet.len()) };
    unless_refused(number, ())
}

/// Plans a leg of 1 to 16 steps over a floor of 6,400 cost bytes, from the goal back, and writes the 100 flow bytes of each
/// named sector to the floor's sheet. All other bytes of the sheet stay. Where no cost is 0 the arrows lead into the goal's
/// sector in at most 1,500 moves; within it they need not lead to the goal, as those of [`leg_without_sight`] do.
///
/// # Errors
///
#[doc = include_str!("errors/leg.md")]
/// - [`Refusal::Sheet`]: `sheet` is not 6,400 bytes
/// - [`Refusal::StepList`]: `steps` is empty, over 128 bytes, or no multiple of 8
#[doc = include_str!("errors/step.md")]
#[doc = include_str!("errors/leg_end.md")]
///
/// # Examples
///
/// ```
/// use hanjolum::{Boundary, FLOOR, Outcome, Place, Step, Steps};
///
/// let (floor, mut sheet) = ([1; FLOOR], [0; FLOOR]);
/// let steps = Steps::new(&[Step::goal(9, 44), Step::window(10, Boundary::West, 30, 60)])?;
/// hanjolum::leg(&floor, &steps, &mut sheet)?;
/// // The cart crosses into sector 9, and has the goal in sight there.
/// let cart = Place::new(10, 49).expect("sector 10 has a cell 49");
/// let way = hanjolum::way(&sheet, cart)?;
/// assert_eq!((way.outcome, way.place.sector()), (Outcome::InSight, 9));
/// # Ok::<(), hanjolum::Refusal>(())
/// ```
pub fn leg(floor: &[u8], steps: impl AsRef<[u8]>, sheet: &mut [u8]) -> Result<(), Refusal> {
    leg_by(sys::hanjolum_leg, floor, steps.as_ref(), sheet)
}

/// Plans a leg without sight: [`leg`]'s input and refusals, the goal's sector as
/// [`sector_without_sight`](crate::sector_without_sight) plans it. Where no cost is 0 the arrows lead from every reached cell of
/// every named sector, the goal's too, to the goal itself in at most 1,599 moves, crossings counted.
///
/// # Errors
///
#[doc = include_str!("errors/leg.md")]
/// - [`Refusal::Sheet`]: `sheet` is not 6,400 bytes
/// - [`Refusal::StepList`]: `steps` is empty, over 128 bytes, or no multiple of 8
#[doc = include_str!("errors/step.md")]
#[doc = include_str!("errors/leg_end.md")]
///
/// # Examples
///
/// ```
/// use hanjolum::{Boundary, FLOOR, Outcome, Place, Refusal, Step, Steps, WALL};
///
/// let (mut floor, mut sheet) = ([1; FLOOR], [0; FLOOR]);
/// let goal = Place::new(9, 44).expect("sector 9 has a cell 44");
/// let steps = Steps::new(&[Step::goal(9, 44), Step::window(10, Boundary::West, 30, 60)])?;
/// hanjolum::leg_without_sight(&floor, &steps, &mut sheet)?;
/// let cart = Place::new(10, 49).expect("sector 10 has a cell 49");
/// let way = hanjolum::way(&sheet, cart)?;
/// assert_eq!((way.outcome, way.place, way.moves), (Outcome::Arrived, goal, 15));
/// // A rack on the goal is refused, and the sheet stays as it was.
/// floor[goal.index()] = WALL;
/// assert_eq!(hanjolum::leg_without_sight(&floor, &steps, &mut sheet), Err(Refusal::OnWall));
/// assert_eq!(hanjolum::way(&sheet, cart)?, way);
/// # Ok::<(), hanjolum::Refusal>(())
/// ```
pub fn leg_without_sight(floor: &[u8], steps: impl AsRef<[u8]>, sheet: &mut [u8]) -> Result<(), Refusal> {
    leg_by(sys::hanjolum_leg_without_sight, floor, steps.as_ref(), sheet)
}

/// The built field of a leg's step by one of the two calls.
fn leg_field_by(call: LegFieldCall, floor: &[u8], steps: &[u8], place: usize) -> Result<Built, Refusal> {
    // SAFETY: each pointer with its length is a live slice.
    Built::of(unsafe { call(floor.as_ptr(), floor.len(), steps.as_ptr(), steps.len(), place as u64) })
}

/// The built field of one step of a leg as [`leg`] plans it, over the window cells that count: which of them is a cell's door is
/// [`corner_of`](crate::IntegrationField::corner_of). `place` is the step's place in the list, from 0, the goal's. It is refused as
/// the leg is, whichever step is at fault.
///
/// # Errors
///
#[doc = include_str!("errors/leg.md")]
/// - [`Refusal::StepList`]: `steps` is empty, over 128 bytes, or no multiple of 8
/// - [`Refusal::Place`]: `place` is beyond the last step
#[doc = include_str!("errors/step.md")]
#[doc = include_str!("errors/leg_end.md")]
///
/// # Examples
///
/// ```
/// use hanjolum::{Boundary, FLOOR, Refusal, Step, Steps};
///
/// let floor = [1; FLOOR];
/// let steps = Steps::new(&[Step::goal(9, 44), Step::window(10, Boundary::West, 30, 60)])?;
/// // Sector 10 is the second step's: the door of its cell 0 is window cell 30, three moves away.
/// let field = hanjolum::leg_field(&floor, &steps, 1)?.field;
/// assert_eq!((field.corner_of(0), field.cost(0)), (Some(30), Some(3)));
/// assert_eq!(hanjolum::leg_field(&floor, &steps, 2), Err(Refusal::Place));
/// # Ok::<(), hanjolum::Refusal>(())
/// ```
pub fn leg_field(floor: &[u8], steps: impl AsRef<[u8]>, place: usize) -> Result<Built, Refusal> {
    leg_field_by(sys::hanjolum_leg_field, floor, steps.as_ref(), place)
}

/// [`leg_field`] of the leg that [`leg_without_sight`] plans.
///
/// # Errors
///
#[doc = include_str!("errors/leg.md")]
/// - [`Refusal::StepList`]: `steps` is empty, over 128 bytes, or no multiple of 8
/// - [`Refusal::Place`]: `place` is beyond the last step
#[doc = include_str!("errors/step.md")]
#[doc = include_str!("errors/leg_end.md")]
///
/// # Examples
///
/// ```
/// use hanjolum::{FLOOR, Step};
///
/// // A leg of one step: the goal's sector. Its field has what a walk to the goal costs.
/// let field = hanjolum::leg_field_without_sight(&[1; FLOOR], Step::goal(9, 44), 0)?.field;
/// assert_eq!((field.cost(44), field.cost(0)), (Some(0), Some(8)));
/// # Ok::<(), hanjolum::Refusal>(())
/// ```
pub fn leg_field_without_sight(floor: &[u8], steps: impl AsRef<[u8]>, place: usize) -> Result<Built, Refusal> {
    leg_field_by(sys::hanjolum_leg_field_without_sight, floor, steps.as_ref(), place)
}

/// The bytes of a leg file, 14 to 134: `as_ref()` has them.
#[derive(Clone, Copy, Debug, PartialEq, Eq)]
pub struct LegFile {
    bytes: [u8; FILE],
    length: usize,
}

impl AsRef<[u8]> for LegFile {
    fn as_ref(&self) -> &[u8] {
        &self.bytes[..self.length]
    }
}

/// The file of a leg's steps, for carrying. No byte of a step is judged: that is done when the leg is planned.
///
/// # Errors
///
/// - [`Refusal::StepList`]: `steps` is empty, over 128 bytes, or no multiple of 8
///
/// # Examples
///
/// ```
/// use hanjolum::{Refusal, Step};
///
/// let file = hanjolum::leg_file_write(Step::goal(9, 44))?;
/// assert_eq!(file.as_ref(), b"LEG\x01\x00\x01\x09\x2c\x00\x00\x00\x00\x00\x00");
/// assert_eq!(hanjolum::leg_file_write([0; 7]), Err(Refusal::StepList));
/// # Ok::<(), hanjolum::Refusal>(())
/// ```
pub fn leg_file_write(steps: impl AsRef<[u8]>) -> Result<LegFile, Refusal> {
    let steps = steps.as_ref();
    let mut file = LegFile { bytes: [0; FILE], length: FILE.min(FILE_HEAD.saturating_add(steps.len())) };
    // SAFETY: each pointer with its length is a live slice, and the file's buffer is lent alone.
    let number =
        unsafe { sys::hanjolum_leg_file_write(steps.as_ptr(), steps.len(), file.bytes.as_mut_ptr(), file.length) };
    unless_refused(number, file)
}

/// The steps in a leg file, a copy of them. No byte of a step is judged: [`Step::sector`](crate::Step::sector) and
/// [`Step::target`](crate::Step::target) answer none for a byte that is out of range, and planning refuses it.
///
/// # Errors
///
/// - [`Refusal::LegFile`]: the file's mark, version, count or length is wrong
///
/// # Examples
///
/// ```
/// use hanjolum::{Boundary, Refusal, Step, Steps, Target};
///
/// let file = hanjolum::leg_file_write(Steps::new(&[Step::goal(9, 44), Step::window(10, Boundary::West, 30, 60)])?)?;
/// let steps = hanjolum::leg_file_read(file.as_ref())?;
/// for step in &steps {
///     match (step.sector(), step.target()) {
///         (Some(sector), Some(Target::Goal { cell })) => println!("to cell {cell} of sector {sector}"),
///         (Some(sector), Some(Target::Window { boundary, first, last })) => {
///             println!("out of sector {sector} across its {boundary:?} boundary, by cells {first} to {last}")
///         }
///         _ => println!("no step: {:?}", step.bytes()),
///     }
/// }
/// assert_eq!((steps.len(), steps[0]), (2, Step::goal(9, 44)));
/// assert_eq!(hanjolum::leg_file_read(b"LEG"), Err(Refusal::LegFile));
/// # Ok::<(), hanjolum::Refusal>(())
/// ```
pub fn leg_file_read(file: &[u8]) -> Result<Steps, Refusal> {
    // SAFETY: the pointer with its length is a live slice.
    let answer = unsafe { sys::hanjolum_leg_file_read(file.as_ptr(), file.len()) };
    unless_refused(answer.number, ())?;
    let steps = file.get(answer.start as usize..).and_then(|rest| rest.get(..answer.length as usize));
    Steps::try_from(steps.unwrap_or(&[]))
}
