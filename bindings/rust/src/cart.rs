//! A cart's moves over a floor, and where they end.

use crate::{Place, Refusal, sys, unless_refused};

/// What a cart's move, or its way, comes to.
#[derive(Clone, Copy, Debug, PartialEq, Eq, Hash)]
pub enum Outcome {
    /// No arrow leads on, and the byte is neither the goal's nor in sight, as a wall's.
    Stopped,
    /// Of a move alone: the arrow leads to the place that is answered.
    Moved,
    /// No arrow leads on, and the byte reads as goal.
    Arrived,
    /// No arrow leads on, and the goal is in sight: drive straight for it.
    InSight,
    /// Of a way alone: the cart never stands still, it drives in a circle.
    Never,
}

impl Outcome {
    /// All of them, in the order of their numbers.
    pub const ALL: [Outcome; 5] =
        [Outcome::Stopped, Outcome::Moved, Outcome::Arrived, Outcome::InSight, Outcome::Never];

    /// The outcome of a number, and the place that came with it. A library of this version answers no other number and no other
    /// place; one would read as stopped at the cart's own, so that no cart moves by it.
    fn of(number: u8, place: Option<Place>, own: Place) -> (Outcome, Place) {
        let outcome = Outcome::ALL.get(usize::from(number)).copied();
        outcome.zip(place).unwrap_or((Outcome::Stopped, own))
    }
}

/// What a cart's move comes to.
#[derive(Clone, Copy, Debug, PartialEq, Eq, Hash)]
pub struct Move {
    /// Whether the cart moved, or why it stands still.
    pub outcome: Outcome,
    /// Where the cart is then: the next place, or its own.
    pub place: Place,
}

/// What a cart's way comes to.
#[derive(Clone, Copy, Debug, PartialEq, Eq, Hash)]
pub struct Way {
    /// Why the cart stands still at the end, or that it never does.
    pub outcome: Outcome,
    /// Where it stands still; its own place where it never does.
    pub place: Place,
    /// The moves until then, at most 6,399; 0 where it never stands still.
    pub moves: u16,
}

/// One move of a cart, by the byte of its place in a floor's sheet of 6,400 bytes, also from one sector into the next. It is
/// [`Outcome::Moved`] exactly where the byte's direction leads to a place of the floor, whatever the byte's flags; otherwise the
/// cart stands still, and the byte says why.
///
/// From a reached cell of a planned leg, with no cost 0, moves come into the goal's sector, at most 1,500; planned without
/// sight to the goal, at most 1,599. In the goal's sector with sight they need not end: [`way`] tells.
///
/// # Errors
///
/// - [`Refusal::Sheet`]: `sheet` is not 6,400 bytes. No other refusal is left: a [`Place`] is always one of the floor.
///
/// # Examples
///
/// ```
/// use hanjolum::{FLOOR, Outcome, Place, Refusal, Step};
///
/// let mut sheet = [0; FLOOR];
/// hanjolum::leg_without_sight(&[1; FLOOR], Step::goal(9, 44), &mut sheet)?;
/// // A cart's loop.
/// let mut at = hanjolum::move_from(&sheet, Place::new(9, 47).unwrap())?;
/// while at.outcome == Outcome::Moved {
///     println!("drive to {}", at.place);
///     at = hanjolum::move_from(&sheet, at.place)?;
/// }
/// assert_eq!((at.outcome, at.place.cell()), (Outcome::Arrived, 44));
/// assert_eq!(hanjolum::move_from(&sheet[1..], at.place), Err(Refusal::Sheet));
/// # Ok::<(), hanjolum::Refusal>(())
/// ```
pub fn move_from(sheet: &[u8], place: Place) -> Result<Move, Refusal> {
    // SAFETY: the pointer with its length is a live slice.
    let answer = unsafe { sys::hanjolum_move(sheet.as_ptr(), sheet.len(), place.sector(), place.cell()) };
    let (outcome, place) = Outcome::of(answer.outcome, Place::new(answer.sector, answer.cell), place);
    unless_refused(answer.number, Move { outcome, place })
}

/// Where a cart's moves end, told before it is driven: those of [`move_from`], one after the other, until the cart stands
/// still, or [`Outcome::Never`] where it comes again to a place where it was.
///
/// From a reached cell of a leg planned without sight, with no cost 0, it is [`Outcome::Arrived`], at the goal.
///
/// # Errors
///
/// - [`Refusal::Sheet`]: `sheet` is not 6,400 bytes. No other refusal is left: a [`Place`] is always one of the floor.
///
/// # Examples
///
/// ```
/// use hanjolum::{FLOOR, Outcome, Place};
///
/// // Two arrows that point at each other, and elsewhere nothing.
/// let (west, east) = (Place::new(9, 49).unwrap(), Place::new(10, 40).unwrap());
/// let mut sheet = [0; FLOOR];
/// (sheet[west.index()], sheet[east.index()]) = (0x12, 0x18);
/// assert_eq!(hanjolum::way(&sheet, west)?.outcome, Outcome::Never);
/// // The goal in place of the second.
/// sheet[east.index()] = 0x70;
/// let way = hanjolum::way(&sheet, west)?;
/// assert_eq!((way.outcome, way.place, way.moves), (Outcome::Arrived, east, 1));
/// # Ok::<(), hanjolum::Refusal>(())
/// ```
pub fn way(sheet: &[u8], place: Place) -> Result<Way, Refusal> {
    // SAFETY: the pointer with its length is a live slice.
    let answer = unsafe { sys::hanjolum_way(sheet.as_ptr(), sheet.len(), place.sector(), place.cell()) };
    let (outcome, place) = Outcome::of(answer.outcome, Place::new(answer.sector, answer.cell), place);
    unless_refused(answer.number, Way { outcome, place, moves: answer.moves })
}
