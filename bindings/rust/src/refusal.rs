//! Why a call was refused.

use core::error::Error;
use core::fmt::{Display, Formatter, Result as Written};

/// Why a call was refused: the number of the first condition that holds, in the order that the header's table has. A refused
/// call writes not one byte of what it is lent. Each call says under "Errors" which of these it may answer, in their order.
#[derive(Clone, Copy, Debug, PartialEq, Eq, Hash)]
#[non_exhaustive]
pub enum Refusal {
    /// Number 1: the cost bytes are not 100 (a leg's floor: 6,400).
    CostBytes,
    /// Number 2: the sheet is not 100 bytes (a floor's: 6,400).
    Sheet,
    /// Number 3: the step is not 8 bytes (a leg's steps: none, over 128 bytes, or no multiple of 8; several windows: no multiple of 8).
    StepList,
    /// Number 4: a step's sector is over 63, its mark over 1, or one of its last two bytes not 0.
    StepBytes,
    /// Number 5: a goal is over 99.
    Goal,
    /// Number 6: a window cell is over 99, or a boundary over 3.
    Window,
    /// Number 7: a window cell is off the named edge (North row 0, East column 9, South row 9, West column 0).
    OffEdge,
    /// Number 8: a window's first cell comes after its last.
    FirstAfterLast,
    /// Number 9: the leg's first step has a window, a later one has none, or a sector is named twice.
    LegOrder,
    /// Number 10: the sector across a boundary is not that of the step before, or is off the floor.
    NotAcross,
    /// Number 11: the field to build lists over 100 corners, or a corner over 99.
    Corners,
    /// Number 12: the previous field is not 100 numbers.
    PreviousLength,
    /// Number 13: a column or row is outside 0 to 9.
    Outside,
    /// Number 14: the leg file's mark, version, count or length is wrong.
    LegFile,
    /// Number 15: a window has no cell that faces a cell reached in the sector of the step before.
    NoCountingCell,
    /// Number 16: a goal, or a cell of a window, is a wall (cost 255).
    OnWall,
    /// Number 17: the step has a window, and no previous field is lent.
    NoPrevious,
    /// Number 18: the step has no window, low is above high somewhere, or 255 is in only one of the two.
    BoundsInput,
    /// Number 19: there are fewer than 2 steps or more than 8.
    WindowCount,
    /// Number 20: a step has no window, or another sector than the first.
    OtherSector,
    /// Number 21: the place is beyond the leg's last step.
    Place,
    /// A number that this crate does not know: the library that is linked is of another version.
    Unknown(u8),
}

/// Every refusal with its text, that of number n in place n - 1. `hanjolum_refusal_text` of the header has the same texts.
const TEXTS: [(Refusal, &str); 21] = [
    (Refusal::CostBytes, "the cost bytes are not 100 (a leg's floor: 6,400)"),
    (Refusal::Sheet, "the sheet is not 100 bytes (a floor's: 6,400), or the buffer is not as long as the leg file"),
    (
        Refusal::StepList,
        "the step is not 8 bytes (a leg's steps: none, over 128 bytes, or no multiple of 8; several windows: no multiple of 8)",
    ),
    (Refusal::StepBytes, "a sector is over 63, a step's mark over 1, or one of its last two bytes not 0"),
    (Refusal::Goal, "a goal, or a cart's cell, is over 99"),
    (Refusal::Window, "a window cell is over 99, or a boundary over 3"),
    (Refusal::OffEdge, "a window cell is off the named edge (North row 0, East column 9, South row 9, West column 0)"),
    (Refusal::FirstAfterLast, "a window's first cell comes after its last"),
    (Refusal::LegOrder, "the leg's first step has a window, a later one has none, or a sector is named twice"),
    (Refusal::NotAcross, "the sector across a boundary is not that of the step before, or is off the floor"),
    (Refusal::Corners, "the field to build lists over 100 corners, or a corner over 99"),
    (Refusal::PreviousLength, "the previous field is not 100 numbers"),
    (Refusal::Outside, "a column or row is outside 0 to 9"),
    (Refusal::LegFile, "the leg file's mark, version, count or length is wrong"),
    (Refusal::NoCountingCell, "a window has no cell that faces a cell reached in the sector of the step before"),
    (Refusal::OnWall, "a goal, or a cell of a window, is a wall (cost 255)"),
    (Refusal::NoPrevious, "the step has a window, and no previous field is lent"),
    (Refusal::BoundsInput, "the step has no window, low is above high somewhere, or 255 is in only one of the two"),
    (Refusal::WindowCount, "there are fewer than 2 steps or more than 8"),
    (Refusal::OtherSector, "a step has no window, or another sector than the first"),
    (Refusal::Place, "the place is beyond the leg's last step"),
];

impl Refusal {
    /// The refusal of a number, none for 0.
    ///
    /// # Examples
    ///
    /// ```
    /// use hanjolum::Refusal;
    ///
    /// assert_eq!([0, 16, 99].map(Refusal::of), [None, Some(Refusal::OnWall), Some(Refusal::Unknown(99))]);
    /// ```
    pub fn of(number: u8) -> Option<Refusal> {
        let place = usize::from(number).checked_sub(1)?;
        Some(TEXTS.get(place).map_or(Refusal::Unknown(number), |(refusal, _)| *refusal))
    }

    /// Its number.
    ///
    /// # Examples
    ///
    /// ```
    /// assert_eq!(hanjolum::Refusal::OnWall.number(), 16);
    /// ```
    pub fn number(self) -> u8 {
        match self {
            Refusal::Unknown(number) => number,
            known => TEXTS.iter().zip(1..).find(|((refusal, _), _)| *refusal == known).map_or(0, |(_, number)| number),
        }
    }

    /// Its condition in words, as the header's `hanjolum_refusal_text` has them.
    ///
    /// # Examples
    ///
    /// ```
    /// use hanjolum::Refusal;
    ///
    /// assert_eq!(Refusal::OnWall.text(), "a goal, or a cell of a window, is a wall (cost 255)");
    /// assert_eq!(Refusal::Goal.to_string(), "refused with number 5: a goal, or a cart's cell, is over 99");
    /// ```
    pub fn text(self) -> &'static str {
        TEXTS.iter().find(|(refusal, _)| *refusal == self).map_or("no number of this version", |(_, text)| text)
    }
}

impl Display for Refusal {
    fn fmt(&self, out: &mut Formatter<'_>) -> Written {
        write!(out, "refused with number {}: {}", self.number(), self.text())
    }
}

impl Error for Refusal {}
