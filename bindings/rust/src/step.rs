//! Steps and lists of them, from plain values and from bytes.

use core::ops::Deref;
use core::slice::{self, Iter};

use crate::{CELLS, Refusal, SECTORS, STEP, STEPS};

/// The boundary that a window leads across.
#[derive(Clone, Copy, Debug, PartialEq, Eq, Hash)]
#[repr(u8)]
pub enum Boundary {
    /// Row 0.
    North = 0,
    /// Column 9.
    East = 1,
    /// Row 9.
    South = 2,
    /// Column 0.
    West = 3,
}

impl Boundary {
    /// All of them, in the order of their numbers.
    pub const ALL: [Boundary; 4] = [Boundary::North, Boundary::East, Boundary::South, Boundary::West];
}

/// What a step leads to: a goal, or the window by which its sector is left.
#[derive(Clone, Copy, Debug, PartialEq, Eq, Hash)]
pub enum Target {
    /// A goal.
    Goal {
        /// The goal's cell, 0 to 99.
        cell: u8,
    },
    /// A window, from its first cell to its last along the edge at the boundary.
    Window {
        /// The boundary that it leads across.
        boundary: Boundary,
        /// Its first cell, 0 to 99.
        first: u8,
        /// Its last cell, 0 to 99.
        last: u8,
    },
}

/// A step: a sector with a goal, or with the window by which it is left. It is 8 bytes, and they may be any: they are judged by
/// the calls that plan with it. Where a byte is out of range, as in a leg file that was damaged, [`sector`](Step::sector) and
/// [`target`](Step::target) answer none.
///
/// ```
/// use hanjolum::{Boundary, Step, Target};
///
/// let step = Step::window(10, Boundary::West, 30, 60);
/// assert_eq!(step.sector(), Some(10));
/// assert_eq!(step.target(), Some(Target::Window { boundary: Boundary::West, first: 30, last: 60 }));
/// assert_eq!(Step::from_bytes(*step.bytes()), step);
/// ```
#[derive(Clone, Copy, Debug, PartialEq, Eq, Hash)]
#[repr(transparent)]
pub struct Step([u8; STEP]);

impl Step {
    /// A goal cell, 0 to 99, in a sector, 0 to 63.
    ///
    /// # Examples
    ///
    /// ```
    /// use hanjolum::{Step, Target};
    ///
    /// const GOAL: Step = Step::goal(9, 44);
    /// assert_eq!((GOAL.sector(), GOAL.target()), (Some(9), Some(Target::Goal { cell: 44 })));
    /// ```
    pub const fn goal(sector: u8, cell: u8) -> Step {
        Step([sector, cell, 0, 0, 0, 0, 0, 0])
    }

    /// A window in a sector, from its first cell to its last along the edge at the boundary.
    ///
    /// # Examples
    ///
    /// ```
    /// use hanjolum::{Boundary, Step};
    ///
    /// // Sector 10 is left westward, by the cells 30, 40, 50 and 60 of its first column.
    /// const WINDOW: Step = Step::window(10, Boundary::West, 30, 60);
    /// assert_eq!(WINDOW.bytes(), &[10, 0, 1, 30, 60, 3, 0, 0]);
    /// ```
    pub const fn window(sector: u8, boundary: Boundary, first: u8, last: u8) -> Step {
        Step([sector, 0, 1, first, last, boundary as u8, 0, 0])
    }

    /// The step of 8 bytes, whatever they are: sector, goal cell, mark (0 a goal, 1 a window), first and last cell of the window,
    /// boundary, and two zeros.
    ///
    /// # Examples
    ///
    /// ```
    /// use hanjolum::Step;
    ///
    /// assert_eq!(Step::from_bytes([9, 44, 0, 0, 0, 0, 0, 0]), Step::goal(9, 44));
    /// ```
    pub const fn from_bytes(bytes: [u8; STEP]) -> Step {
        Step(bytes)
    }

    /// Its bytes.
    ///
    /// # Examples
    ///
    /// ```
    /// assert_eq!(hanjolum::Step::goal(9, 44).bytes(), &[9, 44, 0, 0, 0, 0, 0, 0]);
    /// ```
    pub const fn bytes(&self) -> &[u8; STEP] {
        &self.0
    }

    /// Its sector, 0 to 63; none where the byte is over 63.
    ///
    /// # Examples
    ///
    /// ```
    /// use hanjolum::Step;
    ///
    /// assert_eq!((Step::goal(63, 0).sector(), Step::goal(64, 0).sector()), (Some(63), None));
    /// ```
    pub const fn sector(&self) -> Option<u8> {
        if (self.0[0] as usize) < SECTORS { Some(self.0[0]) } else { None }
    }

    /// What it leads to; none where its mark is over 1, a goal's or a window's cell over 99, or a window's boundary over 3. Whether
    /// a window lies along its edge is judged by the calls that plan with it, and so is the rest.
    ///
    /// # Examples
    ///
    /// ```
    /// use hanjolum::{Step, Target};
    ///
    /// assert_eq!(Step::goal(9, 99).target(), Some(Target::Goal { cell: 99 }));
    /// assert_eq!(Step::goal(9, 100).target(), None);
    /// assert_eq!(Step::from_bytes([9, 0, 2, 0, 0, 0, 0, 0]).target(), None);
    /// ```
    pub const fn target(&self) -> Option<Target> {
        let [_, cell, mark, first, last, boundary, ..] = self.0;
        match mark {
            0 if (cell as usize) < CELLS => Some(Target::Goal { cell }),
            1 if (first as usize) < CELLS && (last as usize) < CELLS && (boundary as usize) < Boundary::ALL.len() => {
                Some(Target::Window { boundary: Boundary::ALL[boundary as usize], first, last })
            }
            _ => None,
        }
    }
}

impl AsRef<[u8]> for Step {
    fn as_ref(&self) -> &[u8] {
        &self.0
    }
}

impl From<[u8; STEP]> for Step {
    fn from(bytes: [u8; STEP]) -> Step {
        Step(bytes)
    }
}

impl From<Step> for [u8; STEP] {
    fn from(step: Step) -> [u8; STEP] {
        step.0
    }
}

/// A step of 8 bytes; any other length is [`Refusal::StepList`].
impl TryFrom<&[u8]> for Step {
    type Error = Refusal;

    fn try_from(bytes: &[u8]) -> Result<Step, Refusal> {
        bytes.try_into().map(Step).map_err(|_| Refusal::StepList)
    }
}

/// A list of 1 to 16 steps: of a leg from the goal back, or the windows of one sector. It reads as a slice of [`Step`]s, so that it
/// has `iter`, `len`, `get`, `first` and all else that a slice has; and it is handed to a call as it is.
///
/// ```
/// use hanjolum::{Boundary, Step, Steps};
///
/// let steps = Steps::new(&[Step::goal(9, 44), Step::window(10, Boundary::West, 30, 60)])?;
/// assert_eq!((steps.len(), steps[0], steps.get(2)), (2, Step::goal(9, 44), None));
/// let sectors: Vec<_> = steps.iter().map(|step| step.sector()).collect();
/// assert_eq!(sectors, [Some(9), Some(10)]);
/// # Ok::<(), hanjolum::Refusal>(())
/// ```
#[derive(Clone, Copy, Debug, PartialEq, Eq, Hash)]
pub struct Steps {
    list: [Step; STEPS],
    count: usize,
}

impl Steps {
    /// The steps in a list.
    ///
    /// # Errors
    ///
    /// - [`Refusal::StepList`]: the list is empty, or has more than 16 steps
    ///
    /// # Examples
    ///
    /// ```
    /// use hanjolum::{Refusal, Step, Steps};
    ///
    /// assert_eq!(Steps::new(&[Step::goal(9, 44)])?.len(), 1);
    /// assert_eq!(Steps::new(&[]), Err(Refusal::StepList));
    /// # Ok::<(), hanjolum::Refusal>(())
    /// ```
    pub fn new(list: &[Step]) -> Result<Steps, Refusal> {
        let mut steps = Steps { list: [Step([0; STEP]); STEPS], count: list.len() };
        let places = steps.list.get_mut(..list.len()).filter(|places| !places.is_empty());
        places.ok_or(Refusal::StepList)?.copy_from_slice(list);
        Ok(steps)
    }

    /// The steps.
    ///
    /// # Examples
    ///
    /// ```
    /// use hanjolum::{Step, Steps};
    ///
    /// let steps = Steps::new(&[Step::goal(9, 44)])?;
    /// assert_eq!(steps.as_slice(), [Step::goal(9, 44)]);
    /// # Ok::<(), hanjolum::Refusal>(())
    /// ```
    pub fn as_slice(&self) -> &[Step] {
        &self.list[..self.count]
    }
}

impl Deref for Steps {
    type Target = [Step];

    fn deref(&self) -> &[Step] {
        self.as_slice()
    }
}

impl AsRef<[u8]> for Steps {
    fn as_ref(&self) -> &[u8] {
        let steps = self.as_slice();
        // SAFETY: a step is 8 bytes and nothing else (`repr(transparent)`), and a slice of them stands without gaps.
        unsafe { slice::from_raw_parts(steps.as_ptr().cast(), size_of_val(steps)) }
    }
}

impl<'a> IntoIterator for &'a Steps {
    type Item = &'a Step;
    type IntoIter = Iter<'a, Step>;

    fn into_iter(self) -> Iter<'a, Step> {
        self.iter()
    }
}

/// The steps of a list of bytes, 8 for each; none, over 128 and no multiple of 8 are [`Refusal::StepList`].
impl TryFrom<&[u8]> for Steps {
    type Error = Refusal;

    fn try_from(bytes: &[u8]) -> Result<Steps, Refusal> {
        if bytes.is_empty() || bytes.len() > STEP * STEPS || bytes.len() % STEP != 0 {
            return Err(Refusal::StepList);
        }
        let mut steps = Steps { list: [Step([0; STEP]); STEPS], count: bytes.len() / STEP };
        for (step, bytes) in steps.list.iter_mut().zip(bytes.chunks_exact(STEP)) {
            step.0.copy_from_slice(bytes);
        }
        Ok(steps)
    }
}
