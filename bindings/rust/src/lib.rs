//! Hanjolum for Rust: safe calls of the proved library.
//!
//! Porters draw a cellar as sectors of ten by ten cells, a cost byte for each cell, 255 a wall. A *sector call* turns a sector
//! and a step into a built integration field and an arrow for every cell; a *leg* does so for up to sixteen sectors, from the
//! goal back. What is proved is the library; this crate hands it memory and takes its answers apart, and adds no rule.
//!
//! Every call takes slices of any length and judges them: a refused call is an [`Err`] with the [`Refusal`] whose text says
//! the condition in words, and not one byte that it was lent has changed. No call panics, allocates or keeps anything, and
//! any may be called from several threads at once. `c/hanjolum.h`, the library's header, says at length what each promises.
//!
//! # Which library
//!
//! The library is one proved program in two forms, and [`LINKED`] says which one a build has. By default it is the **C file**,
//! printed from the proved program and compiled by the build script with the target's own C compiler, for every target that has
//! one; the printing and that compiler are tested and not proved. Where `HANJOLUM_LIBRARY` names a `libhanjolum.a`, it is that
//! **archive**, which the kit that proves the program has compiled, for x86-64 with System V calls. The README says more.
//!
//! A call of the archive with sight needs less than 22,100 bytes of stack and any other less than 12,100 (read off the archive, not
//! proved), and two or three kilobytes more here for its answers: 32 KB beside what a thread itself needs is enough. What the C
//! file needs depends on the compiler, and is less with sight: its table of line ends lies on no stack.
//!
//! # Which call
//!
//! A goal's sector and a leg are planned without sight ([`sector_without_sight`], [`leg_without_sight`]) or with sight
//! ([`sector`], [`leg`]). Without sight every reached cell but the goal has an arrow, and where no cost is 0 the arrows lead to
//! the goal itself: take these where a cart follows arrows alone. With sight the bytes match the tablet's Rust: take these where
//! they must. There a cell with the goal in sight has no arrow and is left straight for the goal, and the arrows of other cells
//! of the goal's sector may run in a circle; [`arrivals`] tells which.
//!
//! A cart drives by [`move_from`]: from its place, by the sheet's byte, to the next place, also from one sector into the next.
//! [`way`] tells beforehand where that ends, or that it never does. [`leg_field`] and [`leg_field_without_sight`] answer the
//! built field of one step of a leg, which tells each cell its door.
//!
//! ```
//! use hanjolum::{Boundary, FLOOR, Outcome, Place, Step, Steps};
//!
//! // A cart's place and the goal: that there are such cells is judged when this is compiled.
//! const CART: Place = Place::new(10, 49).unwrap();
//! const GOAL: Place = Place::new(9, 44).unwrap();
//!
//! let floor = [1; FLOOR];
//! let mut sheet = [0; FLOOR];
//! // The goal is in sector 9; sector 10, east of it, is left by its west window, cells 30 to 60.
//! let steps = Steps::new(&[Step::goal(9, 44), Step::window(10, Boundary::West, 30, 60)])?;
//! hanjolum::leg_without_sight(&floor, &steps, &mut sheet)?;
//! // A cart's loop. No cost is 0: the moves lead to the goal.
//! let mut moves = 0;
//! let mut at = hanjolum::move_from(&sheet, CART)?;
//! while at.outcome == Outcome::Moved {
//!     moves += 1; // drive to at.place
//!     at = hanjolum::move_from(&sheet, at.place)?;
//! }
//! assert_eq!((at.outcome, at.place, moves), (Outcome::Arrived, GOAL, 15));
//! // The same, told beforehand.
//! let way = hanjolum::way(&sheet, CART)?;
//! assert_eq!((way.outcome, way.place, way.moves), (at.outcome, at.place, moves));
//! # Ok::<(), hanjolum::Refusal>(())
//! ```
#![no_std]

mod cart;
mod field;
mod flow;
mod leg;
mod library;
mod lines;
mod place;
mod practice;
mod refusal;
mod sector;
mod step;
pub mod sys;
mod windows;

pub use cart::{Move, Outcome, Way, move_from, way};
pub use field::{Built, IntegrationField, build, init};
pub use flow::{Direction, FlowByte};
pub use leg::{LegFile, leg, leg_field, leg_field_without_sight, leg_file_read, leg_file_write, leg_without_sight};
pub use library::{LINKED, VERSION, is_same_version, version};
pub use lines::{FieldCell, Line, line, line_end, walk_bresenham_shallow, walk_bresenham_steep};
pub use place::Place;
pub use practice::{PracticeFloor, practice_floor};
pub use refusal::Refusal;
pub use sector::{Arrivals, arrivals, flow_build, flow_new, sector, sector_without_sight};
pub use step::{Boundary, Step, Steps, Target};
pub use windows::{Bounds, Order, Tour, WindowRow, bounds, window_costs, window_tour};

/// Cells of a sector: its cost bytes, and the bytes of its sheet.
pub const CELLS: usize = 100;
/// Bytes of a step.
pub const STEP: usize = 8;
/// Steps of a leg, at most.
pub const STEPS: usize = 16;
/// Windows of a square and of a tour, at most.
pub const WINDOWS: usize = 8;
/// Sectors of a floor.
pub const SECTORS: usize = 64;
/// Bytes of a floor, and of its sheet.
pub const FLOOR: usize = 6400;
/// Bytes of a leg file before its steps.
pub const FILE_HEAD: usize = 6;
/// Bytes of a leg file, at most.
pub const FILE: usize = 134;
/// The cost byte of a wall.
pub const WALL: u8 = 255;
/// The number of moves of arrows that never arrive.
pub const NEVER: u8 = 255;
/// The cost of a cell that nothing reaches.
pub const UNREACHED: u32 = 65535;

/// The programs in the README are run with the other examples.
#[cfg(doctest)]
#[doc = include_str!("../README.md")]
struct Readme;

/// An answer, unless its number is a refusal's.
fn unless_refused<T>(number: u8, answer: T) -> Result<T, Refusal> {
    Refusal::of(number).map_or(Ok(answer), Err)
}
