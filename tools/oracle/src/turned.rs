//! Which arrows turn: a leg planned by the published Rust, by the altered one and by a side, byte beside byte. What the
//! published Rust does is its four calls, sector by sector from the goal back, each with the built field of the sector before;
//! it knows nothing of window cells that do not count (02, Job 2) and takes a step onto a wall (02, Job 3).

use std::panic::{self, AssertUnwindSafe};

use crate::copies::{altered, published};
use crate::oracle::Oracle;
use crate::refusals::named_cells;
use crate::subject::{CELLS, IntegrationField, Subject};

/// The flow bytes of a sector.
pub type Sheet = [u8; CELLS];

/// What `get_compass_dir_from_bits` says of a byte without an arrow.
pub const NO_ARROW: u8 = 8;

/// A leg that is refused: its number, the place in the list of the step that it is refused for, and whether it was to be
/// planned with sight.
#[derive(Clone, Copy, PartialEq, Eq, Debug)]
pub struct Refused {
    pub number: u8,
    pub place: usize,
    pub sight: bool,
}

/// Why a byte is not the published Rust's, as far as that can be told by asking other programs.
#[derive(Clone, Copy, PartialEq, Eq, Debug)]
pub enum Cause {
    /// The published Rust's own field, looked at with Job 7's rule, gives the byte.
    Look,
    /// In the goal's sector: the altered Rust, whose corners' lines are others, gives the byte.
    Lines,
    /// In a window: the altered Rust gives the byte, since the built field across the window is another.
    Facing,
    /// Neither Rust gives the byte, and they agree: some window cell does not count.
    Counting,
    /// Neither Rust gives the byte, and they differ: some window cell does not count, and Job 7 or 11 has a part in it.
    CountingToo,
    /// Planned without sight: in the goal's sector, or where the leg with sight has another byte.
    Sightless,
    /// What decides in the comparison, the altered Rust or the model, has another byte too.
    Unexplained,
}

impl Cause {
    pub const ALL: [Cause; 7] = [
        Cause::Look,
        Cause::Lines,
        Cause::Facing,
        Cause::Counting,
        Cause::CountingToo,
        Cause::Sightless,
        Cause::Unexplained,
    ];
}

/// What a byte that differs does to a cell's arrow.
#[derive(Clone, Copy, PartialEq, Eq, Debug)]
pub enum Turn {
    /// It points elsewhere.
    Turns,
    /// There was none.
    Comes,
    /// There is none any more.
    Goes,
    /// It stays as it was, or there is none in either: a flag differs.
    Stays,
}

/// A cell whose byte is not the published Rust's.
#[derive(Clone, Copy, PartialEq, Eq, Debug)]
pub struct Turned {
    pub cell: usize,
    pub old: u8,
    pub new: u8,
    pub cause: Cause,
}

impl Turned {
    pub fn turn(&self) -> Turn {
        match (direction(self.old), direction(self.new)) {
            (old, new) if old == new => Turn::Stays,
            (NO_ARROW, _) => Turn::Comes,
            (_, NO_ARROW) => Turn::Goes,
            _ => Turn::Turns,
        }
    }
}

/// Where a byte points, by the published Rust's own reader.
pub fn direction(byte: u8) -> u8 {
    published::readings(byte).direction
}

/// A sector by the two copies of the Rust.
pub struct ByRust {
    /// What the published Rust wrote, or the words of its panic; behind a panic it is not asked on.
    pub published: Result<Sheet, String>,
    /// The published Rust's field and starting bytes, with the arrows that the altered look gives.
    looked: Result<Sheet, String>,
    pub altered: Sheet,
}

/// A sheet that a side wrote for a sector, and what the judge of the comparison has there.
#[derive(Clone, Copy)]
pub struct Written {
    pub bytes: Sheet,
    judged: Sheet,
}

/// A sector of a leg, planned in every way.
pub struct Sector {
    pub step: [u8; 8],
    pub rust: ByRust,
    pub sighted: Written,
    /// Where that was asked for.
    pub sightless: Option<Written>,
}

/// What the work answers, or the words of its panic, which are not printed.
pub fn caught<T>(work: impl FnOnce() -> T) -> Result<T, String> {
    let hook = panic::take_hook();
    panic::set_hook(Box::new(|_| {}));
    let answer = panic::catch_unwind(AssertUnwindSafe(work));
    panic::set_hook(hook);
    answer.map_err(|fault| match (fault.downcast_ref::<&str>(), fault.downcast_ref::<String>()) {
        (Some(words), _) => words.to_string(),
        (_, Some(words)) => words.clone(),
        _ => "without words".to_string(),
    })
}

/// Where a step's sector stands in a floor and in a sheet.
fn part(step: &[u8]) -> std::ops::Range<usize> {
    usize::from(step[0]) * CELLS..(usize::from(step[0]) + 1) * CELLS
}

/// A sector's built field and bytes by the published Rust, and the bytes that the altered look gives on that field.
fn published_sector(costs: &[u8], step: &[u8], before: Option<&[u32]>) -> (IntegrationField, Sheet, Sheet) {
    let (field, bytes) = published::planned(costs, step, before);
    let looked = altered::flow_build(&field.field, &published::flow_new(step, &field.field, before));
    (field, bytes, looked)
}

/// The steps of a leg by the published Rust: what it wrote for each, and the altered look on its fields.
pub fn by_published(floor: &[u8], steps: &[u8]) -> Vec<Result<(Sheet, Sheet), String>> {
    let mut before: Result<Option<IntegrationField>, String> = Ok(None);
    let mut planned = Vec::new();
    for step in steps.chunks(8) {
        let answer = before.and_then(|field| {
            let numbers = field.as_ref().map(|field| &field.field[..]);
            caught(|| published_sector(&floor[part(step)], step, numbers))
        });
        planned.push(answer.clone().map(|(_, bytes, looked)| (bytes, looked)));
        before = answer.map(|(field, _, _)| Some(field));
    }
    planned
}

/// The same by the altered Rust.
fn by_altered(floor: &[u8], steps: &[u8]) -> Vec<Sheet> {
    let mut before: Option<IntegrationField> = None;
    let mut planned = Vec::new();
    for step in steps.chunks(8) {
        let numbers = before.as_ref().map(|field| &field.field[..]);
        let (field, bytes) = altered::planned(&floor[part(step)], step, numbers);
        planned.push(bytes);
        before = Some(field);
    }
    planned
}

/// A leg by a side, with sight or without.
fn leg(side: &dyn Subject, sight: bool, floor: &[u8], steps: &[u8], sheet: &mut [u8]) -> u8 {
    if sight { side.leg(floor, steps, sheet) } else { side.leg_without_sight(floor, steps, sheet) }
}

/// The whole sheet of a leg by a side. Refused is the last step of the fewest that are refused with the leg's number.
fn by_side(side: &dyn Subject, sight: bool, floor: &[u8], steps: &[u8]) -> Result<Vec<u8>, Refused> {
    let mut sheet = vec![0; floor.len()];
    let number = leg(side, sight, floor, steps, &mut sheet);
    if number == 0 {
        return Ok(sheet);
    }
    let refused = |count: &usize| leg(side, sight, floor, &steps[..8 * count], &mut sheet) == number;
    let count = (1..steps.len() / 8).find(refused).unwrap_or(steps.len() / 8);
    Err(Refused { number, place: count - 1, sight })
}

/// What a side wrote for each step, beside what decides in the comparison.
fn written(side: &dyn Subject, sight: bool, floor: &[u8], steps: &[u8]) -> Result<Vec<Written>, Refused> {
    let sheet = by_side(side, sight, floor, steps)?;
    let mut judged = vec![0; floor.len()];
    leg(&Oracle, sight, floor, steps, &mut judged);
    let bytes = |sheet: &[u8], step: &[u8]| sheet[part(step)].try_into().expect("a sector has a hundred cells");
    let each = steps.chunks(8).map(|step| Written { bytes: bytes(&sheet, step), judged: bytes(&judged, step) });
    Ok(each.collect())
}

/// Plans a leg in every way: each step's sector, in the order of the list, or the number that the side refuses it with.
pub fn plan(side: &dyn Subject, sightless: bool, floor: &[u8], steps: &[u8]) -> Result<Vec<Sector>, Refused> {
    let sighted = written(side, true, floor, steps)?;
    let sightless = if sightless { Some(written(side, false, floor, steps)?) } else { None };
    let rusts = by_published(floor, steps).into_iter().zip(by_altered(floor, steps));
    let sectors = steps.chunks(8).zip(rusts).enumerate().map(|(place, (step, (published, altered)))| {
        let (published, looked) = published.map_or_else(|e| (Err(e.clone()), Err(e)), |(a, b)| (Ok(a), Ok(b)));
        Sector {
            step: step.try_into().expect("a step has 8 bytes"),
            rust: ByRust { published, looked, altered },
            sighted: sighted[place],
            sightless: sightless.as_ref().map(|list| list[place]),
        }
    });
    Ok(sectors.collect())
}

impl Sector {
    pub fn number(&self) -> usize {
        usize::from(self.step[0])
    }

    /// Whether a cell is one of the step's window.
    pub fn in_window(&self, cell: usize) -> bool {
        self.step[2] == 1 && named_cells(&self.step).contains(&cell)
    }

    /// The window cells that do not count: the library marks those that do as a way out of the sector.
    pub fn idle(&self) -> Vec<usize> {
        let counts = |cell: usize| published::readings(self.sighted.bytes[cell]).is_portal_goal;
        (0..CELLS).filter(|cell| self.in_window(*cell) && !counts(*cell)).collect()
    }

    /// The cells whose byte is not the published Rust's, with sight or without; none where there is nothing to compare.
    pub fn turned(&self, sight: bool) -> Vec<Turned> {
        let (Ok(old), Some(written)) = (&self.rust.published, self.written(sight)) else { return Vec::new() };
        let differs = |cell: &usize| old[*cell] != written.bytes[*cell];
        let named = |cell| Turned { cell, old: old[cell], new: written.bytes[cell], cause: self.cause(sight, cell) };
        (0..CELLS).filter(differs).map(named).collect()
    }

    /// The cells of a sheet that what decides in the comparison has otherwise, whatever the published Rust says of them.
    pub fn misjudged(&self, sight: bool) -> Vec<usize> {
        let Some(written) = self.written(sight) else { return Vec::new() };
        (0..CELLS).filter(|cell| written.bytes[*cell] != written.judged[*cell]).collect()
    }

    pub fn written(&self, sight: bool) -> Option<&Written> {
        if sight { Some(&self.sighted) } else { self.sightless.as_ref() }
    }

    /// Why a cell's byte is not the published Rust's.
    fn cause(&self, sight: bool, cell: usize) -> Cause {
        let Some(written) = self.written(sight) else { return Cause::Unexplained };
        let new = written.bytes[cell];
        if new != written.judged[cell] {
            return Cause::Unexplained;
        }
        if !sight && (self.step[2] == 0 || new != self.sighted.bytes[cell]) {
            return Cause::Sightless;
        }
        let given = |sheet: &Result<Sheet, String>| sheet.as_ref().is_ok_and(|bytes| bytes[cell] == new);
        match new == self.rust.altered[cell] {
            true if given(&self.rust.looked) => Cause::Look,
            true if self.in_window(cell) => Cause::Facing,
            true => Cause::Lines,
            false if self.rust.published.as_ref().is_ok_and(|old| old[cell] == self.rust.altered[cell]) => {
                Cause::Counting
            }
            false => Cause::CountingToo,
        }
    }
}
