//! What is compared: the calls of document 01, in the library's own layout.

/// The cells of a sector.
pub const CELLS: usize = 100;

/// The windows of a list, at most: the rows of a square of costs, and the places of a row.
pub const WINDOWS: usize = 8;

pub const LOS: u32 = 0x10000;
pub const GOAL: u32 = 0x20000;
pub const BLOCKED: u32 = 0x40000;
pub const PORTAL: u32 = 0x80000;
pub const IMPASSABLE: u32 = 0x2000000;
pub const CORNER: u32 = 0x4000000;

/// What a cell holds that has no position.
pub const NO_POSITION: u8 = 255;

/// An integration field: cells, corner list, count, and for each cell a position in that list.
#[repr(C)]
#[derive(Clone, Copy, PartialEq, Eq, Debug)]
pub struct IntegrationField {
    pub field: [u32; CELLS],
    pub los_corners: [usize; CELLS],
    pub count: usize,
    pub positions: [u8; CELLS],
}

// The size that the header tells.
const _: () = assert!(size_of::<IntegrationField>() == 1312);

impl IntegrationField {
    pub const ZERO: Self =
        IntegrationField { field: [0; CELLS], los_corners: [0; CELLS], count: 0, positions: [0; CELLS] };

    /// A field of these cells with these corners listed, at most 100, and no positions.
    pub fn new(field: [u32; CELLS], corners: &[usize]) -> Self {
        let mut los_corners = [0; CELLS];
        los_corners[..corners.len()].copy_from_slice(corners);
        IntegrationField { field, los_corners, count: corners.len(), positions: [NO_POSITION; CELLS] }
    }

    /// The same field with these positions.
    pub fn with_positions(self, positions: [u8; CELLS]) -> Self {
        IntegrationField { positions, ..self }
    }

    /// The listed corners of a field whose count is at most 100.
    pub fn corners(&self) -> &[usize] {
        &self.los_corners[..self.count]
    }
}

#[repr(C)]
#[derive(Clone, Copy, PartialEq, Eq, Debug)]
pub struct InitAnswer {
    pub number: u8,
    pub field: IntegrationField,
}

/// What `build` and the sector calls answer.
#[repr(C)]
#[derive(Clone, Copy, PartialEq, Eq, Debug)]
pub struct BuildAnswer {
    pub number: u8,
    pub field: IntegrationField,
    pub waves: usize,
}

#[repr(C)]
#[derive(Clone, Copy, PartialEq, Eq, Debug, Default)]
pub struct FieldCell {
    pub column: usize,
    pub row: usize,
}

impl FieldCell {
    pub fn from_index(index: usize) -> Self {
        FieldCell { column: index % 10, row: index / 10 }
    }
}

#[repr(C)]
#[derive(Clone, Copy, PartialEq, Eq, Debug, Default)]
pub struct Line {
    pub number: u8,
    pub cells: [FieldCell; 10],
    pub count: usize,
}

#[repr(C)]
#[derive(Clone, Copy, PartialEq, Eq, Debug, Default)]
pub struct LineEnd {
    pub number: u8,
    pub cell: FieldCell,
}

/// Where the steps stand in a leg's file.
#[repr(C)]
#[derive(Clone, Copy, PartialEq, Eq, Debug, Default)]
pub struct LegFile {
    pub number: u8,
    pub start: usize,
    pub length: usize,
}

/// The costs that a seed gives, and the goal.
#[repr(C)]
#[derive(Clone, Copy, PartialEq, Eq, Debug)]
pub struct PracticeFloor {
    pub costs: [u8; CELLS],
    pub goal: u8,
}

/// For each cell the least and the greatest built cost over all floors between two, and whether it is sure.
#[repr(C)]
#[derive(Clone, Copy, PartialEq, Eq, Debug)]
pub struct Bounds {
    pub number: u8,
    pub least: [u32; CELLS],
    pub greatest: [u32; CELLS],
    pub sure: [bool; CELLS],
}

/// The costs from one window to each.
#[repr(C)]
#[derive(Clone, Copy, PartialEq, Eq, Debug)]
pub struct WindowRow {
    pub costs: [u32; WINDOWS],
}

/// The costs from window to window: in row i at place j those from window i to window j.
#[repr(C)]
#[derive(Clone, Copy, PartialEq, Eq, Debug)]
pub struct WindowCosts {
    pub number: u8,
    pub rows: [WindowRow; WINDOWS],
}

impl WindowCosts {
    pub fn new(number: u8, square: [[u32; WINDOWS]; WINDOWS]) -> Self {
        WindowCosts { number, rows: square.map(|costs| WindowRow { costs }) }
    }

    pub fn square(&self) -> [[u32; WINDOWS]; WINDOWS] {
        self.rows.map(|row| row.costs)
    }
}

/// A tour of windows: whether an order of those tried counts, the best of them, its sum, how many were tried, and a figure
/// that no order's sum goes under.
#[repr(C)]
#[derive(Clone, Copy, PartialEq, Eq, Debug)]
pub struct WindowTour {
    pub number: u8,
    pub found: bool,
    pub order: [u8; WINDOWS],
    pub sum: u32,
    pub tried: u32,
    pub least: u32,
}

/// For each cell of a sheet the number of moves after which its arrows arrive, `NEVER` where they do not.
#[repr(C)]
#[derive(Clone, Copy, PartialEq, Eq, Debug)]
pub struct Arrivals {
    pub number: u8,
    pub moves: [u8; CELLS],
}

/// The number of moves of arrows that never arrive.
pub const NEVER: u8 = 255;

/// What a cart's call says of its place.
pub mod outcome {
    pub const STOPPED: u8 = 0;
    pub const MOVED: u8 = 1;
    pub const ARRIVED: u8 = 2;
    pub const IN_SIGHT: u8 = 3;
    /// Of a way alone.
    pub const NEVER: u8 = 4;
}

/// Where a cart's move leads.
#[repr(C)]
#[derive(Clone, Copy, PartialEq, Eq, Debug, Default)]
pub struct CartMove {
    pub number: u8,
    pub outcome: u8,
    pub sector: u8,
    pub cell: u8,
}

/// Where a cart's way ends, and after how many moves.
#[repr(C)]
#[derive(Clone, Copy, PartialEq, Eq, Debug, Default)]
pub struct CartWay {
    pub number: u8,
    pub outcome: u8,
    pub sector: u8,
    pub cell: u8,
    pub moves: u16,
}

// The sizes that the header tells.
const _: () = assert!(size_of::<CartMove>() == 4 && size_of::<CartWay>() == 6);

/// A yes or no, and the numbers lent beside it.
#[derive(Clone, Copy, Debug)]
pub struct Previous<'a> {
    pub lent: bool,
    pub numbers: &'a [u32],
}

/// What the byte readers say of a byte; the direction by its place in the enum, 8 for `Zero`.
#[derive(Clone, Copy, PartialEq, Eq, Debug)]
pub struct Readings {
    pub is_pathable: bool,
    pub is_goal: bool,
    pub is_portal_goal: bool,
    pub has_line_of_sight: bool,
    pub is_wall: bool,
    pub direction: u8,
}

/// The calls, as the library exports them.
#[derive(Clone, Copy, PartialEq, Eq, Debug)]
pub enum Call {
    Line,
    WalkShallow,
    WalkSteep,
    LineEnd,
    Readers,
    Init,
    Build,
    FlowNew,
    FlowBuild,
    Sector,
    SectorWithoutSight,
    Leg,
    LegWithoutSight,
    LegFileWrite,
    LegFileRead,
    PracticeFloor,
    Bounds,
    WindowCosts,
    WindowTour,
    Arrivals,
    Move,
    Way,
    LegField,
    LegFieldWithoutSight,
}

/// A side of the comparison. A refusal answers its number, zeros else, and writes nothing.
pub trait Subject {
    /// Whether the side has the call yet.
    fn offers(&self, call: Call) -> bool;
    fn line(&self, source: FieldCell, target: FieldCell) -> Line;
    /// A walk by itself, through the rows where it is steep, else through the columns.
    fn walk(&self, steep: bool, source: FieldCell, target: FieldCell) -> Line;
    fn line_end(&self, corner: FieldCell, goal: FieldCell) -> LineEnd;
    fn readings(&self, byte: u8) -> Readings;
    fn init(&self, costs: &[u8], step: &[u8]) -> InitAnswer;
    fn build(&self, costs: &[u8], field: IntegrationField) -> BuildAnswer;
    fn flow_new(&self, step: &[u8], field: IntegrationField, previous: Previous, sheet: &mut [u8]) -> u8;
    fn flow_build(&self, field: IntegrationField, sheet: &mut [u8]) -> u8;
    fn sector(&self, costs: &[u8], step: &[u8], previous: Previous, sheet: &mut [u8]) -> BuildAnswer;
    /// The sector call with a goal as the one listed corner, and no sight.
    fn sector_without_sight(&self, costs: &[u8], step: &[u8], previous: Previous, sheet: &mut [u8]) -> BuildAnswer;
    fn leg(&self, floor: &[u8], steps: &[u8], sheet: &mut [u8]) -> u8;
    /// A leg whose first step is planned so.
    fn leg_without_sight(&self, floor: &[u8], steps: &[u8], sheet: &mut [u8]) -> u8;
    fn leg_file_write(&self, steps: &[u8], file: &mut [u8]) -> u8;
    fn leg_file_read(&self, file: &[u8]) -> LegFile;
    fn practice_floor(&self, seed: u32) -> PracticeFloor;
    fn bounds(&self, low: &[u8], high: &[u8], step: &[u8]) -> Bounds;
    fn window_costs(&self, costs: &[u8], steps: &[u8]) -> WindowCosts;
    fn window_tour(&self, costs: &[u8], steps: &[u8], limit: u16) -> WindowTour;
    fn arrivals(&self, sheet: &[u8]) -> Arrivals;
    /// One move of a cart over a floor's sheet.
    fn next_move(&self, sheet: &[u8], sector: u8, cell: u8) -> CartMove;
    /// The moves until it stands still.
    fn way(&self, sheet: &[u8], sector: u8, cell: u8) -> CartWay;
    /// The built field of the step at a place of a leg's list, from 0.
    fn leg_field(&self, floor: &[u8], steps: &[u8], place: usize) -> BuildAnswer;
    /// The same of a leg without sight.
    fn leg_field_without_sight(&self, floor: &[u8], steps: &[u8], place: usize) -> BuildAnswer;
}

/// The answers of a refusal.
pub mod refused {
    use super::*;

    pub fn init(number: u8) -> InitAnswer {
        InitAnswer { number, field: IntegrationField::ZERO }
    }

    pub fn build(number: u8) -> BuildAnswer {
        BuildAnswer { number, field: IntegrationField::ZERO, waves: 0 }
    }

    pub fn bounds(number: u8) -> Bounds {
        Bounds { number, least: [0; CELLS], greatest: [0; CELLS], sure: [false; CELLS] }
    }

    pub fn window_costs(number: u8) -> WindowCosts {
        WindowCosts::new(number, [[0; WINDOWS]; WINDOWS])
    }

    pub fn window_tour(number: u8) -> WindowTour {
        WindowTour { number, found: false, order: [0; WINDOWS], sum: 0, tried: 0, least: 0 }
    }

    pub fn arrivals(number: u8) -> Arrivals {
        Arrivals { number, moves: [0; CELLS] }
    }

    pub fn cart_move(number: u8) -> CartMove {
        CartMove { number, ..CartMove::default() }
    }

    pub fn way(number: u8) -> CartWay {
        CartWay { number, ..CartWay::default() }
    }

    pub fn line(number: u8) -> Line {
        Line { number, ..Line::default() }
    }

    pub fn line_end(number: u8) -> LineEnd {
        LineEnd { number, ..LineEnd::default() }
    }
}
