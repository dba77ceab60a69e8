//! The declarations of `include/hanjolum.h`, word for word: layouts, functions, and nothing safe about them. The crate's own
//! calls are made of these; the header says what each takes and answers.

use crate::{FieldCell, IntegrationField, PracticeFloor, WindowRow};

/// `HanjolumInitAnswer`.
#[repr(C)]
#[derive(Clone, Copy)]
pub struct InitAnswer {
    /// 0, or the number of the refusal.
    pub number: u8,
    /// The started field.
    pub field: IntegrationField,
}

/// `HanjolumBuildAnswer`.
#[repr(C)]
#[derive(Clone, Copy)]
pub struct BuildAnswer {
    /// 0, or the number of the refusal.
    pub number: u8,
    /// The built field.
    pub field: IntegrationField,
    /// How many waves changed a cell.
    pub waves: u64,
}

/// `HanjolumLine`.
#[repr(C)]
#[derive(Clone, Copy)]
pub struct Line {
    /// 0, or the number of the refusal.
    pub number: u8,
    /// `count` cells from source to target, 0 in the places beyond.
    pub cells: [FieldCell; 10],
    /// How many cells the line has.
    pub count: u64,
}

/// `HanjolumLineEnd`.
#[repr(C)]
#[derive(Clone, Copy)]
pub struct LineEnd {
    /// 0, or the number of the refusal.
    pub number: u8,
    /// The cell at the edge.
    pub cell: FieldCell,
}

/// `HanjolumLegFile`.
#[repr(C)]
#[derive(Clone, Copy)]
pub struct LegFile {
    /// 0, or the number of the refusal.
    pub number: u8,
    /// Where the steps begin.
    pub start: u64,
    /// How many bytes they are.
    pub length: u64,
}

/// `HanjolumBounds`.
#[repr(C)]
#[derive(Clone, Copy)]
pub struct Bounds {
    /// 0, or the number of the refusal.
    pub number: u8,
    /// The least built cost of each cell.
    pub least: [u32; 100],
    /// The greatest built cost of each cell.
    pub greatest: [u32; 100],
    /// Whether the cell is sure.
    pub sure: [bool; 100],
}

/// `HanjolumArrivals`.
#[repr(C)]
#[derive(Clone, Copy)]
pub struct Arrivals {
    /// 0, or the number of the refusal.
    pub number: u8,
    /// The moves of each cell.
    pub moves: [u8; 100],
}

/// `HanjolumWindowCosts`.
#[repr(C)]
#[derive(Clone, Copy)]
pub struct WindowCosts {
    /// 0, or the number of the refusal.
    pub number: u8,
    /// From window i to window j in `rows[i].costs[j]`.
    pub rows: [WindowRow; 8],
}

/// `HanjolumWindowTour`.
#[repr(C)]
#[derive(Clone, Copy)]
pub struct WindowTour {
    /// 0, or the number of the refusal.
    pub number: u8,
    /// An order counts.
    pub found: bool,
    /// All window numbers, 0 leading; 0 in the places behind them.
    pub order: [u8; 8],
    /// Its sum.
    pub sum: u32,
    /// How many orders were tried.
    pub tried: u32,
    /// The least figure.
    pub least: u32,
}

/// `HanjolumMove`.
#[repr(C)]
#[derive(Clone, Copy)]
pub struct Move {
    /// 0, or the number of the refusal.
    pub number: u8,
    /// What the move comes to.
    pub outcome: u8,
    /// The sector where the cart is then.
    pub sector: u8,
    /// Its cell there.
    pub cell: u8,
}

/// `HanjolumWay`.
#[repr(C)]
#[derive(Clone, Copy)]
pub struct Way {
    /// 0, or the number of the refusal.
    pub number: u8,
    /// What the way comes to.
    pub outcome: u8,
    /// The sector where it ends.
    pub sector: u8,
    /// The cell there.
    pub cell: u8,
    /// The number of moves.
    pub moves: u16,
}

#[allow(missing_docs)]
unsafe extern "C" {
    pub fn hanjolum_sector(
        costs: *const u8,
        costs_length: usize,
        step: *const u8,
        step_length: usize,
        has_previous: bool,
        previous: *const u32,
        previous_length: usize,
        sheet: *mut u8,
        sheet_length: usize,
    ) -> BuildAnswer;
    pub fn hanjolum_sector_without_sight(
        costs: *const u8,
        costs_length: usize,
        step: *const u8,
        step_length: usize,
        has_previous: bool,
        previous: *const u32,
        previous_length: usize,
        sheet: *mut u8,
        sheet_length: usize,
    ) -> BuildAnswer;
    pub fn hanjolum_arrivals(sheet: *const u8, sheet_length: usize) -> Arrivals;
    pub fn hanjolum_bounds(
        low: *const u8,
        low_length: usize,
        high: *const u8,
        high_length: usize,
        step: *const u8,
        step_length: usize,
    ) -> Bounds;
    pub fn hanjolum_window_costs(
        costs: *const u8,
        costs_length: usize,
        steps: *const u8,
        steps_length: usize,
    ) -> WindowCosts;
    pub fn hanjolum_window_tour(
        costs: *const u8,
        costs_length: usize,
        steps: *const u8,
        steps_length: usize,
        limit: u16,
    ) -> WindowTour;
    pub fn hanjolum_leg(
        floor: *const u8,
        floor_length: usize,
        steps: *const u8,
        steps_length: usize,
        sheet: *mut u8,
        sheet_length: usize,
    ) -> u8;
    pub fn hanjolum_leg_without_sight(
        floor: *const u8,
        floor_length: usize,
        steps: *const u8,
        steps_length: usize,
        sheet: *mut u8,
        sheet_length: usize,
    ) -> u8;
    pub fn hanjolum_leg_field(
        floor: *const u8,
        floor_length: usize,
        steps: *const u8,
        steps_length: usize,
        place: u64,
    ) -> BuildAnswer;
    pub fn hanjolum_leg_field_without_sight(
        floor: *const u8,
        floor_length: usize,
        steps: *const u8,
        steps_length: usize,
        place: u64,
    ) -> BuildAnswer;
    pub fn hanjolum_move(sheet: *const u8, sheet_length: usize, sector: u8, cell: u8) -> Move;
    pub fn hanjolum_way(sheet: *const u8, sheet_length: usize, sector: u8, cell: u8) -> Way;
    pub fn hanjolum_leg_file_write(steps: *const u8, steps_length: usize, file: *mut u8, file_length: usize) -> u8;
    pub fn hanjolum_leg_file_read(file: *const u8, file_length: usize) -> LegFile;
    pub fn hanjolum_practice_floor(seed: u32) -> PracticeFloor;
    pub fn hanjolum_init(costs: *const u8, costs_length: usize, step: *const u8, step_length: usize) -> InitAnswer;
    pub fn hanjolum_build(costs: *const u8, costs_length: usize, field: IntegrationField) -> BuildAnswer;
    pub fn hanjolum_flow_new(
        step: *const u8,
        step_length: usize,
        field: IntegrationField,
        has_previous: bool,
        previous: *const u32,
        previous_length: usize,
        sheet: *mut u8,
        sheet_length: usize,
    ) -> u8;
    pub fn hanjolum_flow_build(field: IntegrationField, sheet: *mut u8, sheet_length: usize) -> u8;
    pub fn hanjolum_line(source_column: u64, source_row: u64, target_column: u64, target_row: u64) -> Line;
    pub fn hanjolum_walk_bresenham_shallow(col_0: u64, row_0: u64, col_1: u64, row_1: u64) -> Line;
    pub fn hanjolum_walk_bresenham_steep(col_0: u64, row_0: u64, col_1: u64, row_1: u64) -> Line;
    pub fn hanjolum_line_end(corner_column: u64, corner_row: u64, goal_column: u64, goal_row: u64) -> LineEnd;
    pub fn hanjolum_is_pathable(byte: u8) -> bool;
    pub fn hanjolum_is_goal(byte: u8) -> bool;
    pub fn hanjolum_is_portal_goal(byte: u8) -> bool;
    pub fn hanjolum_has_line_of_sight(byte: u8) -> bool;
    pub fn hanjolum_is_wall(byte: u8) -> bool;
    pub fn hanjolum_get_compass_dir_from_bits(byte: u8) -> u8;
    pub fn hanjolum_version() -> u32;
}
