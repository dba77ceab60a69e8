//! The proved library, as others link it. The build script reads which exports the archive has; a
//! call whose export is not there yet is not offered.

use std::path::{Path, PathBuf};

use crate::subject::*;

pub struct Library;

impl Library {
    /// Says what is wrong where the archive is not there, is older than the source, or lacks one of the calls.
    pub fn found(calls: &[Call]) -> Result<(), String> {
        let archive = env!("ORACLE_ARCHIVE");
        if !cfg!(library) {
            return Err(format!("there is no library {archive}: run `tools/proved/make hanjolum` first"));
        }
        // A library that ORACLE_LIBRARY names may be of any age.
        let ours = Path::new(env!("CARGO_MANIFEST_DIR"));
        let newer = newer_source(&ours.join("../../crates"), Path::new(archive));
        if let Some(source) = newer.filter(|_| Path::new(archive).starts_with(ours)) {
            return Err(format!("the library is older than {}: run `tools/proved/make hanjolum` first", source.display()));
        }
        match calls.iter().find(|call| !Library.offers(**call)) {
            Some(call) => Err(format!("the library {archive} does not export the call {call:?}")),
            None => Ok(()),
        }
    }
}

/// A Rattle source below a folder, programs left out, that is newer than the archive.
pub fn newer_source(folder: &Path, archive: &Path) -> Option<PathBuf> {
    if folder.join("main.rt").exists() {
        return None;
    }
    let changed = |path: &Path| path.metadata().and_then(|file| file.modified()).ok();
    let entries = folder.read_dir().into_iter().flatten().flatten().map(|entry| entry.path());
    entries.into_iter().find_map(|path| match path.is_dir() {
        true => newer_source(&path, archive),
        false => (path.extension().is_some_and(|end| end == "rt") && changed(&path) > changed(archive)).then_some(path),
    })
}

/// `call` where the archive has the export of that name.
macro_rules! exported {
    ($name:tt, $call:expr) => {{
        // SAFETY: the pointers and lengths are those of live slices, and the layouts are the library's.
        #[cfg(export = $name)]
        let answer = unsafe { $call };
        #[cfg(not(export = $name))]
        let answer = missing($name);
        answer
    }};
}

/// Not reached: `offers` is asked before a call.
#[allow(dead_code)]
fn missing<T>(name: &str) -> T {
    unreachable!("the library does not export {name} yet")
}

#[allow(dead_code)]
unsafe extern "C" {
    fn hanjolum_line(source_column: usize, source_row: usize, target_column: usize, target_row: usize) -> Line;
    fn hanjolum_walk_bresenham_shallow(col_0: usize, row_0: usize, col_1: usize, row_1: usize) -> Line;
    fn hanjolum_walk_bresenham_steep(col_0: usize, row_0: usize, col_1: usize, row_1: usize) -> Line;
    fn hanjolum_line_end(corner_column: usize, corner_row: usize, goal_column: usize, goal_row: usize) -> LineEnd;
    fn hanjolum_is_pathable(byte: u8) -> bool;
    fn hanjolum_is_goal(byte: u8) -> bool;
    fn hanjolum_is_portal_goal(byte: u8) -> bool;
    fn hanjolum_has_line_of_sight(byte: u8) -> bool;
    fn hanjolum_is_wall(byte: u8) -> bool;
    fn hanjolum_get_compass_dir_from_bits(byte: u8) -> u8;
    fn hanjolum_init(costs: *const u8, costs_length: usize, step: *const u8, step_length: usize) -> InitAnswer;
    fn hanjolum_build(costs: *const u8, costs_length: usize, field: IntegrationField) -> BuildAnswer;
    fn hanjolum_flow_new(
        step: *const u8,
        step_length: usize,
        field: IntegrationField,
        has_previous: bool,
        previous: *const u32,
        previous_length: usize,
        sheet: *mut u8,
        sheet_length: usize,
    ) -> u8;
    fn hanjolum_flow_build(field: IntegrationField, sheet: *mut u8, sheet_length: usize) -> u8;
    fn hanjolum_sector(
        costs: *const u8,
        costs_length: usize,
        step: *const u8,
        step_length: usize,
        has_previous: bool,
        previous: *const u32,
        previous_length: usize,
        sheet: *mut u8,
        sheet_length: usize,
    ) -> BuildAnswer;
    fn hanjolum_sector_without_sight(
        costs: *const u8,
        costs_length: usize,
        step: *const u8,
        step_length: usize,
        has_previous: bool,
        previous: *const u32,
        previous_length: usize,
        sheet: *mut u8,
        sheet_length: usize,
    ) -> BuildAnswer;
    fn hanjolum_leg(
        floor: *const u8,
        floor_length: usize,
        steps: *const u8,
        steps_length: usize,
        sheet: *mut u8,
        sheet_length: usize,
    ) -> u8;
    fn hanjolum_leg_without_sight(
        floor: *const u8,
        floor_length: usize,
        steps: *const u8,
        steps_length: usize,
        sheet: *mut u8,
        sheet_length: usize,
    ) -> u8;
    fn hanjolum_leg_file_write(steps: *const u8, steps_length: usize, file: *mut u8, file_length: usize) -> u8;
    fn hanjolum_leg_file_read(file: *const u8, file_length: usize) -> LegFile;
    fn hanjolum_practice_floor(seed: u32) -> PracticeFloor;
    fn hanjolum_bounds(
        low: *const u8,
        low_length: usize,
        high: *const u8,
        high_length: usize,
        step: *const u8,
        step_length: usize,
    ) -> Bounds;
    fn hanjolum_window_costs(
        costs: *const u8,
        costs_length: usize,
        steps: *const u8,
        steps_length: usize,
    ) -> WindowCosts;
    fn hanjolum_window_tour(
        costs: *const u8,
        costs_length: usize,
        steps: *const u8,
        steps_length: usize,
        limit: u16,
    ) -> WindowTour;
    fn hanjolum_arrivals(sheet: *const u8, sheet_length: usize) -> Arrivals;
    fn hanjolum_move(sheet: *const u8, sheet_length: usize, sector: u8, cell: u8) -> CartMove;
    fn hanjolum_way(sheet: *const u8, sheet_length: usize, sector: u8, cell: u8) -> CartWay;
    fn hanjolum_leg_field(
        floor: *const u8,
        floor_length: usize,
        steps: *const u8,
        steps_length: usize,
        place: usize,
    ) -> BuildAnswer;
    fn hanjolum_leg_field_without_sight(
        floor: *const u8,
        floor_length: usize,
        steps: *const u8,
        steps_length: usize,
        place: usize,
    ) -> BuildAnswer;
}

#[allow(unused_variables)]
impl Subject for Library {
    fn offers(&self, call: Call) -> bool {
        match call {
            Call::Line => cfg!(export = "hanjolum_line"),
            Call::WalkShallow => cfg!(export = "hanjolum_walk_bresenham_shallow"),
            Call::WalkSteep => cfg!(export = "hanjolum_walk_bresenham_steep"),
            Call::LineEnd => cfg!(export = "hanjolum_line_end"),
            Call::Readers => cfg!(all(
                export = "hanjolum_is_pathable",
                export = "hanjolum_is_goal",
                export = "hanjolum_is_portal_goal",
                export = "hanjolum_has_line_of_sight",
                export = "hanjolum_is_wall",
                export = "hanjolum_get_compass_dir_from_bits"
            )),
            Call::Init => cfg!(export = "hanjolum_init"),
            Call::Build => cfg!(export = "hanjolum_build"),
            Call::FlowNew => cfg!(export = "hanjolum_flow_new"),
            Call::FlowBuild => cfg!(export = "hanjolum_flow_build"),
            Call::Sector => cfg!(export = "hanjolum_sector"),
            Call::SectorWithoutSight => cfg!(export = "hanjolum_sector_without_sight"),
            Call::Leg => cfg!(export = "hanjolum_leg"),
            Call::LegWithoutSight => cfg!(export = "hanjolum_leg_without_sight"),
            Call::LegFileWrite => cfg!(export = "hanjolum_leg_file_write"),
            Call::LegFileRead => cfg!(export = "hanjolum_leg_file_read"),
            Call::PracticeFloor => cfg!(export = "hanjolum_practice_floor"),
            Call::Bounds => cfg!(export = "hanjolum_bounds"),
            Call::WindowCosts => cfg!(export = "hanjolum_window_costs"),
            Call::WindowTour => cfg!(export = "hanjolum_window_tour"),
            Call::Arrivals => cfg!(export = "hanjolum_arrivals"),
            Call::Move => cfg!(export = "hanjolum_move"),
            Call::Way => cfg!(export = "hanjolum_way"),
            Call::LegField => cfg!(export = "hanjolum_leg_field"),
            Call::LegFieldWithoutSight => cfg!(export = "hanjolum_leg_field_without_sight"),
        }
    }

    fn line(&self, source: FieldCell, target: FieldCell) -> Line {
        exported!("hanjolum_line", hanjolum_line(source.column, source.row, target.column, target.row))
    }

    fn walk(&self, steep: bool, source: FieldCell, target: FieldCell) -> Line {
        let (col_0, row_0, col_1, row_1) = (source.column, source.row, target.column, target.row);
        if steep {
            return exported!(
                "hanjolum_walk_bresenham_steep",
                hanjolum_walk_bresenham_steep(col_0, row_0, col_1, row_1)
            );
        }
        exported!("hanjolum_walk_bresenham_shallow", hanjolum_walk_bresenham_shallow(col_0, row_0, col_1, row_1))
    }

    fn line_end(&self, corner: FieldCell, goal: FieldCell) -> LineEnd {
        exported!("hanjolum_line_end", hanjolum_line_end(corner.column, corner.row, goal.column, goal.row))
    }

    fn readings(&self, byte: u8) -> Readings {
        Readings {
            is_pathable: exported!("hanjolum_is_pathable", hanjolum_is_pathable(byte)),
            is_goal: exported!("hanjolum_is_goal", hanjolum_is_goal(byte)),
            is_portal_goal: exported!("hanjolum_is_portal_goal", hanjolum_is_portal_goal(byte)),
            has_line_of_sight: exported!("hanjolum_has_line_of_sight", hanjolum_has_line_of_sight(byte)),
            is_wall: exported!("hanjolum_is_wall", hanjolum_is_wall(byte)),
            direction: exported!("hanjolum_get_compass_dir_from_bits", hanjolum_get_compass_dir_from_bits(byte)),
        }
    }

    fn init(&self, costs: &[u8], step: &[u8]) -> InitAnswer {
        exported!("hanjolum_init", hanjolum_init(costs.as_ptr(), costs.len(), step.as_ptr(), step.len()))
    }

    fn build(&self, costs: &[u8], field: IntegrationField) -> BuildAnswer {
        exported!("hanjolum_build", hanjolum_build(costs.as_ptr(), costs.len(), field))
    }

    fn flow_new(&self, step: &[u8], field: IntegrationField, previous: Previous, sheet: &mut [u8]) -> u8 {
        let (numbers, length) = (previous.numbers.as_ptr(), previous.numbers.len());
        exported!(
            "hanjolum_flow_new",
            hanjolum_flow_new(
                step.as_ptr(),
                step.len(),
                field,
                previous.lent,
                numbers,
                length,
                sheet.as_mut_ptr(),
                sheet.len()
            )
        )
    }

    fn flow_build(&self, field: IntegrationField, sheet: &mut [u8]) -> u8 {
        exported!("hanjolum_flow_build", hanjolum_flow_build(field, sheet.as_mut_ptr(), sheet.len()))
    }

    fn sector(&self, costs: &[u8], step: &[u8], previous: Previous, sheet: &mut [u8]) -> BuildAnswer {
        let (numbers, length) = (previous.numbers.as_ptr(), previous.numbers.len());
        exported!(
            "hanjolum_sector",
            hanjolum_sector(
                costs.as_ptr(),
                costs.len(),
                step.as_ptr(),
                step.len(),
                previous.lent,
                numbers,
                length,
                sheet.as_mut_ptr(),
                sheet.len()
            )
        )
    }

    fn sector_without_sight(&self, costs: &[u8], step: &[u8], previous: Previous, sheet: &mut [u8]) -> BuildAnswer {
        let (numbers, length) = (previous.numbers.as_ptr(), previous.numbers.len());
        exported!(
            "hanjolum_sector_without_sight",
            hanjolum_sector_without_sight(
                costs.as_ptr(),
                costs.len(),
                step.as_ptr(),
                step.len(),
                previous.lent,
                numbers,
                length,
                sheet.as_mut_ptr(),
                sheet.len()
            )
        )
    }

    fn leg(&self, floor: &[u8], steps: &[u8], sheet: &mut [u8]) -> u8 {
        exported!(
            "hanjolum_leg",
            hanjolum_leg(floor.as_ptr(), floor.len(), steps.as_ptr(), steps.len(), sheet.as_mut_ptr(), sheet.len())
        )
    }

    fn leg_without_sight(&self, floor: &[u8], steps: &[u8], sheet: &mut [u8]) -> u8 {
        exported!(
            "hanjolum_leg_without_sight",
            hanjolum_leg_without_sight(
                floor.as_ptr(),
                floor.len(),
                steps.as_ptr(),
                steps.len(),
                sheet.as_mut_ptr(),
                sheet.len()
            )
        )
    }

    fn leg_file_write(&self, steps: &[u8], file: &mut [u8]) -> u8 {
        exported!(
            "hanjolum_leg_file_write",
            hanjolum_leg_file_write(steps.as_ptr(), steps.len(), file.as_mut_ptr(), file.len())
        )
    }

    fn leg_file_read(&self, file: &[u8]) -> LegFile {
        exported!("hanjolum_leg_file_read", hanjolum_leg_file_read(file.as_ptr(), file.len()))
    }

    fn practice_floor(&self, seed: u32) -> PracticeFloor {
        exported!("hanjolum_practice_floor", hanjolum_practice_floor(seed))
    }

    fn bounds(&self, low: &[u8], high: &[u8], step: &[u8]) -> Bounds {
        exported!(
            "hanjolum_bounds",
            hanjolum_bounds(low.as_ptr(), low.len(), high.as_ptr(), high.len(), step.as_ptr(), step.len())
        )
    }

    fn window_costs(&self, costs: &[u8], steps: &[u8]) -> WindowCosts {
        exported!(
            "hanjolum_window_costs",
            hanjolum_window_costs(costs.as_ptr(), costs.len(), steps.as_ptr(), steps.len())
        )
    }

    fn window_tour(&self, costs: &[u8], steps: &[u8], limit: u16) -> WindowTour {
        exported!(
            "hanjolum_window_tour",
            hanjolum_window_tour(costs.as_ptr(), costs.len(), steps.as_ptr(), steps.len(), limit)
        )
    }

    fn arrivals(&self, sheet: &[u8]) -> Arrivals {
        exported!("hanjolum_arrivals", hanjolum_arrivals(sheet.as_ptr(), sheet.len()))
    }

    fn next_move(&self, sheet: &[u8], sector: u8, cell: u8) -> CartMove {
        exported!("hanjolum_move", hanjolum_move(sheet.as_ptr(), sheet.len(), sector, cell))
    }

    fn way(&self, sheet: &[u8], sector: u8, cell: u8) -> CartWay {
        exported!("hanjolum_way", hanjolum_way(sheet.as_ptr(), sheet.len(), sector, cell))
    }

    fn leg_field(&self, floor: &[u8], steps: &[u8], place: usize) -> BuildAnswer {
        exported!(
            "hanjolum_leg_field",
            hanjolum_leg_field(floor.as_ptr(), floor.len(), steps.as_ptr(), steps.len(), place)
        )
    }

    fn leg_field_without_sight(&self, floor: &[u8], steps: &[u8], place: usize) -> BuildAnswer {
        exported!(
            "hanjolum_leg_field_without_sight",
            hanjolum_leg_field_without_sight(floor.as_ptr(), floor.len(), steps.as_ptr(), steps.len(), place)
        )
    }
}
