//! The copies of the Rust, each asked in the types of this crate. What is asked has passed the table: a hundred costs,
//! eight good bytes of a step, coordinates from 0 to 9.

use crate::subject::{CELLS, IntegrationField};

macro_rules! copy_of_the_rust {
    ($(#[$text:meta])* $name:ident, $copy:ident) => {
        $(#[$text])*
        pub mod $name {
            use ::$copy::flowfields as rust;
            use rust::fields::bresenham::{walk_bresenham_shallow, walk_bresenham_steep};
            use rust::fields::cost_field::CostField;
            use rust::fields::flow_field::{self, FlowField};
            use rust::fields::integration_field::{IntegrationField as RustField, oracle_line_end};
            use rust::fields::{Field, FieldCell as RustCell};
            use rust::portal::PortalWindow;
            use rust::route::RouteStep;
            use rust::sectors::SectorID;
            use rust::utilities::CompassDir;

            use crate::subject::*;

            const BOUNDARIES: [CompassDir; 4] =
                [CompassDir::North, CompassDir::East, CompassDir::South, CompassDir::West];

            fn hundred<T: Copy>(values: &[T]) -> [T; CELLS] {
                values.try_into().expect("the table lets only a hundred pass")
            }

            fn cell(at: FieldCell) -> RustCell {
                RustCell::new(at.column, at.row)
            }

            fn answered(at: &RustCell) -> FieldCell {
                FieldCell { column: at.get_column(), row: at.get_row() }
            }

            pub fn route_step(step: &[u8]) -> RouteStep {
                let (sector, goal) = (i32::from(step[0]), usize::from(step[1]));
                let portal = (step[2] == 1).then(|| {
                    let ends = [step[3], step[4]].map(|index| RustCell::from_index(usize::from(index)));
                    PortalWindow::new(ends[0], ends[1], BOUNDARIES[usize::from(step[5])])
                });
                RouteStep::new(&SectorID::new(sector % 8, sector / 8), goal, portal)
            }

            pub fn cost_field(costs: &[u8]) -> CostField {
                CostField::oracle_from(hundred(costs))
            }

            /// A field without a list, which flow calls do not look at.
            pub fn cells_alone(cells: &[u32]) -> RustField {
                RustField::oracle_from(hundred(cells), Vec::new())
            }

            fn from_rust(field: &RustField) -> IntegrationField {
                IntegrationField::new(*field.get(), field.oracle_corners())
            }

            pub fn line(source: FieldCell, target: FieldCell) -> Vec<FieldCell> {
                cell(source).get_cells_between_points(&cell(target)).iter().map(answered).collect()
            }

            pub fn walk(steep: bool, source: FieldCell, target: FieldCell) -> Vec<FieldCell> {
                let walk = if steep { walk_bresenham_steep } else { walk_bresenham_shallow };
                let [a, b, c, d] = [source.column, source.row, target.column, target.row].map(|x| x as i32);
                walk(a, b, c, d).iter().map(answered).collect()
            }

            pub fn line_end(corner: FieldCell, goal: FieldCell) -> FieldCell {
                answered(&oracle_line_end(&cell(corner), &cell(goal)))
            }

            pub fn readings(byte: u8) -> Readings {
                Readings {
                    is_pathable: flow_field::is_pathable(byte),
                    is_goal: flow_field::is_goal(byte),
                    is_portal_goal: flow_field::is_portal_goal(byte),
                    has_line_of_sight: flow_field::has_line_of_sight(byte),
                    is_wall: flow_field::is_wall(byte),
                    direction: flow_field::get_compass_dir_from_bits(byte) as u8,
                }
            }

            /// The cells of a step's window, in order; a goal step has none.
            pub fn window_cells(step: &[u8]) -> Vec<usize> {
                route_step(step).portal().map_or(Vec::new(), |window| window.get_all_window_cells())
            }

            /// `IntegrationField::init`.
            pub fn started(costs: &[u8], step: &[u8]) -> IntegrationField {
                from_rust(&RustField::init(&cost_field(costs), &route_step(step)))
            }

            /// `IntegrationField::build`.
            pub fn built(costs: &[u8], field: &IntegrationField) -> IntegrationField {
                let mut field = RustField::oracle_from(field.field, field.corners().to_vec());
                field.build(&cost_field(costs));
                from_rust(&field)
            }

            /// `FlowField::new`.
            pub fn flow_new(step: &[u8], cells: &[u32; CELLS], previous: Option<&[u32]>) -> [u8; CELLS] {
                let previous = previous.map(cells_alone);
                *FlowField::new(&route_step(step), &cells_alone(cells), previous.as_ref()).get()
            }

            /// `FlowField::build`, on bytes that are there.
            pub fn flow_build(cells: &[u32; CELLS], sheet: &[u8]) -> [u8; CELLS] {
                let mut flow = FlowField::oracle_from(hundred(sheet));
                flow.build(&cells_alone(cells));
                *flow.get()
            }

            /// The built field and the flow bytes of a sector: the four calls, one after the other.
            pub fn planned(
                costs: &[u8],
                step: &[u8],
                previous: Option<&[u32]>,
            ) -> (IntegrationField, [u8; CELLS]) {
                let field = built(costs, &started(costs, step));
                (field, flow_build(&field.field, &flow_new(step, &field.field, previous)))
            }
        }
    };
}

copy_of_the_rust! {
    /// The nine files as they are.
    published, reference
}

copy_of_the_rust! {
    /// The same with two rules altered, those that document 02 asks for: of diagonals (Job 7) and of line ends (Job 11).
    altered, altered
}

copy_of_the_rust! {
    /// The published files with one line more.
    counting, counted
}

/// What the counted copy makes of a field.
pub struct Counted {
    pub cells: [u32; CELLS],
    /// The calls of `propagate_integrated_wavefront` but the first.
    pub waves: usize,
    /// The entries of the longest wavefront.
    pub longest: usize,
}

/// The counted copy's build.
pub fn counted_build(costs: &[u8], field: &IntegrationField) -> Counted {
    counted::WAVEFRONTS.set((0, 0));
    let built = counting::built(costs, field);
    let (calls, longest) = counted::WAVEFRONTS.get();
    Counted { cells: built.field, waves: calls - 1, longest }
}
