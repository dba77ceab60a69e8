//! The Rust reference with two rules altered, those that document 02 names. Job 7: a diagonal is barred by one wall beside
//! it, where the published one needs two, in moves along corner lines and in the look for arrows. Job 11: the row of a
//! corner's line at a column is the nearest whole row to the exact ray, and a line is as long leftward as rightward.

use flowfields::fields::FieldCell;

include!(concat!(env!("OUT_DIR"), "/root.rs"));

/// The nearest whole row to the exact ray from goal through corner at a column away from the goal; an exact half goes to the
/// row nearer the goal's. A whole number, in the type that the Rust has there.
fn nearest_row(corner: &FieldCell, goal: &FieldCell, column: usize) -> f32 {
    let (rise, run) = (corner.get_row().abs_diff(goal.get_row()), corner.get_column().abs_diff(goal.get_column()));
    let rows = (2 * rise * column.abs_diff(goal.get_column()) + run - 1) / (2 * run);
    let down = corner.get_row() > goal.get_row();
    goal.get_row() as f32 + if down { rows as f32 } else { -(rows as f32) }
}
