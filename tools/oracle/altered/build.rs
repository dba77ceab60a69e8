use prepare::Change;

/// The diagonal stop of a line, in four directions (02, Job 7).
const LINE: Change = Change {
    file: "fields/integration_field.rs",
    old: " == INT_BITS_IMPASSABLE && ",
    new: " == INT_BITS_IMPASSABLE || ",
    times: 4,
};

/// The diagonal that a look passes over, in four directions (02, Job 7).
const LOOK: Change = Change {
    file: "fields/flow_field.rs",
    old: "_this_value & INT_BITS_IMPASSABLE == INT_BITS_IMPASSABLE\n\t\t\t\t\t\t&& ",
    new: "_this_value & INT_BITS_IMPASSABLE == INT_BITS_IMPASSABLE\n\t\t\t\t\t\t|| ",
    times: 4,
};

/// The row of a corner's line at a column, rightward and leftward (02, Job 11).
const ROW: Change = Change {
    file: "fields/integration_field.rs",
    old: "(gradient * (end_col as f32) + intercept).floor()",
    new: "crate::nearest_row(corner, goal, end_col)",
    times: 2,
};

/// Leftward, what ends a line on row 0 before the edge column: a row below 0, as rightward, and no longer row 0 itself
/// (02, Job 11).
const LEAVES: Change = Change {
    file: "fields/integration_field.rs",
    old: "if end_row == 0 {",
    new: "if crate::nearest_row(corner, goal, end_col) < 0.0 {",
    times: 1,
};

fn main() {
    prepare::lay_out(&[LINE, LOOK, ROW, LEAVES]);
}
