use prepare::Change;

/// The first lines of `propagate_integrated_wavefront`, and a line more, which counts its calls and keeps the length of
/// the longest wavefront.
const COUNT: Change = Change {
    file: "fields/integration_field.rs",
    old: "\twavefront: Vec<(usize, u32)>,\n) {\n",
    new: "\twavefront: Vec<(usize, u32)>,\n) {\n\tcrate::count(wavefront.len());\n",
    times: 1,
};

fn main() {
    prepare::lay_out(&[COUNT]);
}
