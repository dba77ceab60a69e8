//! The Rust reference with one line more, which counts the calls of
//! `propagate_integrated_wavefront`. Its fields are asserted equal to the published one's at each use.

use std::cell::Cell;

include!(concat!(env!("OUT_DIR"), "/root.rs"));

thread_local! {
    /// The calls, and the length of the longest wavefront.
    pub static WAVEFRONTS: Cell<(usize, usize)> = const { Cell::new((0, 0)) };
}

/// What the line calls.
fn count(length: usize) {
    WAVEFRONTS.with(|seen| seen.set((seen.get().0 + 1, seen.get().1.max(length))));
}
