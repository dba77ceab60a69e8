//! The Rust reference, as published. Its files are laid out by the build script (crate `prepare`).

include!(concat!(env!("OUT_DIR"), "/root.rs"));
