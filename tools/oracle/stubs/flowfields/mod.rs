//! Stands in for the unpublished `flowfields/mod.rs`: the modules that were published.

pub mod fields;
pub mod portal;
pub mod route;
pub mod sectors;
pub mod utilities;
