//! The Rust reference beside the proved library: what both are asked, and how they are compared.

pub mod between;
pub mod cart_records;
pub mod cases;
pub mod clear;
pub mod command;
pub mod copies;
pub mod drawing;
pub mod drive;
pub mod fence;
pub mod floors;
pub mod groups;
pub mod journey;
pub mod judges;
pub mod leg_fields;
pub mod library;
pub mod model;
pub mod oracle;
pub mod records;
pub mod refusals;
pub mod shrink;
pub mod squares;
pub mod subject;
pub mod tours;
pub mod turned;
pub mod turned_text;
pub mod without_sight;
