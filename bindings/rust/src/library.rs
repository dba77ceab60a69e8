//! Which library is linked, and of which version.

use crate::sys;

/// The version of this crate and of the header that it declares.
pub const VERSION: &str = env!("CARGO_PKG_VERSION");

/// What is linked: `"the C file"`, compiled by the build script, or `"the archive"`, which `HANJOLUM_LIBRARY` named.
pub const LINKED: &str = env!("HANJOLUM_LINKED");

/// The version of the library that is linked: major times 1,000,000, plus minor times 1,000, plus patch. It is this crate's own
/// unless `HANJOLUM_LIBRARY` named an archive of another version: [`is_same_version`] asks.
///
/// # Examples
///
/// ```
/// let version = hanjolum::version();
/// println!("{} of version {}.{}.{}", hanjolum::LINKED, version / 1_000_000, version / 1_000 % 1_000, version % 1_000);
/// # assert_eq!(format!("{}.{}.{}", version / 1_000_000, version / 1_000 % 1_000, version % 1_000), hanjolum::VERSION);
/// ```
pub fn version() -> u32 {
    // SAFETY: nothing is lent.
    unsafe { sys::hanjolum_version() }
}

/// A part of the version as a number.
const fn number(text: &str) -> u32 {
    match u32::from_str_radix(text, 10) {
        Ok(number) => number,
        Err(_) => panic!("a version's parts are numbers"),
    }
}

/// Whether the library that is linked is of this crate's version. A program that asks at its start knows that what this crate
/// declares is what the library has.
///
/// # Examples
///
/// ```
/// assert!(hanjolum::is_same_version(), "the archive is of another version than the crate, {}", hanjolum::VERSION);
/// ```
pub fn is_same_version() -> bool {
    const MAJOR: u32 = number(env!("CARGO_PKG_VERSION_MAJOR"));
    const MINOR: u32 = number(env!("CARGO_PKG_VERSION_MINOR"));
    const PATCH: u32 = number(env!("CARGO_PKG_VERSION_PATCH"));
    version() == MAJOR * 1_000_000 + MINOR * 1_000 + PATCH
}
