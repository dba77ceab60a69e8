//! Stands in for Bevy: the names that the published files use, with nothing behind them.

pub mod reflect {
    pub use bevy_derive::Reflect;
}

pub mod prelude {
    pub use crate::reflect::Reflect;
    pub use crate::{debug, error, warn};
}

#[macro_export]
macro_rules! warn {
    ($($word:tt)*) => {{
        let _ = format!($($word)*);
    }};
}

#[macro_export]
macro_rules! error {
    ($($word:tt)*) => {{
        let _ = format!($($word)*);
    }};
}

#[macro_export]
macro_rules! debug {
    ($($word:tt)*) => {{
        let _ = format!($($word)*);
    }};
}
