//! The published probing and search, compiled where the original has them, over the stand-in's line and propagation.

pub mod line;
pub mod mended;
pub mod propagation;
pub mod unmended;

/// The published probing, with no change, for both builds.
pub mod probing {
    use crate::replaced::{hashbrown, log, ordered_float, priority_queue};

    include!(concat!(env!("OUT_DIR"), "/probing.rs"));
}
