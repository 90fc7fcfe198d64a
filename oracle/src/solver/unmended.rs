//! The published search without the mends.

// For the published file, which is not ours to change.
#![allow(dead_code, clippy::all)]

use crate::replaced::{hashbrown, log};

include!(concat!(env!("OUT_DIR"), "/unmended.rs"));

#[path = "reading.rs"]
pub mod reading;

/// The rate of a cell whose colours newly solve at most `max` and at least `min` cells, by the published function.
pub fn rate(max: usize, min: usize) -> f64 {
    let priority = Priority::from(0.0);
    <reading::Search>::rate_by_impact([(max, priority), (min, priority)].iter())
}
