//! The published search with the four mends of docs/RULES.md, and what its patches call.

// For the published file, which is not ours to change.
#![allow(dead_code, clippy::all)]

use crate::replaced::{hashbrown, log};

include!(concat!(env!("OUT_DIR"), "/mended.rs"));

mod mends;
#[path = "reading.rs"]
pub mod reading;
