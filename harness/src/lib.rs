//! Runs the port beside the Rust that it was ported from. An operation has a module in `compare` and
//! most have one in `bench`; those in `original` read the Rust's private values, and those in
//! `answers` write its answers to fixed cases.

pub mod answers;
#[cfg(feature = "port")]
pub mod bench;
#[cfg(feature = "port")]
pub mod compare;
pub mod original;
#[cfg(feature = "port")]
pub mod port;
pub mod quiet;
pub mod record;
pub mod rng;
pub mod screens;

/// The factors that locating takes (02, R-1).
pub const FACTORS: std::ops::RangeInclusive<usize> = 2..=5;
