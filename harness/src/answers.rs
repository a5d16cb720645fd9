//! The Rust's answers to fixed cases, as text that the port's programs print too.

mod asked;
pub mod load;
pub mod locate;
pub mod screens;
