//! The Rust original, unchanged. The modules below it reach its private fields and functions;
//! `probed` has a copy of it that narrows by the factor of the run, goes on with the edge picture of the
//! last narrowing and scores column c_2 - 2 and row r_2 - 2 too, with lines added, which store the locals
//! that `probe` holds. `smoothing` has the lines of `get_line` that smooth.

include!(env!("FOLGUTAN_OBR_FILE"));

pub mod load;
pub mod locate;
pub mod probe;
pub mod probed;
pub mod smoothing;
pub mod steps;
