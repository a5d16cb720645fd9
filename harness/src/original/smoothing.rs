//! The lines of `get_line` that smooth, cut out of the original (build.rs), as a function of their list.

use std::cmp::{max, min};

include!(env!("FOLGUTAN_OBR_SMOOTHING"));
