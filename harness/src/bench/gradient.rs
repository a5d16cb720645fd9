//! The port checks the plane values too, and writes where it is lent; the Rust allocates.

use super::screen::Kind;
use super::{least, timed};
use crate::port;
use std::hint::black_box;
use std::time::Duration;

pub fn measure(kind: Kind, height: usize, width: usize) -> (Duration, Duration) {
    let board = kind.board(height, width);
    let planes = kind.planes(height, width);
    let mut out = vec![0.0; (height - 2) * (width - 2)];
    let times = least(
        || timed(|| black_box(&board).get_gradient()),
        || timed(|| assert_eq!(port::gradient(height, width, black_box(&planes), &mut out), 0)),
    );
    assert_eq!(board.get_gradient().concat(), out, "both did the same work");
    times
}
