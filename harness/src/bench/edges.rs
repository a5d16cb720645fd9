//! From a gradient to the edge picture.

use super::screen::{self, Kind};
use super::{least, timed};
use crate::original::load::numbers;
use crate::original::{steps, ImageBoard};
use crate::port::inner;
use std::hint::black_box;
use std::time::Duration;

pub fn measure(kind: Kind, height: usize, width: usize) -> (Duration, Duration) {
    of_gradient(kind.board(height, width).get_gradient(), height, width)
}

/// On one of many noisy boards, with what tells it from the others.
pub fn on_noisy(seed: u64, height: usize, width: usize) -> (String, (Duration, Duration)) {
    let (drawn, by, pixels) = screen::any_noisy(seed, height, width);
    let board = ImageBoard::new(numbers(&pixels), height, width);
    let name = format!("{}x{} by {by}", drawn.down, drawn.across);
    (name, of_gradient(board.get_gradient(), height, width))
}

fn of_gradient(gradient: Vec<Vec<f32>>, height: usize, width: usize) -> (Duration, Duration) {
    let packed = gradient.concat();
    let (row, column) = (height - 2, width - 2);
    let mut out = vec![0; row * column];
    let times = least(
        || timed(|| steps::edges(black_box(&gradient))),
        || timed(|| inner::edges(row, column, black_box(&packed), &mut out)),
    );
    let same = steps::edges(&gradient).concat().iter().map(|&e| e as u8).eq(out.iter().copied());
    assert!(same, "both did the same work");
    times
}
