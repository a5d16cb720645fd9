//! A cell of the largest size, by the inner function and the public one, which reads all planes.

use super::screen::Kind;
use super::{least, timed};
use crate::original::steps;
use crate::port::{self, inner, Board};
use crate::record::Record;
use std::hint::black_box;
use std::time::Duration;

const SIZE: usize = 24;
/// The inner call is short: so many are timed together.
const TOGETHER: u32 = 200;

pub fn measure(height: usize, width: usize) -> Vec<(String, (Duration, Duration))> {
    let planes = Kind::Clean.planes(height, width);
    let pitch = 30.25f32.to_bits();
    let record = Record {
        height,
        width,
        r_1: 20,
        c_1: 30,
        r_2: 700,
        c_2: 1000,
        r0: 3,
        c0: 4,
        r: 20,
        c: 30,
        pixelr: pitch,
        pixelc: pitch,
    };
    let rust = steps::board(&record, &planes);
    let mut out = vec![0.0; 3 * SIZE * SIZE];
    let cell = |turn: u32| ((turn % 20) as usize, (turn % 30) as usize);
    let run_rust = || {
        timed(|| {
            for turn in 0..TOGETHER {
                let (x, y) = black_box(cell(turn));
                black_box(rust.extra_save_cell(x, y, SIZE));
            }
        }) / TOGETHER
    };
    let board = Board::of(&record);
    let alone = least(run_rust, || {
        timed(|| {
            for turn in 0..TOGETHER {
                let (x, y) = black_box(cell(turn));
                assert_eq!(inner::sample(board, black_box(&planes), x, y, SIZE, &mut out), 0);
            }
        }) / TOGETHER
    });
    let public =
        least(run_rust, || timed(|| port::sample(board, black_box(&planes), 3, 4, SIZE, &mut out)));
    assert_eq!(rust.extra_save_cell(3, 4, SIZE), out, "both did the same work");
    vec![("inner".into(), alone), ("public".into(), public)]
}
