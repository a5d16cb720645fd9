//! `new` makes its own planes, and frees the numbers that it is handed; the port writes planes that
//! it is lent, which are warm and are not cleared. Copying the numbers and freeing the board are
//! outside the measured part.

use super::least;
use crate::original::{load, ImageBoard};
use crate::port;
use crate::rng::Rng;
use std::hint::black_box;
use std::time::{Duration, Instant};

pub fn measure(height: usize, width: usize) -> (Duration, Duration) {
    let pixels = Rng::new(1).bytes(4 * height * width);
    let numbers = load::numbers(&pixels);
    let mut planes = vec![0.0; 3 * height * width];
    let times = least(
        || {
            let numbers = numbers.clone();
            let start = Instant::now();
            let board = black_box(ImageBoard::new(black_box(numbers), height, width));
            let time = start.elapsed();
            drop(board);
            time
        },
        || {
            let start = Instant::now();
            let loaded = port::load(height, width, black_box(&pixels), black_box(&mut planes));
            let time = start.elapsed();
            assert_eq!(black_box(loaded).answer, 0);
            time
        },
    );
    let board = ImageBoard::new(numbers, height, width);
    assert!(
        load::planes(&board).map(f32::to_bits).eq(planes.iter().map(|x| x.to_bits())),
        "both did the same work"
    );
    times
}
