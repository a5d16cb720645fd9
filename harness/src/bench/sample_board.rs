//! All cells of a board in one call, beside the one pass over the planes that it begins with, and beside the inner
//! function for each cell by itself behind such a pass.

use super::screen::Kind;
use super::{least, timed};
use crate::port::{self, inner, Board};
use crate::record::Record;
use std::hint::black_box;
use std::time::Duration;

/// What it is of, and the times of the pass alone, of the cells by the inner function, and of the call.
pub struct Whole {
    pub input: String,
    pub pass: Duration,
    pub cells: Duration,
    pub call: Duration,
}

/// A board on a screen of these sides, by some sizes, and the 6,240 cells of one on the largest screen.
pub fn measure(height: usize, width: usize) -> Vec<Whole> {
    const MOST: usize = 4096;
    let planes = Kind::Clean.planes(height, width);
    let largest: Vec<f32> = (0..3 * MOST * MOST).map(|at| (at % 256) as f32 / 255.0).collect();
    let mut out = vec![];
    for size in [1, 8, 24] {
        out.push(one([height, width], &planes, [34, 60], 30.25, size));
    }
    out.push(one([MOST, MOST], &largest, [78, 80], 50.0, 1));
    out
}

fn one(
    [height, width]: [usize; 2],
    planes: &[f32],
    [r, c]: [usize; 2],
    pitch: f32,
    size: usize,
) -> Whole {
    let (pixelr, pixelc) = (pitch.to_bits(), pitch.to_bits());
    let board = Board::of(&Record { height, width, r, c, pixelr, pixelc, ..Record::default() });
    let values = 3 * size * size;
    let (mut alone, mut whole) = (vec![0.0; r * c * values], vec![0.0; r * c * values]);
    let check = || assert!(inner::all_units(black_box(planes), 3 * height * width));
    let (pass, call) = least(
        || timed(check),
        || timed(|| assert_eq!(port::sample_board(board, black_box(planes), size, &mut whole), 0)),
    );
    // behind a pass, which leaves the caches as it leaves them in the call
    let (cells, _) = least(
        || {
            check();
            timed(|| {
                for (n, cell) in alone.chunks_mut(values).enumerate() {
                    assert_eq!(
                        inner::sample(board, black_box(planes), n / c, n % c, size, cell),
                        0
                    );
                }
            })
        },
        || Duration::MAX,
    );
    assert_eq!(alone, whole, "both did the same work");
    Whole { input: format!("{r}x{c} on {height}x{width}, size {size}"), pass, cells, call }
}
