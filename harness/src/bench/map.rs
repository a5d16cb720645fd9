//! The printed map, which the Rust does not have, beside the one pass over the planes that it begins with.

use super::screen::Kind;
use super::{least, timed};
use crate::port::{self, inner, Board};
use crate::record::Record;
use std::hint::black_box;
use std::time::Duration;

const MOST: usize = 4096;

/// A map: what it is of, how many cells it has, the time of the pass alone, and that of the call.
pub struct Map {
    pub input: String,
    pub cells: usize,
    pub pass: Duration,
    pub call: Duration,
}

/// The most cells there are, of which the rows past 512 are off the picture; the most that are on it, also by
/// themselves, on planes that take little time; and a board on a screen of these sides.
pub fn measure(height: usize, width: usize) -> Vec<Map> {
    let largest: Vec<f32> = (0..3 * MOST * MOST).map(|at| (at % 256) as f32 / 255.0).collect();
    vec![
        one([MOST, MOST], &largest, [MOST, 80], [8.0, 50.0]),
        one([MOST, MOST], &largest, [MOST / 8, 80], [8.0, 50.0]),
        one([MOST, 640], &largest, [MOST / 8, 80], [8.0, 8.0]),
        one([height, width], &Kind::Clean.planes(height, width), [34, 60], [30.25, 30.25]),
    ]
}

fn one(
    [height, width]: [usize; 2],
    planes: &[f32],
    [r, c]: [usize; 2],
    [pixelr, pixelc]: [f32; 2],
) -> Map {
    let (pixelr, pixelc) = (pixelr.to_bits(), pixelc.to_bits());
    let record = Record { height, width, r, c, pixelr, pixelc, ..Record::default() };
    let board = Board::of(&record);
    let mut out = vec![0; 331_797];
    let mut length = 0;
    let (pass, call) = least(
        || timed(|| assert!(inner::all_units(black_box(planes), 3 * height * width))),
        || timed(|| length = port::map(board, black_box(planes), black_box(&mut out)).length),
    );
    assert_eq!(length, format!("rows columns\n{r} {c}\n").len() + 81 * r, "a map was printed");
    Map { input: format!("{r}x{c} on {height}x{width}"), cells: r * c, pass, call }
}
