//! The Rust original with lines added and some changed (build.rs), and runs of it.

include!(env!("FOLGUTAN_OBR_PROBED"));

use super::probe::{self, Seen, StandIn, OWN_FACTOR};
use super::steps::Points;
use crate::quiet::caught;
use crate::record::Record;

/// What a run of locating leaves.
pub struct Ran {
    pub seen: Seen,
    /// Whether it returned.
    pub whole: bool,
    /// The fields and the planes afterwards, after a panic too.
    pub record: Record,
    pub planes: Vec<f32>,
}

/// Locates, each narrowing by the factor.
pub fn locate(numbers: Vec<usize>, height: usize, width: usize, factor: usize) -> Ran {
    let mut board = ImageBoard::new(numbers, height, width);
    probe::start(factor, None);
    let whole = caught(|| board.get_pos_pixel()).is_some();
    let record = record(&board);
    let planes = board.data.into_iter().flatten().flatten().collect();
    Ran { seen: probe::take(), whole, record, planes }
}

/// The widened bounds and both score lists for an edge picture, its sides (or those of a smaller picture)
/// and bounds.
pub fn widen(edges: &Points, sides: [usize; 2], bounds: [usize; 4]) -> Seen {
    let [row, column] = sides;
    let [r_1, r_2, c_1, c_2] = bounds;
    let thirds = [row / 3, row * 2 / 3, column / 3, column * 2 / 3];
    let [a, b, c, d] = thirds;
    let bounds = [r_1, r_2, c_1, c_2, a, b, c, d];
    probe::start(OWN_FACTOR, Some(StandIn { edges: edges.clone(), sides, bounds }));
    // a screen whose points are all set, so that nothing is narrowed
    let plane: Vec<Vec<f32>> =
        vec![(0..12).map(|j| if j / 2 % 2 == 0 { 0.0 } else { 1.0 }).collect(); 12];
    let mut board = ImageBoard::new(vec![0; 4 * 144], 12, 12);
    board.data = [plane.clone(), plane.clone(), plane];
    caught(|| board.get_pos_pixel());
    let seen = probe::take();
    probe::start(OWN_FACTOR, None);
    assert_eq!(seen.narrowed, 0);
    seen
}

/// A line reading with its votes, or a panic.
pub fn line(board: &ImageBoard, list: Vec<usize>) -> Option<((f32, usize, usize), usize)> {
    probe::start(OWN_FACTOR, None);
    let read = caught(|| board.get_line(list))?;
    Some((read, probe::take().votes[0]))
}

pub fn nothing() -> ImageBoard {
    ImageBoard::new(vec![], 0, 0)
}

fn record(board: &ImageBoard) -> Record {
    Record {
        height: board.height,
        width: board.width,
        r_1: board.r_1,
        c_1: board.c_1,
        r0: board.r0,
        c0: board.c0,
        r: board.r,
        c: board.c,
        pixelr: board.pixelr.to_bits(),
        pixelc: board.pixelc.to_bits(),
        ..Record::default()
    }
}
