//! What `ImageBoard::new` makes.

use super::ImageBoard;
use crate::record::Record;

/// The original takes the bytes as a vector of whole numbers, and takes it over.
pub fn numbers(pixels: &[u8]) -> Vec<usize> {
    pixels.iter().map(|&b| b as usize).collect()
}

pub fn record(board: &ImageBoard) -> Record {
    Record {
        height: board.height,
        width: board.width,
        r_1: board.r_1,
        c_1: board.c_1,
        r0: board.r0,
        c0: board.c0,
        r: board.r,
        c: board.c,
        pixelr: board.pixelr.to_bits(),
        pixelc: board.pixelc.to_bits(),
        ..Record::default()
    }
}

/// The planes one after another, rows first.
pub fn planes(board: &ImageBoard) -> impl Iterator<Item = f32> + '_ {
    board.data.iter().flatten().flatten().copied()
}
