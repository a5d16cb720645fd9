//! Plane values and pictures that the comparisons take.

use crate::rng::Rng;

/// The largest pattern of a plane value, 1.0.
const ONE: u32 = 0x3F80_0000;

/// Patterns that are no plane value.
pub const UNFIT: &[u32] = &[
    0x3F80_0001,
    0x8000_0000,
    0x8000_0001,
    0xBF80_0000,
    0x4000_0000,
    0x7F7F_FFFF,
    0x7F80_0000,
    0xFF80_0000,
    0x7FC0_0000,
    0xFFC0_0000,
    0x7F80_0001,
    0xFFFF_FFFF,
];

/// Plane values: levels of bytes, few levels, any pattern, patterns at the limits, one value, or
/// levels with a slow change.
pub fn planes(rng: &mut Rng, count: usize) -> Vec<f32> {
    let kind = rng.below(7);
    let flat = rng.below(256) as f32 / 255.0;
    let limits = [0, 1, 2, 0x007F_FFFF, 0x0080_0000, 0x3F00_0000, ONE - 1, ONE];
    (0..count)
        .map(|at| match kind {
            0 | 1 => rng.below(256) as f32 / 255.0,
            2 => rng.pick(&[0, 128, 255]) as f32 / 255.0,
            3 => f32::from_bits(rng.below(ONE as usize + 1) as u32),
            4 => f32::from_bits(rng.pick(&limits)),
            5 => flat,
            _ => ((at / 7 + rng.below(9)) % 256) as f32 / 255.0,
        })
        .collect()
}

/// An edge picture as bytes: blank, full, noise of any density, frames, stripes, blocks, a grid.
pub fn marks(rng: &mut Rng, row: usize, column: usize) -> Vec<u8> {
    let kind = rng.below(9);
    let density = rng.below(101);
    let (a, b) = (rng.between(1, 12), rng.between(1, 12));
    let (top, left) = (rng.below(row), rng.below(column));
    let (bottom, right) = (rng.between(top, row - 1), rng.between(left, column - 1));
    (0..row * column)
        .map(|at| {
            let (i, j) = (at / column, at % column);
            let inside = (top..=bottom).contains(&i) && (left..=right).contains(&j);
            let set = match kind {
                0 => false,
                1 => true,
                2 | 3 => rng.below(100) < density,
                4 => inside && (i == top || i == bottom || j == left || j == right),
                5 => (i + top) % a == 0,
                6 => (j + left) % a == 0,
                7 => inside && rng.below(100) < 50 + density / 2,
                _ => ((i + top) % a == 0 || (j + left) % b == 0) && rng.below(100) >= density / 8,
            };
            set as u8
        })
        .collect()
}

/// Bytes as the Rust's points.
pub fn points(marks: &[u8], column: usize) -> Vec<Vec<bool>> {
    marks.chunks(column).map(|row| row.iter().map(|&e| e == 1).collect()).collect()
}
