//! Threshold and edges beside `binarize_gradient`, on gradients of pictures and on any values that
//! have no sign and are numbers or infinity.

use super::lent::Lent;
use super::values::planes;
use super::{Outcome, Run};
use crate::original::steps;
use crate::port::inner;
use crate::record::Record;
use crate::rng::Rng;

pub fn compare(run: &Run) -> Outcome {
    let rng = &mut Rng::new(run.seed);
    let mut count = 0u64;
    let mut one = |g: Vec<f32>, row: usize, column: usize, extra: usize| {
        count += 1;
        difference(&g, row, column, extra).map_or(Ok(()), |found| {
            let shown = if g.len() <= 40 { format!(" of {g:?}") } else { String::new() };
            Err(format!("case {count}, row {row}, column {column}{shown}: {found}"))
        })
    };
    for (row, column) in [(2, 2), (2, 3), (3, 2), (4, 4), (2, 4094), (4094, 2), (3, 4093)] {
        for kind in 0..KINDS {
            one(values(rng, kind, row * column), row, column, kind)?;
        }
    }
    for _ in 0..run.choose(5_000, 200_000) {
        let most = if rng.below(20) == 0 { 120 } else { 24 };
        let (row, column) = (rng.between(2, most), rng.between(2, most));
        let g = if rng.below(3) == 0 {
            picture(rng, row, column)
        } else {
            let kind = rng.below(KINDS);
            values(rng, kind, row * column)
        };
        let extra = rng.below(40);
        one(g, row, column, extra)?;
    }
    let (row, column) = OTHER_RANK;
    one(distinct(row, column)?, row, column, 7)?;
    if run.long {
        for kind in [0, 1, 8] {
            one(values(rng, kind, row * column), row, column, 7)?;
        }
        one(values(rng, 0, 4094 * 4094), 4094, 4094, 0)?;
        one(picture(rng, 1078, 1918), 1078, 1918, 0)?;
    }
    Ok(count.into())
}

/// Sides of a gradient whose sample has a size m where trunc(0.55 m) in binary32 is not the exact one.
const OTHER_RANK: (usize, usize) = (2418, 2602);

/// Values that all differ, from 0.03125 on, where nothing is clipped: a threshold from another rank
/// is another value, and sets other points. An error where the two ranks would show no difference.
fn distinct(row: usize, column: usize) -> Result<Vec<f32>, String> {
    let count = row * column;
    // a step that has no divisor in common with the count meets every place once
    let g: Vec<f32> = (0..count)
        .map(|at| f32::from_bits(0x3D00_0000 + (at * 1_000_003 % count) as u32))
        .collect();
    let mut sample: Vec<f32> = (row / 4..row * 3 / 4)
        .flat_map(|i| &g[i * column..][column / 4..column * 3 / 4])
        .copied()
        .collect();
    sample.sort_by(f32::total_cmp);
    let m = sample.len();
    let (rank, exact) = ((m as f32 * 0.55) as usize, m * 55 / 100);
    if rank == exact || sample[rank] == sample[exact] {
        return Err(format!("row {row}, column {column}: rank {rank} is like {exact}"));
    }
    Ok(g)
}

/// The gradient of random planes.
fn picture(rng: &mut Rng, row: usize, column: usize) -> Vec<f32> {
    let (height, width) = (row + 2, column + 2);
    let record = Record { height, width, ..Record::default() };
    steps::board(&record, &planes(rng, 3 * height * width)).get_gradient().concat()
}

const KINDS: usize = 10;
const CLIP: u32 = 0x3C23_D70A;

fn values(rng: &mut Rng, kind: usize, count: usize) -> Vec<f32> {
    let flat = rng.below(0x4040_0001) as u32;
    let share = rng.below(101);
    (0..count)
        .map(|_| match kind {
            // any value from 0.0 to 3.0, by pattern or even; few values; around both clips
            0 => f32::from_bits(0x3C00_0000 + rng.below(0x0480_0000) as u32),
            1 => rng.below(1 << 24) as f32 / (1 << 23) as f32,
            2 => rng.below(5) as f32 * 0.25,
            3 => f32::from_bits(CLIP - 2 + rng.below(5) as u32),
            4 => f32::from_bits(0x3F80_0000 - 2 + rng.below(5) as u32),
            5 => f32::from_bits(flat),
            6 => f32::from_bits(rng.below(0x7F80_0001) as u32),
            7 => rng.below(3) as f32 * f32::from_bits(1),
            // a part is 0.0, the rest is not
            8 => {
                if rng.below(100) < share {
                    0.0
                } else {
                    rng.below(1000) as f32 / 400.0
                }
            }
            _ => {
                if rng.below(100) < share {
                    f32::INFINITY
                } else {
                    0.5
                }
            }
        })
        .collect()
}

fn difference(g: &[f32], row: usize, column: usize, extra: usize) -> Option<String> {
    let rows: Vec<Vec<f32>> = g.chunks(column).map(|r| r.to_vec()).collect();
    let want = steps::edges(&rows);
    let mut lent = Lent::new(row * column + extra);
    inner::edges(row, column, g, lent.slice());
    lent.differs("edges", want.into_iter().flatten().map(|e| e as u8))
}
