//! The bounds scan, the widening and both score lists beside the Rust, on edge pictures of every
//! kind. The widening lives in `get_pos_pixel`: the probed copy runs it on the same picture.

use super::lent::Lent;
use super::values::{marks, points};
use super::{Outcome, Run};
use crate::original::{probed, steps};
use crate::port::{inner, Corners};
use crate::rng::Rng;

fn corners([r_1, r_2, c_1, c_2]: [usize; 4]) -> Corners {
    Corners { r_1, r_2, c_1, c_2 }
}

/// A side: most of them small, some up to `most`, a few larger.
fn side(rng: &mut Rng, least: usize, most: usize) -> usize {
    match rng.below(40) {
        0 => rng.between(least, 3 * most),
        1..=9 => rng.between(least, most),
        _ => rng.between(least, least + 30),
    }
}

/// The port's bounds of an edge picture: by gradients that are at least the threshold where a point is
/// set, the threshold itself and the next value below it among them.
fn bounds_by_gradients(edges: &[u8], row: usize, column: usize) -> Corners {
    const THRESHOLD: f32 = 0.3;
    let below = f32::from_bits(THRESHOLD.to_bits() - 1);
    let level = |at: usize, set: bool| match (set, at % 3) {
        (true, 0) => 24.0,
        (true, _) => THRESHOLD,
        (false, 0) => 0.0,
        (false, _) => below,
    };
    let gradients: Vec<f32> = edges.iter().enumerate().map(|(at, &e)| level(at, e == 1)).collect();
    inner::bounds(&gradients, THRESHOLD, row, column)
}

fn shown(edges: &[u8], column: usize) -> String {
    if edges.len() > 400 {
        return String::new();
    }
    edges.chunks(column).map(|row| format!("\n{row:?}")).collect()
}

pub fn bounds(run: &Run) -> Outcome {
    let rng = &mut Rng::new(run.seed);
    let mut count = 0u64;
    let mut one = |edges: &[u8], row: usize, column: usize| {
        count += 1;
        let [r_1, r_2, c_1, c_2, ..] = steps::bounds(&points(&edges[..row * column], column));
        let (want, have) = (corners([r_1, r_2, c_1, c_2]), bounds_by_gradients(edges, row, column));
        if want == have {
            return Ok(());
        }
        let picture = shown(edges, column);
        Err(format!(
            "case {count}, row {row}, column {column}: Rust {want:?}, port {have:?}{picture}"
        ))
    };
    // every picture of 4 by 5 points and below
    for (row, column) in [(2, 2), (2, 3), (3, 3), (4, 3), (2, 7), (4, 4), (4, 5)] {
        for bits in 0u32..1 << (row * column) {
            if row * column > 16 && !run.long && bits % 31 != 0 {
                continue;
            }
            let edges: Vec<u8> = (0..row * column).map(|at| (bits >> at & 1) as u8).collect();
            one(&edges, row, column)?;
        }
    }
    for _ in 0..run.choose(20_000, 1_000_000) {
        let (row, column) = (side(rng, 2, 140), side(rng, 2, 140));
        let mut edges = marks(rng, row, column);
        edges.resize(row * column + rng.below(3) * 20, 1);
        one(&edges, row, column)?;
    }
    for (row, column) in [(2, 4094), (4094, 2), (30, 4094), (4094, 30)] {
        for _ in 0..run.choose(5, 100) {
            let edges = marks(rng, row, column);
            one(&edges, row, column)?;
        }
    }
    Ok(count.into())
}

/// Bounds that locating could hand over: around the middle, spans above a third.
fn wide(rng: &mut Rng, side: usize) -> (usize, usize) {
    loop {
        let (low, high) = (rng.between(0, side / 2), rng.between(side / 2, side - 1));
        if high - low > side / 3 {
            return (low, high);
        }
    }
}

pub fn widen(run: &Run) -> Outcome {
    let rng = &mut Rng::new(run.seed);
    let mut count = 0u64;
    let mut own = 0;
    for _ in 0..run.choose(15_000, 300_000) {
        count += 1;
        let (row, column) = (side(rng, 10, 140), side(rng, 10, 140));
        // the picture may be larger than the sides, as the unchanged Rust has it after a narrowing
        let (more_rows, more_columns) =
            if rng.below(3) == 0 { (rng.below(30), rng.below(30)) } else { (0, 0) };
        let stride = column + more_columns;
        let edges = marks(rng, row + more_rows, stride);
        let picture = points(&edges, stride);
        let scanned = bounds_by_gradients(&edges, row + more_rows, stride);
        let fits = more_rows == 0
            && more_columns == 0
            && scanned.r_2 - scanned.r_1 > row / 3
            && scanned.c_2 - scanned.c_1 > column / 3;
        let b = if fits && rng.below(2) == 0 {
            own += 1;
            scanned
        } else {
            let ((r_1, r_2), (c_1, c_2)) = (wide(rng, row), wide(rng, column));
            Corners { r_1, r_2, c_1, c_2 }
        };
        let seen = probed::widen(&picture, [row, column], [b.r_1, b.r_2, b.c_1, b.c_2]);
        let want = corners(seen.widened.expect("widened bounds are stored"));
        let have = inner::widen(&edges, stride, row, column, b);
        let (columns, rows) = seen.scores.expect("scores are stored");
        let found = if want != have {
            Some(format!("Rust {want:?}, port {have:?}"))
        } else {
            lists(&edges, stride, want, columns, rows)
        };
        if let Some(found) = found {
            let picture = shown(&edges, stride);
            return Err(format!(
                "case {count}, row {row}, column {column}, row length {stride}, {b:?}: {found}{picture}"
            ));
        }
    }
    Ok(super::Tally { cases: count, note: format!("; {own} with scanned bounds") })
}

/// Both lists of the port beside those given.
fn lists(
    edges: &[u8],
    stride: usize,
    b: Corners,
    columns: Vec<usize>,
    rows: Vec<usize>,
) -> Option<String> {
    let numbers = |list: Vec<usize>| list.into_iter().map(|s| s as u32);
    let mut out = Lent::new(b.c_2 - b.c_1 + 9);
    inner::column_scores(edges, stride, b, out.slice());
    let found = out.differs("column scores", numbers(columns));
    if found.is_some() {
        return found;
    }
    let mut out = Lent::new(b.r_2 - b.r_1 + 9);
    let mut turned: Lent<u8> = Lent::new((b.c_2 - b.c_1 + 1) * (b.r_2 - b.r_1 + 1));
    inner::row_scores(edges, stride, b, turned.slice(), out.slice());
    out.differs("row scores", numbers(rows)).or_else(|| turned.around("scratch"))
}

pub fn scores(run: &Run) -> Outcome {
    let rng = &mut Rng::new(run.seed);
    let mut count = 0u64;
    let mut one = |edges: &[u8], row: usize, stride: usize, b: [usize; 4]| {
        count += 1;
        let picture = points(edges, stride);
        let (columns, rows) = (steps::column_scores(&picture, b), steps::row_scores(&picture, b));
        lists(edges, stride, corners(b), columns, rows).map_or(Ok(()), |found| {
            let picture = shown(edges, stride);
            Err(format!("case {count}, row {row}, row length {stride}, {b:?}: {found}{picture}"))
        })
    };
    // only column c_2 - 2 set, or only row r_2 - 2: the places of the added scores (02, R-4)
    for (rows, columns) in [(5, 7), (5, 5), (7, 5), (9, 40)] {
        let set_column = |at: usize| (at % columns == columns - 3) as u8;
        let set_row = |at: usize| (at / columns == rows - 3) as u8;
        let all = [0, rows - 1, 0, columns - 1];
        one(&(0..rows * columns).map(set_column).collect::<Vec<_>>(), rows, columns, all)?;
        one(&(0..rows * columns).map(set_row).collect::<Vec<_>>(), rows, columns, all)?;
    }
    for _ in 0..run.choose(3_000, 120_000) {
        let (row, column) = (side(rng, 5, 140), side(rng, 5, 140));
        let edges = marks(rng, row, column);
        let b = match rng.below(4) {
            0 => [0, row - 1, 0, column - 1],
            _ => {
                let (r_1, c_1) = (rng.below(row - 4), rng.below(column - 4));
                [r_1, rng.between(r_1 + 4, row - 1), c_1, rng.between(c_1 + 4, column - 1)]
            }
        };
        one(&edges, row, column, b)?;
    }
    // bands of strips, and the largest sides
    for (row, column) in
        [(5, 4094), (4094, 5), (9, 130), (140, 9), (200, 131), (133, 260), (40, 4094)]
    {
        for _ in 0..run.choose(3, 60) {
            let edges = marks(rng, row, column);
            one(&edges, row, column, [0, row - 1, 0, column - 1])?;
        }
    }
    if run.long {
        for (row, column) in [(1078, 1918), (4094, 4094)] {
            let edges: Vec<u8> = (0..row * column).map(|_| rng.below(2) as u8).collect();
            one(&edges, row, column, [1, row - 2, 0, column - 1])?;
        }
    }
    Ok(count.into())
}
