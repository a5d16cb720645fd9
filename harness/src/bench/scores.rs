//! Both score lists, over an edge picture's whole widened bounds.

use super::screen::Kind;
use super::{least, timed};
use crate::original::steps::{self, Points};
use crate::port::{inner, Corners};
use std::hint::black_box;
use std::time::Duration;

/// The edge picture for both sides, and bounds one point from its rims.
fn picture(kind: Kind, height: usize, width: usize) -> (Points, Vec<u8>, [usize; 4]) {
    let points = steps::edges(&kind.board(height, width).get_gradient());
    let marks = points.concat().into_iter().map(|e| e as u8).collect();
    (points, marks, [1, height - 4, 1, width - 4])
}

fn same(list: Vec<usize>, out: &[u32]) -> bool {
    list.len() <= out.len() && list.iter().zip(out).all(|(&a, &b)| a == b as usize)
}

pub fn columns(kind: Kind, height: usize, width: usize) -> (Duration, Duration) {
    let (points, marks, b) = picture(kind, height, width);
    let [r_1, r_2, c_1, c_2] = b;
    let mut out = vec![0; width];
    let times = least(
        || timed(|| steps::column_scores(black_box(&points), b)),
        || {
            let bounds = Corners { r_1, r_2, c_1, c_2 };
            timed(|| inner::column_scores(black_box(&marks), width - 2, bounds, &mut out))
        },
    );
    assert!(same(steps::column_scores(&points, b), &out), "both did the same work");
    times
}

pub fn rows(kind: Kind, height: usize, width: usize) -> (Duration, Duration) {
    let (points, marks, b) = picture(kind, height, width);
    let [r_1, r_2, c_1, c_2] = b;
    let mut out = vec![0; height];
    let mut turned = vec![0; height * width];
    let times = least(
        || timed(|| steps::row_scores(black_box(&points), b)),
        || {
            let bounds = Corners { r_1, r_2, c_1, c_2 };
            timed(|| inner::row_scores(black_box(&marks), width - 2, bounds, &mut turned, &mut out))
        },
    );
    assert!(same(steps::row_scores(&points, b), &out), "both did the same work");
    times
}
