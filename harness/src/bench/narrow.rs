//! One narrowing by a factor. The planes are made anew each time, outside the measured part.

use super::screen::Kind;
use super::{least, timed};
use crate::original::load;
use crate::original::steps;
use crate::port::inner;
use crate::record::Record;
use std::time::Duration;

pub fn measure(factor: usize, kind: Kind, height: usize, width: usize) -> (Duration, Duration) {
    let planes = kind.planes(height, width);
    let mut lent = planes.clone();
    let mut scratch = vec![0.0; height * width];
    let record = Record { height, width, ..Record::default() };
    let times = least(
        || {
            let mut board = steps::board(&record, &planes);
            timed(|| steps::narrow(&mut board, factor))
        },
        || {
            lent.copy_from_slice(&planes);
            timed(|| inner::narrow(factor, height, width, &mut lent, &mut scratch))
        },
    );
    let mut board = steps::board(&record, &planes);
    steps::narrow(&mut board, factor);
    let left = 3 * (height / factor) * (width / factor);
    assert!(load::planes(&board).eq(lent[..left].iter().copied()), "both did the same work");
    times
}
