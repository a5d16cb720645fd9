//! Line reading: the score lists of measured boards, and long lists of other kinds.

use super::screen::Kind;
use super::{least, timed};
use crate::original::probe::OWN_FACTOR;
use crate::original::{load, probed, steps};
use crate::port;
use crate::quiet::caught;
use crate::rng::Rng;
use std::hint::black_box;
use std::time::Duration;

pub fn measure(height: usize, width: usize) -> Vec<(String, (Duration, Duration))> {
    let mut out = vec![];
    for kind in [Kind::Clean, Kind::Noisy] {
        let numbers = load::numbers(&kind.pixels(height, width));
        let ran = probed::locate(numbers, height, width, OWN_FACTOR);
        let (columns, rows) = ran.seen.scores.expect("a board is read");
        out.push((format!("{} columns", kind.name()), one(&columns)));
        out.push((format!("{} rows", kind.name()), one(&rows)));
    }
    let rng = &mut Rng::new(1);
    for pitch in [9, 30, 200] {
        let comb: Vec<usize> =
            (0..4096).map(|at| if at % pitch == 3 { 4000 } else { rng.below(300) }).collect();
        out.push((format!("4096, pitch {pitch}"), one(&comb)));
    }
    let late: Vec<usize> =
        (0..4096).map(|at| if at >= 3600 && at % 9 == 0 { 4000 } else { 0 }).collect();
    out.push(("4096, late lines".into(), one(&late)));
    let noise: Vec<usize> = (0..4096).map(|_| rng.below(4097)).collect();
    out.push(("4096, noise".into(), one(&noise)));
    let ties: Vec<usize> = (0..4096).map(|_| rng.below(3)).collect();
    out.push(("4096, ties".into(), one(&ties)));
    out
}

fn one(list: &[usize]) -> (Duration, Duration) {
    let words: Vec<u32> = list.iter().map(|&s| s as u32).collect();
    let mut scratch = vec![0; 4 * words.len()];
    let times = least(
        || {
            let list = list.to_vec();
            timed(|| caught(|| steps::line(black_box(list))))
        },
        || timed(|| port::read_line(black_box(&words), &mut scratch)),
    );
    let have = port::read_line(&words, &mut scratch);
    let read = (have.answer == 0).then_some((have.pitch, have.offset, have.count));
    assert_eq!(caught(|| steps::line(list.to_vec())), read, "both did the same work");
    times
}
