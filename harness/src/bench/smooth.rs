//! Smoothing alone, on lists of 4,096.

use super::{timed, Times};
use crate::original::smoothing;
use crate::port::inner;
use crate::rng::Rng;
use std::hint::black_box;
use std::time::Duration;

const LENGTH: usize = 4096;
/// The output begins half a page after the list's end: at the list's place of a page, or just behind it,
/// a call takes up to 1.3 times as long, whatever they hold.
const APART: usize = 512;
/// A call is short: so many are timed together.
const TOGETHER: u32 = 50;
const TURNS: usize = 200;

pub fn measure() -> Vec<(String, Times)> {
    let rng = &mut Rng::new(1);
    let lists: [(&str, Vec<u32>); 4] = [
        ("flat", vec![300; LENGTH]),
        ("rising", (0..LENGTH as u32).collect()),
        ("random", (0..LENGTH).map(|_| rng.below(4097) as u32).collect()),
        (
            "board-like",
            (0..LENGTH).map(|at| if at % 30 == 3 { 4000 } else { rng.below(300) as u32 }).collect(),
        ),
    ];
    // All take turns in the same place, so that neither it nor the machine's clock tells them apart.
    let mut place = Place { numbers: vec![0; LENGTH], lent: vec![0; LENGTH + APART + LENGTH] };
    let mut best = [(Duration::MAX, Duration::MAX); 4];
    for _ in 0..TURNS {
        for ((_, list), best) in lists.iter().zip(&mut best) {
            let (rust, port) = place.time(list);
            *best = (best.0.min(rust), best.1.min(port));
        }
    }
    lists.into_iter().map(|(kind, _)| kind.into()).zip(best).collect()
}

/// Where a list stands, for the Rust, and for the port with its output.
struct Place {
    numbers: Vec<usize>,
    lent: Vec<u32>,
}

impl Place {
    fn time(&mut self, values: &[u32]) -> Times {
        let numbers = &mut self.numbers;
        numbers.iter_mut().zip(values).for_each(|(n, &s)| *n = s as usize);
        let (list, rest) = self.lent.split_at_mut(LENGTH);
        list.copy_from_slice(values);
        let out = &mut rest[APART..];
        let rust = timed(|| {
            for _ in 0..TOGETHER {
                black_box(smoothing::smooth(black_box(numbers)));
            }
        });
        let port = timed(|| {
            for _ in 0..TOGETHER {
                inner::smooth(black_box(list), black_box(&mut *out));
            }
        });
        let want = smoothing::smooth(numbers);
        assert!(want.iter().zip(&*out).all(|(&a, &b)| a == b as usize), "both did the same work");
        (rust / TOGETHER, port / TOGETHER)
    }
}

/// The largest of the times over the smallest: the Rust's and the port's.
pub fn spread(measured: &[(String, Times)]) -> (f64, f64) {
    let over = |side: fn(&Times) -> f64| {
        let times = measured.iter().map(|(_, times)| side(times));
        times.clone().fold(0.0, f64::max) / times.fold(f64::INFINITY, f64::min)
    };
    (over(|times| times.0.as_secs_f64()), over(|times| times.1.as_secs_f64()))
}
