//! Smoothing beside the lines of `get_line` that do it, on lists that line reading takes.

use super::lent::Lent;
use super::read_line::{lines, noise, random};
use super::{Outcome, Run};
use crate::original::smoothing::smooth;
use crate::port::inner;
use crate::rng::Rng;

pub fn compare(run: &Run) -> Outcome {
    let rng = &mut Rng::new(run.seed);
    let mut count = 0;
    // every list of length 4 to 10 with entries 0, 1 and 4,096
    for len in 4..=10 {
        for code in 0..3usize.pow(len) {
            let list: Vec<u32> =
                (0..len).map(|at| [0, 1, 4096][code / 3usize.pow(at) % 3]).collect();
            one(&list, &mut count)?;
        }
    }
    for _ in 0..run.choose(20_000, 2_000_000) {
        one(&random(rng, 120), &mut count)?;
    }
    for _ in 0..run.choose(50, 5_000) {
        one(&lines(rng, 4096), &mut count)?;
        one(&noise(rng, 4096), &mut count)?;
    }
    Ok(count.into())
}

fn one(list: &[u32], count: &mut u64) -> Result<(), String> {
    *count += 1;
    let numbers: Vec<usize> = list.iter().map(|&s| s as usize).collect();
    let mut lent = Lent::new(list.len() + *count as usize % 20);
    inner::smooth(list, lent.slice());
    let want = smooth(&numbers).into_iter().map(|s| s as u32);
    match lent.differs("out", want) {
        None => Ok(()),
        Some(difference) => {
            let shown =
                if list.len() <= 120 { format!("{list:?}") } else { format!("of {}", list.len()) };
            Err(format!("case {count}, list {shown}: {difference}"))
        }
    }
}
