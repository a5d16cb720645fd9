//! Narrowing by each factor beside `narrow`: up to three times, each on what the last one left.

use super::lent::Lent;
use super::values::planes;
use super::{Outcome, Run};
use crate::original::load;
use crate::original::probe::OWN_FACTOR;
use crate::original::steps;
use crate::port::inner;
use crate::record::Record;
use crate::rng::Rng;
use crate::FACTORS;

pub fn compare(run: &Run) -> Outcome {
    let rng = &mut Rng::new(run.seed);
    let mut count = 0u64;
    for factor in FACTORS {
        let f = factor;
        let sides =
            [(12, 12), (12, 4096), (4096, 13), (f + 1, f + 1), (f, f), (f, f + 1), (2 * f - 1, f)];
        for (height, width) in sides {
            one(rng, factor, height, width, &mut count)?;
        }
        let (short, long) = if factor == OWN_FACTOR { (1_500, 60_000) } else { (600, 30_000) };
        for _ in 0..run.choose(short, long) {
            // rows of up to 40 points: the port takes several at once
            let most = factor * if rng.below(10) == 0 { 40 } else { 14 };
            let (height, width) = (rng.between(factor, most), rng.between(factor, 40 * factor));
            one(rng, factor, height, width, &mut count)?;
        }
        if run.long {
            for (height, width) in [(1080, 1920), (1081, 1922), (4096, 4096)] {
                one(rng, factor, height, width, &mut count)?;
            }
        }
    }
    Ok(count.into())
}

fn one(
    rng: &mut Rng,
    factor: usize,
    height: usize,
    width: usize,
    count: &mut u64,
) -> Result<(), String> {
    let area = height * width;
    let values = planes(rng, 3 * area);
    let mut board = steps::board(&Record { height, width, ..Record::default() }, &values);
    let mut lent = Lent::holding(&values, 3 * area + rng.below(40));
    let mut scratch: Lent<f32> = Lent::new(area + rng.below(40));
    let (mut h, mut w) = (height, width);
    for level in 1..=3 {
        if h < factor || w < factor {
            break;
        }
        *count += 1;
        inner::narrow(factor, h, w, lent.slice(), scratch.slice());
        steps::narrow(&mut board, factor);
        (h, w) = steps::sides(&board);
        let zeros = std::iter::repeat(0.0).take(3 * area - 3 * h * w);
        let found = lent
            .differs("planes", load::planes(&board).chain(zeros))
            .or_else(|| scratch.beyond("scratch", area));
        if let Some(found) = found {
            return Err(format!(
                "case {count}, factor {factor}, height {height}, width {width}, \
                 narrowing {level}: {found}"
            ));
        }
    }
    Ok(())
}
