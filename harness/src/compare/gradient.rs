//! The gradient beside `get_gradient`, bit for bit; refusals are held to the rule.

use super::lent::Lent;
use super::values::{planes, UNFIT};
use super::{Outcome, Run};
use crate::original::steps;
use crate::port;
use crate::record::Record;
use crate::rng::Rng;

const LEAST: usize = 4;
const MOST: usize = 4096;

pub fn compare(run: &Run) -> Outcome {
    let mut cases = Cases { rng: Rng::new(run.seed), count: 0 };
    for (height, width) in [(4, 4), (4, 5), (5, 4), (12, 12), (4, MOST), (MOST, 4), (5, 4095)] {
        for planes in near(3 * height * width) {
            for out in near((height - 2) * (width - 2)) {
                cases.one(height, width, planes, out, None)?;
            }
        }
    }
    sides_outside(&mut cases)?;
    for _ in 0..run.choose(4_000, 200_000) {
        random(&mut cases)?;
    }
    if run.long {
        for (height, width) in [(1080, 1920), (MOST, MOST)] {
            let (planes, out) = (3 * height * width, (height - 2) * (width - 2));
            cases.one(height, width, planes, out, None)?;
            cases.one(height, width, planes, out, Some((planes - 1, UNFIT[0])))?;
        }
    }
    Ok(cases.count.into())
}

fn near(fitting: usize) -> [usize; 5] {
    [0, fitting - 1, fitting, fitting + 1, fitting + 50]
}

fn sides_outside(cases: &mut Cases) -> Result<(), String> {
    let mut sides = vec![0, 1, 2, 3, LEAST, MOST, MOST + 1, 65_536];
    for power in [32, 62, 63] {
        sides.extend([(1 << power) - 1, 1 << power, (1 << power) + 4]);
    }
    sides.push(usize::MAX);
    for &height in &sides {
        for &width in &sides {
            if height.max(width) <= MOST && height.min(width) >= LEAST {
                continue;
            }
            for (planes, out) in [(0, 0), (0, 700), (700, 0), (700, 700)] {
                cases.one(height, width, planes, out, Some((0, 0x7FC0_0000)))?;
            }
        }
    }
    for (height, width) in [(3, 12), (12, 3), (MOST + 1, 4), (4, MOST + 1)] {
        cases.one(height, width, 3 * height * width, height * width, None)?;
    }
    Ok(())
}

fn random(cases: &mut Cases) -> Result<(), String> {
    let rng = &mut cases.rng;
    let (height, width) = (rng.between(LEAST, 40), rng.between(LEAST, 40));
    let (mut planes, mut out) = (3 * height * width, (height - 2) * (width - 2));
    let mut bad = None;
    match rng.below(12) {
        0 => planes -= rng.between(1, planes),
        1 => out -= rng.between(1, out),
        2..=4 => {
            planes += rng.below(60);
            out += rng.below(60);
            let place = if rng.below(4) == 0 { planes - 1 } else { rng.below(planes) };
            bad = Some((place, rng.pick(UNFIT)));
        }
        5 => out += rng.below(60),
        _ => (),
    }
    cases.one(height, width, planes, out, bad)
}

struct Cases {
    rng: Rng,
    count: u64,
}

impl Cases {
    fn one(
        &mut self,
        height: usize,
        width: usize,
        planes_len: usize,
        out_len: usize,
        bad: Option<(usize, u32)>,
    ) -> Result<(), String> {
        self.count += 1;
        let mut values = planes(&mut self.rng, planes_len);
        if let Some((at, bits)) = bad {
            if at < planes_len {
                values[at] = f32::from_bits(bits);
            }
        }
        difference(height, width, &values, out_len).map_or(Ok(()), |found| {
            Err(format!(
                "case {}, height {height}, width {width}, {planes_len} plane values, {out_len} \
                 outputs, bad {bad:x?}: {found}",
                self.count
            ))
        })
    }
}

/// The answer that 01 asks for.
fn rule(height: usize, width: usize, planes: &[f32], out: usize) -> u32 {
    let fits = |side| (LEAST..=MOST).contains(&side);
    if !fits(height) || !fits(width) {
        1
    } else if planes.len() < 3 * height * width || out < (height - 2) * (width - 2) {
        3
    } else if planes[..3 * height * width].iter().any(|x| x.to_bits() > 0x3F80_0000) {
        4
    } else {
        0
    }
}

fn difference(height: usize, width: usize, planes: &[f32], out_len: usize) -> Option<String> {
    let mut lent = Lent::new(out_len);
    let have = port::gradient(height, width, planes, lent.slice());
    let answer = rule(height, width, planes, out_len);
    if have != answer {
        return Some(format!("answer: rule {answer}, port {have}"));
    }
    if answer != 0 {
        return lent.differs("output", []);
    }
    let record = Record { height, width, ..Record::default() };
    let want = steps::board(&record, planes).get_gradient();
    let found = lent.differs("output", want.iter().flatten().copied());
    if found.is_some() {
        return found;
    }
    let mut inner = Lent::new(out_len);
    port::inner::gradient_of(height, width, planes, inner.slice());
    inner.differs("inner output", want.iter().flatten().copied())
}
