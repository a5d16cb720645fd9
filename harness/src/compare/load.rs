//! Loading beside `ImageBoard::new`. The Rust refuses nothing, so refusals are held to the rule
//! (01, How each operation declines).

use super::{Outcome, Run};
use crate::original::load::{numbers, planes, record};
use crate::original::ImageBoard;
use crate::port;
use crate::record::Record;
use crate::rng::Rng;

const LEAST: usize = 12;
const MOST: usize = 4096;

/// Entries before and after the lent planes, so that a write outside them shows.
const MARGIN: usize = 16;

pub fn compare(run: &Run) -> Outcome {
    let mut cases = Cases { rng: Rng::new(run.seed), count: 0 };
    every_byte(&mut cases)?;
    limits(&mut cases, run.long)?;
    sides_outside(&mut cases)?;
    for _ in 0..run.choose(10_000, 300_000) {
        random(&mut cases)?;
    }
    Ok(cases.count.into())
}

/// Each byte value at each place of a pixel, at sixteen places of the row.
fn every_byte(cases: &mut Cases) -> Result<(), String> {
    for place in 0..4 {
        for shift in 0..16 {
            let mut pixels = cases.rng.bytes(4 * 256);
            for n in 0..256 {
                pixels[4 * n + place] = ((n + shift) % 256) as u8;
            }
            cases.one(16, 16, &pixels, 3 * 256)?;
        }
    }
    Ok(())
}

/// The least and the largest sides, each with every kind of length.
fn limits(cases: &mut Cases, long: bool) -> Result<(), String> {
    let short_run =
        [(12, 12), (12, 13), (13, 12), (13, 13), (12, 4096), (4096, 12), (13, 4095), (4095, 13)];
    for (height, width) in short_run {
        for pixels in lengths(4 * height * width) {
            for planes in lengths(3 * height * width) {
                cases.random_bytes(height, width, pixels, planes)?;
            }
        }
    }
    if long {
        for (height, width) in [(1080, 1920), (4095, 4096), (4096, 4095), (4096, 4096)] {
            let (pixels, planes) = (4 * height * width, 3 * height * width);
            cases.random_bytes(height, width, pixels, planes)?;
            cases.random_bytes(height, width, pixels + 5, planes + 5)?;
            cases.random_bytes(height, width, pixels - 1, planes)?;
            cases.random_bytes(height, width, pixels, planes - 1)?;
        }
    }
    Ok(())
}

fn lengths(fitting: usize) -> [usize; 6] {
    [0, fitting / 2, fitting - 1, fitting, fitting + 1, fitting + 100]
}

/// Sides outside the limits, alone and together, up to numbers whose products wrap.
fn sides_outside(cases: &mut Cases) -> Result<(), String> {
    let mut sides = vec![0, 1, 2, 4, 11, LEAST, 13, MOST, MOST + 1, MOST + 12, 65_535, 65_536];
    for power in [31, 32, 33, 61, 62, 63] {
        sides.extend([(1 << power) - 1, 1 << power, (1 << power) + 12]);
    }
    sides.extend([usize::MAX / 4, usize::MAX / 3, usize::MAX - 11, usize::MAX - 1, usize::MAX]);
    for &height in &sides {
        for &width in &sides {
            for (pixels, planes) in [(0, 0), (0, 700), (700, 0), (700, 700)] {
                cases.random_bytes(height, width, pixels, planes)?;
            }
        }
    }
    // long enough for the sides
    for (height, width) in
        [(11, 11), (11, 12), (12, 11), (11, 4096), (4097, 12), (12, 4097), (4097, 11)]
    {
        cases.random_bytes(height, width, 4 * height * width, 3 * height * width)?;
    }
    Ok(())
}

/// Any sides, most of them small, and lengths that mostly fit.
fn random(cases: &mut Cases) -> Result<(), String> {
    let rng = &mut cases.rng;
    let mut sides = [rng.between(LEAST, 70), rng.between(LEAST, 70)];
    if rng.below(20) == 0 {
        sides[rng.below(2)] = rng.between(LEAST, MOST);
    }
    if rng.below(20) == 0 {
        sides[rng.below(2)] = side_outside(rng);
    }
    let [height, width] = sides;
    let area = height.saturating_mul(width).min(MOST * 70);
    let pixels = near(rng, 4 * area);
    let planes = near(rng, 3 * area);
    cases.random_bytes(height, width, pixels, planes)
}

/// Below the limits, or above them by a number of any size.
fn side_outside(rng: &mut Rng) -> usize {
    if rng.below(2) == 0 {
        rng.below(LEAST)
    } else {
        let bits = rng.between(0, 52);
        MOST + 1 + rng.below(1 << bits)
    }
}

/// A length that fits exactly, is longer, one short or anything shorter.
fn near(rng: &mut Rng, fitting: usize) -> usize {
    match rng.below(16) {
        0 => fitting.saturating_sub(1),
        1 => rng.below(fitting + 1),
        2..=7 => fitting + rng.between(1, 100),
        _ => fitting,
    }
}

/// The answer that 01 asks for.
fn rule(height: usize, width: usize, pixels: usize, planes: usize) -> u32 {
    let fits = |side| (LEAST..=MOST).contains(&side);
    if !fits(height) || !fits(width) {
        1
    } else if pixels < 4 * height * width {
        2
    } else if planes < 3 * height * width {
        3
    } else {
        0
    }
}

/// What the planes hold before a call: the sign bit is set, so none is a value that loading writes,
/// and some are no number.
fn before(at: usize) -> u32 {
    0x8000_0000 | (at as u32).wrapping_mul(0x9E37_79B1)
}

struct Cases {
    rng: Rng,
    count: u64,
}

impl Cases {
    fn random_bytes(
        &mut self,
        height: usize,
        width: usize,
        pixels: usize,
        planes: usize,
    ) -> Result<(), String> {
        let bytes = self.rng.bytes(pixels);
        self.one(height, width, &bytes, planes)
    }

    fn one(
        &mut self,
        height: usize,
        width: usize,
        pixels: &[u8],
        planes_len: usize,
    ) -> Result<(), String> {
        self.count += 1;
        let Some(found) = difference(height, width, pixels, planes_len) else {
            return Ok(());
        };
        let (case, bytes) = (self.count, pixels.len());
        let lengths = format!("{bytes} pixel bytes, {planes_len} plane values");
        Err(format!("case {case}, height {height}, width {width}, {lengths}: {found}"))
    }
}

fn difference(height: usize, width: usize, pixels: &[u8], planes_len: usize) -> Option<String> {
    let mut memory: Vec<f32> =
        (0..planes_len + 2 * MARGIN).map(|at| f32::from_bits(before(at))).collect();
    let loaded = port::load(height, width, pixels, &mut memory[MARGIN..MARGIN + planes_len]);

    let answer = rule(height, width, pixels.len(), planes_len);
    if loaded.answer != answer {
        return Some(format!("answer: rule {answer}, port {}", loaded.answer));
    }
    let board = (answer == 0).then(|| ImageBoard::new(numbers(pixels), height, width));
    let (want, have) = (board.as_ref().map_or(Record::default(), record), loaded.board.record());
    if want != have {
        return Some(format!("record: to be {want:?}, port {have:?}"));
    }

    let values = board.iter().flat_map(planes).map(f32::to_bits);
    let start = (0..MARGIN).map(before);
    let written = if answer == 0 { 3 * height * width } else { 0 };
    let kept = (MARGIN + written..memory.len()).map(before);
    let wanted = start.chain(values).chain(kept);
    let mut seen = 0;
    for (at, (want, have)) in wanted.zip(memory.iter().map(|x| x.to_bits())).enumerate() {
        if want != have {
            let whose =
                if (MARGIN..MARGIN + written).contains(&at) { "Rust" } else { "to be kept" };
            let place = at as isize - MARGIN as isize;
            return Some(format!("planes entry {place}: {whose} {want:08x}, port {have:08x}"));
        }
        seen += 1;
    }
    assert_eq!(seen, memory.len(), "every entry is compared");
    None
}
