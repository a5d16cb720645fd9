//! Sampling a whole board: each cell beside `extra_save_cell`. The Rust has no such call, so the answers and
//! their order are made here; where a cell panics in the Rust the whole board is refused with 12.

use super::lent::Lent;
use super::sample::{any_board, pitch, reaching_out, sides};
use super::values::{planes, UNFIT};
use super::{Outcome, Run, Tally};
use crate::original::locate::traced;
use crate::original::probe::OWN_FACTOR;
use crate::original::steps;
use crate::port::{self, Board};
use crate::quiet::caught;
use crate::record::Record;
use crate::rng::Rng;

const MOST: usize = 4096;
const MOST_SIZE: usize = 24;

/// One call but for the planes.
#[derive(Clone, Copy, Debug)]
struct Call {
    record: Record,
    size: usize,
    out: usize,
}

/// The values of all cells, for counts and a size within their limits.
fn values_of(record: &Record, size: usize) -> usize {
    3 * record.r * record.c * size * size
}

pub fn compare(run: &Run) -> Outcome {
    let rng = &mut Rng::new(run.seed);
    let mut cases = Cases::default();
    for _ in 0..run.choose(60, 1_000) {
        let (height, width) = sides(rng);
        let values = planes(rng, 3 * height * width);
        for _ in 0..run.choose(40, 120) {
            let mut call = fitting(rng, height, width);
            if rng.below(3) == 0 {
                break_rules(rng, &mut call);
            }
            cases.one(&call, &values)?;
        }
        // faults of the planes, alone and with others
        let mut call = fitting(rng, height, width);
        let mut bad = values.clone();
        let at = rng.below(bad.len());
        bad[at] = f32::from_bits(rng.pick(UNFIT));
        for _ in 0..3 {
            cases.one(&call, &bad)?;
            cases.one(&call, &bad[..bad.len() - 1])?;
            cases.one(&call, &values[..values.len() - 1])?;
            cases.one(&call, &[])?;
            let side = rng.pick(&[0, 3, MOST + 1, 1 << 32, usize::MAX]);
            let mut other = call;
            *(if rng.below(2) == 0 { &mut other.record.height } else { &mut other.record.width }) =
                side;
            cases.one(&other, &bad)?;
            break_rules(rng, &mut call);
        }
    }
    let boards = of_located(rng, &mut cases, run)?;
    let Cases { count, answers } = cases;
    for answer in [0, 1, 3, 4, 10, 11, 12] {
        if answers[answer] == 0 {
            return Err(format!("no call answers {answer}"));
        }
    }
    let note = format!("; {} sampled, {} outside; {boards}", answers[0], answers[12]);
    Ok(Tally { cases: count, note })
}

/// The boards that the Rust locates, by the planes that it leaves.
fn of_located(rng: &mut Rng, cases: &mut Cases, run: &Run) -> Result<String, String> {
    let (mut boards, mut narrowed) = (0, 0);
    let mut one = |rng: &mut Rng, factor, (height, width, pixels): (usize, usize, Vec<u8>)| {
        let located = traced(&pixels, height, width, factor)?;
        if located.answer != 0 {
            return Ok(());
        }
        boards += 1;
        narrowed += (located.seen.narrowed > 0) as u64;
        let record = located.board();
        for size in [1, rng.below(MOST_SIZE), MOST_SIZE] {
            let call = Call { record, size, out: values_of(&record, size) };
            cases.one(&call, &located.planes)?;
        }
        Ok::<(), String>(())
    };
    one(rng, OWN_FACTOR, reaching_out())?;
    for turn in 0..run.choose(100, 2_000) {
        let (factor, screen) = any_board(rng, turn % 4 == 0);
        one(rng, factor, screen)?;
    }
    if narrowed == 0 {
        return Err("no board that was sampled was narrowed".into());
    }
    Ok(format!("{boards} located boards, {narrowed} of them narrowed"))
}

/// A board that is in the picture, or nearly.
fn fitting(rng: &mut Rng, height: usize, width: usize) -> Call {
    let (pixelr, pixelc) = (pitch(rng), pitch(rng));
    let mut along = |side: usize, pitch: f32| {
        let (corner, offset) = (rng.below(side / 2 + 1), rng.below(side / 4 + 1));
        let left = side.saturating_sub(corner + offset) as f32;
        let count = (left / pitch) as usize;
        (corner, offset, (count + rng.below(8) / 7).min(rng.between(0, 24)))
    };
    let (r_1, r0, r) = along(height, pixelr);
    let (c_1, c0, c) = along(width, pixelc);
    let size = rng.pick(&[0, 1, 1, 1, 2, 3, 5, 8, 17, 24]);
    let record = Record {
        height,
        width,
        r_1,
        c_1,
        r0,
        c0,
        r_2: rng.next() as usize,
        c_2: rng.below(2 * width),
        r,
        c,
        pixelr: pixelr.to_bits(),
        pixelc: pixelc.to_bits(),
    };
    Call { record, size, out: values_of(&record, size) + rng.pick(&[0, 0, 1, 40]) }
}

/// One rule or more is broken.
fn break_rules(rng: &mut Rng, call: &mut Call) {
    let patterns = [0, 0x40FF_FFFF, 0x4348_0001, 0xC120_0000, 0x7F80_0000, 0x7FC0_0000];
    let numbers = [MOST + 1, 5000, 1 << 24, 1 << 32, (1 << 32) + 2, usize::MAX];
    for _ in 0..rng.between(1, 2) {
        match rng.below(11) {
            0 => call.record.pixelr = rng.pick(&patterns),
            1 => call.record.pixelc = rng.pick(&patterns),
            2 => call.record.r_1 = rng.pick(&numbers),
            3 => call.record.c_1 = rng.pick(&numbers),
            4 => call.record.r0 = rng.pick(&numbers),
            5 => call.record.c0 = rng.pick(&numbers),
            6 => call.record.r = rng.pick(&numbers),
            7 => call.record.c = rng.pick(&numbers),
            8 => call.size = rng.pick(&[25, 26, 64, 1 << 32, usize::MAX]),
            _ => call.out = call.out.saturating_sub(rng.between(1, 60)),
        }
    }
}

#[derive(Default)]
struct Cases {
    count: u64,
    /// How often each answer was given.
    answers: [u64; 13],
}

impl Cases {
    fn one(&mut self, call: &Call, planes: &[f32]) -> Result<(), String> {
        self.count += 1;
        self.differs(call, planes).map_or(Ok(()), |found| {
            Err(format!("case {}, {call:?}, {} plane values: {found}", self.count, planes.len()))
        })
    }

    fn differs(&mut self, call: &Call, planes: &[f32]) -> Option<String> {
        let Call { record, size, out } = *call;
        let mut lent = Lent::new(out);
        let have = port::sample_board(Board::of(&record), planes, size, lent.slice());
        let (want, cells) = match rule(call, planes) {
            Some(answer) => (answer, vec![]),
            None => cells(&record, planes, size).map_or((12, vec![]), |cells| (0, cells)),
        };
        self.answers[want as usize] += 1;
        if have != want {
            return Some(format!("answer: to be {want}, port {have}"));
        }
        lent.differs("output", cells)
    }
}

/// The cells that the Rust samples, rows first, or nothing where it panics at one.
fn cells(record: &Record, planes: &[f32], size: usize) -> Option<Vec<f32>> {
    let rust = steps::board(record, planes);
    let mut out = vec![];
    for x in 0..record.r {
        for y in 0..record.c {
            out.extend(caught(|| rust.extra_save_cell(x, y, size))?);
        }
    }
    Some(out)
}

/// The refusals but for 12, in their order.
fn rule(call: &Call, planes: &[f32]) -> Option<u32> {
    let Call { record, size, out } = *call;
    let fits = |side| (4..=MOST).contains(&side);
    if !fits(record.height) || !fits(record.width) {
        return Some(1);
    }
    let all = 3 * record.height * record.width;
    if planes.len() < all {
        return Some(3);
    }
    if planes[..all].iter().any(|x| x.to_bits() > 0x3F80_0000) {
        return Some(4);
    }
    let pitch = |bits| (8.0..=200.0).contains(&f32::from_bits(bits));
    if !pitch(record.pixelr) || !pitch(record.pixelc) {
        return Some(10);
    }
    let Record { r_1, c_1, r0, c0, r, c, .. } = record;
    if [r_1, c_1, r0, c0, r, c].iter().any(|&n| n > MOST) || size > MOST_SIZE {
        return Some(11);
    }
    (out < values_of(&record, size)).then_some(3)
}
