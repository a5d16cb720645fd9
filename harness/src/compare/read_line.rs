//! Line reading beside `get_line`. Its panic is refusal 6, its pitch 0.0 refusal 7; the votes come
//! from the probed copy. Refusals 1, 3 and 11 are held to the rule.

use super::lent::Lent;
use super::met::{as_built, Met, Row};
use super::{Outcome, Run, Tally};
use crate::original::{probed, steps};
use crate::port::{self, Reading};
use crate::quiet::caught;
use crate::rng::Rng;

pub fn compare(run: &Run) -> Outcome {
    let mut cases = Cases::new()?;
    let rng = &mut Rng::new(run.seed);
    cases.met.built = true;
    built(&mut cases)?;
    cases.met.built = false;
    // every list of length 4 to 9 with entries 0 to 3, or a part of them
    for len in 4..=9 {
        for code in 0u32..1 << (2 * len) {
            if !run.long && len >= 7 && rng.below(16) != 0 {
                continue;
            }
            let list: Vec<u32> = (0..len).map(|at| code >> (2 * at) & 3).collect();
            cases.one(&list)?;
        }
    }
    for _ in 0..run.choose(60_000, 3_000_000) {
        let list = random(rng, 120);
        cases.one(&list)?;
    }
    for _ in 0..run.choose(1_000, 100_000) {
        let list = random(rng, 900);
        cases.one(&list)?;
    }
    for _ in 0..run.choose(20, 1_000) {
        let list = lines(rng, 4096);
        cases.one(&list)?;
        let list = noise(rng, 4096);
        cases.one(&list)?;
    }
    gaps(rng, &mut cases, run.choose(1, 20))?;
    refusals(rng, &mut cases)?;
    Ok(Tally { cases: cases.count, note: cases.met.note()? })
}

const NO_GAP: &str = "no gap above 5";
const FAR: &str = "e of 206 or more";
const READS: &str = "any list that reads";

/// Rows marked (run).
const ROWS: &[Row] = &[(NO_GAP, &[]), (FAR, &[]), (READS, &[])];

/// A list for each row: zeros but for tens at these places.
fn built(cases: &mut Cases) -> Result<(), String> {
    let built: [(usize, &[usize], u32); 4] =
        [(30, &[3, 13, 23], 0), (30, &[], 6), (30, &[3, 11], 6), (300, &[3, 209], 7)];
    for (len, tens, answer) in built {
        let mut list = vec![0; len];
        tens.iter().for_each(|&at| list[at] = 10);
        cases.one(&list)?;
        as_built(&format!("the list of {len}, tens at {tens:?}"), answer, cases.answer)?;
    }
    Ok(())
}

pub(super) fn random(rng: &mut Rng, most: usize) -> Vec<u32> {
    let len = rng.between(4, most);
    if rng.below(2) == 0 {
        noise(rng, len)
    } else {
        lines(rng, len)
    }
}

/// Random entries, few values for ties, or plateaus.
pub(super) fn noise(rng: &mut Rng, len: usize) -> Vec<u32> {
    let values = rng.pick(&[2, 3, 5, 50, 4097]);
    let plateau = rng.pick(&[1, 1, 2, 3, 6, 11]);
    let mut out: Vec<u32> = Vec::with_capacity(len + plateau);
    while out.len() < len {
        let value = rng.below(values) as u32;
        out.extend(std::iter::repeat(value).take(rng.between(1, plateau)));
    }
    out.truncate(len);
    out
}

/// Lines at a pitch with some jitter, first and last ones out of step, over a low ground.
pub(super) fn lines(rng: &mut Rng, len: usize) -> Vec<u32> {
    let ground = rng.pick(&[1, 2, 30, 300]);
    let height = rng.pick(&[10, 300, 4096]);
    let flat = rng.below(2) == 0;
    let pitch = match rng.below(6) {
        0 => rng.between(5, 8),
        1 => rng.between(195, 215),
        _ => rng.between(6, 60),
    };
    let jitter = rng.pick(&[0, 0, 1, 3]);
    let mut out: Vec<u32> = (0..len).map(|_| rng.below(ground.min(height)) as u32).collect();
    let mut at = rng.below(pitch + 3);
    while at < len {
        let low = if flat { height } else { height * 3 / 4 };
        out[at] = rng.between(low, height) as u32;
        if rng.below(8) == 0 && at + 1 < len {
            out[at + 1] = out[at];
        }
        at +=
            if rng.below(12) == 0 { rng.between(1, pitch) } else { pitch + rng.below(jitter + 1) };
    }
    out
}

/// Gaps of exactly 5, 6, 205 and 206 and their neighbours, with first and last gaps from a half to
/// the whole of the usual one, where the drops begin.
fn gaps(rng: &mut Rng, cases: &mut Cases, times: usize) -> Result<(), String> {
    for usual in [4, 5, 6, 7, 8, 9, 10, 15, 16, 20, 195, 200, 204, 205, 206, 207, 250] {
        for first in usual / 2..=usual + 1 {
            for _ in 0..times {
                let last = rng.between(usual / 2, usual + 1);
                let middle = rng.between(0, 4);
                let mut places = vec![rng.below(20)];
                let gaps = [first].into_iter().chain(std::iter::repeat(usual).take(middle));
                for gap in gaps.chain([last]) {
                    places.push(places[places.len() - 1] + gap);
                }
                let len = places[places.len() - 1] + 1 + rng.below(20);
                let mut list = vec![0; len.max(4)];
                for (n, &at) in places.iter().enumerate() {
                    // falling or level heights keep smoothing from joining them
                    list[at] = if rng.below(2) == 0 { 1000 } else { 1000 - n as u32 };
                }
                cases.one(&list)?;
            }
        }
    }
    Ok(())
}

fn refusals(rng: &mut Rng, cases: &mut Cases) -> Result<(), String> {
    for len in [0, 1, 2, 3, 4, 5, 9, 100, 4095, 4096, 4097, 5000] {
        for scratch in [0, len, 4 * len.max(1) - 1, 4 * len, 4 * len + 30] {
            for bad in [None, Some(4096), Some(4097), Some(5000), Some(u32::MAX)] {
                let mut list: Vec<u32> = (0..len).map(|_| rng.below(4097) as u32).collect();
                if let (Some(value), true) = (bad, len > 0) {
                    let at = rng.below(len);
                    list[at] = value;
                }
                cases.with_scratch(&list, scratch)?;
            }
        }
    }
    Ok(())
}

struct Cases {
    count: u64,
    met: Met,
    /// To the last list.
    answer: u32,
    board: probed::ImageBoard,
}

impl Cases {
    fn new() -> Result<Cases, String> {
        let met = Met::new("line reading", ROWS)?;
        Ok(Cases { count: 0, met, answer: 0, board: probed::nothing() })
    }

    fn one(&mut self, list: &[u32]) -> Result<(), String> {
        self.with_scratch(list, 4 * list.len() + self.count as usize % 20)
    }

    fn with_scratch(&mut self, list: &[u32], scratch: usize) -> Result<(), String> {
        self.count += 1;
        let mut lent = Lent::new(scratch);
        let have = port::read_line(list, lent.slice());
        let want = self.wanted(list, scratch)?;
        self.answer = want.answer;
        match want.answer {
            0 => self.met.count(READS),
            6 => self.met.count(NO_GAP),
            7 => self.met.count(FAR),
            _ => (),
        }
        let key = |r: Reading| (r.answer, r.pitch.to_bits(), r.offset, r.count, r.votes);
        let kept = lent.beyond("scratch", 4 * list.len());
        if key(want) == key(have) && kept.is_none() {
            return Ok(());
        }
        let shown =
            if list.len() <= 300 { format!("{list:?}") } else { format!("of {}", list.len()) };
        Err(format!(
            "case {}, list {shown}, scratch {scratch}: Rust {want:?}, port {have:?}, {}",
            self.count,
            kept.unwrap_or("scratch kept".into())
        ))
    }

    fn wanted(&self, list: &[u32], scratch: usize) -> Result<Reading, String> {
        let refusal = |answer| Reading { answer, pitch: 0.0, offset: 0, count: 0, votes: 0 };
        if !(4..=4096).contains(&list.len()) {
            return Ok(refusal(1));
        }
        if scratch < 4 * list.len() {
            return Ok(refusal(3));
        }
        if list.iter().any(|&s| s > 4096) {
            return Ok(refusal(11));
        }
        let numbers: Vec<usize> = list.iter().map(|&s| s as usize).collect();
        let plain = caught(|| steps::line(numbers.clone()));
        let seen = probed::line(&self.board, numbers);
        if plain != seen.map(|(read, _)| read) {
            return Err(format!("the probed copy differs: {plain:?}, {seen:?} of {list:?}"));
        }
        Ok(match seen {
            None => refusal(6),
            Some(((pitch, offset, count), votes)) if pitch == 0.0 => {
                if (offset, count, votes) != (0, usize::MAX, 0) {
                    return Err(format!("at pitch 0.0 the Rust has {offset}, {count}, {votes}"));
                }
                refusal(7)
            }
            Some(((pitch, offset, count), votes)) => {
                Reading { answer: 0, pitch, offset, count, votes }
            }
        })
    }
}
