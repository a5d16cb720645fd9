//! The printed map. The Rust has none: `extra_save_cell` at size 1 gives a cell's value in plane 1, or panics,
//! and the mark, the text and the answers are made here from 02, R-6.

use super::lent::Lent;
use super::met::{as_built, Met, Row};
use super::sample::{any_board, pitch, reaching_out, sides};
use super::values::{planes, UNFIT};
use super::{Outcome, Run, Tally};
use crate::original::locate::traced;
use crate::original::probe::OWN_FACTOR;
use crate::original::steps;
use crate::port::{self, Board, Printed};
use crate::quiet::caught;
use crate::record::Record;
use crate::rng::Rng;

const MOST: usize = 4096;
const WIDE: usize = 80;

/// One call but for the planes.
#[derive(Clone, Copy, Debug)]
struct Call {
    record: Record,
    out: usize,
}

impl Call {
    /// With an output that is just long enough.
    fn of(record: Record) -> Call {
        Call { record, out: length(&record) }
    }

    /// The four that are at most 4,096, in the order of `FOUR`.
    fn numbers(&mut self) -> [&mut usize; 4] {
        let r = &mut self.record;
        [&mut r.r_1, &mut r.c_1, &mut r.r0, &mut r.c0]
    }
}

pub fn compare(run: &Run) -> Outcome {
    let rng = &mut Rng::new(run.seed);
    let mut cases = Cases::new()?;
    cases.met.built = true;
    built(&mut cases)?;
    cases.met.built = false;
    for _ in 0..run.choose(60, 1_000) {
        let (height, width) = sides(rng);
        let values = values(rng, 3 * height * width);
        for _ in 0..run.choose(20, 60) {
            let mut call = fitting(rng, height, width);
            if rng.below(4) == 0 {
                break_rules(rng, &mut call);
            }
            cases.one(&call, &values)?;
        }
        // faults of the planes, with others and without
        let mut call = fitting(rng, height, width);
        let mut bad = values.clone();
        let at = rng.below(bad.len());
        bad[at] = f32::from_bits(rng.pick(UNFIT));
        for _ in 0..3 {
            cases.one(&call, &bad)?;
            cases.one(&call, &bad[..bad.len() - 1])?;
            cases.one(&call, &values[..values.len() - 1])?;
            cases.one(&call, &[])?;
            for side in [0, 3, MOST + 1, 1 << 32, usize::MAX] {
                let mut other = call;
                *(if rng.below(2) == 0 {
                    &mut other.record.height
                } else {
                    &mut other.record.width
                }) = side;
                cases.one(&other, &bad)?;
            }
            break_rules(rng, &mut call);
        }
        // an unfit value past the planes
        let mut more = values;
        more.push(f32::NAN);
        cases.one(&fitting(rng, height, width), &more)?;
    }
    near_whole(rng, &mut cases, run)?;
    largest(&mut cases, run)?;
    let located = of_located(rng, &mut cases, run)?;
    let Cases { count, printed, met, .. } = cases;
    let note = format!("; {printed} printed; {located}{}", met.note()?);
    Ok(Tally { cases: count, note })
}

const PRINTED: &str = "a board that is printed";
const OFF_PICTURE: &str = "a cell of a printed board whose sample is not in the picture";
const UNFIT_FOR_SAMPLING: &str = "a record or planes that sampling refuses whatever the cell";
const COLUMNS: &str = "more than 80 board columns";
const MANY_ROWS: &str = "more than 4,096 board rows";
const SHORT: &str = "an output that is shorter than the text";

/// The marks, and counts that are not like others.
const KINDS: &[&str] = &[".", ":", "o", "O", "#", "no rows", "no columns", "80 columns"];

/// The answers, and of 11 the number that is too large.
const REFUSALS: &[&str] = &["1", "3", "4", "10", "11 r_1", "11 c_1", "11 r0", "11 c0"];
const FOUR: &[&str] = &["11 r_1", "11 c_1", "11 r0", "11 c0"];

/// Rows marked (run).
const ROWS: &[Row] = &[
    (PRINTED, KINDS),
    (OFF_PICTURE, &[]),
    (UNFIT_FOR_SAMPLING, REFUSALS),
    (COLUMNS, &[]),
    (MANY_ROWS, &[]),
    (SHORT, &[]),
];

/// A refusal, with its row and the part of that.
type Refusal = (u32, &'static str, &'static str);

/// The refusal that 02, R-6, asks for.
fn rule(call: &Call, planes: &[f32]) -> Option<Refusal> {
    let unfit = |answer, part| Some((answer, UNFIT_FOR_SAMPLING, part));
    let Record { height, width, r, c, pixelr, pixelc, .. } = call.record;
    if [height, width].iter().any(|side| !(4..=MOST).contains(side)) {
        return unfit(1, "1");
    }
    let all = 3 * height * width;
    if planes.len() < all {
        return unfit(3, "3");
    }
    if planes[..all].iter().any(|v| v.is_sign_negative() || !(0.0..=1.0).contains(v)) {
        return unfit(4, "4");
    }
    if [pixelr, pixelc].iter().any(|&bits| !(8.0..=200.0).contains(&f32::from_bits(bits))) {
        return unfit(10, "10");
    }
    let mut own = *call;
    if let Some(which) = own.numbers().iter().position(|number| **number > MOST) {
        return unfit(11, FOUR[which]);
    }
    if c > WIDE {
        return Some((15, COLUMNS, ""));
    }
    if r > MOST {
        return Some((11, MANY_ROWS, ""));
    }
    (call.out < length(&call.record)).then_some((3, SHORT, ""))
}

/// The two lines before the board rows.
fn heading(record: &Record) -> String {
    format!("rows columns\n{} {}\n", record.r, record.c)
}

/// The length of the text, also of one that is too long.
fn length(record: &Record) -> usize {
    heading(record).len() + record.r.saturating_mul(WIDE + 1).min(1 << 20)
}

/// The mark of a plane value, in binary32.
fn mark(value: f32) -> u8 {
    match (255.0 * value + 0.5) as u32 {
        0..=42 => b'.',
        43..=84 => b':',
        85..=127 => b'o',
        128..=212 => b'O',
        213..=255 => b'#',
        level => panic!("{value} has the level {level}"),
    }
}

/// The board rows that the Rust's samples give.
fn lines(record: &Record, planes: &[f32]) -> Vec<u8> {
    let board = steps::board(record, planes);
    let mut out = vec![];
    for x in 0..record.r {
        let cell = |y| caught(|| board.extra_save_cell(x, y, 1));
        let marks = (0..record.c).map(|y| cell(y).map_or(b'?', |values| mark(values[1])));
        out.extend(marks.chain(std::iter::repeat(b' ')).take(WIDE));
        out.push(b'\n');
    }
    out
}

struct Cases {
    count: u64,
    printed: u64,
    met: Met,
    /// Of the last call: the answer.
    end: u32,
}

impl Cases {
    fn new() -> Result<Cases, String> {
        Ok(Cases { count: 0, printed: 0, met: Met::new("printing", ROWS)?, end: 0 })
    }

    /// Counts a map by what its board rows have.
    fn printed(&mut self, record: &Record, lines: &[u8]) {
        self.printed += 1;
        for kind in &KINDS[..5] {
            if lines.contains(&kind.as_bytes()[0]) {
                self.met.count_part(PRINTED, kind);
            }
        }
        if lines.contains(&b'?') {
            self.met.count(OFF_PICTURE);
        }
        let Record { r, c, .. } = *record;
        for (kind, has) in KINDS[5..].iter().zip([r == 0, c == 0, c == WIDE]) {
            if has {
                self.met.count_part(PRINTED, kind);
            }
        }
    }

    fn one(&mut self, call: &Call, planes: &[f32]) -> Result<(), String> {
        self.count += 1;
        self.differs(call, planes).map_or(Ok(()), |found| {
            Err(format!("case {}, {call:?}, {} plane values: {found}", self.count, planes.len()))
        })
    }

    fn differs(&mut self, call: &Call, planes: &[f32]) -> Option<String> {
        let record = call.record;
        let mut lent = Lent::new(call.out);
        let Printed { answer, length } = port::map(Board::of(&record), planes, lent.slice());
        let mut wanted = vec![];
        match rule(call, planes) {
            None => {
                let lines = lines(&record, planes);
                self.end = 0;
                self.printed(&record, &lines);
                wanted = [heading(&record).into_bytes(), lines].concat();
            }
            Some((refusal, row, part)) => {
                self.end = refusal;
                self.met.count_part(row, part);
                // no picture has row 4,096 of a board
                let board = || steps::board(&record, planes);
                if row == MANY_ROWS && caught(|| board().extra_save_cell(MOST, 0, 1)).is_some() {
                    return Some("the Rust samples a cell in board row 4,096".into());
                }
            }
        }
        if answer != self.end {
            return Some(format!("answer: to be {}, port {answer}", self.end));
        }
        if length != wanted.len() {
            return Some(format!("length: to be {}, port {length}", wanted.len()));
        }
        lent.differs("output", wanted)
    }
}

/// A call for each row, and for each part of one.
fn built(cases: &mut Cases) -> Result<(), String> {
    let (height, width, eight) = (20, 650, 8.0f32.to_bits());
    let values: Vec<f32> = (0..3 * height * width).map(|at| (at % 256) as f32 / 255.0).collect();
    let record = Record {
        height,
        width,
        r_1: 1,
        c_1: 2,
        r0: 1,
        c0: 3,
        r: 2,
        c: WIDE,
        pixelr: eight,
        pixelc: eight,
        ..Record::default()
    };
    let mut one = |call: Call, planes: &[f32], end: u32| {
        cases.one(&call, planes)?;
        as_built(&format!("{call:?}"), end, cases.end)
    };
    for (r, c) in [(2, WIDE), (2, 7), (0, 7), (2, 0), (0, 0), (3, WIDE), (1, 1), (MOST, 1)] {
        let fit = Call::of(Record { r, c, ..record });
        for (out, end) in [(fit.out, 0), (fit.out + 1, 0), (fit.out - 1, 3), (0, 3)] {
            one(Call { out, ..fit }, &values, end)?;
        }
    }
    let fit = Call::of(record);
    one(Call::of(Record { height: 3, ..record }), &values, 1)?;
    one(fit, &values[1..], 3)?;
    for &bits in UNFIT {
        for at in [0, height * width, values.len() - 1] {
            let mut bad = values.clone();
            bad[at] = f32::from_bits(bits);
            one(fit, &bad, 4)?;
        }
    }
    for pitch in [7.75, 200.25, -8.0, 0.0, f32::NAN, f32::INFINITY] {
        one(Call::of(Record { pixelr: pitch.to_bits(), ..record }), &values, 10)?;
        one(Call::of(Record { pixelc: pitch.to_bits(), ..record }), &values, 10)?;
    }
    for which in 0..FOUR.len() {
        let mut call = fit;
        *call.numbers()[which] = MOST;
        one(call, &values, 0)?;
        *call.numbers()[which] = MOST + 1;
        one(call, &values, 11)?;
    }
    let beside = caught(|| steps::board(&record, &values).extra_save_cell(0, WIDE, 1)).is_some();
    as_built("a cell in board column 80", true, beside)?;
    for c in [WIDE + 1, (1 << 32) + 1, usize::MAX] {
        one(Call::of(Record { c, ..record }), &values, 15)?;
        one(Call::of(Record { r: MOST + 1, c, ..record }), &values, 15)?;
    }
    for r in [MOST + 1, 1 << 32, usize::MAX / 81 + 1, usize::MAX] {
        one(Call::of(Record { r, ..record }), &values, 11)?;
        one(Call { record: Record { r, ..record }, out: 0 }, &values, 11)?;
    }
    Ok(())
}

/// The most rows that a picture has, with 80 columns; in the long run also the longest text. Each cell that is
/// off the picture costs a panic.
fn largest(cases: &mut Cases, run: &Run) -> Result<(), String> {
    let (height, width, eight) = (MOST, 640, 8.0f32.to_bits());
    let values: Vec<f32> = (0..3 * height * width).map(|at| (at % 251) as f32 / 250.0).collect();
    let on_picture = Record {
        height,
        width,
        r: MOST / 8,
        c: WIDE,
        pixelr: eight,
        pixelc: eight,
        ..Record::default()
    };
    cases.one(&Call::of(on_picture), &values)?;
    if run.long {
        cases.one(&Call::of(Record { r: MOST, ..on_picture }), &values)?;
    }
    Ok(())
}

/// Long boards whose places are whole numbers or next to one, where another order of the roundings shows: most
/// of all just below 16.0 and 32.0, which come first.
fn near_whole(rng: &mut Rng, cases: &mut Cases, run: &Run) -> Result<(), String> {
    const LONG: usize = 1200;
    const LOW: usize = 12;
    let values: Vec<f32> = (0..3 * LONG * LOW).map(|_| rng.below(256) as f32 / 255.0).collect();
    let mut pitches: Vec<u32> = [16.0, 32.0].iter().map(|p: &f32| p.to_bits() - 1).collect();
    for _ in 0..run.choose(30, 2_000) {
        let whole = (rng.between(32, 200) as f32 / 4.0).to_bits();
        pitches.push((whole - 1 + rng.below(3) as u32).max(8.0f32.to_bits()));
    }
    let eight = 8.0f32.to_bits();
    for pitch in pitches {
        let start = rng.between(1, 3);
        let count = ((LONG / f32::from_bits(pitch) as usize) + 1).min(WIDE);
        let low = Record { r: 1, c: 1, pixelr: eight, pixelc: eight, ..Record::default() };
        let down = Record { height: LONG, width: LOW, r_1: start, r: count, pixelr: pitch, ..low };
        let across = Record { height: LOW, width: LONG, c0: start, c: count, pixelc: pitch, ..low };
        cases.one(&Call::of(down), &values)?;
        cases.one(&Call::of(across), &values)?;
    }
    Ok(())
}

/// The first value of each mark but the lowest, by its bits.
const FIRSTS: [u32; 4] = [0x3E2A_AAAB, 0x3EA9_A9AA, 0x3F00_0000, 0x3F55_5555];

/// Plane values as other operations take them, any between 0.0 and 1.0, or those around the first of a mark.
fn values(rng: &mut Rng, count: usize) -> Vec<f32> {
    let some = 1 << 24;
    match rng.below(3) {
        0 => planes(rng, count),
        1 => (0..count).map(|_| rng.below(some + 1) as f32 / some as f32).collect(),
        _ => (0..count)
            .map(|_| f32::from_bits(rng.pick(&FIRSTS) - 2 + rng.below(5) as u32))
            .collect(),
    }
}

/// A call that keeps the rules; some cells are off the picture.
fn fitting(rng: &mut Rng, height: usize, width: usize) -> Call {
    let (pixelr, pixelc) = (pitch(rng), pitch(rng));
    let mut along = |side: usize, pitch: f32, most: usize| {
        let corner = rng.below(side / 3 + 1);
        let offset = rng.below(pitch as usize);
        let cells = ((side - corner) as f32 / pitch) as usize;
        let count = match rng.below(12) {
            0 => 0,
            1 => most,
            2 => rng.below(most + 1),
            _ => (cells + rng.below(3)).min(most),
        };
        (corner, offset, count)
    };
    let (r_1, r0, r) = along(height, pixelr, 100);
    let (c_1, c0, c) = along(width, pixelc, WIDE);
    let mut call = Call::of(Record {
        height,
        width,
        r_1,
        c_1,
        r0,
        c0,
        r,
        c,
        r_2: rng.next() as usize,
        c_2: rng.below(2 * width),
        pixelr: pixelr.to_bits(),
        pixelc: pixelc.to_bits(),
    });
    if rng.below(16) == 0 {
        let which = rng.below(FOUR.len());
        *call.numbers()[which] = rng.pick(&[MOST, MOST - 1, 0, 1000]);
    }
    call.out += rng.pick(&[0, 0, 1, 40, 1000]);
    call
}

/// One rule or more is broken.
fn break_rules(rng: &mut Rng, call: &mut Call) {
    let patterns = [
        0,
        0x8000_0000,
        0x40FF_FFFF,
        0x4348_0001,
        0xC100_0000,
        0x7F80_0000,
        0xFF80_0000,
        0x7FC0_0000,
        0xFFC0_0001,
    ];
    let numbers = [MOST + 1, 5000, 1 << 32, (1 << 32) + 1, 1 << 63, usize::MAX];
    for _ in 0..rng.between(1, 3) {
        match rng.below(8) {
            0 => call.record.pixelr = rng.pick(&patterns),
            1 => call.record.pixelc = rng.pick(&patterns),
            2 | 3 => {
                let which = rng.below(FOUR.len());
                *call.numbers()[which] = rng.pick(&numbers);
            }
            4 => call.record.c = rng.pick(&[WIDE + 1, WIDE + 2, (1 << 32) + 1, usize::MAX]),
            5 => call.record.r = rng.pick(&numbers),
            _ => call.out = call.out.saturating_sub(rng.between(1, 1100)),
        }
    }
}

/// The maps of located boards, by the record and the planes that the Rust leaves.
fn of_located(rng: &mut Rng, cases: &mut Cases, run: &Run) -> Result<String, String> {
    let (mut boards, mut narrowed) = (0, 0);
    let mut next = (OWN_FACTOR, reaching_out());
    while boards < run.choose(60, 2_000) {
        let (factor, (height, width, pixels)) = next;
        let located = traced(&pixels, height, width, factor)?;
        if located.answer == 0 {
            boards += 1;
            narrowed += (located.seen.narrowed > 0) as u64;
            cases.one(&Call::of(located.board()), &located.planes)?;
            as_built("the map of a located board", 0, cases.end)?;
        }
        next = any_board(rng, boards % 4 == 0);
    }
    if narrowed == 0 {
        return Err("no board that was printed was narrowed".into());
    }
    Ok(format!("of {boards} located boards, {narrowed} of them narrowed"))
}
