//! Sampling beside `extra_save_cell`: bits, or its panic as refusal 12, of cells on the board. What 01 and
//! 02 refuse is held to the rule, and the Rust there to the values at the places of 01's formula.

use super::lent::Lent;
use super::met::{as_built, Met, Row};
use super::values::{planes, UNFIT};
use super::{Outcome, Run, Tally};
use crate::original::locate::traced;
use crate::original::probe::OWN_FACTOR;
use crate::original::steps;
use crate::port::{self, Board};
use crate::quiet::caught;
use crate::record::Record;
use crate::rng::Rng;
use crate::screens::{self, Drawn};
use crate::FACTORS;

const MOST: usize = 4096;
const MOST_SIZE: usize = 24;

/// One call but for the planes.
#[derive(Clone, Copy, Debug)]
struct Call {
    record: Record,
    x: usize,
    y: usize,
    size: usize,
    out: usize,
}

impl Call {
    /// The six that are at most 4,096, in the order of `SIX`.
    fn numbers(&mut self) -> [&mut usize; 6] {
        let r = &mut self.record;
        [&mut self.x, &mut self.y, &mut r.r_1, &mut r.c_1, &mut r.r0, &mut r.c0]
    }
}

pub fn compare(run: &Run) -> Outcome {
    let rng = &mut Rng::new(run.seed);
    let mut cases = Cases::new()?;
    cases.met.built = true;
    built(&mut cases)?;
    cases.met.built = false;
    for _ in 0..run.choose(60, 1_000) {
        let (height, width) = sides(rng);
        let values = planes(rng, 3 * height * width);
        for _ in 0..run.choose(150, 400) {
            let mut call = fitting(rng, height, width);
            if rng.below(6) == 0 {
                break_rules(rng, &mut call);
            }
            cases.one(&call, &values)?;
        }
        // faults of the planes
        let mut call = fitting(rng, height, width);
        cases.one(&call, &values[..values.len() - 1])?;
        cases.one(&call, &[])?;
        let mut bad = values.clone();
        let at = rng.below(bad.len());
        bad[at] = f32::from_bits(rng.pick(UNFIT));
        cases.one(&call, &bad)?;
        break_rules(rng, &mut call);
        cases.one(&call, &bad)?;
        cases.one(&call, &values[..values.len() / 2])?;
        bad.truncate(bad.len() / 3);
        cases.one(&call, &bad)?;
        for side in [0, 1, 3, MOST + 1, 1 << 32, 1 << 63, usize::MAX] {
            call.record.height = side;
            cases.one(&call, &values)?;
            call.record.height = height;
            call.record.width = side;
            cases.one(&call, &values)?;
            call.record.width = width;
        }
    }
    near_whole(rng, &mut cases, run)?;
    let around = around_located(rng, &mut cases, run)?;
    let Cases { count, sampled, met, .. } = cases;
    if let Some(size) = sampled.iter().position(|&calls| calls == 0) {
        return Err(format!("no call with size {size} was sampled"));
    }
    let all: u64 = sampled.iter().sum();
    let fewest = sampled.iter().min().unwrap();
    let met = met.note()?;
    let note = format!("; {all} sampled, each size at least {fewest} times; {around}{met}");
    Ok(Tally { cases: count, note })
}

const PITCH: &str = "a pitch below 8.0, above 200.0, negative, 0 or no number";
const NUMBER: &str = "x, y, r_1, c_1, r0 or c0 above 4,096, size 1 to 24";
const NUMBER_SIZE_0: &str = "the same at size 0";
const SIZE: &str = "a size above 24";
const OFF_BOARD: &str = "a cell that is not on the board, x of r or more or y of c or more";
const OUTSIDE: &str = "a cell on the board of which a sampled place is not in the picture";

const SIX: &[&str] = &["x", "y", "r_1", "c_1", "r0", "c0"];

/// Of a cell that is not on the board: which number is too large, and what the Rust does.
const OFF: &[&str] =
    &["x, samples", "x, panics", "x, size 0", "y, samples", "y, panics", "y, size 0"];

/// Rows marked (run).
const ROWS: &[Row] = &[
    (PITCH, &["below 8.0", "above 200.0", "negative", "0", "no number"]),
    (NUMBER, SIX),
    (NUMBER_SIZE_0, SIX),
    (SIZE, &[]),
    (OFF_BOARD, OFF),
    (OUTSIDE, &[]),
];

/// The part of the pitches' row.
fn kind(bits: u32) -> Option<&'static str> {
    let pitch = f32::from_bits(bits);
    if pitch.is_nan() {
        Some("no number")
    } else if pitch == 0.0 {
        Some("0")
    } else if pitch < 0.0 {
        Some("negative")
    } else if pitch < 8.0 {
        Some("below 8.0")
    } else {
        (pitch > 200.0).then_some("above 200.0")
    }
}

/// A call for each row, and for each part of one.
fn built(cases: &mut Cases) -> Result<(), String> {
    let (height, width, ten) = (230, 225, 10.0f32.to_bits());
    let values: Vec<f32> = (0..3 * height * width).map(|at| at as f32 / 262144.0).collect();
    let record = Record {
        height,
        width,
        r_1: 5,
        c_1: 7,
        r0: 3,
        c0: 2,
        r: 50,
        c: 60,
        pixelr: ten,
        pixelc: ten,
        ..Record::default()
    };
    let fitting = Call { record, x: 0, y: 0, size: 5, out: 75 };
    let mut one = |call: Call, end: (u32, bool)| {
        cases.one(&call, &values)?;
        as_built(&format!("{call:?}"), Some(end), cases.end)
    };
    one(fitting, (0, true))?;
    one(Call { size: MOST_SIZE, out: 1728, ..fitting }, (0, true))?;
    one(Call { size: MOST_SIZE, out: 1727, ..fitting }, (3, true))?;
    for pitch in [4.0, 201.0, -40.0, 0.0, -0.0, f32::NAN] {
        for (down, across) in [(true, false), (false, true), (true, true)] {
            let mut call = fitting;
            if down {
                call.record.pixelr = pitch.to_bits();
            }
            if across {
                call.record.pixelc = pitch.to_bits();
            }
            one(call, (10, true))?;
        }
    }
    for which in 0..SIX.len() {
        let mut call = fitting;
        *call.numbers()[which] = MOST + 1;
        one(call, (11, false))?;
        call.size = 0;
        one(call, (11, true))?;
    }
    for size in [25, 64, 65] {
        for out in [3 * size * size, 0] {
            one(Call { size, out, ..fitting }, (11, true))?;
        }
    }
    one(Call { x: 40, ..fitting }, (12, false))?;
    one(Call { y: 40, ..fitting }, (12, false))?;
    // the last cell on a board of x rows or y columns, and the first that is not
    for down in [true, false] {
        for (cell, in_picture) in [(0, true), (2, true), (40, false)] {
            let mut last = fitting;
            *(if down { &mut last.x } else { &mut last.y }) = cell;
            *(if down { &mut last.record.r } else { &mut last.record.c }) = cell + 1;
            let end = if in_picture { 0 } else { 12 };
            one(last, (end, in_picture))?;
            let mut first = last;
            *(if down { &mut first.record.r } else { &mut first.record.c }) = cell;
            one(first, (14, in_picture))?;
            one(Call { out: 0, ..first }, (14, in_picture))?;
            one(Call { size: 0, out: 0, ..first }, (14, true))?;
            one(Call { size: MOST_SIZE + 1, ..first }, (11, in_picture))?;
        }
    }
    Ok(())
}

/// Places that are whole numbers or next to one, where another order of the roundings shows: the
/// corner is small, so that the last sum hides nothing.
fn near_whole(rng: &mut Rng, cases: &mut Cases, run: &Run) -> Result<(), String> {
    const LONG: usize = 210;
    const LOW: usize = 18;
    let values: Vec<f32> = (0..3 * LONG * LOW).map(|at| at as f32 / 16384.0).collect();
    let mut one = |rng: &mut Rng, pitch: f32, size: usize| {
        let down = rng.below(2) == 0;
        let (height, width) = if down { (LONG, LOW) } else { (LOW, LONG) };
        let (start, eight) = (rng.pick(&[0, 0, 0, 1, 3]), 8.0f32.to_bits());
        let mut record =
            Record { height, width, r: 2, c: 2, pixelr: eight, pixelc: eight, ..Record::default() };
        if down {
            (record.pixelr, record.r0) = (pitch.to_bits(), start);
        } else {
            (record.pixelc, record.c0) = (pitch.to_bits(), start);
        }
        let cell = if rng.below(4) == 0 { 1 } else { 0 };
        let (x, y) = if down { (cell, 0) } else { (0, cell) };
        cases.one(&Call { record, x, y, size, out: 3 * size * size }, &values)
    };
    // pitches in quarters, all of them
    for quarter in 32..=800 {
        for size in 1..=MOST_SIZE {
            if run.long || [3, 7, 11, 23, 24].contains(&size) {
                one(rng, quarter as f32 / 4.0, size)?;
            }
        }
    }
    // pitches for which a point lies on a whole number, and their neighbours
    let mut left = run.choose(4_000, 200_000);
    while left > 0 {
        let (size, whole) = (rng.between(1, MOST_SIZE), rng.between(1, 200));
        let pitch = (whole * 2 * size) as f32 / (2 * rng.below(size) + 1) as f32;
        let pitch = f32::from_bits(pitch.to_bits() - 1 + rng.below(3) as u32);
        if (8.0..=200.0).contains(&pitch) {
            left -= 1;
            one(rng, pitch, size)?;
        }
    }
    Ok(())
}

/// A screen of 22 by 57 whose board is read with cells that reach off the picture.
pub(super) fn reaching_out() -> (usize, usize, Vec<u8>) {
    let (height, width) = (22, 57);
    let colours = vec![[38, 121, 86, 158]];
    let board =
        Drawn { top: 1, left: 1, rows: 1, columns: 9, down: 12, across: 6, rim: 1, colours };
    (height, width, board.screen(height, width))
}

/// A factor and a screen that often reads by it, if zoomed after one narrowing.
pub(super) fn any_board(rng: &mut Rng, zoomed: bool) -> (usize, (usize, usize, Vec<u8>)) {
    let factor = rng.between(*FACTORS.start(), *FACTORS.end());
    let (least, most) = if zoomed { (67 * factor, 67 * factor + 60) } else { (20, 120) };
    let (height, width) = (rng.between(least, most), rng.between(least, most));
    let pixels = if zoomed {
        screens::zoomed(rng, height, width, factor, 1)
    } else {
        Drawn::filling(rng, height, width, 6, 20).screen(height, width)
    };
    (factor, (height, width, pixels))
}

/// What became of the cells of located boards and of those beside them.
#[derive(Default)]
struct Around {
    boards: u64,
    narrowed: u64,
    sampled: u64,
    /// On the board and off the picture.
    off_picture: u64,
    beside: u64,
}

impl Around {
    /// Every cell of the board, and those beside it to the right and below, by the record and the planes that
    /// the Rust leaves. Nothing where it reads no board.
    fn board(
        &mut self,
        rng: &mut Rng,
        cases: &mut Cases,
        factor: usize,
        (height, width, pixels): (usize, usize, Vec<u8>),
    ) -> Result<(), String> {
        let located = traced(&pixels, height, width, factor)?;
        if located.answer != 0 {
            return Ok(());
        }
        let record = located.board();
        self.boards += 1;
        self.narrowed += (located.seen.narrowed > 0) as u64;
        for x in 0..record.r + 2 {
            for y in 0..record.c + 2 {
                for size in [rng.pick(&[0, 1, 2, 8]), MOST_SIZE] {
                    let call = Call { record, x, y, size, out: 3 * size * size };
                    cases.one(&call, &located.planes)?;
                    match cases.end {
                        Some((0, _)) => self.sampled += 1,
                        Some((12, _)) => self.off_picture += 1,
                        Some((14, _)) => self.beside += 1,
                        end => return Err(format!("a cell of a located board ends with {end:?}")),
                    }
                }
            }
        }
        Ok(())
    }
}

fn around_located(rng: &mut Rng, cases: &mut Cases, run: &Run) -> Result<String, String> {
    let mut around = Around::default();
    around.board(rng, cases, OWN_FACTOR, reaching_out())?;
    as_built("the screen of 22 by 57", (1, 1), (around.boards, around.off_picture))?;
    while around.boards < run.choose(60, 2_000) {
        let (factor, screen) = any_board(rng, around.boards % 4 == 0);
        around.board(rng, cases, factor, screen)?;
    }
    let Around { boards, narrowed, sampled, off_picture, beside } = around;
    if narrowed == 0 {
        return Err("no board that was sampled was narrowed".into());
    }
    Ok(format!(
        "of {boards} located boards, {narrowed} of them narrowed: {sampled} on the board and sampled, \
         {off_picture} on the board and off the picture, {beside} beside it"
    ))
}

pub(super) fn sides(rng: &mut Rng) -> (usize, usize) {
    match rng.below(12) {
        0 => (rng.between(4, 12), rng.between(4, MOST)),
        1 => (rng.between(4, MOST), rng.between(4, 12)),
        2 => (rng.between(200, 260), rng.between(200, 260)),
        _ => (rng.between(4, 130), rng.between(4, 130)),
    }
}

/// A pitch in quarters, or any.
pub(super) fn pitch(rng: &mut Rng) -> f32 {
    let most = if rng.below(4) == 0 { 200 } else { 24 };
    if rng.below(2) == 0 {
        rng.between(32, 4 * most) as f32 / 4.0
    } else {
        (8.0 + (most - 8) as f32 * (rng.below(1 << 24) as f32 / (1 << 24) as f32)).clamp(8.0, 200.0)
    }
}

/// A call that keeps the rules, but that a few cells are not on the board; most are in the picture.
fn fitting(rng: &mut Rng, height: usize, width: usize) -> Call {
    let (pixelr, pixelc) = (pitch(rng), pitch(rng));
    let mut along = |side: usize, pitch: f32| {
        let corner = rng.below(side / 2 + 1);
        let offset = rng.below(side / 4 + 1);
        let cells = ((side - corner.min(side)) as f32 / pitch) as usize;
        let cell = rng.below(cells + 1).saturating_sub(rng.below(2));
        (corner, offset, cell)
    };
    let (r_1, r0, x) = along(height, pixelr);
    let (c_1, c0, y) = along(width, pixelc);
    let mut call = Call {
        record: Record {
            height,
            width,
            r_1,
            c_1,
            r0,
            c0,
            r_2: rng.next() as usize,
            c_2: rng.below(2 * width),
            pixelr: pixelr.to_bits(),
            pixelc: pixelc.to_bits(),
            ..Record::default()
        },
        x,
        y,
        size: rng.pick(&[0, 1, 2, 3, 4, 5, 7, 8, 13, 17, 22, 23, 24, 24]),
        out: 0,
    };
    if rng.below(8) == 0 {
        let which = rng.below(6);
        *call.numbers()[which] = rng.pick(&[MOST, MOST - 1, 0, 100, 1000]);
    }
    call.record.r = count(rng, call.x);
    call.record.c = count(rng, call.y);
    call.out = 3 * call.size * call.size + rng.pick(&[0, 0, 1, 40]);
    call
}

/// A count of rows or columns for a cell: most have the cell, some just so, a few do not.
fn count(rng: &mut Rng, cell: usize) -> usize {
    match rng.below(24) {
        0 => cell,
        1 => rng.below(cell + 1),
        2 => usize::MAX,
        3..=8 => cell + 1,
        _ => cell + rng.between(1, 50),
    }
}

/// One rule or more is broken.
fn break_rules(rng: &mut Rng, call: &mut Call) {
    let patterns = [
        0,
        0x8000_0000,
        1,
        0x40FF_FFFF,
        0x4348_0001,
        0x3F80_0000,
        0x4080_0000,
        0xC120_0000,
        0x7F80_0000,
        0xFF80_0000,
        0x7FC0_0000,
        0xFFC0_0001,
        0x7F7F_FFFF,
    ];
    let numbers = [MOST + 1, 5000, 1 << 24, (1 << 24) + 1, 1 << 32, 1 << 63, usize::MAX];
    for _ in 0..rng.between(1, 2) {
        match rng.below(11) {
            0 => call.record.pixelr = rng.pick(&patterns),
            1 => call.record.pixelc = rng.pick(&patterns),
            2 => call.x = rng.pick(&numbers),
            3 => call.y = rng.pick(&numbers),
            4 => call.record.r_1 = rng.pick(&numbers),
            5 => call.record.c0 = rng.pick(&numbers),
            6 => call.size = rng.pick(&[25, 26, 64, 100, 0]),
            7 => call.size = rng.pick(&[1 << 32, usize::MAX, 25]),
            8 => call.record.r = rng.below(call.x.saturating_add(1)),
            9 => call.record.c = rng.below(call.y.saturating_add(1)),
            _ => call.out = call.out.saturating_sub(rng.between(1, 60)),
        }
    }
}

struct Cases {
    count: u64,
    /// Calls that sample, by their size.
    sampled: [u64; MOST_SIZE + 1],
    met: Met,
    /// Of the last call: the answer, and whether the Rust returns.
    end: Option<(u32, bool)>,
}

impl Cases {
    fn new() -> Result<Cases, String> {
        Ok(Cases {
            count: 0,
            sampled: [0; MOST_SIZE + 1],
            met: Met::new("sampling", ROWS)?,
            end: None,
        })
    }

    /// Counts a call whose planes are fit, and which the Rust was run on.
    fn ended(&mut self, mut call: Call, answer: u32, returns: bool) {
        self.end = Some((answer, returns));
        match (answer, returns) {
            (0, _) => self.sampled[call.size] += 1,
            (12, _) => self.met.count(OUTSIDE),
            (14, _) => {
                let what = match (call.size, returns) {
                    (0, _) => 2,
                    (_, true) => 0,
                    (_, false) => 1,
                };
                for (axis, off) in
                    [call.x >= call.record.r, call.y >= call.record.c].into_iter().enumerate()
                {
                    if off {
                        self.met.count_part(OFF_BOARD, OFF[3 * axis + what]);
                    }
                }
            }
            (10, true) => {
                let pitches = [call.record.pixelr, call.record.pixelc];
                let kinds = pitches.into_iter().filter_map(kind);
                kinds.for_each(|kind| self.met.count_part(PITCH, kind));
            }
            (11, true) if call.size > MOST_SIZE => self.met.count(SIZE),
            (11, _) if call.size <= MOST_SIZE => {
                let row = if call.size == 0 { NUMBER_SIZE_0 } else { NUMBER };
                for (part, number) in SIX.iter().zip(call.numbers()) {
                    if *number > MOST {
                        self.met.count_part(row, part);
                    }
                }
            }
            _ => (),
        }
    }

    fn one(&mut self, call: &Call, planes: &[f32]) -> Result<(), String> {
        self.count += 1;
        self.differs(call, planes).map_or(Ok(()), |found| {
            Err(format!("case {}, {call:?}, {} plane values: {found}", self.count, planes.len()))
        })
    }

    fn differs(&mut self, call: &Call, planes: &[f32]) -> Option<String> {
        let Call { record, x, y, size, out } = *call;
        let mut lent = Lent::new(out);
        let have = port::sample(Board::of(&record), planes, x, y, size, lent.slice());
        let refusal = rule(call, planes);
        let fit =
            !matches!(refusal, Some(1 | 4)) && planes.len() >= 3 * record.height * record.width;
        // the Rust, where its planes can be built and a cell of that size can be held
        let run = fit && size <= 100;
        let rust = run
            .then(|| caught(|| steps::board(&record, planes).extra_save_cell(x, y, size)))
            .flatten();
        let want = refusal.unwrap_or(if rust.is_some() { 0 } else { 12 });
        if run {
            if let Some(found) = departs(call, planes, want, rust.as_deref()) {
                return Some(found);
            }
            self.ended(*call, want, rust.is_some());
        }
        if have != want {
            return Some(format!("answer: to be {want}, port {have}"));
        }
        let cell = if want == 0 { rust.unwrap() } else { vec![] };
        let found = lent.differs("output", cell.iter().copied());
        if found.is_some() || !fit {
            return found;
        }
        // the inner function, which is not handed planes that are unfit
        let mut lent = Lent::new(out);
        let have = port::inner::sample(Board::of(&record), planes, x, y, size, lent.slice());
        if have != want {
            return Some(format!("inner answer: to be {want}, port {have}"));
        }
        lent.differs("inner output", cell)
    }
}

/// Where the Rust does not do what docs/DIFFERENCES.md says at 10, 11, 12 and 14.
fn departs(call: &Call, planes: &[f32], answer: u32, rust: Option<&[f32]>) -> Option<String> {
    if !matches!(answer, 10..=12 | 14) {
        return None;
    }
    let size = call.size;
    match rust {
        None if size == 0 => return Some("size 0 panics in the Rust".into()),
        Some(cell) if cell.len() != 3 * size * size => {
            return Some(format!("{} values of the Rust at size {size}", cell.len()));
        }
        Some(_) if answer == 11 && (1..=MOST_SIZE).contains(&size) => {
            return Some("a number above 4,096 is sampled by the Rust".into());
        }
        _ => (),
    }
    match (values_at(call, planes), rust) {
        (None, None) => None,
        (None, Some(_)) => Some("the Rust samples a place that is not in the picture".into()),
        (Some(_), None) => Some("the Rust panics, and each place is in the picture".into()),
        (Some(want), Some(cell)) => {
            let at = want.iter().zip(cell).position(|(a, b)| a.to_bits() != b.to_bits())?;
            Some(format!("the Rust's value {at}: by its place {}, Rust {}", want[at], cell[at]))
        }
    }
}

/// The values at the places of 01's formula, or nothing where one is not in the picture. A negative
/// place and one that is no number count as 0.
fn values_at(call: &Call, planes: &[f32]) -> Option<Vec<f32>> {
    let Call { record, x, y, size, .. } = *call;
    let Record { height, width, r_1, c_1, r0, c0, pixelr, pixelc, .. } = record;
    let places = |corner: usize, offset: usize, pitch: u32, cell: usize, side: usize| {
        let pitch = f32::from_bits(pitch);
        let start = (corner as f32 + offset as f32) + pitch * cell as f32;
        let place = |i: usize| start + ((pitch / 2.0) / size as f32) * (2 * i + 1) as f32;
        let whole = (0..size).map(place).map(|at| if at >= 0.0 { at as usize } else { 0 });
        whole.map(|at| (at < side).then_some(at)).collect::<Option<Vec<usize>>>()
    };
    let rows = places(r_1, r0, pixelr, x, height)?;
    let columns = places(c_1, c0, pixelc, y, width)?;
    let mut out = Vec::with_capacity(3 * size * size);
    for plane in planes[..3 * height * width].chunks(height * width) {
        for row in &rows {
            out.extend(columns.iter().map(|column| plane[row * width + column]));
        }
    }
    Some(out)
}

/// The refusal that 01 and 02 ask for, but for 12.
fn rule(call: &Call, planes: &[f32]) -> Option<u32> {
    let r = call.record;
    let fits = |side| (4..=MOST).contains(&side);
    if !fits(r.height) || !fits(r.width) {
        return Some(1);
    }
    let all = 3 * r.height * r.width;
    if planes.len() < all {
        return Some(3);
    }
    if planes[..all].iter().any(|x| x.to_bits() > 0x3F80_0000) {
        return Some(4);
    }
    let pitch = |bits| (8.0..=200.0).contains(&f32::from_bits(bits));
    if !pitch(r.pixelr) || !pitch(r.pixelc) {
        return Some(10);
    }
    let numbers = [call.x, call.y, r.r_1, r.c_1, r.r0, r.c0];
    if numbers.iter().any(|&n| n > MOST) || call.size > MOST_SIZE {
        return Some(11);
    }
    if call.x >= r.r || call.y >= r.c {
        return Some(14);
    }
    (call.out < 3 * call.size * call.size).then_some(3)
}
