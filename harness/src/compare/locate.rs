//! Locating beside `get_pos_pixel`, with each factor: every field, the far corner by its widened bounds,
//! the planes, the edge picture of the last picture and both score lists. All comes from the probed copy,
//! which narrows by the factor, goes on with that picture and scores column c_2 - 2 and row r_2 - 2 too;
//! with the factor of the unchanged file this is run too, and must do the same on every screen that gets
//! too small, and on the others what the first edge picture gives without the two added scores.

use super::built::{Built, End, CORNERS, DEPARTURES, LARGE, ONE_MORE, READ_NARROWED};
use super::lent::Lent;
use super::met::{as_built, Met, Row};
use super::values::UNFIT;
use super::{Outcome, Run, Tally};
use crate::original::load::{numbers, planes};
use crate::original::locate::{answer_of, traced, Traced};
use crate::original::probe::OWN_FACTOR;
use crate::original::probed::{self, Ran};
use crate::original::{steps, ImageBoard};
use crate::port::{self, Board, Located, Slices};
use crate::quiet::caught;
use crate::record::Record;
use crate::rng::Rng;
use crate::screens::{self, Drawn};
use crate::FACTORS;

const LEAST: usize = 12;
const MOST: usize = 4096;

/// Factors below this are run beside the Rust also where the port refuses them.
const BESIDE: usize = 100;

/// Locating's answers are below this.
const ANSWERS: usize = 14;

/// The least side of a narrowed screen that can still be read.
const READABLE: usize = 67;

/// A factor, a number of narrowings, and how many screens are compared that are read after as many, in
/// the short run and in the long; both have those of `READ_NARROWED` too.
const READS: &[(usize, u32, u64, u64)] = &[
    (2, 1, 80, 2_000),
    (3, 1, 80, 2_000),
    (4, 1, 50, 1_000),
    (5, 1, 40, 800),
    (2, 2, 20, 400),
    (3, 2, 10, 200),
    (4, 2, 1, 40),
    (5, 2, 1, 25),
    (2, 3, 2, 60),
];

/// The least side that locating takes with a factor (02, R-1).
fn least_side(factor: usize) -> usize {
    LEAST.max(4 * factor)
}

pub fn compare(run: &Run) -> Outcome {
    let mut cases = Cases::new(run.seed)?;
    cases.met.built = true;
    for built in DEPARTURES.iter().chain(READ_NARROWED).chain(LARGE) {
        cases.built(built)?;
    }
    for (built, wanted, unchanged) in ONE_MORE {
        cases.built(built)?;
        let run = traced(&built.pixels(), built.height, built.width, built.factor)?;
        let counts = |record: Record| [record.r, record.c];
        let have = run.without.map(|(_, record)| (counts(run.record), counts(record)));
        as_built(&format!("{built:?}"), Some((*wanted, *unchanged)), have)?;
    }
    for (built, wanted) in CORNERS {
        cases.built(built)?;
        let Record { r_1, r_2, c_1, c_2, .. } =
            traced(&built.pixels(), built.height, built.width, built.factor)?.board();
        as_built(&format!("{built:?}"), *wanted, [r_1, r_2, c_1, c_2])?;
    }
    cases.met.built = false;
    for factor in FACTORS {
        let least = least_side(factor);
        cases.screen(factor, least, least, &screens::blank(least, least, 0))?;
    }
    for _ in 0..run.choose(3_000, 220_000) {
        // some are too small for their factor
        let (height, width) = (cases.rng.between(LEAST, 80), cases.rng.between(LEAST, 80));
        cases.any(height, width)?;
    }
    for &(factor, narrowings, short, long) in READS {
        cases.read(factor, narrowings, run.choose(short, long))?;
    }
    for _ in 0..run.choose(6, 200) {
        cases.far(true)?;
        cases.far(false)?;
    }
    for _ in 0..run.choose(16, 400) {
        let (height, width) = (cases.rng.between(80, 400), cases.rng.between(80, 400));
        cases.any(height, width)?;
    }
    for factor in FACTORS {
        let least = least_side(factor);
        for (height, width) in [(least, MOST), (MOST, least), (205, 1500), (1400, 210)] {
            for _ in 0..run.choose(1, 10) {
                cases.any_by(factor, height, width)?;
            }
        }
    }
    for factor in FACTORS.end() + 1..BESIDE {
        for _ in 0..run.choose(4, 100) {
            cases.refused_factor(factor)?;
        }
    }
    if run.long {
        for _ in 0..60 {
            let (height, width) = (cases.rng.between(400, 2200), cases.rng.between(400, 2200));
            cases.any(height, width)?;
        }
        for factor in FACTORS {
            for (height, width) in [(1080, 1920), (2420, 2604), (MOST, MOST)] {
                cases.any_by(factor, height, width)?;
            }
            cases.screen(factor, MOST, MOST, &screens::blank(MOST, MOST, 77))?;
        }
    }
    refusals(&mut cases)?;
    Ok(Tally { cases: cases.count, note: cases.note()? })
}

/// What is wrong with a call, a bit each, in the order in which it is looked for.
const BAD_FACTOR: usize = 1;
const BAD_SIDE: usize = 2;
const SHORT: usize = 4;
const BAD_VALUE: usize = 8;

/// Every set of faults, with each fault of many kinds.
fn refusals(cases: &mut Cases) -> Result<(), String> {
    for faults in 0..2 * BAD_VALUE {
        for _ in 0..60 {
            let factor = cases.factor();
            let least = least_side(factor);
            let (height, width) = (cases.rng.between(least, 30), cases.rng.between(least, 30));
            let pixels = screens::noise(&mut cases.rng, height, width);
            let call = cases.faulty(factor, height, width, faults);
            cases.one(&pixels, &call)?;
        }
    }
    for side in [0, 1, 4, 11, MOST + 1, 1 << 32, 1 << 63, usize::MAX] {
        for turn in 0..3 {
            let pixels = screens::noise(&mut cases.rng, 20, 20);
            let mut call = Call::fitting(cases.factor(), 20, 20);
            call.fill(&mut cases.rng);
            call.set_sides(turn, side);
            cases.one(&pixels, &call)?;
            call.lengths = [0; 6];
            cases.one(&pixels, &call)?;
        }
    }
    Ok(())
}

/// One call but for the pixels.
#[derive(Clone, Debug)]
struct Call {
    /// Sides of the pixels.
    height: usize,
    width: usize,
    factor: usize,
    given: Record,
    /// Planes, edges, scores, and the scratch slices.
    lengths: [usize; 6],
    bad: Option<(usize, u32)>,
}

impl Call {
    fn fitting(factor: usize, height: usize, width: usize) -> Call {
        let area = height * width;
        let sides = height + width;
        Call {
            height,
            width,
            factor,
            given: Record { height, width, ..Record::default() },
            lengths: [3 * area, area, sides, area, area, 4 * sides],
            bad: None,
        }
    }

    /// Anything in the fields other than the sides.
    fn fill(&mut self, rng: &mut Rng) {
        self.given = Record {
            height: self.given.height,
            width: self.given.width,
            r_1: rng.next() as usize,
            c_1: rng.below(100),
            r_2: rng.next() as usize,
            c_2: rng.below(100),
            r0: rng.next() as usize,
            c0: rng.below(100),
            r: rng.next() as usize,
            c: rng.below(100),
            pixelr: rng.word(),
            pixelc: 0x7FC0_0001,
        };
    }

    /// The height, the width or both.
    fn set_sides(&mut self, turn: usize, side: usize) {
        if turn != 0 {
            self.given.height = side;
        }
        if turn != 1 {
            self.given.width = side;
        }
    }

    /// The refusal that 01 and R-1 of 02 ask for before anything is done.
    fn rule(&self) -> Option<u32> {
        let Record { height, width, .. } = self.given;
        if !FACTORS.contains(&self.factor) {
            return Some(13);
        }
        let fits = |side| (least_side(self.factor)..=MOST).contains(&side);
        if !fits(height) || !fits(width) {
            return Some(1);
        }
        let asked = Call::fitting(self.factor, height, width).lengths;
        if self.lengths.iter().zip(asked).any(|(&have, want)| have < want) {
            return Some(3);
        }
        self.bad.is_some_and(|(at, _)| at < 3 * height * width).then_some(4)
    }

    /// Whether the factor alone is to blame for a refusal, and the Rust ends: by 1 it never does where it
    /// narrows and no side is small, and by a large factor it asks for too much memory.
    fn runs_beside(&self) -> bool {
        let ends = match self.factor {
            1 => self.height.min(self.width) < READABLE,
            factor => factor < BESIDE,
        };
        let own_sides = (self.given.height, self.given.width) == (self.height, self.width);
        ends && own_sides && Call { factor: OWN_FACTOR, ..self.clone() }.rule().is_none()
    }
}

const TOO_SMALL: &str = "too small";
const COLUMNS_NO_GAP: &str = "columns without a gap above 5";
const COLUMNS_FAR: &str = "columns with e of 206 or more";
const COLUMNS_FAR_ROWS_NO_GAP: &str = "the same, and rows without a gap above 5";
const ROWS_NO_GAP: &str = "rows without a gap above 5";
const ROWS_FAR: &str = "rows with e of 206 or more";
/// A part of `COLUMNS_FAR`, as `ROWS_FAR` is too.
const ROWS_READ: &str = "rows that read";
const ANSWER: &str = "any screen";
const READ: &str = "a screen that is read, answer 0";
const NARROWED: &str = "a screen that is narrowed";
const LAST_EDGES: &str = "a screen that is narrowed and does not get too small";
const ADDED_SCORES: &str = "a screen that does not get too small";
/// Parts of it: what reads otherwise.
const COLUMNS_MOVE: &str = "columns";
const ROWS_MOVE: &str = "rows";
const EDGES: &str = "answers 0 and 5 to 9";
const SCORES: &str = "answers 0 and 6 to 9";
const FACTOR_0: &str = "factor 0";
const FACTOR_1: &str = "factor 1, no narrowing needed or a side of at most 66";
const FACTOR_6: &str = "a factor of 6 or more";
const SIDE_BY_FACTOR: &str = "a side of 12 to 15 with factor 4, or of 12 to 19 with factor 5";
/// Parts of the rows of factors: what the Rust does.
const NOT_NARROWED: &str = "not narrowed";
const PANICS: &str = "panics";
const NARROWS: &str = "narrows";
/// Parts of the row of sides.
const BY_4_NOT_NARROWED: &str = "by 4, not narrowed";
const BY_4_PANICS: &str = "by 4, panics";
const BY_5_NOT_NARROWED: &str = "by 5, not narrowed";
const BY_5_PANICS: &str = "by 5, panics";

/// Rows marked (run): the departures, and what is handed back beside the record.
const ROWS: &[Row] = &[
    (TOO_SMALL, &[]),
    (LAST_EDGES, &[]),
    (ADDED_SCORES, &[COLUMNS_MOVE, ROWS_MOVE]),
    (COLUMNS_NO_GAP, &[]),
    (COLUMNS_FAR, &[ROWS_READ, ROWS_FAR]),
    (COLUMNS_FAR_ROWS_NO_GAP, &[]),
    (ROWS_NO_GAP, &[]),
    (ROWS_FAR, &[]),
    (ANSWER, &[]),
    (READ, &[]),
    (NARROWED, &[]),
    (EDGES, &[]),
    (SCORES, &[]),
    (FACTOR_0, &[NOT_NARROWED, PANICS]),
    (FACTOR_1, &[NOT_NARROWED, NARROWS]),
    (FACTOR_6, &[NOT_NARROWED, NARROWS, PANICS]),
    (SIDE_BY_FACTOR, &[BY_4_NOT_NARROWED, BY_4_PANICS, BY_5_NOT_NARROWED, BY_5_PANICS]),
];

/// What the screens of one factor came to.
#[derive(Clone, Copy, Default)]
struct ByFactor {
    /// How many were read after 0, 1, 2 and more narrowings.
    read_after: [u64; 4],
    /// How many after some narrowing with a bound that the widening had moved, and not out to the rim.
    widened: u64,
    /// How many were narrowed with so many rows, and so many columns, left over.
    left_over: [[u64; 5]; 2],
}

struct Cases {
    rng: Rng,
    count: u64,
    answers: [u64; ANSWERS],
    /// From factor 2 on.
    by_factor: [ByFactor; 4],
    met: Met,
    /// Built cases on which the unchanged file came to another record by the first edge picture.
    moved: u64,
    /// Built cases that are read with an r_2 and a c_2 that the widening moved.
    far_moved: u64,
    /// Of the last case, if the Rust was run on it.
    end: Option<End>,
}

/// What the Rust makes of a screen.
struct Wanted {
    located: Located,
    planes: Vec<f32>,
    edges: Vec<Vec<bool>>,
    scores: Vec<usize>,
    returns: bool,
    /// Whether the Rust leaves a pitch of the rows.
    rows_read: bool,
    /// Whether the widening moved a bound, and not out to the rim.
    widened: bool,
    /// Whether it moved r_2 and c_2.
    far_moved: bool,
    /// Whether the unchanged file was run, and came to another record by the first edge picture.
    moved: bool,
    /// Whether the columns, and the rows, read otherwise for the added scores.
    by_added: [bool; 2],
}

impl Cases {
    fn new(seed: u64) -> Result<Cases, String> {
        Ok(Cases {
            rng: Rng::new(seed),
            count: 0,
            answers: [0; ANSWERS],
            by_factor: [ByFactor::default(); 4],
            met: Met::new("locating", ROWS)?,
            moved: 0,
            far_moved: 0,
            end: None,
        })
    }

    fn built(&mut self, built: &Built) -> Result<(), String> {
        self.one(&built.pixels(), &Call::fitting(built.factor, built.height, built.width))?;
        as_built(&format!("{built:?}"), Some(built.end), self.end)
    }

    /// A factor that is taken; more often that of the unchanged file, which then runs too.
    fn factor(&mut self) -> usize {
        let other = self.rng.between(*FACTORS.start(), *FACTORS.end());
        self.rng.pick(&[OWN_FACTOR, other])
    }

    fn of(&mut self, factor: usize) -> &mut ByFactor {
        &mut self.by_factor[factor - FACTORS.start()]
    }

    /// How often each answer was met, and what the screens of each factor came to. An error where none
    /// was read after one narrowing or after two, or with bounds that were widened then, or where some
    /// number of rows or columns was never left over.
    fn note(&self) -> Result<String, String> {
        if self.moved == 0 {
            return Err("no built case reads otherwise by the first edge picture".into());
        }
        if self.far_moved == 0 {
            return Err("no built case has both r_2 and c_2 moved by the widening".into());
        }
        let mut answers = vec![];
        let mut reads = vec![];
        for (answer, count) in self.answers.iter().enumerate().filter(|(_, &count)| count > 0) {
            answers.push(format!("{answer}: {count}"));
        }
        for (factor, met) in FACTORS.zip(&self.by_factor) {
            let [_, once, twice, _] = met.read_after;
            let left_over = met.left_over.iter().all(|counts| !counts[1..factor].contains(&0));
            if once == 0 || twice == 0 || met.widened == 0 || !left_over {
                let ByFactor { read_after, widened, left_over } = met;
                return Err(format!(
                    "factor {factor} was not tried enough: read after 0, 1, 2 and more narrowings \
                     {read_after:?}, with widened bounds {widened}, narrowed with 0 to 4 rows and \
                     columns over {left_over:?}"
                ));
            }
            reads.push(format!("by {factor} {:?}, {} widened", met.read_after, met.widened));
        }
        Ok(format!(
            "; answers {}; read after 0, 1, 2 and more narrowings, and after some with a bound that was \
             widened into a margin: {}{}",
            answers.join(", "),
            reads.join("; "),
            self.met.note()?
        ))
    }

    /// Counts a screen that was looked at.
    fn ended(&mut self, call: &Call, want: &Wanted) {
        let Wanted { returns, rows_read, widened, far_moved, moved, by_added, .. } = *want;
        let Located { answer, narrowed, .. } = want.located;
        self.end = Some(End { answer: Some(answer), returns, narrowed });
        self.answers[answer as usize] += 1;
        self.met.count(ANSWER);
        self.met.count(EDGES);
        if answer != 5 {
            self.met.count(SCORES);
        }
        if narrowed > 0 {
            self.met.count(NARROWED);
            let factor = call.factor;
            for (counts, side) in
                self.of(factor).left_over.iter_mut().zip([call.height, call.width])
            {
                counts[side % factor] += 1;
            }
            self.of(factor).widened += (answer == 0 && widened) as u64;
        }
        if narrowed > 0 && answer != 5 && call.factor == OWN_FACTOR {
            self.met.count(LAST_EDGES);
            self.moved += (moved && self.met.built) as u64;
        }
        for (part, otherwise) in [COLUMNS_MOVE, ROWS_MOVE].into_iter().zip(by_added) {
            // the unchanged file reads these lists, without the added scores, where nothing was narrowed
            if otherwise && narrowed == 0 && call.factor == OWN_FACTOR {
                self.met.count_part(ADDED_SCORES, part);
            }
        }
        match (answer, returns) {
            (5, _) => self.met.count(TOO_SMALL),
            (6, _) => self.met.count(COLUMNS_NO_GAP),
            (7, true) => {
                self.met.count_part(COLUMNS_FAR, if rows_read { ROWS_READ } else { ROWS_FAR })
            }
            (7, false) => self.met.count(COLUMNS_FAR_ROWS_NO_GAP),
            (8, _) => self.met.count(ROWS_NO_GAP),
            (9, _) => self.met.count(ROWS_FAR),
            _ => {
                self.far_moved += (far_moved && self.met.built) as u64;
                self.of(call.factor).read_after[(narrowed as usize).min(3)] += 1;
                self.met.count(READ);
            }
        }
    }

    /// Runs the Rust where the port refuses for the factor alone: it must do as docs/DIFFERENCES.md says.
    fn beside(&mut self, pixels: &[u8], call: &Call) -> Result<(), String> {
        let Call { height, width, factor, .. } = *call;
        let ran = probed::locate(numbers(pixels), height, width, factor);
        let narrowed = ran.seen.narrowed as u32;
        let end = End { answer: answer_of(&ran), returns: ran.whole, narrowed };
        let least = ran.record.height.min(ran.record.width);
        let not_narrowed = narrowed == 0 && ran.seen.scores.is_some();
        let panics = end.answer.is_none();
        let as_said = if not_narrowed {
            let by_own = probed::locate(numbers(pixels), height, width, OWN_FACTOR);
            left(&ran) == left(&by_own)
        } else if panics {
            factor == 0 || least < 4
        } else if factor == 1 {
            let fresh = ImageBoard::new(numbers(pixels), height, width);
            (end.answer, narrowed, least) == (Some(5), 1, height.min(width))
                && bits(ran.planes.iter().copied()) == bits(planes(&fresh))
        } else {
            // the factor is below BESIDE, and a side is divided by it as often as it was narrowed
            let by = factor.pow(narrowed);
            let sides = (ran.record.height, ran.record.width);
            factor >= 6 && least >= 4 && sides == (height / by, width / by)
        };
        if !as_said {
            return Err(format!("the Rust does not do as docs/DIFFERENCES.md says: {end:?}"));
        }
        let part = match (not_narrowed, panics) {
            (true, _) => NOT_NARROWED,
            (_, true) => PANICS,
            _ => NARROWS,
        };
        let (row, part) = match (factor, panics) {
            (0, _) => (FACTOR_0, part),
            (1, _) => (FACTOR_1, part),
            (4, true) => (SIDE_BY_FACTOR, BY_4_PANICS),
            (4, false) => (SIDE_BY_FACTOR, BY_4_NOT_NARROWED),
            (5, true) => (SIDE_BY_FACTOR, BY_5_PANICS),
            (5, false) => (SIDE_BY_FACTOR, BY_5_NOT_NARROWED),
            _ => (FACTOR_6, part),
        };
        self.met.count_part(row, part);
        self.end = Some(end);
        Ok(())
    }

    /// By any factor.
    fn any(&mut self, height: usize, width: usize) -> Result<(), String> {
        let factor = self.factor();
        self.any_by(factor, height, width)
    }

    /// Noise, a drawn board with or without noise, one colour, texture, or a large board with a bar.
    fn any_by(&mut self, factor: usize, height: usize, width: usize) -> Result<(), String> {
        let rng = &mut self.rng;
        let pixels = match rng.below(16) {
            0 | 1 => screens::noise(rng, height, width),
            2 => screens::blank(height, width, rng.word() as u8),
            3 if rng.below(2) == 0 => screens::textured(rng, height.max(30), width.max(30), factor),
            3 => screens::zoomed(rng, height.max(30), width.max(30), factor, 1),
            kind => {
                let most = (height.min(width) / 2).clamp(8, 40);
                let mut pixels = Drawn::filling(rng, height, width, 6, most).screen(height, width);
                if kind > 11 {
                    screens::noisy(rng, &mut pixels, 4);
                }
                pixels
            }
        };
        if pixels.len() != 4 * height * width {
            return self.screen(factor, height.max(30), width.max(30), &pixels);
        }
        self.screen(factor, height, width, &pixels)
    }

    /// A factor that the port refuses, on a screen that needs a narrowing or on one that often does not.
    fn refused_factor(&mut self, factor: usize) -> Result<(), String> {
        let rng = &mut self.rng;
        let (height, width) = (rng.between(LEAST, 80), rng.between(LEAST, 80));
        let pixels = match rng.below(2) {
            0 => screens::blank(height, width, rng.word() as u8),
            _ => Drawn::filling(rng, height, width, 6, 8).screen(height, width),
        };
        self.screen(factor, height, width, &pixels)
    }

    /// Draws screens until `count` of them are read after as many narrowings.
    fn read(&mut self, factor: usize, narrowings: u32, count: u64) -> Result<(), String> {
        let least = READABLE * factor.pow(narrowings);
        let mut found = 0;
        for _ in 0..40 * count {
            if found == count {
                break;
            }
            let side = |rng: &mut Rng| rng.between(least, least + 40 * factor);
            let (height, width) = (side(&mut self.rng), side(&mut self.rng));
            let pixels = screens::zoomed(&mut self.rng, height, width, factor, narrowings);
            self.screen(factor, height, width, &pixels)?;
            let wanted = End { answer: Some(0), returns: true, narrowed: narrowings };
            found += (self.end == Some(wanted)) as u64;
        }
        if found < count {
            return Err(format!(
                "{found} of {count} read after {narrowings} narrowings by {factor}"
            ));
        }
        Ok(())
    }

    /// Cells of 200 to 220 pixels in one direction and small ones in the other. A third of the way
    /// lies a line, which the scan follows.
    fn far(&mut self, columns: bool) -> Result<(), String> {
        let rng = &mut self.rng;
        let (far, start) = (rng.between(200, 220), rng.between(2, 9));
        let (low, long) = (rng.between(30, 90), 3 * (far + start - rng.below(3)) + 2);
        let near = rng.pick(&[4, 5, 9, 12, 15]);
        let (height, width) = if columns { (low, long) } else { (long, low) };
        let mut board = Drawn::filling(rng, height, width, 8, 20);
        (board.down, board.across) = if columns { (near, far) } else { (far, near) };
        (board.top, board.left) =
            if columns { (rng.below(9), start) } else { (start, rng.below(9)) };
        board.rows = (height - board.top - 1) / board.down;
        board.columns = (width - board.left - 1) / board.across;
        let pixels = board.screen(height, width);
        let factor = self.factor();
        self.screen(factor, height, width, &pixels)
    }

    /// A call with these faults.
    fn faulty(&mut self, factor: usize, height: usize, width: usize, faults: usize) -> Call {
        let rng = &mut self.rng;
        let mut call = Call::fitting(factor, height, width);
        call.fill(rng);
        if faults & BAD_FACTOR != 0 {
            // some are 3 in their low bits; four times 2^62 is 0
            let large = [(1 << 8) + 3, (1 << 16) + 3, (1 << 32) + 3, 1 << 62, usize::MAX];
            call.factor = rng.pick(&[[0, 1, 6, 7, BESIDE - 1].as_slice(), &large].concat());
        }
        if faults & BAD_SIDE != 0 {
            let below = least_side(factor) - 1;
            let side = rng.pick(&[0, 4, 11, below, MOST + 1, 1 << 32, usize::MAX]);
            call.set_sides(rng.below(3), side);
        }
        if faults & SHORT != 0 {
            for _ in 0..rng.between(1, 2) {
                let which = rng.below(6);
                let by = rng.pick(&[1, 2, 30, 5000]);
                call.lengths[which] = call.lengths[which].saturating_sub(by);
            }
        }
        if faults & BAD_VALUE != 0 {
            call.bad = Some((rng.below(3 * height * width), rng.pick(UNFIT)));
        }
        call
    }

    fn screen(
        &mut self,
        factor: usize,
        height: usize,
        width: usize,
        pixels: &[u8],
    ) -> Result<(), String> {
        let mut call = Call::fitting(factor, height, width);
        let rng = &mut self.rng;
        if rng.below(2) == 0 {
            // anything in the other fields, and longer slices
            call.fill(rng);
            for len in &mut call.lengths {
                *len += rng.below(40);
            }
        }
        self.one(pixels, &call)
    }

    fn one(&mut self, pixels: &[u8], call: &Call) -> Result<(), String> {
        self.count += 1;
        self.end = None;
        self.difference(pixels, call)
            .map_or(Ok(()), |found| Err(format!("case {}, {call:?}: {found}", self.count)))
    }

    fn difference(&mut self, pixels: &[u8], call: &Call) -> Option<String> {
        let (height, width) = (call.height, call.width);
        let fresh = ImageBoard::new(numbers(pixels), height, width);
        let mut values: Vec<f32> = planes(&fresh).collect();
        if let Some((at, bits)) = call.bad {
            values[at] = f32::from_bits(bits);
        }
        let mut lent_planes = Lent::holding(&values, call.lengths[0]);
        let mut edges = Lent::new(call.lengths[1]);
        let mut scores = Lent::new(call.lengths[2]);
        let mut scratch_f32: Lent<f32> = Lent::new(call.lengths[3]);
        let mut scratch_u8: Lent<u8> = Lent::new(call.lengths[4]);
        let mut scratch_u32: Lent<u32> = Lent::new(call.lengths[5]);
        let have = port::locate(
            Board::of(&call.given),
            call.factor,
            lent_planes.slice(),
            Slices {
                edges: edges.slice(),
                scores: scores.slice(),
                scratch_f32: scratch_f32.slice(),
                scratch_u8: scratch_u8.slice(),
                scratch_u32: scratch_u32.slice(),
            },
        );
        let scratch_kept = |points: usize, words: usize| {
            scratch_f32
                .beyond("scratch_f32", points)
                .or_else(|| scratch_u8.beyond("scratch_u8", points))
                .or_else(|| scratch_u32.beyond("scratch_u32", words))
        };
        if let Some(answer) = call.rule() {
            self.answers[answer as usize] += 1;
            if call.runs_beside() {
                if let Err(found) = self.beside(pixels, call) {
                    return Some(found);
                }
            }
            values.truncate(call.lengths[0]);
            let want = refused(&call.given, answer);
            return unlike(&want, &have)
                .or_else(|| lent_planes.differs("planes", values))
                .or_else(|| edges.differs("edges", []))
                .or_else(|| scores.differs("scores", []))
                .or_else(|| scratch_kept(0, 0));
        }
        let want = match wanted(pixels, call) {
            Ok(want) => want,
            Err(found) => return Some(found),
        };
        self.ended(call, &want);
        let zeros = std::iter::repeat(0.0).take(values.len() - want.planes.len());
        unlike(&want.located, &have)
            .or_else(|| lent_planes.differs("planes", want.planes.iter().copied().chain(zeros)))
            .or_else(|| edges.differs("edges", want.edges.iter().flatten().map(|&e| e as u8)))
            .or_else(|| scores.differs("scores", want.scores.iter().map(|&s| s as u32)))
            .or_else(|| scratch_kept(height * width, 4 * (height + width)))
    }
}

fn bits(list: impl Iterator<Item = f32>) -> Vec<u32> {
    list.map(f32::to_bits).collect()
}

/// What a run left, for comparing two.
fn left(ran: &Ran) -> (Record, Vec<u32>, bool) {
    (ran.record, bits(ran.planes.iter().copied()), ran.whole)
}

fn refused(given: &Record, answer: u32) -> Located {
    let board = Board::of(given);
    Located { board, answer, quarterr: 0, quarterc: 0, votesr: 0, votesc: 0, narrowed: 0 }
}

fn unlike(want: &Located, have: &Located) -> Option<String> {
    let key = |l: &Located| {
        (l.answer, l.board.record(), [l.quarterr, l.quarterc, l.votesr, l.votesc, l.narrowed])
    };
    (key(want) != key(have)).then(|| format!("Rust {want:?}, port {have:?}"))
}

/// What 01 asks for where the Rust's run is as docs/DIFFERENCES.md says.
fn wanted(pixels: &[u8], call: &Call) -> Result<Wanted, String> {
    let run = traced(pixels, call.height, call.width, call.factor)?;
    departures(&run)?;
    let (answer, rust, board) = (run.answer, run.record, run.board());
    let given = Record { height: rust.height, width: rust.width, ..call.given };
    let mut located = refused(if answer == 0 { &board } else { &given }, answer);
    located.narrowed = run.seen.narrowed as u32;
    if answer == 0 {
        [located.quarterr, located.quarterc] = run.quarters();
        [located.votesr, located.votesc] = run.votes();
    }
    let (widened, moved, by_added) = (into_margin(&run), run.moved, run.by_added());
    let far_moved = far_moved(&run);
    let scores = run.seen.scores.map_or(vec![], |(columns, rows)| [columns, rows].concat());
    let (edges, returns, rows_read) = (run.seen.edges, run.whole, rust.pixelr != 0);
    let planes = run.planes;
    Ok(Wanted {
        located,
        planes,
        edges,
        scores,
        returns,
        rows_read,
        widened,
        far_moved,
        moved,
        by_added,
    })
}

/// Whether the widening moved r_2 and c_2: the far corner is not the one that was scanned.
fn far_moved(run: &Traced) -> bool {
    let moved = |k: usize| run.seen.scanned.map(|b| b[k]) != run.seen.widened.map(|b| b[k]);
    moved(1) && moved(3)
}

/// Whether the widening moved a bound to a place that is nearly empty. Where there is none it goes to the
/// second place, or to the last but one.
fn into_margin(run: &Traced) -> bool {
    let (Some(scanned), Some(widened)) = (run.seen.scanned, run.seen.widened) else {
        return false;
    };
    let [row, column] = [run.record.height, run.record.width].map(|side| side - 2);
    let rims = [1, row - 2, 1, column - 2];
    (0..4).any(|k| widened[k] != scanned[k] && widened[k] != rims[k])
}

/// What docs/DIFFERENCES.md says of the Rust's record: where it returns with pitches, all fields are
/// written, those of either direction as the line reading of its scores gives them.
fn departures(run: &Traced) -> Result<(), String> {
    let Traced { answer, whole, record: rust, .. } = run;
    let fresh = Record { height: rust.height, width: rust.width, ..Record::default() };
    let corner = run.seen.widened.map(|[r_1, _, c_1, _]| (r_1, c_1)) == Some((rust.r_1, rust.c_1));
    let (columns, rows) = ((rust.pixelc, rust.c0, rust.c), (rust.pixelr, rust.r0, rust.r));
    let reads = |list: &[usize], fields: (u32, usize, usize)| {
        let read = caught(|| steps::line(list.to_vec()));
        read.map(|(pitch, offset, count)| (pitch.to_bits(), offset, count)) == Some(fields)
    };
    let written = corner
        && run.seen.scores.as_ref().is_some_and(|(c, r)| reads(c, columns) && reads(r, rows));
    let far = (0, 0, usize::MAX);
    let as_said = match answer {
        7 if *whole => written && columns == far,
        9 => written && rows == far && rust.pixelc != 0,
        0 => written,
        // a panic or a quiet return leaves the record fresh
        _ => *rust == fresh,
    };
    if as_said {
        Ok(())
    } else {
        Err(format!("at {answer} the Rust's record is not as docs/DIFFERENCES.md says: {rust:?}"))
    }
}
