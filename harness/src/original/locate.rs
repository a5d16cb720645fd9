//! A run of `get_pos_pixel` with its locals, each narrowing by one factor: the probed copy gives what
//! it leaves and the locals. With the factor of the unchanged file this is run beside it.

use super::load::{numbers, planes, record};
use super::probe::{Seen, OWN_FACTOR};
use super::probed::{self, Ran};
use super::{steps, ImageBoard};
use crate::quiet::caught;
use crate::record::Record;

pub struct Traced {
    /// 01's number for how it ended.
    pub answer: u32,
    /// Whether it returned.
    pub whole: bool,
    /// The fields and the planes afterwards, after a panic too.
    pub record: Record,
    pub planes: Vec<f32>,
    pub seen: Seen,
    /// What the scores without the two that 02, R-4, adds read as: whether both lists read, and the record
    /// then. None where nothing was scored.
    pub without: Option<(bool, Record)>,
    /// Whether the unchanged file was run, and came to another record by the first edge picture.
    pub moved: bool,
}

/// Runs the copy, and with its own factor the unchanged file, which must do as docs/DIFFERENCES.md says;
/// an error says how they do not, or that the Rust panics before the scores.
pub fn traced(pixels: &[u8], height: usize, width: usize, factor: usize) -> Result<Traced, String> {
    let ran = probed::locate(numbers(pixels), height, width, factor);
    let answer = answer_of(&ran).ok_or("the Rust panics before the scores")?;
    let without = ran.seen.scores.is_some().then(|| without_added(&ran.record, &ran.seen));
    let moved = factor == OWN_FACTOR && beside_unchanged(pixels, height, width, &ran, without)?;
    let Ran { seen, whole, record, planes } = ran;
    Ok(Traced { answer, whole, record, planes, seen, without, moved })
}

/// 01's number for how a run ended: panics are 6 and 8, pitches 0.0 are 7 and 9, a quiet return is 5. A
/// panic before the scores has none.
pub fn answer_of(ran: &Ran) -> Option<u32> {
    match (&ran.seen.scores, ran.seen.columns) {
        (None, _) => ran.whole.then_some(5),
        (Some(_), None) => Some(6),
        (Some(_), Some(0.0)) => Some(7),
        (Some(_), Some(_)) if !ran.whole => Some(8),
        _ if f32::from_bits(ran.record.pixelr) == 0.0 => Some(9),
        _ => Some(0),
    }
}

/// The unchanged file leaves what the copy left where the screen got too small, and else the same sides and
/// planes; its record is what the scores of the first edge picture with the last bounds read as, without
/// those that are added. Hands back whether this is another record than the last edge picture gives.
fn beside_unchanged(
    pixels: &[u8],
    height: usize,
    width: usize,
    ran: &Ran,
    without: Option<(bool, Record)>,
) -> Result<bool, String> {
    let fresh = || ImageBoard::new(numbers(pixels), height, width);
    let mut board = fresh();
    let whole = caught(|| board.get_pos_pixel()).is_some();
    let own = (whole, record(&board));
    let last = without.unwrap_or((ran.whole, ran.record));
    let mut wanted = last;
    if let (true, Some(bounds)) = (ran.seen.narrowed > 0, ran.seen.scanned) {
        let first = steps::edges(&fresh().get_gradient());
        let Record { height, width, .. } = ran.record;
        let seen = probed::widen(&first, [height - 2, width - 2], bounds);
        wanted = without_added(&ran.record, &seen);
    }
    let same = planes(&board).map(f32::to_bits).eq(ran.planes.iter().map(|x| x.to_bits()));
    if own != wanted || !same {
        return Err(format!("the unchanged file leaves {own:?} and not {wanted:?}, planes {same}"));
    }
    Ok(own != last)
}

/// Whether a run with these bounds, and these scores but for the two that 02, R-4, adds, returns, and its
/// record then.
fn without_added(sides: &Record, seen: &Seen) -> (bool, Record) {
    let fresh = Record { height: sides.height, width: sides.width, ..Record::default() };
    let (mut columns, mut rows) = seen.scores.clone().expect("scores are stored");
    for list in [&mut columns, &mut rows] {
        list.remove(list.len() - 3);
    }
    let read = caught(|| (steps::line(columns), steps::line(rows)));
    let Some(((pixelc, c0, c), (pixelr, r0, r))) = read else {
        return (false, fresh);
    };
    let [r_1, _, c_1, _] = seen.widened.expect("widened bounds are stored");
    let (pixelr, pixelc) = (pixelr.to_bits(), pixelc.to_bits());
    (true, Record { r_1, c_1, r0, c0, r, c, pixelr, pixelc, ..fresh })
}

impl Traced {
    /// The record that the port must leave of a fresh one where the board is read: the Rust's, with the far
    /// corner of its widened bounds (02, R-5).
    pub fn board(&self) -> Record {
        match (self.answer, self.seen.widened) {
            (0, Some([_, r_2, _, c_2])) => Record { r_2, c_2, ..self.record },
            _ => self.record,
        }
    }

    /// Both pitches in quarters, rows first.
    pub fn quarters(&self) -> [u32; 2] {
        [self.record.pixelr, self.record.pixelc].map(|bits| (f32::from_bits(bits) * 4.0) as u32)
    }

    /// Whether the columns, and the rows, read otherwise for the two scores that 02, R-4, adds.
    pub fn by_added(&self) -> [bool; 2] {
        let own = (self.whole, self.record);
        let (whole, record) = self.without.unwrap_or(own);
        let columns = |r: &Record| (r.c0, r.c, r.pixelc);
        let rows = |r: &Record| (r.r0, r.r, r.pixelr);
        let both = whole && self.whole;
        [
            both && columns(&record) != columns(&self.record),
            both && rows(&record) != rows(&self.record),
        ]
    }

    /// The votes of the rows and of the columns, which are read first.
    pub fn votes(&self) -> [u32; 2] {
        [self.seen.votes[1] as u32, self.seen.votes[0] as u32]
    }
}
