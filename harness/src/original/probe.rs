//! What the added lines of the probed copy store, the factor that it narrows by, and what can stand in
//! for its values.

use super::steps::Points;
use std::cell::{Cell, RefCell};

/// The factor of the unchanged file.
pub const OWN_FACTOR: usize = 3;

/// Locals of one run of the probed copy, as far as it came.
#[derive(Clone, Debug, Default)]
pub struct Seen {
    /// The edge picture of the last picture.
    pub edges: Points,
    pub narrowed: usize,
    /// Its bounds r_1, r_2, c_1, c_2, and after widening.
    pub scanned: Option<[usize; 4]>,
    pub widened: Option<[usize; 4]>,
    pub scores: Option<(Vec<usize>, Vec<usize>)>,
    /// The pitch of the columns, once they are read.
    pub columns: Option<f32>,
    /// The most votes of each line reading.
    pub votes: Vec<usize>,
}

/// An edge picture and bounds from elsewhere, for the steps after the narrowings.
#[derive(Clone)]
pub struct StandIn {
    pub edges: Points,
    pub sides: [usize; 2],
    pub bounds: [usize; 8],
}

thread_local! {
    static SEEN: RefCell<Seen> = RefCell::default();
    static STAND_IN: RefCell<Option<StandIn>> = const { RefCell::new(None) };
    static FACTOR: Cell<usize> = const { Cell::new(OWN_FACTOR) };
}

/// Forgets what was seen, and sets the factor, and sets or removes the stand-in.
pub fn start(factor: usize, stand_in: Option<StandIn>) {
    FACTOR.set(factor);
    SEEN.with_borrow_mut(|seen| *seen = Seen::default());
    STAND_IN.with_borrow_mut(|place| *place = stand_in);
}

pub fn take() -> Seen {
    SEEN.with_borrow_mut(std::mem::take)
}

pub fn factor() -> usize {
    FACTOR.get()
}

pub fn picture(edges: &Points) {
    SEEN.with_borrow_mut(|seen| seen.edges = edges.clone());
}

pub fn scanned(bounds: [usize; 4]) {
    SEEN.with_borrow_mut(|seen| seen.scanned = Some(bounds));
}

pub fn narrowed() {
    SEEN.with_borrow_mut(|seen| seen.narrowed += 1);
}

pub fn edges(own: Points) -> Points {
    STAND_IN.with_borrow(|place| place.as_ref().map(|s| s.edges.clone())).unwrap_or(own)
}

pub fn sides(own: [usize; 2]) -> [usize; 2] {
    STAND_IN.with_borrow(|place| place.as_ref().map(|s| s.sides)).unwrap_or(own)
}

pub fn bounds(own: [usize; 8]) -> [usize; 8] {
    STAND_IN.with_borrow(|place| place.as_ref().map(|s| s.bounds)).unwrap_or(own)
}

pub fn widened(bounds: [usize; 4]) {
    SEEN.with_borrow_mut(|seen| seen.widened = Some(bounds));
}

pub fn scores(columns: &[usize], rows: &[usize]) {
    SEEN.with_borrow_mut(|seen| seen.scores = Some((columns.to_vec(), rows.to_vec())));
}

pub fn columns(pitch: f32) {
    SEEN.with_borrow_mut(|seen| seen.columns = Some(pitch));
}

pub fn votes(most: usize) {
    SEEN.with_borrow_mut(|seen| seen.votes.push(most));
}
