//! Lent slices with a margin on both sides, so that a write outside them shows.

use std::fmt::LowerHex;
use std::sync::atomic::{AtomicUsize, Ordering};

const MARGIN: usize = 16;

/// An entry by its bits, and the bits that an entry holds before a call.
pub trait Entry: Copy {
    type Bits: Copy + PartialEq + LowerHex;
    fn bits(self) -> Self::Bits;
    fn before(at: usize) -> Self;
}

/// The sign bit is set, so none is a value that the port writes, and some are no number.
impl Entry for f32 {
    type Bits = u32;
    fn bits(self) -> u32 {
        self.to_bits()
    }
    fn before(at: usize) -> f32 {
        f32::from_bits(0x8000_0000 | (at as u32).wrapping_mul(0x9E37_79B1))
    }
}

impl Entry for u8 {
    type Bits = u8;
    fn bits(self) -> u8 {
        self
    }
    fn before(at: usize) -> u8 {
        0x80 | (at as u8).wrapping_mul(0x3D)
    }
}

impl Entry for u32 {
    type Bits = u32;
    fn bits(self) -> u32 {
        self
    }
    fn before(at: usize) -> u32 {
        0x8000_0000 | (at as u32).wrapping_mul(0x9E37_79B1)
    }
}

pub struct Lent<T> {
    whole: Vec<T>,
    len: usize,
    /// What `before` counts from: unlike for each, so that what is copied from one to another shows.
    from: usize,
}

static FROM: AtomicUsize = AtomicUsize::new(0);

impl<T: Entry> Lent<T> {
    pub fn new(len: usize) -> Lent<T> {
        let from = FROM.fetch_add(5, Ordering::Relaxed);
        Lent { whole: (from..from + len + 2 * MARGIN).map(T::before).collect(), len, from }
    }

    /// The first entries have these values.
    pub fn holding(values: &[T], len: usize) -> Lent<T> {
        let mut lent = Lent::new(len);
        let first = values.len().min(len);
        lent.slice()[..first].copy_from_slice(&values[..first]);
        lent
    }

    pub fn slice(&mut self) -> &mut [T] {
        &mut self.whole[MARGIN..MARGIN + self.len]
    }

    /// Where an entry is not as wanted, or one after those wanted, or around, is not as before.
    pub fn differs(&self, name: &str, wanted: impl IntoIterator<Item = T>) -> Option<String> {
        let mut wanted = wanted.into_iter();
        for (at, have) in self.whole.iter().enumerate() {
            let want = if (MARGIN..MARGIN + self.len).contains(&at) { wanted.next() } else { None };
            let whose = if want.is_some() { "wanted" } else { "to be kept" };
            let (want, have) = (want.unwrap_or(T::before(self.from + at)).bits(), have.bits());
            if want != have {
                let place = at as isize - MARGIN as isize;
                return Some(format!("{name} entry {place}: {whose} {want:x}, port {have:x}"));
            }
        }
        assert!(wanted.next().is_none(), "every entry is compared");
        None
    }

    /// Where an entry around is not as before: for scratch, which is free itself.
    pub fn around(&self, name: &str) -> Option<String> {
        self.beyond(name, self.len)
    }

    /// Where an entry after the first `free` ones, or around, is not as before: for scratch that is
    /// longer than asked for.
    pub fn beyond(&self, name: &str, free: usize) -> Option<String> {
        let own = &self.whole[MARGIN..MARGIN + free.min(self.len)];
        self.differs(name, own.iter().copied())
    }
}
