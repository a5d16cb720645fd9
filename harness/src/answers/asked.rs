//! Fixed screens: each is the first of its kind, counted by seed from its area, that the Rust ends on
//! as asked.

use crate::original::locate::{traced, Traced};
use crate::original::probe::OWN_FACTOR;
use crate::rng::Rng;
use crate::screens::{self, Drawn};

#[derive(Clone, Copy, Debug)]
pub enum Kind {
    /// A drawn board over most of the screen.
    Board,
    /// The same, each byte moved by at most 4.
    Noisy,
    /// Texture with a flat bar, which takes a narrowing.
    Textured,
    /// A board with a flat bar, which takes a narrowing.
    Zoomed,
    /// One colour.
    Blank,
}

impl Kind {
    fn pixels(self, rng: &mut Rng, height: usize, width: usize) -> Vec<u8> {
        match self {
            Kind::Board | Kind::Noisy => {
                let most = (height.min(width) / 3).clamp(8, 40);
                let mut pixels = Drawn::filling(rng, height, width, 4, most).screen(height, width);
                if matches!(self, Kind::Noisy) {
                    screens::noisy(rng, &mut pixels, 4);
                }
                pixels
            }
            Kind::Textured => screens::textured(rng, height, width, OWN_FACTOR),
            Kind::Zoomed => screens::zoomed(rng, height, width, OWN_FACTOR, 1),
            Kind::Blank => screens::blank(height, width, rng.word() as u8),
        }
    }
}

/// A screen that is wanted: its kind and sides, the answer, and how often it is narrowed.
#[derive(Debug)]
pub struct Asked {
    pub kind: Kind,
    pub height: usize,
    pub width: usize,
    pub answer: u32,
    pub narrowed: usize,
}

/// Seeds that are tried for one screen.
const SEEDS: u64 = 10_000;

/// The least rows and columns that are asked of a board.
const CELLS: usize = 3;

impl Asked {
    /// The pixels, and the Rust's run on them.
    pub fn found(&self) -> Result<(Vec<u8>, Traced), String> {
        let first = (self.height * self.width) as u64;
        for seed in first..first + SEEDS {
            let pixels = self.kind.pixels(&mut Rng::new(seed), self.height, self.width);
            let run = traced(&pixels, self.height, self.width, OWN_FACTOR)?;
            if self.fits(&run) {
                return Ok((pixels, run));
            }
        }
        Err(format!("no screen was found for {self:?}"))
    }

    /// Of a board that is read, unlike pitches are asked, so that rows taken for columns would show, of its
    /// scores without those that 02, R-4, adds: so the stored screens stay. With these its pitches can be
    /// alike.
    fn fits(&self, run: &Traced) -> bool {
        let board = run.without.is_some_and(|(whole, record)| {
            whole && record.r.min(record.c) >= CELLS && record.pixelr != record.pixelc
        });
        (run.answer, run.seen.narrowed) == (self.answer, self.narrowed)
            && (run.answer != 0 || board)
    }
}
