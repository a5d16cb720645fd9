//! The screens that are measured on.

use crate::original::load::{numbers, planes};
use crate::original::probe::OWN_FACTOR;
use crate::original::ImageBoard;
use crate::rng::Rng;
use crate::screens::{self, Drawn, Pixel};

#[derive(Clone, Copy, Debug, PartialEq)]
pub enum Kind {
    /// A drawn board.
    Clean,
    /// The same, each byte moved by at most 4.
    Noisy,
    /// One colour.
    Blank,
    /// Texture with a flat bar, which takes a narrowing, and a board at the top left.
    Narrowed,
}

impl Kind {
    pub fn name(self) -> &'static str {
        match self {
            Kind::Clean => "clean",
            Kind::Noisy => "noisy",
            Kind::Blank => "blank",
            Kind::Narrowed => "narrowed",
        }
    }

    pub fn pixels(self, height: usize, width: usize) -> Vec<u8> {
        let rng = &mut Rng::new(1);
        match self {
            Kind::Clean => board(height, width),
            Kind::Noisy => {
                let mut pixels = board(height, width);
                screens::noisy(rng, &mut pixels, 4);
                pixels
            }
            Kind::Blank => screens::blank(height, width, 190),
            Kind::Narrowed => screens::textured(rng, height, width, OWN_FACTOR),
        }
    }

    pub fn board(self, height: usize, width: usize) -> ImageBoard {
        ImageBoard::new(numbers(&self.pixels(height, width)), height, width)
    }

    pub fn planes(self, height: usize, width: usize) -> Vec<f32> {
        planes(&self.board(height, width)).collect()
    }
}

/// A board of any pitches, place and look, each byte moved by at most the second number.
pub fn any_noisy(seed: u64, height: usize, width: usize) -> (Drawn, i32, Vec<u8>) {
    let rng = &mut Rng::new(seed);
    let drawn = Drawn::filling(rng, height, width, 9, 60);
    let by = rng.between(2, 8) as i32;
    let mut pixels = drawn.screen(height, width);
    screens::noisy(rng, &mut pixels, by);
    (drawn, by, pixels)
}

/// Cells of 30 pixels over most of the screen; lines lie a third of the way down and across, where the
/// scan starts.
fn board(height: usize, width: usize) -> Vec<u8> {
    const PITCH: usize = 30;
    let colours: Vec<Pixel> =
        vec![[180, 120, 60, 255], [70, 170, 90, 255], [60, 80, 190, 255], [60, 180, 190, 255]];
    let start = |side: usize| PITCH + (side - 2) / 3 % PITCH;
    let (top, left) = (start(height), start(width));
    let (rows, columns) = ((height - top - 10) / PITCH, (width - left - 10) / PITCH);
    Drawn { top, left, rows, columns, down: PITCH, across: PITCH, rim: 2, colours }
        .screen(height, width)
}
