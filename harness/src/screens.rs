//! Screens that more than one program takes.

use crate::rng::Rng;

/// Pixel n has the bytes n, 255 - n, 7n and 13n, each modulo 256.
pub fn counted(height: usize, width: usize) -> Vec<u8> {
    (0..height * width)
        .flat_map(|n| [n, 255 - n % 256, 7 * n, 13 * n].map(|b| (b % 256) as u8))
        .collect()
}

/// A pixel: blue, green, red and a byte that is ignored.
pub type Pixel = [u8; 4];

pub fn noise(rng: &mut Rng, height: usize, width: usize) -> Vec<u8> {
    rng.bytes(4 * height * width)
}

pub fn blank(height: usize, width: usize, byte: u8) -> Vec<u8> {
    vec![byte; 4 * height * width]
}

/// Black at the left, white at the right.
pub fn halves(height: usize, width: usize) -> Vec<u8> {
    painted(height, width, |_, j| if j < width / 2 { [0; 4] } else { [255; 4] })
}

fn painted(height: usize, width: usize, mut at: impl FnMut(usize, usize) -> Pixel) -> Vec<u8> {
    let mut out = Vec::with_capacity(4 * height * width);
    for i in 0..height {
        for j in 0..width {
            out.extend(at(i, j));
        }
    }
    out
}

fn shifted(colour: Pixel, by: i32) -> Pixel {
    colour.map(|byte| (byte as i32 + by).clamp(0, 255) as u8)
}

/// Where a board lies, its pitches down and across, and its look.
#[derive(Clone, Debug)]
pub struct Drawn {
    pub top: usize,
    pub left: usize,
    pub rows: usize,
    pub columns: usize,
    pub down: usize,
    pub across: usize,
    pub rim: usize,
    pub colours: Vec<Pixel>,
}

const LINE: Pixel = [30, 30, 30, 255];
const BACKGROUND: Pixel = [200, 200, 190, 255];
const BAR: Pixel = [90, 90, 90, 255];

impl Drawn {
    /// A board that fills most of the screen.
    pub fn filling(rng: &mut Rng, height: usize, width: usize, least: usize, most: usize) -> Drawn {
        let (down, across) = (rng.between(least, most), rng.between(least, most));
        let (top, left) = (rng.below(height / 5 + 1), rng.below(width / 5 + 1));
        let rows = ((height - top).saturating_sub(2) / down).saturating_sub(rng.below(2));
        let columns = ((width - left).saturating_sub(2) / across).saturating_sub(rng.below(2));
        let colours = (0..rng.between(1, 5)).map(|_| rng.word().to_le_bytes()).collect();
        Drawn { top, left, rows, columns, down, across, rim: rng.below(3), colours }
    }

    /// The pixel there, or nothing outside the board: lines, raised cells, a mark on some.
    pub fn at(&self, row: usize, column: usize) -> Option<Pixel> {
        let (i, j) = (row.checked_sub(self.top)?, column.checked_sub(self.left)?);
        let (x, y) = (i / self.down, j / self.across);
        let (i, j) = (i % self.down, j % self.across);
        if x > self.rows || y > self.columns {
            return None;
        }
        if x == self.rows || y == self.columns {
            return ((x < self.rows || i == 0) && (y < self.columns || j == 0)).then_some(LINE);
        }
        if i == 0 || j == 0 {
            return Some(LINE);
        }
        let colour = self.colours[(3 * x + 5 * y + x * y) % self.colours.len()];
        let shift = if i <= self.rim || j <= self.rim {
            60
        } else if i + self.rim >= self.down || j + self.rim >= self.across {
            -60
        } else if (x + y) % 3 == 0 && i * 3 / self.down == 1 && j * 3 / self.across == 1 {
            -40
        } else {
            0
        };
        Some(shifted(colour, shift))
    }

    pub fn screen(&self, height: usize, width: usize) -> Vec<u8> {
        painted(height, width, |i, j| self.at(i, j).unwrap_or(BACKGROUND))
    }
}

/// Each byte moved by at most `by`.
pub fn noisy(rng: &mut Rng, pixels: &mut [u8], by: i32) {
    for byte in pixels {
        let shift = rng.below(2 * by as usize + 1) as i32 - by;
        *byte = (*byte as i32 + shift).clamp(0, 255) as u8;
    }
}

/// Whether the place lies in a bar through the middle of the side.
fn in_bar(at: usize, side: usize, thick: usize) -> bool {
    let from = side / 2 - thick / 2;
    (from..from + thick).contains(&at)
}

/// A screen that often takes as many narrowings by the factor as said, 1 at least, and is read then: a
/// board that has small cells by then, and flat bars through the middle, which the first scan cannot
/// cross. Around most boards lies a margin, which is flat unless all but the bars is noisy.
pub fn zoomed(
    rng: &mut Rng,
    height: usize,
    width: usize,
    factor: usize,
    narrowings: u32,
) -> Vec<u8> {
    let before = factor.pow(narrowings - 1);
    let scale = factor * before;
    let (down, right) = (rng.below(scale), rng.below(scale));
    let (h, w) = (height / scale, width / scale);
    let mut board = Drawn::filling(rng, h, w, 6, (h.min(w) / 4).clamp(8, 20));
    if rng.below(4) == 0 {
        (board.top, board.left) = (0, 0);
        (board.rows, board.columns) = (height, width);
    }
    let by = rng.pick(&[0, 0, 1, 3]);
    let thick = rng.between(8 * before, 10 * before);
    let (across, upright) = rng.pick(&[(true, false), (false, true), (true, true)]);
    let mut pixels = painted(height, width, |i, j| {
        board.at((i + down) / scale, (j + right) / scale).unwrap_or(BACKGROUND)
    });
    noisy(rng, &mut pixels, by);
    for (at, pixel) in pixels.chunks_mut(4).enumerate() {
        let (i, j) = (at / width, at % width);
        if (across && in_bar(i, height, thick)) || (upright && in_bar(j, width, thick)) {
            pixel.copy_from_slice(&BAR);
        }
    }
    pixels
}

/// Coarse texture with flat bars through the middle, which the first scan cannot cross, so that it is
/// narrowed. Mostly a board lies at the top left, in the place that its bounds have after a narrowing by
/// the factor: who looks for them in the first edge picture finds that board.
pub fn textured(rng: &mut Rng, height: usize, width: usize, factor: usize) -> Vec<u8> {
    let (block, thick) = (rng.between(9, 15), rng.between(7, 10));
    let (across, down) = rng.pick(&[(true, false), (false, true), (true, true)]);
    let seed = rng.next();
    let (h, w) = (height / factor, width / factor);
    let mut board = Drawn::filling(rng, h, w, 7, (h.min(w) / 2).clamp(8, 40));
    board.top = rng.below(3);
    board.left = rng.below(3);
    let fine = rng.below(8) > 0;
    painted(height, width, |i, j| {
        if fine && i < h && j < w {
            if let Some(pixel) = board.at(i, j) {
                return pixel;
            }
        }
        if (across && in_bar(i, height, thick)) || (down && in_bar(j, width, thick)) {
            return BAR;
        }
        let mut own = Rng::new(seed ^ ((i / block) << 20 | (j / block)) as u64);
        own.word().to_le_bytes()
    })
}
