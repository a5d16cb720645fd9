//! Screens that are the same in every run, each built for one end of locating.

use crate::original::probe::OWN_FACTOR;
use crate::rng::Rng;
use crate::screens::{self, Drawn, Pixel};

/// How the Rust's locating ends: 01's number, none for a panic before the scores, whether it returns,
/// and how often it narrows.
#[derive(Clone, Copy, Debug, PartialEq)]
pub struct End {
    pub answer: Option<u32>,
    pub returns: bool,
    pub narrowed: u32,
}

#[derive(Debug)]
enum Look {
    Blank,
    /// Black at the left, white at the right.
    Halves,
    /// Texture with a flat bar, and a board at the top left, where the first edge picture has it after a
    /// narrowing.
    Textured {
        seed: u64,
    },
    /// A board and a flat bar, which as many narrowings close.
    Zoomed {
        seed: u64,
        narrowings: u32,
    },
    /// A board from this row and column on, with these pitches down and across.
    Board {
        from: [usize; 2],
        pitch: [usize; 2],
    },
}

#[derive(Debug)]
pub struct Built {
    pub height: usize,
    pub width: usize,
    pub factor: usize,
    pub end: End,
    look: Look,
}

const COLOURS: [Pixel; 2] = [[150, 160, 170, 255], [60, 90, 120, 255]];

impl Built {
    pub fn pixels(&self) -> Vec<u8> {
        let (height, width) = (self.height, self.width);
        match self.look {
            Look::Blank => screens::blank(height, width, 100),
            Look::Halves => screens::halves(height, width),
            Look::Textured { seed } => {
                screens::textured(&mut Rng::new(seed), height, width, self.factor)
            }
            Look::Zoomed { seed, narrowings } => {
                screens::zoomed(&mut Rng::new(seed), height, width, self.factor, narrowings)
            }
            Look::Board { from: [top, left], pitch: [down, across] } => Drawn {
                top,
                left,
                rows: (height - top - 1) / down,
                columns: (width - left - 1) / across,
                down,
                across,
                rim: 1,
                colours: COLOURS.to_vec(),
            }
            .screen(height, width),
        }
    }
}

/// Not narrowed, so that it ends alike for every factor that its sides allow.
const fn board(sides: [usize; 2], from: [usize; 2], pitch: [usize; 2], answer: u32) -> Built {
    let end = End { answer: Some(answer), returns: !matches!(answer, 6 | 8), narrowed: 0 };
    let look = Look::Board { from, pitch };
    Built { height: sides[0], width: sides[1], factor: OWN_FACTOR, end, look }
}

/// Too small after one narrowing.
const fn blank(factor: usize, sides: [usize; 2]) -> Built {
    let end = End { answer: Some(5), returns: true, narrowed: 1 };
    Built { height: sides[0], width: sides[1], factor, end, look: Look::Blank }
}

/// Too small after as many narrowings, with edges.
const fn halves(factor: usize, sides: [usize; 2], narrowings: u32) -> Built {
    let end = End { answer: Some(5), returns: true, narrowed: narrowings };
    Built { height: sides[0], width: sides[1], factor, end, look: Look::Halves }
}

/// A panic where the planes are to be narrowed, or in the step after that.
const fn panics(factor: usize, sides: [usize; 2]) -> Built {
    Built { end: End { answer: None, returns: false, narrowed: 0 }, ..blank(factor, sides) }
}

/// Read after as many narrowings.
const fn zoomed(factor: usize, sides: [usize; 2], narrowings: u32, seed: u64) -> Built {
    let end = End { answer: Some(0), returns: true, narrowed: narrowings };
    let look = Look::Zoomed { seed, narrowings };
    Built { height: sides[0], width: sides[1], factor, end, look }
}

/// Read after one narrowing; the unchanged Rust comes to another record, by the first edge picture.
const fn textured(sides: [usize; 2], seed: u64) -> Built {
    let look = Look::Textured { seed };
    Built { look, ..zoomed(OWN_FACTOR, sides, 1, seed) }
}

/// The same screen by another factor.
const fn by(factor: usize, built: Built) -> Built {
    Built { factor, ..built }
}

/// Screens on which the port departs from the Rust, or adds to it. Of the far lines one lies a third
/// of the way, so that the scan follows it.
pub const DEPARTURES: &[Built] = &[
    blank(3, [40, 44]),
    board([42, 55], [3, 2], [12, 4], 6),
    board([60, 647], [4, 5], [12, 210], 7),
    board([647, 647], [5, 5], [210, 210], 7),
    Built {
        end: End { answer: Some(7), returns: false, narrowed: 0 },
        ..board([42, 647], [1, 5], [4, 210], 7)
    },
    board([55, 42], [2, 3], [4, 12], 8),
    board([647, 60], [5, 4], [210, 12], 9),
    SMALL,
    halves(2, [134, 150], 2),
    halves(3, [40, 44], 1),
    halves(3, [620, 640], 3),
    halves(4, [270, 280], 2),
    halves(5, [340, 350], 2),
    zoomed(3, [240, 260], 1, 1),
    textured([240, 260], 1),
    textured([240, 260], 2),
    // factors that the port refuses
    by(0, SMALL),
    panics(0, [40, 44]),
    by(1, SMALL),
    blank(1, [66, 90]),
    by(6, SMALL),
    blank(6, [24, 44]),
    zoomed(6, [407, 431], 1, 1),
    panics(6, [23, 44]),
    // sides that it refuses for their factor
    by(4, board([15, 30], [1, 2], [5, 13], 0)),
    panics(4, [15, 40]),
    panics(4, [44, 12]),
    by(5, board([16, 30], [1, 0], [5, 11], 0)),
    panics(5, [40, 19]),
    panics(5, [12, 44]),
];

/// A board that every factor reads.
const SMALL: Built = board([60, 64], [7, 5], [12, 11], 0);

/// Boards of which a column, or a row, more is read with the added scores (02, R-4): the rows and columns
/// that are read, and those that the unchanged Rust reads.
pub const ONE_MORE: &[(Built, [usize; 2], [usize; 2])] = &[
    (board([58, 61], [7, 5], [12, 11], 0), [4, 5], [4, 4]),
    (board([56, 57], [7, 7], [12, 11], 0), [4, 4], [3, 4]),
];

/// Screens that are read after one narrowing and after two by each factor. The first narrowing of each
/// leaves rows and columns over.
pub const READ_NARROWED: &[Built] = &[
    zoomed(2, [135, 151], 1, 4),
    zoomed(3, [205, 230], 1, 4),
    zoomed(4, [271, 303], 1, 12),
    zoomed(5, [339, 368], 1, 3),
    zoomed(2, [271, 301], 2, 3),
    zoomed(3, [611, 640], 2, 1),
    zoomed(4, [1079, 1103], 2, 3),
    zoomed(4, [1079, 1103], 2, 9),
    zoomed(5, [1684, 1699], 2, 3),
    zoomed(5, [1684, 1699], 2, 5),
    zoomed(2, [543, 571], 3, 4),
];

/// Screens that are read after a narrowing, with r_1, r_2, c_1 and c_2 of the record (02, R-5): from the first
/// row and column of the edge picture to the last, and from and to other ones.
pub const CORNERS: &[(Built, [usize; 4])] = &[
    (zoomed(3, [210, 210], 1, 13), [0, 67, 0, 67]),
    (zoomed(3, [240, 260], 1, 1), [0, 76, 11, 70]),
];

/// Large screens that are read: one of everyday sides, one whose sample's size m has another
/// trunc(0.55 m) in binary32 than by exact arithmetic, and the longest side in both directions.
pub const LARGE: &[Built] = &[
    board([1080, 1920], [60, 90], [60, 58], 0),
    board([2420, 2604], [50, 70], [50, 42], 0),
    board([300, 4096], [20, 40], [24, 26], 0),
    board([4096, 300], [40, 20], [26, 24], 0),
];
