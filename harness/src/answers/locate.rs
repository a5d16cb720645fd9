//! Screens and what locating leaves of each, for crates/replay_screens. The file has the screens one
//! after another: height and width, two bytes each, low byte first, then the pixels. A line for each
//! factor has the answer, the Rust's fields afterwards, with r_2 and c_2 from its widened bounds where it
//! reads the board, and values of its planes, pitches and values by their bits. The answer is 0 where the
//! Rust reads the board; where it returns early or panics, 01's number for that. The Rust is the copy that
//! is changed as 02 says (build.rs).

use super::asked::{Asked, Kind};
use crate::original::locate::traced;
use crate::record::Record;
use crate::FACTORS;
use std::fs;
use std::path::Path;

const fn read(kind: Kind, height: usize, width: usize) -> Asked {
    Asked { kind, height, width, answer: 0, narrowed: 0 }
}

const fn narrowed(height: usize, width: usize) -> Asked {
    Asked { kind: Kind::Zoomed, height, width, answer: 0, narrowed: 1 }
}

const ASKED: &[Asked] = &[
    read(Kind::Board, 40, 61),
    read(Kind::Board, 90, 47),
    read(Kind::Board, 75, 120),
    read(Kind::Noisy, 62, 62),
    read(Kind::Noisy, 53, 101),
    read(Kind::Noisy, 118, 80),
    narrowed(201, 201),
    narrowed(201, 207),
    narrowed(206, 202),
    Asked { kind: Kind::Blank, height: 33, width: 47, answer: 5, narrowed: 1 },
    Asked { kind: Kind::Board, height: 45, width: 58, answer: 6, narrowed: 0 },
    Asked { kind: Kind::Board, height: 58, width: 45, answer: 8, narrowed: 0 },
];

/// Places of the values; where the planes that are left end before one, 0.0 stands there.
const PLACES: [usize; 4] = [7, 777, 1777, 2777];

/// Writes the screens, and prints the lines.
pub fn write(file: &Path) -> Result<(), String> {
    let mut screens = vec![];
    for asked in ASKED {
        let (pixels, _) = asked.found()?;
        for side in [asked.height, asked.width] {
            screens.extend((side as u16).to_le_bytes());
        }
        for factor in FACTORS {
            let run = traced(&pixels, asked.height, asked.width, factor)?;
            let Record { height, width, r_1, c_1, r_2, c_2, r0, c0, r, c, pixelr, pixelc } =
                run.board();
            let values = PLACES.map(|at| run.planes.get(at).map_or(0, |x| x.to_bits()).to_string());
            print!("{} {height} {width} {r_1} {c_1} {r_2} {c_2} {r0} {c0} {r} {c} ", run.answer);
            println!("{pixelr} {pixelc} {}", values.join(" "));
        }
        screens.extend(pixels);
    }
    fs::write(file, screens).map_err(|error| format!("{}: {error}", file.display()))
}
