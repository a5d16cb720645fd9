//! Inputs of the screen program (01, Screen program) and what it prints: NAME.in and NAME.out.
//! Where the Rust reads the board, the values are its fields, its pitches times 4, and its votes and
//! narrowings. Where it returns early or panics, its sides and narrowings, and 01's rule: the number
//! for that, and zeros. The Rust is the copy that is changed as 02 says (build.rs); it knows nothing of bad
//! input, and there all is 01's rule.

use super::asked::{Asked, Kind};
use crate::original::locate::Traced;
use crate::record::Record;
use std::fs;
use std::path::Path;

const fn asked(kind: Kind, height: usize, width: usize, answer: u32) -> Asked {
    let narrowed = if answer == 5 { 1 } else { 0 };
    Asked { kind, height, width, answer, narrowed }
}

/// Screens of which the Rust is asked.
const ASKED: &[(&str, Asked)] = &[
    ("board_40x64", asked(Kind::Board, 40, 64, 0)),
    ("board_64x37", asked(Kind::Board, 64, 37, 0)),
    ("board_64x64", asked(Kind::Board, 64, 64, 0)),
    ("board_33x35", asked(Kind::Board, 33, 35, 0)),
    ("noisy_36x52", asked(Kind::Noisy, 36, 52, 0)),
    ("noisy_61x43", asked(Kind::Noisy, 61, 43, 0)),
    ("noisy_64x59", asked(Kind::Noisy, 64, 59, 0)),
    ("too_small_blank", asked(Kind::Blank, 64, 64, 5)),
    ("too_small_board", asked(Kind::Board, 12, 50, 5)),
    ("too_small_texture", asked(Kind::Textured, 60, 41, 5)),
    ("columns_without_gap", asked(Kind::Board, 42, 55, 6)),
    ("columns_without_gap_least", asked(Kind::Board, 12, 12, 6)),
    ("rows_without_gap", asked(Kind::Board, 55, 42, 8)),
    ("rows_without_gap_noisy", asked(Kind::Noisy, 48, 64, 8)),
];

/// Bad input: the first line, the second, how many bytes follow, and the answer.
const BAD: &[(&str, &str, &str, usize, u32)] = &[
    ("empty", "", "", 0, 11),
    ("first_line_turned", "width height\n", "12 12\n", 4 * 144, 11),
    ("first_line_carriage_return", "height width\r\n", "12 12\n", 4 * 144, 11),
    ("five_digits", FIRST, "00012 12\n", 4 * 144, 11),
    ("second_space", FIRST, "12  12\n", 4 * 144, 11),
    ("no_line_feed", FIRST, "12 12", 0, 11),
    ("side_65", FIRST, "65 64\n", 4 * 65 * 64, 1),
    ("side_11", FIRST, "12 11\n", 4 * 144, 1),
    ("pixels_short", FIRST, "20 20\n", 4 * 400 - 1, 2),
];

const FIRST: &str = "height width\n";
const NAMES: &str =
    "answer rows columns r1 c1 r0 c0 quarterr quarterc votesr votesc narrowed height width";

type Values = [usize; 14];

/// Writes all of them to the folder.
pub fn write(folder: &Path) -> Result<(), String> {
    fs::create_dir_all(folder).map_err(|error| format!("{}: {error}", folder.display()))?;
    for (name, asked) in ASKED {
        let (pixels, run) = asked.found()?;
        let numbers = format!("{} {}\n", asked.height, asked.width);
        store(folder, name, &[FIRST.as_bytes(), numbers.as_bytes(), &pixels], values(&run))?;
    }
    for &(name, first, numbers, bytes, answer) in BAD {
        let pixels = vec![100; bytes];
        store(folder, name, &[first.as_bytes(), numbers.as_bytes(), &pixels], alone(answer))?;
    }
    Ok(())
}

/// Every value but the answer is 0.
fn alone(answer: u32) -> Values {
    let mut values = [0; 14];
    values[0] = answer as usize;
    values
}

fn values(run: &Traced) -> Values {
    let Record { height, width, r_1, c_1, r0, c0, r, c, .. } = run.record;
    let mut values = alone(run.answer);
    if run.answer == 0 {
        let [quarterr, quarterc] = run.quarters().map(|q| q as usize);
        let [votesr, votesc] = run.votes().map(|v| v as usize);
        values[1..11]
            .copy_from_slice(&[r, c, r_1, c_1, r0, c0, quarterr, quarterc, votesr, votesc]);
    }
    values[11..].copy_from_slice(&[run.seen.narrowed, height, width]);
    values
}

fn store(folder: &Path, name: &str, input: &[&[u8]], values: Values) -> Result<(), String> {
    let values = values.map(|value| value.to_string()).join(" ");
    let output = format!("{NAMES}\n{values}\n");
    for (end, content) in [("in", input.concat()), ("out", output.into_bytes())] {
        let file = folder.join(format!("{name}.{end}"));
        fs::write(&file, content).map_err(|error| format!("{}: {error}", file.display()))?;
    }
    Ok(())
}
