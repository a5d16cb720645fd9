//! Locating alone and with loading, by the factor of the Rust. What is lent to the port is warm; planes
//! and numbers are made anew each time, outside the measured part.

use super::screen::Kind;
use super::{least, timed};
use crate::original::locate::answer_of;
use crate::original::probe::OWN_FACTOR;
use crate::original::{load, probed, ImageBoard};
use crate::port::{self, Located, Slices};
use crate::quiet::caught;
use crate::record::Record;
use std::hint::black_box;
use std::time::Duration;

/// The slices that locating asks for.
struct Room {
    planes: Vec<f32>,
    edges: Vec<u8>,
    scores: Vec<u32>,
    scratch_f32: Vec<f32>,
    scratch_u8: Vec<u8>,
    scratch_u32: Vec<u32>,
}

impl Room {
    fn new(height: usize, width: usize) -> Room {
        let (area, sides) = (height * width, height + width);
        Room {
            planes: vec![0.0; 3 * area],
            edges: vec![0; area],
            scores: vec![0; sides],
            scratch_f32: vec![0.0; area],
            scratch_u8: vec![0; area],
            scratch_u32: vec![0; 4 * sides],
        }
    }

    fn locate(&mut self, board: port::Board) -> Located {
        let Room { planes, edges, scores, scratch_f32, scratch_u8, scratch_u32 } = self;
        port::locate(
            board,
            OWN_FACTOR,
            planes,
            Slices { edges, scores, scratch_f32, scratch_u8, scratch_u32 },
        )
    }
}

/// Both came to the same sides, the copy that is changed as 02 says to the port's record, whose far corner is
/// its widened bounds, and the screen was as its kind says. The Rust that is measured is the unchanged one: it
/// goes on with the first edge picture, and scores a place less of each axis.
fn checked(kind: Kind, [height, width]: [usize; 2], board: &ImageBoard, located: &Located) {
    let record = load::record(board);
    assert_eq!((record.height, record.width), (located.board.height, located.board.width));
    let ran = probed::locate(load::numbers(&kind.pixels(height, width)), height, width, OWN_FACTOR);
    assert_eq!(answer_of(&ran), Some(located.answer));
    if located.answer == 0 {
        let [_, r_2, _, c_2] = ran.seen.widened.unwrap();
        assert_eq!(Record { r_2, c_2, ..ran.record }, located.board.record());
    }
    match kind {
        Kind::Clean | Kind::Noisy => assert_eq!((located.answer, located.narrowed), (0, 0)),
        Kind::Blank => assert_eq!(located.answer, 5),
        Kind::Narrowed => assert!(located.narrowed > 0),
    }
}

pub fn measure(kind: Kind, height: usize, width: usize) -> (Duration, Duration) {
    let pixels = kind.pixels(height, width);
    let numbers = load::numbers(&pixels);
    let planes = kind.planes(height, width);
    let mut room = Room::new(height, width);
    let given = port::Board::of(&Record { height, width, ..Record::default() });
    let mut rust = None;
    let mut port = None;
    let times = least(
        || {
            let mut board = ImageBoard::new(numbers.clone(), height, width);
            let time = timed(|| caught(|| black_box(&mut board).get_pos_pixel()));
            rust = Some(board);
            time
        },
        || {
            room.planes.copy_from_slice(&planes);
            timed(|| port = Some(room.locate(black_box(given))))
        },
    );
    checked(kind, [height, width], &rust.unwrap(), &port.unwrap());
    times
}

pub fn with_load(kind: Kind, height: usize, width: usize) -> (Duration, Duration) {
    let pixels = kind.pixels(height, width);
    let numbers = load::numbers(&pixels);
    let mut room = Room::new(height, width);
    let mut rust = None;
    let mut port = None;
    let times = least(
        || {
            let numbers = numbers.clone();
            let mut board = None;
            let time = timed(|| {
                let mut own = ImageBoard::new(black_box(numbers), height, width);
                caught(|| own.get_pos_pixel());
                board = Some(own);
            });
            rust = board;
            time
        },
        || {
            timed(|| {
                let loaded = port::load(height, width, black_box(&pixels), &mut room.planes);
                port = Some(room.locate(loaded.board));
            })
        },
    );
    checked(kind, [height, width], &rust.unwrap(), &port.unwrap());
    times
}
