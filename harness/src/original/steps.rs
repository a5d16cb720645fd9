//! The steps of locating, most of them private functions of the original.

use super::ImageBoard;
use crate::record::Record;

/// Points, rows first.
pub type Points = Vec<Vec<bool>>;

/// A board over planes that lie one after another, with the record's fields.
pub fn board(record: &Record, planes: &[f32]) -> ImageBoard {
    let Record { height, width, r_1, c_1, r0, c0, r, c, pixelr, pixelc, .. } = *record;
    let plane = |k: usize| {
        (0..height).map(|i| planes[(k * height + i) * width..][..width].to_vec()).collect()
    };
    ImageBoard {
        height,
        width,
        data: [plane(0), plane(1), plane(2)],
        r_1,
        c_1,
        r0,
        c0,
        pixelr: f32::from_bits(pixelr),
        pixelc: f32::from_bits(pixelc),
        c,
        r,
    }
}

/// A board with no picture, for the functions that look at none.
pub fn nothing() -> ImageBoard {
    board(&Record::default(), &[])
}

pub fn edges(gradient: &Vec<Vec<f32>>) -> Points {
    nothing().binarize_gradient(gradient)
}

pub fn narrow(board: &mut ImageBoard, factor: usize) {
    board.narrow(factor);
}

pub fn sides(board: &ImageBoard) -> (usize, usize) {
    (board.height, board.width)
}

/// r_1, r_2, c_1, c_2, and the thirds of the rows and of the columns.
pub fn bounds(edges: &Points) -> [usize; 8] {
    nothing().get_r12c12(edges)
}

/// The strips' targets with the starts of the source.
const STARTS: [[usize; 5]; 5] =
    [[0, 1, 2, 3, 4], [1, 0, 1, 2, 3], [2, 1, 0, 1, 2], [3, 2, 1, 0, 1], [4, 3, 2, 1, 0]];

/// The list of column scores, as `get_pos_pixel` builds it with one more turn of its middle loop (02, R-4).
pub fn column_scores(edges: &Points, [r_1, r_2, c_1, c_2]: [usize; 4]) -> Vec<usize> {
    let board = nothing();
    let score =
        |c: usize, k: usize| r_2 - r_1 - board.get_c_sum(edges, STARTS[k], c, c + 4, r_1, r_2)[k];
    let mut out = vec![score(c_1, 0), score(c_1, 1)];
    out.extend((c_1..c_2 - 3).map(|c| score(c, 2)));
    out.extend([score(c_2 - 4, 3), score(c_2 - 4, 4)]);
    out
}

/// The list of row scores, built likewise.
pub fn row_scores(edges: &Points, [r_1, r_2, c_1, c_2]: [usize; 4]) -> Vec<usize> {
    let board = nothing();
    let score =
        |r: usize, k: usize| c_2 - c_1 - board.get_r_sum(edges, STARTS[k], c_1, c_2, r, r + 4)[k];
    let mut out = vec![score(r_1, 0), score(r_1, 1)];
    out.extend((r_1..r_2 - 3).map(|r| score(r, 2)));
    out.extend([score(r_2 - 4, 3), score(r_2 - 4, 4)]);
    out
}

/// Pitch, offset and count; it panics where no gap is above 5.
pub fn line(list: Vec<usize>) -> (f32, usize, usize) {
    nothing().get_line(list)
}
