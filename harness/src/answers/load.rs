//! A line with `load` and the sides, then a line for each plane value, planes one after another:
//! its bits as a decimal number.

use crate::original::{load, ImageBoard};
use crate::screens;

pub fn print() {
    let (height, width) = (16, 16);
    let board = ImageBoard::new(load::numbers(&screens::counted(height, width)), height, width);
    println!("load {height} {width}");
    for value in load::planes(&board) {
        println!("{}", value.to_bits());
    }
}
