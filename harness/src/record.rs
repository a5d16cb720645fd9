//! The board record (01, Load; 02, R-5), for comparing the two sides: the pitches are held by their bits. The
//! Rust's own has no far corner: r_2 and c_2 are 0 in what is taken from its fields.

#[derive(Clone, Copy, Debug, Default, PartialEq)]
pub struct Record {
    pub height: usize,
    pub width: usize,
    pub r_1: usize,
    pub c_1: usize,
    pub r_2: usize,
    pub c_2: usize,
    pub r0: usize,
    pub c0: usize,
    pub r: usize,
    pub c: usize,
    pub pixelr: u32,
    pub pixelc: u32,
}
