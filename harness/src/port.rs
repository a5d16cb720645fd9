//! The port's functions as safe ones: slices go in, and what a function asks of its caller is
//! tested first.

use crate::record::Record;

/// folgutan_board of include/folgutan.h.
#[repr(C)]
#[derive(Clone, Copy, Debug)]
pub struct Board {
    pub height: usize,
    pub width: usize,
    pub r_1: usize,
    pub c_1: usize,
    pub r_2: usize,
    pub c_2: usize,
    pub r0: usize,
    pub c0: usize,
    pub r: usize,
    pub c: usize,
    pub pixelr: f32,
    pub pixelc: f32,
}

impl Board {
    pub fn of(record: &Record) -> Board {
        let Record { height, width, r_1, c_1, r_2, c_2, r0, c0, r, c, pixelr, pixelc } = *record;
        let (pixelr, pixelc) = (f32::from_bits(pixelr), f32::from_bits(pixelc));
        Board { height, width, r_1, c_1, r_2, c_2, r0, c0, r, c, pixelr, pixelc }
    }

    pub fn record(&self) -> Record {
        Record {
            height: self.height,
            width: self.width,
            r_1: self.r_1,
            c_1: self.c_1,
            r_2: self.r_2,
            c_2: self.c_2,
            r0: self.r0,
            c0: self.c0,
            r: self.r,
            c: self.c,
            pixelr: self.pixelr.to_bits(),
            pixelc: self.pixelc.to_bits(),
        }
    }
}

/// folgutan_loaded of include/folgutan.h.
#[repr(C)]
#[derive(Clone, Copy, Debug)]
pub struct Loaded {
    pub board: Board,
    pub answer: u32,
}

/// folgutan_located of include/folgutan.h.
#[repr(C)]
#[derive(Clone, Copy, Debug)]
pub struct Located {
    pub board: Board,
    pub answer: u32,
    pub quarterr: u32,
    pub quarterc: u32,
    pub votesr: u32,
    pub votesc: u32,
    pub narrowed: u32,
}

/// The slices that locating is lent, beside the planes.
pub struct Slices<'a> {
    pub edges: &'a mut [u8],
    pub scores: &'a mut [u32],
    pub scratch_f32: &'a mut [f32],
    pub scratch_u8: &'a mut [u8],
    pub scratch_u32: &'a mut [u32],
}

/// folgutan_reading of include/folgutan.h.
#[repr(C)]
#[derive(Clone, Copy, Debug)]
pub struct Reading {
    pub answer: u32,
    pub pitch: f32,
    pub offset: usize,
    pub count: usize,
    pub votes: usize,
}

/// folgutan_printed of include/folgutan.h.
#[repr(C)]
#[derive(Clone, Copy, Debug)]
pub struct Printed {
    pub answer: u32,
    pub length: usize,
}

/// Bounds of a board in a picture.
#[repr(C)]
#[derive(Clone, Copy, Debug, PartialEq)]
pub struct Corners {
    pub r_1: usize,
    pub r_2: usize,
    pub c_1: usize,
    pub c_2: usize,
}

/// Nothing checks these against the signatures in crates/folgutan and crates/folgutan_inner.
mod linked {
    use super::{Board, Corners, Loaded, Located, Printed, Reading};

    extern "C" {
        pub fn folgutan_load(
            height: usize,
            width: usize,
            pixels: *const u8,
            pixels_len: usize,
            planes: *mut f32,
            planes_len: usize,
        ) -> Loaded;

        pub fn folgutan_gradient(
            height: usize,
            width: usize,
            planes: *const f32,
            planes_len: usize,
            out: *mut f32,
            out_len: usize,
        ) -> u32;
        pub fn folgutan_locate(
            board: Board,
            factor: usize,
            planes: *mut f32,
            planes_len: usize,
            edges: *mut u8,
            edges_len: usize,
            scores: *mut u32,
            scores_len: usize,
            scratch_f32: *mut f32,
            scratch_f32_len: usize,
            scratch_u8: *mut u8,
            scratch_u8_len: usize,
            scratch_u32: *mut u32,
            scratch_u32_len: usize,
        ) -> Located;
        pub fn folgutan_read_line(
            list: *const u32,
            list_len: usize,
            scratch: *mut u32,
            scratch_len: usize,
        ) -> Reading;
        pub fn folgutan_sample(
            board: Board,
            planes: *const f32,
            planes_len: usize,
            x: usize,
            y: usize,
            size: usize,
            out: *mut f32,
            out_len: usize,
        ) -> u32;
        pub fn folgutan_sample_board(
            board: Board,
            planes: *const f32,
            planes_len: usize,
            size: usize,
            out: *mut f32,
            out_len: usize,
        ) -> u32;
        pub fn folgutan_map(
            board: Board,
            planes: *const f32,
            planes_len: usize,
            out: *mut u8,
            out_len: usize,
        ) -> Printed;

        pub fn folgutan_inner_unit(x: f32) -> bool;
        pub fn folgutan_inner_magnitude(x: f32) -> f32;
        pub fn folgutan_inner_larger(a: f32, b: f32) -> f32;
        pub fn folgutan_inner_truncated(x: f32) -> u64;
        pub fn folgutan_inner_entry(list: *const u32, len: usize, j: usize, most: u32) -> u32;
        pub fn folgutan_inner_all_units(planes: *const f32, planes_len: usize, n: usize) -> bool;
        pub fn folgutan_inner_gradient_of(
            height: usize,
            width: usize,
            planes: *const f32,
            planes_len: usize,
            out: *mut f32,
            out_len: usize,
        );
        pub fn folgutan_inner_edges(
            row: usize,
            column: usize,
            gradient: *const f32,
            gradient_len: usize,
            out: *mut u8,
            out_len: usize,
        );
        pub fn folgutan_inner_narrow(
            factor: usize,
            height: usize,
            width: usize,
            planes: *mut f32,
            planes_len: usize,
            scratch: *mut f32,
            scratch_len: usize,
        );
        pub fn folgutan_inner_bounds(
            gradient: *const f32,
            gradient_len: usize,
            threshold: f32,
            row: usize,
            column: usize,
        ) -> Corners;
        pub fn folgutan_inner_widen(
            edges: *const u8,
            edges_len: usize,
            stride: usize,
            row: usize,
            column: usize,
            bounds: Corners,
        ) -> Corners;
        pub fn folgutan_inner_column_scores(
            edges: *const u8,
            edges_len: usize,
            stride: usize,
            bounds: Corners,
            out: *mut u32,
            out_len: usize,
        );
        pub fn folgutan_inner_row_scores(
            edges: *const u8,
            edges_len: usize,
            stride: usize,
            bounds: Corners,
            turned: *mut u8,
            turned_len: usize,
            out: *mut u32,
            out_len: usize,
        );
        pub fn folgutan_inner_smooth(
            list: *const u32,
            list_len: usize,
            out: *mut u32,
            out_len: usize,
        );
        pub fn folgutan_inner_sample(
            board: Board,
            planes: *const f32,
            planes_len: usize,
            x: usize,
            y: usize,
            size: usize,
            out: *mut f32,
            out_len: usize,
        ) -> u32;
    }
}

// In each call below the slices are Rust's own: valid, aligned, never null, and a mutable one
// overlaps no other.

pub fn load(height: usize, width: usize, pixels: &[u8], planes: &mut [f32]) -> Loaded {
    unsafe {
        linked::folgutan_load(
            height,
            width,
            pixels.as_ptr(),
            pixels.len(),
            planes.as_mut_ptr(),
            planes.len(),
        )
    }
}

pub fn gradient(height: usize, width: usize, planes: &[f32], out: &mut [f32]) -> u32 {
    unsafe {
        linked::folgutan_gradient(
            height,
            width,
            planes.as_ptr(),
            planes.len(),
            out.as_mut_ptr(),
            out.len(),
        )
    }
}

pub fn locate(board: Board, factor: usize, planes: &mut [f32], slices: Slices) -> Located {
    let Slices { edges, scores, scratch_f32, scratch_u8, scratch_u32 } = slices;
    unsafe {
        linked::folgutan_locate(
            board,
            factor,
            planes.as_mut_ptr(),
            planes.len(),
            edges.as_mut_ptr(),
            edges.len(),
            scores.as_mut_ptr(),
            scores.len(),
            scratch_f32.as_mut_ptr(),
            scratch_f32.len(),
            scratch_u8.as_mut_ptr(),
            scratch_u8.len(),
            scratch_u32.as_mut_ptr(),
            scratch_u32.len(),
        )
    }
}

pub fn read_line(list: &[u32], scratch: &mut [u32]) -> Reading {
    unsafe {
        linked::folgutan_read_line(list.as_ptr(), list.len(), scratch.as_mut_ptr(), scratch.len())
    }
}

pub fn sample(
    board: Board,
    planes: &[f32],
    x: usize,
    y: usize,
    size: usize,
    out: &mut [f32],
) -> u32 {
    unsafe {
        linked::folgutan_sample(
            board,
            planes.as_ptr(),
            planes.len(),
            x,
            y,
            size,
            out.as_mut_ptr(),
            out.len(),
        )
    }
}

pub fn sample_board(board: Board, planes: &[f32], size: usize, out: &mut [f32]) -> u32 {
    unsafe {
        linked::folgutan_sample_board(
            board,
            planes.as_ptr(),
            planes.len(),
            size,
            out.as_mut_ptr(),
            out.len(),
        )
    }
}

pub fn map(board: Board, planes: &[f32], out: &mut [u8]) -> Printed {
    unsafe {
        linked::folgutan_map(board, planes.as_ptr(), planes.len(), out.as_mut_ptr(), out.len())
    }
}

/// Functions inside the port, which no header has.
pub mod inner {
    use super::{linked, Board, Corners};
    use crate::FACTORS;

    pub fn unit(x: f32) -> bool {
        unsafe { linked::folgutan_inner_unit(x) }
    }

    pub fn magnitude(x: f32) -> f32 {
        assert!(!x.is_nan());
        unsafe { linked::folgutan_inner_magnitude(x) }
    }

    pub fn larger(a: f32, b: f32) -> f32 {
        unsafe { linked::folgutan_inner_larger(a, b) }
    }

    pub fn truncated(x: f32) -> u64 {
        unsafe { linked::folgutan_inner_truncated(x) }
    }

    pub fn entry(list: &[u32], j: usize, most: u32) -> u32 {
        assert!(list.len() <= 1 << 24);
        assert!(list.iter().all(|&v| v <= most));
        unsafe { linked::folgutan_inner_entry(list.as_ptr(), list.len(), j, most) }
    }

    /// Whether the first n values are 0.0 to 1.0 and not -0.0.
    pub fn all_units(planes: &[f32], n: usize) -> bool {
        assert!(n <= planes.len() && n <= 1 << 26);
        unsafe { linked::folgutan_inner_all_units(planes.as_ptr(), planes.len(), n) }
    }

    fn fit_planes(height: usize, width: usize, planes: &[f32]) -> bool {
        let units = 3 * height * width;
        units <= planes.len() && planes[..units].iter().all(|x| x.to_bits() <= 0x3F80_0000)
    }

    pub fn gradient_of(height: usize, width: usize, planes: &[f32], out: &mut [f32]) {
        assert!((4..=4096).contains(&height) && (4..=4096).contains(&width));
        debug_assert!(fit_planes(height, width, planes));
        assert!(3 * height * width <= planes.len() && (height - 2) * (width - 2) <= out.len());
        unsafe {
            linked::folgutan_inner_gradient_of(
                height,
                width,
                planes.as_ptr(),
                planes.len(),
                out.as_mut_ptr(),
                out.len(),
            )
        }
    }

    /// Values of the gradient have no sign and are numbers or infinity.
    pub fn edges(row: usize, column: usize, gradient: &[f32], out: &mut [u8]) {
        assert!((2..=4094).contains(&row) && (2..=4094).contains(&column));
        assert!(gradient.len() == row * column && row * column <= out.len());
        debug_assert!(gradient.iter().all(|x| x.to_bits() <= 0x7F80_0000));
        unsafe {
            linked::folgutan_inner_edges(
                row,
                column,
                gradient.as_ptr(),
                gradient.len(),
                out.as_mut_ptr(),
                out.len(),
            )
        }
    }

    pub fn narrow(
        factor: usize,
        height: usize,
        width: usize,
        planes: &mut [f32],
        scratch: &mut [f32],
    ) {
        assert!(FACTORS.contains(&factor));
        debug_assert!(fit_planes(height, width, planes));
        assert!(3 * height * width <= planes.len() && height * width <= scratch.len());
        unsafe {
            linked::folgutan_inner_narrow(
                factor,
                height,
                width,
                planes.as_mut_ptr(),
                planes.len(),
                scratch.as_mut_ptr(),
                scratch.len(),
            )
        }
    }

    /// Of the picture whose points are set where the gradient is at least the threshold.
    pub fn bounds(gradient: &[f32], threshold: f32, row: usize, column: usize) -> Corners {
        assert!((1..=4094).contains(&row) && (1..=4094).contains(&column));
        assert!(row * column <= gradient.len());
        unsafe {
            linked::folgutan_inner_bounds(gradient.as_ptr(), gradient.len(), threshold, row, column)
        }
    }

    pub fn widen(edges: &[u8], stride: usize, row: usize, column: usize, b: Corners) -> Corners {
        assert!((3..=4094).contains(&row) && (3..=4094).contains(&column) && column <= stride);
        assert!(row * stride <= edges.len());
        assert!(b.r_1 < row && b.r_2 < row && b.c_1 < column && b.c_2 < column);
        unsafe { linked::folgutan_inner_widen(edges.as_ptr(), edges.len(), stride, row, column, b) }
    }

    fn scorable(edges: &[u8], stride: usize, b: Corners) -> bool {
        b.r_1 + 4 <= b.r_2
            && b.c_1 + 4 <= b.c_2
            && b.r_2 <= 4094
            && stride <= 4094
            && b.c_2 < stride
            && (b.r_2 + 1) * stride <= edges.len()
    }

    /// The bytes are 0 and 1.
    pub fn column_scores(edges: &[u8], stride: usize, b: Corners, out: &mut [u32]) {
        assert!(scorable(edges, stride, b) && b.c_2 - b.c_1 < out.len());
        debug_assert!(edges.iter().all(|&e| e <= 1));
        unsafe {
            linked::folgutan_inner_column_scores(
                edges.as_ptr(),
                edges.len(),
                stride,
                b,
                out.as_mut_ptr(),
                out.len(),
            )
        }
    }

    /// The bytes are 0 and 1.
    pub fn row_scores(edges: &[u8], stride: usize, b: Corners, turned: &mut [u8], out: &mut [u32]) {
        assert!(scorable(edges, stride, b) && b.r_2 - b.r_1 < out.len());
        assert!((b.c_2 - b.c_1 + 1) * (b.r_2 - b.r_1 + 1) <= turned.len());
        debug_assert!(edges.iter().all(|&e| e <= 1));
        unsafe {
            linked::folgutan_inner_row_scores(
                edges.as_ptr(),
                edges.len(),
                stride,
                b,
                turned.as_mut_ptr(),
                turned.len(),
                out.as_mut_ptr(),
                out.len(),
            )
        }
    }

    /// No entry of the list is above 4,096.
    pub fn smooth(list: &[u32], out: &mut [u32]) {
        assert!((4..=4096).contains(&list.len()) && list.len() <= out.len());
        debug_assert!(list.iter().all(|&s| s <= 4096));
        unsafe {
            linked::folgutan_inner_smooth(list.as_ptr(), list.len(), out.as_mut_ptr(), out.len())
        }
    }

    /// Sampling of planes that are known to be fit.
    pub fn sample(
        board: Board,
        planes: &[f32],
        x: usize,
        y: usize,
        size: usize,
        out: &mut [f32],
    ) -> u32 {
        assert!(3 * board.height * board.width <= planes.len());
        unsafe {
            linked::folgutan_inner_sample(
                board,
                planes.as_ptr(),
                planes.len(),
                x,
                y,
                size,
                out.as_mut_ptr(),
                out.len(),
            )
        }
    }
}
