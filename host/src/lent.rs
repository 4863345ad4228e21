//! The functions of `include/sporeferry.h` over tables that the caller lends, as they are: nothing is sized and
//! nothing is allocated. The header says what each table must hold and what it holds afterwards.
//!
//! What the header asks of a host, that tables live and do not overlap, `&` and `&mut` ask already, so these
//! functions are safe.
//!
//! ```
//! use sporeferry::lent;
//! let (points, cells) = ([0.0; 12], [0, 1, 2, 3]);
//! let mut numbers = [7; 2];
//! let answer = lent::components(&points, &cells, &mut numbers, &mut [0; 8]);
//! assert_eq!((answer.number, answer.values, numbers), (0, [1, 0, 0], [0, 7]));
//! let refused = lent::components(&points, &[0, 1, 2, 4], &mut numbers, &mut [0; 8]);
//! assert_eq!(refused.number, 8);
//! ```

use crate::plan::Bounds;
use crate::refusal::{Refusal, Step};

/// The plan's answer.
#[repr(C)]
#[derive(Clone, Copy, Debug, PartialEq)]
pub struct Planned {
    /// 0, or the number of the refusal; then all else is 0, but for what a 4 names.
    pub number: u32,
    /// On a 4 the first axis at fault, 0, 1 or 2, or 3 for the octants.
    pub value: u32,
    pub origin: [f32; 3],
    pub half: f32,
    pub dims: [u32; 3],
    pub octants: u32,
}

/// The answer of every other step.
#[repr(C)]
#[derive(Clone, Copy, Debug, PartialEq, Eq)]
pub struct Answer {
    /// 0, or the number of the refusal.
    pub number: u32,
    /// `first`, `second` and `third` of the header.
    pub values: [u64; 3],
}

impl Answer {
    /// The values of an answer, or the refusal.
    pub fn told(self, step: Step) -> Result<[u64; 3], Refusal> {
        match self.number {
            0 => Ok(self.values),
            number => Err(Refusal { step, number, values: self.values }),
        }
    }
}

/// What was added up over grids: cells, and six times their volumes in whole units.
#[repr(C)]
#[derive(Clone, Copy, Debug, Default, PartialEq, Eq)]
pub struct Totals {
    pub cells: u64,
    pub kept: u64,
    pub dropped: u64,
    pub sixfold_kept: u64,
    pub sixfold_all: u64,
}

impl Totals {
    /// What was added since they were as `before`.
    pub fn since(&self, before: &Totals) -> Totals {
        Totals {
            cells: self.cells - before.cells,
            kept: self.kept - before.kept,
            dropped: self.dropped - before.dropped,
            sixfold_kept: self.sixfold_kept - before.sixfold_kept,
            sixfold_all: self.sixfold_all - before.sixfold_all,
        }
    }
}

/// The answer of [`add_coverage`].
#[repr(C)]
#[derive(Clone, Copy, Debug, PartialEq, Eq)]
pub struct Added {
    /// 0, or the number of the refusal; then the totals are those handed in.
    pub number: u32,
    pub totals: Totals,
}

#[path = "boundary.rs"]
mod boundary;

use boundary::*;

// C's own library, for `signals`: what a signal does, and sending one to the process itself.
extern "C" {
    fn signal(number: i32, action: usize) -> usize;
    fn raise(number: i32) -> i32;
}

/// A signal's action before anyone asked for another, and that of a signal that is not heeded.
const BY_DEFAULT: usize = 0;
const IGNORED: usize = 1;

/// Lets the function answer a signal, unless the process was started not to heed it. The function may do no
/// more than a signal's answer may: read and store atomics, and [`end_by_signal`].
pub(crate) fn answer_signal(number: i32, by: extern "C" fn(i32)) {
    // Safety: `by` is a function of the shape that C wants, and lives as long as the process.
    unsafe {
        if signal(number, by as *const () as usize) == IGNORED {
            signal(number, IGNORED);
        }
    }
}

/// Ends the process as the signal does when nobody answers it.
pub(crate) fn end_by_signal(number: i32) {
    // Safety: both may be called at any time, from a signal's answer too.
    unsafe {
        signal(number, BY_DEFAULT);
        raise(number);
    }
}

/// Mixes the blocks into a checksum's state by the processor's own instructions; whether it has them.
#[cfg(target_arch = "x86_64")]
pub(crate) fn mixed_by_processor(state: &mut [u32; 8], blocks: &[u8]) -> bool {
    let has = is_x86_feature_detected!("sha")
        && is_x86_feature_detected!("ssse3")
        && is_x86_feature_detected!("sse4.1");
    if has {
        // Safety: the function asks for these instructions alone.
        unsafe { crate::sha256::x86::mix(state, blocks) };
    }
    has
}

#[cfg(not(target_arch = "x86_64"))]
pub(crate) fn mixed_by_processor(_state: &mut [u32; 8], _blocks: &[u8]) -> bool {
    false
}

/// Calls a function of the header: numbers first, then the tables it reads, then those it writes, each as its pointer
/// and its length.
macro_rules! call {
    ($function:expr; $($number:expr),*; $($read:ident),*; $($written:ident),*) => {
        // Safety: the library takes any contents and any lengths, reads and writes only within the tables it is
        // lent, and keeps none of them; each pointer goes with the length of its own slice.
        unsafe {
            $function(
                $($number,)*
                $($read.as_ptr(), $read.len(),)*
                $($written.as_mut_ptr(), $written.len()),*
            )
        }
    };
}

/// `sf_plan`.
pub fn plan(bounds: Bounds, cell: f32, levels: u32) -> Planned {
    call!(sf_plan; bounds, cell, levels; ;)
}

/// `sf_refine`.
pub fn refine(bounds: Bounds, cell: f32, levels: u32, crossing: &[u8], split: &mut [u8]) -> Answer {
    call!(sf_refine; bounds, cell, levels; crossing; split)
}

/// `sf_grid`.
#[allow(clippy::too_many_arguments)]
pub fn grid(
    bounds: Bounds,
    cell: f32,
    levels: u32,
    split: &[u8],
    cells: &mut [u32],
    triples: &mut [u32],
    points: &mut [f32],
    work: &mut [u64],
) -> Answer {
    call!(sf_grid; bounds, cell, levels; split; cells, triples, points, work)
}

/// `sf_representatives`.
pub fn representatives(
    points: &[f32],
    cells: &[u32],
    crossing: &[u8],
    numbers: &mut [u32],
    centroids: &mut [f32],
    work: &mut [u32],
) -> Answer {
    call!(sf_representatives; ; points, cells, crossing; numbers, centroids, work)
}

/// `sf_keep_cover`.
#[allow(clippy::too_many_arguments)]
pub fn keep_cover(
    cell: f32,
    points: &[f32],
    cells: &[u32],
    crossing: &[u8],
    probe: &[u8],
    kept_points: &mut [f32],
    kept_cells: &mut [u32],
    work: &mut [u32],
) -> Answer {
    call!(sf_keep_cover; cell; points, cells, crossing, probe; kept_points, kept_cells, work)
}

/// `sf_keep_crust`.
pub fn keep_crust(
    cell: f32,
    points: &[f32],
    cells: &[u32],
    crossing: &[u8],
    kept_points: &mut [f32],
    kept_cells: &mut [u32],
    work: &mut [u32],
) -> Answer {
    call!(sf_keep_crust; cell; points, cells, crossing; kept_points, kept_cells, work)
}

/// `sf_marks`.
pub fn marks(
    cell: f32,
    points: &[f32],
    cells: &[u32],
    crossing: &[u8],
    probe: &[u8],
    marks: &mut [u8],
    work: &mut [u32],
) -> Answer {
    call!(sf_marks; cell; points, cells, crossing, probe; marks, work)
}

/// `sf_add_coverage`.
pub fn add_coverage(totals: Totals, triples: &[u32], cells: &[u32], marks: &[u8]) -> Added {
    call!(sf_add_coverage; totals; triples, cells, marks;)
}

/// `sf_components`.
pub fn components(points: &[f32], cells: &[u32], numbers: &mut [u32], work: &mut [u32]) -> Answer {
    call!(sf_components; ; points, cells; numbers, work)
}

/// `sf_face_components`.
pub fn face_components(
    points: &[f32],
    cells: &[u32],
    numbers: &mut [u32],
    work: &mut [u32],
) -> Answer {
    call!(sf_face_components; ; points, cells; numbers, work)
}

/// `sf_one_piece`.
pub fn one_piece(points: &[f32], cells: &[u32], work: &mut [u32]) -> Answer {
    call!(sf_one_piece; ; points, cells; work)
}

/// `sf_write_mesh`.
pub fn write_mesh(points: &[f32], cells: &[u32], file: &mut [u8], work: &mut [u32]) -> Answer {
    call!(sf_write_mesh; ; points, cells; file, work)
}

/// `sf_read_mesh`.
pub fn read_mesh(file: &[u8], points: &mut [f32], cells: &mut [u32], work: &mut [u32]) -> Answer {
    call!(sf_read_mesh; ; file; points, cells, work)
}

/// `sf_write_vtk`.
pub fn write_vtk(points: &[f32], cells: &[u32], file: &mut [u8], work: &mut [u32]) -> Answer {
    call!(sf_write_vtk; ; points, cells; file, work)
}

/// `sf_read_vtk`.
pub fn read_vtk(file: &[u8], points: &mut [f32], cells: &mut [u32], work: &mut [u32]) -> Answer {
    call!(sf_read_vtk; ; file; points, cells, work)
}
