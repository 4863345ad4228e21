//! Tables and files at and above their bounds of 536,870,912, lent as pages that are never filled.
//!
//! What is expected is written down case by case: a copy would not fit in memory.

use super::Sizes;
use crate::expected::mesh::MOST;
use crate::library::{
    sf_add_coverage, sf_components, sf_face_components, sf_keep_cover, sf_keep_crust, sf_marks,
    sf_one_piece, sf_read_mesh, sf_read_vtk, sf_representatives, sf_write_mesh, sf_write_vtk,
    Added, Answer, Totals,
};
use crate::random::Random;
use crate::report::Report;
use std::ffi::c_void;
use std::ptr::{null, null_mut};

extern "C" {
    fn mmap(addr: *mut c_void, len: usize, prot: i32, flags: i32, fd: i32, at: i64) -> *mut c_void;
    fn munmap(addr: *mut c_void, len: usize) -> i32;
}

/// Zero bytes that take memory only where they are written.
struct Pages {
    start: *mut u8,
    len: usize,
}

impl Pages {
    fn new(len: usize) -> Option<Self> {
        const READ_WRITE: i32 = 3;
        const PRIVATE_ANONYMOUS_NORESERVE: i32 = 0x2 | 0x20 | 0x4000;
        let flags = PRIVATE_ANONYMOUS_NORESERVE;
        let start = unsafe { mmap(null_mut(), len, READ_WRITE, flags, -1, 0) };
        (start as isize != -1).then_some(Self {
            start: start.cast(),
            len,
        })
    }

    fn put(&mut self, at: usize, bytes: &[u8]) {
        assert!(at + bytes.len() <= self.len);
        unsafe { self.start.add(at).copy_from(bytes.as_ptr(), bytes.len()) }
    }
}

impl Drop for Pages {
    fn drop(&mut self) {
        unsafe { munmap(self.start.cast(), self.len) };
    }
}

/// Lengths of the two tables, and the number expected where the work table is empty.
const LENGTHS: [(usize, usize, u32); 8] = [
    (3 * MOST, 0, 5),
    (3 * MOST + 2, 0, 5),
    (3 * MOST + 3, 0, 4),
    (3 * MOST + 4, 0, 4),
    (0, 4 * MOST, 5),
    (0, 4 * MOST + 3, 5),
    (0, 4 * MOST + 4, 4),
    (3 * MOST + 3, 4 * MOST + 5, 4),
];

/// A step on a points table and a cells table with every other table empty.
type OnMesh = fn(*const f32, usize, *const u32, usize) -> Answer;

const ON_MESH: [(&str, OnMesh); 9] = [
    ("components", |p, pl, c, cl| unsafe {
        sf_components(p, pl, c, cl, null_mut(), 0, null_mut(), 0)
    }),
    ("face_components", |p, pl, c, cl| unsafe {
        sf_face_components(p, pl, c, cl, null_mut(), 0, null_mut(), 0)
    }),
    ("one_piece", |p, pl, c, cl| unsafe {
        sf_one_piece(p, pl, c, cl, null_mut(), 0)
    }),
    ("write_mesh", |p, pl, c, cl| unsafe {
        sf_write_mesh(p, pl, c, cl, null_mut(), 0, null_mut(), 0)
    }),
    ("write_vtk", |p, pl, c, cl| unsafe {
        sf_write_vtk(p, pl, c, cl, null_mut(), 0, null_mut(), 0)
    }),
    ("representatives", |p, pl, c, cl| unsafe {
        sf_representatives(
            p,
            pl,
            c,
            cl,
            null(),
            0,
            null_mut(),
            0,
            null_mut(),
            0,
            null_mut(),
            0,
        )
    }),
    ("keep_cover", |p, pl, c, cl| unsafe {
        sf_keep_cover(
            1.0,
            p,
            pl,
            c,
            cl,
            null(),
            0,
            null(),
            0,
            null_mut(),
            0,
            null_mut(),
            0,
            null_mut(),
            0,
        )
    }),
    ("marks", |p, pl, c, cl| unsafe {
        sf_marks(
            1.0,
            p,
            pl,
            c,
            cl,
            null(),
            0,
            null(),
            0,
            null_mut(),
            0,
            null_mut(),
            0,
        )
    }),
    ("keep_crust", |p, pl, c, cl| unsafe {
        sf_keep_crust(
            1.0,
            p,
            pl,
            c,
            cl,
            null(),
            0,
            null_mut(),
            0,
            null_mut(),
            0,
            null_mut(),
            0,
        )
    }),
];

fn counted(step: &'static str, got: Answer, wanted: Answer, told: &str, report: &mut Report) {
    let difference = (got != wanted).then(|| format!("{got:?}, expected {wanted:?}; {told}"));
    report.count(step, wanted.number, difference);
}

/// Components and writers do not look at cells before they refuse; 2·points of work are missing.
fn tables(report: &mut Report) {
    let Some(pages) = Pages::new(16 * (MOST + 2)) else {
        return;
    };
    for (step, call) in ON_MESH {
        for (points, cells, number) in LENGTHS {
            // With no points no work is missing there; the cells then name a point that is not.
            let by_faces = matches!(step, "face_components" | "one_piece");
            let by_cells = matches!(step, "representatives" | "keep_cover" | "keep_crust" | "marks");
            let needs_cells = by_faces || by_cells;
            let wanted = match (points, cells % 4) {
                (0, 0) if number == 5 && !needs_cells => 8,
                // Steps by faces ask no work for points.
                (points, _) if cells == 0 && points % 3 == 0 && number == 5 && by_faces => 0,
                _ => number,
            };
            let answer = call(pages.start.cast(), points, pages.start.cast(), cells);
            let told = format!("points table of {points}, cells table of {cells}, all zero");
            counted(step, answer, Answer::refused(wanted), &told, report);
        }
    }
}

/// Coverage takes no work, so that tables at the bound and whole would be read: those are left out.
fn coverages(report: &mut Report) {
    let Some(pages) = Pages::new(16 * (MOST + 2)) else {
        return;
    };
    let totals = Totals {
        cells: 1,
        ..Totals::default()
    };
    for (triples, cells, number) in &LENGTHS[1..] {
        let start: *const u32 = pages.start.cast();
        let got = unsafe { sf_add_coverage(totals, start, *triples, start, *cells, null(), 0) };
        let wanted = Added {
            number: *number,
            totals,
        };
        let told = format!("triples table of {triples}, cells table of {cells}, all zero");
        let difference = (got != wanted).then(|| format!("{got:?}, expected {wanted:?}; {told}"));
        report.count("add_coverage", *number, difference);
    }
}

/// A mesh file of zero points and cells of zeros, with these counts.
fn mesh_file(points: usize, cells: usize) -> Option<Pages> {
    let second = 4 + 12 * points;
    let mut pages = Pages::new(second + 4 + 16 * cells + 4)?;
    pages.put(0, &(points as u32).to_le_bytes());
    pages.put(second, &(cells as u32).to_le_bytes());
    Some(pages)
}

fn mesh_files(sizes: &Sizes, report: &mut Report) {
    let mut cases = vec![
        (MOST, 0, Answer::short(MOST, 0)),
        (MOST + 1, 0, Answer::refused(4)),
        (1, MOST + 1, Answer::refused(4)),
    ];
    if sizes.largest {
        cases.push((0, MOST, Answer::refused(8)));
        cases.push((1, MOST, Answer::short(1, MOST)));
    }
    for (points, cells, wanted) in cases {
        let Some(pages) = mesh_file(points, cells) else {
            continue;
        };
        let answer = unsafe {
            sf_read_mesh(
                pages.start,
                pages.len,
                null_mut(),
                0,
                null_mut(),
                0,
                null_mut(),
                0,
            )
        };
        let told = format!("a file of {points} points and {cells} cells, third count 0");
        counted("read_mesh", answer, wanted, &told, report);
    }
}

/// A VTK file of points of zeros and no cells.
fn vtk_file(points: usize) -> Option<Pages> {
    let head = format!(
        "# vtk DataFile Version 3.0\n\nBINARY\nDATASET UNSTRUCTURED_GRID\nPOINTS {points} float\n"
    );
    let tail = b"\nCELLS 0 0\n\nCELL_TYPES 0\n\nCELL_DATA 0\nSCALARS component int 1\nLOOKUP_TABLE default\n\n";
    let mut pages = Pages::new(head.len() + 12 * points + tail.len())?;
    pages.put(0, head.as_bytes());
    pages.put(head.len() + 12 * points, tail);
    Some(pages)
}

fn vtk_files(report: &mut Report) {
    for (points, wanted) in [
        (MOST, Answer::short(MOST, 0)),
        (MOST + 1, Answer::refused(4)),
    ] {
        let Some(pages) = vtk_file(points) else {
            continue;
        };
        let answer = unsafe {
            sf_read_vtk(
                pages.start,
                pages.len,
                null_mut(),
                0,
                null_mut(),
                0,
                null_mut(),
                0,
            )
        };
        let told = format!("a VTK file of {points} points and no cells");
        counted("read_vtk", answer, wanted, &told, report);
    }
}

pub fn run(_: &mut Random, sizes: &Sizes, report: &mut Report) {
    tables(report);
    coverages(report);
    mesh_files(sizes, report);
    vtk_files(report);
}
