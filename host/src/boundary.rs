//! The functions of `include/sporeferry.h`, over the module above it, which has the types they speak of.
//! The bindings and the comparison with the Rust both take this file.

use super::{Added, Answer, Bounds, Planned, Totals};

extern "C" {
    pub fn sf_plan(bounds: Bounds, cell: f32, levels: u32) -> Planned;

    pub fn sf_refine(
        bounds: Bounds,
        cell: f32,
        levels: u32,
        crossing: *const u8,
        crossing_len: usize,
        split: *mut u8,
        split_len: usize,
    ) -> Answer;

    pub fn sf_grid(
        bounds: Bounds,
        cell: f32,
        levels: u32,
        split: *const u8,
        split_len: usize,
        cells: *mut u32,
        cells_len: usize,
        triples: *mut u32,
        triples_len: usize,
        points: *mut f32,
        points_len: usize,
        work: *mut u64,
        work_len: usize,
    ) -> Answer;

    pub fn sf_representatives(
        points: *const f32,
        points_len: usize,
        cells: *const u32,
        cells_len: usize,
        crossing: *const u8,
        crossing_len: usize,
        numbers: *mut u32,
        numbers_len: usize,
        centroids: *mut f32,
        centroids_len: usize,
        work: *mut u32,
        work_len: usize,
    ) -> Answer;

    pub fn sf_keep_cover(
        cell: f32,
        points: *const f32,
        points_len: usize,
        cells: *const u32,
        cells_len: usize,
        crossing: *const u8,
        crossing_len: usize,
        probe: *const u8,
        probe_len: usize,
        kept_points: *mut f32,
        kept_points_len: usize,
        kept_cells: *mut u32,
        kept_cells_len: usize,
        work: *mut u32,
        work_len: usize,
    ) -> Answer;

    pub fn sf_keep_crust(
        cell: f32,
        points: *const f32,
        points_len: usize,
        cells: *const u32,
        cells_len: usize,
        crossing: *const u8,
        crossing_len: usize,
        kept_points: *mut f32,
        kept_points_len: usize,
        kept_cells: *mut u32,
        kept_cells_len: usize,
        work: *mut u32,
        work_len: usize,
    ) -> Answer;

    pub fn sf_marks(
        cell: f32,
        points: *const f32,
        points_len: usize,
        cells: *const u32,
        cells_len: usize,
        crossing: *const u8,
        crossing_len: usize,
        probe: *const u8,
        probe_len: usize,
        marks: *mut u8,
        marks_len: usize,
        work: *mut u32,
        work_len: usize,
    ) -> Answer;

    pub fn sf_add_coverage(
        totals: Totals,
        triples: *const u32,
        triples_len: usize,
        cells: *const u32,
        cells_len: usize,
        marks: *const u8,
        marks_len: usize,
    ) -> Added;

    pub fn sf_components(
        points: *const f32,
        points_len: usize,
        cells: *const u32,
        cells_len: usize,
        numbers: *mut u32,
        numbers_len: usize,
        work: *mut u32,
        work_len: usize,
    ) -> Answer;

    pub fn sf_face_components(
        points: *const f32,
        points_len: usize,
        cells: *const u32,
        cells_len: usize,
        numbers: *mut u32,
        numbers_len: usize,
        work: *mut u32,
        work_len: usize,
    ) -> Answer;

    pub fn sf_one_piece(
        points: *const f32,
        points_len: usize,
        cells: *const u32,
        cells_len: usize,
        work: *mut u32,
        work_len: usize,
    ) -> Answer;

    pub fn sf_write_mesh(
        points: *const f32,
        points_len: usize,
        cells: *const u32,
        cells_len: usize,
        file: *mut u8,
        file_len: usize,
        work: *mut u32,
        work_len: usize,
    ) -> Answer;

    pub fn sf_read_mesh(
        file: *const u8,
        file_len: usize,
        points: *mut f32,
        points_len: usize,
        cells: *mut u32,
        cells_len: usize,
        work: *mut u32,
        work_len: usize,
    ) -> Answer;

    pub fn sf_write_vtk(
        points: *const f32,
        points_len: usize,
        cells: *const u32,
        cells_len: usize,
        file: *mut u8,
        file_len: usize,
        work: *mut u32,
        work_len: usize,
    ) -> Answer;

    pub fn sf_read_vtk(
        file: *const u8,
        file_len: usize,
        points: *mut f32,
        points_len: usize,
        cells: *mut u32,
        cells_len: usize,
        work: *mut u32,
        work_len: usize,
    ) -> Answer;
}
