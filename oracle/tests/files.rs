//! The model of the two files: what is written reads back; refusals in their order.

use oracle::calls::Format;
use oracle::expected::mesh::Mesh;
use oracle::expected::{mesh_file, vtk};
use oracle::library::Answer;
use oracle::random::Random;
use oracle::steps::meshes;

type Read = fn(&[u8], &mut [u32], &mut [u32], &mut [u32]) -> Answer;

fn reader(format: Format) -> Read {
    match format {
        Format::Mesh => mesh_file::read_mesh,
        Format::Vtk => vtk::read_vtk,
    }
}

fn round_trip(format: Format, mesh: Mesh) {
    let mut points = vec![0; mesh.points.len()];
    let mut cells = vec![0; mesh.cells.len()];
    let mut work = vec![9; 2 * mesh.point_count()];
    let file = format.encode(mesh);
    let answer = reader(format)(&file, &mut points, &mut cells, &mut work);
    assert_eq!(answer, Answer::of(mesh.point_count(), mesh.cell_count(), 0));
    assert_eq!((&points[..], &cells[..]), (mesh.points, mesh.cells));
    assert!(work.iter().all(|entry| *entry == 0));
}

#[test]
fn what_is_written_reads_back() {
    let mut random = Random::new(5);
    for _ in 0..300 {
        let sample = meshes::any(&mut random);
        round_trip(Format::Mesh, sample.mesh());
        round_trip(Format::Vtk, sample.mesh());
    }
}

#[test]
fn every_prefix_is_cut_short() {
    let points: Vec<u32> = (0..12).collect();
    let mesh = Mesh::new(&points, &[0, 1, 2, 3]);
    for format in [Format::Mesh, Format::Vtk] {
        let file = format.encode(mesh);
        for len in 0..file.len() {
            let answer = reader(format)(&file[..len], &mut [], &mut [], &mut []);
            assert_eq!(answer, Answer::refused(11));
        }
        let trailed = [&file[..], &[0]].concat();
        assert_eq!(
            reader(format)(&trailed, &mut [], &mut [], &mut []),
            Answer::refused(12)
        );
    }
}

/// Four points, one cell: 12 bytes of counts, 48 of points, 16 of a cell, 4 of its number.
fn file() -> Vec<u8> {
    let points: Vec<u32> = (0..12).collect();
    mesh_file::encode(Mesh::new(&points, &[0, 1, 2, 3]))
}

#[test]
fn the_file_has_the_bytes_of_its_layout() {
    let file = file();
    assert_eq!(file.len(), 12 + 12 * 4 + 20);
    assert_eq!(file[..8], [4, 0, 0, 0, 0, 0, 0, 0]);
    assert_eq!(file[52..60], [1, 0, 0, 0, 0, 0, 0, 0]);
    assert_eq!(file[72..], [1, 0, 0, 0, 0, 0, 0, 0]);
}

#[test]
fn eight_before_nine_before_thirteen() {
    let mut wrong = file();
    wrong[76] = 1;
    let read = |file: &[u8], room: usize| {
        mesh_file::read_mesh(file, &mut vec![0; room], &mut [0; 4], &mut [0; 8]).number
    };
    assert_eq!((read(&wrong, 12), read(&wrong, 11)), (13, 9));
    wrong[56] = 4;
    assert_eq!(read(&wrong, 11), 8);
}
