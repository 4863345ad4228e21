//! What a mesh file holds, and how good the mesh is.

use crate::arguments::InfoOrder;
use crate::commands::{is_vtk, read_mesh, read_vtk};
use crate::evidence;
use crate::numbers::{grouped, measure, pieces_in_words};
use crate::report::{about, Report, Told};
use sporeferry::json::Json;
use sporeferry::progress::staged;
use sporeferry::quality::{Boundary, Quality, BIN};
use sporeferry::{Bounds, Mesh};
use std::fs;

/// Tells what a mesh file or a VTK file holds.
pub fn info(order: &InfoOrder) -> Result<Told, String> {
    let path = order.file.as_path();
    let bytes = staged("reading", || fs::read(path)).map_err(about(path))?;
    let (kind, mesh) = staged("mesh", || match is_vtk(&bytes) {
        true => ("VTK file", read_vtk(&bytes)),
        false => ("mesh file", read_mesh(&bytes)),
    });
    let mesh = mesh.map_err(about(path))?;
    let pieces = staged("pieces", || mesh.pieces()).map_err(about(path))?;
    let quality = Quality::new(&mesh);
    let boundary = staged("boundary", || Boundary::new(&mesh));

    let mut report = Report::default();
    report.file(path, &bytes);
    report.line("reads", format!("yes, as a {kind}"));
    report.line("points", grouped(mesh.points.len()));
    report.line("cells", grouped(mesh.cells.len()));
    report.line("pieces", pieces_in_words(&pieces));
    report.line("box", box_of(&mesh));
    tell_quality(&mut report, &quality);
    report.line("boundary", boundary_in_words(&boundary));
    let evidence = evidence::check(path, &bytes);
    if let Some(Ok(told)) = &evidence {
        report.line("evidence", told);
    }
    let facts = Json::object([
        ("file", path.to_string_lossy().into_owned().into()),
        ("kind", kind.into()),
        ("bytes", bytes.len().into()),
        ("points", mesh.points.len().into()),
        ("cells", mesh.cells.len().into()),
        ("pieces", pieces.by_faces.into()),
        ("pieces_by_vertices", pieces.by_vertices.into()),
        ("quality", of_quality(&quality)),
        ("boundary", of_boundary(&boundary)),
        ("evidence_agrees", evidence.as_ref().map(Result::is_ok).into()),
    ]);
    let failure = evidence.and_then(Result::err).map(about(path));
    Ok(Told { text: report.or_json(order.json, &facts), failure, ..Told::default() })
}

fn box_of(mesh: &Mesh) -> String {
    let Some(Bounds { min, max }) = Bounds::around(&mesh.points) else {
        return "none".into();
    };
    let side = |axis: usize| format!("{} to {}", min[axis], max[axis]);
    format!("x {}, y {}, z {}", side(0), side(1), side(2))
}

fn tell_quality(report: &mut Report, quality: &Quality) {
    let odd = [(quality.turned, "turned inside out"), (quality.flat, "flat")];
    let odd = odd.iter().filter(|(count, _)| *count > 0);
    let odd: String = odd.map(|(count, name)| format!("; {} {name}", grouped(*count))).collect();
    let angles: u64 = quality.histogram.iter().sum();
    if angles == 0 {
        report.line("volume", format!("0{odd}"));
        return;
    }
    let [all, least, greatest] =
        [quality.volume, quality.least_volume, quality.greatest_volume].map(measure);
    report.line("volume", format!("{all}, of a cell {least} to {greatest}{odd}"));
    let (least, greatest) = (quality.least_angle, quality.greatest_angle);
    report.line("angles", format!("between faces {least:.1}° to {greatest:.1}°"));
    for (n, count) in quality.histogram.iter().enumerate().filter(|(_, count)| **count > 0) {
        let share = 100.0 * *count as f64 / angles as f64;
        let bar = "#".repeat((share / 2.0).ceil() as usize);
        report.line("", format!("about {:>3}° {share:5.1} % {bar}", n * BIN));
    }
}

fn boundary_in_words(boundary: &Boundary) -> String {
    let Boundary { faces, open_edges, pinched_edges, crowded_faces } = *boundary;
    let mut words = match open_edges {
        0 => format!("closed, {} triangles", grouped(faces)),
        open => format!("open at {} edges, {} triangles", grouped(open), grouped(faces)),
    };
    if pinched_edges > 0 {
        words += &format!("; it touches itself at {} edges", grouped(pinched_edges));
    }
    if crowded_faces > 0 {
        words += &format!("; {} faces are those of three cells or more", grouped(crowded_faces));
    }
    words
}

fn of_quality(quality: &Quality) -> Json {
    Json::object([
        ("least_angle", quality.least_angle.into()),
        ("greatest_angle", quality.greatest_angle.into()),
        ("degrees_between_bins", BIN.into()),
        ("histogram", Json::list(quality.histogram)),
        ("volume", quality.volume.into()),
        ("least_volume", quality.least_volume.into()),
        ("greatest_volume", quality.greatest_volume.into()),
        ("turned_cells", quality.turned.into()),
        ("flat_cells", quality.flat.into()),
    ])
}

fn of_boundary(boundary: &Boundary) -> Json {
    Json::object([
        ("closed", (boundary.open_edges == 0).into()),
        ("faces", boundary.faces.into()),
        ("open_edges", boundary.open_edges.into()),
        ("pinched_edges", boundary.pinched_edges.into()),
        ("crowded_faces", boundary.crowded_faces.into()),
    ])
}
