//! What the tool does: each command gives what is to be told, or one sentence that says why it was not done.

use crate::arguments::{AdviseOrder, CoverOrder, CoverageOrder, Files, PartOrder};
use crate::evidence;
use crate::numbers::{bytes_in_words, grouped, measure, pieces_in_words};
use crate::report::{about, Report, Told};
use crate::source::Source;
use sporeferry::advice::{finest, instead, least_cell, Forecast, MOST_LEVELS};
use sporeferry::cover::{CoverError, Covered, Request};
use sporeferry::json::Json;
use sporeferry::kinds::{foreign_vtk, kind_of};
use sporeferry::lent::Totals;
use sporeferry::progress::staged;
use sporeferry::whole_file::{write_whole, Place};
use sporeferry::{Mesh, Refusal};
use std::fs;
use std::path::Path;

/// Meshes a part, writes the mesh and its evidence, and tells what came of it.
pub fn cover(order: &CoverOrder) -> Result<Told, String> {
    let output = order.output.as_path();
    let beside = evidence::beside(output);
    let place = place_for(&order.part.file, output, order.force)?;
    let place_beside = place_for(&order.part.file, &beside, order.force)?;
    let source = Source::read(&order.part)?;
    let covered = covered(order.request, &source)?;
    let file = staged("mesh file", || covered.mesh.to_bytes()).map_err(about(output))?;
    let facts = evidence::of_cover(order, &source, &covered, &file);
    let written = format!("{facts}\n");
    write_whole(&[(&place, &file), (&place_beside, written.as_bytes())]).map_err(about(output))?;

    let mut report = Report::default();
    source.tell(&mut report);
    tell_grid(&mut report, &covered);
    tell_mesh(&mut report, &covered, &source, order.request.crust);
    report.file(output, &file);
    report.line("evidence", beside.display());
    let text = report.or_json(order.json, &facts);
    let warnings = warnings_of(covered.dropped);
    Ok(Told { text, warnings, written: Some(output.into()), failure: None })
}

/// A dropped cell is never passed by in silence.
fn warnings_of(dropped: u64) -> Vec<String> {
    match dropped {
        0 => vec![],
        _ => vec![format!("{} flat cells are left out of the mesh", grouped(dropped))],
    }
}

/// The mesh, or why there is none; with a refusal 4 what would be taken.
fn covered(request: Request, source: &Source) -> Result<Covered, String> {
    let name = &source.file;
    sporeferry::cover::cover(&source.part, request).map_err(|error| match error {
        CoverError::Refused(refusal) => about(name)(match refusal.too_large() {
            Some(named) => {
                let words = instead(source.part.bounds, request, named);
                let list = format!("\"sporeferry advise {}\" lists what fits", name.display());
                format!("refusal 4 of plan: {words}; {list}")
            }
            None => refusal.to_string(),
        }),
        error => about(name)(error.to_string()),
    })
}

fn tell_grid(report: &mut Report, covered: &Covered) {
    let Covered { plan, steps, octants, cells, .. } = covered;
    let [nx, ny, nz] = plan.dims();
    let (levels, unit) = (plan.levels(), plan.half());
    let uneven = match steps.greatest - steps.least > 0.01 * unit {
        true => format!(", steps {} to {} for want of digits", steps.least, steps.greatest),
        false => String::new(),
    };
    report.line("grid", format!("{nx} × {ny} × {nz}, levels {levels}, unit {unit}{uneven}"));
    let [all, asked] = [plan.octants(), octants.asked].map(grouped);
    let (crossed, split) = (grouped(octants.crossed), grouped(octants.split));
    report.line("octants", format!("{all}: {asked} asked, {crossed} crossed, {split} split"));
    let [all, crossed] = [cells.all, cells.crossed].map(grouped);
    report.line("cells", format!("{all}: {crossed} crossed"));
}

fn tell_mesh(report: &mut Report, covered: &Covered, source: &Source, crust: bool) {
    let volume = covered.volume;
    let compared = match source.volume_inside() {
        _ if crust => ", of the cells that the surface touches".to_string(),
        Ok(part) => format!(
            ", {:.1} % more than the part's {}: a jagged hull, not fitted to the surface",
            100.0 * (volume / part - 1.0),
            measure(part)
        ),
        Err(why) => format!("; a jagged hull, not fitted to the surface; the part's is {why}"),
    };
    if !crust {
        let [groups, inside] = [covered.cells.groups, covered.cells.inside].map(grouped);
        report.line("groups", format!("{groups}: {inside} inside"));
    }
    report.line("kept", grouped(covered.mesh.cells.len()));
    report.line("dropped", grouped(covered.dropped));
    report.line("points", grouped(covered.mesh.points.len()));
    report.line("pieces", pieces_in_words(&covered.pieces));
    report.line("volume", format!("{}{compared}", measure(volume)));
    report.line("covered", coverage_words(&covered.totals));
}

/// The exact coverage in words.
fn coverage_words(totals: &Totals) -> String {
    let [kept, all] = [totals.sixfold_kept, totals.sixfold_all].map(grouped);
    format!("{kept} of {all} sixths of a cubic unit, {:.3} %", 100.0 * evidence::share(totals))
}

/// Covers some parts with the same cell size and levels, and adds up how much of their grids is kept.
pub fn coverage(order: &CoverageOrder) -> Result<Told, String> {
    let mut table = CoverageTable::over(&order.parts);
    let (mut totals, mut unit) = (Totals::default(), 0.0);
    let mut rows = Vec::new();
    for part in &order.parts {
        let before = totals;
        (totals, unit) = covered_after(part, Request { totals, ..order.request })?;
        let own = totals.since(&before);
        table.tell(&part.file.display().to_string(), &own);
        rows.push(Json::object([
            ("file", part.file.to_string_lossy().into_owned().into()),
            ("coverage", evidence::of_totals(&own)),
        ]));
    }
    table.tell("total", &totals);
    table.report.line("unit", format!("{unit}; volumes are in sixths of a cubic unit"));
    let facts = Json::object([
        ("cell", order.request.cell.into()),
        ("levels", order.request.levels.into()),
        ("unit", unit.into()),
        ("parts", Json::List(rows)),
        ("total", evidence::of_totals(&totals)),
    ]);
    let text = table.report.or_json(order.json, &facts);
    Ok(Told { text, warnings: warnings_of(totals.dropped), ..Told::default() })
}

/// The totals with one part more, and the unit of its grid, which is the same for every part.
fn covered_after(part: &PartOrder, request: Request) -> Result<(Totals, f32), String> {
    let covered = covered(request, &Source::read(part)?)?;
    Ok((covered.totals, covered.plan.half()))
}

/// A row for each part, under a head.
struct CoverageTable {
    report: Report,
    /// The length of the longest name.
    names: usize,
}

impl CoverageTable {
    fn over(parts: &[PartOrder]) -> Self {
        let long = |part: &PartOrder| part.file.display().to_string().chars().count();
        let names = parts.iter().map(long).max().unwrap_or(0);
        let mut table = Self { report: Report::default(), names };
        let head = ["cells", "kept", "dropped", "sixfold kept", "sixfold in all"];
        table.row("part", head.map(String::from), "share");
        table
    }

    fn row(&mut self, name: &str, counts: [String; 5], share: &str) {
        let [cells, kept, dropped, sixfold_kept, sixfold_all] = counts;
        let counts =
            format!("{cells:>12} {kept:>12} {dropped:>8} {sixfold_kept:>18} {sixfold_all:>18}");
        let name = format!("{name:<names$}", names = self.names);
        self.report.line(&name, format!("{counts} {share:>9}"));
    }

    fn tell(&mut self, name: &str, totals: &Totals) {
        let Totals { cells, kept, dropped, sixfold_kept, sixfold_all } = *totals;
        let counts = [cells, kept, dropped, sixfold_kept, sixfold_all].map(grouped);
        self.row(name, counts, &format!("{:.3} %", 100.0 * evidence::share(totals)));
    }
}

/// Tells which cell sizes a part takes.
pub fn advise(order: &AdviseOrder) -> Result<Told, String> {
    let source = Source::read(&order.part)?;
    let bounds = source.part.bounds;
    let mut report = Report::default();
    source.tell(&mut report);
    let mut facts = Vec::new();
    report.line("levels", "least cell        unit     octants        cells      memory");
    for levels in 0..=MOST_LEVELS {
        let Some(plan) = least_cell(bounds, levels) else {
            report.line(&levels.to_string(), "no cell of use is accepted");
            continue;
        };
        let forecast = Forecast::new(&source.part, plan).map_err(about(&source.file))?;
        let (cell, unit, octants) = (plan.cell(), plan.half(), grouped(plan.octants()));
        let (cells, memory) = (grouped(forecast.cells), bytes_in_words(forecast.memory));
        let counts = format!("{cell:>10} {unit:>11} {octants:>11} {cells:>12} {memory:>11}");
        report.line(&levels.to_string(), counts);
        facts.push(Json::object([
            ("levels", levels.into()),
            ("least_cell", cell.into()),
            ("unit", unit.into()),
            ("octants", plan.octants().into()),
            ("cells", forecast.cells.into()),
            ("memory", forecast.memory.into()),
        ]));
    }
    if let Some(plan) = finest(bounds) {
        let (levels, cell) = (plan.levels(), plan.cell());
        report.line("finest", format!("--levels {levels} --cell {cell}, unit {}", plan.half()));
    }
    report.line(
        "note",
        "cells at the surface are two units wide; more levels are not finer past 2 or 3,",
    );
    report
        .line("", "since a plan has at most 1,048,576 octants; 5 levels take no part: its margin");
    report.line("", "alone makes 343 roots, and 5 levels allow 224");
    let facts = Json::object([("part", evidence::of_part(&source)), ("fits", Json::List(facts))]);
    Ok(Told { text: report.or_json(order.json, &facts), ..Told::default() })
}

/// Writes a mesh file as a VTK file.
pub fn to_vtk(files: &Files) -> Result<Told, String> {
    convert(files, Mesh::to_vtk, |bytes| match is_vtk(bytes) {
        true => Err("it is a VTK file already".into()),
        false => read_mesh(bytes),
    })
}

/// Writes a VTK file as a mesh file.
pub fn to_mesh(files: &Files) -> Result<Told, String> {
    convert(files, Mesh::to_bytes, |bytes| match is_vtk(bytes) {
        true => read_vtk(bytes),
        false => Err(format!("it is no VTK file of this tool, but {}", kind_of(bytes))),
    })
}

/// Whether a file starts as every VTK file does. A mesh file never does: its first count would be
/// above every bound.
pub fn is_vtk(bytes: &[u8]) -> bool {
    bytes.starts_with(b"# vtk DataFile")
}

/// The mesh of a mesh file, or why it does not read; what it is instead, if that is known.
pub fn read_mesh(bytes: &[u8]) -> Result<Mesh, String> {
    Mesh::from_bytes(bytes).map_err(|refusal| match kind_of(bytes) {
        kind if kind.starts_with("none") => refusal.to_string(),
        kind => format!("it is no mesh file of this tool, but {kind} ({refusal})"),
    })
}

/// The mesh of a VTK file, or why it does not read; how another program wrote it, if that shows.
pub fn read_vtk(bytes: &[u8]) -> Result<Mesh, String> {
    Mesh::from_vtk(bytes).map_err(|refusal| match foreign_vtk(bytes) {
        Some(how) => format!("a VTK file that this tool did not write, {how} ({refusal})"),
        None => refusal.to_string(),
    })
}

fn convert(
    files: &Files,
    write: fn(&Mesh) -> Result<Vec<u8>, Refusal>,
    read: fn(&[u8]) -> Result<Mesh, String>,
) -> Result<Told, String> {
    let (input, output) = (files.input.as_path(), files.output.as_path());
    let bytes = staged("reading", || fs::read(input)).map_err(about(input))?;
    let place = place_for(input, output, files.force)?;
    let mesh = staged("mesh", || read(&bytes)).map_err(about(input))?;
    let file = staged("converting", || write(&mesh)).map_err(about(output))?;
    write_whole(&[(&place, &file)]).map_err(about(output))?;

    let mut report = Report::default();
    report.line("points", grouped(mesh.points.len()));
    report.line("cells", grouped(mesh.cells.len()));
    report.file(output, &file);
    Ok(Told { text: report.text(), written: Some(output.into()), ..Told::default() })
}

/// The place of a file that is written, which is never the one that was read.
fn place_for(input: &Path, output: &Path, force: bool) -> Result<Place, String> {
    let place = Place::new(output, force).map_err(about(output))?;
    match place.holds(input) {
        true => Err(format!("{}: it is the file to be read", output.display())),
        false => Ok(place),
    }
}
