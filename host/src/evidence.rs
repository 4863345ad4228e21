//! The file beside a mesh that tells how it came about, so that its figures can be signed for.

use crate::arguments::CoverOrder;
use crate::help::VERSION;
use crate::source::Source;
use sporeferry::cover::Covered;
use sporeferry::json::Json;
use sporeferry::lent::Totals;
use sporeferry::sha256::checksum;
use sporeferry::shells::{Kind, Shells};
use std::fs;
use std::path::{Path, PathBuf};

/// Where the evidence of a mesh file stands.
pub fn beside(mesh: &Path) -> PathBuf {
    let mut name = mesh.as_os_str().to_os_string();
    name.push(".json");
    name.into()
}

/// How the mesh in these bytes came about.
pub fn of_cover(order: &CoverOrder, source: &Source, covered: &Covered, file: &[u8]) -> Json {
    let Covered { octants, cells, .. } = covered;
    Json::object([
        ("tool", format!("sporeferry {VERSION}").into()),
        ("options", options(order)),
        ("part", of_part(source)),
        ("plan", of_plan(covered)),
        (
            "octants",
            Json::object([
                ("asked", octants.asked.into()),
                ("crossed", octants.crossed.into()),
                ("split", octants.split.into()),
            ]),
        ),
        (
            "cells",
            Json::object([
                ("all", cells.all.into()),
                ("crossed", cells.crossed.into()),
                ("groups", cells.groups.into()),
                ("inside", cells.inside.into()),
            ]),
        ),
        ("mesh", of_mesh(&order.output, covered, file)),
    ])
}

fn of_plan(Covered { plan, steps, .. }: &Covered) -> Json {
    Json::object([
        ("origin", Json::list(plan.origin())),
        ("unit", plan.half().into()),
        ("dims", Json::list(plan.dims())),
        ("octants", plan.octants().into()),
        ("steps", Json::list([steps.least, steps.greatest])),
    ])
}

fn of_mesh(path: &Path, covered: &Covered, file: &[u8]) -> Json {
    Json::object([
        ("file", named(path)),
        ("bytes", file.len().into()),
        ("sha256", checksum(file).into()),
        ("points", covered.mesh.points.len().into()),
        ("cells", covered.mesh.cells.len().into()),
        ("dropped", covered.dropped.into()),
        ("pieces", covered.pieces.by_faces.into()),
        ("pieces_by_vertices", covered.pieces.by_vertices.into()),
        ("volume", covered.volume.into()),
        ("coverage", of_totals(&covered.totals)),
    ])
}

/// What was added up, in whole numbers; the share of the volume that is kept.
pub fn of_totals(totals: &Totals) -> Json {
    Json::object([
        ("cells", totals.cells.into()),
        ("kept", totals.kept.into()),
        ("dropped", totals.dropped.into()),
        ("sixfold_kept", totals.sixfold_kept.into()),
        ("sixfold_all", totals.sixfold_all.into()),
        ("share", share(totals).into()),
    ])
}

/// The kept part of the six-fold volume, 0 of none.
pub fn share(totals: &Totals) -> f64 {
    totals.sixfold_kept as f64 / (totals.sixfold_all.max(1)) as f64
}

fn options(order: &CoverOrder) -> Json {
    Json::object([
        ("cell", order.request.cell.into()),
        ("levels", order.request.levels.into()),
        ("crust", order.request.crust.into()),
        ("weld", order.part.weld.into()),
        ("move_to_origin", order.part.move_to_origin.into()),
        ("allow_dropped", order.request.allow_dropped.into()),
    ])
}

/// What was read of a part.
pub fn of_part(source: &Source) -> Json {
    let welded = source.welded.map(|welded| {
        Json::object([
            ("joined", welded.joined.into()),
            ("farthest", welded.farthest.into()),
            ("removed", welded.removed.into()),
        ])
    });
    let part = &source.part;
    Json::object([
        ("file", named(&source.file)),
        ("sha256", source.sha256.as_str().into()),
        ("triangles", part.surface.facets().len().into()),
        ("welded", welded.into()),
        ("moved_by", source.moved_by.map(Json::list).into()),
        ("box", Json::List([part.bounds.min, part.bounds.max].map(Json::list).into())),
        ("open_edges", part.openings.edges.len().into()),
        ("holes", part.openings.holes.into()),
        ("shells", part.shells.as_ref().map(of_shells).into()),
        ("volume_inside", part.shells.as_ref().and_then(|shells| shells.inside).into()),
    ])
}

fn of_shells(shells: &Shells) -> Json {
    let mut entries = vec![("all".to_string(), shells.kinds.len().into())];
    entries.extend(NAMES.map(|(kind, name, _)| {
        let count = shells.kinds.iter().filter(|own| **own == kind).count();
        (name.replace(' ', "_"), count.into())
    }));
    let meeting = shells.meeting.map_or(0, |(_, count)| count);
    entries.push(("meeting_triangles".to_string(), meeting.into()));
    Json::Object(entries)
}

/// Each kind of shell, its name, and what is to be known of it.
pub const NAMES: [(Kind, &str, &str); 6] = [
    (Kind::Outward, "outward", ""),
    (Kind::Cavity, "cavity", ""),
    (Kind::InsideOut, "inside out", " (what is in it counts as inside all the same)"),
    (Kind::Doubled, "doubled", " (each triangle is there more than once)"),
    (Kind::Within, "within", " (the same on both sides, so that it bounds nothing)"),
    (Kind::Mixed, "mixed", " (turned differently in places)"),
];

fn named(path: &Path) -> Json {
    path.to_string_lossy().into_owned().into()
}

/// What the evidence beside a mesh file says of it: a line, or what does not agree. `None` if there is none.
pub fn check(mesh: &Path, bytes: &[u8]) -> Option<Result<String, String>> {
    let path = beside(mesh);
    let text = fs::read_to_string(&path).ok()?;
    let name = path.display();
    let Ok(evidence) = Json::parse(&text) else {
        return Some(Err(format!("{name} is no JSON")));
    };
    let noted = |of: [&str; 2]| evidence.at(&of).and_then(Json::text).map(String::from);
    if noted(["mesh", "sha256"]) != Some(checksum(bytes)) {
        return Some(Err(format!("{name} is of another mesh: the checksums differ")));
    }
    let part = noted(["part", "file"]).unwrap_or_default();
    let now = fs::read(&part).ok().map(|bytes| checksum(&bytes));
    Some(match now {
        None => Ok(format!("{name} agrees; {part} is not there to be compared")),
        now if now == noted(["part", "sha256"]) => Ok(format!("{name} agrees, and {part} too")),
        _ => Err(format!("{name} agrees with the mesh, but {part} is not the part it came from")),
    })
}
