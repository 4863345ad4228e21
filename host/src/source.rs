//! A part as it was read for a command: its file, and what was done to it before anything else.

use crate::arguments::PartOrder;
use crate::evidence::NAMES;
use crate::numbers::{grouped, measure};
use crate::report::{about, Report};
use sporeferry::kinds::kind_of;
use sporeferry::part::Part;
use sporeferry::progress::staged;
use sporeferry::sha256::checksum;
use sporeferry::stl::{self, Facet};
use sporeferry::weld::{weld, Welded};
use sporeferry::Bounds;
use std::fs;
use std::path::PathBuf;
use std::thread;

pub struct Source {
    pub file: PathBuf,
    pub sha256: String,
    pub part: Part,
    pub welded: Option<Welded>,
    /// What was added to every point.
    pub moved_by: Option<[f32; 3]>,
}

impl Source {
    pub fn read(order: &PartOrder) -> Result<Self, String> {
        let (mut facets, sha256) = staged("reading", || {
            let bytes = fs::read(&order.file).map_err(about(&order.file))?;
            let (facets, sha256) = thread::scope(|scope| {
                let sum = scope.spawn(|| checksum(&bytes));
                (stl::parse(&bytes), sum.join().unwrap_or_default())
            });
            let wrong = |error| format!("{error}; it is {}", kind_of(&bytes));
            Ok::<_, String>((facets.map_err(wrong).map_err(about(&order.file))?, sha256))
        })?;
        let welded = order.weld.map(|within| staged("welding", || weld(&mut facets, within)));
        let moved_by = if order.move_to_origin { moved(&mut facets) } else { None };
        let part = Part::new(facets);
        Ok(Source { file: order.file.clone(), sha256, part, welded, moved_by })
    }

    /// The lines that tell of the part.
    pub fn tell(&self, report: &mut Report) {
        let triangles = grouped(self.part.surface.facets().len());
        report.line("part", format!("{}, {triangles} triangles", self.file.display()));
        if let Some(Welded { joined, farthest, removed }) = self.welded {
            let [joined, removed] = [joined, removed].map(grouped);
            let farthest = measure(farthest);
            report.line(
                "welded",
                format!("{joined} corners, by at most {farthest}; {removed} triangles vanished"),
            );
        }
        if let Some([x, y, z]) = self.moved_by {
            report.line("moved", format!("by {x}, {y}, {z}"));
        }
        if let Some(shells) = &self.part.shells {
            let told = NAMES.iter().filter_map(|(kind, name, note)| {
                let count = shells.kinds.iter().filter(|own| *own == kind).count();
                (count > 0).then(|| format!("{} {name}{note}", grouped(count)))
            });
            let told = told.collect::<Vec<_>>().join(", ");
            report.line("shells", format!("{}: {told}", grouped(shells.kinds.len())));
        }
    }

    /// The volume of what counts as inside, or why it is not told.
    pub fn volume_inside(&self) -> Result<f64, String> {
        let shells = self.part.shells.as_ref().ok_or("not told: the surface is open")?;
        match (shells.inside, shells.meeting) {
            (Some(volume), _) => Ok(volume),
            (None, meeting) => {
                let ([x, y, z], count) = meeting.unwrap_or_default();
                let near = [x, y, z].map(measure).join(", ");
                let place = match count {
                    1 => format!("at a triangle near {near}"),
                    _ => format!("at {} triangles, the first near {near}", grouped(count)),
                };
                Err(format!("not told: shells overlap or touch, {place}"))
            }
        }
    }
}

/// Moves the least corner of the triangles' box to the origin; what was added to every point.
fn moved(facets: &mut [Facet]) -> Option<[f32; 3]> {
    let Bounds { min, .. } = Bounds::around(facets.as_flattened())?;
    for corner in facets.as_flattened_mut() {
        *corner = std::array::from_fn(|axis| corner[axis] - min[axis]);
    }
    Some(min.map(|x| 0.0 - x))
}
