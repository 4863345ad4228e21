//! Calls of representatives, keeping, components by vertices and by faces, and one piece.

use super::{first_difference, shown, Call};
use crate::expected::components::components;
use crate::expected::faces::{face_components, one_piece};
use crate::expected::keep::{keep, representatives};
use crate::expected::mesh::Mesh;
use crate::lent::{Lent, Table};
use crate::library::{
    sf_components, sf_face_components, sf_keep_cover, sf_keep_crust, sf_one_piece, sf_representatives, Answer,
};

/// The two tables of a mesh, handed in.
#[derive(Clone)]
pub struct Input {
    pub points: Lent<u32>,
    pub cells: Lent<u32>,
}

impl Input {
    pub fn new(points: &[u32], cells: &[u32]) -> Self {
        Self {
            points: Lent::new(points),
            cells: Lent::new(cells),
        }
    }

    pub fn mesh(&self) -> Mesh<'_> {
        Mesh::new(self.points.all(), self.cells.all())
    }

    pub fn difference(&self, other: &Self) -> Option<String> {
        first_difference([
            ("points", self.points.difference(&other.points)),
            ("cells", self.cells.difference(&other.cells)),
        ])
    }

    pub fn told(&self) -> String {
        let hex: Vec<String> = self
            .points
            .all()
            .iter()
            .map(|x| format!("{x:08x}"))
            .collect();
        format!(
            "{}, {}",
            shown("points", &hex),
            shown("cells", self.cells.all())
        )
    }
}

#[derive(Clone)]
pub struct RepresentativesCall {
    pub input: Input,
    pub crossing: Lent<u8>,
    pub numbers: Lent<u32>,
    pub centroids: Lent<u32>,
    pub work: Lent<u32>,
}

impl Call for RepresentativesCall {
    type Outcome = Answer;

    fn step(&self) -> &'static str {
        "representatives"
    }

    fn library(&mut self) -> Answer {
        unsafe {
            sf_representatives(
                self.input.points.start().cast(),
                self.input.points.len(),
                self.input.cells.start(),
                self.input.cells.len(),
                self.crossing.start(),
                self.crossing.len(),
                self.numbers.start_mut(),
                self.numbers.len(),
                self.centroids.start_mut().cast(),
                self.centroids.len(),
                self.work.start_mut(),
                self.work.len(),
            )
        }
    }

    fn expected(&mut self) -> Answer {
        representatives(
            self.input.mesh(),
            self.crossing.all(),
            self.numbers.all_mut(),
            self.centroids.all_mut(),
            self.work.all_mut(),
        )
    }

    fn table_difference(&self, other: &Self) -> Option<String> {
        first_difference([
            ("input", self.input.difference(&other.input)),
            ("crossing", self.crossing.difference(&other.crossing)),
            ("numbers", self.numbers.difference(&other.numbers)),
            ("centroids", self.centroids.difference(&other.centroids)),
            ("work", self.work.difference(&other.work)),
        ])
    }

    fn told(&self) -> String {
        format!(
            "{}, {}; numbers, centroids, work of {}, {}, {}",
            self.input.told(),
            shown("crossing", self.crossing.all()),
            self.numbers.len(),
            self.centroids.len(),
            self.work.len()
        )
    }
}

/// Cover, or Crust where there is no probe table.
#[derive(Clone)]
pub struct KeepCall {
    pub c: f32,
    pub input: Input,
    pub crossing: Lent<u8>,
    pub probe: Option<Lent<u8>>,
    pub kept_points: Lent<u32>,
    pub kept_cells: Lent<u32>,
    pub work: Lent<u32>,
}

impl KeepCall {
    fn cover(&mut self, probe: *const u8, probe_len: usize) -> Answer {
        unsafe {
            sf_keep_cover(
                self.c,
                self.input.points.start().cast(),
                self.input.points.len(),
                self.input.cells.start(),
                self.input.cells.len(),
                self.crossing.start(),
                self.crossing.len(),
                probe,
                probe_len,
                self.kept_points.start_mut().cast(),
                self.kept_points.len(),
                self.kept_cells.start_mut(),
                self.kept_cells.len(),
                self.work.start_mut(),
                self.work.len(),
            )
        }
    }

    fn crust(&mut self) -> Answer {
        unsafe {
            sf_keep_crust(
                self.c,
                self.input.points.start().cast(),
                self.input.points.len(),
                self.input.cells.start(),
                self.input.cells.len(),
                self.crossing.start(),
                self.crossing.len(),
                self.kept_points.start_mut().cast(),
                self.kept_points.len(),
                self.kept_cells.start_mut(),
                self.kept_cells.len(),
                self.work.start_mut(),
                self.work.len(),
            )
        }
    }
}

impl Call for KeepCall {
    type Outcome = Answer;

    fn step(&self) -> &'static str {
        match self.probe {
            Some(_) => "keep_cover",
            None => "keep_crust",
        }
    }

    fn library(&mut self) -> Answer {
        match self
            .probe
            .as_ref()
            .map(|probe| (probe.start(), probe.len()))
        {
            Some((probe, len)) => self.cover(probe, len),
            None => self.crust(),
        }
    }

    fn expected(&mut self) -> Answer {
        keep(
            self.c,
            self.input.mesh(),
            self.crossing.all(),
            self.probe.as_ref().map(|probe| probe.all()),
            self.kept_points.all_mut(),
            self.kept_cells.all_mut(),
            self.work.all_mut(),
        )
    }

    fn table_difference(&self, other: &Self) -> Option<String> {
        let probes = self.probe.as_ref().zip(other.probe.as_ref());
        first_difference([
            ("input", self.input.difference(&other.input)),
            ("crossing", self.crossing.difference(&other.crossing)),
            ("probe", probes.and_then(|(a, b)| a.difference(b))),
            (
                "kept points",
                self.kept_points.difference(&other.kept_points),
            ),
            ("kept cells", self.kept_cells.difference(&other.kept_cells)),
            ("work", self.work.difference(&other.work)),
        ])
    }

    fn told(&self) -> String {
        let probe = self.probe.as_ref().map_or(&[][..], |probe| probe.all());
        format!(
            "c {:08x}, {}, {}, {}; kept points, kept cells, work of {}, {}, {}",
            self.c.to_bits(),
            self.input.told(),
            shown("crossing", self.crossing.all()),
            shown("probe", probe),
            self.kept_points.len(),
            self.kept_cells.len(),
            self.work.len()
        )
    }
}

/// What joins cells.
#[derive(Copy, Clone, PartialEq, Eq)]
pub enum Joined {
    ByVertices,
    ByFaces,
}

#[derive(Clone)]
pub struct ComponentsCall {
    pub joined: Joined,
    pub input: Input,
    pub numbers: Lent<u32>,
    pub work: Lent<u32>,
}

impl Call for ComponentsCall {
    type Outcome = Answer;

    fn step(&self) -> &'static str {
        match self.joined {
            Joined::ByVertices => "components",
            Joined::ByFaces => "face_components",
        }
    }

    fn library(&mut self) -> Answer {
        let function = match self.joined {
            Joined::ByVertices => sf_components,
            Joined::ByFaces => sf_face_components,
        };
        unsafe {
            function(
                self.input.points.start().cast(),
                self.input.points.len(),
                self.input.cells.start(),
                self.input.cells.len(),
                self.numbers.start_mut(),
                self.numbers.len(),
                self.work.start_mut(),
                self.work.len(),
            )
        }
    }

    fn expected(&mut self) -> Answer {
        let model = match self.joined {
            Joined::ByVertices => components,
            Joined::ByFaces => face_components,
        };
        model(
            self.input.mesh(),
            self.numbers.all_mut(),
            self.work.all_mut(),
        )
    }

    fn table_difference(&self, other: &Self) -> Option<String> {
        first_difference([
            ("input", self.input.difference(&other.input)),
            ("numbers", self.numbers.difference(&other.numbers)),
            ("work", self.work.difference(&other.work)),
        ])
    }

    fn told(&self) -> String {
        let lengths = (self.numbers.len(), self.work.len());
        format!("{}; numbers, work of {lengths:?}", self.input.told())
    }
}

#[derive(Clone)]
pub struct OnePieceCall {
    pub input: Input,
    pub work: Lent<u32>,
}

impl Call for OnePieceCall {
    type Outcome = Answer;

    fn step(&self) -> &'static str {
        "one_piece"
    }

    fn library(&mut self) -> Answer {
        unsafe {
            sf_one_piece(
                self.input.points.start().cast(),
                self.input.points.len(),
                self.input.cells.start(),
                self.input.cells.len(),
                self.work.start_mut(),
                self.work.len(),
            )
        }
    }

    fn expected(&mut self) -> Answer {
        one_piece(self.input.mesh(), self.work.all_mut())
    }

    fn table_difference(&self, other: &Self) -> Option<String> {
        first_difference([
            ("input", self.input.difference(&other.input)),
            ("work", self.work.difference(&other.work)),
        ])
    }

    fn told(&self) -> String {
        format!("{}; work of {}", self.input.told(), self.work.len())
    }
}
