//! Calls of the writers and readers.

use super::meshes::Input;
use super::{first_difference, shown, Call};
use crate::expected::mesh::Mesh;
use crate::expected::{mesh_file, vtk};
use crate::lent::{Lent, Table};
use crate::library::{sf_read_mesh, sf_read_vtk, sf_write_mesh, sf_write_vtk, Answer};

#[derive(Copy, Clone, PartialEq, Eq, Debug)]
pub enum Format {
    Mesh,
    Vtk,
}

impl Format {
    pub fn encode(self, mesh: Mesh) -> Vec<u8> {
        match self {
            Format::Mesh => mesh_file::encode(mesh),
            Format::Vtk => vtk::encode(mesh),
        }
    }

    pub fn writer(self) -> &'static str {
        match self {
            Format::Mesh => "write_mesh",
            Format::Vtk => "write_vtk",
        }
    }

    pub fn reader(self) -> &'static str {
        match self {
            Format::Mesh => "read_mesh",
            Format::Vtk => "read_vtk",
        }
    }
}

#[derive(Clone)]
pub struct WriteCall {
    pub format: Format,
    pub input: Input,
    pub file: Lent<u8>,
    pub work: Lent<u32>,
}

impl Call for WriteCall {
    type Outcome = Answer;

    fn step(&self) -> &'static str {
        self.format.writer()
    }

    fn library(&mut self) -> Answer {
        let function = match self.format {
            Format::Mesh => sf_write_mesh,
            Format::Vtk => sf_write_vtk,
        };
        unsafe {
            function(
                self.input.points.start().cast(),
                self.input.points.len(),
                self.input.cells.start(),
                self.input.cells.len(),
                self.file.start_mut(),
                self.file.len(),
                self.work.start_mut(),
                self.work.len(),
            )
        }
    }

    fn expected(&mut self) -> Answer {
        let function = match self.format {
            Format::Mesh => mesh_file::write_mesh,
            Format::Vtk => vtk::write_vtk,
        };
        function(self.input.mesh(), self.file.all_mut(), self.work.all_mut())
    }

    fn table_difference(&self, other: &Self) -> Option<String> {
        first_difference([
            ("input", self.input.difference(&other.input)),
            ("file", self.file.difference(&other.file)),
            ("work", self.work.difference(&other.work)),
        ])
    }

    fn told(&self) -> String {
        let lengths = (self.file.len(), self.work.len());
        format!("{}; file, work of {lengths:?}", self.input.told())
    }
}

#[derive(Clone)]
pub struct ReadCall {
    pub format: Format,
    pub file: Lent<u8>,
    pub points: Lent<u32>,
    pub cells: Lent<u32>,
    pub work: Lent<u32>,
}

impl Call for ReadCall {
    type Outcome = Answer;

    fn step(&self) -> &'static str {
        self.format.reader()
    }

    fn library(&mut self) -> Answer {
        let function = match self.format {
            Format::Mesh => sf_read_mesh,
            Format::Vtk => sf_read_vtk,
        };
        unsafe {
            function(
                self.file.start(),
                self.file.len(),
                self.points.start_mut().cast(),
                self.points.len(),
                self.cells.start_mut(),
                self.cells.len(),
                self.work.start_mut(),
                self.work.len(),
            )
        }
    }

    fn expected(&mut self) -> Answer {
        let function = match self.format {
            Format::Mesh => mesh_file::read_mesh,
            Format::Vtk => vtk::read_vtk,
        };
        function(
            self.file.all(),
            self.points.all_mut(),
            self.cells.all_mut(),
            self.work.all_mut(),
        )
    }

    fn table_difference(&self, other: &Self) -> Option<String> {
        first_difference([
            ("file", self.file.difference(&other.file)),
            ("points", self.points.difference(&other.points)),
            ("cells", self.cells.difference(&other.cells)),
            ("work", self.work.difference(&other.work)),
        ])
    }

    fn told(&self) -> String {
        let lengths = (self.points.len(), self.cells.len(), self.work.len());
        format!(
            "{}; points, cells, work of {lengths:?}",
            shown("file", self.file.all())
        )
    }
}
